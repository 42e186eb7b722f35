//! The guest window, lent to the Rust as its guest memory.

use std::sync::{Mutex, MutexGuard};

use arm_vgic::{GuestMemory, GuestMemoryError};

use crate::fields::{BYTES_OF_A_COMMAND, Words, words_of};

/// At first empty, at address 0. The lock is there because the Rust's guest
/// memory is shared; nothing contends for it.
#[derive(Default)]
pub struct Window(Mutex<Lent>);

#[derive(Default)]
struct Lent {
    address: u64,
    bytes: Vec<u8>,
    commands: Vec<Words>,
}

impl Window {
    pub fn replace(&self, address: u64, bytes: &[u8]) {
        let mut lent = self.lent();
        lent.address = address;
        lent.bytes.clear();
        lent.bytes.extend_from_slice(bytes);
    }

    /// The commands that the Rust has read since the last call, in order.
    pub fn take_commands(&self) -> Vec<Words> {
        std::mem::take(&mut self.lent().commands)
    }

    fn lent(&self) -> MutexGuard<'_, Lent> {
        self.0.lock().expect("no reader of the window panics")
    }
}

impl Lent {
    /// The bytes at a guest address, exactly if all of them lie in the window
    /// and no address wraps.
    fn at(&self, address: u64, length: usize) -> Option<&[u8]> {
        address.checked_add(length as u64)?;
        let start = usize::try_from(address.checked_sub(self.address)?).ok()?;
        self.bytes.get(start..start.checked_add(length)?)
    }
}

impl GuestMemory for Window {
    fn read(&self, address: u64, destination: &mut [u8]) -> Result<(), GuestMemoryError> {
        let mut lent = self.lent();
        let bytes = lent
            .at(address, destination.len())
            .ok_or_else(|| GuestMemoryError::new("read", "not in the window"))?;
        destination.copy_from_slice(bytes);
        let command: &[u8; BYTES_OF_A_COMMAND] = (&*destination)
            .try_into()
            .expect("the ITS reads whole commands");
        lent.commands.push(words_of(command));
        Ok(())
    }
}
