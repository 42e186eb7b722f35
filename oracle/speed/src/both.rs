//! One unit of each kind with the same history: the published Rust and the unit
//! that is lent as numbers.

use std::cell::UnsafeCell;
use std::hint::black_box;
use std::sync::Arc;

use arm_vgic::{AccessWidth, GicV3Config, GicV3Controller, GuestMemory, GuestMemoryError};
use its::command::{Command, mapc, mapd, mapti};
use its::{Action, CollectionId, DeviceId, EventId, Its, Lpi, Processor, Row, Settings, Window};

pub const LIMIT: u32 = 65_535;
pub const BUDGET: u32 = 1_024;
pub const FRAME: u32 = 65_536;
pub const CTLR: u64 = 0x00;
pub const CBASER: u64 = 0x80;
pub const CWRITER: u64 = 0x88;
/// The ring is one page, which a window of a trace can hold.
pub const QUEUE: u64 = 0x4_0000;
pub const RING: usize = 4_096;

/// The page with the ring, as the Rust's guest memory: bytes that nothing but
/// this program's one thread touches.
struct Memory(UnsafeCell<[u8; RING]>);

unsafe impl Sync for Memory {}
unsafe impl Send for Memory {}

impl GuestMemory for Memory {
    fn read(&self, address: u64, destination: &mut [u8]) -> Result<(), GuestMemoryError> {
        let outside = || GuestMemoryError::new("read", "not in the window");
        let start = address.checked_sub(QUEUE).ok_or_else(outside)? as usize;
        // One thread, and no reference is kept.
        let bytes = unsafe { &*self.0.get() };
        let end = start.checked_add(destination.len()).ok_or_else(outside)?;
        destination.copy_from_slice(bytes.get(start..end).ok_or_else(outside)?);
        Ok(())
    }
}

pub struct Both {
    pub its: Its,
    pub rust: GicV3Controller,
    row: Box<Row>,
    ring: [u8; RING],
    memory: Arc<Memory>,
    writer: usize,
}

/// The pair of this number: pairs go by turns to two devices and two collections.
pub fn pair(number: u32) -> (DeviceId, EventId) {
    (DeviceId(1 + number % 2), EventId(number / 2))
}

/// The commands that map so many pairs.
pub fn mapping(pairs: u32) -> Vec<Command> {
    let mut commands = vec![
        mapd(DeviceId(1), 8),
        mapd(DeviceId(2), 8),
        mapc(CollectionId(0), Processor(0)),
        mapc(CollectionId(1), Processor(1)),
    ];
    for number in 0..pairs {
        let (device, event) = pair(number);
        commands.push(mapti(
            device,
            event,
            Lpi(8_192 + number),
            CollectionId((number % 2) as u16),
        ));
    }
    commands
}

impl Both {
    /// Two units with so many pairs mapped, and a ring filled with these commands
    /// over and over.
    pub fn new(pairs: u32, over: &[Command]) -> Self {
        let memory = Arc::new(Memory(UnsafeCell::new([0; RING])));
        let config = GicV3Config::new(LIMIT, BUDGET as usize, u64::from(FRAME));
        let mut its = Its::new();
        let settings = Settings::new(LIMIT, BUDGET, FRAME);
        let configured = its.configure(&settings, &[Processor(0), Processor(1)]);
        configured.expect("within the sizes");
        let mut both = Self {
            its,
            rust: GicV3Controller::new(config, &[0, 1], memory.clone()),
            row: Box::new([Action::default(); 1024]),
            ring: [0; RING],
            memory,
            writer: 0,
        };
        both.write(CBASER, 8, QUEUE);
        both.write(CTLR, 4, 1);
        for commands in mapping(pairs).chunks(64) {
            both.run(commands);
        }
        both.back_to_start();
        both.fill(over);
        both
    }

    /// Both run these commands, from wherever the writer stands.
    pub fn run(&mut self, commands: &[Command]) {
        for (number, command) in commands.iter().enumerate() {
            let at = (self.writer + 32 * number) % RING;
            self.ring[at..at + 32].copy_from_slice(command);
        }
        self.show();
        self.advance(commands.len());
        self.port();
        self.published();
    }

    fn fill(&mut self, over: &[Command]) {
        for (place, command) in self.ring.chunks_exact_mut(32).zip(over.iter().cycle()) {
            place.copy_from_slice(command);
        }
        self.show();
    }

    /// The writer at the ring's start again, by a new ring at the same place.
    fn back_to_start(&mut self) {
        self.write(CTLR, 4, 0);
        self.write(CBASER, 8, QUEUE);
        self.write(CTLR, 4, 1);
        self.writer = 0;
    }

    fn show(&self) {
        // One thread, and no reference is kept.
        unsafe { *self.memory.0.get() = self.ring };
    }

    fn write(&mut self, offset: u64, width: u8, value: u64) {
        let window = Window {
            address: QUEUE,
            bytes: &self.ring,
        };
        let (_, port) = self
            .its
            .write(window, &mut self.row[..], offset, width, value);
        port.expect("taken");
        let width = if width == 8 {
            AccessWidth::Qword
        } else {
            AccessWidth::Dword
        };
        self.rust.write_its(offset, width, value).expect("taken");
    }

    /// The writer goes on by so many commands; they wait until both have run them.
    pub fn advance(&mut self, commands: usize) {
        self.writer = (self.writer + 32 * commands) % RING;
    }

    /// CWRITER written to the unit that is lent as numbers: commands and actions.
    pub fn port(&mut self) -> (u64, usize) {
        let window = Window {
            address: QUEUE,
            bytes: &self.ring,
        };
        let value = black_box(self.writer as u64);
        let (actions, written) = self.its.write(window, &mut self.row[..], CWRITER, 8, value);
        (written.expect("taken").done, actions.len())
    }

    /// CWRITER written to the Rust: the actions that it delivered.
    pub fn published(&mut self) -> usize {
        let value = black_box(self.writer as u64);
        let written = self.rust.write_its(CWRITER, AccessWidth::Qword, value);
        written.expect("taken");
        self.rust.take_delivered().len()
    }
}
