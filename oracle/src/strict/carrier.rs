//! One command at a time.

use std::sync::Arc;

use arm_vgic::{Delivered, GITS_CBASER, GITS_CTLR, GITS_CWRITER};

use crate::command::{discard, sync, unmapc, unmapd};
use crate::fields::{Fields, MAPC, MAPD, Words, bytes_of};
use crate::unit::Unit;
use crate::window::Window;

/// A unit that carries out one command at a time, in a ring of one page.
pub struct Carrier {
    pub unit: Unit,
    window: Arc<Window>,
    writer: u64,
}

impl Carrier {
    const RING: u64 = 0x1000;

    pub fn of(unit: impl Fn(Arc<Window>) -> Unit) -> Self {
        let window: Arc<Window> = Arc::default();
        let mut unit = unit(window.clone());
        unit.write(GITS_CBASER, 8, Self::RING);
        unit.write(GITS_CTLR, 4, 1);
        Self {
            unit,
            window,
            writer: 0,
        }
    }

    /// The actions of a command, or its refusal and opcode.
    pub fn carry_out(&mut self, words: &Words) -> Result<Vec<Delivered>, (u8, u8)> {
        let address = Self::RING + self.writer;
        self.writer = (self.writer + 32) % 0x1000;
        self.window.replace(address, &bytes_of(&[*words]));
        let written = self.unit.write(GITS_CWRITER, 8, self.writer);
        match written.told {
            0 => return Ok(written.actions),
            9 => self.take_back(&Fields::of(words)),
            _ => {
                // A SYNC in its place, so that the ring goes on.
                self.window.replace(address, &bytes_of(&[sync(0)]));
                self.unit.write(GITS_CTLR, 4, 1);
            }
        }
        Err((written.told, written.opcode))
    }

    /// Behind a 9: the Rust has no bound and stored what finds no room. Nothing was
    /// mapped under that device, collection or pair, so the command that drops it
    /// leaves all as it was.
    fn take_back(&mut self, fields: &Fields) {
        let drops = match fields.opcode {
            MAPD => unmapd(fields.device),
            MAPC => unmapc(fields.collection),
            _ => discard(fields.device, fields.event),
        };
        let dropped = self.carry_out(&drops);
        dropped.expect("the Rust drops what it stored");
    }
}
