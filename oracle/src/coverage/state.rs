//! What the counts need to know of a unit before and after a record.

use crate::answers::Answer;
use crate::record::{Configuration, Record};
use crate::unit::Unit;

/// The state after a record, as the Rust's registers show it.
#[derive(Clone, Debug, Default)]
pub struct State {
    pub configuration: Option<Configuration>,
    pub enabled: bool,
    pub cbaser: u64,
    pub reader: u64,
    pub writer: u64,
    pub window_start: u64,
    pub window_length: u64,
}

impl State {
    pub fn after(&self, record: &Record, unit: Option<&Unit>) -> Self {
        let mut after = self.clone();
        if let Record::Gm { address, bytes } = record {
            after.window_start = *address;
            after.window_length = bytes.len() as u64;
        }
        let Some(unit) = unit else {
            return Self {
                window_start: after.window_start,
                window_length: after.window_length,
                ..Self::default()
            };
        };
        if let Record::Cf(configuration) = record {
            after.configuration = Some(configuration.clone());
        }
        let register = |offset, width| unit.read(offset, width).expect("a register reads");
        after.enabled = register(0x0, 4) & 1 == 1;
        after.cbaser = register(0x80, 8);
        after.writer = register(0x88, 8);
        after.reader = register(0x90, 8);
        after
    }

    pub fn base(&self) -> u64 {
        self.cbaser & 0x000f_ffff_ffff_f000
    }

    pub fn pages(&self) -> u64 {
        (self.cbaser & 0xff) + 1
    }

    /// The commands that wait.
    pub fn waiting(&self) -> u64 {
        let size = self.pages() << 12;
        (self.writer + size - self.reader) % size / 32
    }
}

/// One record, its answer, and the states around it.
pub struct Seen<'a> {
    pub record: &'a Record,
    pub answer: &'a Answer,
    pub before: &'a State,
    pub after: &'a State,
}
