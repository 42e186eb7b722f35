//! A host with one unit, and the queue of its guest.

use its::command::Command;
use its::{Action, Its, Lpi, Processor, Profile, Settings, Window, WriteRefused, Written};

pub const CTLR: u64 = 0x00;
pub const CBASER: u64 = 0x80;
pub const CWRITER: u64 = 0x88;
pub const CREADR: u64 = 0x90;
pub const QUEUE: u64 = 0x4_0000;
/// Bit 63 of CBASER, without which a strict unit runs nothing.
pub const VALID: u64 = 1 << 63;

pub const SETTINGS: Settings = Settings::new(65_535, 64, 65_536);
pub const PROCESSORS: [Processor; 2] = [Processor(0), Processor(3)];

/// An action as its host delivers it: made pending, or taken back.
pub type Delivered = (Lpi, Processor, bool);
pub type Answer = (Vec<Delivered>, Result<Written, WriteRefused>);

pub struct Host {
    pub its: Its,
    pub queue: Vec<u8>,
}

impl Host {
    /// An enabled unit with an empty queue.
    pub fn new(profile: Profile) -> Self {
        let mut its = Its::new();
        its.configure(&SETTINGS.profile(profile), &PROCESSORS)
            .unwrap();
        let mut host = Self {
            its,
            queue: Vec::new(),
        };
        host.write(CBASER, 8, VALID | QUEUE).1.unwrap();
        host.write(CTLR, 4, 1).1.unwrap();
        host
    }

    /// A write with an empty row: what is delivered after it, and its answer. The
    /// row's other records stay empty.
    pub fn write(&mut self, offset: u64, width: u8, value: u64) -> Answer {
        let mut row = [Action::default(); 64];
        let window = Window {
            address: QUEUE,
            bytes: &self.queue,
        };
        let (actions, answer) = self.its.write(window, &mut row, offset, width, value);
        let parts = |action: &Action| (action.lpi(), action.processor(), action.pending());
        let delivered: Vec<Delivered> = actions.iter().map(parts).collect();
        let count = answer.map_or_else(|refused| refused.actions, |written| written.actions);
        assert_eq!(delivered.len(), count);
        assert!(
            row[count..]
                .iter()
                .all(|action| *action == Action::default())
        );
        (delivered, answer)
    }

    pub fn run(&mut self, commands: &[Command]) -> Answer {
        self.queue.extend(commands.iter().flatten());
        self.write(CWRITER, 8, self.queue.len() as u64)
    }
}
