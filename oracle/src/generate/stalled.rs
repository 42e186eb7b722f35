//! What a guest does about a unit that stands still: Retry, and what only looks like it.

use super::guest::{CBASER, CREADR, CTLR, CWRITER, Guest, Stop};
use crate::fields::BYTES_OF_A_COMMAND;
use crate::record::RETRY;

impl Guest {
    /// Asks a strict unit to go on: by Retry, and now and then by a write that a
    /// stalled one does not go on with.
    pub fn retry_in_strict(&mut self) -> Stop {
        let writer = self.ring.writer;
        match self.random.below(12) {
            0 => self.enable(),
            1 => {
                self.disable();
                self.enable()
            }
            2 => self.write_writer_as(writer, false),
            3 => self.write_high_half(),
            4 => {
                self.refused_retry();
                self.run()
            }
            5 => {
                self.disable();
                self.write_writer_as(writer, true);
                self.enable()
            }
            _ => self.write_writer_as(writer, true),
        }
    }

    /// The high half of CWRITER with any value: its bit 0 is no Retry.
    pub fn write_high_half(&mut self) -> Stop {
        let value = self.random.number();
        self.write(CWRITER + 4, 4, value);
        self.run()
    }

    /// Retry with an offset that is refused: no multiple of 32, or beyond the ring.
    pub fn refused_retry(&mut self) {
        let size = (self.ring.places.len() * BYTES_OF_A_COMMAND) as u64;
        let writer = (self.ring.writer * BYTES_OF_A_COMMAND) as u64;
        // A ring of 256 pages has nothing beyond it: bits above 19 are not taken.
        let beyond = if size < 0x10_0000 { size } else { 16 };
        let offset = self
            .random
            .pick(&[beyond, beyond, writer | 2, writer | 16, 0x1e]);
        let width = self.random.pick(&[8, 8, 4]);
        self.write(CWRITER, width, offset | RETRY);
    }

    /// CREADR, where Stalled is shown at two widths and not in the high half.
    pub fn look_at_the_reader(&mut self) {
        let widths = [(CREADR, 8), (CREADR, 4), (CREADR, 4), (CREADR + 4, 4)];
        let (offset, width) = self.random.pick(&widths);
        self.read(offset, width);
    }

    /// A CBASER that is ignored, since the unit is enabled, or refused with base zero.
    pub fn base_that_is_not_stored(&mut self) {
        if !self.enabled {
            self.write(CBASER, 8, 0x8000_0000_0000_00ff);
            return;
        }
        let value = self.random.pick(&[0, 0x8000_0000_4000_0000, u64::MAX]);
        let (offset, width) = self
            .random
            .pick(&[(CBASER, 8), (CBASER, 4), (CBASER + 4, 4)]);
        self.write(offset, width, value);
    }

    /// Off and on, or on once more: a base unit runs what waits, and a stalled one not.
    pub fn toggle(&mut self) -> Stop {
        if self.random.once_in(2) {
            self.disable();
            self.read(CTLR, 4);
        }
        self.enable()
    }
}
