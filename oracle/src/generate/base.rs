//! Giving a unit its ring.

use super::guest::{CBASER, Guest};
use super::ring::Ring;

const BASES: [u64; 6] = [
    0x1000,
    0x4000_0000,
    0xffff_f000,
    0x1_0000_0000,
    0x0000_8000_1234_5000,
    // The last page below 2^52: the ring's second page lies beyond.
    0x000f_ffff_ffff_f000,
];

impl Guest {
    /// Gives a disabled unit a ring, most often a valid one.
    pub fn set_ring(&mut self, base: u64, pages: usize) {
        let beside = self.random.number();
        let valid = !self.random.once_in(4);
        self.give_ring(base, pages, valid, beside);
    }

    /// Gives a disabled unit a ring, whole or by halves, with any bits beside it.
    pub fn give_ring(&mut self, base: u64, pages: usize, valid: bool, beside: u64) {
        let beside = beside & 0x7ff0_0000_0000_0f00;
        let value = base | (pages as u64 - 1) | beside | u64::from(valid) << 63;
        match self.random.below(4) {
            0 => {
                self.write(CBASER, 4, value | 0xabcd_0000_0000_0000);
                self.write(CBASER + 4, 4, value >> 32);
            }
            1 => {
                self.write(CBASER + 4, 4, value >> 32);
                self.write(CBASER, 4, value);
            }
            _ => self.write(CBASER, 8, value),
        }
        // By halves bit 63 can get lost: with base zero the first one is refused.
        self.ring = Ring::new(base, pages, self.cbaser >> 63 == 1);
        self.stalled = None;
    }

    pub fn some_base(&mut self) -> u64 {
        self.random.pick(&BASES)
    }
}

/// What CBASER should hold after a write to a disabled unit.
pub fn base_after(cbaser: u64, offset: u64, width: u8, value: u64) -> u64 {
    const LOW: u64 = 0xffff_ffff;
    const HIGH_HALF: u64 = CBASER + 4;
    let merged = match (offset, width) {
        (CBASER, 8) => value,
        (CBASER, 4) => cbaser & !LOW | value & LOW,
        (HIGH_HALF, 4) => cbaser & LOW | value << 32,
        _ => return cbaser,
    };
    if merged & 0x000f_ffff_ffff_f000 == 0 {
        cbaser
    } else {
        merged
    }
}
