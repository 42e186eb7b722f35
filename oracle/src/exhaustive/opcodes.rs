//! Every opcode on the example's unit, with every field meaning something.

use super::Named;
use crate::draft::{Draft, RING};

pub fn traces() -> impl Iterator<Item = Named> {
    (0..=u8::MAX).flat_map(|opcode| {
        [0, 1].into_iter().map(move |valid| {
            let name = format!("opcode-{opcode:02x}-valid-{valid}");
            let words = [
                0x5_0000_0000 | u64::from(opcode),
                // Event 9, and LPI 8201 for a MAPTI.
                0x2009_0000_0009,
                valid << 63 | 0x1_0002,
                0,
            ];
            let mut draft = Draft::example(65_536);
            draft
                .commands(RING + 96, &[words])
                .wr(0x88, 8, 128)
                .rd(0x90, 8)
                .tr(5, 9);
            (name, draft.0)
        })
    })
}
