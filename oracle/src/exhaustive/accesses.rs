//! Every offset from 0 to 0x1FF, and those around the edges, at widths 0 to 9.

use super::Named;
use crate::draft::Draft;

const REGISTERS: [u64; 5] = [0x80, 0x88, 0x90, 0x100, 0x138];
const FRAMES: [u32; 2] = [65_536, 131_072];
const EDGES: [u64; 7] = [0xffd0, 0x1_0000, 0x1_ffd0, 0x2_0000, 1 << 32, 1 << 63, 0];

/// On the example's unit, enabled or not; each write is followed by a look at
/// the registers that it could have changed.
pub fn low_offsets() -> impl Iterator<Item = Named> {
    let values = [0xfedc_ba98_7654_3210, 0x20];
    (0..0x200).flat_map(move |offset| {
        [0, 1].into_iter().flat_map(move |enable| {
            values.into_iter().map(move |value| {
                let name = format!("offset-{offset:03x}-enabled-{enable}-value-{value:x}");
                (name, low_offset(offset, enable, value))
            })
        })
    })
}

fn low_offset(offset: u64, enable: u64, value: u64) -> Vec<u8> {
    let mut draft = Draft::example(FRAMES[0]);
    draft.wr(0x0, 4, enable);
    for width in 0..10 {
        draft.rd(offset, width).wr(offset, width, value);
        draft.rd(0x0, 4).rd(offset & !7, 8);
    }
    for register in REGISTERS {
        draft.rd(register, 8);
    }
    draft.tr(5, 9);
    draft.0
}

/// Around the identification registers, the end of either frame, and the ends
/// of 32, 63 and 64 bits.
pub fn edges() -> impl Iterator<Item = Named> {
    FRAMES.into_iter().flat_map(|frame| {
        EDGES.into_iter().map(move |edge| {
            let name = format!("edge-{edge:x}-frame-{frame}");
            let mut draft = Draft::example(frame);
            for step in 0..20u64 {
                let offset = edge.wrapping_add(step).wrapping_sub(9);
                for width in 0..10 {
                    draft.rd(offset, width).wr(offset, width, u64::MAX);
                }
            }
            (name, draft.0)
        })
    })
}
