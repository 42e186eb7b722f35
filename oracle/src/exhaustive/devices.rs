//! Every opcode with devices up to 65535 and above. Of one of those above, the low
//! 16 bits are the example's device.

use super::Named;
use crate::draft::{Draft, RING};

const DEVICES: [u64; 5] = [0xfffe, 0xffff, 0x1_0000, 0x1_0005, 0xffff_ffff];

pub fn traces() -> impl Iterator<Item = Named> {
    (0..=u8::MAX).flat_map(|opcode| {
        DEVICES.into_iter().flat_map(move |device| {
            [0, 1].into_iter().map(move |valid| {
                let name = format!("device-{device}-opcode-{opcode:02x}-valid-{valid}");
                (name, trace(opcode, device, valid))
            })
        })
    })
}

/// The device and its event 9 are mapped before, if they can be. Then the command
/// alone, in a ring of its own: in the first it may wait behind a refused one.
fn trace(opcode: u8, device: u64, valid: u64) -> Vec<u8> {
    let words = [
        device << 32 | u64::from(opcode),
        // Event 9, and LPI 8201 for a MAPTI.
        0x2009_0000_0009,
        valid << 63 | 0x1_0002,
        0,
    ];
    let before = [
        [device << 32 | 8, 3, 1 << 63, 0],
        [device << 32 | 0xa, 0x2008_0000_0009, 2, 0],
    ];
    let mut draft = Draft::example(65_536);
    draft
        .commands(RING + 96, &[before[0], before[1], words])
        .wr(0x88, 8, 192)
        .rd(0x90, 8)
        .tr(device as u32, 9)
        .wr(0x0, 4, 0)
        .wr(0x80, 8, 1 << 63 | RING)
        .commands(RING, &[words])
        .wr(0x88, 8, 32)
        .wr(0x0, 4, 1)
        .tr(device as u32, 9)
        .tr(5, 9);
    draft.0
}
