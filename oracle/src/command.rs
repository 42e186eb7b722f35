//! The words of each command, made from its fields.

use crate::fields::{CLEAR, DISCARD, INT, INV, INVALL, MAPC, MAPD, MAPI, MAPTI, MOVI, SYNC, Words};

/// Bit 63 of w2.
pub const VALID: u64 = 1 << 63;

fn first(opcode: u8, device: u32) -> u64 {
    u64::from(opcode) | u64::from(device) << 32
}

/// Maps a device with 1 to 32 event bits.
pub fn mapd(device: u32, bits: u8) -> Words {
    [first(MAPD, device), u64::from(bits) - 1, VALID, 0]
}

pub fn unmapd(device: u32) -> Words {
    [first(MAPD, device), 0, 0, 0]
}

pub fn mapc(collection: u16, processor: u16) -> Words {
    let target = u64::from(processor) << 16;
    [first(MAPC, 0), 0, VALID | target | u64::from(collection), 0]
}

pub fn unmapc(collection: u16) -> Words {
    [first(MAPC, 0), 0, u64::from(collection), 0]
}

pub fn mapti(device: u32, event: u32, lpi: u32, collection: u16) -> Words {
    [
        first(MAPTI, device),
        u64::from(event) | u64::from(lpi) << 32,
        u64::from(collection),
        0,
    ]
}

pub fn mapi(device: u32, event: u32, collection: u16) -> Words {
    of_pair(MAPI, device, event, collection)
}

pub fn movi(device: u32, event: u32, collection: u16) -> Words {
    of_pair(MOVI, device, event, collection)
}

pub fn int(device: u32, event: u32) -> Words {
    of_pair(INT, device, event, 0)
}

pub fn clear(device: u32, event: u32) -> Words {
    of_pair(CLEAR, device, event, 0)
}

pub fn discard(device: u32, event: u32) -> Words {
    of_pair(DISCARD, device, event, 0)
}

pub fn inv(device: u32, event: u32) -> Words {
    of_pair(INV, device, event, 0)
}

pub fn invall(collection: u16) -> Words {
    [first(INVALL, 0), 0, u64::from(collection), 0]
}

/// A SYNC names a processor that nothing looks at.
pub fn sync(processor: u16) -> Words {
    [first(SYNC, 0), 0, u64::from(processor) << 16, 0]
}

/// A command of any opcode that names a pair and a collection.
pub fn of_pair(opcode: u8, device: u32, event: u32, collection: u16) -> Words {
    [
        first(opcode, device),
        u64::from(event),
        u64::from(collection),
        0,
    ]
}
