//! Registers by name.

use super::numbers::number;

pub struct Register {
    pub name: &'static str,
    pub offset: u64,
    /// 4, or 8 for a register with two halves.
    pub bytes: u64,
}

const fn register(name: &'static str, offset: u64, bytes: u64) -> Register {
    Register {
        name,
        offset,
        bytes,
    }
}

pub const CWRITER: u64 = 0x88;

pub const REGISTERS: [Register; 14] = [
    register("ctlr", 0x0, 4),
    register("iidr", 0x4, 4),
    register("typer", 0x8, 8),
    register("cbaser", 0x80, 8),
    register("cwriter", CWRITER, 8),
    register("creadr", 0x90, 8),
    register("baser0", 0x100, 8),
    register("baser1", 0x108, 8),
    register("baser2", 0x110, 8),
    register("baser3", 0x118, 8),
    register("baser4", 0x120, 8),
    register("baser5", 0x128, 8),
    register("baser6", 0x130, 8),
    register("baser7", 0x138, 8),
];

/// The offset that a name, `name+n` or a number means.
pub fn offset_of(word: &str) -> Result<u64, String> {
    let (name, beyond) = match word.split_once('+') {
        Some((name, beyond)) => (name, number(beyond)?),
        None => (word, 0u64),
    };
    let start = match REGISTERS.iter().find(|register| register.name == name) {
        Some(register) => register.offset,
        None if name.starts_with(|first: char| first.is_ascii_digit()) => number(name)?,
        None => return Err(format!("no register is named `{name}`")),
    };
    start
        .checked_add(beyond)
        .ok_or_else(|| format!("`{word}` is more than 64 bits"))
}

/// The name of a register or of its high half, else the number.
pub fn show_offset(offset: u64) -> String {
    for register in &REGISTERS {
        if offset == register.offset {
            return register.name.into();
        }
        if register.bytes == 8 && offset == register.offset + 4 {
            return format!("{}+4", register.name);
        }
    }
    format!("{offset:#x}")
}
