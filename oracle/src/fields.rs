//! The fields of a command's four words, where 01 puts them.

/// The four words of a command.
pub type Words = [u64; 4];

pub const BYTES_OF_A_COMMAND: usize = 32;

pub const MOVI: u8 = 0x01;
pub const INT: u8 = 0x03;
pub const CLEAR: u8 = 0x04;
pub const SYNC: u8 = 0x05;
pub const MAPD: u8 = 0x08;
pub const MAPC: u8 = 0x09;
pub const MAPTI: u8 = 0x0a;
pub const MAPI: u8 = 0x0b;
pub const INV: u8 = 0x0c;
pub const INVALL: u8 = 0x0d;
pub const DISCARD: u8 = 0x0f;

/// The opcodes that name a device. Of the others, bits 63:32 of w0 mean nothing.
pub const NAME_A_DEVICE: [u8; 8] = [MAPD, MAPTI, MAPI, MOVI, INT, CLEAR, DISCARD, INV];

#[derive(Clone, Copy, Debug, Eq, PartialEq)]
pub struct Fields {
    pub opcode: u8,
    pub device: u32,
    pub event: u32,
    /// The LPI of a MAPTI; that of a MAPI is its event.
    pub lpi: u32,
    pub bits: u8,
    pub collection: u16,
    pub processor: u16,
    pub valid: bool,
}

impl Fields {
    pub fn of(words: &Words) -> Self {
        Self {
            opcode: words[0] as u8,
            device: (words[0] >> 32) as u32,
            event: words[1] as u32,
            lpi: (words[1] >> 32) as u32,
            bits: (words[1] & 0x1f) as u8 + 1,
            collection: words[2] as u16,
            processor: (words[2] >> 16) as u16,
            valid: words[2] >> 63 == 1,
        }
    }

    /// The LPI that a MAPTI or a MAPI names.
    pub fn named_lpi(&self) -> u32 {
        match self.opcode {
            MAPI => self.event,
            _ => self.lpi,
        }
    }
}

/// The words of 32 bytes, little-endian.
pub fn words_of(bytes: &[u8; BYTES_OF_A_COMMAND]) -> Words {
    let (chunks, _) = bytes.as_chunks::<8>();
    std::array::from_fn(|word| u64::from_le_bytes(chunks[word]))
}

/// The bytes of a run of commands, little-endian.
pub fn bytes_of(commands: &[Words]) -> Vec<u8> {
    commands
        .iter()
        .flatten()
        .flat_map(|word| word.to_le_bytes())
        .collect()
}
