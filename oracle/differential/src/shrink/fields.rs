//! The numbers of a record, by their place in it.

use oracle::fields::BYTES_OF_A_COMMAND;
use oracle::record::Record;

use super::sync;

/// A number of a record that can be made smaller.
pub enum Number<'a> {
    Word(&'a mut u64),
    Half(&'a mut u32),
    Short(&'a mut u16),
    Byte(&'a mut u8),
    Bytes(&'a mut [u8; 8]),
}

impl Number<'_> {
    pub fn get(&self) -> u64 {
        match self {
            Number::Word(word) => **word,
            Number::Half(half) => u64::from(**half),
            Number::Short(short) => u64::from(**short),
            Number::Byte(byte) => u64::from(**byte),
            Number::Bytes(bytes) => u64::from_le_bytes(**bytes),
        }
    }

    /// Stores a number that is smaller than the present one.
    pub fn set(self, value: u64) {
        match self {
            Number::Word(word) => *word = value,
            Number::Half(half) => *half = value as u32,
            Number::Short(short) => *short = value as u16,
            Number::Byte(byte) => *byte = value as u8,
            Number::Bytes(bytes) => *bytes = value.to_le_bytes(),
        }
    }
}

/// The numbers of a record by their place. Those of a command that is a SYNC
/// already are left out of sight.
pub fn number(record: &mut Record, field: usize) -> Option<Number<'_>> {
    match record {
        Record::Cf(configuration) => match field {
            0 => Some(Number::Half(&mut configuration.limit)),
            1 => Some(Number::Half(&mut configuration.budget)),
            2 => Some(Number::Half(&mut configuration.frame)),
            3 => Some(Number::Byte(&mut configuration.profile)),
            _ => configuration
                .processors
                .get_mut(field - 4)
                .map(Number::Short),
        },
        Record::Gm { address, bytes } => match field.checked_sub(1) {
            None => Some(Number::Word(address)),
            Some(word) => {
                let commands = bytes.chunks_mut(BYTES_OF_A_COMMAND);
                let plain = commands.filter(|command| **command != *sync());
                let mut words = plain.flat_map(|command| command.as_chunks_mut::<8>().0);
                words.nth(word).map(Number::Bytes)
            }
        },
        Record::Rd { offset, width } => match field {
            0 => Some(Number::Word(offset)),
            1 => Some(Number::Byte(width)),
            _ => None,
        },
        Record::Wr {
            offset,
            width,
            value,
        } => match field {
            0 => Some(Number::Word(value)),
            1 => Some(Number::Word(offset)),
            2 => Some(Number::Byte(width)),
            _ => None,
        },
        Record::Tr { device, event } => match field {
            0 => Some(Number::Half(device)),
            1 => Some(Number::Half(event)),
            _ => None,
        },
    }
}
