//! How full the port's fixed tables would be.
//!
//! The Rust keeps its mappings in maps without a bound, so a 9 cannot come from
//! it. This is the set of keys that the accepted commands leave mapped; which
//! commands are accepted is the Rust's decision and never made here.

use std::collections::{BTreeMap, BTreeSet};

use crate::fields::{DISCARD, Fields, MAPC, MAPD, MAPI, MAPTI, MOVI};

pub const DEVICES: usize = 32;
pub const COLLECTIONS: usize = 32;
pub const TRANSLATIONS: usize = 256;

#[derive(Clone, Copy, Debug, Eq, Ord, PartialEq, PartialOrd)]
pub enum Table {
    Devices,
    Collections,
    Translations,
}

impl Table {
    /// The table in which this command, if accepted, stores a record.
    pub fn stored_by(fields: &Fields) -> Option<Self> {
        match fields.opcode {
            MAPD if fields.valid => Some(Self::Devices),
            MAPC if fields.valid => Some(Self::Collections),
            MAPTI | MAPI | MOVI => Some(Self::Translations),
            _ => None,
        }
    }
}

#[derive(Clone, Debug, Default)]
pub struct Tables {
    /// The mapped devices and their event bits.
    devices: BTreeMap<u32, u8>,
    collections: BTreeSet<u16>,
    translations: BTreeMap<(u32, u32), u16>,
}

impl Tables {
    /// Follows one accepted command. If it needs a new record and its table is
    /// full, the tables stay as they are and the full table is named.
    pub fn follow(&mut self, fields: &Fields) -> Result<(), Table> {
        let pair = (fields.device, fields.event);
        match fields.opcode {
            MAPD if fields.valid => {
                let new = !self.has_device(fields.device);
                if new && self.devices.len() == DEVICES {
                    return Err(Table::Devices);
                }
                self.devices.insert(fields.device, fields.bits);
            }
            MAPD => {
                self.devices.remove(&fields.device);
                self.translations
                    .retain(|(device, _), _| *device != fields.device);
            }
            MAPC if fields.valid => {
                let new = !self.collections.contains(&fields.collection);
                if new && self.collections.len() == COLLECTIONS {
                    return Err(Table::Collections);
                }
                self.collections.insert(fields.collection);
            }
            MAPC => {
                self.collections.remove(&fields.collection);
                self.translations
                    .retain(|_, collection| *collection != fields.collection);
            }
            MAPTI | MAPI => {
                let new = !self.translations.contains_key(&pair);
                if new && self.translations.len() == TRANSLATIONS {
                    return Err(Table::Translations);
                }
                self.translations.insert(pair, fields.collection);
            }
            MOVI => {
                self.translations.insert(pair, fields.collection);
            }
            DISCARD => {
                self.translations.remove(&pair);
            }
            _ => {}
        }
        Ok(())
    }

    pub fn has_device(&self, device: u32) -> bool {
        self.devices.contains_key(&device)
    }

    /// Whether an event lies beyond the bits of its device, if that is mapped.
    pub fn beyond_bits(&self, device: u32, event: u32) -> bool {
        let bits = self.devices.get(&device);
        bits.is_some_and(|bits| *bits < 32 && event >> bits != 0)
    }

    pub fn has_collection(&self, collection: u16) -> bool {
        self.collections.contains(&collection)
    }

    /// The collection of a pair, if the pair has a record.
    pub fn collection_of(&self, device: u32, event: u32) -> Option<u16> {
        self.translations.get(&(device, event)).copied()
    }

    /// The records in use of a table.
    pub fn used(&self, table: Table) -> usize {
        match table {
            Table::Devices => self.devices.len(),
            Table::Collections => self.collections.len(),
            Table::Translations => self.translations.len(),
        }
    }
}
