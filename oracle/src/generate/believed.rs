//! What the generator believes to be mapped.
//!
//! It only steers the choice of commands, so that most of a trace means
//! something. Were a belief wrong, a trace would be duller, never its answers.

use std::collections::BTreeMap;

use crate::fields::{
    CLEAR, DISCARD, Fields, INT, INV, INVALL, MAPC, MAPD, MAPI, MAPTI, MOVI, NAME_A_DEVICE, SYNC,
    Words,
};
use crate::record::{Configuration, STRICT};
use crate::tables::{COLLECTIONS, DEVICES, TRANSLATIONS};

#[derive(Clone, Debug, Default)]
pub struct Believed {
    pub devices: BTreeMap<u32, u8>,
    pub collections: BTreeMap<u16, u16>,
    pub pairs: BTreeMap<(u32, u32), u16>,
}

#[derive(Clone, Copy, Debug, Eq, PartialEq)]
pub enum Expected {
    Accepted,
    Refused,
    Full,
}

impl Believed {
    /// Carries the command out if it should be accepted.
    pub fn carry_out(&mut self, words: &Words, configuration: &Configuration) -> Expected {
        let fields = Fields::of(words);
        let strict = configuration.profile == STRICT;
        let names_one = NAME_A_DEVICE.contains(&fields.opcode);
        let too_large = strict && names_one && fields.device > 0xffff;
        if too_large || !self.accepts(&fields, configuration) {
            return Expected::Refused;
        }
        if self.full(&fields) {
            return Expected::Full;
        }
        if strict && fields.opcode == MAPD {
            self.drop_pairs_of(fields.device);
        }
        self.apply(&fields);
        Expected::Accepted
    }

    fn accepts(&self, fields: &Fields, configuration: &Configuration) -> bool {
        let pair = self.pairs.contains_key(&(fields.device, fields.event));
        let collection = self.collections.contains_key(&fields.collection);
        match fields.opcode {
            MAPD | SYNC => true,
            MAPC => !fields.valid || configuration.processors.contains(&fields.processor),
            MAPTI => self.maps(fields, fields.lpi, configuration.limit),
            MAPI => self.maps(fields, fields.event, configuration.limit),
            MOVI => collection && pair,
            INT | CLEAR | DISCARD | INV => pair,
            INVALL => collection,
            _ => false,
        }
    }

    fn maps(&self, fields: &Fields, lpi: u32, limit: u32) -> bool {
        (8_192..=limit).contains(&lpi)
            && self
                .devices
                .get(&fields.device)
                .is_some_and(|bits| below(fields.event, *bits))
            && self.collections.contains_key(&fields.collection)
    }

    fn full(&self, fields: &Fields) -> bool {
        match fields.opcode {
            MAPD if fields.valid => {
                self.devices.len() == DEVICES && !self.devices.contains_key(&fields.device)
            }
            MAPC if fields.valid => {
                self.collections.len() == COLLECTIONS
                    && !self.collections.contains_key(&fields.collection)
            }
            MAPTI | MAPI => {
                self.pairs.len() == TRANSLATIONS
                    && !self.pairs.contains_key(&(fields.device, fields.event))
            }
            _ => false,
        }
    }

    fn drop_pairs_of(&mut self, device: u32) {
        self.pairs.retain(|(other, _), _| *other != device);
    }

    fn apply(&mut self, fields: &Fields) {
        let pair = (fields.device, fields.event);
        match fields.opcode {
            MAPD if fields.valid => {
                self.devices.insert(fields.device, fields.bits);
            }
            MAPD => {
                self.devices.remove(&fields.device);
                self.drop_pairs_of(fields.device);
            }
            MAPC if fields.valid => {
                self.collections.insert(fields.collection, fields.processor);
            }
            MAPC => {
                self.collections.remove(&fields.collection);
                self.pairs
                    .retain(|_, collection| *collection != fields.collection);
            }
            MAPTI | MAPI | MOVI => {
                self.pairs.insert(pair, fields.collection);
            }
            DISCARD => {
                self.pairs.remove(&pair);
            }
            _ => {}
        }
    }
}

/// Whether the event is below 2 to the power of the bits.
pub fn below(event: u32, bits: u8) -> bool {
    bits >= 32 || event < 1 << bits
}
