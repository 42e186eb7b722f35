//! Choosing a command that should be refused.

use super::guest::Guest;
use crate::command::{clear, discard, int, inv, invall, mapc, mapi, mapti, movi, of_pair};
use crate::fields::Words;
use crate::record::STRICT;

impl Guest {
    /// A command that should be refused if it came next.
    pub fn bad(&mut self) -> Words {
        if self.configuration.profile == STRICT && self.random.once_in(4) {
            return self.of_a_large_device();
        }
        let (device, event) = self.unmapped_pair();
        let collection = self.random.pick(&self.keys.collections);
        let missing = self.unmapped_collection();
        let limit = self.configuration.limit;
        let mapped = self.some_pair();
        let words = match self.random.below(14) {
            0 => of_pair(self.unknown_opcode(), device, event, collection),
            1 => {
                let low = self.random.pick(&[0, 1, 8_191, 8_190]);
                self.pair_with_lpi(low, collection)
            }
            2 => {
                let high = self.random.pick(&[limit + 1, limit + 2, u32::MAX]);
                self.pair_with_lpi(high, collection)
            }
            3 => mapti(self.unmapped_device(), event, limit, collection),
            4 => mapi(self.unmapped_device(), 8_192, collection),
            5 => self.event_beyond_bits(),
            6 => {
                let by_event = self.random.once_in(2);
                let by_event = by_event.then(|| self.new_pair_by_event()).flatten();
                match by_event.or_else(|| self.new_pair()) {
                    Some(words) => [words[0], words[1], u64::from(missing), 0],
                    None => invall(missing),
                }
            }
            7 => match mapped {
                Some((device, event)) => movi(device, event, missing),
                None => movi(device, event, collection),
            },
            8 => match self.some_collection() {
                Some(collection) => movi(device, event, collection),
                None => movi(device, event, missing),
            },
            9 => int(device, event),
            10 => clear(device, event),
            11 => self.random.pick(&[discard, inv])(device, event),
            12 => invall(missing),
            _ => mapc(collection, self.keys.unlisted),
        };
        self.noisy(words)
    }

    /// A command that would be accepted or refused, but for a device above 65535
    /// where it has one.
    fn of_a_large_device(&mut self) -> Words {
        let mut words = self.good();
        if self.random.once_in(3) {
            words[0] = words[0] & !0xff | u64::from(self.unknown_opcode());
        }
        let device = self.random.pick(&[0x1_0000, 0x1_0001, 0x1_ffff, u32::MAX]);
        words[0] |= u64::from(device) << 32;
        words
    }

    fn pair_with_lpi(&mut self, lpi: u32, collection: u16) -> Words {
        let device = self.random.pick(&self.keys.devices);
        if self.random.once_in(2) {
            mapti(device, self.random.pick(&self.keys.events), lpi, collection)
        } else {
            mapi(device, lpi, collection)
        }
    }

    /// The first event beyond a small device's bits, or a far one.
    fn event_beyond_bits(&mut self) -> Words {
        let collection = self.some_collection().unwrap_or(0);
        let lpi = self.random.pick(&self.keys.lpis);
        let small = self.believed.devices.iter().find(|(_, bits)| **bits < 32);
        let Some((&device, &bits)) = small else {
            return mapti(self.unmapped_device(), 0, lpi, collection);
        };
        let first = 1u32 << bits;
        if first <= lpi && self.random.once_in(2) {
            return mapi(device, lpi, collection);
        }
        let event = self.random.pick(&[first, first, first + 1, u32::MAX]);
        mapti(device, event, lpi, collection)
    }

    fn unknown_opcode(&mut self) -> u8 {
        const NEAR: [u8; 8] = [0x00, 0x02, 0x06, 0x07, 0x0e, 0x10, 0x21, 0xff];
        if self.random.once_in(3) {
            self.random.number() as u8 | 0x10
        } else {
            self.random.pick(&NEAR)
        }
    }
}
