//! Choosing a command that should be accepted.

use super::believed::below;
use super::guest::Guest;
use crate::command::{
    clear, discard, int, inv, invall, mapc, mapd, mapi, mapti, movi, sync, unmapc, unmapd,
};
use crate::fields::Words;

impl Guest {
    /// A command that should be accepted if it came next.
    pub fn good(&mut self) -> Words {
        let wish = self.random.below(24);
        let words = self.wished(wish).unwrap_or_else(|| self.groundwork());
        self.noisy(words)
    }

    fn wished(&mut self, wish: usize) -> Option<Words> {
        Some(match wish {
            0 => self.groundwork(),
            1..=6 => self.new_pair()?,
            7 => self.new_pair_by_event()?,
            8 | 9 => {
                let ((device, event), collection) = (self.some_pair()?, self.some_collection()?);
                movi(device, event, collection)
            }
            10..=14 => {
                let (device, event) = self.some_pair()?;
                int(device, event)
            }
            15 => {
                let (device, event) = self.some_pair()?;
                clear(device, event)
            }
            16 | 17 => {
                let (device, event) = self.some_pair()?;
                discard(device, event)
            }
            18 => {
                let (device, event) = self.some_pair()?;
                inv(device, event)
            }
            19 => invall(self.some_collection()?),
            20 => sync(self.some_processor()),
            21 => {
                let device = self.some_device()?;
                mapd(device, self.random.pick(&self.keys.bits))
            }
            22 if self.random.once_in(2) => unmapd(self.random.pick(&self.keys.devices)),
            23 if self.random.once_in(2) => unmapc(self.random.pick(&self.keys.collections)),
            _ => return None,
        })
    }

    /// A MAPD or MAPC, on which the other commands stand.
    fn groundwork(&mut self) -> Words {
        if self.random.once_in(2) {
            mapd(
                self.random.pick(&self.keys.devices),
                self.random.pick(&self.keys.bits),
            )
        } else {
            mapc(
                self.random.pick(&self.keys.collections),
                self.some_processor(),
            )
        }
    }

    pub fn new_pair(&mut self) -> Option<Words> {
        let (device, events) = self.events_within_bits()?;
        let event = self.random.pick(&events);
        let lpi = self.random.pick(&self.keys.lpis);
        Some(mapti(device, event, lpi, self.some_collection()?))
    }

    pub fn new_pair_by_event(&mut self) -> Option<Words> {
        let (device, mut events) = self.events_within_bits()?;
        let lpis = 8_192..=self.configuration.limit;
        events.retain(|event| lpis.contains(event));
        if events.is_empty() {
            return None;
        }
        let event = self.random.pick(&events);
        Some(mapi(device, event, self.some_collection()?))
    }

    fn events_within_bits(&mut self) -> Option<(u32, Vec<u32>)> {
        let device = self.some_device()?;
        let bits = self.believed.devices[&device];
        let mut events = self.keys.events.clone();
        events.retain(|event| below(*event, bits));
        if events.is_empty() {
            events.push(0);
        }
        Some((device, events))
    }
}
