//! Picking numbers: mapped ones, unmapped ones, and noise.

use super::guest::Guest;
use crate::fields::{MAPTI, Words};

impl Guest {
    pub fn some_device(&mut self) -> Option<u32> {
        let mapped: Vec<u32> = self.believed.devices.keys().copied().collect();
        (!mapped.is_empty()).then(|| self.random.pick(&mapped))
    }

    pub fn some_collection(&mut self) -> Option<u16> {
        let mapped: Vec<u16> = self.believed.collections.keys().copied().collect();
        (!mapped.is_empty()).then(|| self.random.pick(&mapped))
    }

    pub fn some_pair(&mut self) -> Option<(u32, u32)> {
        let mapped: Vec<(u32, u32)> = self.believed.pairs.keys().copied().collect();
        (!mapped.is_empty()).then(|| self.random.pick(&mapped))
    }

    pub fn some_processor(&mut self) -> u16 {
        self.random.pick(&self.configuration.processors)
    }

    /// A pair of the trace's keys: mapped, or not.
    pub fn any_pair(&mut self) -> (u32, u32) {
        match self.some_pair() {
            Some(pair) if !self.random.once_in(4) => pair,
            _ => (
                self.random.pick(&self.keys.devices),
                self.random.pick(&self.keys.events),
            ),
        }
    }

    pub fn unmapped_pair(&mut self) -> (u32, u32) {
        let device = self.random.pick(&self.keys.devices);
        let unmapped = |event: &u32| !self.believed.pairs.contains_key(&(device, *event));
        let event = self.keys.events.iter().copied().find(unmapped);
        (device, event.unwrap_or(77))
    }

    pub fn unmapped_device(&mut self) -> u32 {
        let unmapped = |device: &u32| !self.believed.devices.contains_key(device);
        let device = self.keys.devices.iter().copied().find(unmapped);
        device.unwrap_or(1_000)
    }

    pub fn unmapped_collection(&mut self) -> u16 {
        let unmapped = |collection: &u16| !self.believed.collections.contains_key(collection);
        let collection = self.keys.collections.iter().copied().find(unmapped);
        collection.unwrap_or(1_000)
    }

    /// Now and then the bits that no command has a field in are set.
    pub fn noisy(&mut self, words: Words) -> Words {
        if !self.random.once_in(6) {
            return words;
        }
        let noise = self.random.number();
        let in_w1 = if words[0] as u8 == MAPTI {
            0
        } else {
            noise << 32
        };
        [
            words[0] | (noise & 0xffff_ff00),
            words[1] | in_w1,
            words[2] | (noise >> 1) & 0x7fff_ffff_0000_0000,
            noise,
        ]
    }
}
