//! The few numbers that one trace uses, so that its commands meet.

use super::random::Random;
use crate::record::{Configuration, STRICT};

const DEVICES: [u32; 7] = [0, 1, 5, 31, 0xffff, 0x1_0000, u32::MAX];
const COLLECTIONS: [u16; 6] = [0, 1, 2, 31, 0x8000, u16::MAX];
const BITS: [u8; 8] = [1, 2, 4, 5, 14, 16, 31, 32];
const EVENTS: [u32; 14] = [
    0,
    1,
    2,
    3,
    9,
    15,
    16,
    31,
    0xffff,
    0x1_0000,
    0x7fff_ffff,
    0x8000_0000,
    0xffff_fffe,
    u32::MAX,
];
const LIMITS: [u32; 6] = [8_192, 8_193, 8_200, 9_000, 65_535, 16_777_215];
const BUDGETS: [u32; 6] = [1, 2, 8, 64, 100, 1_024];

#[derive(Clone, Debug)]
pub struct Keys {
    pub devices: Vec<u32>,
    pub events: Vec<u32>,
    pub collections: Vec<u16>,
    pub bits: Vec<u8>,
    /// In range, and for a MAPI also small enough to be an event.
    pub lpis: Vec<u32>,
    pub unlisted: u16,
}

impl Keys {
    pub fn choose(random: &mut Random, configuration: &Configuration) -> Self {
        let limit = configuration.limit;
        let mut events = some(random, &EVENTS, 5);
        let mut lpis = vec![8_192, limit, 8_192 + (limit - 8_192) / 2];
        lpis.push(8_192 + random.below((limit - 8_191) as usize) as u32);
        events.extend(&lpis);
        let start = random.pick(&[0, 1, 0x8000]);
        let unlisted = (0..=u16::MAX)
            .map(|step| step.wrapping_add(start))
            .find(|number| !configuration.processors.contains(number));
        let mut devices = some(random, &DEVICES, 3);
        if configuration.profile == STRICT {
            // Those that are too large are for commands that should be refused.
            devices.iter_mut().for_each(|device| *device &= 0xffff);
        }
        Self {
            devices,
            events,
            collections: some(random, &COLLECTIONS, 3),
            bits: some(random, &BITS, 4),
            lpis,
            unlisted: unlisted.expect("at most 16 processors are listed"),
        }
    }
}

/// So many of the values, some perhaps twice.
fn some<T: Copy>(random: &mut Random, from: &[T], count: usize) -> Vec<T> {
    (0..count).map(|_| random.pick(from)).collect()
}

/// A configuration within 01's sizes.
pub fn configuration(random: &mut Random, profile: u8) -> Configuration {
    let count = random.pick(&[1, 2, 2, 4, 4, 16]);
    let first = random.pick(&[0u16, 0, 0, 1, 7, 0xfff0]);
    let step = if first == 0 && count > 1 {
        random.pick(&[1u16, 1, 3, 0x1000])
    } else {
        1
    };
    Configuration {
        limit: random.pick(&LIMITS),
        budget: random.pick(&BUDGETS),
        frame: random.pick(&[65_536, 131_072]),
        profile,
        processors: (0..count)
            .map(|number: u16| first.wrapping_add(number.wrapping_mul(step)))
            .collect(),
    }
}
