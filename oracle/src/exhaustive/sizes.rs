//! Each size of a configuration at its limits and one beyond, and its profile.

use super::Named;
use crate::draft::Draft;
use crate::record::{BASE, Configuration, Record, STRICT};

pub fn traces() -> impl Iterator<Item = Named> {
    let usual = Configuration {
        limit: 65_535,
        budget: 64,
        frame: 65_536,
        profile: BASE,
        processors: vec![0, 1],
    };
    let mut configurations = Vec::new();
    let mut tried = |name: String, change: &dyn Fn(&mut Configuration)| {
        let mut configuration = usual.clone();
        change(&mut configuration);
        configurations.push((name, configuration));
    };
    for limit in limits() {
        tried(format!("limit-{limit}"), &|given| given.limit = limit);
    }
    for budget in [0, 1, 2, 1_023, 1_024, 1_025, u32::MAX] {
        tried(format!("budget-{budget}"), &|given| given.budget = budget);
    }
    for frame in frames() {
        tried(format!("frame-{frame}"), &|given| given.frame = frame);
    }
    for (name, processors) in processors() {
        tried(name, &|given| given.processors.clone_from(&processors));
    }
    for profile in [0, 1, 2, 3, 0x7f, 0x80, 0x81, u8::MAX] {
        tried(format!("profile-{profile}"), &|given| {
            given.profile = profile
        });
    }
    // A strict unit has the same sizes.
    tried("profile-1-budget-0".into(), &|given| {
        given.profile = STRICT;
        given.budget = 0;
    });
    configurations.into_iter().map(|(name, configuration)| {
        let mut draft = Draft::default();
        draft.record(&Record::Cf(configuration));
        draft.rd(0x8, 8).wr(0x88, 8, 0).tr(0, 0);
        (format!("size-{name}"), draft.0)
    })
}

/// The limits, and around each power of two the value of TYPER changes.
fn limits() -> Vec<u32> {
    let mut limits = vec![0, 8_191, 8_192, 16_777_215, 16_777_216, u32::MAX];
    for bits in 14..24 {
        limits.extend([(1 << bits) - 1, 1 << bits]);
    }
    limits
}

fn frames() -> [u32; 9] {
    [
        0,
        1,
        65_535,
        65_536,
        65_537,
        131_071,
        131_072,
        131_073,
        u32::MAX,
    ]
}

/// Counts 0, 1, 16 and 17, and one number twice at every two places.
fn processors() -> Vec<(String, Vec<u16>)> {
    let mut lists: Vec<(String, Vec<u16>)> = [0, 1, 15, 16, 17, 255]
        .map(|count| (format!("processors-{count}"), (0..count).collect()))
        .to_vec();
    lists.push(("processor-65535".into(), vec![u16::MAX]));
    for second in 1..16 {
        for first in 0..second {
            let mut numbers: Vec<u16> = (100..116).collect();
            numbers[second] = numbers[first];
            lists.push((format!("twice-{first}-{second}"), numbers));
        }
    }
    lists
}
