//! Traces by name, and a digest of their answers to compare two builds by.

use crate::answers::answers;
use crate::exhaustive::{self, Named};
use crate::generate::{strict_trace_for, trace_for};

/// The traces of the first seeds.
pub fn seeds(count: u64) -> impl Iterator<Item = Named> {
    (0..count).map(|seed| (format!("seed-{seed}"), trace_for(seed)))
}

/// The traces of the first seeds, from guests of strict units.
pub fn strict_seeds(count: u64) -> impl Iterator<Item = Named> {
    (0..count).map(|seed| (format!("strict-seed-{seed}"), strict_trace_for(seed)))
}

/// The trace of a seed's name or of an exhaustive trace's, `strict-` in front if its
/// units are strict.
pub fn trace_named(name: &str) -> Option<Vec<u8>> {
    if let Some(seed) = name.strip_prefix("seed-") {
        return seed.parse().ok().map(trace_for);
    }
    if let Some(seed) = name.strip_prefix("strict-seed-") {
        return seed.parse().ok().map(strict_trace_for);
    }
    exhaustive::traces()
        .chain(exhaustive::strict())
        .find(|(found, _)| found == name)
        .map(|(_, trace)| trace)
}

/// The name, and a digest of the lines.
pub fn digest_line(name: &str, trace: &[u8]) -> String {
    format!("{name} {:016x}\n", digest(&answers(trace).told))
}

/// FNV-1a over 64 bits.
fn digest(bytes: &[u8]) -> u64 {
    bytes.iter().fold(0xcbf2_9ce4_8422_2325, |hash, byte| {
        (hash ^ u64::from(*byte)).wrapping_mul(0x100_0000_01b3)
    })
}
