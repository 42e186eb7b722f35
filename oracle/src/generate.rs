//! Traces from a seed: the same seed gives the same trace everywhere.
//!
//! Nothing here asks the Rust, so that two builds of it get equal traces.

mod bad;
mod base;
mod believed;
mod driver;
mod families;
mod good;
mod guest;
mod keys;
mod picks;
pub mod random;
mod ring;
mod stalled;

use crate::record::{BASE, STRICT};
use families::{FAMILIES, Family, RETRIES};
use random::Random;

/// Seeds go round this many places in the list of families.
pub const PLACES: u64 = FAMILIES.len() as u64;
/// The last of so many rounds is one of retries only. The rounds before it are as they
/// were without that family, and so are the recorded seeds in them.
const ROUNDS: u64 = 8;
/// The first seed of retries.
pub const FIRST_OF_RETRIES: u64 = (ROUNDS - 1) * PLACES;

/// The trace of a seed.
pub fn trace_for(seed: u64) -> Vec<u8> {
    with_profile(seed, BASE)
}

/// The trace of a seed, from a guest of strict units.
pub fn strict_trace_for(seed: u64) -> Vec<u8> {
    with_profile(seed, STRICT)
}

fn with_profile(seed: u64, profile: u8) -> Vec<u8> {
    family(seed)(Random::new(seed), profile)
}

fn family(seed: u64) -> Family {
    if seed / PLACES % ROUNDS == ROUNDS - 1 {
        RETRIES
    } else {
        FAMILIES[(seed % PLACES) as usize]
    }
}
