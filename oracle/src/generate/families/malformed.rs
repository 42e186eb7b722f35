//! A good trace, then bytes that are none.

use super::{configurations, ordinary, registers};
use crate::generate::random::Random;
use crate::record::{LONGEST_WINDOW, Record, Records};

pub fn trace(mut random: Random, profile: u8) -> Vec<u8> {
    let family = random.pick(&[ordinary::trace, registers::trace, configurations::trace]);
    let inner = Random::new(random.number());
    let trace = family(inner, profile);
    match random.below(4) {
        0 => cut(random, trace),
        1 => bad_mark(random, trace),
        2 => long_window(random, trace),
        _ => one_byte_changed(random, trace),
    }
}

/// Cut anywhere: in a mark, in a record, or between two.
fn cut(mut random: Random, mut trace: Vec<u8>) -> Vec<u8> {
    let length = random.below(trace.len() + 1);
    trace.truncate(length);
    trace
}

fn bad_mark(mut random: Random, mut trace: Vec<u8>) -> Vec<u8> {
    const MARKS: [&[u8]; 8] = [
        b"XX",
        b"cf",
        b"RW",
        b"R",
        b"\0\0",
        b"DR",
        b"GN\x10",
        b"TR\0\0\0",
    ];
    let mut good = Vec::new();
    let keep = random.below(Records::of(&trace).count() + 1);
    for record in Records::of(&trace).take(keep) {
        record.expect("a well-formed trace").encode(&mut good);
    }
    let rest = trace.split_off(good.len());
    good.extend(random.pick(&MARKS));
    good.extend(rest);
    good
}

fn long_window(mut random: Random, mut trace: Vec<u8>) -> Vec<u8> {
    let length = LONGEST_WINDOW + random.pick(&[1, 2, 32]);
    let bytes = vec![5; length];
    let address = 0x4000_0000;
    Record::Gm { address, bytes }.encode(&mut trace);
    if random.once_in(2) {
        // A length far beyond, and no bytes behind it.
        trace.truncate(trace.len() - length - 4);
        trace.extend(random.pick(&[4_097u32, 1 << 31, u32::MAX]).to_le_bytes());
    }
    trace
}

fn one_byte_changed(mut random: Random, mut trace: Vec<u8>) -> Vec<u8> {
    let at = random.below(trace.len());
    trace[at] ^= 1 << random.below(8);
    trace
}
