//! Damaged traces: cut, with bits turned over, spliced, with extreme bytes,
//! random, and long ones whose lines do not fit into any output.

use oracle::draft::Draft;
use oracle::generate::random::Random;
use oracle::generate::{strict_trace_for, trace_for};

/// The kinds of damage; a number goes round them.
pub const KINDS: [&str; 7] = [
    "cut",
    "bits turned over",
    "spliced",
    "extreme bytes",
    "random bytes",
    "random records",
    "longer than any output",
];

/// The kind of a number's trace.
pub fn kind(number: u64) -> usize {
    (number % KINDS.len() as u64) as usize
}

/// The damaged trace of a number; the same number gives the same bytes. Every
/// fourth of a kind was one of strict units.
pub fn damaged(number: u64) -> Vec<u8> {
    let trace_for = match number / KINDS.len() as u64 % 4 {
        3 => strict_trace_for,
        _ => trace_for,
    };
    let mut random = Random::new(number);
    let mut trace = trace_for(random.number());
    match kind(number) {
        0 => trace.truncate(random.below(trace.len() + 1)),
        1 => {
            for _ in 0..random.between(1, 8) {
                let at = random.below(trace.len());
                trace[at] ^= 1 << random.below(8);
            }
        }
        2 => {
            let other = trace_for(random.number());
            trace.truncate(random.below(trace.len() + 1));
            trace.extend(&other[random.below(other.len() + 1)..]);
        }
        3 => {
            for _ in 0..random.between(1, 6) {
                let from = random.below(trace.len());
                let to = trace.len().min(from + random.between(1, 9));
                trace[from..to].fill(random.pick(&[0x00, 0x01, 0x7f, 0x80, 0xff]));
            }
        }
        4 => {
            trace.clear();
            for _ in 0..random.below(400) {
                trace.push(random.number() as u8);
            }
        }
        5 => trace = random_records(&mut random),
        _ => trace = long(&mut random),
    }
    trace
}

/// Right marks with random bytes behind them, now and then too few.
fn random_records(random: &mut Random) -> Vec<u8> {
    let mut trace = Draft::example(65_536).0;
    for _ in 0..random.between(1, 60) {
        let (mark, bytes) = random.pick(&[(b"RD", 9), (b"WR", 17), (b"TR", 8), (b"CF", 14)]);
        trace.extend(mark);
        let bytes = if random.once_in(50) { bytes - 1 } else { bytes };
        for place in 0..bytes {
            // Most high bytes are zero, so that offsets lie in the frame.
            let small = random.once_in(2) || place % 8 >= 2;
            trace.push(if small {
                random.below(9) as u8
            } else {
                random.number() as u8
            });
        }
        if mark == b"CF" {
            let count = usize::from(*trace.last().expect("the count was pushed"));
            for _ in 0..2 * count {
                trace.push(random.number() as u8);
            }
        }
    }
    trace
}

/// Reads with long and short lines until they are over 65,536 bytes, so that
/// the cut falls at many places of a line.
fn long(random: &mut Random) -> Vec<u8> {
    let mut draft = Draft::example(65_536);
    let mut lines = 0;
    while lines < 66_000 {
        let line = match random.below(4) {
            0 => (draft.rd(0x0, 4), "RD 0 2147483649\n").1,
            1 => (draft.rd(0x10, 4), "RD 0 0\n").1,
            2 => (draft.tr(5, 9), "TR 0 8200 1\n").1,
            _ => (draft.rd(0x100, 8), "RD 0 74027918804992000\n").1,
        };
        lines += line.len();
    }
    draft.0.clone()
}
