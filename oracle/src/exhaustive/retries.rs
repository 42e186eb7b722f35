//! Retry and Stalled: every sequence of four steps over a small alphabet, and every
//! access of CWRITER and CREADR.
//!
//! In the ring an INT that is refused stands behind a SYNC; two commands may run in one
//! write. The steps begin on a unit that has run nothing, and on one that the INT has
//! stopped. A base unit refuses every Retry.

use super::Named;
use crate::command::{int, sync};
use crate::draft::{Draft, RING};
use crate::record::RETRY;

const CBASER: u64 = 0x80;
const CWRITER: u64 = 0x88;
const CREADR: u64 = 0x90;

/// The writer behind the INT, and one that more commands wait for than may run.
const BEHIND: u64 = 64;
const FAR: u64 = 160;

type Step = (&'static str, fn(&mut Draft));

const STEPS: [Step; 11] = [
    ("on", |draft| _ = draft.wr(0x0, 4, 1)),
    ("off", |draft| _ = draft.wr(0x0, 4, 0)),
    ("writer", |draft| _ = draft.wr(CWRITER, 8, BEHIND)),
    ("retry", |draft| _ = draft.wr(CWRITER, 8, BEHIND | RETRY)),
    ("far", |draft| _ = draft.wr(CWRITER, 8, FAR)),
    ("far-retry", |draft| _ = draft.wr(CWRITER, 8, FAR | RETRY)),
    ("refused", |draft| _ = draft.wr(CWRITER, 8, 0x1000 | RETRY)),
    ("high", |draft| _ = draft.wr(CWRITER + 4, 4, 1)),
    ("base", |draft| _ = draft.wr(CBASER, 8, 1 << 63 | RING)),
    ("zero", |draft| _ = draft.wr(CBASER, 8, 1 << 63)),
    ("mend", |draft| _ = draft.commands(RING, &[sync(0); 6])),
];

pub fn traces() -> impl Iterator<Item = Named> {
    sequences().chain(accesses())
}

/// A unit with its ring, enabled. It may have run into the INT.
fn start(stopped: bool) -> Draft {
    let mut ring = [sync(0); 6];
    ring[1] = int(5, 9);
    let mut draft = Draft::default();
    draft
        .cf(65_535, 2, 65_536, &[0, 1])
        .commands(RING, &ring)
        .wr(CBASER, 8, 1 << 63 | RING)
        .wr(0x0, 4, 1);
    if stopped {
        draft.wr(CWRITER, 8, BEHIND);
    }
    draft
}

/// What the steps can have changed.
fn look(draft: &mut Draft) {
    draft.rd(CREADR, 4).rd(CREADR + 4, 4).rd(CWRITER, 8);
}

fn sequences() -> impl Iterator<Item = Named> {
    let count = STEPS.len();
    [false, true].into_iter().flat_map(move |stopped| {
        (0..count.pow(4)).map(move |number| {
            let mut name = format!("retries-{}", if stopped { "stopped" } else { "running" });
            let mut draft = start(stopped);
            for place in 0..4 {
                let (step, make) = STEPS[number / count.pow(place) % count];
                name += &format!("-{step}");
                make(&mut draft);
                draft.rd(CREADR, 8);
            }
            look(&mut draft);
            (name, draft.0)
        })
    })
}

/// On the unit that the INT has stopped: bit 0 at every offset and width of the two
/// registers, mended before and after.
fn accesses() -> impl Iterator<Item = Named> {
    let values = [0x40, 0x41, 0x1_0000_0041, 0xffff_ffff_fff0_0041, u64::MAX];
    (CWRITER..CREADR + 8).flat_map(move |offset| {
        (0..10).flat_map(move |width| {
            values.into_iter().map(move |value| {
                let mut draft = start(true);
                draft.rd(offset, width).commands(RING, &[sync(0); 6]);
                draft.wr(offset, width, value).rd(offset, width);
                look(&mut draft);
                draft.wr(CWRITER, 8, BEHIND | RETRY).rd(CREADR, 8);
                (format!("retries-{offset:x}-{width}-{value:x}"), draft.0)
            })
        })
    })
}
