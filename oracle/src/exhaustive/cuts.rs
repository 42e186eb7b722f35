//! Records cut at every byte, and marks with every byte changed.

use super::Named;
use crate::draft::Draft;
use crate::record::{LONGEST_WINDOW, Record};

pub fn traces() -> impl Iterator<Item = Named> {
    cut().chain(marks()).chain(lengths())
}

/// One record of each kind after the example's.
fn kinds() -> Vec<Draft> {
    let mut drafts = vec![Draft::default(); 5];
    drafts[0].cf(65_535, 64, 65_536, &[0, 1, 2]);
    drafts[1].commands(0x1000, &[[5, 0, 0, 0]]);
    drafts[2].rd(0x80, 8);
    drafts[3].wr(0x80, 8, 0x1000);
    drafts[4].tr(5, 9);
    drafts
}

fn cut() -> impl Iterator<Item = Named> {
    kinds().into_iter().enumerate().flat_map(|(kind, draft)| {
        (0..=draft.0.len()).map(move |length| {
            let mut trace = Draft::example(65_536).0;
            trace.extend(&draft.0[..length]);
            (format!("cut-{kind}-{length}"), trace)
        })
    })
}

fn marks() -> impl Iterator<Item = Named> {
    kinds().into_iter().enumerate().flat_map(|(kind, draft)| {
        (0..2 * 255).map(move |change| {
            let mut trace = Draft::example(65_536).0;
            let at = trace.len() + change % 2;
            trace.extend(&draft.0);
            trace[at] ^= (change / 2 + 1) as u8;
            // So that a mark that means another record is not always short.
            trace.extend([0; 24]);
            (format!("mark-{kind}-{change}"), trace)
        })
    })
}

/// Windows up to the longest and beyond, with their bytes and without.
fn lengths() -> impl Iterator<Item = Named> {
    (LONGEST_WINDOW - 1..=LONGEST_WINDOW + 1).flat_map(|length| {
        [0, 1, length - 1, length].into_iter().map(move |there| {
            let mut draft = Draft::default();
            let bytes = vec![5; length];
            draft.cf(65_535, 64, 65_536, &[0]).record(&Record::Gm {
                address: 0x1000,
                bytes,
            });
            draft.0.truncate(draft.0.len() - length + there);
            (format!("length-{length}-{there}"), draft.0)
        })
    })
}
