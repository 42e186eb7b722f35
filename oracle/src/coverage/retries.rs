//! What follows a run that stopped: the same refusal again, or it goes on. By
//! the Rust's kinds of error: 7 stands for every check of a command.
//!
//! And CWRITER with Retry, which only strict units have: the Rust refuses each such
//! write, and goes on as if it had not been. (What strict units do with it is counted
//! in `strict::Met`.)

use super::Part;
use super::counts::Counts;
use super::state::Seen;
use crate::answers::Answer;
use crate::record::{RETRY, Record};
use crate::unit::Written;

/// The row of CWRITER writes with Retry.
const REFUSED: &str = "Retry in base, refused";
/// Beside what stopped the run before.
const COLUMNS: [&str; 6] = [
    "before CBASER",
    "with a ring",
    "beyond the ring",
    "while disabled",
    "by the low half",
    "and then on",
];

#[derive(Default)]
pub struct Retries {
    stopped: Option<u8>,
    /// Retry was refused since.
    refused: bool,
}

impl Part for Retries {
    fn rows(&self) -> Vec<(String, Vec<String>)> {
        let mut rows = Vec::new();
        for by in ["CTLR", "CWRITER", "CWRITER+4"] {
            let mut columns = Vec::new();
            for refusal in 5..=8 {
                columns.push(again(refusal));
                // A high half leaves the writer as far off as it was.
                if (by, refusal) != ("CWRITER+4", 5) {
                    columns.push(goes_on(refusal));
                }
            }
            rows.push((format!("retry by {by}"), columns));
        }
        let mut columns = COLUMNS.map(String::from).to_vec();
        columns.extend((5..=8).map(after));
        rows.push((REFUSED.into(), columns));
        rows
    }

    fn begin(&mut self) {
        *self = Self::default();
    }

    fn see(&mut self, seen: &Seen<'_>, counts: &mut Counts) {
        match (seen.record, seen.answer) {
            (Record::Cf(_), _) => self.begin(),
            (
                Record::Wr {
                    offset,
                    width,
                    value,
                },
                Answer::Wr(written),
            ) => {
                let retry = *offset == 0x88 && value & RETRY != 0;
                if retry && !matches!(written.refusal, 1 | 2) {
                    self.with_retry(seen, *width, written, counts);
                }
                self.written(seen, *offset, written, counts);
            }
            _ => {}
        }
    }
}

impl Retries {
    fn with_retry(&mut self, seen: &Seen<'_>, width: u8, written: &Written, counts: &mut Counts) {
        assert_eq!(written.refusal, 7, "a base unit refuses bit 0 of CWRITER");
        let ring = seen.before.cbaser != 0;
        let beyond = ring && written.offset >= seen.before.pages() << 12;
        for (holds, column) in [
            (!ring, "before CBASER"),
            (ring, "with a ring"),
            (beyond, "beyond the ring"),
            (!seen.before.enabled, "while disabled"),
            (width == 4, "by the low half"),
        ] {
            if holds {
                counts.add(REFUSED, column);
            }
        }
        if let Some(refusal) = self.stopped {
            counts.add(REFUSED, &after(refusal));
            self.refused = true;
        }
    }

    fn written(&mut self, seen: &Seen<'_>, offset: u64, written: &Written, counts: &mut Counts) {
        if matches!(offset, 0x80 | 0x84) && seen.after.waiting() == 0 {
            *self = Self::default();
        }
        let by = match offset {
            0x0 => "CTLR",
            0x88 => "CWRITER",
            0x8c => "CWRITER+4",
            _ => return,
        };
        let runs = seen.after.enabled && !matches!(written.refusal, 1 | 2);
        let refused_writer = written.refusal == 7 && written.commands.is_empty();
        if !runs || refused_writer {
            return;
        }
        if let Some(refusal) = self.stopped {
            let row = format!("retry by {by}");
            if written.done > 0 {
                counts.add(&row, &goes_on(refusal));
                if std::mem::take(&mut self.refused) {
                    counts.add(REFUSED, "and then on");
                }
            } else if written.refusal == refusal {
                counts.add(&row, &again(refusal));
            }
        }
        self.stopped = matches!(written.refusal, 5..=8).then_some(written.refusal);
        self.refused &= self.stopped.is_some();
    }
}

fn again(refusal: u8) -> String {
    format!("{refusal} again")
}

fn goes_on(refusal: u8) -> String {
    format!("on after {refusal}")
}

fn after(refusal: u8) -> String {
    format!("after {refusal}")
}
