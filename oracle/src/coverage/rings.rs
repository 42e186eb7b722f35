//! The ring's registers, its wraps, the budget and the window.

use super::counts::Counts;
use super::state::Seen;
use super::{Part, rows};
use crate::answers::Answer;
use crate::record::Record;
use crate::unit::Written;

pub struct Rings;

impl Part for Rings {
    fn rows(&self) -> Vec<(String, Vec<String>)> {
        rows(&[
            (
                "CTLR write",
                &["enables", "disables", "enables again", "runs commands"],
            ),
            (
                "CBASER write",
                &[
                    "stored",
                    "stored, offsets reset",
                    "stored, bit 63 clear",
                    "stored by a half",
                    "256 pages",
                    "base zero",
                    "ignored while enabled",
                ],
            ),
            ("BASER write", &["stored", "ignored while enabled"]),
            (
                "CWRITER write",
                &[
                    "accepted",
                    "accepted, bits above 19 dropped",
                    "stored while disabled",
                    "zero before CBASER",
                    "refused before CBASER",
                    "not a multiple of 32",
                    "beyond the ring",
                    "high half with a ring",
                    "high half before CBASER",
                ],
            ),
            ("wrap", &["one page", "several pages"]),
            (
                "budget",
                &["of 1 filled", "filled", "exceeded by 1", "exceeded by more"],
            ),
            (
                "window",
                &[
                    "just the commands",
                    "more than the commands",
                    "first byte missing",
                    "last byte missing",
                    "empty",
                    "elsewhere",
                    "beyond 2^52",
                ],
            ),
        ])
    }

    fn see(&mut self, seen: &Seen<'_>, counts: &mut Counts) {
        let (
            Record::Wr {
                offset,
                width,
                value,
            },
            Answer::Wr(written),
        ) = (seen.record, seen.answer)
        else {
            return;
        };
        if matches!(written.refusal, 1..=3) {
            return;
        }
        match offset {
            0x0 => control(seen, written, counts),
            0x80 | 0x84 => base(seen, written, *width, counts),
            0x88 | 0x8c => writer(seen, written, *offset, *value, counts),
            0x100..0x140 if seen.before.enabled => {
                counts.add("BASER write", "ignored while enabled")
            }
            0x100..0x140 => counts.add("BASER write", "stored"),
            _ => {}
        }
        run(seen, written, counts);
    }
}

fn control(seen: &Seen<'_>, written: &Written, counts: &mut Counts) {
    let column = match (seen.before.enabled, seen.after.enabled) {
        (_, false) => "disables",
        (false, true) => "enables",
        (true, true) => "enables again",
    };
    counts.add("CTLR write", column);
    if written.done > 0 {
        counts.add("CTLR write", "runs commands");
    }
}

fn base(seen: &Seen<'_>, written: &Written, width: u8, counts: &mut Counts) {
    const ROW: &str = "CBASER write";
    if seen.before.enabled {
        counts.add(ROW, "ignored while enabled");
        return;
    }
    if written.refusal == 4 {
        counts.add(ROW, "base zero");
        return;
    }
    counts.add(ROW, "stored");
    if seen.before.reader != 0 || seen.before.writer != 0 {
        counts.add(ROW, "stored, offsets reset");
    }
    if seen.after.cbaser >> 63 == 0 {
        counts.add(ROW, "stored, bit 63 clear");
    }
    if width == 4 {
        counts.add(ROW, "stored by a half");
    }
    if seen.after.pages() == 256 {
        counts.add(ROW, "256 pages");
    }
}

fn writer(seen: &Seen<'_>, written: &Written, offset: u64, value: u64, counts: &mut Counts) {
    const ROW: &str = "CWRITER write";
    let ring = seen.before.cbaser != 0;
    let refused = written.refusal == 7 && written.commands.is_empty();
    let column = match (ring, refused) {
        (false, true) => "refused before CBASER",
        (false, false) => "zero before CBASER",
        (true, true) if !written.offset.is_multiple_of(32) => "not a multiple of 32",
        (true, true) => "beyond the ring",
        (true, false) => "accepted",
    };
    counts.add(ROW, column);
    if offset == 0x8c {
        let column = if ring {
            "high half with a ring"
        } else {
            "high half before CBASER"
        };
        counts.add(ROW, column);
    } else if column == "accepted" {
        if value & 0xfff0_0000 != 0 {
            counts.add(ROW, "accepted, bits above 19 dropped");
        }
        if !seen.before.enabled && seen.after.waiting() > 0 {
            counts.add(ROW, "stored while disabled");
        }
    }
}

fn run(seen: &Seen<'_>, written: &Written, counts: &mut Counts) {
    let after = seen.after;
    let budget = seen.before.configuration.as_ref().map_or(0, |c| c.budget);
    if written.done > 0 && written.full.is_none() && after.reader < written.reader {
        let column = if after.pages() == 1 {
            "one page"
        } else {
            "several pages"
        };
        counts.add("wrap", column);
    }
    if written.done > 0 && written.done == u64::from(budget) {
        counts.add("budget", "filled");
        if budget == 1 {
            counts.add("budget", "of 1 filled");
        }
    }
    if written.refusal == 5 {
        let column = if after.waiting() == u64::from(budget) + 1 {
            "exceeded by 1"
        } else {
            "exceeded by more"
        };
        counts.add("budget", column);
    }
    window(seen, written, counts);
}

fn window(seen: &Seen<'_>, written: &Written, counts: &mut Counts) {
    let after = seen.after;
    let (start, length) = (after.window_start, after.window_length);
    if written.refusal == 6 {
        let address = after.base() + after.reader;
        let end = start.saturating_add(length);
        let column = if length == 0 {
            "empty"
        } else if start == address + 1 && end >= address + 32 {
            "first byte missing"
        } else if start <= address && end == address + 31 {
            "last byte missing"
        } else {
            "elsewhere"
        };
        counts.add("window", column);
    }
    if written.done > 0 {
        let exact = start == after.base() + written.reader && length == 32 * written.done;
        let column = if exact {
            "just the commands"
        } else {
            "more than the commands"
        };
        counts.add("window", column);
        if after.base() + written.reader >= 1 << 52 {
            counts.add("window", "beyond 2^52");
        }
    }
}
