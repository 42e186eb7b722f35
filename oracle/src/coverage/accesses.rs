//! Refusals by kind of record; registers by width.

use super::counts::Counts;
use super::state::Seen;
use super::{Part, rows};
use crate::answers::Answer;
use crate::compare::OF_A_COMMAND;
use crate::record::Record;
use crate::text::REGISTERS;
use crate::unit::IDENTIFICATION;

/// The row of the refused writes that had actions.
const ACTIONS_BEFORE: &str = "actions before a refusal";

/// The refusals of each kind of line, and those with actions before them. 10
/// needs a short row, which no trace lends, and 11 is the C call's own.
pub struct Lines;

impl Part for Lines {
    fn rows(&self) -> Vec<(String, Vec<String>)> {
        let mut rows = rows(&[
            ("CF", &["0", "1"]),
            ("GM", &["0"]),
            ("RD", &["0", "1", "2", "3"]),
            (
                "WR",
                &[
                    "0", "1", "2", "3", "4", "5", "6", "7", "8", "9", "20", "21", "22", "23", "24",
                    "25", "26",
                ],
            ),
            ("TR", &["0", "1", "8"]),
            ("AC", &["pending", "clear"]),
        ]);
        let refusals = OF_A_COMMAND.map(|refusal| refusal.to_string());
        rows.push((ACTIONS_BEFORE.into(), refusals.to_vec()));
        rows
    }

    fn see(&mut self, seen: &Seen<'_>, counts: &mut Counts) {
        let (row, refusal) = match seen.answer {
            Answer::Cf(refusal) => ("CF", *refusal),
            Answer::Gm => ("GM", 0),
            Answer::Rd(result) => ("RD", result.err().unwrap_or(0)),
            Answer::Wr(written) => ("WR", written.told),
            Answer::Tr(result) => ("TR", result.err().unwrap_or(0)),
        };
        counts.add(row, &refusal.to_string());
        if let Answer::Wr(written) = seen.answer {
            for action in &written.handed {
                counts.add("AC", if action.pending { "pending" } else { "clear" });
            }
            if refusal != 0 && !written.handed.is_empty() {
                counts.add(ACTIONS_BEFORE, &refusal.to_string());
            }
        }
    }
}

/// Every register and every high half at widths 0 to 9, on a configured unit.
pub struct Accesses;

impl Part for Accesses {
    fn rows(&self) -> Vec<(String, Vec<String>)> {
        let mut places = Vec::new();
        for register in &REGISTERS {
            places.push(register.name.to_string());
            if register.bytes == 8 {
                places.push(format!("{}+4", register.name));
            }
        }
        places.extend(
            [
                "inside a register",
                "identification",
                "elsewhere",
                "past the frame",
            ]
            .map(String::from),
        );
        let widths: Vec<String> = (0..10).map(|width| format!("w{width}")).collect();
        ["rd", "wr"]
            .iter()
            .flat_map(|kind| places.iter().map(move |place| format!("{kind} {place}")))
            .map(|row| (row, widths.clone()))
            .collect()
    }

    fn see(&mut self, seen: &Seen<'_>, counts: &mut Counts) {
        let (kind, offset, width) = match seen.record {
            Record::Rd { offset, width } => ("rd", *offset, *width),
            Record::Wr { offset, width, .. } => ("wr", *offset, *width),
            _ => return,
        };
        let Some(configuration) = &seen.before.configuration else {
            return;
        };
        if width < 10 {
            let place = place(offset, u64::from(configuration.frame));
            counts.add(&format!("{kind} {place}"), &format!("w{width}"));
        }
    }
}

fn place(offset: u64, frame: u64) -> String {
    for register in &REGISTERS {
        let Some(within) = offset.checked_sub(register.offset) else {
            continue;
        };
        if within == 0 {
            return register.name.into();
        }
        if within < register.bytes {
            return match within {
                4 => format!("{}+4", register.name),
                _ => "inside a register".into(),
            };
        }
    }
    if IDENTIFICATION.contains(&offset) {
        "identification".into()
    } else if offset < frame {
        "elsewhere".into()
    } else {
        "past the frame".into()
    }
}
