//! Configurations at their limits and beyond.

use super::counts::Counts;
use super::state::Seen;
use super::{Part, rows};
use crate::answers::Answer;
use crate::record::{BASE, Configuration, Record, STRICT};

const ACCEPTED: &str = "CF accepted";
const REFUSED: &str = "CF refused";

#[derive(Default)]
pub struct Configurations {
    any_accepted: bool,
    last_refused: bool,
}

impl Part for Configurations {
    fn rows(&self) -> Vec<(String, Vec<String>)> {
        rows(&[
            (
                ACCEPTED,
                &[
                    "limit 8192",
                    "limit 16777215",
                    "budget 1",
                    "budget 1024",
                    "frame 65536",
                    "frame 131072",
                    "1 processor",
                    "16 processors",
                    "not the first",
                    "after a refused one",
                ],
            ),
            (
                REFUSED,
                &[
                    "limit too low",
                    "limit too high",
                    "budget 0",
                    "budget too high",
                    "frame",
                    "profile",
                    "no processor",
                    "over 16 processors",
                    "processor twice",
                    "after an accepted one",
                ],
            ),
        ])
    }

    fn begin(&mut self) {
        *self = Self::default();
    }

    fn see(&mut self, seen: &Seen<'_>, counts: &mut Counts) {
        let (Record::Cf(configuration), Answer::Cf(refusal)) = (seen.record, seen.answer) else {
            return;
        };
        if *refusal == 0 {
            for column in at_limits(configuration) {
                counts.add(ACCEPTED, column);
            }
            if self.any_accepted {
                counts.add(ACCEPTED, "not the first");
            }
            if self.last_refused {
                counts.add(ACCEPTED, "after a refused one");
            }
            self.any_accepted = true;
        } else {
            for column in beyond(configuration) {
                counts.add(REFUSED, column);
            }
            if self.any_accepted {
                counts.add(REFUSED, "after an accepted one");
            }
        }
        self.last_refused = *refusal != 0;
    }
}

fn at_limits(configuration: &Configuration) -> Vec<&'static str> {
    let Configuration {
        limit,
        budget,
        frame,
        profile: _,
        processors,
    } = configuration;
    let columns = [
        (*limit == 8_192, "limit 8192"),
        (*limit == 16_777_215, "limit 16777215"),
        (*budget == 1, "budget 1"),
        (*budget == 1_024, "budget 1024"),
        (*frame == 65_536, "frame 65536"),
        (*frame == 131_072, "frame 131072"),
        (processors.len() == 1, "1 processor"),
        (processors.len() == 16, "16 processors"),
    ];
    holding(&columns)
}

fn beyond(configuration: &Configuration) -> Vec<&'static str> {
    let Configuration {
        limit,
        budget,
        frame,
        profile,
        processors,
    } = configuration;
    let mut different = processors.clone();
    different.sort_unstable();
    different.dedup();
    let columns = [
        (*limit < 8_192, "limit too low"),
        (*limit > 16_777_215, "limit too high"),
        (*budget == 0, "budget 0"),
        (*budget > 1_024, "budget too high"),
        (!matches!(frame, 65_536 | 131_072), "frame"),
        (!matches!(*profile, BASE | STRICT), "profile"),
        (processors.is_empty(), "no processor"),
        (processors.len() > 16, "over 16 processors"),
        (different.len() < processors.len(), "processor twice"),
    ];
    holding(&columns)
}

fn holding(columns: &[(bool, &'static str)]) -> Vec<&'static str> {
    columns
        .iter()
        .filter(|(holds, _)| *holds)
        .map(|(_, column)| *column)
        .collect()
}
