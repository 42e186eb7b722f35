//! Pairs that are used after what can befall a mapping.

use std::collections::{BTreeMap, BTreeSet};

use super::counts::Counts;
use super::state::Seen;
use super::{Part, rows};
use crate::answers::Answer;
use crate::fields::{CLEAR, DISCARD, Fields, INT, MAPC, MAPD, MAPI, MAPTI, MOVI};
use crate::record::Record;

const USED: &str = "pair used";
const NOT_FOUND: &str = "pair not found";

#[derive(Default)]
pub struct Mappings {
    pairs: BTreeMap<(u32, u32), Past>,
    ended: BTreeMap<(u32, u32), &'static str>,
}

/// What has befallen a pair in force, and how it ended the last time.
struct Past {
    first_collection: u16,
    collection: u16,
    ended: Option<&'static str>,
    columns: BTreeSet<&'static str>,
}

impl Part for Mappings {
    fn rows(&self) -> Vec<(String, Vec<String>)> {
        rows(&[
            (
                USED,
                &[
                    "plainly",
                    "while disabled",
                    "after MOVI",
                    "mapped again after DISCARD",
                    "mapped again after an invalid MAPD",
                    "mapped again after an invalid MAPC",
                    "after a second MAPD",
                    "beyond the bits of a second MAPD",
                    "after a second MAPC",
                    "after another MAPTI or MAPI",
                    "after MOVI and the drop of its first collection",
                ],
            ),
            (
                NOT_FOUND,
                &[
                    "never mapped",
                    "after DISCARD",
                    "after an invalid MAPD",
                    "after an invalid MAPC",
                ],
            ),
        ])
    }

    fn begin(&mut self) {
        *self = Self::default();
    }

    fn see(&mut self, seen: &Seen<'_>, counts: &mut Counts) {
        match (seen.record, seen.answer) {
            (Record::Cf(_), _) => self.begin(),
            (Record::Tr { device, event }, Answer::Tr(Ok(_))) => {
                self.used((*device, *event), counts);
                if !seen.before.enabled {
                    counts.add(USED, "while disabled");
                }
            }
            (Record::Tr { device, event }, Answer::Tr(Err(8))) => {
                let past = self.ended.get(&(*device, *event));
                counts.add(NOT_FOUND, past.unwrap_or(&"never mapped"));
            }
            (_, Answer::Wr(written)) => {
                for words in &written.commands[..written.done as usize] {
                    self.follow(&Fields::of(words), counts);
                }
            }
            _ => {}
        }
    }
}

impl Mappings {
    fn used(&self, pair: (u32, u32), counts: &mut Counts) {
        let past = &self.pairs[&pair];
        let again = match past.ended {
            Some("after DISCARD") => Some("mapped again after DISCARD"),
            Some("after an invalid MAPD") => Some("mapped again after an invalid MAPD"),
            Some(_) => Some("mapped again after an invalid MAPC"),
            None => None,
        };
        if again.is_none() && past.columns.is_empty() {
            counts.add(USED, "plainly");
        }
        for column in past.columns.iter().copied().chain(again) {
            counts.add(USED, column);
        }
    }

    fn follow(&mut self, fields: &Fields, counts: &mut Counts) {
        let pair = (fields.device, fields.event);
        match fields.opcode {
            MAPD if fields.valid => {
                for ((device, event), past) in &mut self.pairs {
                    if *device == fields.device {
                        past.columns.insert("after a second MAPD");
                        if fields.bits < 32 && event >> fields.bits != 0 {
                            past.columns.insert("beyond the bits of a second MAPD");
                        }
                    }
                }
            }
            MAPD => self.end("after an invalid MAPD", |(device, _), _| {
                *device == fields.device
            }),
            MAPC if fields.valid => {
                for past in self.pairs.values_mut() {
                    if past.collection == fields.collection {
                        past.columns.insert("after a second MAPC");
                    }
                }
            }
            MAPC => {
                self.end("after an invalid MAPC", |_, past| {
                    past.collection == fields.collection
                });
                for past in self.pairs.values_mut() {
                    if past.first_collection == fields.collection {
                        past.columns
                            .insert("after MOVI and the drop of its first collection");
                    }
                }
            }
            MAPTI | MAPI => {
                let ended = self.ended.get(&pair).copied();
                let replaced = self.pairs.contains_key(&pair);
                let columns = replaced.then_some("after another MAPTI or MAPI");
                self.pairs.insert(
                    pair,
                    Past {
                        first_collection: fields.collection,
                        collection: fields.collection,
                        ended,
                        columns: columns.into_iter().collect(),
                    },
                );
            }
            MOVI => {
                let past = self.pairs.get_mut(&pair).expect("a MOVI moves a pair");
                past.collection = fields.collection;
                past.columns.insert("after MOVI");
            }
            INT | CLEAR => self.used(pair, counts),
            DISCARD => self.end("after DISCARD", |other, _| *other == pair),
            _ => {}
        }
    }

    fn end(&mut self, how: &'static str, which: impl Fn(&(u32, u32), &Past) -> bool) {
        let ended: Vec<(u32, u32)> = self
            .pairs
            .extract_if(.., |pair, past| which(pair, past))
            .map(|(pair, _)| pair)
            .collect();
        for pair in ended {
            self.ended.insert(pair, how);
        }
    }
}
