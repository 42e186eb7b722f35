//! Which reason a refused command is told where several of its checks fail: each
//! two checks that fail together.

use super::counts::Counts;
use super::state::Seen;
use super::{Part, rows};
use crate::answers::Answer;
use crate::fields::{Fields, MAPI, MAPTI, MOVI};
use crate::record::Record;
use crate::tables::Tables;

/// Of a MAPTI or a MAPI. A device that is not mapped has no bits, so those two
/// do not fail together.
const OF_A_MAPPING: [&str; 5] = [
    "LPI and device",
    "LPI and event",
    "LPI and collection",
    "device and collection",
    "event and collection",
];
/// The row and column of a MOVI.
pub const OF_A_MOVE: (&str, &str) = ("MOVI for two reasons", "collection and pair");

#[derive(Default)]
pub struct Reasons {
    tables: Tables,
}

/// A check that fails: its name, and the number that it is told by.
type Failed = (&'static str, u8);

impl Part for Reasons {
    fn rows(&self) -> Vec<(String, Vec<String>)> {
        let (row, column) = OF_A_MOVE;
        rows(&[
            (row, &[column]),
            ("MAPTI for two reasons", &OF_A_MAPPING),
            ("MAPI for two reasons", &OF_A_MAPPING),
        ])
    }

    fn begin(&mut self) {
        *self = Self::default();
    }

    fn see(&mut self, seen: &Seen<'_>, counts: &mut Counts) {
        if matches!(seen.record, Record::Cf(_)) {
            self.begin();
        }
        let (Answer::Wr(written), Some(configuration)) = (seen.answer, &seen.before.configuration)
        else {
            return;
        };
        let (carried_out, refused) = written.commands.split_at(written.done as usize);
        for words in carried_out {
            self.tables
                .follow(&Fields::of(words))
                .expect("a command that was carried out had room");
        }
        // Behind those stands at most one command, and with a 9 no check of it failed.
        let [words] = refused else { return };
        let fields = Fields::of(words);
        let row = match fields.opcode {
            MOVI => OF_A_MOVE.0,
            MAPTI => "MAPTI for two reasons",
            MAPI => "MAPI for two reasons",
            _ => return,
        };
        let failed = self.failed(&fields, configuration.limit);
        let told = failed.first().map_or(9, |(_, number)| *number);
        assert_eq!(written.told, told, "the first check that fails is told");
        for (at, (second, _)) in failed.iter().enumerate() {
            for (first, _) in &failed[..at] {
                counts.add(row, &format!("{first} and {second}"));
            }
        }
    }
}

impl Reasons {
    /// The checks of a MAPTI, a MAPI or a MOVI that fail, in 01's order.
    fn failed(&self, fields: &Fields, limit: u32) -> Vec<Failed> {
        let Fields { device, event, .. } = *fields;
        let tables = &self.tables;
        let lpi = !(8_192..=limit).contains(&fields.named_lpi());
        let unmapped = !tables.has_device(device);
        let beyond = tables.beyond_bits(device, event);
        let collection = !tables.has_collection(fields.collection);
        let pair = tables.collection_of(device, event).is_none();
        let checks = match fields.opcode {
            MOVI => vec![("collection", 24, collection), ("pair", 25, pair)],
            _ => vec![
                ("LPI", 21, lpi),
                ("device", 22, unmapped),
                ("event", 23, beyond),
                ("collection", 24, collection),
            ],
        };
        let failed = checks.into_iter().filter(|(.., fails)| *fails);
        failed.map(|(name, number, _)| (name, number)).collect()
    }
}
