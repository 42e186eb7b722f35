//! Tables that fill up, are freed and used again.

use super::counts::Counts;
use super::state::Seen;
use super::{Part, rows};
use crate::answers::Answer;
use crate::fields::Fields;
use crate::record::Record;
use crate::tables::{COLLECTIONS, DEVICES, TRANSLATIONS, Table, Tables};

const COLUMNS: [&str; 5] = [
    "filled",
    "replaced while full",
    "freed when full",
    "filled again",
    "overfilled",
];

const EACH: [(Table, &str, usize); 3] = [
    (Table::Devices, "devices", DEVICES),
    (Table::Collections, "collections", COLLECTIONS),
    (Table::Translations, "translations", TRANSLATIONS),
];

#[derive(Default)]
pub struct Fullness {
    tables: Tables,
    /// Whether each table has been full and then freed.
    freed: [bool; 3],
}

impl Part for Fullness {
    fn rows(&self) -> Vec<(String, Vec<String>)> {
        rows(&EACH.map(|(_, name, _)| (name, COLUMNS.as_slice())))
    }

    fn begin(&mut self) {
        *self = Self::default();
    }

    fn see(&mut self, seen: &Seen<'_>, counts: &mut Counts) {
        if matches!(seen.record, Record::Cf(_)) {
            self.begin();
        }
        let Answer::Wr(written) = seen.answer else {
            return;
        };
        for words in &written.commands[..written.done as usize] {
            self.follow(&Fields::of(words), counts);
        }
        for (table, name, _) in EACH {
            if written.full == Some(table) {
                counts.add(name, "overfilled");
            }
        }
    }
}

impl Fullness {
    fn follow(&mut self, fields: &Fields, counts: &mut Counts) {
        let before = EACH.map(|(table, ..)| self.tables.used(table));
        let stores = Table::stored_by(fields);
        self.tables
            .follow(fields)
            .expect("a command that was carried out had room");
        for (at, (table, name, size)) in EACH.into_iter().enumerate() {
            let was_full = before[at] == size;
            let is_full = self.tables.used(table) == size;
            match (was_full, is_full) {
                (false, true) if self.freed[at] => counts.add(name, "filled again"),
                (false, true) => counts.add(name, "filled"),
                (true, false) => {
                    self.freed[at] = true;
                    counts.add(name, "freed when full");
                }
                (true, true) if stores == Some(table) => counts.add(name, "replaced while full"),
                _ => {}
            }
        }
    }
}
