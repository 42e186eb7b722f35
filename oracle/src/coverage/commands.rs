//! Commands by outcome. The reason of a refusal is read from the Rust's own
//! text, so that no second opinion on the checks is kept here.

use arm_vgic::VgicError;

use super::counts::Counts;
use super::state::Seen;
use super::{Part, rows};
use crate::answers::Answer;
use crate::fields::{
    CLEAR, DISCARD, Fields, INT, INV, INVALL, MAPC, MAPD, MAPI, MAPTI, MOVI, SYNC,
};
use crate::reason::told;
use crate::record::Record;
use crate::tables::Tables;

const OF_A_MAPPING: [&str; 8] = [
    "new",
    "replaced",
    "LPI too low",
    "LPI too high",
    "device unmapped",
    "event beyond the bits",
    "collection unmapped",
    "table full",
];
const OF_A_PAIR: [&str; 2] = ["accepted", "pair unmapped"];

#[derive(Default)]
pub struct Commands {
    tables: Tables,
}

impl Part for Commands {
    fn rows(&self) -> Vec<(String, Vec<String>)> {
        let drops = [
            "new",
            "mapped again",
            "dropped",
            "nothing to drop",
            "table full",
        ];
        let mut of_mapc = drops.to_vec();
        of_mapc.push("processor not listed");
        rows(&[
            ("MAPD", &drops),
            ("MAPC", &of_mapc),
            ("MAPTI", &OF_A_MAPPING),
            ("MAPI", &OF_A_MAPPING),
            (
                "MOVI",
                &[
                    "to another collection",
                    "to the same collection",
                    "collection unmapped",
                    "pair unmapped",
                ],
            ),
            ("INT", &OF_A_PAIR),
            ("CLEAR", &OF_A_PAIR),
            ("DISCARD", &OF_A_PAIR),
            ("INV", &OF_A_PAIR),
            ("INVALL", &["accepted", "collection unmapped"]),
            ("SYNC", &["accepted"]),
            ("unknown", &["opcode unknown"]),
        ])
    }

    fn begin(&mut self) {
        *self = Self::default();
    }

    fn see(&mut self, seen: &Seen<'_>, counts: &mut Counts) {
        if matches!(seen.record, Record::Cf(_)) {
            self.begin();
        }
        let Answer::Wr(written) = seen.answer else {
            return;
        };
        for (at, words) in written.commands.iter().enumerate() {
            let fields = Fields::of(words);
            if (at as u64) < written.done {
                counts.add(name(fields.opcode), self.accepted(&fields));
                self.tables
                    .follow(&fields)
                    .expect("a command that was carried out had room");
            } else if written.full.is_some() {
                counts.add(name(fields.opcode), "table full");
            } else if let Some(error) = &written.error {
                counts.add(name(fields.opcode), reason(&fields, error));
            }
        }
    }
}

impl Commands {
    fn accepted(&self, fields: &Fields) -> &'static str {
        let device = self.tables.has_device(fields.device);
        let collection = self.tables.has_collection(fields.collection);
        let pair = self.tables.collection_of(fields.device, fields.event);
        match fields.opcode {
            MAPD => mapped_or_dropped(fields.valid, device),
            MAPC => mapped_or_dropped(fields.valid, collection),
            MAPTI | MAPI if pair.is_some() => "replaced",
            MAPTI | MAPI => "new",
            MOVI if pair == Some(fields.collection) => "to the same collection",
            MOVI => "to another collection",
            _ => "accepted",
        }
    }
}

fn mapped_or_dropped(valid: bool, mapped: bool) -> &'static str {
    match (valid, mapped) {
        (true, false) => "new",
        (true, true) => "mapped again",
        (false, true) => "dropped",
        (false, false) => "nothing to drop",
    }
}

fn name(opcode: u8) -> &'static str {
    match opcode {
        MAPD => "MAPD",
        MAPC => "MAPC",
        MAPTI => "MAPTI",
        MAPI => "MAPI",
        MOVI => "MOVI",
        INT => "INT",
        CLEAR => "CLEAR",
        DISCARD => "DISCARD",
        INV => "INV",
        INVALL => "INVALL",
        SYNC => "SYNC",
        _ => "unknown",
    }
}

fn reason(fields: &Fields, error: &VgicError) -> &'static str {
    match told(error) {
        20 => "opcode unknown",
        21 if fields.named_lpi() < 8_192 => "LPI too low",
        21 => "LPI too high",
        22 => "device unmapped",
        23 => "event beyond the bits",
        24 => "collection unmapped",
        // INT and CLEAR have 8 for a pair that is not mapped.
        25 | 8 => "pair unmapped",
        26 => "processor not listed",
        _ => unreachable!("a command is not refused with {error:?}"),
    }
}
