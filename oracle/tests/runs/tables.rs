//! The count of records in use agrees with what the Rust has mapped.

use oracle::answers::{Answer, Watcher, watched_answers};
use oracle::digests::seeds;
use oracle::exhaustive;
use oracle::fields::Fields;
use oracle::record::{Malformed, Record};
use oracle::unit::Unit;

/// Every pair that a trace has named so far.
#[derive(Default)]
struct Pairs(Vec<(u32, u32)>);

impl Watcher for Pairs {
    fn answered(&mut self, record: &Record, answer: &Answer, unit: Option<&Unit>) {
        let Some(unit) = unit else { return };
        if matches!(record, Record::Cf(_)) {
            self.0.clear();
        }
        let Answer::Wr(written) = answer else { return };
        if written.refusal == 9 {
            return;
        }
        for words in &written.commands {
            let fields = Fields::of(words);
            self.0.push((fields.device, fields.event));
        }
        for (device, event) in &self.0 {
            let counted = unit.tables().collection_of(*device, *event);
            let mapped = unit.translate(*device, *event).is_ok();
            assert_eq!(counted.is_some(), mapped, "pair ({device}, {event})");
        }
    }

    fn malformed(&mut self, _: &Malformed) {}
}

#[test]
fn a_pair_has_a_record_exactly_if_the_rust_translates_it() {
    let some = exhaustive::traces().step_by(5);
    for (_, trace) in seeds(200).chain(some) {
        watched_answers(&trace, &mut Pairs::default());
    }
}
