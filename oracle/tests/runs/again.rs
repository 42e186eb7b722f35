//! The actions before a refused command, as the Rust gives them when it is run
//! up to that command.

use std::panic::{AssertUnwindSafe, catch_unwind};

use crate::common::{lines_of, lines_of_file};
use oracle::again::Past;
use oracle::answers::{Answer, Watcher, watched_answers};
use oracle::command::{int, sync};
use oracle::digests::seeds;
use oracle::exhaustive;
use oracle::fields::{CLEAR, Fields, INT};
use oracle::record::{Malformed, Record, Records};
use oracle::text::assemble;
use oracle::unit::{Unit, Written};

const UNIT: &str = "cf limit=65535 budget=64 frame=65536 processors=0,1\n";
/// A pair of device 5 on processor 1, and a ring whose reader stands at 96.
const START: &str = "gm 0x40000000\n mapd device=5 bits=4\n mapc collection=2 processor=1\n \
    mapti device=5 event=9 lpi=8200 collection=2\nwr cbaser 8 0x40000000\nwr ctlr 4 1\n\
    wr cwriter 8 96\n";

/// Sees to it that a write hands over an action for each INT and each CLEAR that
/// it carried out, in order, pending for an INT, and counts refused ones.
#[derive(Default)]
struct Pending {
    refused: usize,
    actions: usize,
}

impl Watcher for Pending {
    fn answered(&mut self, _: &Record, answer: &Answer, _: Option<&Unit>) {
        let Answer::Wr(written) = answer else { return };
        let carried_out = &written.commands[..written.done as usize];
        let asked = carried_out
            .iter()
            .filter_map(|words| match Fields::of(words).opcode {
                INT => Some(true),
                CLEAR => Some(false),
                _ => None,
            });
        let handed = written.handed.iter().map(|action| action.pending);
        assert!(asked.eq(handed), "{written:?}");
        if written.refusal == 0 {
            assert_eq!(written.handed, written.actions);
        } else {
            assert_eq!(written.actions, []);
            self.refused += usize::from(written.done > 0);
            self.actions += written.handed.len();
        }
    }

    fn malformed(&mut self, _: &Malformed) {}
}

#[test]
fn every_int_and_clear_that_was_carried_out_is_handed_over_once() {
    let mut pending = Pending::default();
    let some = exhaustive::traces().step_by(3);
    for (_, trace) in seeds(1_000).chain(some) {
        watched_answers(&trace, &mut pending);
    }
    assert!(pending.refused > 1_000 && pending.actions > 1_000);
}

#[test]
fn a_stop_message_is_handed_over_once() {
    let lines = lines_of_file("difference-S15-stop-before-refused");
    let expected = [
        "WR 20 14 128 1 1",
        "AC 1 8200 1",
        "RD 0 128",
        "WR 20 14 128 0 0",
        "GM 0",
        "WR 0 0 0 1 0",
        "RD 0 160",
    ];
    assert_eq!(lines[6..], expected);
}

#[test]
fn a_nine_hands_over_what_came_before_it() {
    let lines = lines_of_file("int-before-full");
    assert_eq!(lines[6..], ["WR 9 8 1120 1 1", "AC 1 8200 1"]);
}

/// The mappings are those of the moment: the first INT goes to the collection
/// that the pair had then, and what the refused write changed stays changed.
#[test]
fn an_action_has_the_numbers_of_its_moment() {
    let row = "gm 0x40000060\n int device=5 event=9\n mapc collection=3 processor=0\n \
        movi device=5 event=9 collection=3\n int device=5 event=9\n \
        mapti device=5 event=9 lpi=8300 collection=2\n clear device=5 event=9\n \
        invall collection=9\nwr cwriter 8 320\ntr 5 9";
    let lines = lines_of(&format!("{UNIT}{START}{row}"));
    let expected = [
        "WR 24 13 288 6 3",
        "AC 1 8200 1",
        "AC 0 8200 1",
        "AC 1 8300 0",
        "TR 0 8300 1",
    ];
    assert_eq!(lines[6..], expected);
}

/// The unit of the last configuration, and the window that was lent before it.
#[test]
fn a_configuration_starts_anew_and_keeps_the_window() {
    let row = "mapd device=5 bits=4\n mapc collection=2 processor=1\n \
        mapti device=5 event=9 lpi=8200 collection=2\n int device=5 event=9\n words 0xe 0 0 0\n";
    let ring = "wr cbaser 8 0x50000000\nwr ctlr 4 1\nwr cwriter 8 160\n";
    let lines = lines_of(&format!(
        "{UNIT}{START}tr 5 9\ngm 0x50000000\n {row}{UNIT}tr 5 9\n{ring}"
    ));
    assert_eq!(lines[7..9], ["CF 0", "TR 8 0 0"]);
    assert_eq!(lines[11..], ["WR 20 14 128 4 1", "AC 1 8200 1"]);
}

#[test]
fn other_commands_than_the_refused_writes_stop_the_program() {
    let row = "gm 0x40000060\n int device=5 event=9\n sync\n words 0xe 0 0 0\n";
    let before = assemble(&format!("{UNIT}{START}{row}")).expect("a well-formed text");
    let mut past = Past::default();
    for record in Records::of(&before) {
        past.keep(record.expect("a record"));
    }
    let refused = |offset, second| Written {
        offset,
        done: 2,
        commands: vec![int(5, 9), second],
        ..Written::refused(7)
    };
    assert_eq!(past.actions_before(&refused(160, sync(0))).len(), 1);
    // Up to the command before; over the refused one; with another command.
    for refused in [
        refused(128, sync(0)),
        refused(192, sync(0)),
        refused(160, sync(1)),
    ] {
        let ended = catch_unwind(AssertUnwindSafe(|| past.actions_before(&refused)));
        let ended = ended.expect_err("other commands");
        let said = ended.downcast_ref::<String>().expect("a panic with text");
        let expected = "the Rust does not carry out the same commands";
        assert!(said.contains(expected), "{said}");
    }
}
