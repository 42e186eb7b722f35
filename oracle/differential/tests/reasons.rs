//! `run` finds a command that is refused for another reason than the Rust tells,
//! and a difference that folding does not hide.
#![cfg(feature = "published")]

mod planted;

use oracle::answers::{Answer, Watcher, watched_answers};
use oracle::compare::fold;
use oracle::fields::{Fields, MAPTI, MOVI};
use oracle::record::{Malformed, Record};
use oracle::tables::Tables;
use oracle::unit::{Unit, Written};
use planted::{edited, other_when_folded, told_otherwise};

/// The call with each of its lines edited, by the line's number from 0 on and its
/// text.
fn each_edited(trace: &[u8], output: &mut [u8], edit: impl Fn(usize, &str) -> String) -> u64 {
    edited(trace, output, |lines| {
        let numbered = lines.into_iter().enumerate();
        numbered.map(|(number, line)| edit(number, line)).collect()
    })
}

/// A line whose beginning is another, where it is this one.
fn begun(line: &str, from: &str, to: &str) -> String {
    match line.strip_prefix(from) {
        Some(rest) => format!("{to}{rest}"),
        None => line.into(),
    }
}

/// The collection that is not mapped and the pair that is not are exchanged.
fn swaps_collection_and_pair(trace: &[u8], output: &mut [u8]) -> u64 {
    each_edited(trace, output, |_, line| match line.get(..6) {
        Some("WR 24 ") => begun(line, "WR 24 ", "WR 25 "),
        _ => begun(line, "WR 25 ", "WR 24 "),
    })
}

#[test]
fn two_reasons_swapped_are_found() {
    told_otherwise(swaps_collection_and_pair, "WR 2", "WR 2");
}

/// The lines of refused commands that a test picks out.
struct Picked {
    picks: fn(&Fields, &Written, &Tables) -> bool,
    line: usize,
    lines: Vec<usize>,
}

impl Watcher for Picked {
    fn answered(&mut self, _: &Record, answer: &Answer, unit: Option<&Unit>) {
        let mut more = 0;
        if let (Answer::Wr(written), Some(unit)) = (answer, unit) {
            more = written.handed.len();
            let refused = written.commands.get(written.done as usize);
            if refused.is_some_and(|words| (self.picks)(&Fields::of(words), written, unit.tables()))
            {
                self.lines.push(self.line);
            }
        }
        self.line += 1 + more;
    }

    fn malformed(&mut self, _: &Malformed) {}
}

fn picked(trace: &[u8], picks: fn(&Fields, &Written, &Tables) -> bool) -> Vec<usize> {
    let mut picked = Picked {
        picks,
        line: 0,
        lines: Vec::new(),
    };
    watched_answers(trace, &mut picked);
    picked.lines
}

/// Whether the check with this number fails for a MAPTI or a MOVI.
fn fails(number: u8, fields: &Fields, tables: &Tables) -> bool {
    match number {
        22 => !tables.has_device(fields.device),
        23 => tables.beyond_bits(fields.device, fields.event),
        24 => !tables.has_collection(fields.collection),
        25 => tables.collection_of(fields.device, fields.event).is_none(),
        _ => unreachable!("no order is tried with {number}"),
    }
}

/// A command that makes one check after a later one: where both fail, the later
/// one is told.
fn tells_the_later<const OPCODE: u8, const FIRST: u8, const LATER: u8>(
    trace: &[u8],
    output: &mut [u8],
) -> u64 {
    let both = picked(trace, |fields, written, tables| {
        fields.opcode == OPCODE && written.told == FIRST && fails(LATER, fields, tables)
    });
    let (first, later) = (format!("WR {FIRST} "), format!("WR {LATER} "));
    each_edited(trace, output, |number, line| match both.contains(&number) {
        true => begun(line, &first, &later),
        false => line.into(),
    })
}

#[test]
fn the_order_of_a_movis_checks_is_found() {
    told_otherwise(tells_the_later::<MOVI, 24, 25>, "WR 25 1 ", "WR 24 1 ");
}

#[test]
fn the_order_of_a_maptis_four_checks_is_found() {
    told_otherwise(tells_the_later::<MAPTI, 21, 22>, "WR 22 10 ", "WR 21 10 ");
    told_otherwise(tells_the_later::<MAPTI, 21, 23>, "WR 23 10 ", "WR 21 10 ");
    told_otherwise(tells_the_later::<MAPTI, 21, 24>, "WR 24 10 ", "WR 21 10 ");
    told_otherwise(tells_the_later::<MAPTI, 22, 24>, "WR 24 10 ", "WR 22 10 ");
    told_otherwise(tells_the_later::<MAPTI, 23, 24>, "WR 24 10 ", "WR 23 10 ");
}

/// The 8 of an INT as the reason that a DISCARD has.
fn tells_a_reason_for_an_int(trace: &[u8], output: &mut [u8]) -> u64 {
    each_edited(trace, output, |_, line| begun(line, "WR 8 3 ", "WR 25 3 "))
}

#[test]
fn a_reason_for_an_int_is_found() {
    other_when_folded(tells_a_reason_for_an_int, "WR 7 3 ", "WR 8 3 ");
}

/// The 7 of CWRITER, which no command has, as an opcode that is not known.
fn tells_a_reason_for_the_writer(trace: &[u8], output: &mut [u8]) -> u64 {
    each_edited(trace, output, |_, line| begun(line, "WR 7 ", "WR 20 "))
}

#[test]
fn a_reason_for_the_writer_is_found() {
    told_otherwise(tells_a_reason_for_the_writer, "WR 20 0 ", "WR 7 0 ");
}

/// A command that is refused with 01's number still, for one of its reasons.
fn tells_no_reason<const NUMBER: u8>(trace: &[u8], output: &mut [u8]) -> u64 {
    let reason = format!("WR {NUMBER} ");
    each_edited(trace, output, |_, line| begun(line, &reason, "WR 7 "))
}

#[test]
fn a_command_without_its_reason_is_found() {
    told_otherwise(tells_no_reason::<20>, "WR 7 ", "WR 20 ");
    told_otherwise(tells_no_reason::<21>, "WR 7 1", "WR 21 1");
    told_otherwise(tells_no_reason::<22>, "WR 7 1", "WR 22 1");
    told_otherwise(tells_no_reason::<23>, "WR 7 1", "WR 23 1");
    told_otherwise(tells_no_reason::<24>, "WR 7 ", "WR 24 ");
    told_otherwise(tells_no_reason::<25>, "WR 7 ", "WR 25 ");
    told_otherwise(tells_no_reason::<26>, "WR 7 9 ", "WR 26 9 ");
}

/// Another opcode, offset or count of commands done, only where a line is folded.
fn changes_a_word<const WORD: usize>(trace: &[u8], output: &mut [u8]) -> u64 {
    each_edited(trace, output, |_, line| {
        if fold(line.as_bytes()).1.all() == 0 {
            return line.into();
        }
        let mut words: Vec<String> = line.split(' ').map(String::from).collect();
        let number: u64 = words[WORD].parse().expect("a number");
        words[WORD] = (number ^ 1).to_string();
        words.join(" ")
    })
}

#[test]
fn folding_hides_no_other_word() {
    other_when_folded(changes_a_word::<2>, "WR 7 ", "WR 7 ");
    other_when_folded(changes_a_word::<3>, "WR 7 ", "WR 7 ");
    other_when_folded(changes_a_word::<4>, "WR 7 ", "WR 7 ");
}
