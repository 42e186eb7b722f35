//! Retry and Stalled: what base units do with them, and strict ones that are wrong in
//! one thing about them.

use std::path::Path;

use oracle::answers::answers;
use oracle::command::{int, mapc, mapd, mapi, mapti, sync, unmapc, unmapd};
use oracle::digests::{seeds, strict_seeds};
use oracle::draft::{Draft, RING};
use oracle::exhaustive::{self, Named};
use oracle::fields::Words;
use oracle::record::{BASE, RETRY, Record, Records, STRICT};
use oracle::recorded::{by_hand, list};
use oracle::strict::{FAULTS, Fault, faulty_lines, lines};

const TEXTS: &str = concat!(env!("CARGO_MANIFEST_DIR"), "/traces");

/// Whether one of these traces gets other lines from units with the fault.
fn found(fault: Fault, mut traces: impl Iterator<Item = Named>) -> bool {
    traces.any(|(_, trace)| faulty_lines(&trace, fault).lines != lines(&trace).lines)
}

/// A trace with its units of one profile.
fn of_profile(profile: u8, trace: &[u8]) -> Vec<u8> {
    let mut other = Vec::new();
    for record in Records::of(trace) {
        let mut record = record.expect("a whole record");
        if let Record::Cf(configuration) = &mut record {
            configuration.profile = profile;
        }
        record.encode(&mut other);
    }
    other
}

/// The order of the list is that of the numbers.
#[test]
fn every_fault_is_listed_in_its_place() {
    for (place, fault) in FAULTS.into_iter().enumerate() {
        assert_eq!(fault as usize, place, "{fault:?}");
    }
}

#[test]
fn the_texts_tell_every_fault() {
    let strict: Vec<Named> = by_hand(Path::new(TEXTS))
        .expect("well-formed texts")
        .into_iter()
        .map(|(named, _)| named)
        .collect();
    let base = list(Path::new(TEXTS)).expect("well-formed texts");
    let base: Vec<Named> = base
        .into_iter()
        .filter(|(name, _)| name.starts_with("retry"))
        .collect();
    for fault in FAULTS {
        let traces = if fault.of_base() { &base } else { &strict };
        assert!(found(fault, traces.iter().cloned()), "{fault:?}");
    }
}

#[test]
fn generated_traces_tell_every_fault() {
    for fault in FAULTS {
        let found = if fault.of_base() {
            found(fault, seeds(600))
        } else {
            found(fault, strict_seeds(600))
        };
        assert!(found, "{fault:?}");
    }
}

/// In those of Retry an INT is refused; the other refusals are in those of `handed`. No
/// exhaustive trace of a stalled unit has a second configuration.
#[test]
fn the_exhaustive_traces_tell_every_fault() {
    for fault in FAULTS {
        let part = match fault {
            Fault::ConfigurationKeeps => continue,
            Fault::SixDoesNotStall | Fault::NineDoesNotStall | Fault::CheckDoesNotStall => {
                "handed-"
            }
            _ => "retries-",
        };
        let of_part = |(name, _): &Named| name.contains(part);
        let found = if fault.of_base() {
            found(fault, exhaustive::traces().filter(of_part))
        } else {
            found(fault, exhaustive::strict().filter(of_part))
        };
        assert!(found, "{fault:?}");
    }
}

/// Of a base unit every CWRITER with Retry is refused and changes nothing: the same
/// records without those writes get the same other lines.
#[test]
fn a_base_unit_refuses_retry_and_goes_on() {
    let by_hand = by_hand(Path::new(TEXTS)).expect("well-formed texts");
    let by_hand = by_hand
        .into_iter()
        .map(|((name, trace), _)| (name, of_profile(BASE, &trace)));
    let mut refused = 0;
    for (name, trace) in by_hand.chain(seeds(600)) {
        let told = answered(&trace);
        let (mut without, mut others) = (Vec::new(), Vec::new());
        for (record, line) in Records::of(&trace).map_while(Result::ok).zip(&told) {
            if !has_retry(&record) {
                record.encode(&mut without);
                others.push(line);
            } else if !line.starts_with("WR 1 ") {
                assert!(line.starts_with("WR 7 0 "), "{name}: {line}");
                refused += 1;
            }
        }
        assert!(answered(&without).iter().eq(others), "{name}");
    }
    assert!(refused > 200, "{refused}");
}

fn has_retry(record: &Record) -> bool {
    match record {
        Record::Wr {
            offset: 0x88,
            width: 4 | 8,
            value,
        } => value & RETRY != 0,
        _ => false,
    }
}

/// The Rust's lines, one for each record, its actions with it.
fn answered(trace: &[u8]) -> Vec<String> {
    let told = String::from_utf8(answers(trace).told).expect("lines are text");
    let mut lines: Vec<String> = Vec::new();
    for line in told.lines() {
        match lines.last_mut() {
            Some(last) if line.starts_with("AC ") => *last += line,
            _ => lines.push(line.into()),
        }
    }
    lines
}

/// Behind a 9 a unit is as if the command had not been: nothing of it is mapped, and it
/// gets a 9 again until there is room.
#[test]
fn behind_a_9_the_unit_goes_on() {
    let devices: Vec<Words> = (0..32).map(|device| mapd(device, 14)).collect();
    let collections: Vec<Words> = (0..32).map(|number| mapc(number, 0)).collect();
    let pairs: Vec<Words> = (0..256).map(|event| mapti(0, event, 8_200, 0)).collect();
    let all = [devices, collections, pairs].concat();
    for (opcode, command) in [
        (8, mapd(32, 4)),
        (9, mapc(32, 1)),
        (10, mapti(1, 7, 8_201, 0)),
        (11, mapi(1, 8_201, 0)),
    ] {
        let mut draft = Draft::default();
        draft.cf(9_000, 1_024, 65_536, &[0, 1]);
        for commands in all.chunks(100) {
            carry_out(&mut draft, commands);
        }
        carry_out(&mut draft, &[sync(0), command]);
        carry_out(&mut draft, &[mapti(32, 0, 8_201, 0)]);
        carry_out(&mut draft, &[mapti(0, 0, 8_201, 32)]);
        draft.tr(1, 7).tr(1, 8_201);
        carry_out(&mut draft, &[command]);
        carry_out(&mut draft, &[int(0, 255), unmapd(0), unmapc(31), command]);
        draft.tr(0, 0).tr(1, 7).tr(1, 8_201);
        let mapped = |by| {
            if by == opcode {
                "TR 0 8201 0"
            } else {
                "TR 8 0 0"
            }
        };
        for profile in [BASE, STRICT] {
            let told = lines(&of_profile(profile, &draft.0)).lines;
            let told = String::from_utf8(told).expect("lines are text");
            let told: Vec<&str> = told.lines().filter(|line| says_more(line)).collect();
            let right = [
                &format!("WR 9 {opcode} 32 1 0"),
                "WR 22 10 0 0 0",
                "WR 24 10 0 0 0",
                "TR 8 0 0",
                "TR 8 0 0",
                &format!("WR 9 {opcode} 0 0 0"),
                "AC 0 8200 1",
                "TR 8 0 0",
                mapped(10),
                mapped(11),
            ];
            assert_eq!(told, right);
        }
    }
}

/// Not a line of a write that was carried out, of a window or of a configuration.
fn says_more(line: &str) -> bool {
    !["WR 0 ", "GM ", "CF "]
        .iter()
        .any(|plain| line.starts_with(plain))
}

/// Commands in a ring of their own, so that no stall is left.
fn carry_out(draft: &mut Draft, commands: &[Words]) {
    draft
        .wr(0x0, 4, 0)
        .wr(0x80, 8, 1 << 63 | RING)
        .commands(RING, commands)
        .wr(0x0, 4, 1)
        .wr(0x88, 8, 32 * commands.len() as u64);
}
