//! `run` finds planted differences and makes their traces short. Each fake call
//! wraps the real one.
#![cfg(feature = "published")]

mod common;

use common::{says_eleven, writes_beyond};
use differential::call::c_call;
use differential::damage::damage;
use differential::run::{Traces, run};

/// The report on a fake call, which must be found within so many seeds.
fn found(call: fn(&[u8], &mut [u8]) -> u64, seeds: u64) -> String {
    let traces = Traces {
        from: 0,
        count: seeds,
        exhaustive: false,
    };
    run(call, "a call", &traces).expect_err("the planted fault is found")
}

/// The lines of the trace in a report.
fn trace_of(report: &str) -> Vec<&str> {
    let (_, rest) = report.split_once("take it):\n\n").expect("a trace");
    let (trace, _) = rest.split_once("\n\n").expect("the end of the trace");
    trace.lines().map(str::trim).collect()
}

#[test]
fn the_real_call_has_no_difference() {
    let traces = Traces {
        from: 0,
        count: 300,
        exhaustive: false,
    };
    let summary = run(c_call, "the call", &traces).expect("no difference");
    assert!(
        summary.contains("300 traces of seeds 0 to 299"),
        "{summary}"
    );
}

/// The last digit of the first LPI that a translation answers.
fn changes_a_digit(trace: &[u8], output: &mut [u8]) -> u64 {
    let number = c_call(trace, output);
    let mut at = 0;
    for line in output.split_mut(|byte| *byte == b'\n') {
        if line.starts_with(b"TR 0 ") && at < (number / 16) as usize {
            line[8] ^= 1;
            break;
        }
        at += line.len() + 1;
    }
    number
}

#[test]
fn a_digit_shrinks_to_one_translation() {
    let report = found(changes_a_digit, 200);
    let trace = trace_of(&report);
    let kinds: Vec<&str> = trace
        .iter()
        .filter_map(|line| line.split(' ').next())
        .collect();
    for kind in ["cf", "gm", "mapd", "mapc", "mapti", "tr"] {
        let count = kinds.iter().filter(|found| **found == kind).count();
        assert_eq!(count, 1, "{kind}: {report}");
    }
    assert!(trace.len() <= 9, "{report}");
}

/// A MOVI that does nothing.
fn forgets_movi(trace: &[u8], output: &mut [u8]) -> u64 {
    use oracle::record::{Record, Records};
    let mut other = Vec::new();
    for next in Records::of(trace) {
        match next {
            Ok(Record::Gm { address, mut bytes }) => {
                for command in bytes.chunks_mut(32) {
                    if command[0] == 1 && command.len() == 32 {
                        command.fill(0);
                        command[0] = 5;
                    }
                }
                Record::Gm { address, bytes }.encode(&mut other);
            }
            Ok(record) => record.encode(&mut other),
            Err(malformed) => other.extend(&trace[malformed.offset..]),
        }
    }
    c_call(&other, output)
}

#[test]
fn a_forgotten_movi_shrinks_to_few_commands() {
    let report = found(forgets_movi, 200);
    let trace = trace_of(&report);
    assert!(
        trace.iter().any(|line| line.starts_with("movi")),
        "{report}"
    );
    assert!(trace.len() <= 8, "{report}");
}

#[test]
fn the_number_and_the_bytes_behind_are_looked_at() {
    assert!(found(writes_beyond, 1).contains("was changed"));
    assert!(found(says_eleven, 1).contains("the call returned"));
}

#[test]
fn damaged_traces_are_compared_with_the_rust_too() {
    assert!(damage(forgets_movi, 0, 60).is_err());
}
