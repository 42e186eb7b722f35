//! `strict` finds strict units that do not keep one of their rules.
#![cfg(feature = "published")]

mod planted;

use differential::call::{Call, c_call};
use differential::run::Traces;
use differential::strict::strict;
use oracle::record::{BASE, RETRY, Record, Records, STRICT};
use oracle::room::{returned, written};
use oracle::strict::{FAULTS, Fault, Rule, faulty_lines, lines};
use planted::edited;

const TRACES: Traces = Traces {
    from: 0,
    count: 1_000,
    exhaustive: true,
};

#[test]
fn the_real_call_has_no_difference() {
    let summary = strict(c_call, "the call", &TRACES).expect("no difference");
    assert!(
        summary.contains("1,000 traces of seeds 0 to 999"),
        "{summary}"
    );
}

/// What the report says of the difference.
fn found(call: Call) -> String {
    let report = strict(call, "a call", &TRACES).expect_err("the planted fault is found");
    let what = report
        .lines()
        .find_map(|line| line.strip_prefix("The difference: "));
    what.expect("a report names its difference").to_string()
}

fn found_at(call: Call, ours: &str, right: &str) {
    let what = found(call);
    assert!(what.contains(&format!(" is `{ours}")), "{what}");
    assert!(what.contains(&format!("expected `{right}")), "{what}");
}

/// The call on a trace with its records changed.
fn changed(trace: &[u8], output: &mut [u8], change: impl Fn(&mut Record)) -> u64 {
    let mut other = Vec::new();
    for next in Records::of(trace) {
        match next {
            Ok(mut record) => {
                change(&mut record);
                record.encode(&mut other);
            }
            Err(malformed) => other.extend(&trace[malformed.offset..]),
        }
    }
    c_call(&other, output)
}

/// Strict units that are base ones, in traces of such records only.
fn base_where(trace: &[u8], output: &mut [u8], such: impl Fn(&Record) -> bool) -> u64 {
    let all = Records::of(trace).all(|record| record.is_ok_and(|record| such(&record)));
    changed(trace, output, |record| match record {
        Record::Cf(configuration) if all && configuration.profile == STRICT => {
            configuration.profile = BASE;
        }
        _ => {}
    })
}

fn no_large_device(record: &Record) -> bool {
    match record {
        Record::Gm { bytes, .. } => bytes
            .chunks(32)
            .all(|command| command.len() < 32 || command[6..8] == [0, 0]),
        _ => true,
    }
}

fn only_valid_rings(record: &Record) -> bool {
    match record {
        Record::Wr {
            offset,
            width,
            value,
        } if (0x80..0x88).contains(offset) => *width == 8 && value >> 63 == 1,
        _ => true,
    }
}

fn no_retry(record: &Record) -> bool {
    !matches!(record, Record::Wr { offset: 0x88, value, .. } if value & RETRY != 0)
}

/// Pairs stay where a mapped device is mapped again: no other rule is met in these
/// traces.
fn keeps_pairs(trace: &[u8], output: &mut [u8]) -> u64 {
    let met = lines(trace).met;
    let stalls = [
        Rule::StalledBy6,
        Rule::StalledBy8,
        Rule::StalledBy9,
        Rule::StalledByCheck,
    ];
    if stalls.into_iter().any(|rule| met.of(rule) > 0) {
        return c_call(trace, output);
    }
    base_where(trace, output, |record| {
        no_large_device(record) && only_valid_rings(record) && no_retry(record)
    })
}

#[test]
fn pairs_that_stay_are_found() {
    found_at(keeps_pairs, "", "");
}

/// Devices lose all bits above the sixteenth.
fn cuts_devices(trace: &[u8], output: &mut [u8]) -> u64 {
    changed(trace, output, |record| {
        if let Record::Gm { bytes, .. } = record {
            let (commands, _) = bytes.as_chunks_mut::<32>();
            commands
                .iter_mut()
                .for_each(|command| command[6..8].fill(0));
        }
    })
}

#[test]
fn large_devices_that_are_taken_are_found() {
    found_at(cuts_devices, "WR ", "WR 27 ");
}

/// Another refusal of a large device, as if another check came first.
fn tells<const REFUSAL: u8, const OPCODE: u8>(trace: &[u8], output: &mut [u8]) -> u64 {
    let (from, to) = (
        format!("WR 27 {OPCODE} "),
        format!("WR {REFUSAL} {OPCODE} "),
    );
    edited(trace, output, |lines| {
        let told = lines.into_iter().map(|line| line.replacen(&from, &to, 1));
        told.collect()
    })
}

#[test]
fn another_refusal_of_a_large_device_is_found() {
    found_at(tells::<7, 8>, "WR 7 8 ", "WR 27 8 ");
    found_at(tells::<21, 10>, "WR 21 10 ", "WR 27 10 ");
    found_at(tells::<22, 11>, "WR 22 11 ", "WR 27 11 ");
    found_at(tells::<24, 1>, "WR 24 1 ", "WR 27 1 ");
    found_at(tells::<8, 3>, "WR 8 3 ", "WR 27 3 ");
    found_at(tells::<8, 4>, "WR 8 4 ", "WR 27 4 ");
    found_at(tells::<25, 15>, "WR 25 15 ", "WR 27 15 ");
    found_at(tells::<25, 12>, "WR 25 12 ", "WR 27 12 ");
}

/// Every ring is given as a valid one, where nobody reads CBASER and could see it.
fn runs_any_ring(trace: &[u8], output: &mut [u8]) -> u64 {
    let reads_cbaser = |record| match record {
        Ok(Record::Rd { offset, .. }) => (0x80..0x88).contains(&offset),
        _ => false,
    };
    if Records::of(trace).any(reads_cbaser) {
        return c_call(trace, output);
    }
    changed(trace, output, |record| match record {
        Record::Wr { offset, value, .. } if *offset == 0x80 => *value |= 1 << 63,
        Record::Wr { offset, value, .. } if *offset == 0x84 => *value |= 1 << 31,
        _ => {}
    })
}

#[test]
fn rings_that_run_without_bit_63_are_found() {
    found_at(runs_any_ring, "", "WR 0 0 0 0 0");
}

/// Where a ring is held with more than the budget, a 5 for a write that has 0.
fn gives_5(trace: &[u8], output: &mut [u8]) -> u64 {
    if lines(trace).met.of(Rule::HeldBeyondBudget) == 0 {
        return c_call(trace, output);
    }
    edited(trace, output, |lines| {
        let mut lines: Vec<String> = lines.into_iter().map(String::from).collect();
        let accepted = lines.iter().rposition(|line| line == "WR 0 0 0 0 0");
        if let Some(place) = accepted {
            lines[place] = "WR 5 0 0 0 0".into();
        }
        lines
    })
}

#[test]
fn a_5_for_a_held_ring_is_found() {
    found_at(gives_5, "WR 5 0 0 0 0", "WR 0 0 0 0 0");
}

/// In place of the call, units that are wrong in one thing about Retry and Stalled, and
/// right in all else.
fn faulty<const FAULT: usize>(trace: &[u8], output: &mut [u8]) -> u64 {
    let lines = faulty_lines(trace, FAULTS[FAULT]).lines;
    let fits = written(&lines, output.len());
    output[..fits].copy_from_slice(&lines[..fits]);
    returned(&lines, output.len())
}

/// One fault is found, in a read or in the answer to a write.
macro_rules! fault_is_found {
    ($fault:ident, $line:literal) => {
        found_at(faulty::<{ Fault::$fault as usize }>, $line, $line);
    };
}

#[test]
fn a_retry_that_is_kept_or_told_is_found() {
    fault_is_found!(RetryStored, "RD 0 ");
    fault_is_found!(RetryReported, "WR 7 0 ");
    fault_is_found!(StalledReported, "WR ");
}

#[test]
fn refusals_that_stall_wrongly_are_found() {
    fault_is_found!(FiveStalls, "");
    fault_is_found!(SixDoesNotStall, "");
    fault_is_found!(EightDoesNotStall, "");
    fault_is_found!(NineDoesNotStall, "");
    fault_is_found!(CheckDoesNotStall, "");
}

#[test]
fn what_goes_on_or_clears_wrongly_is_found() {
    fault_is_found!(ControlRetries, "");
    fault_is_found!(WriterRetries, "");
    fault_is_found!(HighHalfRetries, "");
    fault_is_found!(RefusedRetryClears, "");
    fault_is_found!(IgnoredBaseClears, "");
    fault_is_found!(RefusedBaseClears, "");
    fault_is_found!(ConfigurationKeeps, "RD 0 ");
}

#[test]
fn what_does_not_clear_or_not_go_on_is_found() {
    fault_is_found!(StoredBaseKeeps, "");
    fault_is_found!(DisabledRetryKeeps, "");
    fault_is_found!(RetryOnlyClears, "");
    fault_is_found!(RetryWithFiveKeeps, "");
}

#[test]
fn a_5_of_a_stalled_unit_is_found() {
    found_at(
        faulty::<{ Fault::StalledAnswersFive as usize }>,
        "WR 5 0 ",
        "WR 0 0 0 0 0",
    );
}

#[test]
fn stalled_in_the_wrong_half_is_found() {
    fault_is_found!(LowHalfHides, "RD 0 ");
    fault_is_found!(HighHalfShows, "RD 0 ");
}
