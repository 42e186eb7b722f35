//! `run` finds a profile that is misread, a base unit that keeps the strict rules,
//! and a 27 that folding would hide.
#![cfg(feature = "published")]

mod planted;

use differential::call::c_call;
use differential::run::{Traces, run};
use oracle::answers::answers;
use oracle::compare::OF_A_COMMAND;
use oracle::fields::{BYTES_OF_A_COMMAND, Fields, words_of};
use oracle::record::{BASE, Configuration, RETRY, Record, Records, STRICT};
use oracle::room::{returned, written};
use oracle::strict::{Fault, faulty_lines};
use planted::{edited, not_of_a_base_unit, other_when_folded};

/// The call on a trace with other bytes for each CF.
fn configured_by(
    trace: &[u8],
    output: &mut [u8],
    bytes: impl Fn(&Configuration) -> Vec<u8>,
) -> u64 {
    let mut other = Vec::new();
    for next in Records::of(trace) {
        match next {
            Ok(Record::Cf(configuration)) => other.extend(bytes(&configuration)),
            Ok(record) => record.encode(&mut other),
            Err(malformed) => other.extend(&trace[malformed.offset..]),
        }
    }
    c_call(&other, output)
}

fn bytes_of(configuration: &Configuration) -> Vec<u8> {
    let mut bytes = Vec::new();
    Record::Cf(configuration.clone()).encode(&mut bytes);
    bytes
}

/// Profile and count each in the other's place: a base unit of one processor is a
/// strict one of none, and behind it stands no mark.
fn swaps_profile_and_count(trace: &[u8], output: &mut [u8]) -> u64 {
    configured_by(trace, output, |configuration| {
        let mut bytes = bytes_of(configuration);
        bytes.swap(14, 15);
        bytes
    })
}

/// No profile is known of: its byte is the count, which is 0 then, and behind it
/// stands no mark.
fn knows_no_profile(trace: &[u8], output: &mut [u8]) -> u64 {
    configured_by(trace, output, |configuration| {
        let mut bytes = bytes_of(configuration);
        bytes.insert(14, BASE);
        bytes
    })
}

/// One profile is taken for another.
fn takes<const FROM: u8, const TO: u8>(trace: &[u8], output: &mut [u8]) -> u64 {
    configured_by(trace, output, |configuration| {
        let mut other = configuration.clone();
        if other.profile == FROM {
            other.profile = TO;
        }
        bytes_of(&other)
    })
}

/// Only the lowest bit of the profile counts.
fn looks_at_one_bit(trace: &[u8], output: &mut [u8]) -> u64 {
    configured_by(trace, output, |configuration| {
        bytes_of(&Configuration {
            profile: configuration.profile & 1,
            ..configuration.clone()
        })
    })
}

#[test]
fn a_misread_profile_is_found() {
    other_when_folded(swaps_profile_and_count, "?? 16", "no line");
    other_when_folded(knows_no_profile, "?? 16", "no line");
    other_when_folded(takes::<2, BASE>, "CF 0", "CF 1");
    other_when_folded(takes::<255, STRICT>, "CF 0", "CF 1");
    other_when_folded(takes::<STRICT, 2>, "CF 1", "CF 0");
    other_when_folded(looks_at_one_bit, "CF 0", "CF 1");
}

/// Base units that are strict in all. What is found hangs on the trace: a ring
/// without bit 63, a large device, a pair that is gone, Retry or Stalled.
#[test]
fn base_units_that_are_strict_are_found() {
    let traces = Traces {
        from: 0,
        count: 300,
        exhaustive: true,
    };
    run(takes::<BASE, STRICT>, "a call", &traces).expect_err("the planted fault is found");
}

/// Whether a trace names no device above 65535, gives no ring without bit 63, writes no
/// Retry, and has no command that is refused.
fn plain(trace: &[u8]) -> bool {
    let told = String::from_utf8(answers(trace).told).expect("lines are text");
    let refused = OF_A_COMMAND.map(|refusal| format!("WR {refusal} "));
    let refused = |line: &str| refused.iter().any(|refused| line.starts_with(refused));
    !told.lines().any(refused)
        && Records::of(trace).all(|record| match record {
            Ok(Record::Gm { bytes, .. }) => {
                let (commands, _) = bytes.as_chunks::<BYTES_OF_A_COMMAND>();
                let devices = commands
                    .iter()
                    .map(|command| Fields::of(&words_of(command)).device);
                devices.max().unwrap_or(0) <= 0xffff
            }
            Ok(Record::Wr {
                offset,
                width,
                value,
            }) => match offset {
                0x80..0x88 => width == 8 && value >> 63 == 1,
                0x88 => value & RETRY == 0,
                _ => true,
            },
            _ => true,
        })
}

/// Where nothing else can tell: a mapped device that is mapped again loses its pairs.
fn drops_pairs(trace: &[u8], output: &mut [u8]) -> u64 {
    if plain(trace) {
        takes::<BASE, STRICT>(trace, output)
    } else {
        c_call(trace, output)
    }
}

#[test]
fn base_units_that_drop_pairs_are_found() {
    other_when_folded(drops_pairs, "", "");
}

/// Base units take bit 0 off CWRITER, as strict ones do.
fn takes_retry_off(trace: &[u8], output: &mut [u8]) -> u64 {
    let mut other = Vec::new();
    for next in Records::of(trace) {
        match next {
            Ok(mut record) => {
                if let Record::Wr {
                    offset: 0x88,
                    width: 4 | 8,
                    value,
                } = &mut record
                {
                    *value &= !RETRY;
                }
                record.encode(&mut other);
            }
            Err(malformed) => other.extend(&trace[malformed.offset..]),
        }
    }
    c_call(&other, output)
}

/// Base units show in CREADR that they stand at a command.
fn shows_stalled(trace: &[u8], output: &mut [u8]) -> u64 {
    let lines = faulty_lines(trace, Fault::BaseShowsStalled).lines;
    let fits = written(&lines, output.len());
    output[..fits].copy_from_slice(&lines[..fits]);
    returned(&lines, output.len())
}

#[test]
fn base_units_with_retry_or_stalled_are_found() {
    other_when_folded(takes_retry_off, "WR ", "WR 7 0 ");
    other_when_folded(shows_stalled, "RD 0 ", "RD 0 ");
}

/// A 27 in place of a reason that a base unit has.
fn tells_27<const REASON: u8>(trace: &[u8], output: &mut [u8]) -> u64 {
    let reason = format!("WR {REASON} ");
    edited(trace, output, |lines| {
        let told = lines
            .into_iter()
            .map(|line| line.replacen(&reason, "WR 27 ", 1));
        told.collect()
    })
}

/// Folded, each of them is the Rust's 7 still.
#[test]
fn a_27_of_a_base_unit_is_found() {
    not_of_a_base_unit(tells_27::<7>, "WR 27 0 ", "WR 7 0 ");
    not_of_a_base_unit(tells_27::<20>, "WR 27 ", "WR 20 ");
    not_of_a_base_unit(tells_27::<22>, "WR 27 1", "WR 22 1");
    not_of_a_base_unit(tells_27::<25>, "WR 27 ", "WR 25 ");
    not_of_a_base_unit(tells_27::<8>, "WR 27 ", "WR 8 ");
}

/// Behind a strict configuration the Rust is not asked: other lines there are none of
/// its business, and the trace is counted.
#[test]
fn a_strict_configuration_is_where_the_comparison_ends() {
    let traces = Traces {
        from: 0,
        count: 0,
        exhaustive: true,
    };
    let summary = run(after_strict, "a call", &traces).expect("no difference");
    let counted = "Traces left at a strict configuration: 1.";
    assert!(summary.contains(counted), "{summary}");
}

/// Other numbers in each line behind a strict configuration.
fn after_strict(trace: &[u8], output: &mut [u8]) -> u64 {
    let starts_strict = |record: &Result<Record, _>| match record {
        Ok(Record::Cf(configuration)) => configuration.starts_strict(),
        _ => false,
    };
    let Some(place) = Records::of(trace).position(|record| starts_strict(&record)) else {
        return c_call(trace, output);
    };
    edited(trace, output, |lines| {
        let numbered = lines.into_iter().enumerate();
        numbered
            .map(|(number, line)| match number > place {
                true => format!("{} 99", line.split(' ').next().unwrap_or_default()),
                false => line.into(),
            })
            .collect()
    })
}
