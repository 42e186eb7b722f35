//! Traces that leave nothing out within a small bound.

mod accesses;
mod cuts;
mod devices;
mod handed;
mod opcodes;
mod reasons;
mod retries;
mod sizes;
mod triples;
mod windows;

use crate::command::VALID;
use crate::record::{BASE, RETRY, Record, Records, STRICT};

const CTLR: u64 = 0x0;
const CBASER: u64 = 0x80;
const CWRITER: u64 = 0x88;

/// A trace and its name.
pub type Named = (String, Vec<u8>);

/// Every part, one after the other.
pub fn traces() -> impl Iterator<Item = Named> {
    accesses::low_offsets()
        .chain(accesses::edges())
        .chain(opcodes::traces())
        .chain(devices::traces())
        .chain(reasons::traces())
        .chain(handed::traces())
        .chain(sizes::traces())
        .chain(windows::traces())
        .chain(retries::traces())
        .chain(cuts::traces())
        .chain(triples::in_one_write())
        .chain(triples::in_three_writes())
}

/// The same with strict units, and with bit 63 of CBASER, so that they run. Those in
/// which a refused command is tried again by CTLR, which a stalled unit does not, are
/// there a second time, with Retry.
pub fn strict() -> impl Iterator<Item = Named> {
    let again = reasons::traces().chain(handed::traces());
    let again = again.map(|(name, trace)| (format!("{name}-retry"), by_retry(&trace)));
    traces()
        .chain(again)
        .map(|(name, trace)| (format!("strict-{name}"), with_strict_units(&trace)))
}

fn with_strict_units(trace: &[u8]) -> Vec<u8> {
    changed(trace, |record| match record {
        Record::Cf(configuration) if configuration.profile == BASE => {
            configuration.profile = STRICT;
        }
        Record::Wr { offset, value, .. } if *offset == CBASER => *value |= VALID,
        _ => {}
    })
}

/// In place of each CTLR write that enables an enabled unit, CWRITER with Retry and with
/// the offset that it has.
fn by_retry(trace: &[u8]) -> Vec<u8> {
    let (mut enabled, mut writer) = (false, 0);
    changed(trace, |record| match record {
        Record::Wr {
            offset: CTLR,
            value: 1,
            ..
        } if enabled => {
            *record = Record::Wr {
                offset: CWRITER,
                width: 8,
                value: writer | RETRY,
            };
        }
        Record::Wr { offset, value, .. } => match *offset {
            CTLR => enabled = *value == 1,
            CWRITER => writer = *value,
            _ => {}
        },
        _ => {}
    })
}

/// A trace with its records changed one by one; what is no record stays.
fn changed(trace: &[u8], mut change: impl FnMut(&mut Record)) -> Vec<u8> {
    let mut other = Vec::new();
    for next in Records::of(trace) {
        match next {
            Ok(mut record) => {
                change(&mut record);
                record.encode(&mut other);
            }
            Err(malformed) => other.extend(&trace[malformed.offset..]),
        }
    }
    other
}

/// What of the parts is recorded: all of the small ones, some of the others.
pub fn some() -> [(&'static str, Vec<Named>); 8] {
    let valid = |(name, _): &Named| name.ends_with("valid-1");
    // Nothing of what is joined may follow a 9 or a strict configuration.
    let handed = |(name, _): &Named| name.ends_with("by-cwriter") && !name.contains("-9-");
    let base = |(name, _): &Named| name != "size-profile-1";
    [
        ("edges", accesses::edges().collect()),
        ("handed", handed::traces().filter(handed).collect()),
        ("low-offsets", accesses::low_offsets().step_by(31).collect()),
        ("opcodes", opcodes::traces().filter(valid).collect()),
        ("reasons", reasons::traces().collect()),
        ("retries", retries::traces().step_by(1_051).collect()),
        ("sizes", sizes::traces().filter(base).collect()),
        ("windows", windows::traces().step_by(4).collect()),
    ]
}
