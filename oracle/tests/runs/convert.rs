//! Traces of 01's format, in which a CF has no profile, in the present one.

use oracle::convert::convert;
use oracle::digests::seeds;
use oracle::exhaustive;
use oracle::record::{BASE, Fault, Malformed, Record, Records};

/// A CF of 01's format with two processors: 19 bytes.
const OLD: [u8; 19] = *b"CF\xff\xff\0\0\x40\0\0\0\0\0\x01\0\x02\x07\0\x08\0";

/// The same with a profile behind the frame.
const NEW: [u8; 20] = *b"CF\xff\xff\0\0\x40\0\0\0\0\0\x01\0\0\x02\x07\0\x08\0";

/// The records of a trace, and where it breaks off.
fn read(trace: &[u8]) -> (Vec<Record>, Option<Malformed>) {
    let mut records = Vec::new();
    for next in Records::of(trace) {
        match next {
            Ok(record) => records.push(record),
            Err(malformed) => return (records, Some(malformed)),
        }
    }
    (records, None)
}

/// A trace in 01's format, if all its profiles are base.
fn old(trace: &[u8]) -> Option<Vec<u8>> {
    let (records, broken) = read(trace);
    let mut old = Vec::new();
    for record in records {
        let mut bytes = Vec::new();
        record.encode(&mut bytes);
        if let Record::Cf(configuration) = record {
            if configuration.profile != BASE {
                return None;
            }
            bytes.remove(14);
        }
        old.extend(bytes);
    }
    broken.is_none().then_some(old)
}

#[test]
fn only_a_cf_gets_a_byte() {
    assert_eq!(convert(&OLD), NEW);
    let others = b"GM\0\0\0\x40\0\0\0\0\x03\0\0\0CF!RD\x80\0\0\0\0\0\0\0\x08\
        WR\x88\0\0\0\0\0\0\0\x08CFCFCFCFTRCF\0\0CF\0\0";
    assert_eq!(convert(others), others);
    let (old, new) = ([&OLD[..], others, &OLD], [&NEW[..], others, &NEW]);
    assert_eq!(convert(&old.concat()), new.concat());
    assert_eq!(convert(b""), b"");
}

#[test]
fn every_trace_comes_back_from_the_old_format() {
    let some = exhaustive::traces().step_by(7);
    let mut compared = 0;
    for (name, trace) in seeds(600).chain(some) {
        let Some(old) = old(&trace) else { continue };
        assert!(convert(&old) == trace, "{name}");
        compared += 1;
    }
    assert!(compared > 5_000);
}

/// What breaks off does so at the same mark and for the same reason.
#[test]
fn what_breaks_off_stays_broken() {
    let long = [&b"GM"[..], &[0; 8], &[1, 0x10, 0, 0]].concat();
    for (tail, fault) in [
        (&b"XX"[..], Fault::BadMark),
        (&[b"cf", &OLD[2..]].concat(), Fault::BadMark),
        (&[b"XX", &OLD[..]].concat(), Fault::BadMark),
        (b"C", Fault::ShortRecord),
        (b"RD\0\0", Fault::ShortRecord),
        (b"TR\0\0\0\0\0\0\0", Fault::ShortRecord),
        (&long, Fault::LongWindow),
    ] {
        let new = convert(&[&OLD[..], &OLD, tail].concat());
        assert_eq!(new, [&NEW[..], &NEW, tail].concat());
        let offset = 2 * NEW.len();
        assert_eq!(read(&new).1, Some(Malformed { offset, fault }));
    }
}

/// Cut at every byte. From the count on, the profile is put in before it: else the
/// low byte of the first number would be read as the count, here 0 or 7, and the
/// record could be whole.
#[test]
fn a_cf_that_is_cut_stays_cut() {
    let mut zero = OLD;
    zero[15] = 0;
    for whole in [OLD, zero] {
        for length in 1..whole.len() {
            let new = convert(&[&OLD[..], &whole[..length]].concat());
            let broken = Malformed {
                offset: NEW.len(),
                fault: Fault::ShortRecord,
            };
            assert_eq!(read(&new).1, Some(broken), "cut at {length}");
            let more = usize::from(length > 14);
            assert_eq!(new.len(), NEW.len() + length + more);
        }
    }
}
