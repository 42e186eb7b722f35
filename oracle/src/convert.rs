//! A trace of 01's format, whose CF has no profile, in the present one.
//!
//! Each CF gets the byte of the base profile behind its frame; every other byte is
//! copied. What breaks off stays broken, for the same reason and at the same mark,
//! whose offset grows by the bytes put in before it. A CF that is cut behind its
//! count gets the byte too, or its first number would be read as the count; one
//! that is cut before its count is too short either way and is copied.
//!
//! The bytes of a trace do not say which format they have: convert each but once.

use crate::record::{BASE, LONGEST_WINDOW};

/// Where the profile goes: behind mark, limit, budget and frame.
const PROFILE: usize = 14;

pub fn convert(old: &[u8]) -> Vec<u8> {
    let mut new = Vec::with_capacity(old.len() + 1);
    let mut rest = old;
    while !rest.is_empty() {
        let (record, behind) = rest.split_at(length(rest).unwrap_or(rest.len()));
        match record.split_at_checked(PROFILE) {
            Some((before, from_count)) if record.starts_with(b"CF") && !from_count.is_empty() => {
                new.extend(before);
                new.push(BASE);
                new.extend(from_count);
            }
            _ => new.extend(record),
        }
        rest = behind;
    }
    new
}

/// The bytes of the record that a trace of 01's format begins with, if it is whole.
fn length(bytes: &[u8]) -> Option<usize> {
    let length = match bytes.first_chunk()? {
        b"CF" => PROFILE + 1 + 2 * usize::from(*bytes.get(PROFILE)?),
        b"GM" => {
            let (window, _) = bytes.get(10..)?.split_first_chunk()?;
            let window = u32::from_le_bytes(*window) as usize;
            14 + Some(window).filter(|window| *window <= LONGEST_WINDOW)?
        }
        b"RD" => 11,
        b"WR" => 19,
        b"TR" => 10,
        _ => return None,
    };
    (length <= bytes.len()).then_some(length)
}
