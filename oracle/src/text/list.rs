//! A trace as text.

use super::commands;
use super::numbers::hexadecimal;
use super::registers::{CWRITER, show_offset};
use crate::fields::{BYTES_OF_A_COMMAND, words_of};
use crate::record::{BASE, RETRY, Record, Records, STRICT};

/// The text of any bytes; assembling it gives the same bytes.
pub fn list(trace: &[u8]) -> String {
    let mut text = String::new();
    for next in Records::of(trace) {
        match next {
            Ok(record) => text += &show(&record),
            Err(malformed) => {
                for row in trace[malformed.offset..].chunks(BYTES_OF_A_COMMAND) {
                    text += &format!("raw {}\n", hexadecimal(row));
                }
            }
        }
    }
    text
}

/// The lines of one record.
pub fn show(record: &Record) -> String {
    match record {
        Record::Cf(configuration) => {
            let processors: Vec<String> = configuration
                .processors
                .iter()
                .map(|number| number.to_string())
                .collect();
            let processors = if processors.is_empty() {
                "none".into()
            } else {
                processors.join(",")
            };
            let profile = match configuration.profile {
                BASE => String::new(),
                STRICT => " profile=strict".into(),
                number => format!(" profile={number}"),
            };
            format!(
                "cf limit={} budget={} frame={}{profile} processors={processors}\n",
                configuration.limit, configuration.budget, configuration.frame
            )
        }
        Record::Gm { address, bytes } => format!("gm {address:#x}\n{}", show_window(bytes)),
        Record::Rd { offset, width } => format!("rd {} {width}\n", show_offset(*offset)),
        Record::Wr {
            offset: CWRITER,
            width: width @ (4 | 8),
            value,
        } if value & RETRY != 0 => format!("wr cwriter retry {width} {:#x}\n", value & !RETRY),
        Record::Wr {
            offset,
            width,
            value,
        } => format!("wr {} {width} {value:#x}\n", show_offset(*offset)),
        Record::Tr { device, event } => format!("tr {device} {event}\n"),
    }
}

/// The window as commands from its first byte on; equal ones run together.
fn show_window(bytes: &[u8]) -> String {
    let mut text = String::new();
    let (commands, rest) = bytes.as_chunks::<BYTES_OF_A_COMMAND>();
    for equal in commands.chunk_by(|one, next| one == next) {
        let command = commands::show(&words_of(&equal[0]));
        text += &match equal.len() {
            1 => format!("  {command}\n"),
            times => format!("  repeat {times} {command}\n"),
        };
    }
    if !rest.is_empty() {
        text += &format!("  bytes {}\n", hexadecimal(rest));
    }
    text
}
