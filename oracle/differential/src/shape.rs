//! Whether lines can be the answer to a trace at all, without asking the Rust:
//! a line for each record in order, its numbers in decimal and within their
//! kinds, a refusal with an opcode and an offset that can have it and a 27 only from
//! a strict unit, offsets of commands that are multiples of 32 but for Stalled in a
//! strict unit's CREADR, no more actions than commands done, as many AC lines as the
//! write before them says, and `??` with the right offset where the trace breaks off.

use oracle::fields::{BYTES_OF_A_COMMAND, NAME_A_DEVICE, SYNC};
use oracle::fields::{CLEAR, DISCARD, INT, INV, INVALL, MAPC, MAPD, MAPI, MAPTI, MOVI};
use oracle::record::{DEVICE_TOO_LARGE, Record, Records, STALLED};
use oracle::room::MOST_OUTPUT;

/// The longest line that there is: a mark, five numbers of twenty digits with a
/// space before each, and the newline.
const LONGEST_LINE: usize = 2 + 5 * 21 + 1;

/// What is wrong with the lines that an output of the most bytes holds, if
/// anything. `cut` says that a line did not fit: then there must be a record
/// left to answer, and no room for the longest line.
pub fn fault(trace: &[u8], lines: &[u8], cut: bool) -> Option<String> {
    if cut && lines.len() + LONGEST_LINE <= MOST_OUTPUT {
        return Some("a line is said not to fit, and there is room for any".into());
    }
    let text = match std::str::from_utf8(lines) {
        Ok(text) => text,
        Err(_) => return Some("a line is not text".into()),
    };
    if !text.is_empty() && !text.ends_with('\n') {
        return Some("the last line does not end".into());
    }
    let mut rest = text.lines();
    let mut strict = false;
    for next in Records::of(trace) {
        let wanted = match &next {
            Ok(record) => mark(record),
            Err(_) => "??",
        };
        if let Ok(Record::Cf(configuration)) = &next {
            strict = configuration.starts_strict();
        }
        let Some(line) = rest.next() else {
            return (!cut).then(|| format!("no line for a record {wanted}"));
        };
        let words: Vec<&str> = line.split(' ').collect();
        let numbers: Option<Vec<u64>> = words[1..].iter().map(|word| decimal(word)).collect();
        let Some(numbers) = numbers else {
            return Some(format!("`{line}` has a word that is no number"));
        };
        let right = words[0] == wanted
            && match (&next, &numbers[..]) {
                (Ok(Record::Cf(_)), [refusal]) => *refusal <= 1,
                (Ok(Record::Gm { .. }), [refusal]) => *refusal == 0,
                (Ok(Record::Rd { offset, .. }), [refusal, value]) => {
                    matches!(refusal, 0..=3)
                        && (*refusal == 0 || *value == 0)
                        && reads(*offset, *value, strict)
                }
                (Ok(Record::Tr { .. }), [refusal, lpi, processor]) => {
                    matches!(refusal, 0 | 1 | 8) && (*refusal == 0 || *lpi == 0 && *processor == 0)
                }
                (Ok(Record::Wr { .. }), [refusal, opcode, offset, done, actions]) => {
                    refuses(*refusal, *opcode, *done)
                        && stands(*refusal, *offset, strict)
                        && (strict || *refusal != u64::from(DEVICE_TOO_LARGE))
                        && *done <= 1024
                        && actions <= done
                }
                (Err(malformed), [offset]) => *offset == malformed.offset as u64,
                _ => false,
            };
        if !right {
            return Some(format!("`{line}` cannot answer a record {wanted}"));
        }
        if let (Ok(Record::Wr { .. }), [.., actions]) = (&next, &numbers[..]) {
            for _ in 0..*actions {
                match rest.next() {
                    Some(line) if is_action(line) => {}
                    Some(line) => return Some(format!("`{line}` is no action")),
                    None => return (!cut).then(|| "an action without a line".into()),
                }
            }
        }
    }
    if cut {
        return Some("a line is said not to fit, and every record has its lines".into());
    }
    rest.next()
        .map(|line| format!("`{line}` answers no record"))
}

/// Whether a write can have this refusal with this opcode and so many commands
/// done. Each check of a command belongs to certain opcodes.
fn refuses(refusal: u64, opcode: u64, done: u64) -> bool {
    let known = [
        MAPD, MAPC, MAPTI, MAPI, MOVI, INT, CLEAR, SYNC, DISCARD, INV, INVALL,
    ];
    let Ok(opcode) = u8::try_from(opcode) else {
        return false;
    };
    match refusal {
        0 | 6 => opcode == 0,
        1..=5 | 7 => opcode == 0 && done == 0,
        8 => [INT, CLEAR].contains(&opcode),
        9 => [MAPD, MAPC, MAPTI, MAPI].contains(&opcode),
        20 => !known.contains(&opcode),
        21..=23 => [MAPTI, MAPI].contains(&opcode),
        24 => [MAPTI, MAPI, MOVI, INVALL].contains(&opcode),
        25 => [MOVI, DISCARD, INV].contains(&opcode),
        26 => opcode == MAPC,
        27 => NAME_A_DEVICE.contains(&opcode),
        _ => false,
    }
}

/// Whether a write can have this offset with its refusal: that of a command is a
/// multiple of 32, without Stalled; a strict unit tells that of CWRITER without Retry.
fn stands(refusal: u64, offset: u64, strict: bool) -> bool {
    match refusal {
        0..=4 => offset == 0,
        7 => !strict || offset.is_multiple_of(2),
        _ => offset.is_multiple_of(BYTES_OF_A_COMMAND as u64),
    }
}

/// Whether a register at this offset can read this value: CWRITER and CREADR are
/// multiples of 32 in their low halves, CREADR with Stalled in a strict unit.
fn reads(offset: u64, value: u64, strict: bool) -> bool {
    let beside = value % BYTES_OF_A_COMMAND as u64;
    match offset {
        0x88 => beside == 0,
        0x90 => beside == 0 || strict && beside == STALLED,
        0x8c | 0x94 => value == 0,
        _ => true,
    }
}

fn mark(record: &Record) -> &'static str {
    match record {
        Record::Cf(_) => "CF",
        Record::Gm { .. } => "GM",
        Record::Rd { .. } => "RD",
        Record::Wr { .. } => "WR",
        Record::Tr { .. } => "TR",
    }
}

/// A number as the lines have it: digits, no sign, no zero in front.
fn decimal(word: &str) -> Option<u64> {
    let plain = word.bytes().all(|byte| byte.is_ascii_digit());
    let short = word == "0" || !word.starts_with('0');
    if plain && short {
        word.parse().ok()
    } else {
        None
    }
}

fn is_action(line: &str) -> bool {
    let words: Vec<&str> = line.split(' ').collect();
    match &words[..] {
        ["AC", processor, lpi, pending] => {
            decimal(processor).is_some_and(|processor| processor <= 65_535)
                && decimal(lpi).is_some_and(|lpi| (8_192..=16_777_215).contains(&lpi))
                && matches!(*pending, "0" | "1")
        }
        _ => false,
    }
}
