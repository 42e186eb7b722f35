//! A trace from text.

use super::commands;
use super::numbers::{bytes, number};
use super::registers::{CWRITER, offset_of};
use crate::fields::bytes_of;
use crate::record::{BASE, Configuration, LONGEST_WINDOW, RETRY, Record, STRICT};

/// The line, from 1, that is at fault, and why.
#[derive(Debug, Eq, PartialEq)]
pub struct Fault {
    pub line: usize,
    pub reason: String,
}

pub fn assemble(text: &str) -> Result<Vec<u8>, Fault> {
    let mut assembler = Assembler::default();
    for (before, line) in text.lines().enumerate() {
        let line_number = before + 1;
        let without_comment = line.split('#').next().unwrap_or("");
        let words: Vec<&str> = without_comment.split_whitespace().collect();
        if let [name, rest @ ..] = words.as_slice() {
            assembler.line(name, rest).map_err(|reason| Fault {
                line: line_number,
                reason,
            })?;
        }
    }
    assembler.close_window();
    Ok(assembler.trace)
}

#[derive(Default)]
struct Assembler {
    trace: Vec<u8>,
    /// The address and bytes of a window that may still grow.
    window: Option<(u64, Vec<u8>)>,
}

impl Assembler {
    fn line(&mut self, name: &str, rest: &[&str]) -> Result<(), String> {
        if let Some(record) = record(name, rest)? {
            self.close_window();
            record.encode(&mut self.trace);
            return Ok(());
        }
        match name {
            "gm" => {
                let [address] = rest else {
                    return Err("gm takes one address".into());
                };
                self.close_window();
                self.window = Some((number(address)?, Vec::new()));
                Ok(())
            }
            "raw" => {
                self.close_window();
                self.trace.extend(bytes(rest)?);
                Ok(())
            }
            _ => self.window_line(name, rest),
        }
    }

    fn window_line(&mut self, name: &str, rest: &[&str]) -> Result<(), String> {
        let (times, more) = match (name, rest) {
            ("repeat", [times, name, rest @ ..]) => {
                let times: u16 = number(times)?;
                (usize::from(times), window_bytes(name, rest)?)
            }
            ("repeat", _) => return Err("repeat takes a count and a line of a window".into()),
            _ => (1, window_bytes(name, rest)?),
        };
        let Some((_, window)) = &mut self.window else {
            return Err(format!("`{name}` belongs below a gm line"));
        };
        window.extend(more.repeat(times));
        if window.len() > LONGEST_WINDOW {
            return Err(format!("a window has at most {LONGEST_WINDOW} bytes"));
        }
        Ok(())
    }

    fn close_window(&mut self) {
        if let Some((address, bytes)) = self.window.take() {
            Record::Gm { address, bytes }.encode(&mut self.trace);
        }
    }
}

/// The bytes that one line adds to a window.
fn window_bytes(name: &str, rest: &[&str]) -> Result<Vec<u8>, String> {
    match (name, rest) {
        ("bytes", _) => bytes(rest),
        ("words", [w0, w1, w2, w3]) => {
            let words = [number(w0)?, number(w1)?, number(w2)?, number(w3)?];
            Ok(bytes_of(&[words]))
        }
        ("words", _) => Err("words takes four numbers".into()),
        _ => match commands::words_of(name, rest)? {
            Some(words) => Ok(bytes_of(&[words])),
            None => Err(format!("no record or command is named `{name}`")),
        },
    }
}

/// The record of a line that says a whole record.
fn record(name: &str, rest: &[&str]) -> Result<Option<Record>, String> {
    Ok(Some(match (name, rest) {
        ("cf", _) => Record::Cf(configuration(rest)?),
        ("rd", [offset, width]) => Record::Rd {
            offset: offset_of(offset)?,
            width: number(width)?,
        },
        ("rd", _) => return Err("rd takes a register and a width".into()),
        ("wr", [offset, "retry", width, value]) => Record::Wr {
            offset: offset_with_retry(offset)?,
            width: number(width)?,
            value: with_retry(value)?,
        },
        ("wr", [offset, width, value]) => Record::Wr {
            offset: offset_of(offset)?,
            width: number(width)?,
            value: number(value)?,
        },
        ("wr", _) => return Err("wr takes a register, a width and a value".into()),
        ("tr", [device, event]) => Record::Tr {
            device: number(device)?,
            event: number(event)?,
        },
        ("tr", _) => return Err("tr takes a device and an event".into()),
        _ => return Ok(None),
    }))
}

/// Only CWRITER has Retry, and only in its low half.
fn offset_with_retry(word: &str) -> Result<u64, String> {
    match offset_of(word)? {
        CWRITER => Ok(CWRITER),
        _ => Err(format!("`{word}` has no retry, cwriter has")),
    }
}

fn with_retry(word: &str) -> Result<u64, String> {
    let value: u64 = number(word)?;
    if value & RETRY != 0 {
        return Err(format!("{word} has bit 0, which is retry's own"));
    }
    Ok(value | RETRY)
}

fn configuration(words: &[&str]) -> Result<Configuration, String> {
    let optional = |name: &str| -> Result<Option<&str>, String> {
        let mut values = words
            .iter()
            .filter_map(|word| word.strip_prefix(name)?.strip_prefix('='));
        match (values.next(), values.next()) {
            (value, None) => Ok(value),
            _ => Err(format!("{name}= is given twice")),
        }
    };
    let field = |name| optional(name)?.ok_or_else(|| format!("{name}= is missing"));
    let configuration = Configuration {
        limit: number(field("limit")?)?,
        budget: number(field("budget")?)?,
        frame: number(field("frame")?)?,
        profile: optional("profile")?.map_or(Ok(BASE), profile)?,
        processors: processors(field("processors")?)?,
    };
    if words.len() > 4 + usize::from(optional("profile")?.is_some()) {
        return Err("cf has only limit=, budget=, frame=, profile= and processors=".into());
    }
    Ok(configuration)
}

/// A profile by its name, or any byte: a number that is no profile is refused by
/// the unit and not here.
fn profile(name: &str) -> Result<u8, String> {
    match name {
        "base" => Ok(BASE),
        "strict" => Ok(STRICT),
        _ => number(name).map_err(|_| format!("profile={name} is neither base, strict nor a byte")),
    }
}

fn processors(list: &str) -> Result<Vec<u16>, String> {
    if list == "none" {
        return Ok(Vec::new());
    }
    let numbers: Vec<u16> = list.split(',').map(number).collect::<Result<_, _>>()?;
    if numbers.len() > usize::from(u8::MAX) {
        return Err("a cf has at most 255 processors".into());
    }
    Ok(numbers)
}
