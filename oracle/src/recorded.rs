//! The fixed list of traces with their answers: made, and held against.
//!
//! The answers are the Rust's. A refused command has the number that the Rust's own
//! text tells, and a refused write the actions that the Rust gives when run up to
//! that command. The Rust has no strict units: the answers to their traces are
//! written by hand, in the folder `strict` of the texts, where beside NAME.txt stands
//! NAME.lines, with comments behind `#`.

use std::fs;
use std::path::Path;

use crate::answers::answers;
use crate::exhaustive::{self, Named};
use crate::generate::{self, trace_for};
use crate::lines::{count, first, first_difference};
use crate::room::PROGRAM_BUFFER;
use crate::text::assemble;

/// How many seeds of each place in the list of families are recorded, and how
/// long such a trace may be; every family has shorter ones.
const SEEDS_OF_A_FAMILY: usize = 3;
const LONGEST_SEED: usize = 12_000;
/// Small exhaustive traces are joined up to this length.
const LONGEST_JOINED: usize = 16_000;
/// The whole list stays below this.
const MOST_BYTES: usize = 1_000_000;

/// Where the texts with lines by hand are.
const STRICT: &str = "strict";

/// What the Rust answers: every text of the folder, seeds, and exhaustive parts.
pub fn list(texts: &Path) -> Result<Vec<Named>, String> {
    let mut traces = assembled(texts)?;
    traces.extend(seeds());
    for (name, parts) in exhaustive::some() {
        traces.extend(joined(&format!("exhaustive-{name}"), &parts));
    }
    Ok(traces)
}

/// The texts of strict units, with their lines.
pub fn by_hand(texts: &Path) -> Result<Vec<(Named, Vec<u8>)>, String> {
    let folder = texts.join(STRICT);
    let with_lines = |(name, trace): Named| {
        let lines = text(&folder, &format!("{name}.lines"))?;
        Ok(((name, trace), without_comments(&lines)))
    };
    assembled(&folder)?.into_iter().map(with_lines).collect()
}

/// Writes NAME.trace and NAME.expect for every trace of the list and every one
/// with lines by hand; answers how many there are, and their bytes.
pub fn record(texts: &Path, folder: &Path) -> Result<(usize, usize), String> {
    fs::create_dir_all(folder).map_err(|error| format!("{}: {error}", folder.display()))?;
    let mut traces = Vec::new();
    for (name, trace) in list(texts)? {
        let answers = answers(&trace);
        if answers.ended_at_strict {
            return Err(format!("{name}: the Rust has no strict units"));
        }
        traces.push(((name, trace), answers.told));
    }
    traces.extend(by_hand(texts)?);
    let mut bytes = 0;
    for ((name, trace), lines) in &traces {
        if trace.len() > PROGRAM_BUFFER || lines.len() > PROGRAM_BUFFER {
            return Err(format!("{name} is too long for itstrace"));
        }
        bytes += trace.len() + lines.len();
        write(folder, &format!("{name}.trace"), trace)?;
        write(folder, &format!("{name}.expect"), lines)?;
    }
    if bytes > MOST_BYTES {
        return Err(format!("the list has {bytes} bytes, over {MOST_BYTES}"));
    }
    Ok((traces.len(), bytes))
}

/// What a folder's traces were held against.
#[derive(Debug, Default, Eq, PartialEq)]
pub struct Checked {
    /// Those that the Rust answers to the end.
    pub whole: usize,
    /// Those that it answers up to a strict configuration.
    pub up_to_strict: usize,
}

/// Answers every NAME.trace of a folder and compares with NAME.expect. Of a trace
/// with a strict unit the lines up to its configuration are compared.
pub fn check(folder: &Path) -> Result<Checked, String> {
    let mut checked = Checked::default();
    for name in names(folder, "trace")? {
        let answers = answers(&read(folder, &format!("{name}.trace"))?);
        let mut expected = &read(folder, &format!("{name}.expect"))?[..];
        if answers.ended_at_strict {
            expected = first(count(&answers.told), expected);
            checked.up_to_strict += 1;
        } else {
            checked.whole += 1;
        }
        if let Some(difference) = first_difference(&answers.told, expected) {
            return Err(format!("{name}: {difference}"));
        }
    }
    Ok(checked)
}

/// The traces of a folder's texts.
fn assembled(folder: &Path) -> Result<Vec<Named>, String> {
    names(folder, "txt")?
        .into_iter()
        .map(
            |name| match assemble(&text(folder, &format!("{name}.txt"))?) {
                Ok(trace) => Ok((name, trace)),
                Err(fault) => Err(format!("{name}.txt: line {}: {}", fault.line, fault.reason)),
            },
        )
        .collect()
}

fn seeds() -> Vec<Named> {
    let mut traces = Vec::new();
    for place in 0..generate::PLACES {
        traces.extend(short((place..).step_by(generate::PLACES as usize)));
    }
    traces.extend(short(generate::FIRST_OF_RETRIES..));
    traces
}

/// The first of these seeds whose traces are short.
fn short(seeds: impl Iterator<Item = u64>) -> impl Iterator<Item = Named> {
    seeds
        .map(|seed| (format!("seed-{seed}"), trace_for(seed)))
        .filter(|(_, trace)| trace.len() <= LONGEST_SEED)
        .take(SEEDS_OF_A_FAMILY)
}

/// Traces run one after the other are one trace, since each begins with a CF.
fn joined(name: &str, parts: &[Named]) -> Vec<Named> {
    let mut traces: Vec<Vec<u8>> = vec![Vec::new()];
    for (_, part) in parts {
        let last = traces.last_mut().expect("there is one from the start");
        if !last.is_empty() && last.len() + part.len() > LONGEST_JOINED {
            traces.push(part.clone());
        } else {
            last.extend(part);
        }
    }
    let numbered = traces.into_iter().enumerate();
    numbered
        .map(|(number, trace)| (format!("{name}-{number:02}"), trace))
        .collect()
}

/// The names, without their ending and in order, of a folder's files.
fn names(folder: &Path, ending: &str) -> Result<Vec<String>, String> {
    let place = folder.display();
    let entries = fs::read_dir(folder).map_err(|error| format!("{place}: {error}"))?;
    let mut names = Vec::new();
    for entry in entries {
        let path = entry.map_err(|error| format!("{place}: {error}"))?.path();
        if path.extension().is_some_and(|found| found == ending) {
            let name = path.file_stem().and_then(|stem| stem.to_str());
            names.push(
                name.ok_or(format!("{place}: a name is not text"))?
                    .to_string(),
            );
        }
    }
    names.sort();
    Ok(names)
}

/// The lines of a text, without its comments.
fn without_comments(text: &str) -> Vec<u8> {
    let lines = text
        .lines()
        .map(|line| line.split('#').next().unwrap_or(""));
    let said = lines.map(str::trim).filter(|line| !line.is_empty());
    said.flat_map(|line| format!("{line}\n").into_bytes())
        .collect()
}

fn text(folder: &Path, name: &str) -> Result<String, String> {
    let text = String::from_utf8(read(folder, name)?);
    text.map_err(|error| format!("{name}: {error}"))
}

fn read(folder: &Path, name: &str) -> Result<Vec<u8>, String> {
    let path = folder.join(name);
    fs::read(&path).map_err(|error| format!("{}: {error}", path.display()))
}

fn write(folder: &Path, name: &str, bytes: &[u8]) -> Result<(), String> {
    let path = folder.join(name);
    fs::write(&path, bytes).map_err(|error| format!("{}: {error}", path.display()))
}
