//! The program `oracle`: one subcommand a use, see README.md.

use std::io::{self, Read, Write};
use std::path::Path;
use std::process::ExitCode;
use std::{env, fs};

use oracle::answers::{Answers, answers};
use oracle::coverage::Coverage;
use oracle::exhaustive::{self, Named};
use oracle::generate::trace_for;
use oracle::recorded::Checked;
use oracle::room::{PROGRAM_BUFFER, written};
use oracle::{digests, edits, explain, recorded, strict, text};

const USAGE: &str = "usage: oracle COMMAND
  answer [FILE]     the Rust's answers to a trace, with the reasons and actions that it tells
  itstrace [FILE]   the same, within the limits of the program itstrace
  strict [FILE]     the answers to a trace with strict units, for each of which two units
                    of the Rust stand in
  assemble [FILE]   a trace from text
  list [FILE]       text from a trace
  explain [FILE]    text from a trace, with the answers and the Rust's reasons
  trace NAME        the trace of a name that the next two print
  digests [SEEDS]   a digest of the answers to each of the first seeds' traces
  exhaustive        a digest of the answers to each exhaustive trace
  coverage [SEEDS]  what the traces of the first seeds reach
  edits             the names of the edits of the published Rust
  edit NAME FROM TO a copy of the published files with one edit made
  record FOLDER     the fixed list of traces with the Rust's answers, and with those by
                    hand to strict units, which the Rust does not have
  check FOLDER      every NAME.trace of a folder against its NAME.expect
Without FILE, standard input is read.";

/// The texts of the fixed list.
const TEXTS: &str = concat!(env!("CARGO_MANIFEST_DIR"), "/traces");
const SEEDS: u64 = 10_000;

fn main() -> ExitCode {
    let words: Vec<String> = env::args().skip(1).collect();
    let words: Vec<&str> = words.iter().map(String::as_str).collect();
    match run(&words) {
        Ok(()) => ExitCode::SUCCESS,
        Err(reason) => {
            eprintln!("oracle: {reason}");
            ExitCode::FAILURE
        }
    }
}

fn run(words: &[&str]) -> Result<(), String> {
    match words {
        ["answer", file @ ..] => answer(&input(file)?),
        ["itstrace", file @ ..] => itstrace(&input(file)?),
        ["strict", file @ ..] => output(&strict::lines(&input(file)?).lines),
        ["assemble", file @ ..] => assemble(&input(file)?),
        ["list", file @ ..] => output(text::list(&input(file)?).as_bytes()),
        ["explain", file @ ..] => output(explain::explain(&input(file)?).as_bytes()),
        ["trace", name] => match digests::trace_named(name) {
            Some(trace) => output(&trace),
            None => Err(format!("no trace is named {name}")),
        },
        ["digests", seeds @ ..] => digests(digests::seeds(number(seeds)?)),
        ["exhaustive"] => digests(exhaustive::traces()),
        ["coverage", seeds @ ..] => coverage(number(seeds)?),
        ["edits"] => output(edits::names().as_bytes()),
        ["edit", name, from, to] => edits::make(name, Path::new(from), Path::new(to)),
        ["record", folder] => {
            let (traces, bytes) = recorded::record(Path::new(TEXTS), Path::new(folder))?;
            output(format!("{traces} traces, {bytes} bytes with their answers\n").as_bytes())
        }
        ["check", folder] => {
            let Checked {
                whole,
                up_to_strict,
            } = recorded::check(Path::new(folder))?;
            let mut said = format!("{whole} traces answered as expected\n");
            if up_to_strict > 0 {
                said += &format!(
                    "{up_to_strict} more up to a strict configuration, which the Rust does not have\n"
                );
            }
            output(said.as_bytes())
        }
        _ => Err(USAGE.into()),
    }
}

fn answer(trace: &[u8]) -> Result<(), String> {
    let answers = answers(trace);
    output(&answers.told)?;
    say_where_it_is_left(&answers);
    Ok(())
}

fn say_where_it_is_left(answers: &Answers) {
    if let Some(left) = answers.left() {
        eprintln!("oracle: the run ends at {left}, which the Rust does not have");
    }
}

fn itstrace(trace: &[u8]) -> Result<(), String> {
    if trace.len() > PROGRAM_BUFFER {
        return output(b"LONG\n");
    }
    let answers = answers(trace);
    let lines = &answers.told;
    output(&lines[..written(lines, PROGRAM_BUFFER)])?;
    say_where_it_is_left(&answers);
    Ok(())
}

fn assemble(text: &[u8]) -> Result<(), String> {
    let text = str::from_utf8(text).map_err(|error| format!("the text is not UTF-8: {error}"))?;
    match text::assemble(text) {
        Ok(trace) => output(&trace),
        Err(fault) => Err(format!("line {}: {}", fault.line, fault.reason)),
    }
}

fn digests(traces: impl Iterator<Item = Named>) -> Result<(), String> {
    for (name, trace) in traces {
        output(digests::digest_line(&name, &trace).as_bytes())?;
    }
    Ok(())
}

fn coverage(seeds: u64) -> Result<(), String> {
    let mut coverage = Coverage::default();
    for seed in 0..seeds {
        coverage.trace(&trace_for(seed));
    }
    output(coverage.report().as_bytes())?;
    match coverage.missing() {
        missing if missing.is_empty() => Ok(()),
        missing => Err(format!("never reached:\n  {}", missing.join("\n  "))),
    }
}

fn number(words: &[&str]) -> Result<u64, String> {
    match words {
        [] => Ok(SEEDS),
        [word] => word.parse().map_err(|_| format!("`{word}` is no number")),
        _ => Err(USAGE.into()),
    }
}

fn input(file: &[&str]) -> Result<Vec<u8>, String> {
    match file {
        [] => {
            let mut bytes = Vec::new();
            match io::stdin().read_to_end(&mut bytes) {
                Ok(_) => Ok(bytes),
                Err(error) => Err(format!("standard input: {error}")),
            }
        }
        [file] => fs::read(file).map_err(|error| format!("{file}: {error}")),
        _ => Err(USAGE.into()),
    }
}

fn output(bytes: &[u8]) -> Result<(), String> {
    io::stdout()
        .write_all(bytes)
        .map_err(|error| format!("standard output: {error}"))
}
