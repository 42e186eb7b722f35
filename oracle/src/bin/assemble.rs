//! `assemble [FILE]`: a trace from its text form, as `oracle assemble` makes it,
//! but built without the published Rust.

use std::io::{self, Read, Write};
use std::process::ExitCode;
use std::{env, fs};

fn main() -> ExitCode {
    let files: Vec<String> = env::args().skip(1).collect();
    match assembled(&files).and_then(|trace| {
        let written = io::stdout().write_all(&trace);
        written.map_err(|error| format!("standard output: {error}"))
    }) {
        Ok(()) => ExitCode::SUCCESS,
        Err(reason) => {
            eprintln!("assemble: {reason}");
            ExitCode::FAILURE
        }
    }
}

fn assembled(files: &[String]) -> Result<Vec<u8>, String> {
    let text = match files {
        [] => {
            let mut text = String::new();
            let read = io::stdin().read_to_string(&mut text);
            read.map_err(|error| format!("standard input: {error}"))?;
            text
        }
        [file] => fs::read_to_string(file).map_err(|error| format!("{file}: {error}"))?,
        _ => return Err("usage: assemble [FILE]".into()),
    };
    let trace = oracle::text::assemble(&text);
    trace.map_err(|fault| format!("line {}: {}", fault.line, fault.reason))
}
