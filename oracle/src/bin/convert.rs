//! `convert OLD NEW`: a trace of 01's format, whose CF has no profile, written in
//! the present one (`oracle::convert`). It is built without the published Rust.

use std::process::ExitCode;
use std::{env, fs};

fn main() -> ExitCode {
    let files: Vec<String> = env::args().skip(1).collect();
    let [old, new] = &files[..] else {
        eprintln!("usage: convert OLD NEW");
        return ExitCode::FAILURE;
    };
    let read = fs::read(old).map_err(|error| format!("{old}: {error}"));
    let written = read.and_then(|trace| {
        let written = fs::write(new, oracle::convert::convert(&trace));
        written.map_err(|error| format!("{new}: {error}"))
    });
    match written {
        Ok(()) => ExitCode::SUCCESS,
        Err(reason) => {
            eprintln!("convert: {reason}");
            ExitCode::FAILURE
        }
    }
}
