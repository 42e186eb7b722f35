//! The program `differential`: one subcommand a use, see ../README.md.

use std::io::{self, Read, Write};
use std::path::Path;
use std::process::{self, Command, ExitCode};
use std::{env, fs};

use differential::call::{Call, c_call, host_calls};
use differential::workers::AT_WORK;
use differential::{damage, recorded};

const USAGE: &str = "usage: differential [--host] COMMAND
  run --traces N [--from SEED] [--exhaustive]
                       the C call and the published Rust on the traces of N seeds,
                       and on every exhaustive trace
  strict --traces N [--from SEED] [--exhaustive]
                       the same traces with strict units, against two units of the
                       Rust that stand in for one
  damage --traces N [--from NUMBER]
                       the C call on damaged traces and outputs of many lengths
  recorded FOLDER ..   the C call on every NAME.trace against NAME.expect
  answer [FILE]        the C call's lines for a trace
The C call is its_trace; with --host a trace goes through the calls for hosts.";

/// What a trace goes through, and its name.
type Way = (Call, &'static str);

fn main() -> ExitCode {
    let words: Vec<String> = env::args().skip(1).collect();
    let words: Vec<&str> = words.iter().map(String::as_str).collect();
    let answered = match words[..] {
        ["run" | "strict" | "damage", ..] | ["--host", "run" | "strict" | "damage", ..]
            if env::var_os(AT_WORK).is_none() =>
        {
            return watched(&words);
        }
        _ => main_of(&words),
    };
    match answered {
        Ok(text) => {
            print!("{text}");
            ExitCode::SUCCESS
        }
        Err(reason) => {
            println!("{reason}");
            ExitCode::FAILURE
        }
    }
}

/// Runs the same words in a program of its own. If the C call ends that, this one
/// still says which traces were at work.
fn watched(words: &[&str]) -> ExitCode {
    let notes = env::temp_dir().join(format!("differential-{}", process::id()));
    let ended = fs::write(&notes, "").and_then(|()| {
        let mut inner = Command::new(env::current_exe()?);
        inner.args(words).env(AT_WORK, &notes).status()
    });
    let at_work = fs::read_to_string(&notes).unwrap_or_default();
    // Where it cannot be removed it stays, and is empty of consequence.
    let _ = fs::remove_file(&notes);
    match ended.map(|status| status.code()) {
        Ok(Some(0)) => ExitCode::SUCCESS,
        Ok(Some(_)) => ExitCode::FAILURE,
        Ok(None) => {
            let names: Vec<&str> = at_work.lines().map(str::trim).collect();
            println!(
                "The C call ended the program. At work: {}",
                names.join(", ")
            );
            ExitCode::FAILURE
        }
        Err(error) => {
            println!("the program cannot start itself: {error}");
            ExitCode::FAILURE
        }
    }
}

fn main_of(words: &[&str]) -> Result<String, String> {
    match words {
        ["--host", words @ ..] => through((host_calls, "the calls for hosts"), words),
        _ => through((c_call, "the C call its_trace"), words),
    }
}

fn through(way: Way, words: &[&str]) -> Result<String, String> {
    let (call, _) = way;
    match words {
        ["run" | "strict", options @ ..] => run(words[0], way, &Options::of(options)?),
        ["damage", options @ ..] => {
            let options = Options::of(options)?;
            damage::damage(call, options.from, options.traces)
        }
        ["recorded", folders @ ..] if !folders.is_empty() => {
            let mut text = String::new();
            for folder in folders {
                let traces = recorded::recorded(call, Path::new(folder))?;
                text += &format!("{traces} recorded traces of {folder} answered as expected\n");
            }
            Ok(text)
        }
        ["answer"] => {
            let mut trace = Vec::new();
            let read = io::stdin().read_to_end(&mut trace);
            read.map_err(|error| format!("standard input: {error}"))?;
            answer(call, &trace)
        }
        ["answer", file] => answer(
            call,
            &fs::read(file).map_err(|error| format!("{file}: {error}"))?,
        ),
        _ => Err(USAGE.into()),
    }
}

#[cfg(feature = "published")]
fn run(units: &str, (call, name): Way, options: &Options) -> Result<String, String> {
    let traces = differential::run::Traces {
        from: options.from,
        count: options.traces,
        exhaustive: options.exhaustive,
    };
    match units {
        "strict" => differential::strict::strict(call, name, &traces),
        _ => differential::run::run(call, name, &traces),
    }
}

#[cfg(not(feature = "published"))]
fn run(_: &str, _: Way, _: &Options) -> Result<String, String> {
    Err("built without the published Rust: nothing to compare with".into())
}

fn answer(call: Call, trace: &[u8]) -> Result<String, String> {
    let mut output = vec![0; oracle::room::MOST_OUTPUT];
    let number = call(trace, &mut output);
    let written = io::stdout().write_all(&output[..(number / 16) as usize]);
    written.map_err(|error| format!("standard output: {error}"))?;
    Ok(String::new())
}

#[derive(Default)]
struct Options {
    traces: u64,
    from: u64,
    exhaustive: bool,
}

impl Options {
    fn of(words: &[&str]) -> Result<Self, String> {
        let mut options = Self::default();
        let mut words = words.iter();
        while let Some(word) = words.next() {
            let mut number = || {
                let next = words.next().and_then(|word| word.parse().ok());
                next.ok_or(format!("{word} takes a number\n{USAGE}"))
            };
            match *word {
                "--traces" => options.traces = number()?,
                "--from" => options.from = number()?,
                "--exhaustive" => options.exhaustive = true,
                _ => return Err(USAGE.into()),
            }
        }
        Ok(options)
    }
}
