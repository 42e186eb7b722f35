//! How long the proved unit takes, as ratios to the published Rust in one run, and
//! how much stack the crate's methods use. Two units are timed: the one that is lent as
//! numbers, through the calls for hosts, and the one that goes by value, through
//! its_trace, whose reading of a record and writing of a line are in its time.
//!
//!     speed [--plot FILE]
//!     speed repeat CALL COUNT
//!
//! prints the table, and draws it; or makes one call over and over.

mod both;
mod clock;
mod plot;
mod repeat;
mod row;
mod stack;
mod trace;

use std::{env, fs, process};

fn main() {
    let words: Vec<String> = env::args().skip(1).collect();
    let words: Vec<&str> = words.iter().map(String::as_str).collect();
    let plot = match words[..] {
        [] => None,
        ["--plot", file] => Some(file),
        ["repeat", call, count] if count.parse().is_ok_and(|n| repeat::repeat(call, n)) => return,
        _ => {
            let calls = repeat::CALLS.join(", ");
            eprintln!(
                "usage: speed [--plot FILE], or speed repeat CALL COUNT, a CALL being {calls}"
            );
            process::exit(2);
        }
    };
    println!(
        "Time over the published Rust's. By value: its_trace, with a record read and a line written."
    );
    println!();
    println!("| what | as numbers | by value |");
    println!("|---|---|---|");
    let rows = row::all();
    let mut drawn = Vec::new();
    for row in &rows {
        let ratios = row.measure();
        println!("{ratios}");
        drawn.push(ratios);
    }
    println!();
    println!(
        "Stack, in bytes: the most that a method of the crate for hosts used, its C call included."
    );
    println!();
    println!("| method | stack |");
    println!("|---|---|");
    for (name, bytes) in stack::all() {
        println!("| {name} | {bytes} |");
    }
    if let Some(file) = plot {
        fs::write(file, plot::drawn(&drawn)).expect("write the plot");
    }
}
