//! Many traces, each answered by the Rust and by the C call, every line compared.

use std::sync::Mutex;
use std::time::{Duration, Instant};

use oracle::answers::answers;
use oracle::compare::Folded;
use oracle::coverage::Coverage;
use oracle::exhaustive;
use oracle::generate::trace_for;

use crate::call::{Call, Lent};
use crate::differ::{difference, report};
use crate::foldings::Foldings;
use crate::numbers::grouped;
use crate::shrink::shortest;
use crate::workers::work;

/// Which traces: those of the seeds from one on, and the exhaustive ones.
pub struct Traces {
    pub from: u64,
    pub count: u64,
    pub exhaustive: bool,
}

/// What was compared.
#[derive(Default)]
struct Compared {
    coverage: Coverage,
    folded: Folded,
    again: u64,
    /// Traces that are compared up to a strict configuration.
    strict: u64,
    bytes: u64,
    lines: u64,
    commands: u64,
    making: Duration,
    rust: Duration,
    call: Duration,
}

impl Compared {
    fn absorb(&mut self, other: &Self) {
        self.coverage.absorb(&other.coverage);
        self.folded.absorb(&other.folded);
        self.again += other.again;
        self.strict += other.strict;
        self.bytes += other.bytes;
        self.lines += other.lines;
        self.commands += other.commands;
        self.making += other.making;
        self.rust += other.rust;
        self.call += other.call;
    }
}

/// Compares, and gives what to print, in which the call has this name; an error
/// is a difference.
pub fn run(call: Call, name: &str, traces: &Traces) -> Result<String, String> {
    let named: Vec<exhaustive::Named> = if traces.exhaustive {
        exhaustive::traces().collect()
    } else {
        Vec::new()
    };
    let count = traces.count + named.len() as u64;
    let found: Mutex<Option<(u64, String, Vec<u8>)>> = Mutex::new(None);
    let begun = Instant::now();
    let ended = work("run", count, |numbers, note| {
        let mut compared = Compared::default();
        let mut lent = Lent::default();
        while let Some(number) = numbers.next() {
            let clock = Instant::now();
            let (title, trace) = match number.checked_sub(named.len() as u64) {
                None => named[number as usize].clone(),
                Some(seed) => {
                    let seed = traces.from.wrapping_add(seed);
                    (format!("seed-{seed}"), trace_for(seed))
                }
            };
            compared.making += clock.elapsed();
            note.begin(&title);
            let clock = Instant::now();
            let rust = compared.coverage.trace(&trace);
            compared.rust += clock.elapsed();
            let clock = Instant::now();
            let other = difference(call, &trace, &rust, &mut lent);
            compared.call += clock.elapsed();
            let Ok(folded) = other else {
                let mut first = found.lock().expect("no worker panics");
                if first.as_ref().is_none_or(|(earlier, ..)| number < *earlier) {
                    *first = Some((number, title, trace));
                }
                numbers.stop();
                break;
            };
            compared.folded.absorb(&folded);
            compared.again += rust.again;
            compared.strict += u64::from(rust.ended_at_strict);
            compared.bytes += trace.len() as u64;
            compared.count_lines(&rust.told);
            numbers.done();
        }
        compared
    });
    if let Some((_, title, trace)) = found.into_inner().expect("no worker panics") {
        return Err(shrunk(call, &title, &trace));
    }
    let mut all = Compared::default();
    for compared in &ended {
        all.absorb(compared);
    }
    all.foldings().held_against(traces)?;
    Ok(all.summary(name, traces, named.len() as u64, begun.elapsed()))
}

/// The report on a trace that differs: its name, and the shortest trace found
/// that still does.
fn shrunk(call: Call, name: &str, trace: &[u8]) -> String {
    let differs = |candidate: &[u8]| {
        difference(call, candidate, &answers(candidate), &mut Lent::default()).is_err()
    };
    let short = shortest(trace, &differs);
    format!(
        "DIFFERENCE at {name} (`oracle trace {name}` gives the trace as it was, {} bytes).\n\
         The shortest trace found that still differs has {} bytes.\n{}",
        grouped(trace.len() as u64),
        grouped(short.len() as u64),
        report(call, &short)
    )
}

impl Compared {
    /// Counts the lines, and the commands that the writes among them carried out.
    fn count_lines(&mut self, lines: &[u8]) {
        for line in lines.split(|byte| *byte == b'\n') {
            if line.is_empty() {
                continue;
            }
            self.lines += 1;
            if line.starts_with(b"WR ") {
                let done = line.split(|byte| *byte == b' ').nth(4).unwrap_or_default();
                let done = std::str::from_utf8(done)
                    .ok()
                    .and_then(|done| done.parse().ok());
                self.commands += done.unwrap_or(0);
            }
        }
    }

    fn foldings(&self) -> Foldings {
        Foldings {
            folded: self.folded,
            moves: self.coverage.moves_without_both(),
            again: self.again,
        }
    }

    fn summary(&self, call: &str, traces: &Traces, exhaustive: u64, took: Duration) -> String {
        let last = traces.from.wrapping_add(traces.count.saturating_sub(1));
        let missing = self.coverage.missing();
        let reached = if missing.is_empty() {
            "No count that a trace can reach is zero.".into()
        } else {
            format!("Never reached: {}.", missing.join("; "))
        };
        format!(
            "Compared: {call}, compiled for this machine, with the published Rust, in one\n\
             process: every line, with 20 to 27 folded into 7 and the actions of refused writes set aside, and with\n\
             the reasons and actions that the Rust tells; the number returned, and that no byte beyond the written\n\
             ones changed. The units are base ones, none of which may answer 27.\n\
             {} traces of seeds {} to {last}, {} exhaustive traces; {} bytes of trace, {} lines,\n\
             {} commands carried out: 0 differences, {:.1} s.\n\
             Traces left at a strict configuration: {}.\n\
             {}\n\
             Time of all threads: making the traces {:.1} s, the Rust and its counts {:.1} s, the C call \
             {:.1} s.\n\n{}{reached}\n",
            grouped(traces.count),
            traces.from,
            grouped(exhaustive),
            grouped(self.bytes),
            grouped(self.lines),
            grouped(self.commands),
            took.as_secs_f64(),
            grouped(self.strict),
            self.foldings().summary(),
            self.making.as_secs_f64(),
            self.rust.as_secs_f64(),
            self.call.as_secs_f64(),
            self.coverage.report(),
        )
    }
}
