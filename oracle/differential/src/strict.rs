//! Strict units: many traces, each answered by two units of the Rust that stand in
//! for one (`oracle::strict`) and by the C call, every line compared. The Rust has no
//! strict units of its own, and nothing is folded.

use std::sync::Mutex;
use std::time::Instant;

use oracle::exhaustive::{self, Named};
use oracle::generate::strict_trace_for;
use oracle::lines::count;
use oracle::room::MOST_OUTPUT;
use oracle::strict::{Lines, Met, lines};

use crate::call::{Call, Lent};
use crate::numbers::grouped;
use crate::run::Traces;
use crate::shrink::shortest;
use crate::workers::work;

/// The byte that an output holds before the call.
const FILL: u8 = 0xa5;
/// From so many seeds on every rule of the strict profile must be met.
const ENOUGH: u64 = 1_000;

#[derive(Default)]
struct Compared {
    met: Met,
    bytes: u64,
    lines: u64,
}

/// Compares, and gives what to print, in which the call has this name; an error is a
/// difference.
pub fn strict(call: Call, name: &str, traces: &Traces) -> Result<String, String> {
    let named: Vec<Named> = if traces.exhaustive {
        exhaustive::strict().collect()
    } else {
        Vec::new()
    };
    let count_of_all = traces.count + named.len() as u64;
    let found: Mutex<Option<(u64, String, Vec<u8>)>> = Mutex::new(None);
    let begun = Instant::now();
    let ended = work("strict", count_of_all, |numbers, note| {
        let mut compared = Compared::default();
        let mut lent = Lent::default();
        while let Some(number) = numbers.next() {
            let (title, trace) = match number.checked_sub(named.len() as u64) {
                None => named[number as usize].clone(),
                Some(seed) => {
                    let seed = traces.from.wrapping_add(seed);
                    (format!("strict-seed-{seed}"), strict_trace_for(seed))
                }
            };
            note.begin(&title);
            let right = lines(&trace);
            if difference(call, &trace, &right, &mut lent).is_err() {
                let mut first = found.lock().expect("no worker panics");
                if first.as_ref().is_none_or(|(earlier, ..)| number < *earlier) {
                    *first = Some((number, title, trace));
                }
                numbers.stop();
                break;
            }
            compared.met.add(&right.met);
            compared.bytes += trace.len() as u64;
            compared.lines += count(&right.lines) as u64;
            numbers.done();
        }
        compared
    });
    if let Some((_, title, trace)) = found.into_inner().expect("no worker panics") {
        return Err(report(call, &title, &trace));
    }
    let mut all = Compared::default();
    for compared in &ended {
        all.met.add(&compared.met);
        all.bytes += compared.bytes;
        all.lines += compared.lines;
    }
    let seconds = begun.elapsed().as_secs_f64();
    all.summary(name, traces, named.len() as u64, seconds)
}

fn difference(call: Call, trace: &[u8], right: &Lines, lent: &mut Lent) -> Result<(), String> {
    let (number, bytes) = lent.call(call, trace, MOST_OUTPUT, FILL)?;
    right.difference(MOST_OUTPUT, bytes, number)
}

/// The shortest trace found that still differs, and both answers to it.
fn report(call: Call, title: &str, trace: &[u8]) -> String {
    let held = |trace: &[u8]| difference(call, trace, &lines(trace), &mut Lent::default());
    let short = shortest(trace, &|candidate| held(candidate).is_err());
    let what = held(&short).err().unwrap_or_default();
    let ours = match Lent::default().call(call, &short, MOST_OUTPUT, FILL) {
        Ok((_, bytes)) => String::from_utf8_lossy(bytes).into_owned(),
        Err(fault) => fault,
    };
    format!(
        "DIFFERENCE at {title} (`oracle trace {title}` gives the trace as it was).\n\
         The difference: {what}\n\
         The shortest trace found that still differs, as text:\n\n{}\n\
         Two units of the published Rust that stand in for a strict one answer:\n\n{}\n\
         The C call answers:\n\n{ours}",
        oracle::text::list(&short),
        String::from_utf8_lossy(&lines(&short).lines),
    )
}

impl Compared {
    fn summary(
        &self,
        call: &str,
        traces: &Traces,
        exhaustive: u64,
        seconds: f64,
    ) -> Result<String, String> {
        let never: Vec<&str> = self
            .met
            .counts()
            .filter(|(_, count)| *count == 0)
            .map(|(rule, _)| rule)
            .collect();
        if !never.is_empty() && traces.count >= ENOUGH {
            let never = never.join("; never ");
            return Err(format!("No difference was found, but never {never}."));
        }
        let last = traces.from.wrapping_add(traces.count.saturating_sub(1));
        Ok(format!(
            "Compared: strict units of {call}, with two units of the published Rust that stand in for one.\n\
             {} traces of seeds {} to {last}, {} exhaustive traces; {} bytes of trace, {} lines: 0 differences,\n\
             {seconds:.1} s. Met:\n{}",
            grouped(traces.count),
            traces.from,
            grouped(exhaustive),
            grouped(self.bytes),
            grouped(self.lines),
            self.rules(),
        ))
    }

    /// How often each rule was met, some in a line.
    fn rules(&self) -> String {
        let met: Vec<String> = self
            .met
            .counts()
            .map(|(rule, count)| format!("{rule} {}", grouped(count)))
            .collect();
        let lines = met
            .chunks(4)
            .map(|rules| format!("  {}\n", rules.join(", ")));
        lines.collect()
    }
}
