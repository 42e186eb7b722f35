//! The C call on damaged traces and outputs of many lengths.

use std::sync::Mutex;
use std::time::Instant;

use oracle::room::MOST_OUTPUT;

use crate::call::{Call, Lent};
use crate::damaged::{KINDS, damaged, kind};
use crate::numbers::grouped;
use crate::rooms;
use crate::shape;
use crate::workers::work;

/// Every small length, and some around the most that the call uses.
const SMALL: usize = 200;
const LARGE: [usize; 4] = [65_535, 65_536, 65_537, 100_000];

/// What an output holds before the first call, and before the second.
const FILLS: [u8; 2] = [0xa5, 0x0a];

#[derive(Default)]
struct Tried {
    kinds: [u64; KINDS.len()],
    bytes: u64,
    calls: u64,
    cut: u64,
    folded: u64,
    aside: u64,
    strict: u64,
}

/// Tries the damaged traces of the numbers from one on; an error is a fault of
/// the call.
pub fn damage(call: Call, from: u64, count: u64) -> Result<String, String> {
    let begun = Instant::now();
    let found: Mutex<Option<String>> = Mutex::new(None);
    let ended = work("damage", count, |numbers, note| {
        let mut tried = Tried::default();
        while let Some(number) = numbers.next() {
            let number = from.wrapping_add(number);
            let trace = damaged(number);
            note.begin(&format!("damage --from {number} --traces 1"));
            if let Err(fault) = tried.trace(call, &trace) {
                *found.lock().expect("no worker panics") = Some(format!(
                    "DAMAGE {number} ({}): {fault}\nThe trace as text:\n\n{}",
                    KINDS[kind(number)],
                    oracle::text::list(&trace)
                ));
                numbers.stop();
                break;
            }
            tried.kinds[kind(number)] += 1;
            tried.bytes += trace.len() as u64;
            numbers.done();
        }
        tried
    });
    if let Some(report) = found.into_inner().expect("no worker panics") {
        return Err(report);
    }
    let mut all = Tried::default();
    for tried in &ended {
        for (sum, kind) in all.kinds.iter_mut().zip(&tried.kinds) {
            *sum += kind;
        }
        all.bytes += tried.bytes;
        all.calls += tried.calls;
        all.cut += tried.cut;
        all.folded += tried.folded;
        all.aside += tried.aside;
        all.strict += tried.strict;
    }
    Ok(all.summary(count, begun.elapsed().as_secs_f64()))
}

impl Tried {
    fn trace(&mut self, call: Call, trace: &[u8]) -> Result<(), String> {
        let kept = trace.to_vec();
        let mut lent = Lent::default();
        self.calls += 1;
        let (number, bytes) = lent.call(call, trace, MOST_OUTPUT, FILLS[0])?;
        let whole = bytes.to_vec();
        let cut = number % 16 == 11;
        self.cut += u64::from(cut);
        if let Some(fault) = shape::fault(trace, &whole, cut) {
            return Err(fault);
        }
        let rusts = rusts(trace, &whole, number)?;
        self.folded += rusts.folded;
        self.aside += rusts.aside;
        self.strict += u64::from(rusts.strict);
        let near = [whole.len().saturating_sub(1), whole.len(), whole.len() + 1];
        for length in (0..=SMALL).chain(near).chain(LARGE) {
            let (count, left) = rooms::fits(&whole, cut, length);
            for fill in FILLS {
                self.calls += 1;
                let (number, bytes) = lent
                    .call(call, trace, length, fill)
                    .map_err(|fault| format!("output of {length} bytes: {fault}"))?;
                let expected = rooms::number(count, left);
                if number != expected || bytes != &whole[..count] {
                    return Err(format!(
                        "an output of {length} bytes gives {number}, expected {expected}, or other lines \
                         than the longest output"
                    ));
                }
            }
        }
        if *trace != *kept {
            return Err("the trace was changed".into());
        }
        Ok(())
    }

    fn summary(&self, count: u64, seconds: f64) -> String {
        let kinds = KINDS.iter().zip(&self.kinds);
        let kinds: Vec<String> = kinds
            .map(|(kind, count)| format!("{kind} {count}"))
            .collect();
        format!(
            "Tried: the C call its_trace on damaged traces, each with outputs of 0 to {SMALL} bytes, around its\n\
             whole answer, and of {LARGE:?}, all twice.\n\
             {} traces ({}), {} bytes; {} calls, {seconds:.1} s.\n\
             Every call ended; no byte beyond the written ones changed; the same answer both times; in each\n\
             output the lines that fit; a line for each record of the right kind; {} answers longer than\n\
             65,536 bytes{}.\n",
            grouped(count),
            kinds.join(", "),
            grouped(self.bytes),
            grouped(self.calls),
            grouped(self.cut),
            if cfg!(feature = "published") {
                format!(
                    "; and every line as the published Rust gives it ({} answers folded into 7,\n\
                     {} actions of refused writes set aside), up to a strict configuration in {} traces, and\n\
                     as two units of it give it that stand in for a strict one",
                    grouped(self.folded),
                    grouped(self.aside),
                    grouped(self.strict),
                )
            } else {
                String::new()
            },
        )
    }
}

/// How far lines are the Rust's: how many of them were folded, how many actions of
/// refused writes were set aside, and whether it is left at a strict configuration.
#[derive(Default)]
struct Rusts {
    folded: u64,
    aside: u64,
    strict: bool,
}

#[cfg(feature = "published")]
fn rusts(trace: &[u8], whole: &[u8], number: u64) -> Result<Rusts, String> {
    let answers = oracle::answers::answers(trace);
    let folded = oracle::compare::difference(&answers, MOST_OUTPUT, whole, number)?;
    oracle::strict::lines(trace).difference(MOST_OUTPUT, whole, number)?;
    Ok(Rusts {
        folded: folded.all(),
        aside: folded.all_aside().actions,
        strict: answers.ended_at_strict,
    })
}

/// The Rust is not at hand.
#[cfg(not(feature = "published"))]
fn rusts(_: &[u8], _: &[u8], _: u64) -> Result<Rusts, String> {
    Ok(Rusts::default())
}
