//! What a strict unit answers, by the Rust as far as that goes.
//!
//! The Rust has no strict units. Two of its units stand in for one: the first is
//! never enabled and keeps the registers; the second has a ring of its own, in which
//! each command is carried out alone. What is not the Rust's stands between them:
//! how many commands wait, where they are in the window, how far CREADR went, what
//! happens behind a 9, and the rules of 02 for the strict profile: its three own ones,
//! and Retry and Stalled.
//!
//! A base unit is answered in the same way without these rules. Its lines are those
//! of `answers`; tests see to that.

mod carrier;
mod fault;
mod faulty;
mod met;
mod pair;

use std::sync::Arc;

use crate::answers::{Answer, Form, put_answer, put_malformed};
use crate::lines::first_difference;
use crate::record::{Record, Records};
use crate::room::{returned, written};
use crate::unit::Written;
use crate::window::Window;
pub use fault::{FAULTS, Fault};
use faulty::Faulty;
pub use met::{Met, RULES, Rule};

/// The lines of a trace, and how often each rule of the strict profile was met.
#[derive(Debug, Default)]
pub struct Lines {
    pub lines: Vec<u8>,
    pub met: Met,
}

impl Lines {
    /// Holds a C call that wrote these bytes into an output of this length and
    /// returned this number against the lines. An error says what is different.
    pub fn difference(&self, output: usize, bytes: &[u8], number: u64) -> Result<(), String> {
        let fits = &self.lines[..written(&self.lines, output)];
        if let Some(difference) = first_difference(bytes, fits) {
            return Err(format!("by two units of the Rust for one, {difference}"));
        }
        let right = returned(&self.lines, output);
        if number != right {
            return Err(format!("the call returned {number}, expected {right}"));
        }
        Ok(())
    }
}

/// Answers a trace, with units of either profile.
pub fn lines(trace: &[u8]) -> Lines {
    answered(trace, None)
}

/// The same by units that are wrong in one thing. The traces must tell them from
/// right ones, or nobody would notice a C call that is wrong in it.
pub fn faulty_lines(trace: &[u8], fault: Fault) -> Lines {
    answered(trace, Some(fault))
}

fn answered(trace: &[u8], fault: Option<Fault>) -> Lines {
    let mut all = Lines::default();
    let mut unit: Option<Faulty> = None;
    let window = Arc::new(Window::default());
    for next in Records::of(trace) {
        let record = match next {
            Ok(record) => record,
            Err(malformed) => {
                put_malformed(&mut all.lines, &malformed);
                break;
            }
        };
        let before = unit.as_ref().map(Faulty::state);
        let answer = match &record {
            Record::Cf(configuration) => {
                unit = Faulty::configure(configuration, &window, fault, unit.as_ref());
                Answer::Cf(u8::from(unit.is_none()))
            }
            Record::Gm { address, bytes } => {
                window.replace(*address, bytes);
                Answer::Gm
            }
            Record::Rd { offset, width } => Answer::Rd(match &unit {
                Some(unit) => unit.read(*offset, *width),
                None => Err(1),
            }),
            Record::Wr {
                offset,
                width,
                value,
            } => Answer::Wr(match &mut unit {
                Some(unit) => unit.write(*offset, *width, *value),
                None => Written::refused(1),
            }),
            Record::Tr { device, event } => Answer::Tr(match &unit {
                Some(unit) => unit.translate(*device, *event),
                None => Err(1),
            }),
        };
        if let (Some(before), Some(unit)) = (before, &unit) {
            all.met.see(&before, &record, &answer, &unit.state());
        }
        put_answer(&mut all.lines, &answer, Form::Told);
    }
    all
}
