//! A whole trace answered by the Rust, in 01's lines.

use std::io::Write as _;
use std::sync::Arc;

use arm_vgic::Delivered;

use crate::again::Past;
use crate::record::{Malformed, Record, Records};
use crate::unit::{Unit, Written};
use crate::window::Window;

/// The lines of a trace, and how far they are the Rust's.
#[derive(Debug, Default)]
pub struct Answers {
    /// With 01's numbers, 7 for every check of a command, and the actions that
    /// the Rust delivered.
    pub lines: Vec<u8>,
    /// The same lines with 20 to 26 for a command's checks, as the Rust's own
    /// text tells which one failed, and behind a refused write the actions of
    /// the commands that it carried out.
    pub told: Vec<u8>,
    /// The run stopped at a 9: its line and its actions are the last, and a
    /// comparison ends there.
    pub ended_at_nine: bool,
    /// The run stopped at a configuration that starts a strict unit, which the
    /// Rust does not have: its line is the last, and a comparison ends there.
    pub ended_at_strict: bool,
    /// Refused writes that were run once more, up to the refused command.
    pub again: u64,
    /// Calls answered without the Rust, for 01 puts them outside the domain.
    pub around: Around,
}

impl Answers {
    /// Where the Rust is left, in words, where the trace may go on after its
    /// lines.
    pub fn left(&self) -> Option<&'static str> {
        if self.ended_at_nine {
            Some("a 9")
        } else if self.ended_at_strict {
            Some("a strict configuration")
        } else {
            None
        }
    }
}

#[derive(Clone, Copy, Debug, Default, Eq, PartialEq)]
pub struct Around {
    /// Before an accepted configuration: 1.
    pub unconfigured: u64,
    /// Another width than 1, 2, 4 or 8: 2.
    pub other_width: u64,
    /// At the identification registers: 3.
    pub identification: u64,
}

/// One answer, before it becomes lines.
#[derive(Debug)]
pub enum Answer {
    Cf(u8),
    Gm,
    Rd(Result<u64, u8>),
    Wr(Written),
    Tr(Result<(u32, usize), u8>),
}

/// Looks on while a trace is answered.
pub trait Watcher {
    fn answered(&mut self, record: &Record, answer: &Answer, unit: Option<&Unit>);
    fn malformed(&mut self, malformed: &Malformed);
}

/// A watcher that does not care.
struct Unwatched;

impl Watcher for Unwatched {
    fn answered(&mut self, _: &Record, _: &Answer, _: Option<&Unit>) {}
    fn malformed(&mut self, _: &Malformed) {}
}

pub fn answers(trace: &[u8]) -> Answers {
    watched_answers(trace, &mut Unwatched)
}

pub fn watched_answers(trace: &[u8], watcher: &mut impl Watcher) -> Answers {
    let mut run = Run::default();
    let mut past = Past::default();
    let mut answers = Answers::default();
    for next in Records::of(trace) {
        let record = match next {
            Ok(record) => record,
            Err(malformed) => {
                watcher.malformed(&malformed);
                put_malformed(&mut answers.lines, &malformed);
                put_malformed(&mut answers.told, &malformed);
                break;
            }
        };
        let mut answer = run.answer(&record);
        if let Answer::Wr(written) = &mut answer
            && written.stopped_midway()
        {
            written.handed = past.actions_before(written);
            answers.again += 1;
        }
        answers.around.count(&record, &answer);
        watcher.answered(&record, &answer, run.unit.as_ref());
        put_answer(&mut answers.lines, &answer, Form::Kinds);
        put_answer(&mut answers.told, &answer, Form::Told);
        if matches!(&answer, Answer::Wr(written) if written.refusal == 9) {
            answers.ended_at_nine = true;
            break;
        }
        if matches!(&record, Record::Cf(configuration) if configuration.starts_strict()) {
            answers.ended_at_strict = true;
            break;
        }
        past.keep(record);
    }
    answers
}

/// The unit and the window between two records.
#[derive(Default)]
pub(crate) struct Run {
    unit: Option<Unit>,
    window: Arc<Window>,
}

impl Run {
    pub(crate) fn answer(&mut self, record: &Record) -> Answer {
        match record {
            Record::Cf(configuration) => {
                self.unit = Unit::configure(configuration, self.window.clone());
                Answer::Cf(u8::from(!configuration.accepted()))
            }
            Record::Gm { address, bytes } => {
                self.window.replace(*address, bytes);
                Answer::Gm
            }
            Record::Rd { offset, width } => Answer::Rd(match &self.unit {
                Some(unit) => unit.read(*offset, *width),
                None => Err(1),
            }),
            Record::Wr {
                offset,
                width,
                value,
            } => Answer::Wr(self.write(*offset, *width, *value)),
            Record::Tr { device, event } => Answer::Tr(match &self.unit {
                Some(unit) => unit.translate(*device, *event),
                None => Err(1),
            }),
        }
    }

    pub(crate) fn write(&mut self, offset: u64, width: u8, value: u64) -> Written {
        match &mut self.unit {
            Some(unit) => unit.write(offset, width, value),
            None => Written::refused(1),
        }
    }
}

impl Around {
    pub fn add(&mut self, more: &Self) {
        self.unconfigured += more.unconfigured;
        self.other_width += more.other_width;
        self.identification += more.identification;
    }

    fn count(&mut self, record: &Record, answer: &Answer) {
        let (width, refusal) = match (record, answer) {
            (Record::Rd { width, .. }, Answer::Rd(Err(refusal))) => (*width, *refusal),
            (Record::Wr { width, .. }, Answer::Wr(written)) => (*width, written.refusal),
            (_, Answer::Tr(Err(refusal))) => (8, *refusal),
            _ => return,
        };
        match refusal {
            1 => self.unconfigured += 1,
            2 if !matches!(width, 1 | 2 | 4 | 8) => self.other_width += 1,
            3 => self.identification += 1,
            _ => {}
        }
    }
}

/// The two forms in which a write is shown, as in `Answers`.
#[derive(Clone, Copy)]
pub(crate) enum Form {
    Kinds,
    Told,
}

impl Form {
    fn of(self, written: &Written) -> (u8, &[Delivered]) {
        match self {
            Self::Kinds => (written.refusal, &written.actions),
            Self::Told => (written.told, &written.handed),
        }
    }
}

/// The lines of an answer.
pub(crate) fn put_answer(lines: &mut Vec<u8>, answer: &Answer, form: Form) {
    match answer {
        Answer::Cf(refusal) => put(lines, format_args!("CF {refusal}")),
        Answer::Gm => put(lines, format_args!("GM 0")),
        Answer::Rd(Ok(value)) => put(lines, format_args!("RD 0 {value}")),
        Answer::Rd(Err(refusal)) => put(lines, format_args!("RD {refusal} 0")),
        Answer::Tr(Ok((lpi, processor))) => put(lines, format_args!("TR 0 {lpi} {processor}")),
        Answer::Tr(Err(refusal)) => put(lines, format_args!("TR {refusal} 0 0")),
        Answer::Wr(written) => {
            let (refusal, actions) = form.of(written);
            let Written {
                opcode,
                offset,
                done,
                ..
            } = written;
            let count = actions.len();
            put(
                lines,
                format_args!("WR {refusal} {opcode} {offset} {done} {count}"),
            );
            for action in actions {
                let processor = action.processor.raw();
                let lpi = action.lpi.raw();
                let pending = u8::from(action.pending);
                put(lines, format_args!("AC {processor} {lpi} {pending}"));
            }
        }
    }
}

pub(crate) fn put_malformed(lines: &mut Vec<u8>, malformed: &Malformed) {
    put(lines, format_args!("?? {}", malformed.offset));
}

fn put(lines: &mut Vec<u8>, line: std::fmt::Arguments<'_>) {
    writeln!(lines, "{line}").expect("a vector takes every byte");
}
