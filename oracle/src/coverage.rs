//! Counts of what traces reach. Every count that a trace can reach is listed
//! from the start, so that one that stays at zero is seen.

mod accesses;
mod commands;
mod configurations;
mod counts;
mod mappings;
mod reasons;
mod retries;
mod rings;
mod state;
mod tables;

use crate::answers::{Answer, Answers, Watcher, watched_answers};
use crate::record::{Fault, Malformed, Record};
use crate::unit::Unit;

pub use counts::Counts;
use state::{Seen, State};

/// One part of the picture, such as the commands or the retries.
trait Part: Send {
    /// The counts that this part keeps: rows, and the columns of each.
    fn rows(&self) -> Vec<(String, Vec<String>)>;
    /// A new trace begins.
    fn begin(&mut self) {}
    fn see(&mut self, seen: &Seen<'_>, counts: &mut Counts);
}

pub struct Coverage {
    counts: Counts,
    parts: Vec<Box<dyn Part>>,
    state: State,
    traces: u64,
    records: u64,
    ended_at_nine: u64,
    ended_at_strict: u64,
    around: crate::answers::Around,
}

impl Default for Coverage {
    fn default() -> Self {
        let parts: Vec<Box<dyn Part>> = vec![
            Box::new(accesses::Lines),
            Box::<configurations::Configurations>::default(),
            Box::<commands::Commands>::default(),
            Box::<reasons::Reasons>::default(),
            Box::<mappings::Mappings>::default(),
            Box::<tables::Fullness>::default(),
            Box::new(rings::Rings),
            Box::<retries::Retries>::default(),
            Box::new(accesses::Accesses),
        ];
        let mut counts = Counts::default();
        for part in &parts {
            counts.list(part.rows());
        }
        counts.list(vec![(
            "??".into(),
            ["bad mark", "short record", "long window"]
                .map(String::from)
                .to_vec(),
        )]);
        Self {
            counts,
            parts,
            state: State::default(),
            traces: 0,
            records: 0,
            ended_at_nine: 0,
            ended_at_strict: 0,
            around: crate::answers::Around::default(),
        }
    }
}

impl Coverage {
    /// Answers a trace and counts what it reaches.
    pub fn trace(&mut self, trace: &[u8]) -> Answers {
        self.traces += 1;
        self.state = State::default();
        for part in &mut self.parts {
            part.begin();
        }
        let answers = watched_answers(trace, self);
        self.ended_at_nine += u64::from(answers.ended_at_nine);
        self.ended_at_strict += u64::from(answers.ended_at_strict);
        self.around.add(&answers.around);
        answers
    }

    /// Adds what another has counted, over other traces.
    pub fn absorb(&mut self, other: &Self) {
        self.counts.absorb(&other.counts);
        self.traces += other.traces;
        self.records += other.records;
        self.ended_at_nine += other.ended_at_nine;
        self.ended_at_strict += other.ended_at_strict;
        self.around.add(&other.around);
    }

    /// The counts as lines of text.
    pub fn report(&self) -> String {
        format!(
            "{} traces, {} records; {} runs ended at a 9, {} at a strict configuration\n\
             answered without the Rust: {} before a configuration, {} of another width, \
             {} at the identification registers\n\n{}",
            self.traces,
            self.records,
            self.ended_at_nine,
            self.ended_at_strict,
            self.around.unconfigured,
            self.around.other_width,
            self.around.identification,
            self.counts.report()
        )
    }

    /// The refused MOVIs with neither their collection nor their pair mapped.
    pub fn moves_without_both(&self) -> u64 {
        let (row, column) = reasons::OF_A_MOVE;
        self.counts.count(row, column)
    }

    /// The names of the counts at zero.
    pub fn missing(&self) -> Vec<String> {
        self.counts.missing()
    }
}

impl Watcher for Coverage {
    fn answered(&mut self, record: &Record, answer: &Answer, unit: Option<&Unit>) {
        self.records += 1;
        let after = self.state.after(record, unit);
        let seen = Seen {
            record,
            answer,
            before: &self.state,
            after: &after,
        };
        for part in &mut self.parts {
            part.see(&seen, &mut self.counts);
        }
        self.state = after;
    }

    fn malformed(&mut self, malformed: &Malformed) {
        let column = match malformed.fault {
            Fault::BadMark => "bad mark",
            Fault::ShortRecord => "short record",
            Fault::LongWindow => "long window",
        };
        self.counts.add("??", column);
    }
}

/// Rows from plain words.
fn rows(table: &[(&str, &[&str])]) -> Vec<(String, Vec<String>)> {
    table
        .iter()
        .map(|(row, columns)| {
            let columns = columns.iter().map(|column| (*column).to_string());
            ((*row).to_string(), columns.collect())
        })
        .collect()
}
