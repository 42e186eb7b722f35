//! The shortest trace that still differs: fewer records first, then fewer bytes
//! in a record, then plainer numbers. Every step makes the trace shorter, or
//! turns a command into a SYNC, or makes a number smaller, so it ends.

mod fields;

use oracle::fields::{BYTES_OF_A_COMMAND, SYNC, bytes_of};
use oracle::record::{Record, Records};

use fields::number;

type Differs<'a> = &'a dyn Fn(&[u8]) -> bool;

/// The offset of CWRITER, whose writes say how many commands wait.
const CWRITER: u64 = 0x88;

pub fn shortest(trace: &[u8], differs: Differs) -> Vec<u8> {
    let mut best = Pieces::of(trace);
    best.largest_budgets(differs);
    loop {
        // Numbers last: a budget of 1 keeps writes apart that could go together.
        until_it_stays(&mut best, &|best| {
            best.drop_records(differs);
            best.drop_commands(differs);
            best.join_windows(differs);
            best.drop_tail(differs);
        });
        let before = best.bytes();
        until_it_stays(&mut best, &|best| best.plainer(differs));
        if best.bytes() == before {
            return before;
        }
    }
}

fn until_it_stays(best: &mut Pieces, step: &dyn Fn(&mut Pieces)) {
    loop {
        let before = best.bytes();
        step(best);
        if best.bytes() == before {
            return;
        }
    }
}

/// What becomes of later windows and writers when a command is dropped.
#[derive(Clone, Copy)]
enum Later {
    /// Both move forward by the command.
    Forward,
    /// The writers move, the windows stay.
    FewerWait,
    AsItIs,
}

/// The records of a trace, and the bytes behind them that are no record.
#[derive(Clone)]
struct Pieces {
    records: Vec<Record>,
    tail: Vec<u8>,
}

impl Pieces {
    fn of(trace: &[u8]) -> Self {
        let mut records = Vec::new();
        let mut tail = Vec::new();
        for next in Records::of(trace) {
            match next {
                Ok(record) => records.push(record),
                Err(malformed) => tail = trace[malformed.offset..].to_vec(),
            }
        }
        Self { records, tail }
    }

    fn bytes(&self) -> Vec<u8> {
        let mut trace = Vec::new();
        for record in &self.records {
            record.encode(&mut trace);
        }
        trace.extend(&self.tail);
        trace
    }

    /// Takes the other if it still differs.
    fn take_if(&mut self, other: Self, differs: Differs) -> bool {
        let taken = differs(&other.bytes());
        if taken {
            *self = other;
        }
        taken
    }

    /// Gives every unit the largest budget, so that writes can be put together.
    fn largest_budgets(&mut self, differs: Differs) {
        let mut other = self.clone();
        for record in &mut other.records {
            if let Record::Cf(configuration) = record {
                configuration.budget = 1_024;
            }
        }
        self.take_if(other, differs);
    }

    /// Drops runs of records, long runs first.
    fn drop_records(&mut self, differs: Differs) {
        let mut run = self.records.len();
        while run > 0 {
            let mut at = self.records.len();
            while at > 0 {
                let from = at.saturating_sub(run);
                let mut other = self.clone();
                other.records.drain(from..at);
                self.take_if(other, differs);
                at = from;
            }
            run /= 2;
        }
    }

    /// Drops commands of a window, and moves what the guest posts later forward
    /// by as much, or leaves it where it is; or turns them into SYNC.
    fn drop_commands(&mut self, differs: Differs) {
        for place in 0..self.records.len() {
            let mut at = commands_of(&self.records[place]);
            while at > 0 {
                at -= 1;
                let _ = self.take_if(self.without(place, at, Later::Forward), differs)
                    || self.take_if(self.without(place, at, Later::FewerWait), differs)
                    || self.take_if(self.without(place, at, Later::AsItIs), differs)
                    || at == 0 && self.take_if(self.later_start(place), differs)
                    || !self.is_sync(place, at) && self.take_if(self.with_sync(place, at), differs);
            }
            self.drop_last_bytes(place, differs);
        }
    }

    /// Makes one window of two that follow each other in guest memory.
    fn join_windows(&mut self, differs: Differs) {
        let mut first = 0;
        while first < self.records.len() {
            let other = self.joined(first);
            if !other.is_some_and(|other| self.take_if(other, differs)) {
                first += 1;
            }
        }
    }

    fn joined(&self, first: usize) -> Option<Self> {
        let Record::Gm { address, bytes } = &self.records[first] else {
            return None;
        };
        let end = address.wrapping_add(bytes.len() as u64);
        let is_window = |record: &Record| matches!(record, Record::Gm { .. });
        let next = first + 1 + self.records[first + 1..].iter().position(is_window)?;
        let mut other = self.clone();
        match other.records.remove(next) {
            Record::Gm { address, bytes } if address == end => {
                other.window(first)?.1.extend(bytes);
                Some(other)
            }
            _ => None,
        }
    }

    fn window(&mut self, place: usize) -> Option<(&mut u64, &mut Vec<u8>)> {
        match &mut self.records[place] {
            Record::Gm { address, bytes } => Some((address, bytes)),
            _ => None,
        }
    }

    fn without(&self, place: usize, command: usize, later: Later) -> Self {
        const BYTES: u64 = BYTES_OF_A_COMMAND as u64;
        let mut other = self.clone();
        let start = command * BYTES_OF_A_COMMAND;
        if let Some((_, bytes)) = other.window(place) {
            bytes.drain(start..start + BYTES_OF_A_COMMAND);
        }
        for record in &mut other.records[place + 1..] {
            match (record, later) {
                (_, Later::AsItIs) => break,
                (Record::Gm { address, .. }, Later::Forward) => {
                    *address = address.wrapping_sub(BYTES);
                }
                (Record::Wr { offset, value, .. }, _) if *offset == CWRITER => {
                    *value = value.saturating_sub(BYTES);
                }
                _ => {}
            }
        }
        other
    }

    fn later_start(&self, place: usize) -> Self {
        let mut other = self.clone();
        if let Some((address, bytes)) = other.window(place) {
            bytes.drain(..BYTES_OF_A_COMMAND);
            *address = address.wrapping_add(BYTES_OF_A_COMMAND as u64);
        }
        other
    }

    fn with_sync(&self, place: usize, command: usize) -> Self {
        let mut other = self.clone();
        let start = command * BYTES_OF_A_COMMAND;
        if let Some((_, bytes)) = other.window(place) {
            bytes[start..start + BYTES_OF_A_COMMAND].copy_from_slice(&sync());
        }
        other
    }

    fn is_sync(&self, place: usize, command: usize) -> bool {
        let start = command * BYTES_OF_A_COMMAND;
        match &self.records[place] {
            Record::Gm { bytes, .. } => bytes[start..start + BYTES_OF_A_COMMAND] == sync(),
            _ => false,
        }
    }

    /// Drops bytes at the end of a window that make no whole command.
    fn drop_last_bytes(&mut self, place: usize, differs: Differs) {
        loop {
            let mut other = self.clone();
            let popped = other.window(place).and_then(|(_, bytes)| bytes.pop());
            if popped.is_none() || !self.take_if(other, differs) {
                return;
            }
        }
    }

    /// Drops bytes behind the records.
    fn drop_tail(&mut self, differs: Differs) {
        let mut at = self.tail.len();
        while at > 0 {
            at -= 1;
            let mut other = self.clone();
            other.tail.remove(at);
            self.take_if(other, differs);
        }
    }

    /// Makes numbers smaller: to 0, to half, by one bit less.
    fn plainer(&mut self, differs: Differs) {
        for place in 0..self.records.len() {
            self.fewer_processors(place, differs);
            for field in 0.. {
                let Some(value) = number(&mut self.records[place], field).map(|field| field.get())
                else {
                    break;
                };
                self.smaller(place, field, value, differs);
            }
        }
    }

    fn fewer_processors(&mut self, place: usize, differs: Differs) {
        loop {
            let mut other = self.clone();
            let Record::Cf(configuration) = &mut other.records[place] else {
                return;
            };
            let popped = configuration.processors.pop();
            if popped.is_none() || !self.take_if(other, differs) {
                return;
            }
        }
    }

    fn smaller(&mut self, place: usize, field: usize, value: u64, differs: Differs) {
        let bits = (0..64).rev().filter(|bit| value >> bit & 1 == 1);
        let candidates = [0, value / 2]
            .into_iter()
            .chain(bits.map(|bit| value & !(1 << bit)));
        for candidate in candidates {
            let mut other = self.clone();
            let Some(found) = number(&mut other.records[place], field) else {
                return;
            };
            if candidate < found.get() {
                found.set(candidate);
                self.take_if(other, differs);
            }
        }
    }
}

fn sync() -> Vec<u8> {
    bytes_of(&[[u64::from(SYNC), 0, 0, 0]])
}

fn commands_of(record: &Record) -> usize {
    match record {
        Record::Gm { bytes, .. } => bytes.len() / BYTES_OF_A_COMMAND,
        _ => 0,
    }
}
