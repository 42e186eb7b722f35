//! What a guest does over and over: post commands, see to what stopped, look.

use super::guest::{CREADR, CTLR, CWRITER, Guest, Stop};
use crate::command::sync;
use crate::fields::Words;

impl Guest {
    /// A ring of so many pages on an enabled unit.
    pub fn start(&mut self, pages: usize) {
        let base = self.some_base();
        self.set_ring(base, pages);
        self.enable();
    }

    /// Good commands, each chosen as if those before it had been carried out.
    pub fn goods(&mut self, count: usize) -> Vec<Words> {
        let before = self.believed.clone();
        let mut commands = Vec::new();
        for _ in 0..count {
            let command = self.good();
            self.believed.carry_out(&command, &self.configuration);
            commands.push(command);
        }
        self.believed = before;
        commands
    }

    /// A bad command, chosen as if these had been carried out before it.
    pub fn bad_after(&mut self, commands: &[Words]) -> Words {
        let before = self.believed.clone();
        for command in commands {
            self.believed.carry_out(command, &self.configuration);
        }
        let bad = self.bad();
        self.believed = before;
        bad
    }

    /// So many at once that no budget or ring is exceeded.
    pub fn portion(&mut self, most: usize) -> usize {
        let free = self.ring.places.len() - 1 - self.ring.waiting();
        let budget = self.configuration.budget as usize;
        self.random.between(1, most).min(free).min(budget).max(1)
    }

    /// Puts the commands into the ring, lends them, moves the writer.
    pub fn post(&mut self, commands: &[Words]) -> Stop {
        let writer = self.put(commands);
        self.lend_up_to(writer);
        self.write_writer(writer)
    }

    /// Posts, and sees to what stopped until all is done or given up.
    pub fn post_and_settle(&mut self, commands: &[Words]) {
        let stop = self.post(commands);
        self.settle(stop);
    }

    pub fn settle(&mut self, stop: Stop) {
        let mut stop = stop;
        for _ in 0..12 {
            if self.over(stop) {
                return;
            }
            if self.stalled.is_some() && self.random.once_in(3) {
                self.look_at_the_reader();
            }
            if self.random.once_in(4) {
                stop = self.retry();
            }
            stop = match stop {
                Stop::Nowhere => return,
                Stop::Full if !self.strict() => return,
                Stop::Held => self.with_a_valid_ring(),
                Stop::Budget => self.nearer(),
                Stop::Window => {
                    self.lend_up_to(self.ring.writer);
                    self.retry()
                }
                Stop::Refused | Stop::Full => self.repair(),
            };
        }
        self.start_again();
    }

    /// Whether nothing is left to see to: of a base unit nothing after a 9, at which
    /// the Rust's run ends.
    fn over(&self, stop: Stop) -> bool {
        stop == Stop::Nowhere || stop == Stop::Full && !self.strict()
    }

    /// After a 5: a writer that the budget reaches, by CWRITER alone or by
    /// CWRITER on a disabled unit and then CTLR.
    fn nearer(&mut self) -> Stop {
        let budget = self.configuration.budget as usize;
        let step = self.random.between(1, budget.min(8));
        let place = self.ring.after(self.ring.reader, step);
        self.lend_up_to(place);
        if self.random.once_in(2) {
            return self.write_writer(place);
        }
        self.disable();
        self.write_writer(place);
        self.enable()
    }

    /// In place of a ring that is not valid: the same, valid, with the commands that
    /// wait.
    fn with_a_valid_ring(&mut self) -> Stop {
        let waiting = self.ring.commands();
        let (base, pages) = (self.ring.base, self.ring.pages());
        self.disable();
        self.give_ring(base, pages, true, 0);
        self.enable();
        self.post(&waiting)
    }

    /// After a refused command: another in its place, or none, or a new start.
    fn repair(&mut self) -> Stop {
        let place = self.ring.reader;
        match self.random.below(8) {
            0 => {
                self.start_again();
                Stop::Nowhere
            }
            1 => self.write_writer(place),
            2 => {
                self.ring.places[place] = self.bad();
                self.lend_up_to(self.ring.writer);
                self.retry()
            }
            3 => {
                self.ring.places[place] = sync(0);
                self.lend_up_to(self.ring.writer);
                self.retry()
            }
            _ => {
                self.ring.places[place] = self.good();
                self.lend_up_to(self.ring.writer);
                self.retry()
            }
        }
    }

    /// A look at some registers and some pairs.
    pub fn look(&mut self) {
        if self.random.once_in(2) {
            self.read(CREADR, 8);
        }
        if self.random.once_in(4) {
            self.read(CWRITER, 4);
            self.read(CTLR, 4);
        }
        for _ in 0..self.random.below(3) {
            let pair = self.any_pair();
            self.translate(pair);
        }
    }

    /// A look at the pairs that should be mapped and at a few others.
    pub fn look_at_all(&mut self) {
        let mut pairs: Vec<(u32, u32)> = self.believed.pairs.keys().copied().collect();
        pairs.truncate(40);
        for _ in 0..6 {
            let device = self.random.pick(&self.keys.devices);
            pairs.push((device, self.random.pick(&self.keys.events)));
        }
        for pair in pairs {
            self.translate(pair);
        }
    }
}
