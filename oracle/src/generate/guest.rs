//! A guest that writes a trace: it keeps a ring, posts commands and believes
//! things about the unit.

use super::base::base_after;
use super::believed::{Believed, Expected};
use super::keys::{self, Keys};
use super::random::Random;
use super::ring::Ring;
use crate::fields::{BYTES_OF_A_COMMAND, Words};
use crate::record::{Configuration, LONGEST_WINDOW, RETRY, Record, STRICT};

pub const CTLR: u64 = 0x0;
pub const CBASER: u64 = 0x80;
pub const CWRITER: u64 = 0x88;
pub const CREADR: u64 = 0x90;
pub const BASER: u64 = 0x100;

const PLACES_OF_A_WINDOW: usize = LONGEST_WINDOW / BYTES_OF_A_COMMAND;

pub struct Guest {
    pub random: Random,
    pub configuration: Configuration,
    pub keys: Keys,
    pub believed: Believed,
    pub ring: Ring,
    pub enabled: bool,
    /// What a strict unit stalled at, until something clears it.
    pub stalled: Option<Stop>,
    pub cbaser: u64,
    pub trace: Vec<u8>,
    window: (u64, usize),
}

/// Where a run of the ring should have stopped.
#[derive(Clone, Copy, Debug, Eq, PartialEq)]
pub enum Stop {
    Nowhere,
    /// Before it began: a strict unit, and a ring that is not valid.
    Held,
    Budget,
    Window,
    Refused,
    Full,
}

impl Guest {
    /// A guest of a unit just configured.
    pub fn new(mut random: Random, profile: u8) -> Self {
        let configuration = keys::configuration(&mut random, profile);
        Self::with(random, configuration)
    }

    pub fn with(mut random: Random, configuration: Configuration) -> Self {
        let keys = Keys::choose(&mut random, &configuration);
        let mut guest = Self {
            random,
            configuration: configuration.clone(),
            keys,
            believed: Believed::default(),
            ring: Ring::default(),
            enabled: false,
            stalled: None,
            cbaser: 0,
            trace: Vec::new(),
            window: (0, 0),
        };
        guest.configure(configuration);
        guest
    }

    pub fn record(&mut self, record: &Record) {
        record.encode(&mut self.trace);
    }

    /// A CF that should be accepted. The window stays.
    pub fn configure(&mut self, configuration: Configuration) {
        self.record(&Record::Cf(configuration.clone()));
        self.keys = Keys::choose(&mut self.random, &configuration);
        self.configuration = configuration;
        self.believed = Believed::default();
        self.ring = Ring::default();
        self.enabled = false;
        self.stalled = None;
        self.cbaser = 0;
    }

    pub fn strict(&self) -> bool {
        self.configuration.profile == STRICT
    }

    pub fn read(&mut self, offset: u64, width: u8) {
        self.record(&Record::Rd { offset, width });
    }

    pub fn write(&mut self, offset: u64, width: u8, value: u64) {
        if !self.enabled {
            self.cbaser = base_after(self.cbaser, offset, width, value);
        }
        self.record(&Record::Wr {
            offset,
            width,
            value,
        });
    }

    pub fn translate(&mut self, pair: (u32, u32)) {
        self.record(&Record::Tr {
            device: pair.0,
            event: pair.1,
        });
    }

    /// Disables the unit; any even value does.
    pub fn disable(&mut self) {
        let value = self.random.pick(&[0, 0, 2, 0xffff_fffe]);
        self.write(CTLR, 4, value);
        self.enabled = false;
    }

    /// Enables the unit, which runs its ring; any odd value does.
    pub fn enable(&mut self) -> Stop {
        let value = self.random.pick(&[1, 1, 3, u64::MAX]);
        self.write(CTLR, 4, value);
        self.enabled = true;
        self.run()
    }

    /// Disables the unit, gives it the same ring again and enables it.
    pub fn start_again(&mut self) {
        let (base, pages) = (self.ring.base, self.ring.pages());
        self.disable();
        self.set_ring(base, pages);
        self.enable();
    }

    /// Lends a run of bytes of the ring's memory, past its end as well.
    pub fn lend(&mut self, address: u64, length: usize) {
        let bytes = (0..length)
            .map(|at| self.ring.byte(address.wrapping_add(at as u64)))
            .collect();
        self.window = (address, length);
        self.record(&Record::Gm { address, bytes });
    }

    /// Lends what waits up to the given writer, as far as the ring's end and
    /// one window go.
    pub fn lend_up_to(&mut self, writer: usize) {
        let ring = &self.ring;
        let end = if writer >= ring.reader {
            writer
        } else {
            ring.places.len()
        };
        let count = (end - ring.reader).min(PLACES_OF_A_WINDOW);
        self.lend(ring.address(ring.reader), count * BYTES_OF_A_COMMAND);
    }

    /// Puts commands into guest memory behind the writer; answers the place
    /// after them.
    pub fn put(&mut self, commands: &[Words]) -> usize {
        let mut place = self.ring.writer;
        for command in commands {
            self.ring.places[place] = *command;
            place = self.ring.after(place, 1);
        }
        place
    }

    /// Writes CWRITER, to a strict unit now and then with Retry.
    pub fn write_writer(&mut self, place: usize) -> Stop {
        let retry = self.strict() && self.random.once_in(8);
        self.write_writer_as(place, retry)
    }

    /// Writes CWRITER in one of the forms that mean the same, with Retry or without. A
    /// base unit refuses one with Retry, and runs nothing.
    pub fn write_writer_as(&mut self, place: usize, retry: bool) -> Stop {
        let value = (place * BYTES_OF_A_COMMAND) as u64;
        let value = if retry { value | RETRY } else { value };
        match self.random.below(6) {
            0 => self.write(CWRITER, 8, value | 0xfff0_0000),
            1 | 2 => self.write(CWRITER, 4, value | 0xffff_ffff_0000_0000),
            _ => self.write(CWRITER, 8, value),
        }
        if retry && !self.strict() {
            return Stop::Nowhere;
        }
        if retry {
            self.stalled = None;
        }
        self.ring.writer = place;
        self.run()
    }

    /// Asks an enabled unit to go on, without a change of the writer.
    pub fn retry(&mut self) -> Stop {
        if self.strict() {
            return self.retry_in_strict();
        }
        match self.random.below(5) {
            0 | 1 => self.enable(),
            2 => {
                self.disable();
                self.enable()
            }
            3 => self.write_writer(self.ring.writer),
            _ => {
                let value = self.random.number();
                self.write(CWRITER + 4, 4, value);
                self.run()
            }
        }
    }

    /// What the unit should do with the ring now.
    pub fn run(&mut self) -> Stop {
        if !self.enabled || self.ring.waiting() == 0 {
            return Stop::Nowhere;
        }
        if self.strict() && !self.ring.valid {
            return Stop::Held;
        }
        if let Some(stop) = self.stalled {
            return stop;
        }
        if self.ring.waiting() > self.configuration.budget as usize {
            return Stop::Budget;
        }
        while self.ring.reader != self.ring.writer {
            let place = self.ring.reader;
            if let Err(stop) = self.carried_out(place) {
                self.stalled = self.strict().then_some(stop);
                return stop;
            }
            self.ring.reader = self.ring.after(place, 1);
        }
        Stop::Nowhere
    }

    /// The command of a place carried out, or why it should stop the run.
    fn carried_out(&mut self, place: usize) -> Result<(), Stop> {
        if !self.in_window(self.ring.address(place)) {
            return Err(Stop::Window);
        }
        let command = self.ring.places[place];
        match self.believed.carry_out(&command, &self.configuration) {
            Expected::Accepted => Ok(()),
            Expected::Refused => Err(Stop::Refused),
            Expected::Full => Err(Stop::Full),
        }
    }

    fn in_window(&self, address: u64) -> bool {
        let (start, length) = self.window;
        address
            .checked_sub(start)
            .is_some_and(|within| within + BYTES_OF_A_COMMAND as u64 <= length as u64)
    }
}
