//! The guest's side of the ring.

use crate::command::sync;
use crate::fields::{BYTES_OF_A_COMMAND, Words};

pub const PLACES_OF_A_PAGE: usize = 4_096 / BYTES_OF_A_COMMAND;

/// The ring in guest memory, at first full of SYNCs. Reader and writer are counted in commands; a ring
/// without places is one that the unit does not know of yet.
#[derive(Clone, Debug, Default)]
pub struct Ring {
    pub base: u64,
    /// Whether it is given with CBASER's bit 63, which a strict unit looks at.
    pub valid: bool,
    pub places: Vec<Words>,
    pub reader: usize,
    pub writer: usize,
}

impl Ring {
    pub fn new(base: u64, pages: usize, valid: bool) -> Self {
        Self {
            base,
            valid,
            places: vec![sync(0); pages * PLACES_OF_A_PAGE],
            reader: 0,
            writer: 0,
        }
    }

    pub fn pages(&self) -> usize {
        self.places.len() / PLACES_OF_A_PAGE
    }

    /// The commands that wait.
    pub fn commands(&self) -> Vec<Words> {
        let places = (0..self.waiting()).map(|step| self.after(self.reader, step));
        places.map(|place| self.places[place]).collect()
    }

    pub fn waiting(&self) -> usize {
        if self.writer >= self.reader {
            self.writer - self.reader
        } else {
            self.writer + self.places.len() - self.reader
        }
    }

    pub fn address(&self, place: usize) -> u64 {
        self.base + (place * BYTES_OF_A_COMMAND) as u64
    }

    /// The byte of guest memory at an address; zero outside the ring.
    pub fn byte(&self, address: u64) -> u8 {
        let within = address.wrapping_sub(self.base);
        let place = within / BYTES_OF_A_COMMAND as u64;
        let word = (within % BYTES_OF_A_COMMAND as u64 / 8) as usize;
        match self.places.get(place as usize) {
            Some(words) => words[word].to_le_bytes()[(within % 8) as usize],
            None => 0,
        }
    }

    /// The place so many commands further on.
    pub fn after(&self, place: usize, commands: usize) -> usize {
        (place + commands) % self.places.len()
    }
}
