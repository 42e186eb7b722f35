//! Tables filled to the last record, freed, filled again, and overfilled.

use crate::command::{discard, int, mapc, mapd, mapi, mapti, movi, unmapc, unmapd};
use crate::fields::Words;
use crate::generate::guest::Guest;
use crate::generate::keys;
use crate::generate::random::Random;
use crate::tables::{COLLECTIONS, DEVICES, TRANSLATIONS, Table};

pub fn trace(mut random: Random, profile: u8) -> Vec<u8> {
    let mut configuration = keys::configuration(&mut random, profile);
    configuration.limit = 65_535;
    configuration.budget = 128;
    let mut guest = Guest::with(random, configuration);
    guest.start(1);
    let table = guest
        .random
        .pick(&[Table::Devices, Table::Collections, Table::Translations]);
    let mut filler = Filler::new(&mut guest, table);
    filler.groundwork();
    filler.fill();
    let rounds = filler.guest.random.below(4);
    for _ in 0..rounds {
        let replaced = filler.replacement();
        filler.guest.post_and_settle(&[replaced]);
        filler.free();
        filler.fill();
        filler.guest.look();
    }
    if filler.guest.random.once_in(3) {
        filler.overfill();
    }
    guest.trace
}

/// Keeps one table full. Keys are counted up from a random start.
struct Filler<'a> {
    guest: &'a mut Guest,
    table: Table,
    next: u32,
}

impl<'a> Filler<'a> {
    fn new(guest: &'a mut Guest, table: Table) -> Self {
        let next = guest.random.pick(&[0, 100, 60_000]);
        Self { guest, table, next }
    }

    /// What pairs stand on: one device or a few, two collections.
    fn groundwork(&mut self) {
        if self.table != Table::Translations {
            return;
        }
        let first = self.guest.some_processor();
        let second = self.guest.some_processor();
        let commands = [
            mapd(0, 16),
            mapd(1, 16),
            mapd(2, 32),
            mapc(0, first),
            mapc(1, second),
        ];
        self.guest.post_and_settle(&commands);
    }

    fn used(&self) -> usize {
        let believed = &self.guest.believed;
        match self.table {
            Table::Devices => believed.devices.len(),
            Table::Collections => believed.collections.len(),
            Table::Translations => believed.pairs.len(),
        }
    }

    fn size(&self) -> usize {
        match self.table {
            Table::Devices => DEVICES,
            Table::Collections => COLLECTIONS,
            Table::Translations => TRANSLATIONS,
        }
    }

    /// A command for one more record.
    fn one_more(&mut self) -> Words {
        self.next += 1;
        match self.table {
            Table::Devices => mapd(self.next, 4),
            Table::Collections => {
                let processor = self.guest.some_processor();
                mapc(self.next as u16, processor)
            }
            Table::Translations => {
                let (device, event) = self.last_pair();
                let collection = self.next as u16 & 1;
                if self.guest.random.once_in(4) {
                    return mapi(device, event, collection);
                }
                let lpi = self.guest.random.pick(&self.guest.keys.lpis);
                mapti(device, event, lpi, collection)
            }
        }
    }

    /// The last pair that was asked for; its event will do as an LPI too.
    fn last_pair(&self) -> (u32, u32) {
        (self.next % 3, 8_192 + self.next / 3)
    }

    fn fill(&mut self) {
        while self.used() < self.size() {
            let count = (self.size() - self.used()).min(100);
            let commands: Vec<Words> = (0..count).map(|_| self.one_more()).collect();
            self.guest.post_and_settle(&commands);
        }
    }

    /// A command for the last record again; it needs no room.
    fn replacement(&mut self) -> Words {
        let (device, event) = self.last_pair();
        match self.table {
            Table::Devices => mapd(self.next, 5),
            Table::Collections => mapc(self.next as u16, self.guest.some_processor()),
            Table::Translations => mapti(device, event, 8_200, 0),
        }
    }

    /// Frees one record, or several at once.
    fn free(&mut self) {
        let (device, event) = self.last_pair();
        let commands: Vec<Words> = match self.table {
            Table::Devices => vec![unmapd(self.next), unmapd(self.next - 7)],
            Table::Collections => vec![unmapc(self.next as u16)],
            Table::Translations => match self.guest.random.below(4) {
                0 => vec![discard(device, event)],
                1 => vec![
                    int(device, event),
                    movi(device, event, 0),
                    discard(device, event),
                ],
                2 => vec![unmapd(2), mapd(2, 32)],
                _ => {
                    let processor = self.guest.some_processor();
                    vec![unmapc(1), mapc(1, processor)]
                }
            },
        };
        self.guest.post_and_settle(&commands);
    }

    /// One record more than the table has: the oracle's run ends here, but for a
    /// strict unit. Every other new pair has an INT of the last one before it.
    fn overfill(&mut self) {
        let mut commands = vec![self.replacement()];
        if self.table == Table::Translations && self.next % 2 == 1 {
            let (device, event) = self.last_pair();
            commands.push(int(device, event));
        }
        commands.push(self.one_more());
        let stop = self.guest.post(&commands);
        if self.guest.strict() {
            self.guest.settle(stop);
            self.guest.look();
        }
    }
}
