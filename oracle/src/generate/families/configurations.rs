//! Several configurations in one trace, refused ones among them, and calls
//! before the first.

use crate::generate::guest::{CBASER, CREADR, CTLR, CWRITER, Guest};
use crate::generate::keys;
use crate::generate::random::Random;
use crate::record::{Configuration, Record};

pub fn trace(random: Random, profile: u8) -> Vec<u8> {
    let mut guest = Guest::new(random, profile);
    // A guest begins with an accepted CF; here that comes later.
    guest.trace.clear();
    if guest.random.once_in(2) {
        call_everything(&mut guest);
        guest.lend(0x4000_0000, 64);
    }
    let rounds = guest.random.between(1, 4);
    for _ in 0..rounds {
        if guest.random.once_in(2) {
            let refused = spoiled(&mut guest);
            guest.record(&Record::Cf(refused));
            call_everything(&mut guest);
        }
        let configuration = keys::configuration(&mut guest.random, profile);
        guest.configure(configuration);
        guest.start(1);
        let batches = guest.random.between(1, 5);
        for _ in 0..batches {
            let count = guest.portion(6);
            let commands = guest.goods(count);
            guest.post_and_settle(&commands);
            guest.look();
        }
        guest.look_at_all();
    }
    guest.trace
}

/// A configuration with one size beyond its limit, or a profile that there is not.
fn spoiled(guest: &mut Guest) -> Configuration {
    let mut configuration = keys::configuration(&mut guest.random, guest.configuration.profile);
    match guest.random.below(9) {
        0 => configuration.limit = guest.random.pick(&[0, 8_191]),
        1 => configuration.limit = guest.random.pick(&[16_777_216, u32::MAX]),
        2 => configuration.budget = 0,
        3 => configuration.budget = guest.random.pick(&[1_025, u32::MAX]),
        4 => configuration.frame = guest.random.pick(&[0, 65_535, 65_537, 131_073, 262_144]),
        5 => configuration.processors.clear(),
        6 => configuration.processors = (0..17).collect(),
        7 => configuration.profile = guest.random.pick(&[2, 3, 0x80, u8::MAX]),
        _ => {
            let twice = guest.some_processor();
            configuration.processors = vec![twice, twice.wrapping_add(1), twice];
        }
    }
    configuration
}

/// One call of each kind, good ones and bad ones: all are answered 1.
fn call_everything(guest: &mut Guest) {
    guest.write(CBASER, 8, 0x8000_0000_4000_0000);
    guest.write(CTLR, 4, 1);
    guest.write(CWRITER, 8, 32);
    guest.write(CWRITER, 3, 32);
    guest.read(CREADR, 8);
    guest.read(0xffd0, 4);
    guest.read(3, 8);
    guest.translate((5, 9));
}
