//! Budgets filled to the last command, and exceeded.

use crate::command::sync;
use crate::generate::guest::{CREADR, Guest};
use crate::generate::keys;
use crate::generate::random::Random;
use crate::generate::ring::PLACES_OF_A_PAGE;

pub fn trace(mut random: Random, profile: u8) -> Vec<u8> {
    let mut configuration = keys::configuration(&mut random, profile);
    configuration.budget = random.pick(&[1, 1, 2, 3, 8, 20, 64, 126, 1_024]);
    let mut guest = Guest::with(random, configuration);
    let pages = guest.random.pick(&[1, 1, 2, 16, 256]);
    guest.start(pages);
    let rounds = guest.random.between(2, 6);
    for _ in 0..rounds {
        to_the_brim(&mut guest);
        over_the_brim(&mut guest);
        guest.read(CREADR, 8);
        guest.look();
    }
    guest.look_at_all();
    guest.trace
}

/// As many commands in one write as the budget and the window allow.
fn to_the_brim(guest: &mut Guest) {
    let budget = guest.configuration.budget as usize;
    let count = budget.min(PLACES_OF_A_PAGE - 1);
    let good = guest.portion(6);
    let mut commands = guest.goods(good);
    commands.truncate(count);
    commands.resize(count, sync(0));
    guest.post_and_settle(&commands);
}

/// A writer beyond the budget, by one or by more; nothing need be lent.
fn over_the_brim(guest: &mut Guest) {
    let budget = guest.configuration.budget as usize;
    let places = guest.ring.places.len();
    if budget + 1 >= places {
        return;
    }
    let room = places - 1 - budget;
    let extra = if guest.random.once_in(2) {
        1
    } else {
        guest.random.between(1, room)
    };
    let commands = guest.goods(4);
    guest.put(&commands);
    let writer = guest.ring.after(guest.ring.reader, budget + extra);
    let stop = guest.write_writer(writer);
    guest.settle(stop);
    let reader = guest.ring.reader;
    guest.write_writer(reader);
}
