//! A guest at work: batches of commands, most of them good.

use crate::generate::guest::{Guest, Stop};
use crate::generate::random::Random;

/// A well-behaved guest that errs now and then.
pub fn trace(random: Random, profile: u8) -> Vec<u8> {
    let mut guest = Guest::new(random, profile);
    guest.start(1);
    let batches = guest.random.between(4, 40);
    for _ in 0..batches {
        let count = guest.portion(8);
        let mut commands = guest.goods(count);
        if guest.random.once_in(12) {
            let at = guest.random.below(commands.len());
            commands[at] = guest.bad();
        }
        guest.post_and_settle(&commands);
        guest.look();
        if guest.random.once_in(10) {
            rest(&mut guest);
        }
    }
    guest.look_at_all();
    guest.trace
}

/// A guest half of whose writes hold a command that should be refused.
pub fn hostile(random: Random, profile: u8) -> Vec<u8> {
    let mut guest = Guest::new(random, profile);
    guest.start(1);
    let batches = guest.random.between(4, 24);
    for _ in 0..batches {
        let count = guest.portion(5);
        let mut commands = guest.goods(count);
        if guest.random.once_in(2) {
            commands.truncate(guest.configuration.budget as usize - 1);
            let bad = guest.bad_after(&commands);
            commands.push(bad);
        }
        guest.post_and_settle(&commands);
        guest.look();
    }
    guest.look_at_all();
    guest.trace
}

/// Commands posted to a disabled unit, run when it is enabled again.
fn rest(guest: &mut Guest) {
    guest.disable();
    let count = guest.portion(4);
    let commands = guest.goods(count);
    let stop = guest.post(&commands);
    assert_eq!(stop, Stop::Nowhere);
    // A message is answered while the unit is disabled too.
    let pair = guest.any_pair();
    guest.translate(pair);
    let stop = guest.enable();
    guest.settle(stop);
}
