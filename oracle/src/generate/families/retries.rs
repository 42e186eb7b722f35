//! Runs that stop, and drivers that try to go on in every way. Most of them write Retry,
//! which a strict unit takes and a base unit refuses.

use crate::command::sync;
use crate::generate::guest::{CREADR, CWRITER, Guest};
use crate::generate::keys;
use crate::generate::random::Random;

pub fn trace(mut random: Random, profile: u8) -> Vec<u8> {
    let mut configuration = keys::configuration(&mut random, profile);
    configuration.budget = random.pick(&[1, 2, 2, 3, 8, 64]);
    let mut guest = Guest::with(random, configuration);
    start(&mut guest);
    let rounds = guest.random.between(2, 10);
    for _ in 0..rounds {
        stop(&mut guest);
        let attempts = guest.random.below(6);
        for _ in 0..attempts {
            attempt(&mut guest);
        }
        if guest.random.once_in(12) {
            let configuration = guest.configuration.clone();
            guest.configure(configuration);
            guest.read(CREADR, 8);
            start(&mut guest);
        }
        go_on(&mut guest);
        guest.look();
    }
    guest.look_at_all();
    guest.trace
}

/// A ring, and now and then CWRITER with Retry before there is one.
fn start(guest: &mut Guest) {
    if guest.random.once_in(2) {
        if guest.random.once_in(2) {
            guest.enable();
        }
        for _ in 0..3 {
            let value = guest.random.pick(&[0, 1, 1, 33, 0x10_0001, u64::MAX]);
            let places = [(CWRITER, 8), (CWRITER, 4), (CWRITER + 4, 4)];
            let (offset, width) = guest.random.pick(&places);
            guest.write(offset, width, value);
            guest.read(CWRITER, 8);
        }
        guest.disable();
    }
    guest.start(1);
}

/// A run that should stop: at a command, at the window's end, or at the budget.
fn stop(guest: &mut Guest) {
    let count = guest.portion(3);
    let mut commands = guest.goods(count);
    match guest.random.below(5) {
        0 => {
            let writer = guest.put(&commands);
            let start = guest.ring.address(guest.ring.reader);
            guest.lend(start, 32 * count - 1);
            guest.write_writer(writer);
        }
        1 => {
            commands.push(sync(0));
            guest.put(&commands);
            move_writer(guest, false);
        }
        _ => {
            commands.truncate(guest.configuration.budget as usize - 1);
            let bad = guest.bad_after(&commands);
            commands.push(bad);
            guest.post(&commands);
        }
    }
}

/// One thing that a driver may do about it.
fn attempt(guest: &mut Guest) {
    let writer = guest.ring.writer;
    match guest.random.below(14) {
        0 => _ = guest.write_writer_as(writer, true),
        1 => move_writer(guest, true),
        2 => move_writer(guest, false),
        3 => _ = guest.write_writer_as(writer, false),
        4 => guest.refused_retry(),
        5 => _ = guest.write_high_half(),
        6 => _ = guest.toggle(),
        7 => {
            guest.disable();
            guest.write_writer_as(writer, true);
        }
        8 => guest.base_that_is_not_stored(),
        9 => {
            guest.disable();
            guest.base_that_is_not_stored();
        }
        10 => guest.start_again(),
        11 => mend(guest),
        _ => guest.look_at_the_reader(),
    }
    if guest.random.once_in(2) {
        guest.look_at_the_reader();
    }
    if guest.random.once_in(4) {
        guest.read(CWRITER, 8);
    }
}

/// A writer anywhere up to a little beyond the budget.
fn move_writer(guest: &mut Guest, retry: bool) {
    let budget = guest.configuration.budget as usize;
    let most = (budget + 3).min(guest.ring.places.len() - 1);
    let step = match guest.random.below(3) {
        0 => guest.random.below(most + 1),
        _ => (budget + 1).min(most),
    };
    let place = guest.ring.after(guest.ring.reader, step);
    guest.lend_up_to(place);
    guest.write_writer_as(place, retry);
}

/// Another command in the place of the one that waits first.
fn mend(guest: &mut Guest) {
    let place = guest.ring.reader;
    guest.ring.places[place] = guest.good();
    guest.lend_up_to(guest.ring.writer);
}

/// Until all is done or given up.
fn go_on(guest: &mut Guest) {
    if !guest.enabled {
        guest.enable();
    }
    let stop = guest.retry();
    guest.settle(stop);
}
