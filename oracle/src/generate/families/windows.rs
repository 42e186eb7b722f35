//! Windows that hold a command exactly, or miss it by a byte at either end.

use crate::fields::BYTES_OF_A_COMMAND;
use crate::generate::guest::Guest;
use crate::generate::random::Random;

pub fn trace(random: Random, profile: u8) -> Vec<u8> {
    let mut guest = Guest::new(random, profile);
    let pages = guest.random.pick(&[1, 1, 2]);
    guest.start(pages);
    let batches = guest.random.between(3, 20);
    for _ in 0..batches {
        let count = guest.portion(4);
        let commands = guest.goods(count);
        let writer = guest.put(&commands);
        lend_askew(&mut guest, count);
        let stop = guest.write_writer(writer);
        guest.settle(stop);
        guest.look();
    }
    guest.look_at_all();
    guest.trace
}

/// A window around the commands that wait, off by a little or by much.
fn lend_askew(guest: &mut Guest, count: usize) {
    let start = guest.ring.address(guest.ring.reader);
    let length = count * BYTES_OF_A_COMMAND;
    match guest.random.below(10) {
        0 | 1 => guest.lend(start + 1, length - 1),
        2 | 3 => guest.lend(start, length - 1),
        4 => guest.lend(start - 1, length + 2),
        5 => guest.lend(start, 0),
        6 => {
            // All of some commands, and a part of the next.
            let part = guest.random.below(length);
            guest.lend(start, part);
        }
        7 => {
            let address = guest.random.pick(&[
                u64::MAX,
                u64::MAX - 15,
                u64::MAX - 31,
                start.wrapping_add(1 << 63),
                start ^ 1 << 32,
            ]);
            guest.lend(address, 64);
        }
        8 => {
            let before = guest.random.below(300) as u64;
            let length = guest.random.pick(&[500, 500, 500, 4_096]);
            guest.lend(start - before, length);
        }
        _ => guest.lend(start, length),
    }
}
