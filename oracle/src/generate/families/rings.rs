//! Rings that wrap.

use crate::command::sync;
use crate::generate::guest::{CREADR, Guest};
use crate::generate::keys;
use crate::generate::random::Random;
use crate::generate::ring::PLACES_OF_A_PAGE;

/// A ring of one page, most of it run through, then wrapped by ordinary work.
pub fn one_page(random: Random, profile: u8) -> Vec<u8> {
    let mut guest = guest_with_budget(random, profile, &[8, 64, 1_024]);
    guest.start(1);
    run_to(&mut guest, PLACES_OF_A_PAGE - 5);
    wrap(&mut guest, 4);
    guest.trace
}

/// The same with two or three pages.
pub fn several_pages(random: Random, profile: u8) -> Vec<u8> {
    let mut guest = guest_with_budget(random, profile, &[64, 128, 1_024]);
    let pages = guest.random.pick(&[2, 2, 3]);
    guest.start(pages);
    run_to(&mut guest, pages * PLACES_OF_A_PAGE - 5);
    wrap(&mut guest, 3);
    guest.trace
}

fn guest_with_budget(mut random: Random, profile: u8, budgets: &[u32]) -> Guest {
    let mut configuration = keys::configuration(&mut random, profile);
    configuration.budget = random.pick(budgets);
    Guest::with(random, configuration)
}

/// Brings the reader to a place at or after this one with commands of all
/// kinds among plain SYNCs.
fn run_to(guest: &mut Guest, place: usize) {
    while guest.ring.writer < place {
        let good = guest.portion(6);
        let mut commands = guest.goods(good);
        let budget = guest.configuration.budget as usize;
        let many = (place - guest.ring.writer).min(budget).min(100);
        commands.truncate(many);
        commands.resize(many, sync(0));
        guest.post_and_settle(&commands);
    }
}

/// Work over the end of the ring and on from its start.
fn wrap(guest: &mut Guest, batches: usize) {
    for _ in 0..batches {
        let count = guest.portion(8);
        let commands = guest.goods(count);
        let writer = guest.put(&commands);
        let wraps = writer < guest.ring.reader;
        if wraps && guest.ring.places.len() == PLACES_OF_A_PAGE && guest.random.once_in(2) {
            // The whole ring in one window: no stop at its end.
            guest.lend(guest.ring.base, PLACES_OF_A_PAGE * 32);
        } else {
            guest.lend_up_to(writer);
        }
        let stop = guest.write_writer(writer);
        guest.settle(stop);
        guest.read(CREADR, 8);
        guest.look();
    }
    guest.look_at_all();
}
