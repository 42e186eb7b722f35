//! Accesses of every register at every width, between commands.

use crate::generate::guest::{BASER, CBASER, CTLR, CWRITER, Guest};
use crate::generate::random::Random;
use crate::text::REGISTERS;

const VALUES: [u64; 14] = [
    0,
    1,
    2,
    0x20,
    0xfe0,
    0x1000,
    0x10_0000,
    0x10_0020,
    0xffff_ffff,
    0x1_0000_0000,
    0x4000_0000,
    0x8000_0000_0000_0000,
    0x000f_ffff_ffff_f0ff,
    u64::MAX,
];

pub fn trace(random: Random, profile: u8) -> Vec<u8> {
    let mut guest = Guest::new(random, profile);
    let accesses = guest.random.between(20, 150);
    for _ in 0..accesses {
        match guest.random.below(20) {
            0 => fresh_writer(&mut guest),
            1 => base_zero(&mut guest),
            2 => restart(&mut guest),
            3 => work(&mut guest),
            4 => written_while_enabled(&mut guest),
            _ => access(&mut guest),
        }
    }
    guest.trace
}

/// Any access but one that would lead the guest's belief astray: what is
/// written to a ring register here leaves a ring that is known.
fn access(guest: &mut Guest) {
    let offset = some_offset(guest);
    let width = some_width(guest);
    if guest.random.once_in(2) {
        guest.read(offset, width);
        return;
    }
    if (CBASER..CBASER + 0x18).contains(&offset) || offset == CTLR {
        ring_register(guest, offset, width);
        return;
    }
    if guest.random.once_in(2) {
        guest.disable();
    }
    let value = some_value(guest);
    guest.write(offset, width, value);
    guest.read(offset & !7, 8);
}

fn some_width(guest: &mut Guest) -> u8 {
    match guest.random.below(8) {
        0 | 1 => guest.random.below(10) as u8,
        2 => guest.random.pick(&[1, 2]),
        3 | 4 => 4,
        _ => 8,
    }
}

fn some_value(guest: &mut Guest) -> u64 {
    if guest.random.once_in(2) {
        guest.random.pick(&VALUES)
    } else {
        guest.random.number()
    }
}

/// A register, its high half, a byte inside it, or a place far from all.
fn some_offset(guest: &mut Guest) -> u64 {
    let register = &REGISTERS[guest.random.below(REGISTERS.len())];
    let frame = u64::from(guest.configuration.frame);
    match guest.random.below(16) {
        0..=6 => register.offset,
        7..=11 => register.offset + 4,
        12 => register.offset + guest.random.below(8) as u64,
        13 => guest.random.below(0x200) as u64,
        14 => 0xffd0 + guest.random.below(0x30) as u64,
        _ => {
            let near =
                guest
                    .random
                    .pick(&[0xffd0, 0xffff, 0x1_ffd0, 0x1_0000, frame, u64::MAX, 1 << 32]);
            near.wrapping_add(guest.random.below(17) as u64)
                .wrapping_sub(8)
        }
    }
}

/// A write to CTLR or a ring register of a disabled unit; the ring is then
/// given again, so that the belief stays right.
fn ring_register(guest: &mut Guest, offset: u64, width: u8) {
    guest.disable();
    let value = some_value(guest);
    guest.write(offset, width, value);
    for register in [CBASER, CWRITER, CWRITER + 8] {
        guest.read(register, 8);
    }
    guest.disable();
    guest.start(1);
}

/// CWRITER before CBASER, on a fresh unit.
fn fresh_writer(guest: &mut Guest) {
    let configuration = guest.configuration.clone();
    guest.configure(configuration);
    if guest.random.once_in(2) {
        guest.enable();
    }
    for _ in 0..3 {
        let value = guest.random.pick(&[0, 0, 32, 0x10_0000, 1 << 32, u64::MAX]);
        let (offset, width) = guest
            .random
            .pick(&[(CWRITER, 8), (CWRITER, 4), (CWRITER + 4, 4)]);
        guest.write(offset, width, value);
        guest.read(CWRITER, 8);
    }
    guest.disable();
    guest.start(1);
}

/// Base zero is refused, whole or merged from halves; the old ring stays.
fn base_zero(guest: &mut Guest) {
    guest.disable();
    match guest.random.below(3) {
        0 => guest.write(CBASER, 8, 0),
        1 => guest.write(CBASER, 8, 0xfff0_0000_0000_0fff),
        _ => {
            guest.write(CBASER, 4, 0xfff);
            guest.write(CBASER + 4, 4, 0xfff0_0000);
        }
    }
    guest.read(CBASER, 8);
    guest.start(1);
}

fn restart(guest: &mut Guest) {
    guest.disable();
    let pages = guest.random.pick(&[1, 1, 1, 2, 256]);
    guest.start(pages);
}

fn work(guest: &mut Guest) {
    if guest.ring.places.is_empty() {
        restart(guest);
    }
    let count = guest.portion(4);
    let commands = guest.goods(count);
    guest.post_and_settle(&commands);
    guest.look();
}

/// CBASER and BASER are ignored while enabled.
fn written_while_enabled(guest: &mut Guest) {
    if !guest.enabled {
        let stop = guest.enable();
        guest.settle(stop);
    }
    let value = some_value(guest);
    let baser = BASER + 8 * guest.random.below(8) as u64;
    let offset = guest.random.pick(&[CBASER, CBASER, baser]);
    let width = guest.random.pick(&[4, 8]);
    guest.write(offset, width, value);
    guest.read(offset, 8);
    guest.read(CWRITER, 8);
}
