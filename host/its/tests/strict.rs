//! What the strict profile changes, through the calls, with base beside it.

mod common;

use common::{CBASER, CREADR, CTLR, CWRITER, Host, PROCESSORS, QUEUE, SETTINGS, VALID};
use its::Profile::{self, Base, Strict};
use its::command::{Command, clear, discard, int, inv, invall, mapc, mapd, mapi, mapti, movi};
use its::command::{sync, unmapd};
use its::{CollectionId, DeviceId, EventId, Its, Lpi, Processor};
use its::{RETRY, Refusal, STALLED, WriteRefused, Written};

const ONE: CollectionId = CollectionId(1);
const TWO: CollectionId = CollectionId(2);
/// The highest device that TYPER announces, and the next.
const HIGHEST: DeviceId = DeviceId(65_535);
const TOO_LARGE: DeviceId = DeviceId(65_536);

/// The LPI and processor of a message, or the number of its refusal.
fn message(host: &Host, device: DeviceId, event: u32) -> Result<(u32, u16), u64> {
    let delivery = host.its.translate(device, EventId(event));
    delivery
        .map(|to| (to.lpi.0, to.processor.0))
        .map_err(Refusal::number)
}

/// docs/SECOND-VISIT.md: the first seat's device is mapped again, and the number
/// of one of its old pairs is given to the second seat.
#[test]
fn a_late_message_of_the_second_visit() {
    for profile in [Base, Strict] {
        let of = |base, strict| if profile == Strict { strict } else { base };
        let (first, second) = (DeviceId(5), DeviceId(6));
        let mut host = Host::new(profile);
        let visit = host.run(&[
            mapc(ONE, Processor(0)),
            mapc(TWO, Processor(3)),
            mapd(first, 4),
            mapd(second, 4),
            mapti(first, EventId(0), Lpi(8_192), ONE),
            mapti(first, EventId(9), Lpi(8_201), ONE),
            mapti(second, EventId(0), Lpi(8_208), TWO),
        ]);
        assert!(visit.1.is_ok());
        assert_eq!(message(&host, first, 9), Ok((8_201, 0)));

        assert!(host.run(&[mapd(first, 1)]).1.is_ok());
        assert_eq!(message(&host, first, 0), of(Ok((8_192, 0)), Err(8)));
        assert_eq!(message(&host, first, 9), of(Ok((8_201, 0)), Err(8)));
        assert_eq!(message(&host, second, 0), Ok((8_208, 3)));

        let again = host.run(&[
            mapti(first, EventId(0), Lpi(8_193), ONE),
            mapti(second, EventId(9), Lpi(8_201), TWO),
        ]);
        assert!(again.1.is_ok());
        assert_eq!(message(&host, first, 0), Ok((8_193, 0)));
        assert_eq!(message(&host, second, 0), Ok((8_208, 3)));
        assert_eq!(message(&host, second, 9), Ok((8_201, 3)));
        // The late message.
        assert_eq!(message(&host, first, 9), of(Ok((8_201, 0)), Err(8)));

        // What the driver of a base unit must do is refused where the pair is gone.
        let discarded = host.run(&[discard(first, EventId(9))]).1;
        assert_eq!(discarded.is_ok(), profile == Base);
        if let Err(refused) = discarded {
            assert_eq!(refused.refusal, Refusal::PairUnmapped);
        }
        assert_eq!(message(&host, first, 9), Err(8));
        assert_eq!(message(&host, second, 9), Ok((8_201, 3)));
    }
}

/// A fresh unit's answer to SYNC and then this command: its refusal, 0 if none.
fn answered(profile: Profile, command: Command) -> u64 {
    let (delivered, answer) = Host::new(profile).run(&[sync(Processor(3)), command]);
    assert_eq!(delivered, []);
    let Err(refused) = answer else { return 0 };
    let expected = WriteRefused {
        refusal: refused.refusal,
        opcode: command[0],
        offset: 32,
        done: 1,
        actions: 0,
    };
    assert_eq!(refused, expected);
    assert!(refused.is_of_a_command());
    refused.refusal.number()
}

#[test]
fn a_device_that_is_too_large_is_refused_before_any_other_check() {
    let event = EventId(2);
    let commands = |device: DeviceId| {
        [
            (0, mapd(device, 4)),
            (0, unmapd(device)),
            (21, mapti(device, event, Lpi(8_191), ONE)),
            (21, mapi(device, event, ONE)),
            (22, mapti(device, event, Lpi(8_192), ONE)),
            (22, mapi(device, EventId(8_192), ONE)),
            (24, movi(device, event, ONE)),
            (8, int(device, event)),
            (8, clear(device, event)),
            (25, discard(device, event)),
            (25, inv(device, event)),
        ]
    };
    for (number, command) in commands(HIGHEST) {
        assert_eq!(answered(Base, command), number, "{command:?}");
        assert_eq!(answered(Strict, command), number, "{command:?}");
    }
    for device in [TOO_LARGE, DeviceId(u32::MAX)] {
        for (number, command) in commands(device) {
            assert_eq!(answered(Base, command), number, "{command:?}");
            assert_eq!(answered(Strict, command), 27, "{command:?}");
        }
    }
}

#[test]
fn too_large_comes_before_a_full_table() {
    for (number, device) in [(9, HIGHEST), (27, TOO_LARGE)] {
        let mut commands: Vec<Command> = (0..32).map(|n| mapd(DeviceId(n), 4)).collect();
        commands.push(mapd(device, 4));
        let refused = Host::new(Strict).run(&commands).1.unwrap_err();
        assert_eq!((refused.refusal.number(), refused.done), (number, 32));
    }
}

#[test]
fn a_command_that_names_no_device_may_have_anything_in_its_place() {
    let unknown = {
        let mut bytes = [0; 32];
        bytes[0] = 0x0e;
        bytes
    };
    for (number, mut command) in [
        (0, mapc(ONE, Processor(3))),
        (26, mapc(ONE, Processor(1))),
        (24, invall(ONE)),
        (0, sync(Processor(3))),
        (20, unknown),
    ] {
        command[4..8].fill(0xff);
        assert_eq!(answered(Base, command), number, "{command:?}");
        assert_eq!(answered(Strict, command), number, "{command:?}");
    }
}

#[test]
fn the_highest_device_gets_its_messages() {
    let mut host = Host::new(Strict);
    let (delivered, answer) = host.run(&[
        mapd(HIGHEST, 4),
        mapc(ONE, Processor(3)),
        mapti(HIGHEST, EventId(2), Lpi(8_200), ONE),
        int(HIGHEST, EventId(2)),
    ]);
    let written = Written {
        done: 4,
        actions: 1,
    };
    assert_eq!(answer, Ok(written));
    assert_eq!(delivered, [(Lpi(8_200), Processor(3), true)]);
    assert_eq!(message(&host, HIGHEST, 2), Ok((8_200, 3)));
    // Nothing can be mapped there, so nothing is.
    assert_eq!(message(&host, TOO_LARGE, 2), Err(8));
}

#[test]
fn too_large_in_words() {
    let refused = Host::new(Strict).run(&[mapd(TOO_LARGE, 4)]).1.unwrap_err();
    assert_eq!(
        refused.to_string(),
        "command at 0x0 of the queue, opcode 0x08, refused with 27: the device's number is above 65535, the highest that TYPER announces"
    );
}

const NOTHING: Written = Written {
    done: 0,
    actions: 0,
};

/// An enabled unit with bit 63 of its CBASER clear.
fn without_bit_63(profile: Profile) -> Host {
    let mut host = Host::new(profile);
    for (offset, width, value) in [(CTLR, 4, 0), (CBASER, 8, QUEUE), (CTLR, 4, 1)] {
        assert_eq!(host.write(offset, width, value), (vec![], Ok(NOTHING)));
    }
    host
}

#[test]
fn base_does_not_look_at_bit_63() {
    let mut host = without_bit_63(Base);
    let written = Written { done: 1, ..NOTHING };
    assert_eq!(host.run(&[sync(Processor(3))]), (vec![], Ok(written)));
    let (_, answer) = host.run(&[sync(Processor(3)); 65]);
    assert_eq!(answer.unwrap_err().refusal, Refusal::BudgetExceeded);
}

#[test]
fn a_queue_without_bit_63_is_held() {
    let mut host = without_bit_63(Strict);
    // One that would be refused, and more than the budget: both wait.
    for commands in [vec![int(HIGHEST, EventId(2))], vec![sync(Processor(3)); 65]] {
        assert_eq!(host.run(&commands), (vec![], Ok(NOTHING)));
        assert_eq!(host.its.read(CWRITER, 8), Ok(host.queue.len() as u64));
        assert_eq!(host.write(CTLR, 4, 1), (vec![], Ok(NOTHING)));
        assert_eq!(host.its.read(CREADR, 8), Ok(0));
    }
    // An offset that is no place of the queue is refused as ever.
    let (_, answer) = host.write(CWRITER, 8, 48);
    assert_eq!(answer.unwrap_err().refusal, Refusal::WriterRefused);

    // While the unit is on, CBASER is not stored; while it is off it is, and both
    // offsets are 0 then.
    assert!(host.write(CBASER, 8, VALID | QUEUE).1.is_ok());
    assert_eq!(host.its.read(CBASER, 8), Ok(QUEUE));
    for (offset, width, value) in [(CTLR, 4, 0), (CBASER, 8, VALID | QUEUE), (CTLR, 4, 1)] {
        assert_eq!(host.write(offset, width, value), (vec![], Ok(NOTHING)));
    }
    assert_eq!(host.its.read(CWRITER, 8), Ok(0));
    host.queue.clear();
    let written = Written { done: 1, ..NOTHING };
    assert_eq!(host.run(&[sync(Processor(3))]), (vec![], Ok(written)));
}

/// The queue stops at the third command, which names no device that is mapped.
fn stopped(profile: Profile) -> Host {
    let mut host = Host::new(profile);
    let unmapped = mapti(DeviceId(6), EventId(0), Lpi(8_208), ONE);
    let (_, answer) = host.run(&[
        mapc(ONE, Processor(3)),
        mapd(DeviceId(5), 4),
        unmapped,
        sync(Processor(3)),
    ]);
    let refused = answer.unwrap_err();
    assert_eq!(
        (refused.refusal, refused.offset, refused.done),
        (Refusal::DeviceUnmapped, 64, 2)
    );
    host
}

/// docs/HOSTS.md, "A driver that sees Stalled": it mends the command in memory
/// and writes CWRITER with Retry.
#[test]
fn a_driver_that_sees_stalled() {
    let mut host = stopped(Strict);
    for width in [8, 4] {
        assert_eq!(host.its.read(CREADR, width), Ok(64 | STALLED));
    }
    assert_eq!(host.its.read(CREADR + 4, 4), Ok(0));
    // Nothing tries it again: CTLR, or CWRITER without Retry.
    assert_eq!(host.write(CTLR, 4, 1), (vec![], Ok(NOTHING)));
    assert_eq!(host.write(CWRITER, 8, 128), (vec![], Ok(NOTHING)));
    assert_eq!(host.its.read(CREADR, 8), Ok(64 | STALLED));
    // With Retry it is tried, and refused as before.
    let again = host.write(CWRITER, 8, 128 | RETRY).1.unwrap_err();
    assert_eq!(
        (again.refusal, again.offset, again.done),
        (Refusal::DeviceUnmapped, 64, 0)
    );
    assert_eq!(host.its.read(CREADR, 8), Ok(64 | STALLED));
    assert_eq!(host.its.read(CWRITER, 8), Ok(128));

    host.queue[64..96].copy_from_slice(&mapd(DeviceId(6), 4));
    let written = Written { done: 2, ..NOTHING };
    assert_eq!(host.write(CWRITER, 8, 128 | RETRY), (vec![], Ok(written)));
    assert_eq!(host.its.read(CREADR, 8), Ok(128));
    assert_eq!(host.its.read(CWRITER, 8), Ok(128));
}

#[test]
fn what_does_not_end_a_stall() {
    let mut host = stopped(Strict);
    // More wait than the budget, and there is no 5.
    assert_eq!(host.write(CWRITER, 8, 4_064), (vec![], Ok(NOTHING)));
    // Retry with an offset that is no place of the queue; the offset told has no
    // bit 0.
    let refused = host.write(CWRITER, 8, 4_096 | RETRY).1.unwrap_err();
    assert_eq!(
        (refused.refusal, refused.offset),
        (Refusal::WriterRefused, 4_096)
    );
    // Bit 0 of the high half is no Retry.
    assert_eq!(host.write(CWRITER + 4, 4, 1), (vec![], Ok(NOTHING)));
    // CBASER is ignored while the unit is on.
    assert_eq!(host.write(CBASER, 8, VALID | QUEUE), (vec![], Ok(NOTHING)));
    assert_eq!(host.its.read(CREADR, 8), Ok(64 | STALLED));
    // Retry clears it even where more wait than the budget.
    let refused = host.write(CWRITER, 8, 4_064 | RETRY).1.unwrap_err();
    assert_eq!(
        (refused.refusal, refused.offset),
        (Refusal::BudgetExceeded, 64)
    );
    assert_eq!(host.its.read(CREADR, 8), Ok(64));
}

#[test]
fn retry_while_the_unit_is_off_and_a_new_base_end_a_stall() {
    let mut host = stopped(Strict);
    assert_eq!(host.write(CTLR, 4, 0), (vec![], Ok(NOTHING)));
    assert_eq!(host.its.read(CREADR, 8), Ok(64 | STALLED));
    assert_eq!(host.write(CWRITER, 4, 128 | RETRY), (vec![], Ok(NOTHING)));
    assert_eq!(host.its.read(CREADR, 8), Ok(64));

    let mut host = stopped(Strict);
    assert_eq!(host.write(CTLR, 4, 0), (vec![], Ok(NOTHING)));
    // One at address 0 is refused, and ends nothing.
    let refused = host.write(CBASER, 8, VALID).1.unwrap_err();
    assert_eq!(refused.refusal, Refusal::BaseZero);
    assert_eq!(host.its.read(CREADR, 8), Ok(64 | STALLED));
    assert_eq!(host.write(CBASER, 8, VALID | QUEUE), (vec![], Ok(NOTHING)));
    assert_eq!(host.its.read(CREADR, 8), Ok(0));
}

#[test]
fn retry_before_the_queue_has_a_base() {
    for (profile, first, second) in [(Base, Err(1), Err(33)), (Strict, Ok(()), Err(32))] {
        let mut host = Host::new(profile);
        host.its
            .configure(&SETTINGS.profile(profile), &PROCESSORS)
            .unwrap();
        for (value, expected) in [(RETRY, first), (32 | RETRY, second)] {
            let answer = host.write(CWRITER, 8, value).1;
            assert_eq!(
                answer.map(|_| ()).map_err(|refused| refused.offset),
                expected
            );
        }
    }
}

/// In base bit 0 makes the offset no place of the queue, CREADR has no Stalled,
/// and a write that enables tries the command again.
#[test]
fn base_knows_neither_retry_nor_stalled() {
    let mut host = stopped(Base);
    assert_eq!(host.its.read(CREADR, 8), Ok(64));
    let refused = host.write(CWRITER, 8, 128 | RETRY).1.unwrap_err();
    assert_eq!(
        (refused.refusal, refused.offset),
        (Refusal::WriterRefused, 129)
    );
    let again = host.write(CTLR, 4, 1).1.unwrap_err();
    assert_eq!((again.refusal, again.offset), (Refusal::DeviceUnmapped, 64));
}

#[test]
fn a_profile_that_the_unit_does_not_know() {
    for number in [2, 256, 257, u32::MAX] {
        let mut its = Its::new();
        its.configure(&SETTINGS, &PROCESSORS).unwrap();
        let settings = SETTINGS.profile(Profile::of(number));
        assert_eq!(its.configure(&settings, &PROCESSORS), Err(Refusal::Unsound));
        assert_eq!(its.read(CTLR, 4), Err(Refusal::Unsound));
    }
}
