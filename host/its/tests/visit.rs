//! A host's calls, from a fresh unit to a message that arrives.

mod common;

use common::{CREADR, CTLR, CWRITER, Host, SETTINGS};
use its::Profile::Base;
use its::command::{
    Command, clear, discard, int, inv, invall, mapc, mapd, mapi, mapti, movi, sync,
};
use its::{Action, CollectionId, DeviceId, EventId, Its, Lpi, Processor};
use its::{Refusal, Window, WriteRefused, Written};

const SEAT: DeviceId = DeviceId(7);
const TOUCH: EventId = EventId(2);
const STOP: EventId = EventId(3);

/// A command that this unit lacks.
const MOVALL: Command = {
    let mut bytes = [0; 32];
    bytes[0] = 0x0e;
    bytes
};

#[test]
fn a_message_arrives() {
    let mut host = Host::new(Base);
    assert_eq!(
        host.its.translate(SEAT, TOUCH),
        Err(Refusal::ResourceNotFound)
    );
    let mapped = host.run(&[
        mapd(SEAT, 4),
        mapc(CollectionId(1), Processor(3)),
        mapti(SEAT, TOUCH, Lpi(8_200), CollectionId(1)),
        int(SEAT, TOUCH),
        sync(Processor(3)),
    ]);
    let written = Written {
        done: 5,
        actions: 1,
    };
    let made = vec![(Lpi(8_200), Processor(3), true)];
    assert_eq!(mapped, (made, Ok(written)));
    let delivery = host.its.translate(SEAT, TOUCH).unwrap();
    assert_eq!(
        (delivery.lpi, delivery.processor),
        (Lpi(8_200), Processor(3))
    );
    assert_eq!(host.its.read(CREADR, 8), Ok(160));
}

#[test]
fn a_refused_command_says_where() {
    let mut host = Host::new(Base);
    let (_, refused) = host.run(&[mapd(SEAT, 4), discard(SEAT, TOUCH)]);
    assert_eq!(
        refused,
        Err(WriteRefused {
            refusal: Refusal::PairUnmapped,
            opcode: 0x0f,
            offset: 32,
            done: 1,
            actions: 0,
        })
    );
}

/// A run of MAPD, MAPC and then this command, which is refused.
fn refused(command: Command) -> WriteRefused {
    let mut host = Host::new(Base);
    let first = [mapd(SEAT, 4), mapc(CollectionId(1), Processor(3))];
    host.run(&[first[0], first[1], command]).1.unwrap_err()
}

#[test]
fn each_reason_of_a_command_has_its_number() {
    let (one, two) = (CollectionId(1), CollectionId(2));
    for (number, command) in [
        (20, MOVALL),
        (21, mapti(SEAT, TOUCH, Lpi(8_191), one)),
        (21, mapi(SEAT, TOUCH, one)),
        (22, mapti(DeviceId(8), TOUCH, Lpi(8_200), one)),
        (22, mapi(DeviceId(8), EventId(8_200), one)),
        (23, mapti(SEAT, EventId(16), Lpi(8_200), one)),
        (23, mapi(SEAT, EventId(8_200), one)),
        (24, mapti(SEAT, TOUCH, Lpi(8_200), two)),
        (24, movi(SEAT, TOUCH, two)),
        (24, invall(two)),
        (25, movi(SEAT, TOUCH, one)),
        (25, discard(SEAT, TOUCH)),
        (25, inv(SEAT, TOUCH)),
        (26, mapc(two, Processor(1))),
        (8, int(SEAT, TOUCH)),
        (8, clear(SEAT, TOUCH)),
    ] {
        let refused = refused(command);
        assert_eq!(refused.refusal.number(), number, "{command:?}");
        assert_eq!((refused.offset, refused.done, refused.actions), (64, 2, 0));
        assert_eq!(refused.opcode, command[0]);
        assert!(refused.is_of_a_command());
    }
}

/// A host whose guest has mapped the seat's two messages. CREADR is 128 then.
fn seated() -> Host {
    let mut host = Host::new(Base);
    let mapped = host.run(&[
        mapd(SEAT, 4),
        mapc(CollectionId(1), Processor(3)),
        mapti(SEAT, TOUCH, Lpi(8_200), CollectionId(1)),
        mapti(SEAT, STOP, Lpi(8_201), CollectionId(1)),
    ]);
    assert!(mapped.1.is_ok());
    assert_eq!(host.its.read(CREADR, 8), Ok(128));
    host
}

#[test]
fn a_stop_before_a_command_that_the_unit_lacks() {
    let mut host = seated();
    let answer = host.run(&[int(SEAT, STOP), MOVALL]);
    let lacking = WriteRefused {
        refusal: Refusal::OpcodeUnknown,
        opcode: 0x0e,
        offset: 160,
        done: 1,
        actions: 1,
    };
    let stop = vec![(Lpi(8_201), Processor(3), true)];
    assert_eq!(answer, (stop, Err(lacking)));

    // The command is tried again, and the stop is not handed over again.
    let still = WriteRefused {
        done: 0,
        actions: 0,
        ..lacking
    };
    assert_eq!(host.write(CTLR, 4, 1), (vec![], Err(still)));

    // The driver puts a SYNC in its place.
    host.queue[160..].copy_from_slice(&sync(Processor(3)));
    let mended = Written {
        done: 1,
        actions: 0,
    };
    assert_eq!(host.write(CTLR, 4, 1), (vec![], Ok(mended)));
    assert_eq!(host.its.read(CREADR, 8), Ok(192));
}

#[test]
fn actions_before_a_refused_command_come_in_order() {
    let mut host = seated();
    let answer = host.run(&[int(SEAT, TOUCH), clear(SEAT, STOP), int(SEAT, EventId(4))]);
    let refused = WriteRefused {
        refusal: Refusal::ResourceNotFound,
        opcode: 0x03,
        offset: 192,
        done: 2,
        actions: 2,
    };
    let made = vec![
        (Lpi(8_200), Processor(3), true),
        (Lpi(8_201), Processor(3), false),
    ];
    assert_eq!(answer, (made, Err(refused)));
}

#[test]
fn a_write_that_runs_nothing_hands_over_nothing() {
    let mut host = seated();
    let answer = host.run(&[int(SEAT, TOUCH); 65]);
    let exceeded = WriteRefused {
        refusal: Refusal::BudgetExceeded,
        opcode: 0,
        offset: 128,
        done: 0,
        actions: 0,
    };
    assert_eq!(answer, (vec![], Err(exceeded)));
    // The commands wait still.
    for (number, offset, width, value) in [
        (5, CTLR, 4, 1),
        (2, CTLR, 8, 1),
        (3, 0xffe8, 4, 0),
        (7, CWRITER, 8, 33),
    ] {
        let (delivered, answer) = host.write(offset, width, value);
        assert_eq!(answer.unwrap_err().refusal.number(), number);
        assert_eq!(delivered, []);
    }
}

#[test]
fn a_refusal_in_words() {
    assert_eq!(
        refused(mapti(DeviceId(8), TOUCH, Lpi(8_200), CollectionId(1))).to_string(),
        "command at 0x40 of the queue, opcode 0x0a, refused with 22: the device is not mapped: MAPD with V 1 comes first"
    );
    let writer = Host::new(Base).write(CWRITER, 8, 33).1.unwrap_err();
    assert_eq!(writer.refusal, Refusal::WriterRefused);
    assert!(!writer.is_of_a_command());
    assert!(
        writer
            .to_string()
            .starts_with("refused with 7: CWRITER's offset")
    );
}

#[test]
fn no_call_before_a_configuration() {
    let mut its = Its::new();
    assert_eq!(its.read(CTLR, 4), Err(Refusal::Unsound));
    assert_eq!(its.translate(SEAT, TOUCH), Err(Refusal::Unsound));
    let refused = its.configure(&SETTINGS, &[Processor(1), Processor(1)]);
    assert_eq!(refused, Err(Refusal::Unsound));
    assert_eq!(its.read(CTLR, 4), Err(Refusal::Unsound));
}

#[test]
fn a_row_that_is_too_short() {
    let mut host = Host::new(Base);
    let window = Window {
        address: 0,
        bytes: &[],
    };
    let mut row = [Action::default(); 63];
    let (actions, refused) = host.its.write(window, &mut row, CTLR, 4, 0);
    assert_eq!(refused.unwrap_err().refusal, Refusal::RowTooShort);
    assert_eq!(actions, []);
    assert_eq!(host.its.read(CTLR, 4), Ok(0x8000_0001));
}
