//! The actions of a write in which a command is refused: for every refusal of a
//! command, behind none to three of them.

use super::Named;
use crate::command::{
    clear, discard, int, inv, invall, mapc, mapd, mapi, mapti, movi, of_pair, sync,
};
use crate::draft::{Draft, RING};
use crate::fields::{BYTES_OF_A_COMMAND, Words};
use crate::tables::{COLLECTIONS, DEVICES, TRANSLATIONS};

const LIMIT: u32 = 9_000;
/// The places of a ring of one page; one of them stays empty.
const PLACES: usize = 4_096 / BYTES_OF_A_COMMAND;
/// What makes the commands run.
const BY: [(&str, bool); 2] = [("cwriter", true), ("ctlr", false)];

pub fn traces() -> impl Iterator<Item = Named> {
    let mut traces = Vec::new();
    for way in ways() {
        for (count, before) in befores().iter().enumerate() {
            for (by, by_writer) in BY {
                let name = format!("handed-{}-actions-{count}-by-{by}", way.0);
                traces.push((name.clone(), trace(&way, before, by_writer, false)));
                traces.push((name + "-wraps", trace(&way, before, by_writer, true)));
            }
        }
    }
    traces.extend(BY.map(|(by, by_writer)| (format!("handed-5-by-{by}"), beyond(by_writer))));
    traces.into_iter()
}

/// Device 5 with 14 bits, device 4 with one, and a pair on each processor.
fn start() -> Vec<Words> {
    vec![
        mapd(5, 14),
        mapd(4, 1),
        mapc(1, 0),
        mapc(2, 1),
        mapti(5, 9, 8_192, 2),
        mapti(5, 8, 8_193, 1),
    ]
}

/// Rows with none to three actions, no two of them alike.
fn befores() -> [Vec<Words>; 4] {
    [
        vec![sync(0)],
        vec![int(5, 9)],
        vec![int(5, 9), sync(0), clear(5, 8)],
        vec![clear(5, 9), int(5, 8), sync(0), int(5, 9)],
    ]
}

/// A refusal, what is mapped for it beyond the start, and the command that has
/// it; with 6 there is none in the window.
type Way = (&'static str, Vec<Words>, Option<Words>);

fn ways() -> Vec<Way> {
    let devices = (100..).map(|device| mapd(device, 1)).take(DEVICES - 2);
    let collections = (100..).map(|number| mapc(number, 0)).take(COLLECTIONS - 2);
    let pairs = (100..).map(|event| mapti(5, event, 8_200, 2));
    let pairs: Vec<Words> = pairs.take(TRANSLATIONS - 2).collect();
    let full = [
        ("9-mapd", devices.collect(), mapd(7, 1)),
        ("9-mapc", collections.collect(), mapc(3, 1)),
        ("9-mapti", pairs.clone(), mapti(5, 11, 8_200, 2)),
        ("9-mapi", pairs, mapi(5, 8_200, 2)),
    ];
    let refused = [
        ("8-int", int(5, 11)),
        ("8-clear", clear(7, 9)),
        ("20", of_pair(0x0e, 5, 9, 2)),
        ("21-mapti", mapti(5, 11, 8_191, 2)),
        ("21-mapi", mapi(5, LIMIT + 1, 2)),
        ("22-mapti", mapti(7, 0, 8_200, 2)),
        ("22-mapi", mapi(7, 8_200, 2)),
        ("23-mapti", mapti(4, 2, 8_200, 2)),
        ("23-mapi", mapi(4, 8_200, 2)),
        ("24-mapti", mapti(5, 11, 8_200, 3)),
        ("24-mapi", mapi(5, 8_200, 3)),
        ("24-movi", movi(5, 9, 3)),
        ("24-invall", invall(3)),
        ("25-movi", movi(5, 11, 2)),
        ("25-discard", discard(5, 11)),
        ("25-inv", inv(7, 9)),
        ("26-mapc", mapc(2, 2)),
    ];
    let mut ways: Vec<Way> = vec![("6", Vec::new(), None)];
    ways.extend(refused.map(|(name, command)| (name, Vec::new(), Some(command))));
    ways.extend(full.map(|(name, filled, command)| (name, filled, Some(command))));
    ways
}

/// The row, the command and an INT in one write. Then the command once more by
/// CTLR, and a SYNC in its place.
fn trace((_, filled, command): &Way, before: &[Words], by_writer: bool, wraps: bool) -> Vec<u8> {
    let mut draft = Draft::default();
    draft.cf(LIMIT, 1_024, 65_536, &[0, 1]);
    for commands in [start(), filled.clone()].concat().chunks(PLACES - 1) {
        run(&mut draft, commands);
    }
    // A row that wraps begins at the last place; one that fills its window ends
    // there, for no window holds the end of a ring and its start alone.
    let place = match (wraps, command) {
        (false, _) => 0,
        (true, Some(_)) => PLACES - 1,
        (true, None) => PLACES - before.len(),
    };
    run(&mut draft, &vec![sync(0); place]);
    let mut row = before.to_vec();
    if let Some(command) = command {
        row.extend([*command, int(5, 9)]);
    }
    lend(&mut draft, place, &row);
    let stopped = (place + before.len()) % PLACES;
    post(&mut draft, by_writer, stopped + 2);
    draft.rd(0x90, 8).wr(0x0, 4, 1);
    lend(&mut draft, stopped, &[sync(0), int(5, 9)]);
    draft.wr(0x0, 4, 1).rd(0x90, 8).tr(5, 9).tr(5, 8);
    draft.0
}

/// One INT or CLEAR more than the budget; then all but that one.
fn beyond(by_writer: bool) -> Vec<u8> {
    let mut draft = Draft::default();
    draft.cf(LIMIT, 3, 65_536, &[0, 1]);
    for commands in start().chunks(3) {
        run(&mut draft, commands);
    }
    draft.wr(0x80, 8, RING);
    let row = [int(5, 9), clear(5, 8), int(5, 8), clear(5, 9)];
    lend(&mut draft, 0, &row);
    post(&mut draft, by_writer, 4);
    draft.rd(0x90, 8).wr(0x0, 4, 1).wr(0x88, 8, 96).rd(0x90, 8);
    draft.0
}

/// Commands that are carried out, in a ring of their own. The unit is then
/// disabled.
fn run(draft: &mut Draft, commands: &[Words]) {
    draft.wr(0x80, 8, RING);
    lend(draft, 0, commands);
    post(draft, false, commands.len());
    draft.wr(0x0, 4, 0);
}

/// A window with commands from a place of the ring on; the whole ring if they go
/// on at its start.
fn lend(draft: &mut Draft, place: usize, commands: &[Words]) {
    if place + commands.len() <= PLACES {
        draft.commands(RING + 32 * place as u64, commands);
        return;
    }
    let mut ring = [sync(0); PLACES];
    for (number, command) in commands.iter().enumerate() {
        ring[(place + number) % PLACES] = *command;
    }
    draft.commands(RING, &ring);
}

/// A disabled unit runs up to this place, by one of the two writes.
fn post(draft: &mut Draft, by_writer: bool, place: usize) {
    let mut writes = [(0x88, 8, 32 * place as u64), (0x0, 4, 1)];
    if by_writer {
        writes.reverse();
    }
    for (offset, width, value) in writes {
        draft.wr(offset, width, value);
    }
}
