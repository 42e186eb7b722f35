//! All sequences of three commands over a small alphabet.

use super::Named;
use crate::command::{
    clear, discard, int, inv, invall, mapc, mapd, mapi, mapti, movi, of_pair, sync, unmapc, unmapd,
};
use crate::draft::{Draft, RING};
use crate::fields::Words;

/// Two devices, two events of one bit each, two collections, two processors.
fn alphabet() -> Vec<Words> {
    vec![
        mapd(0, 1),
        mapd(0, 14),
        mapd(1, 1),
        unmapd(0),
        mapc(0, 0),
        mapc(0, 1),
        mapc(1, 1),
        mapc(1, 2),
        unmapc(0),
        unmapc(1),
        mapti(0, 0, 8_193, 1),
        mapti(0, 1, 8_194, 0),
        mapti(1, 0, 8_195, 1),
        mapti(0, 1, 8_191, 0),
        mapi(0, 8_192, 0),
        movi(0, 0, 1),
        movi(0, 0, 0),
        movi(0, 1, 1),
        int(0, 0),
        int(0, 1),
        clear(0, 0),
        discard(0, 0),
        inv(0, 0),
        invall(1),
        sync(0),
        of_pair(0x0e, 0, 0, 0),
    ]
}

/// Device 0, collection 0 on processor 0, and the pair (0, 0) as LPI 8192.
fn start() -> [Words; 3] {
    [mapd(0, 1), mapc(0, 0), mapti(0, 0, 8_192, 0)]
}

fn triples() -> impl Iterator<Item = [usize; 3]> {
    let count = alphabet().len();
    (0..count.pow(3)).map(move |at| [at / count / count, at / count % count, at % count])
}

fn look(draft: &mut Draft) {
    draft.tr(0, 0).tr(0, 1).tr(0, 8_192).tr(1, 0).rd(0x90, 8);
}

/// After the start in one write: the first refusal ends it.
pub fn in_one_write() -> impl Iterator<Item = Named> {
    let alphabet = alphabet();
    triples().map(move |[a, b, c]| {
        let mut commands = start().to_vec();
        commands.extend([alphabet[a], alphabet[b], alphabet[c]]);
        let mut draft = Draft::default();
        draft
            .cf(8_195, 64, 65_536, &[0, 1])
            .commands(RING, &commands)
            .wr(0x80, 8, RING)
            .wr(0x0, 4, 1)
            .wr(0x88, 8, 192);
        look(&mut draft);
        (format!("triple-in-one-write-{a}-{b}-{c}"), draft.0)
    })
}

/// Each command in a ring of its own, so that all three are tried.
pub fn in_three_writes() -> impl Iterator<Item = Named> {
    let alphabet = alphabet();
    triples().map(move |[a, b, c]| {
        let mut draft = Draft::default();
        draft.cf(8_195, 64, 65_536, &[0, 1]);
        for commands in [
            start().as_slice(),
            &[alphabet[a]],
            &[alphabet[b]],
            &[alphabet[c]],
        ] {
            draft
                .commands(RING, commands)
                .wr(0x80, 8, RING)
                .wr(0x88, 8, 32 * commands.len() as u64)
                .wr(0x0, 4, 1)
                .wr(0x0, 4, 0);
        }
        look(&mut draft);
        (format!("triple-in-three-writes-{a}-{b}-{c}"), draft.0)
    })
}
