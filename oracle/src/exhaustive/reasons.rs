//! Every way in which a command's checks can fail, one at a time and together.
//! The command stands behind an accepted one in its run, so that neither its
//! offset nor the count of what was done is 0.

use super::Named;
use crate::command::{clear, discard, int, inv, invall, mapc, mapd, mapi, mapti, movi, of_pair};
use crate::draft::{Draft, RING};
use crate::fields::Words;

const LIMIT: u32 = 9_000;
const LPIS: [(&str, u32); 3] = [("right", 8_200), ("low", 8_191), ("high", LIMIT + 1)];
/// The devices that the start maps: one whose bits hold every event and every
/// LPI that is tried, and one whose single bit holds none of them.
const WIDE: u32 = 5;
const NARROW: u32 = 4;
const DEVICES: [(&str, u32); 3] = [("right", WIDE), ("unmapped", 7), ("narrow", NARROW)];
const COLLECTIONS: [(&str, u16); 2] = [("right", 2), ("unmapped", 3)];
/// A pair of the start, another event of its device, and one of no device.
const PAIRS: [(&str, (u32, u32)); 3] = [
    ("right", (WIDE, 9)),
    ("unmapped", (WIDE, 10)),
    ("of-no-device", (7, 9)),
];

pub fn traces() -> impl Iterator<Item = Named> {
    let tried = mappings().into_iter().chain(moves()).chain(others());
    tried.map(|(name, words)| (format!("reasons-{name}"), trace(words)))
}

type Tried = (String, Words);

/// MAPTI and MAPI: LPI, device or its bits, collection.
fn mappings() -> Vec<Tried> {
    let mut tried = Vec::new();
    for (lpi_is, lpi) in LPIS {
        for (device_is, device) in DEVICES {
            for (collection_is, collection) in COLLECTIONS {
                let name = format!("lpi-{lpi_is}-device-{device_is}-collection-{collection_is}");
                let by_number = mapti(device, 11, lpi, collection);
                tried.push((format!("mapti-{name}"), by_number));
                tried.push((format!("mapi-{name}"), mapi(device, lpi, collection)));
            }
        }
    }
    tried
}

/// MOVI: collection, pair.
fn moves() -> Vec<Tried> {
    let mut tried = Vec::new();
    for (collection_is, collection) in COLLECTIONS {
        for (pair_is, (device, event)) in PAIRS {
            let name = format!("movi-collection-{collection_is}-pair-{pair_is}");
            tried.push((name, movi(device, event, collection)));
        }
    }
    tried
}

/// The commands that have one check.
fn others() -> Vec<Tried> {
    let mut tried = Vec::new();
    for (pair_is, (device, event)) in PAIRS {
        tried.push((format!("discard-pair-{pair_is}"), discard(device, event)));
        tried.push((format!("inv-pair-{pair_is}"), inv(device, event)));
        tried.push((format!("int-pair-{pair_is}"), int(device, event)));
        tried.push((format!("clear-pair-{pair_is}"), clear(device, event)));
    }
    for (collection_is, collection) in COLLECTIONS {
        let name = format!("invall-collection-{collection_is}");
        tried.push((name, invall(collection)));
        for (processor_is, processor) in [("listed", 0), ("unlisted", 2)] {
            let name = format!("mapc-collection-{collection_is}-processor-{processor_is}");
            tried.push((name, mapc(collection, processor)));
        }
    }
    for opcode in [0x00, 0x02, 0x06, 0x07, 0x0e, 0x10, 0xff] {
        let name = format!("opcode-{opcode:02x}");
        tried.push((name, of_pair(opcode, WIDE, 9, 2)));
    }
    tried
}

/// After the start an INT, the command and another INT in one write. Then the
/// same again by CTLR, where a refused command is the first that waits, and a
/// look at the pairs that the command can have changed.
fn trace(words: Words) -> Vec<u8> {
    let start = [
        mapd(WIDE, 14),
        mapd(NARROW, 1),
        mapc(2, 1),
        mapti(WIDE, 9, 8_192, 2),
    ];
    let behind = 32 * start.len() as u64;
    let mut draft = Draft::default();
    draft
        .cf(LIMIT, 64, 65_536, &[0, 1])
        .commands(RING, &start)
        .wr(0x80, 8, RING)
        .wr(0x0, 4, 1)
        .wr(0x88, 8, behind)
        .commands(RING + behind, &[int(WIDE, 9), words, int(WIDE, 9)])
        .wr(0x88, 8, behind + 96)
        .rd(0x90, 8)
        .wr(0x0, 4, 1)
        .rd(0x90, 8)
        .tr(WIDE, 9)
        .tr(WIDE, 11)
        .tr(WIDE, 8_200);
    draft.0
}
