//! A window of every start and of many lengths around two commands.

use super::Named;
use crate::command::{int, sync};
use crate::draft::{Draft, RING};
use crate::fields::bytes_of;
use crate::record::Record;

pub fn traces() -> impl Iterator<Item = Named> {
    (0..=66u64).map(|shift| {
        let mut draft = Draft::example(65_536);
        for length in [0, 1, 31, 32, 33, 63, 64, 65, 97, 98, 130] {
            lend_and_run(&mut draft, shift, length);
        }
        (format!("window-{shift}"), draft.0)
    })
}

/// Two commands at the ring's start, seen through a window that begins `shift`
/// bytes after 33 bytes before them. Then the unit is started again.
fn lend_and_run(draft: &mut Draft, shift: u64, length: usize) {
    const BEFORE: u64 = 33;
    let mut memory = vec![5; BEFORE as usize];
    memory.extend(bytes_of(&[int(5, 9), sync(1)]));
    memory.resize(BEFORE as usize + 256, 5);
    let bytes = memory[shift as usize..shift as usize + length].to_vec();
    let address = RING + 0x1000 - BEFORE + shift;
    draft
        .wr(0x0, 4, 0)
        .wr(0x80, 8, RING + 0x1000)
        .wr(0x0, 4, 1)
        .record(&Record::Gm { address, bytes })
        .wr(0x88, 8, 64)
        .rd(0x90, 8);
}
