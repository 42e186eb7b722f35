//! The unit that goes by value, through its_trace: a trace that sets up and one
//! that then repeats a record; the difference of their times is the record's.

use std::hint::black_box;

use its::command::Command;
use its::{DeviceId, EventId};

use crate::both::{BUDGET, CBASER, CTLR, CWRITER, FRAME, LIMIT, QUEUE, RING, mapping};
use crate::clock::{median, nanoseconds};

unsafe extern "C" {
    fn its_trace(trace: *const u8, trace_length: usize, out: *mut u8, out_length: usize) -> u64;
}

/// A record that is repeated.
pub enum Record {
    Read {
        offset: u64,
        width: u8,
    },
    /// The writer goes on by so many commands.
    Commands(usize),
    Message(DeviceId, EventId),
}

struct Trace(Vec<u8>);

impl Trace {
    /// A unit with so many pairs mapped, and a ring filled with these commands.
    fn of(pairs: u32, over: &[Command]) -> Self {
        let mut trace = Self(b"CF".to_vec());
        trace.numbers(&[
            &LIMIT.to_le_bytes(),
            &BUDGET.to_le_bytes(),
            &FRAME.to_le_bytes(),
        ]);
        // The base profile, and two processors.
        trace.numbers(&[&[0, 2], &0u16.to_le_bytes(), &1u16.to_le_bytes()]);
        for commands in mapping(pairs).chunks(64) {
            trace.write(CTLR, 4, 0);
            trace.write(CBASER, 8, QUEUE);
            trace.write(CTLR, 4, 1);
            trace.window(&commands.concat());
            trace.write(CWRITER, 8, 32 * commands.len() as u64);
        }
        trace.write(CTLR, 4, 0);
        trace.write(CBASER, 8, QUEUE);
        trace.write(CTLR, 4, 1);
        let ring: Vec<u8> = over
            .iter()
            .cycle()
            .take(RING / 32)
            .flatten()
            .copied()
            .collect();
        trace.window(&ring);
        trace
    }

    fn numbers(&mut self, numbers: &[&[u8]]) {
        for number in numbers {
            self.0.extend_from_slice(number);
        }
    }

    fn write(&mut self, offset: u64, width: u8, value: u64) {
        self.numbers(&[b"WR", &offset.to_le_bytes(), &[width], &value.to_le_bytes()]);
    }

    fn window(&mut self, bytes: &[u8]) {
        let length = bytes.len() as u32;
        self.numbers(&[b"GM", &QUEUE.to_le_bytes(), &length.to_le_bytes(), bytes]);
    }

    fn repeat(&mut self, record: &Record, count: usize) {
        let mut writer = 0;
        for _ in 0..count {
            match record {
                Record::Read { offset, width } => {
                    self.numbers(&[b"RD", &offset.to_le_bytes(), &[*width]]);
                }
                Record::Commands(commands) => {
                    writer = (writer + 32 * commands) % RING;
                    self.write(CWRITER, 8, writer as u64);
                }
                Record::Message(device, event) => {
                    self.numbers(&[b"TR", &device.0.to_le_bytes(), &event.0.to_le_bytes()]);
                }
            }
        }
    }
}

fn run(trace: &[u8], out: &mut [u8]) {
    // Both runs of bytes live through the call, which keeps no pointer.
    let number = unsafe { its_trace(trace.as_ptr(), trace.len(), out.as_mut_ptr(), out.len()) };
    assert_eq!(number % 16, 0, "every line fits");
    black_box(number);
}

/// Nanoseconds of one such record, on a unit with so many pairs.
pub fn time(pairs: u32, over: &[Command], record: &Record) -> f64 {
    let count = match record {
        Record::Commands(commands) => 512 / commands,
        _ => 512,
    };
    let setup = Trace::of(pairs, over);
    let mut whole = Trace(setup.0.clone());
    whole.repeat(record, count);
    let mut out = vec![0; 65_536];
    let differences = (0..100).map(|_| {
        let without = nanoseconds(1, || run(&setup.0, &mut out));
        let with = nanoseconds(1, || run(&whole.0, &mut out));
        (with - without) / count as f64
    });
    median(differences.collect())
}
