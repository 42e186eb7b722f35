//! The C calls, and a call that watches the bytes around its output.

use oracle::room::{MOST_OUTPUT, returned, written};

/// What is held against the Rust: one of the two below, or in a test one that
/// wraps it.
pub type Call = fn(&[u8], &mut [u8]) -> u64;

unsafe extern "C" {
    fn its_trace(
        trace: *const u8,
        trace_length: usize,
        output: *mut u8,
        output_length: usize,
    ) -> u64;
}

/// `its_trace` of include/its.h.
pub fn c_call(trace: &[u8], output: &mut [u8]) -> u64 {
    let (bytes, room) = (trace.as_ptr(), output.as_mut_ptr());
    // Both runs of bytes live through the call, which keeps no pointer, reads
    // only the first and writes only the second.
    unsafe { its_trace(bytes, trace.len(), room, output.len()) }
}

/// The same through the calls for hosts: the example host of host/replay answers
/// the records of the trace one by one.
pub fn host_calls(trace: &[u8], output: &mut [u8]) -> u64 {
    let lines = replay::replay(trace);
    let fits = written(&lines, output.len());
    output[..fits].copy_from_slice(&lines[..fits]);
    returned(&lines, output.len())
}

/// So many bytes stand before the output and behind it.
const GUARD: usize = 64;

/// A lent output with guard bytes on both sides, used for many calls.
#[derive(Default)]
pub struct Lent(Vec<u8>);

impl Lent {
    /// Calls with an output of this length, every byte of it and of the guards
    /// set to `fill`. Gives the number returned and the bytes written, or says
    /// what the call did that it must not do.
    pub fn call(
        &mut self,
        call: Call,
        trace: &[u8],
        length: usize,
        fill: u8,
    ) -> Result<(u64, &[u8]), String> {
        self.0.clear();
        self.0.resize(GUARD + length + GUARD, fill);
        let number = call(trace, &mut self.0[GUARD..GUARD + length]);
        let (count, rest) = (number / 16, number % 16);
        if rest != 0 && rest != 11 {
            return Err(format!(
                "the call returned {number}, 16 times a count plus {rest}"
            ));
        }
        if count > length.min(MOST_OUTPUT) as u64 {
            return Err(format!("{count} bytes written into an output of {length}"));
        }
        let (before, after) = (&self.0[..GUARD], &self.0[GUARD + count as usize..]);
        if !filled(before, fill) {
            return Err("a byte before the output was changed".into());
        }
        if !filled(after, fill) {
            let place = after.iter().position(|byte| *byte != fill).unwrap_or(0);
            return Err(format!(
                "{count} bytes are said to be written, and the one {place} places behind them was \
                 changed; the output has {length}"
            ));
        }
        Ok((number, &self.0[GUARD..GUARD + count as usize]))
    }
}

fn filled(bytes: &[u8], fill: u8) -> bool {
    bytes.iter().all(|byte| *byte == fill)
}
