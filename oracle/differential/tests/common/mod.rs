//! Faults that both kinds of run must find.

use differential::call::c_call;

/// A byte behind the lines, where there is room.
pub fn writes_beyond(trace: &[u8], output: &mut [u8]) -> u64 {
    let number = c_call(trace, output);
    if let Some(byte) = output.get_mut((number / 16) as usize) {
        *byte ^= 0xff;
    }
    number
}

/// Always says that a line did not fit.
pub fn says_eleven(trace: &[u8], output: &mut [u8]) -> u64 {
    c_call(trace, output) / 16 * 16 + 11
}
