//! What of the lines fits: the C call's answer, and what `itstrace` prints.

/// The most output bytes that the C call uses.
pub const MOST_OUTPUT: usize = 65_536;
/// The most input that `itstrace` runs, and the size of its output buffer.
pub const PROGRAM_BUFFER: usize = 32_768;

/// How many of the bytes are written into an output of this length: whole lines
/// up to the first that does not fit, and nothing after it.
pub fn written(lines: &[u8], output: usize) -> usize {
    let room = output.min(MOST_OUTPUT);
    if lines.len() <= room {
        return lines.len();
    }
    lines[..room]
        .iter()
        .rposition(|byte| *byte == b'\n')
        .map_or(0, |end| end + 1)
}

/// The number that the C call returns.
pub fn returned(lines: &[u8], output: usize) -> u64 {
    let bytes = written(lines, output);
    16 * bytes as u64 + if bytes < lines.len() { 11 } else { 0 }
}
