//! What of an answer an output has room for, walked line by line.

/// The bytes that an output of this length holds of the whole answer, and
/// whether a line did not fit. The whole answer is what the call wrote into an
/// output as long as it ever uses; `cut` says that a line did not fit even there.
pub fn fits(whole: &[u8], cut: bool, length: usize) -> (usize, bool) {
    let mut used = 0;
    for line in whole.split_inclusive(|byte| *byte == b'\n') {
        if used + line.len() > length {
            return (used, true);
        }
        used += line.len();
    }
    (used, cut)
}

/// The number that the call returns for them.
pub fn number(bytes: usize, line_left: bool) -> u64 {
    16 * bytes as u64 + if line_left { 11 } else { 0 }
}
