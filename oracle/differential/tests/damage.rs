//! `damage` finds planted faults of the output. Each fake call wraps the real one.

mod common;

use common::{says_eleven, writes_beyond};
use differential::call::c_call;
use differential::damage::damage;

/// Part of a line that does not fit, which it then takes back from its count.
fn writes_part_of_a_line(trace: &[u8], output: &mut [u8]) -> u64 {
    let mut whole = vec![0; 65_536];
    let length = (c_call(trace, &mut whole) / 16) as usize;
    let room = output.len().min(length);
    output[..room].copy_from_slice(&whole[..room]);
    c_call(trace, output)
}

/// More of the output than 65,536 bytes.
fn uses_all(trace: &[u8], output: &mut [u8]) -> u64 {
    let number = c_call(trace, output);
    if output.len() > 65_536 && number % 16 == 11 {
        output[65_536] ^= 0xff;
    }
    number
}

/// Other lines in an output of 100 bytes.
fn depends_on_the_length(trace: &[u8], output: &mut [u8]) -> u64 {
    let odd = output.len() == 100;
    let number = c_call(trace, output);
    if odd && number >= 16 {
        output[0] ^= 1;
    }
    number
}

/// An answer that hangs on what the output held.
fn reads_the_output(trace: &[u8], output: &mut [u8]) -> u64 {
    let held = output.first().is_some_and(|byte| *byte == 0x0a);
    let number = c_call(trace, output);
    if held { number ^ 11 } else { number }
}

#[test]
fn damage_finds_faults_of_the_output() {
    damage(c_call, 0, 14).expect("the real call has none");
    for (name, call) in [
        (
            "part of a line",
            writes_part_of_a_line as fn(&[u8], &mut [u8]) -> u64,
        ),
        ("all", uses_all),
        ("the length", depends_on_the_length),
        ("the output", reads_the_output),
        ("beyond", writes_beyond),
        ("eleven", says_eleven),
        ("a digit", changes_a_digit_of_a_mark),
    ] {
        assert!(damage(call, 0, 14).is_err(), "{name}");
    }
}

/// A line that no record can have.
fn changes_a_digit_of_a_mark(trace: &[u8], output: &mut [u8]) -> u64 {
    let number = c_call(trace, output);
    if number >= 16 {
        output[0] = b'X';
    }
    number
}
