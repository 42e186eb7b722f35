//! What of the lines fits into an output.

use oracle::room::{returned, written};

const LINES: &[u8] = b"CF 0\nWR 0 0 0 1 1\nAC 1 8200 1\nGM 0\n";

#[test]
fn whole_lines_are_written_up_to_the_first_that_does_not_fit() {
    for (room, bytes) in [
        (0, 0),
        (4, 0),
        (5, 5),
        (17, 5),
        (18, 18),
        (29, 18),
        (30, 30),
    ] {
        assert_eq!(written(LINES, room), bytes, "room for {room}");
        assert_eq!(returned(LINES, room), 16 * bytes as u64 + 11);
    }
    assert_eq!(written(LINES, 34), 30);
    assert_eq!(returned(LINES, 35), 16 * 35);
    assert_eq!(returned(LINES, 100), 16 * 35);
    assert_eq!(returned(b"", 0), 0);
}

#[test]
fn at_most_65536_bytes_are_used() {
    let lines = b"GM 0\n".repeat(20_000);
    assert_eq!(written(&lines, 100_000), 65_535);
    assert_eq!(returned(&lines, usize::MAX), 16 * 65_535 + 11);
}
