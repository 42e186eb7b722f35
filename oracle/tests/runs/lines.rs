//! Runs of lines, and the actions in them.

use oracle::lines::{ends_at_nine, first, first_with_actions};

const LINES: &[u8] = b"CF 0\nWR 9 8 32 1 2\nAC 1 8200 1\nAC 1 8200 0\nWR 0 0 0 1 1\nAC 1 8200 1\n";

#[test]
fn the_actions_behind_the_first_lines_are_taken_along() {
    for (count, with_actions) in [
        (0, 0),
        (1, 1),
        (2, 4),
        (3, 4),
        (4, 4),
        (5, 6),
        (6, 6),
        (9, 6),
    ] {
        let taken = first_with_actions(count, LINES);
        assert!(taken == first(with_actions, LINES), "{count} lines");
    }
}

#[test]
fn a_recording_ends_at_a_nine_with_its_actions_or_without() {
    for lines in ["WR 9 8 0 0 0\n", "CF 0\nWR 9 8 32 1 1\nAC 1 8200 1\n"] {
        assert!(ends_at_nine(lines.as_bytes()), "{lines}");
    }
    for lines in [
        "",
        "AC 1 8200 1\n",
        "WR 9 8 0 0 0\nRD 0 0\n",
        "WR 0 0 0 1 1\nAC 1 8200 1\n",
        "WR 9 8 0 1 1\nAC 1 8200 1\nWR 0 0 0 1 1\nAC 1 8200 1\n",
        "WR 90 8 0 0 0\n",
    ] {
        assert!(!ends_at_nine(lines.as_bytes()), "{lines}");
    }
}
