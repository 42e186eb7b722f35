//! Document 01's corners: the lines that it foretells, in the texts of traces/.
//! A refused command has the number that 02 gives its reason, and the INT before
//! it is handed over.

use crate::common::lines_of_file;

/// The file, and each line of its answers that 01 foretells, counted from 0.
const CORNERS: [(&str, &[(usize, &str)]); 13] = [
    ("p01-typer-65535", &[(1, "RD 0 126833")]),
    ("p02-typer-8192", &[(1, "RD 0 126321")]),
    ("p03-256-pages", &[(2, "WR 0 0 0 0 0"), (3, "RD 0 1048544")]),
    ("p04-base-zero", &[(1, "WR 4 0 0 0 0")]),
    (
        "p05-one-page-writer",
        &[
            (2, "WR 0 0 0 0 0"),
            (3, "RD 0 4064"),
            (4, "WR 7 0 4096 0 0"),
            (6, "WR 0 0 0 0 0"),
            (7, "RD 0 32"),
        ],
    ),
    (
        "p06-fresh-writer",
        &[(1, "WR 7 0 32 0 0"), (2, "WR 0 0 0 0 0")],
    ),
    (
        "p07-two-wait",
        &[(5, "RD 0 4064"), (6, "WR 0 0 0 2 0"), (7, "RD 0 32")],
    ),
    ("p08-baser-all-ones", &[(6, "RD 0 18007643110040928255")]),
    (
        "p09-event-bits",
        &[
            (4, "WR 23 10 160 5 0"),
            (5, "TR 0 8200 1"),
            (6, "TR 8 0 0"),
            (7, "TR 0 8201 1"),
        ],
    ),
    (
        "p10-lpi-range",
        &[
            (4, "WR 21 10 192 6 0"),
            (6, "WR 21 10 192 0 0"),
            (8, "WR 21 11 192 0 0"),
            (10, "WR 21 11 192 0 0"),
            (11, "TR 0 8192 1"),
            (12, "TR 0 9000 1"),
        ],
    ),
    (
        "p11-second-mapd",
        &[
            (7, "TR 0 8200 1"),
            (8, "WR 23 10 192 1 1"),
            (9, "AC 1 8200 1"),
            (11, "TR 0 8200 1"),
        ],
    ),
    (
        "budget-64-65",
        &[(4, "WR 0 0 0 64 0"), (6, "WR 5 0 2048 0 0")],
    ),
    (
        "opcode-0e",
        &[
            (6, "WR 20 14 160 1 1"),
            (7, "AC 1 8200 1"),
            (8, "RD 0 160"),
            (9, "TR 0 8200 1"),
        ],
    ),
];

#[test]
fn answers_every_corner() {
    for (name, foretold) in CORNERS {
        let lines = lines_of_file(name);
        for (at, line) in foretold {
            assert_eq!(lines[*at], *line, "{name}, line {at}");
        }
    }
}
