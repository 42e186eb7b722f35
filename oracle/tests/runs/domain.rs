//! What is answered around the Rust, and where a comparison ends.

use crate::common::{lines_of, lines_of_file};
use oracle::answers::{Around, answers};
use oracle::record::{BASE, Configuration, Record, STRICT};
use oracle::text::assemble;

const UNIT: &str = "cf limit=65535 budget=64 frame=65536 processors=0,1\n";

#[test]
fn calls_around_the_rust_are_counted() {
    let text = "rd ctlr 4\n wr ctlr 4 1\n tr 0 0\n";
    let after = "rd ctlr 3\n wr ctlr 0 1\n rd 0xffd0 4\n rd 0xffd1 4\n wr 0xfffe 2 0\n rd ctlr 8";
    let trace = assemble(&format!("{text}{UNIT}{after}")).expect("a well-formed text");
    let expected = Around {
        unconfigured: 3,
        other_width: 2,
        identification: 2,
    };
    assert_eq!(answers(&trace).around, expected);
}

/// A run stops at its first 9, whose line is the last.
#[test]
fn a_run_ends_at_a_nine() {
    for (name, last) in [
        ("table-devices", "WR 9 8 1120 0 0"),
        ("table-collections", "WR 9 9 1120 0 0"),
        ("table-translations", "WR 9 10 8416 0 0"),
    ] {
        let lines = lines_of_file(name);
        assert_eq!(lines.last().map(String::as_str), Some(last), "{name}");
        let nines = lines.iter().filter(|line| line.starts_with("WR 9"));
        assert_eq!(nines.count(), 1, "{name}");
    }
}

/// Commands before the one that found its table full count as done, and what
/// the Rust went on to do is not seen.
#[test]
fn a_nine_names_the_command_that_found_the_table_full() {
    let devices: String = (0..40)
        .map(|n| format!(" mapd device={n} bits=4\n"))
        .collect();
    let ring = "wr cbaser 8 0x40000000\n wr ctlr 4 1\n";
    let text = format!("{UNIT}{ring} gm 0x40000000\n{devices} wr cwriter 8 1280\n rd creadr 8");
    let lines = lines_of(&text);
    assert_eq!(lines[4..], ["WR 9 8 1024 32 0"]);
}

#[test]
fn two_comes_before_three_only_for_width_frame_and_alignment() {
    let accesses = [
        ("0xffd0 4", "RD 3 0"),
        ("0xffd0 1", "RD 3 0"),
        ("0xffd2 2", "RD 3 0"),
        ("0xffd8 8", "RD 3 0"),
        ("0xffff 1", "RD 3 0"),
        ("0xffd0 3", "RD 2 0"),
        ("0xffd2 4", "RD 2 0"),
        ("0xffff 2", "RD 2 0"),
        ("0xfffc 8", "RD 2 0"),
        ("0xffcf 1", "RD 0 0"),
        ("0x10000 1", "RD 2 0"),
    ];
    for (access, line) in accesses {
        assert_eq!(lines_of(&format!("{UNIT}rd {access}"))[1], line, "{access}");
    }
}

#[test]
fn a_count_above_16_still_has_its_bytes() {
    let mut trace = Vec::new();
    Record::Cf(Configuration {
        limit: 65_535,
        budget: 64,
        frame: 65_536,
        profile: BASE,
        processors: (0..17).collect(),
    })
    .encode(&mut trace);
    assert_eq!(answers(&trace).told, b"CF 1\n");
    trace.pop();
    assert_eq!(answers(&trace).told, b"?? 0\n");
}

#[test]
fn a_refused_configuration_takes_the_old_unit_away() {
    let refused = "cf limit=1 budget=64 frame=65536 processors=0\n";
    let lines = lines_of(&format!(
        "{UNIT}rd ctlr 4\n{refused}rd ctlr 4\ntr 0 0\n{UNIT}rd ctlr 4"
    ));
    assert_eq!(lines[1], "RD 0 2147483648");
    assert_eq!(lines[3..5], ["RD 1 0", "TR 1 0 0"]);
    assert_eq!(lines[6], "RD 0 2147483648");
}

fn configured(profile: u8) -> Vec<u8> {
    let mut trace = Vec::new();
    Record::Cf(Configuration {
        limit: 65_535,
        budget: 64,
        frame: 65_536,
        profile,
        processors: vec![0, 1],
    })
    .encode(&mut trace);
    trace
}

/// Mark, limit, budget, frame, profile, count, numbers.
#[test]
fn the_profile_stands_between_frame_and_count() {
    let bytes = [0xff, 0xff, 0, 0, 64, 0, 0, 0, 0, 0, 1, 0, 1, 2, 0, 0, 1, 0];
    assert_eq!(configured(STRICT), [&b"CF"[..], &bytes].concat());
    let shortest = [&b"CF"[..], &[0; 14]].concat();
    assert_eq!(answers(&shortest).told, b"CF 1\n");
    assert_eq!(answers(&shortest[..15]).told, b"?? 0\n");
}

#[test]
fn there_are_two_profiles() {
    for profile in 0..=u8::MAX {
        let mut trace = configured(profile);
        trace.extend(assemble("rd ctlr 4\ntr 0 0").expect("a well-formed text"));
        let answers = answers(&trace);
        let lines: &[u8] = match profile {
            BASE => b"CF 0\nRD 0 2147483648\nTR 8 0 0\n",
            // The Rust has no such unit, and is not asked.
            STRICT => b"CF 0\n",
            _ => b"CF 1\nRD 1 0\nTR 1 0 0\n",
        };
        assert_eq!(answers.told, lines, "{profile}");
        assert_eq!(answers.lines, lines, "{profile}");
        assert_eq!(answers.ended_at_strict, profile == STRICT);
    }
}

#[test]
fn a_strict_configuration_beyond_the_sizes_is_refused_as_any() {
    let refused = "cf limit=1 budget=64 frame=65536 profile=strict processors=0\n";
    let lines = lines_of(&format!("{refused}tr 0 0\n{UNIT}tr 0 0"));
    assert_eq!(lines, ["CF 1", "TR 1 0 0", "CF 0", "TR 8 0 0"]);
}
