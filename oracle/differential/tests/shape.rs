//! Which lines can be the answer to a write at all.

use differential::shape::fault;
use oracle::draft::Draft;
use oracle::text::assemble;

/// Whether a write's lines can follow a configuration's.
fn can_be(lines: &str) -> bool {
    let mut draft = Draft::default();
    draft.cf(65_535, 64, 65_536, &[0, 1]).wr(0x88, 8, 32);
    fault(&draft.0, format!("CF 0\n{lines}\n").as_bytes(), false).is_none()
}

#[test]
fn only_a_strict_unit_refuses_a_large_device() {
    let strict =
        "cf limit=65535 budget=64 frame=65536 profile=strict processors=0\nwr cwriter 8 32\n";
    let base = "cf limit=65535 budget=64 frame=65536 processors=0\nwr cwriter 8 32\n";
    let fault = |text: &str, lines: &str| {
        let trace = assemble(text).expect("a well-formed text");
        fault(&trace, lines.as_bytes(), false)
    };
    for opcode in 0..=255 {
        let line = format!("WR 27 {opcode} 160 1 0\n");
        let names_a_device = [1, 3, 4, 8, 10, 11, 12, 15].contains(&opcode);
        let in_strict = fault(strict, &format!("CF 0\n{line}"));
        assert_eq!(in_strict.is_none(), names_a_device, "{opcode}");
        for other in [base, &format!("{strict}{base}")] {
            let before = "CF 0\nWR 0 0 0 0 0\n".repeat(usize::from(other != base));
            let in_base = fault(other, &format!("{before}CF 0\n{line}"));
            assert!(in_base.is_some(), "{opcode}");
        }
    }
}

#[test]
fn a_refusal_has_an_opcode_that_can_have_it() {
    for line in [
        "WR 7 0 32 0 0",
        "WR 8 3 160 1 0",
        "WR 9 10 160 1 0",
        "WR 20 14 160 1 0",
        "WR 20 0 160 1 0",
        "WR 21 11 160 1 0",
        "WR 22 10 160 1 0",
        "WR 23 10 160 1 0",
        "WR 24 1 160 1 0",
        "WR 24 13 160 1 0",
        "WR 25 15 160 1 0",
        "WR 26 9 160 1 0",
    ] {
        assert!(can_be(line), "{line}");
    }
    for line in [
        "WR 7 10 32 0 0",
        "WR 7 0 32 1 0",
        "WR 8 12 160 1 0",
        "WR 10 0 0 0 0",
        "WR 19 0 160 1 0",
        "WR 27 0 160 1 0",
        "WR 20 10 160 1 0",
        "WR 20 256 160 1 0",
        "WR 21 1 160 1 0",
        "WR 22 12 160 1 0",
        "WR 24 9 160 1 0",
        "WR 25 3 160 1 0",
        "WR 26 10 160 1 0",
    ] {
        assert!(!can_be(line), "{line}");
    }
}

#[test]
fn a_write_has_at_most_the_actions_of_what_it_did() {
    for line in [
        "WR 0 0 0 1 1\nAC 1 8200 1",
        "WR 20 14 160 1 1\nAC 1 8200 1",
        "WR 6 0 160 3 2\nAC 1 8200 1\nAC 1 8200 0",
        "WR 9 8 160 1 1\nAC 1 8200 1",
    ] {
        assert!(can_be(line), "{line}");
    }
    for line in [
        "WR 0 0 0 1 2\nAC 1 8200 1\nAC 1 8200 1",
        "WR 20 14 160 1 2\nAC 1 8200 1\nAC 1 8200 1",
        "WR 20 14 160 0 1\nAC 1 8200 1",
        "WR 5 0 160 0 1\nAC 1 8200 1",
        "WR 7 0 160 0 1\nAC 1 8200 1",
        "WR 20 14 160 1 1",
        "WR 20 14 160 1 0\nAC 1 8200 1",
    ] {
        assert!(!can_be(line), "{line}");
    }
}

/// Retry and Stalled: bit 0 stands in a strict unit's CREADR and nowhere else, but for
/// the offset of a CWRITER write that a base unit refuses.
#[test]
fn bit_0_stands_where_it_may() {
    let in_units = |profile: &str, record: &str, line: &str| {
        let text = format!(
            "cf limit=65535 budget=64 frame=65536 profile={profile} processors=0\n{record}\n"
        );
        let trace = assemble(&text).expect("a well-formed text");
        fault(&trace, format!("CF 0\n{line}\n").as_bytes(), false).is_none()
    };
    for (record, line, base, strict) in [
        ("rd creadr 8", "RD 0 32", true, true),
        ("rd creadr 8", "RD 0 33", false, true),
        ("rd creadr 4", "RD 0 33", false, true),
        ("rd creadr 4", "RD 0 34", false, false),
        ("rd creadr+4 4", "RD 0 1", false, false),
        ("rd cwriter 8", "RD 0 33", false, false),
        ("rd cwriter 4", "RD 0 32", true, true),
        ("rd cwriter+4 4", "RD 0 1", false, false),
        ("rd ctlr 4", "RD 0 2147483649", true, true),
        ("wr cwriter retry 8 64", "WR 7 0 65 0 0", true, false),
        ("wr cwriter retry 8 66", "WR 7 0 66 0 0", true, true),
        ("wr cwriter 8 64", "WR 8 3 33 1 0", false, false),
        ("wr cwriter 8 64", "WR 5 0 33 0 0", false, false),
        ("wr cwriter 8 64", "WR 6 0 33 0 0", false, false),
        ("wr cwriter 8 64", "WR 0 0 1 0 0", false, false),
    ] {
        assert_eq!(in_units("base", record, line), base, "{record}, {line}");
        assert_eq!(in_units("strict", record, line), strict, "{record}, {line}");
    }
}
