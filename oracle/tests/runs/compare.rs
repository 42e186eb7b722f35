//! How another implementation's answer is held against the Rust's.

use oracle::answers::{Answers, answers};
use oracle::compare::{Aside, Folded, OF_A_COMMAND, difference, fold};
use oracle::digests::seeds;
use oracle::exhaustive;
use oracle::room::{returned, written};

/// Answers without a reason in them.
fn plain(ended_at_nine: bool) -> Answers {
    let lines = b"CF 0\nWR 9 8 0 0 0\n".to_vec();
    Answers {
        told: lines.clone(),
        lines,
        ended_at_nine,
        ..Answers::default()
    }
}

/// Answers with two reasons, and what the port answers to the same.
fn reasoned() -> Answers {
    Answers {
        lines: b"CF 0\nWR 7 10 32 1 0\nWR 7 0 4096 0 0\nWR 7 1 32 0 0\n".to_vec(),
        told: b"CF 0\nWR 22 10 32 1 0\nWR 7 0 4096 0 0\nWR 24 1 32 0 0\n".to_vec(),
        ..Answers::default()
    }
}

/// Answers of refused writes with two actions and with one.
fn acting() -> Answers {
    Answers {
        lines: b"CF 0\nWR 8 3 96 3 0\nWR 0 0 0 1 1\nAC 1 8200 1\nWR 7 14 32 1 0\nRD 0 32\n"
            .to_vec(),
        told: b"CF 0\nWR 8 3 96 3 2\nAC 1 8200 1\nAC 0 8201 0\nWR 0 0 0 1 1\nAC 1 8200 1\n\
            WR 20 14 32 1 1\nAC 1 8202 0\nRD 0 32\n"
            .to_vec(),
        ..Answers::default()
    }
}

/// The counts of the numbers 20 to 27.
fn counts(folded: &Folded) -> Vec<u64> {
    folded.counts().map(|(_, count)| count).collect()
}

/// What was set aside, by the refusals that had any: actions, and writes.
fn aside(folded: &Folded) -> Vec<(u8, u64, u64)> {
    folded
        .aside()
        .filter(|(_, aside)| *aside != Aside::default())
        .map(|(refusal, aside)| (refusal, aside.actions, aside.writes))
        .collect()
}

#[test]
fn equal_answers_have_no_difference() {
    let lines = plain(false).lines;
    assert!(difference(&plain(false), 100, &lines, 16 * 18).is_ok());
    assert!(difference(&plain(false), 8, b"CF 0\n", 16 * 5 + 11).is_ok());
}

#[test]
fn a_line_or_a_number_may_differ() {
    let other = b"CF 0\nWR 9 8 0 1 0\n";
    let found = difference(&plain(false), 100, other, 16 * 18).expect_err("another line");
    let expected = "line 2 is `WR 9 8 0 1 0`, expected `WR 9 8 0 0 0`";
    assert!(found.ends_with(expected), "{found}");
    let lines = plain(false).lines;
    let number = difference(&plain(false), 100, &lines, 16 * 18 + 11).expect_err("a number");
    assert_eq!(number, "the call returned 299, expected 288");
    assert!(difference(&plain(false), 100, &lines[..5], 16 * 5).is_err());
}

#[test]
fn after_a_nine_nothing_is_compared() {
    let longer = b"CF 0\nWR 9 8 0 0 0\nWR 20 0 0 0 0\n";
    let folded = difference(&plain(true), 100, longer, 16 * 32).expect("equal up to the 9");
    assert_eq!(folded, Folded::default());
    assert!(difference(&plain(false), 100, longer, 16 * 32).is_err());
    assert!(difference(&plain(true), 100, b"CF 0\n", 16 * 5).is_err());
    assert!(difference(&plain(true), 8, b"CF 0\n", 16 * 5 + 11).is_ok());
}

#[test]
fn both_comparisons_are_made_and_named() {
    let whole = reasoned().told.len();
    let number = 16 * whole as u64;
    let held = |from: &str, to: &str| {
        let told = String::from_utf8(reasoned().told).expect("lines are text");
        assert!(told.contains(from), "{from}");
        let bytes = told.replace(from, to);
        difference(&reasoned(), 100, bytes.as_bytes(), number)
    };
    let folded = held("CF 0", "CF 0").expect("the same lines");
    assert_eq!(counts(&folded), [0, 0, 1, 0, 1, 0, 0, 0]);
    assert_eq!(aside(&folded), []);
    for (from, to) in [
        ("WR 22", "WR 23"),
        ("WR 24 1", "WR 25 1"),
        ("WR 24 1", "WR 7 1"),
        ("WR 7 0", "WR 20 0"),
    ] {
        let reason = held(from, to).expect_err("another reason");
        assert!(reason.starts_with("by the reasons and actions"), "{reason}");
    }
    for (from, to) in [
        ("WR 22 10", "WR 22 11"),
        ("10 32 1", "10 64 1"),
        ("10 32 1", "10 32 0"),
        ("WR 22 10", "WR 8 10"),
        ("WR 22 10", "WR 28 10"),
        ("WR 22 10", "WR 19 10"),
        ("WR 24 1 32 0 0\n", ""),
    ] {
        let line = held(from, to).expect_err("another line");
        assert!(line.starts_with("with 20 to 27 folded into 7"), "{line}");
    }
}

/// Folded it would be the Rust's 7. It is a strict unit's, and no strict unit is
/// compared, whatever else the line says.
#[test]
fn a_base_unit_that_answers_27_is_found() {
    let told = String::from_utf8(reasoned().told).expect("lines are text");
    for (from, to) in [("WR 22 10", "WR 27 10"), ("WR 7 0", "WR 27 0")] {
        let bytes = told.replace(from, to);
        let (folded, _) = fold(bytes.as_bytes());
        assert_eq!(folded, reasoned().lines);
        let number = returned(bytes.as_bytes(), 100);
        let found = difference(&reasoned(), 100, bytes.as_bytes(), number).expect_err("a 27");
        assert!(
            found.starts_with("a base unit answers 27, line "),
            "{found}"
        );
        assert!(found.contains(&format!("is `{to}")), "{found}");
    }
}

/// Up to a strict configuration the lines are compared; what follows is left alone,
/// a 27 too.
#[test]
fn after_a_strict_configuration_nothing_is_compared() {
    let strict = Answers {
        told: b"CF 0\nTR 8 0 0\nCF 0\n".to_vec(),
        lines: b"CF 0\nTR 8 0 0\nCF 0\n".to_vec(),
        ended_at_strict: true,
        ..Answers::default()
    };
    let held = |lines: &str| difference(&strict, 100, lines.as_bytes(), 16 * lines.len() as u64);
    let folded = held("CF 0\nTR 8 0 0\nCF 0\nWR 27 8 0 0 0\nTR 0 1 2\n").expect("equal so far");
    assert_eq!(folded, Folded::default());
    for lines in [
        "CF 0\nTR 8 0 0\nCF 1\nTR 1 0 0\n",
        "CF 0\nTR 1 0 0\nCF 0\n",
        "CF 0\nTR 8 0 0\n",
    ] {
        held(lines).expect_err("another line before it");
    }
}

#[test]
fn the_actions_of_a_refused_write_are_held_against_what_the_rust_tells() {
    let held = |from: &str, to: &str| {
        let told = String::from_utf8(acting().told).expect("lines are text");
        assert!(told.contains(from), "{from}");
        let bytes = told.replace(from, to);
        difference(&acting(), 200, bytes.as_bytes(), 16 * told.len() as u64)
    };
    let folded = held("CF 0", "CF 0").expect("the same lines");
    assert_eq!(aside(&folded), [(8, 2, 1), (20, 1, 1)]);
    let all = folded.all_aside();
    assert_eq!((all.actions, all.writes), (3, 2));
    for (from, to) in [
        // None, fewer, more and others than the Rust tells.
        ("1 1\nAC 1 8202 0\n", "1 0\n"),
        ("3 2\nAC 1 8200 1\nAC 0 8201 0\n", "3 1\nAC 1 8200 1\n"),
        ("1 1\nAC 1 8202 0\n", "1 2\nAC 1 8202 0\nAC 1 8202 0\n"),
        ("1 1\nAC 1 8202 0\n", "1 1\n"),
        ("AC 1 8200 1\nAC 0 8201 0\n", "AC 0 8201 0\nAC 1 8200 1\n"),
        ("AC 1 8202 0", "AC 0 8202 0"),
        ("AC 1 8202 0", "AC 1 8203 0"),
        ("AC 1 8202 0", "AC 1 8202 1"),
    ] {
        let action = held(from, to).expect_err("other actions");
        assert!(action.starts_with("by the reasons and actions"), "{action}");
    }
    for (from, to) in [
        // More AC lines than the write tells of.
        ("1 1\nAC 1 8202 0\n", "1 0\nAC 1 8202 0\n"),
        ("AC 1 8202 0\n", "AC 1 8202 0\nAC 1 8202 0\n"),
        // The actions of an accepted write, another word, and what comes after.
        ("WR 0 0 0 1 1\nAC 1 8200 1\n", "WR 0 0 0 1 0\n"),
        ("AC 1 8200 1\nWR 20", "AC 1 8200 0\nWR 20"),
        ("WR 20 14", "WR 20 15"),
        ("14 32 1 1", "14 64 1 1"),
        ("14 32 1 1", "14 32 2 1"),
        ("RD 0 32", "RD 0 64"),
    ] {
        let line = held(from, to).expect_err("another line");
        assert!(
            line.starts_with("with 20 to 27 folded into 7 and"),
            "{line}"
        );
    }
}

#[test]
fn the_actions_of_a_nine_are_compared_and_nothing_after_them() {
    let nine = Answers {
        lines: b"CF 0\nWR 9 8 32 1 0\n".to_vec(),
        told: b"CF 0\nWR 9 8 32 1 1\nAC 1 8200 1\n".to_vec(),
        ended_at_nine: true,
        ..Answers::default()
    };
    let held = |lines: &str| difference(&nine, 100, lines.as_bytes(), 16 * lines.len() as u64);
    let folded = held("CF 0\nWR 9 8 32 1 1\nAC 1 8200 1\nRD 0 32\n").expect("the same lines");
    assert_eq!(aside(&folded), [(9, 1, 1)]);
    for (lines, comparison) in [
        ("CF 0\nWR 9 8 32 1 0\nRD 0 32\n", "by the reasons"),
        ("CF 0\nWR 9 8 32 1 1\n", "by the reasons"),
        ("CF 0\nWR 9 8 32 1 1\nAC 1 8200 0\n", "by the reasons"),
        ("CF 0\nWR 9 8 32 1 1\nAC 1 8200 1\nAC 1 8200 1\n", "with 20"),
        ("CF 0\nWR 9 8 32 1 1\nRD 0 32\n", "by the reasons"),
        ("CF 0\nWR 9 8 32 0 1\nAC 1 8200 1\n", "with 20"),
    ] {
        let found = held(lines).expect_err("other actions");
        assert!(found.starts_with(comparison), "{found}");
    }
}

/// A line with a reason is a byte longer than one with 7, and a refused write
/// with actions has more lines than one without: it is the lines that the Rust
/// tells that fit or do not.
#[test]
fn what_fits_is_judged_with_the_reasons_and_actions() {
    let Answers { told, .. } = reasoned();
    // The second line ends at byte 21 with its reason, and at 20 with a 7.
    for (output, fits) in [(20, 5), (21, 21), (36, 21), (37, 37), (51, 37), (52, 52)] {
        let number = 16 * fits as u64 + if fits < told.len() { 11 } else { 0 };
        let folded = difference(&reasoned(), output, &told[..fits], number);
        assert!(folded.is_ok(), "output of {output}: {folded:?}");
        assert!(difference(&reasoned(), output, &told[..fits], number ^ 11).is_err());
    }
    let short = b"CF 0\nWR 7 10 32 1 0\n";
    let reason = difference(&reasoned(), 20, short, 16 * 20 + 11).expect_err("a 7 for a 22");
    assert!(reason.starts_with("by the reasons"), "{reason}");
    let Answers { told, .. } = acting();
    for output in 0..=told.len() {
        let fits = written(&told, output);
        let number = returned(&told, output);
        let folded = difference(&acting(), output, &told[..fits], number);
        assert!(folded.is_ok(), "output of {output}: {folded:?}");
    }
}

#[test]
fn only_the_refusal_of_a_write_is_folded() {
    let lines = b"CF 20\nGM 21\nRD 22 20\nTR 23 24 25\nAC 20 8200 1\n?? 26\n\
        WR 19 20 21 22 0\nWR 28 20 21 22 0\nWR 2 20 0 0 0\nWR 200 20 0 0 0\n\
        WR 020 20 0 0 0\nWR  20 0 0 0\nWR 7 20 21 22 0\nXWR 20 0 0 0 0\nWRX 20 0 0 0 0\n";
    let (same, folded) = fold(lines);
    assert_eq!(
        String::from_utf8_lossy(&same),
        String::from_utf8_lossy(lines)
    );
    assert_eq!(folded, Folded::default());
}

#[test]
fn every_reason_is_folded_and_counted() {
    for (place, number) in (20..=27).enumerate() {
        let line = format!("GM 0\nWR {number} 20 21 22 0\nWR {number} 1 0 0 0\n");
        let (seven, folded) = fold(line.as_bytes());
        assert_eq!(seven, b"GM 0\nWR 7 20 21 22 0\nWR 7 1 0 0 0\n");
        let mut expected = [0; 8];
        expected[place] = 2;
        assert_eq!(counts(&folded), expected);
    }
    let (lines, mut folded) = fold(b"WR 24 1 0 0 0\nWR 20 0 0 0 0");
    assert_eq!(lines, b"WR 7 1 0 0 0\nWR 7 0 0 0 0");
    folded.absorb(&fold(b"WR 24 1 0 0 0\n").1);
    assert_eq!(counts(&folded), [1, 0, 0, 0, 2, 0, 0, 0]);
}

#[test]
fn a_refused_write_loses_its_actions_and_no_more() {
    for (lines, without) in [
        ("WR 20 14 160 1 1\nAC 1 8200 1\n", "WR 7 14 160 1 0\n"),
        (
            "WR 6 0 160 1 1\nAC 1 8200 1\nGM 0\n",
            "WR 6 0 160 1 0\nGM 0\n",
        ),
        // One AC line more than the write tells of, and one after another line.
        (
            "WR 8 3 0 1 1\nAC 1 1 1\nAC 2 2 0\n",
            "WR 8 3 0 1 0\nAC 2 2 0\n",
        ),
        (
            "WR 8 3 0 1 2\nAC 1 1 1\nGM 0\nAC 2 2 0\n",
            "WR 8 3 0 1 0\nGM 0\nAC 2 2 0\n",
        ),
        ("WR 9 8 0 1 0\nAC 1 1 1\n", "WR 9 8 0 1 0\nAC 1 1 1\n"),
        // A refusal that no command has.
        ("WR 5 0 0 0 1\nAC 1 1 1\n", "WR 5 0 0 0 0\n"),
        // Cut behind the line of the write.
        ("WR 24 1 0 1 1024", "WR 7 1 0 1 0"),
    ] {
        let (folded, _) = fold(lines.as_bytes());
        assert_eq!(String::from_utf8_lossy(&folded), without, "{lines}");
    }
}

#[test]
fn an_accepted_write_keeps_its_actions() {
    for lines in [
        "WR 0 0 0 1 1\nAC 1 8200 1\n",
        "WR 0 0 0 2 2\nAC 1 8200 1\nAC 1 8200 0\n",
        "AC 1 8200 1\n",
    ] {
        let (same, folded) = fold(lines.as_bytes());
        assert_eq!(String::from_utf8_lossy(&same), lines);
        assert_eq!(folded, Folded::default());
    }
}

#[test]
fn a_line_that_is_no_refused_writes_stays_as_it_is() {
    for line in [
        "WR 20 14 160 1 x",
        "WR 20 14 160 1 01",
        "WR 20 14 160 1 +1",
        "WR 20 14 160 1 -1",
        "WR 20 14 160 1 ",
        "WR 20 14 160 1  1",
        "WR 20 14 160 1",
        "WR 20 14 160 1 1 1",
        "WR 20 14 160 1 18446744073709551616",
        "WR x 14 160 1 1",
        "WR -1 14 160 1 1",
        "wr 20 14 160 1 1",
        "RD 20 14 160 1 1",
    ] {
        let lines = format!("{line}\nAC 1 8200 1\n");
        let (same, folded) = fold(lines.as_bytes());
        assert_eq!(String::from_utf8_lossy(&same), lines);
        assert_eq!(folded, Folded::default());
    }
    let (same, _) = fold(b"WR 20 14 160 1 \xff\nAC 1 8200 1\n");
    assert_eq!(same, b"WR 20 14 160 1 \xff\nAC 1 8200 1\n");
}

#[test]
fn what_is_set_aside_is_counted_by_its_refusal() {
    let mut all = Folded::default();
    for refusal in OF_A_COMMAND {
        let two = format!("WR {refusal} 3 0 2 2\nAC 1 8200 1\nAC 1 8200 0\n");
        let none = format!("WR {refusal} 3 0 2 0\n");
        let (_, folded) = fold(format!("{two}{none}{two}").as_bytes());
        assert_eq!(aside(&folded), [(refusal, 4, 2)]);
        all.absorb(&folded);
    }
    assert_eq!(
        all.all_aside(),
        Aside {
            actions: 40,
            writes: 20
        }
    );
}

/// What the Rust's texts tell is a finer reading of the Rust's kinds, and what it
/// gives when run up to a refused command is all that a refused write has more.
#[test]
fn the_told_lines_fold_to_the_rusts_kinds() {
    let some = exhaustive::traces().step_by(3);
    for (name, trace) in seeds(1_000).chain(some) {
        let Answers { lines, told, .. } = answers(&trace);
        assert!(fold(&told).0 == lines, "{name}");
        assert!(fold(&lines).1 == Folded::default(), "{name}");
    }
}
