//! Strict units: the traces whose lines are written by hand, and what the Rust can
//! say of them.

use std::path::Path;

use oracle::answers::answers;
use oracle::digests::{seeds, strict_seeds};
use oracle::exhaustive::{self, Named};
use oracle::lines::{count, first};
use oracle::record::{BASE, RETRY, Record, Records, STRICT};
use oracle::recorded::{by_hand, list};
use oracle::strict::{Met, RULES, Rule, lines};
use oracle::text::assemble;

const TEXTS: &str = concat!(env!("CARGO_MANIFEST_DIR"), "/traces");
const GUESTS: &str = concat!(env!("CARGO_MANIFEST_DIR"), "/../crates/replay/data/linux");

fn written_by_hand() -> Vec<(Named, Vec<u8>)> {
    by_hand(Path::new(TEXTS)).expect("well-formed texts")
}

fn named(name: &str) -> (Vec<u8>, Vec<u8>) {
    let found = written_by_hand().into_iter().find(|((n, _), _)| n == name);
    let ((_, trace), lines) = found.expect("a text with lines by hand");
    (trace, lines)
}

/// The same records with base units.
fn in_base(trace: &[u8]) -> Vec<u8> {
    with_units_of(BASE, trace)
}

fn with_units_of(profile: u8, trace: &[u8]) -> Vec<u8> {
    changed(trace, |record| {
        if let Record::Cf(configuration) = record {
            configuration.profile = profile;
        }
    })
}

/// The same records without Retry.
fn without_retry(trace: &[u8]) -> Vec<u8> {
    changed(trace, |record| match record {
        Record::Wr { offset, value, .. } if *offset == 0x88 => *value &= !RETRY,
        _ => {}
    })
}

fn changed(trace: &[u8], change: impl Fn(&mut Record)) -> Vec<u8> {
    let mut other = Vec::new();
    for record in Records::of(trace) {
        let mut record = record.expect("a whole record");
        change(&mut record);
        record.encode(&mut other);
    }
    other
}

/// The lines of a trace of base units that are others with strict ones: what they
/// are in base, and in strict.
fn others_in_strict(trace: &[u8]) -> Vec<(String, String)> {
    let base = String::from_utf8(answers(trace).told).expect("lines are text");
    let strict = lines(&with_units_of(STRICT, trace)).lines;
    let strict = String::from_utf8(strict).expect("lines are text");
    assert_eq!(base.lines().count(), strict.lines().count());
    let both = base.lines().zip(strict.lines());
    both.filter(|(base, strict)| base != strict)
        .map(|(base, strict)| (base.into(), strict.into()))
        .collect()
}

/// Without the rules of the strict profile, what answers for strict units is the Rust:
/// it says the same as one unit that does it all. (That one ends at a 9.)
#[test]
fn base_units_are_answered_as_by_one_unit() {
    for (name, trace) in seeds(4_000).chain(exhaustive::traces()) {
        let whole = answers(&trace);
        if !whole.ended_at_strict {
            let mut parts = &lines(&trace).lines[..];
            if whole.ended_at_nine {
                parts = first(count(&whole.told), parts);
            }
            assert!(parts == whole.told, "{name}");
        }
    }
}

#[test]
fn the_lines_by_hand_are_those_of_two_units_of_the_rust() {
    for ((name, trace), by_hand) in written_by_hand() {
        let said = String::from_utf8(lines(&trace).lines).expect("lines are text");
        let by_hand = String::from_utf8(by_hand).expect("lines are text");
        assert_eq!(said, by_hand, "{name}");
    }
}

/// Up to the strict configuration, the Rust itself.
#[test]
fn the_lines_by_hand_begin_with_the_rusts() {
    for ((name, trace), by_hand) in written_by_hand() {
        let answers = answers(&trace);
        assert!(answers.ended_at_strict, "{name}");
        let told = answers.told;
        assert!(first(count(&told), &by_hand) == told, "{name}");
    }
}

#[test]
fn where_nothing_strict_happens_the_lines_are_the_rusts() {
    for name in [
        "strict-same-as-base",
        "second-visit-unmapped-strict",
        "second-visit-new-tables-strict",
    ] {
        let (trace, by_hand) = named(name);
        assert!(answers(&in_base(&trace)).told == by_hand, "{name}");
    }
    let (_, by_hand) = named("strict-same-as-base");
    let said = String::from_utf8(by_hand).expect("lines are text");
    for refusal in [4, 5, 6, 7, 8, 20, 21, 22, 23, 24, 25, 26] {
        assert!(said.contains(&format!("\nWR {refusal} ")), "{refusal}");
    }
}

/// The steps of each story are those of the base trace whose name it has, but for
/// Retry, which a base unit does not take.
#[test]
fn the_strict_stories_have_the_steps_of_the_base_ones() {
    for name in [
        "second-visit",
        "second-visit-unmapped",
        "second-visit-new-tables",
    ] {
        let text = std::fs::read_to_string(format!("{TEXTS}/{name}.txt")).expect("a text");
        let (strict, _) = named(&format!("{name}-strict"));
        let steps = without_retry(&in_base(&strict));
        assert!(assemble(&text) == Ok(steps), "{name}");
    }
}

/// docs/DIFFERENCES.md says that no other of its traces gets other lines from a strict
/// unit. In those of R01, R02, R17 and R27 it is for one of the three rules, in the
/// others for Retry (R14) or because the unit has stalled.
#[test]
fn these_differences_have_other_lines_in_strict() {
    let mut traces = list(Path::new(TEXTS)).expect("well-formed texts");
    traces.retain(|(name, _)| name.starts_with("difference-"));
    assert!(traces.len() > 50, "{}", traces.len());
    let mut others = Vec::new();
    for (name, trace) in traces {
        for (base, strict) in others_in_strict(&trace) {
            others.push(format!("{name}: {base}, {strict}"));
        }
    }
    assert_eq!(
        others,
        [
            "difference-R01-mapd-again: TR 0 8200 1, TR 8 0 0",
            "difference-R02-smaller-capacity: TR 0 8200 1, TR 8 0 0",
            "difference-R13-no-stalled: RD 0 32, RD 0 33",
            "difference-R14-no-retry: WR 7 0 33 0 0, WR 6 0 0 0 0",
            "difference-R14-no-retry: RD 0 0, RD 0 32",
            "difference-R15-any-write-tries-again: WR 8 3 0 0 0, WR 0 0 0 0 0",
            "difference-R15-any-write-tries-again: WR 0 0 0 1 0, WR 0 0 0 0 0",
            "difference-R15-any-write-tries-again: RD 0 32, RD 0 1",
            "difference-R17-device-number: WR 0 0 0 3 0, WR 27 8 0 0 0",
            "difference-R17-device-number: TR 0 8200 1, TR 8 0 0",
            "difference-R27-cbaser-valid: WR 0 0 0 1 0, WR 0 0 0 0 0",
            "difference-R27-cbaser-valid: RD 0 32, RD 0 0",
            "difference-R36-movall: RD 0 0, RD 0 1",
            "difference-R38-sync: RD 0 192, RD 0 193",
            "difference-R48-pair-before-collection: RD 0 32, RD 0 33",
            "difference-S06-numbers-for-texts: WR 21 10 0 0 0, WR 0 0 0 0 0",
            "difference-S06-numbers-for-texts: WR 8 3 0 0 0, WR 0 0 0 0 0",
            "difference-S14-reasons: WR 21 10 64 0 0, WR 0 0 0 0 0",
            "difference-S14-reasons: WR 22 10 64 0 0, WR 0 0 0 0 0",
            "difference-S14-reasons: WR 23 10 64 0 0, WR 0 0 0 0 0",
            "difference-S14-reasons: WR 24 10 64 0 0, WR 0 0 0 0 0",
            "difference-S14-reasons: WR 25 15 64 0 0, WR 0 0 0 0 0",
            "difference-S14-reasons: WR 26 9 64 0 0, WR 0 0 0 0 0",
            "difference-S14-reasons: WR 24 1 64 0 0, WR 0 0 0 0 0",
            "difference-S15-stop-before-refused: RD 0 128, RD 0 129",
            "difference-S15-stop-before-refused: WR 20 14 128 0 0, WR 0 0 0 0 0",
            "difference-S15-stop-before-refused: WR 0 0 0 1 0, WR 0 0 0 0 0",
            "difference-S15-stop-before-refused: RD 0 160, RD 0 129",
        ]
    );
}

/// It also says that real guests get the same lines in both profiles. One of them
/// maps devices again.
#[test]
fn real_guests_have_the_same_lines_in_strict() {
    let mut met = Met::default();
    let mut guests = 0;
    for entry in std::fs::read_dir(GUESTS).expect("the folder of real guests") {
        let path = entry.expect("a file").path();
        if path.extension().is_some_and(|ending| ending == "trace") {
            let trace = std::fs::read(&path).expect("a trace");
            assert_eq!(others_in_strict(&trace), [], "{}", path.display());
            met.add(&lines(&with_units_of(STRICT, &trace)).met);
            guests += 1;
        }
    }
    assert_eq!(guests, 4, "io61, hotplug612, suspend61, kexec61");
    let again = met.of(Rule::MappedAgain);
    assert_eq!(again, 2, "by the second kernel of kexec61");
}

/// How often the guests of 1,600 seeds meet each rule at the least.
const AT_LEAST: [(Rule, u64); RULES.len()] = [
    (Rule::MappedAgain, 1_000),
    (Rule::TooLarge, 300),
    (Rule::Held, 500),
    (Rule::HeldBeyondBudget, 100),
    (Rule::StalledBy6, 1_000),
    (Rule::StalledBy8, 200),
    (Rule::StalledBy9, 20),
    (Rule::StalledByCheck, 2_000),
    (Rule::FiveWithoutStall, 500),
    (Rule::ReadWhole, 500),
    (Rule::ReadLow, 500),
    (Rule::ReadHigh, 300),
    (Rule::KeptByControl, 500),
    (Rule::KeptByWriter, 500),
    (Rule::KeptByHighHalf, 200),
    (Rule::KeptByRefusedRetry, 300),
    (Rule::KeptByIgnoredBase, 50),
    (Rule::KeptByRefusedBase, 50),
    (Rule::NoFive, 50),
    (Rule::RetryGoesOn, 1_000),
    (Rule::RetryStopsAgain, 500),
    (Rule::RetryGivesFive, 50),
    (Rule::RetryOfNothing, 20),
    (Rule::RetryWhileDisabled, 300),
    (Rule::RetryByLowHalf, 500),
    (Rule::ClearedByBase, 300),
    (Rule::ConfiguredAnew, 20),
    (Rule::RetryUnstalled, 1_000),
    (Rule::RetryHeld, 100),
    (Rule::RetryBeforeRing, 50),
    (Rule::RetryRefusedBeforeRing, 100),
];

/// The guests of strict units know their rules: what they post is carried out about as
/// often as in base, though a refused command stalls, and every rule is met often.
#[test]
fn strict_guests_meet_every_rule() {
    let mut met = Met::default();
    let mut commands = [0, 0];
    for (_, trace) in strict_seeds(1_600) {
        let answered = lines(&trace);
        met.add(&answered.met);
        commands[0] += done(&answered.lines);
    }
    for (_, trace) in seeds(1_600) {
        commands[1] += done(&answers(&trace).told);
    }
    for (place, ((rule, least), (listed, name))) in AT_LEAST.into_iter().zip(RULES).enumerate() {
        assert_eq!((rule, rule as usize), (listed, place));
        assert!(met.of(rule) >= least, "{name}: {}", met.of(rule));
    }
    assert!(10 * commands[0] > 9 * commands[1], "{commands:?}");
}

/// The commands that the writes of these lines carried out.
fn done(lines: &[u8]) -> u64 {
    let lines = String::from_utf8_lossy(lines);
    let writes = lines.lines().filter(|line| line.starts_with("WR "));
    let done = writes.filter_map(|line| line.split(' ').nth(4)?.parse::<u64>().ok());
    done.sum()
}
