//! The fixed list in the repository.

use std::path::Path;

use oracle::answers::answers;
use oracle::coverage::Coverage;
use oracle::generate::trace_for;
use oracle::recorded::{by_hand, check, list};

const TEXTS: &str = concat!(env!("CARGO_MANIFEST_DIR"), "/traces");
const RECORDED: &str = concat!(
    env!("CARGO_MANIFEST_DIR"),
    "/../crates/replay/data/recorded"
);

#[test]
fn the_recorded_traces_are_answered_as_recorded() {
    check(Path::new(RECORDED)).expect("every line as recorded");
}

#[test]
fn the_list_makes_the_recorded_traces() {
    let traces = list(Path::new(TEXTS)).expect("well-formed texts");
    for (name, trace) in &traces {
        let path = Path::new(RECORDED).join(name);
        let recorded = std::fs::read(path.with_extension("trace"));
        assert!(recorded.is_ok_and(|recorded| recorded == *trace), "{name}");
    }
}

#[test]
fn the_lines_by_hand_are_recorded() {
    let traces = by_hand(Path::new(TEXTS)).expect("well-formed texts");
    for ((name, trace), lines) in &traces {
        let path = Path::new(RECORDED).join(name);
        for (ending, bytes) in [("trace", trace), ("expect", lines)] {
            let recorded = std::fs::read(path.with_extension(ending));
            assert!(recorded.is_ok_and(|recorded| recorded == *bytes), "{name}");
        }
    }
    let checked = check(Path::new(RECORDED)).expect("every line as recorded");
    assert_eq!(checked.up_to_strict, traces.len());
}

/// What the list meets. Of the cases whose names have this part in them, it has
/// every one.
fn has_every(part: &str) -> Coverage {
    let mut coverage = Coverage::default();
    for (_, trace) in list(Path::new(TEXTS)).expect("well-formed texts") {
        coverage.trace(&trace);
    }
    let mut missing = coverage.missing();
    missing.retain(|name| name.contains(part));
    assert!(missing.is_empty(), "{missing:?}");
    coverage
}

/// The order of a command's checks shows where two of them fail: every such two
/// are in the list.
#[test]
fn the_list_has_every_two_checks_that_fail_together() {
    assert!(has_every("for two reasons").moves_without_both() > 0);
}

#[test]
fn the_list_has_actions_before_every_refusal_of_a_command() {
    has_every("actions before");
}

/// What a base unit does with Retry is in the list in every way.
#[test]
fn the_list_has_retry_in_base() {
    has_every("Retry");
}

/// Both fit the buffers of the program itstrace.
#[test]
fn generated_traces_and_their_answers_fit_the_program() {
    for seed in 0..800 {
        let trace = trace_for(seed);
        assert!(trace.len() <= 32_768, "seed {seed}");
        assert!(answers(&trace).told.len() <= 32_768, "seed {seed}");
    }
}
