//! A run says what was folded and set aside, and many traces must meet all of it.
#![cfg(feature = "published")]

use differential::call::c_call;
use differential::foldings::Foldings;
use differential::run::{Traces, run};
use oracle::compare::{Folded, OF_A_COMMAND, fold};

/// As many traces as must meet everything.
const ENOUGH: Traces = Traces {
    from: 0,
    count: 20_000,
    exhaustive: true,
};

const MOVI: &str = "a MOVI with neither its collection nor its pair mapped";

/// Every refusal of a command but those left out, with an action before it or not.
fn folded(left_out: &[u8], actions: bool) -> Folded {
    let mut all = Folded::default();
    for refusal in OF_A_COMMAND {
        if !left_out.contains(&refusal) {
            let one = format!("WR {refusal} 0 32 1 1\nAC 1 8200 1\n");
            let none = format!("WR {refusal} 0 32 1 0\n");
            all.absorb(&fold(if actions { &one } else { &none }.as_bytes()).1);
        }
    }
    all
}

fn gap(folded: Folded, moves: u64, traces: &Traces) -> Result<(), String> {
    let foldings = Foldings {
        folded,
        moves,
        again: 0,
    };
    foldings.held_against(traces)
}

#[test]
fn what_was_never_met_is_named() {
    assert_eq!(gap(folded(&[], true), 1, &ENOUGH), Ok(()));
    for (folded, moves, never) in [
        (
            folded(&[], true),
            0,
            format!("Never folded into 7: {MOVI}."),
        ),
        (
            folded(&[23, 25], true),
            1,
            "Never folded into 7: 23; 25.\nNo actions before: 23; 25.".into(),
        ),
        (
            folded(&[26], true),
            0,
            format!("Never folded into 7: 26; {MOVI}.\nNo actions before: 26."),
        ),
        (folded(&[6], true), 1, "No actions before: 6.".into()),
        (folded(&[8, 9], true), 1, "No actions before: 8; 9.".into()),
        (
            folded(&[], false),
            1,
            "No actions before: 6; 8; 9; 20; 21; 22; 23; 24; 25; 26.".into(),
        ),
    ] {
        let said = gap(folded, moves, &ENOUGH).expect_err("a gap");
        let (_, said) = said.split_once('\n').expect("what the gap is");
        assert_eq!(said, never);
    }
}

#[test]
fn fewer_traces_need_not_meet_everything() {
    let fewer = Traces {
        count: 19_999,
        ..ENOUGH
    };
    let generated = Traces {
        exhaustive: false,
        ..ENOUGH
    };
    for traces in [fewer, generated] {
        assert_eq!(gap(folded(&[23], false), 0, &traces), Ok(()));
    }
}

#[test]
fn a_run_says_what_was_folded_and_set_aside() {
    let traces = Traces {
        from: 0,
        count: 300,
        exhaustive: false,
    };
    let summary = run(c_call, "the call", &traces).expect("no difference");
    let said = |begin: &str| {
        let said = summary.lines().find(|line| line.starts_with(begin));
        said.expect("a line on it")
    };
    let (into, aside) = (said("Folded into 7: "), said("Set aside: "));
    let words = [
        "answers (20: ",
        ", 27: 0), ",
        " of them of a MOVI with neither",
    ];
    assert!(words.iter().all(|words| into.contains(words)), "{into}");
    let words = [" actions of ", " refused writes (6: ", ", 9: ", " run so"];
    assert!(words.iter().all(|words| aside.contains(words)), "{aside}");
}
