//! Calls with a planted fault of their lines, and what a run says of them. Each
//! wraps the real one.
// No test needs all of it.
#![allow(dead_code)]

use differential::call::{Call, c_call};
use differential::run::{Traces, run};
use oracle::room::{MOST_OUTPUT, returned, written};

/// What the report says of the difference.
fn found(call: Call) -> String {
    let traces = Traces {
        from: 0,
        count: 300,
        exhaustive: true,
    };
    let report = run(call, "a call", &traces).expect_err("the planted fault is found");
    let what = report
        .lines()
        .find_map(|line| line.strip_prefix("The difference: "));
    what.expect("a report names its difference").to_string()
}

/// Found by the comparison with what the Rust tells, at these two lines.
pub fn told_otherwise(call: Call, ours: &str, rusts: &str) {
    let what = found(call);
    assert!(
        what.starts_with("by the reasons and actions that the Rust tells, line "),
        "{what}"
    );
    has_lines(&what, ours, rusts);
}

/// Found by the comparison after folding, at these two lines.
pub fn other_when_folded(call: Call, ours: &str, rusts: &str) {
    let what = found(call);
    assert!(
        what.starts_with(
            "with 20 to 27 folded into 7 and the actions of refused writes set aside, line "
        ),
        "{what}"
    );
    has_lines(&what, ours, rusts);
}

/// Found because no base unit answers 27, at these two lines.
pub fn not_of_a_base_unit(call: Call, ours: &str, rusts: &str) {
    let what = found(call);
    assert!(what.starts_with("a base unit answers 27, line "), "{what}");
    has_lines(&what, ours, rusts);
}

fn has_lines(what: &str, ours: &str, rusts: &str) {
    assert!(what.contains(&format!(" is `{ours}")), "{what}");
    assert!(what.contains(&format!("expected `{rusts}")), "{what}");
}

/// The call with its lines edited. What then does not fit is left away, as the
/// call does it.
pub fn edited(trace: &[u8], output: &mut [u8], edit: impl Fn(Vec<&str>) -> Vec<String>) -> u64 {
    let mut whole = vec![0; MOST_OUTPUT];
    let length = (c_call(trace, &mut whole) / 16) as usize;
    let text = std::str::from_utf8(&whole[..length]).expect("lines are text");
    let mut lines = String::new();
    for line in edit(text.lines().collect()) {
        lines += &line;
        lines.push('\n');
    }
    let fits = written(lines.as_bytes(), output.len());
    output[..fits].copy_from_slice(&lines.as_bytes()[..fits]);
    returned(lines.as_bytes(), output.len())
}
