//! One trace, answered by both.

use oracle::answers::{Answers, answers};
use oracle::compare::{self, Folded};
use oracle::room::MOST_OUTPUT;

use crate::call::{Call, Lent};

/// The byte that an output holds before the call.
const FILL: u8 = 0xa5;

/// What of the call's answer was folded, or as an error what it does otherwise
/// than the Rust, whose answers are given.
pub fn difference(
    call: Call,
    trace: &[u8],
    rust: &Answers,
    lent: &mut Lent,
) -> Result<Folded, String> {
    let (number, bytes) = lent.call(call, trace, MOST_OUTPUT, FILL)?;
    compare::difference(rust, MOST_OUTPUT, bytes, number)
}

/// A difference as a report: the trace as text and both answers.
pub fn report(call: Call, trace: &[u8]) -> String {
    let rust = answers(trace);
    let mut lent = Lent::default();
    let what = match difference(call, trace, &rust, &mut lent) {
        Ok(_) => "none".into(),
        Err(what) => what,
    };
    let ours = match lent.call(call, trace, MOST_OUTPUT, FILL) {
        Ok((number, bytes)) => format!(
            "{}the C call returned {number}\n",
            String::from_utf8_lossy(bytes)
        ),
        Err(fault) => fault,
    };
    format!(
        "The difference: {what}\n\
         The trace as text (tools/itstrace.sh --text and oracle assemble take it):\n\n{}\n\
         The published Rust answers, with its reasons and the actions before a refusal{}:\n\n{}\n\
         The C call answers:\n\n{ours}",
        oracle::text::list(trace),
        rust.left()
            .map_or_else(String::new, |left| format!(", up to {left}")),
        String::from_utf8_lossy(&rust.told),
    )
}
