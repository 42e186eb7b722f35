//! Why the Rust refuses, read from its error. Nothing else reads its texts.

use arm_vgic::VgicError;

/// The texts of `InvalidItsCommand`, each whole, with `#` for a number, and what
/// a text tells: the check of a command that failed, or that CWRITER was refused.
const TEXTS: [(&str, u8); 9] = [
    ("unsupported ITS command opcode", 20),
    ("LPI INTID # is outside #..=#", 21),
    ("device # is not mapped", 22),
    ("event # exceeds device # capacity of # bits", 23),
    ("collection # is not mapped", 24),
    ("translation (#, #) is not mapped", 25),
    ("processor number # has no attached Redistributor", 26),
    ("CWRITER was updated before CBASER was configured", 7),
    (
        "writer must be a 32-byte-aligned offset below queue size 0x#",
        7,
    ),
];

/// 01's number for the Rust's kind of error.
pub fn kind(error: &VgicError) -> u8 {
    match error {
        VgicError::InvalidAccess { .. } => 2,
        VgicError::InvalidConfig { .. } => 4,
        VgicError::ItsCommandBudgetExceeded { .. } => 5,
        VgicError::GuestMemory { .. } => 6,
        VgicError::InvalidItsCommand { .. } => 7,
        VgicError::ResourceNotFound { .. } => 8,
        VgicError::Unsupported { operation, .. } => {
            unreachable!("no trace reaches a part that is left out: {operation}")
        }
    }
}

/// The number that the Rust's text tells: one of 20 to 26 for a command's own
/// check, and 7 for CWRITER. Errors of another kind have that kind's number.
pub fn told(error: &VgicError) -> u8 {
    match error {
        VgicError::InvalidItsCommand { detail, .. } => of_text(detail),
        other => kind(other),
    }
}

/// A text that is not in the list is no refusal that 01 or 02 has a number for.
fn of_text(text: &str) -> u8 {
    TEXTS
        .iter()
        .find(|(shape, _)| has_shape(text, shape))
        .map(|(_, number)| *number)
        .unwrap_or_else(|| panic!("the Rust gives a reason that is not known: {text}"))
}

/// Whether a text is the shape with a number in place of each `#`. No shape goes
/// on after a number with a character that could be a digit of it.
fn has_shape(text: &str, shape: &str) -> bool {
    let mut pieces = shape.split('#');
    let first = pieces.next().unwrap_or_default();
    let mut rest = text.strip_prefix(first);
    for piece in pieces {
        rest = rest
            .and_then(after_number)
            .and_then(|rest| rest.strip_prefix(piece));
    }
    rest == Some("")
}

/// What follows a number of at least one digit, decimal or hexadecimal.
fn after_number(text: &str) -> Option<&str> {
    let rest = text.trim_start_matches(|digit: char| digit.is_ascii_hexdigit());
    (rest.len() < text.len()).then_some(rest)
}
