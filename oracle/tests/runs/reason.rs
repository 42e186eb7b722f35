//! What the Rust's own texts tell.

use std::panic::catch_unwind;

use arm_vgic::VgicError;
use oracle::reason::{kind, told};

fn refused(detail: &str) -> VgicError {
    VgicError::InvalidItsCommand {
        opcode: 0,
        offset: 0,
        detail: detail.into(),
    }
}

#[test]
fn each_text_tells_its_number() {
    for (text, number) in [
        ("unsupported ITS command opcode", 20),
        ("LPI INTID 8191 is outside 8192..=65535", 21),
        ("device 4294967295 is not mapped", 22),
        ("event 16 exceeds device 5 capacity of 4 bits", 23),
        ("collection 2 is not mapped", 24),
        ("translation (5, 9) is not mapped", 25),
        ("processor number 7 has no attached Redistributor", 26),
        ("CWRITER was updated before CBASER was configured", 7),
        (
            "writer must be a 32-byte-aligned offset below queue size 0xff000",
            7,
        ),
    ] {
        assert_eq!(told(&refused(text)), number, "{text}");
        assert_eq!(kind(&refused(text)), 7, "{text}");
    }
}

#[test]
fn another_kind_of_error_keeps_its_number() {
    let budget = VgicError::ItsCommandBudgetExceeded {
        budget: 1,
        offset: 0,
    };
    // A text that would tell a 25 counts only for a command's own check.
    let pair = VgicError::ResourceNotFound {
        resource: "translation (5, 9) is not mapped".into(),
        operation: "signal MSI",
    };
    assert_eq!((kind(&budget), told(&budget)), (5, 5));
    assert_eq!((kind(&pair), told(&pair)), (8, 8));
}

#[test]
fn a_text_that_is_only_alike_is_printed() {
    for text in [
        "",
        "unsupported ITS command",
        "device 5 is not mapped yet",
        "device  is not mapped",
        "the device 5 is not mapped",
        "collection two is not mapped",
        "translation (5, ) is not mapped",
        "ITS was enabled before CBASER was configured",
    ] {
        let ended = catch_unwind(|| told(&refused(text))).expect_err(text);
        let said = ended.downcast_ref::<String>().expect("a panic with text");
        assert!(said.ends_with(&format!("not known: {text}")), "{said}");
    }
}
