//! Real guests' traffic, with the answers of another implementation beside it.

use std::path::Path;

use oracle::recorded::check;
use oracle::text::{assemble, list};

const GUESTS: &str = concat!(env!("CARGO_MANIFEST_DIR"), "/../crates/replay/data/linux");

#[test]
fn answers_real_guests_as_expected() {
    let checked = check(Path::new(GUESTS)).expect("every line as expected");
    assert_eq!(checked.whole, 4, "io61, hotplug612, suspend61, kexec61");
    assert_eq!(checked.up_to_strict, 0);
}

/// Every command of a real guest has a name and fields that say it.
#[test]
fn lists_real_guests_by_name() {
    let folder = Path::new(GUESTS);
    for name in ["io61", "hotplug612", "suspend61", "kexec61"] {
        let trace = std::fs::read(folder.join(name).with_extension("trace")).expect("a trace");
        let text = list(&trace);
        assert!(!text.contains("words") && !text.contains("raw"), "{name}");
        assert!(assemble(&text).as_ref() == Ok(&trace), "{name}");
    }
}
