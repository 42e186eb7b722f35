//! The C call on recorded traces.

use std::fs;
use std::path::Path;

use oracle::lines::{count, ends_at_nine, first_difference, first_with_actions};
use oracle::room::MOST_OUTPUT;

use crate::call::{Call, Lent};

/// Every NAME.trace of a folder against its NAME.expect: how many there are.
/// A recording of the Rust that ends at a 9 is compared up to there. The recorded
/// lines have the reasons and actions that the Rust tells: nothing is folded.
pub fn recorded(call: Call, folder: &Path) -> Result<usize, String> {
    let shown = |error| format!("{}: {error}", folder.display());
    let mut traces = 0;
    let mut lent = Lent::default();
    for entry in fs::read_dir(folder).map_err(shown)? {
        let path = entry.map_err(shown)?.path();
        if path.extension().is_none_or(|ending| ending != "trace") {
            continue;
        }
        let trace = fs::read(&path).map_err(shown)?;
        let expected = fs::read(path.with_extension("expect")).map_err(shown)?;
        let (_, bytes) = lent
            .call(call, &trace, MOST_OUTPUT, 0xa5)
            .map_err(|fault| format!("{}: {fault}", path.display()))?;
        let shown = if ends_at_nine(&expected) {
            first_with_actions(count(&expected), bytes)
        } else {
            bytes
        };
        if let Some(difference) = first_difference(shown, &expected) {
            return Err(format!("{}: {difference}", path.display()));
        }
        traces += 1;
    }
    Ok(traces)
}
