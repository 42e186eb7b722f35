//! What the tests share: texts in, lines out.

use std::path::PathBuf;

use oracle::answers::answers;
use oracle::text::assemble;

/// The lines of a trace given as text, with the reasons and actions that the Rust
/// tells.
pub fn lines_of(text: &str) -> Vec<String> {
    let trace = assemble(text).expect("a well-formed text");
    let lines = String::from_utf8(answers(&trace).told).expect("lines are text");
    lines.lines().map(String::from).collect()
}

/// The lines of a text of the folder traces/.
pub fn lines_of_file(name: &str) -> Vec<String> {
    let place = [env!("CARGO_MANIFEST_DIR"), "traces", name];
    let path = place.iter().collect::<PathBuf>().with_extension("txt");
    lines_of(&std::fs::read_to_string(path).expect("a text of the fixed list"))
}
