//! Document 01's example, to the line.

use crate::common::lines_of_file;

#[test]
fn answers_the_example_exactly() {
    let printed = "CF 0
GM 0
WR 0 0 0 0 0
RD 0 1073741824
WR 0 0 0 0 0
WR 0 0 0 4 1
AC 1 8200 1
RD 0 128
TR 0 8200 1
TR 8 0 0";
    let lines = lines_of_file("example");
    assert_eq!(lines.join("\n"), printed);
}
