//! Two runs of lines, held against each other.

/// How many lines there are; a last one that does not end counts too.
pub fn count(lines: &[u8]) -> usize {
    lines.split_inclusive(|byte| *byte == b'\n').count()
}

/// The first lines, as many as there are up to this count.
pub fn first(count: usize, lines: &[u8]) -> &[u8] {
    let kept = lines.split_inclusive(|byte| *byte == b'\n').take(count);
    &lines[..kept.map(<[u8]>::len).sum()]
}

/// The first lines, and the actions that stand directly behind them.
pub fn first_with_actions(count: usize, lines: &[u8]) -> &[u8] {
    let behind = &lines[first(count, lines).len()..];
    let actions = behind.split_inclusive(|byte| *byte == b'\n');
    let actions = actions.take_while(|line| is_action(line)).count();
    first(count + actions, lines)
}

pub fn is_action(line: &[u8]) -> bool {
    line.starts_with(b"AC ")
}

/// Whether the run that was recorded ended at a 9: behind that line stand only
/// its actions.
pub fn ends_at_nine(lines: &[u8]) -> bool {
    let mut lines = lines.split_inclusive(|byte| *byte == b'\n');
    let last = lines.rfind(|line| !is_action(line));
    last.is_some_and(|line| line.starts_with(b"WR 9 "))
}

/// The first line in which two runs of lines differ.
pub fn first_difference(lines: &[u8], expected: &[u8]) -> Option<String> {
    if lines == expected {
        return None;
    }
    let lines = String::from_utf8_lossy(lines);
    let expected = String::from_utf8_lossy(expected);
    let (mut ours, mut theirs) = (lines.lines(), expected.lines());
    let mut number = 1;
    loop {
        match (ours.next(), theirs.next()) {
            (Some(one), Some(other)) if one == other => number += 1,
            (one, other) => {
                let one = one.unwrap_or("no line");
                let other = other.unwrap_or("no line");
                return Some(format!("line {number} is `{one}`, expected `{other}`"));
            }
        }
    }
}
