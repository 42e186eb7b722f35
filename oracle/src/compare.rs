//! Another implementation's answer to a trace, held against the Rust's.
//!
//! It is held twice: with the numbers of a command's checks folded back into 7
//! and the actions of refused writes set aside, against what the Rust itself
//! answers, which is what 02 demands; and as it is, against the reasons that the
//! Rust's own texts tell and the actions that it gives when run up to the refused
//! command.
//!
//! What is compared is answered by base units, for the Rust has no others. 27, which
//! only a strict unit has, is folded as the other reasons are; one of them among
//! those lines is a difference by itself.

use crate::answers::Answers;
use crate::lines::{count, first, first_difference, first_with_actions, is_action};
use crate::record::DEVICE_TOO_LARGE;
use crate::room::{MOST_OUTPUT, returned, written};

/// The refusals that a command's own checks have in place of 01's 7: opcode
/// unknown, LPI out of range, device unmapped, event beyond the bits, collection
/// unmapped, pair unmapped, processor not listed, and a strict unit's device too
/// large.
pub const REASONS: [u8; 8] = [20, 21, 22, 23, 24, 25, 26, DEVICE_TOO_LARGE];

/// The refusals of a base unit's command, before which a write can have actions.
/// Others come before any command is carried out.
pub const OF_A_COMMAND: [u8; 10] = [6, 8, 9, 20, 21, 22, 23, 24, 25, 26];

/// How often each of the reasons was folded into 7, and what was set aside
/// before each refusal of a command. Actions before another refusal are not
/// counted: no answer that is right has them.
#[derive(Clone, Copy, Debug, Default, Eq, PartialEq)]
pub struct Folded {
    reasons: [u64; REASONS.len()],
    aside: [Aside; OF_A_COMMAND.len()],
}

/// Actions set aside, and the writes that had them.
#[derive(Clone, Copy, Debug, Default, Eq, PartialEq)]
pub struct Aside {
    pub actions: u64,
    pub writes: u64,
}

impl Folded {
    /// Each reason with its count, in order.
    pub fn counts(&self) -> impl Iterator<Item = (u8, u64)> {
        REASONS.into_iter().zip(self.reasons)
    }

    /// How often one of the reasons was folded.
    pub fn of(&self, reason: u8) -> u64 {
        let counted = self.counts().find(|(listed, _)| *listed == reason);
        counted.map_or(0, |(_, count)| count)
    }

    /// How many were folded in all.
    pub fn all(&self) -> u64 {
        self.reasons.iter().sum()
    }

    /// Each refusal of a command with what was set aside before it, in order.
    pub fn aside(&self) -> impl Iterator<Item = (u8, Aside)> {
        OF_A_COMMAND.into_iter().zip(self.aside)
    }

    /// What was set aside in all.
    pub fn all_aside(&self) -> Aside {
        let mut all = Aside::default();
        for aside in &self.aside {
            all.add(aside);
        }
        all
    }

    pub fn absorb(&mut self, other: &Self) {
        for (sum, more) in self.reasons.iter_mut().zip(other.reasons) {
            *sum += more;
        }
        for (sum, more) in self.aside.iter_mut().zip(&other.aside) {
            sum.add(more);
        }
    }

    fn count(&mut self, refusal: u64, actions: u64) {
        if let Some(place) = place(&REASONS, refusal) {
            self.reasons[place] += 1;
        }
        if let Some(place) = place(&OF_A_COMMAND, refusal)
            && actions > 0
        {
            self.aside[place].add(&Aside { actions, writes: 1 });
        }
    }
}

impl Aside {
    fn add(&mut self, more: &Self) {
        self.actions += more.actions;
        self.writes += more.writes;
    }
}

fn place(refusals: &[u8], refusal: u64) -> Option<usize> {
    let is_refusal = |listed: &u8| u64::from(*listed) == refusal;
    refusals.iter().position(is_refusal)
}

/// Lines in which the refusal of a WR line that is one of `REASONS` is 7 again,
/// and a refused write has no actions: their count is 0, and as many of the AC
/// lines directly behind it as it said are left out. No other word and no other
/// line is changed.
pub fn fold(lines: &[u8]) -> (Vec<u8>, Folded) {
    let mut all = Vec::with_capacity(lines.len());
    let mut folded = Folded::default();
    let mut rest = lines.split_inclusive(|byte| *byte == b'\n').peekable();
    while let Some(line) = rest.next() {
        let Some(refused) = Refused::of(line) else {
            all.extend(line);
            continue;
        };
        refused.put(&mut all);
        let mut actions = 0;
        while actions < refused.actions && rest.next_if(|line| is_action(line)).is_some() {
            actions += 1;
        }
        folded.count(refused.refusal, actions);
    }
    (all, folded)
}

/// The line of a refused write.
struct Refused<'a> {
    refusal: u64,
    /// Opcode, offset and how many commands were done.
    between: [&'a [u8]; 3],
    actions: u64,
    end: &'a [u8],
}

impl<'a> Refused<'a> {
    /// The pieces of a line, if it is one; any other is not looked into further.
    fn of(line: &'a [u8]) -> Option<Self> {
        let (words, end) = match line.strip_suffix(b"\n") {
            Some(words) => (words, &b"\n"[..]),
            None => (line, &b""[..]),
        };
        let mut words = words.strip_prefix(b"WR ")?.split(|byte| *byte == b' ');
        let refusal = number(words.next()?).filter(|refusal| *refusal != 0)?;
        let between = [words.next()?, words.next()?, words.next()?];
        let actions = number(words.next()?)?;
        words.next().is_none().then_some(Self {
            refusal,
            between,
            actions,
            end,
        })
    }

    /// The line with 7 for a reason, and with no actions.
    fn put(&self, lines: &mut Vec<u8>) {
        let kind = match place(&REASONS, self.refusal) {
            Some(_) => 7,
            None => self.refusal,
        };
        lines.extend(format!("WR {kind}").as_bytes());
        for word in self.between.into_iter().chain([&b"0"[..]]) {
            lines.push(b' ');
            lines.extend(word);
        }
        lines.extend(self.end);
    }
}

/// A number as the lines have it: digits, no sign, no zero in front.
fn number(word: &[u8]) -> Option<u64> {
    let number: u64 = std::str::from_utf8(word).ok()?.parse().ok()?;
    (number.to_string().as_bytes() == word).then_some(number)
}

/// Holds a C call that wrote these bytes into an output of this length and
/// returned this number against the Rust's answers, and says what was folded on
/// the way. An error says what is different, and in which of the two comparisons.
///
/// Folded lines are fewer and shorter, so what fits into the output is judged on
/// the lines that the Rust tells; where not all of them fit, the first folded
/// lines are compared, as many as there are. Where the Rust's run ended at a 9 the
/// lines up to and with that one and its actions are compared, and what the other
/// call wrote after them is left alone; so it is where it ended at a strict
/// configuration.
pub fn difference(
    answers: &Answers,
    output: usize,
    bytes: &[u8],
    number: u64,
) -> Result<Folded, String> {
    let Answers { lines, told, .. } = answers;
    let all_fit = told.len() <= output.min(MOST_OUTPUT);
    let open = answers.left().is_some() && all_fit;
    let bytes = if open {
        first_with_actions(count(told), bytes)
    } else {
        bytes
    };

    let as_it_is = first_difference(bytes, &told[..written(told, output)]);
    let (all_folded, folded) = fold(bytes);
    if folded.of(DEVICE_TOO_LARGE) > 0 {
        let difference = as_it_is.unwrap_or_default();
        return Err(format!("a base unit answers 27, {difference}"));
    }
    // Where actions are missing, lines from behind the 9 are among the bytes.
    let folded_lines = if open {
        first_with_actions(count(lines), &all_folded)
    } else {
        &all_folded
    };
    let kinds = if all_fit {
        lines
    } else {
        first(count(folded_lines), lines)
    };
    if let Some(difference) = first_difference(folded_lines, kinds) {
        return Err(format!(
            "with 20 to 27 folded into 7 and the actions of refused writes set aside, {difference}"
        ));
    }
    if let Some(difference) = as_it_is {
        return Err(format!(
            "by the reasons and actions that the Rust tells, {difference}"
        ));
    }
    let right = returned(told, output);
    if !open && number != right {
        return Err(format!("the call returned {number}, expected {right}"));
    }
    Ok(folded)
}
