//! `run` finds a refused write that hands over other actions than the Rust gives
//! when run up to the refused command, and a difference that setting them aside
//! does not hide.
#![cfg(feature = "published")]

mod planted;

use planted::{edited, other_when_folded, told_otherwise};

/// A line in its words, and the AC lines behind it.
struct Answered {
    words: Vec<String>,
    actions: Vec<String>,
}

impl Answered {
    fn of(line: &str) -> Self {
        Self {
            words: line.split(' ').map(String::from).collect(),
            actions: Vec::new(),
        }
    }

    fn is_write(&self) -> bool {
        self.words[0] == "WR"
    }

    fn number(&self, word: usize) -> u64 {
        self.words[word].parse().expect("a number")
    }

    /// A refused write, and what it is refused with.
    fn refusal(&self) -> Option<u64> {
        let refusal = self.is_write().then(|| self.number(1));
        refusal.filter(|refusal| *refusal != 0)
    }

    /// A refused write with actions.
    fn acts(&self) -> bool {
        self.refusal().is_some() && !self.actions.is_empty()
    }

    fn done(&self) -> usize {
        self.number(4) as usize
    }

    /// Has these actions, and says so.
    fn hand_over(&mut self, actions: Vec<String>) {
        self.words[5] = actions.len().to_string();
        self.actions = actions;
    }
}

/// The word with the lowest bit of its number turned over.
fn other(word: &str) -> String {
    (word.parse::<u64>().expect("a number") ^ 1).to_string()
}

/// The call with its answers edited, each a line with its actions.
fn answered(trace: &[u8], output: &mut [u8], edit: impl Fn(&mut [Answered])) -> u64 {
    edited(trace, output, |lines| {
        let mut answers: Vec<Answered> = Vec::new();
        for line in lines {
            match answers.last_mut() {
                Some(last) if line.starts_with("AC ") => last.actions.push(line.into()),
                _ => answers.push(Answered::of(line)),
            }
        }
        edit(&mut answers);
        let lines = answers.into_iter().flat_map(|answer| {
            let line = answer.words.join(" ");
            std::iter::once(line).chain(answer.actions)
        });
        lines.collect()
    })
}

/// The same for the refused writes that have actions.
fn acting(trace: &[u8], output: &mut [u8], edit: impl Fn(&mut Answered)) -> u64 {
    answered(trace, output, |answers| {
        let acting = answers.iter_mut().filter(|answer| answer.acts());
        acting.for_each(&edit);
    })
}

/// Behind one refusal the last action is not handed over.
fn one_too_few<const REFUSAL: u64>(trace: &[u8], output: &mut [u8]) -> u64 {
    acting(trace, output, |answer| {
        if answer.refusal() == Some(REFUSAL) {
            let mut fewer = answer.actions.clone();
            fewer.pop();
            answer.hand_over(fewer);
        }
    })
}

#[test]
fn an_action_too_few_is_found_behind_every_refusal() {
    told_otherwise(one_too_few::<6>, "WR 6 0 ", "WR 6 0 ");
    told_otherwise(one_too_few::<8>, "WR 8 ", "WR 8 ");
    told_otherwise(one_too_few::<9>, "WR 9 ", "WR 9 ");
    told_otherwise(one_too_few::<20>, "WR 20 ", "WR 20 ");
    told_otherwise(one_too_few::<21>, "WR 21 ", "WR 21 ");
    told_otherwise(one_too_few::<22>, "WR 22 ", "WR 22 ");
    told_otherwise(one_too_few::<23>, "WR 23 ", "WR 23 ");
    told_otherwise(one_too_few::<24>, "WR 24 ", "WR 24 ");
    told_otherwise(one_too_few::<25>, "WR 25 ", "WR 25 ");
    told_otherwise(one_too_few::<26>, "WR 26 9 ", "WR 26 9 ");
}

/// Behind one refusal the refused command asks for an action too.
fn one_too_many<const REFUSAL: u64>(trace: &[u8], output: &mut [u8]) -> u64 {
    answered(trace, output, |answers| {
        for answer in answers {
            if answer.refusal() == Some(REFUSAL) {
                let mut more = answer.actions.clone();
                more.push("AC 1 8200 1".into());
                answer.hand_over(more);
            }
        }
    })
}

#[test]
fn an_action_too_many_is_found_behind_every_refusal() {
    told_otherwise(one_too_many::<5>, "WR 5 0 ", "WR 5 0 ");
    told_otherwise(one_too_many::<6>, "WR 6 0 ", "WR 6 0 ");
    told_otherwise(one_too_many::<7>, "WR 7 0 ", "WR 7 0 ");
    told_otherwise(one_too_many::<8>, "WR 8 ", "WR 8 ");
    told_otherwise(one_too_many::<9>, "WR 9 ", "WR 9 ");
    told_otherwise(one_too_many::<20>, "WR 20 ", "WR 20 ");
    told_otherwise(one_too_many::<21>, "WR 21 ", "WR 21 ");
    told_otherwise(one_too_many::<22>, "WR 22 ", "WR 22 ");
    told_otherwise(one_too_many::<23>, "WR 23 ", "WR 23 ");
    told_otherwise(one_too_many::<24>, "WR 24 ", "WR 24 ");
    told_otherwise(one_too_many::<25>, "WR 25 ", "WR 25 ");
    told_otherwise(one_too_many::<26>, "WR 26 9 ", "WR 26 9 ");
}

/// The row as far as commands were carried out, or all of it.
fn the_row<const ALL: bool>(trace: &[u8], output: &mut [u8]) -> u64 {
    acting(trace, output, |answer| {
        let mut row = answer.actions.clone();
        row.resize(
            if ALL { 1_024 } else { answer.done() },
            "AC 0 8192 0".into(),
        );
        answer.hand_over(row);
    })
}

#[test]
fn the_row_in_place_of_its_actions_is_found() {
    told_otherwise(the_row::<false>, "WR ", "WR ");
    told_otherwise(the_row::<true>, "WR ", "WR ");
}

/// Nothing, as the Rust itself does it.
fn throws_away(trace: &[u8], output: &mut [u8]) -> u64 {
    acting(trace, output, |answer| answer.hand_over(Vec::new()))
}

#[test]
fn actions_thrown_away_are_found() {
    told_otherwise(throws_away, "WR ", "WR ");
}

/// The actions of a refused write once more, by the next write that is refused or
/// by the next one that is not.
fn hands_over_again<const REFUSED: bool>(trace: &[u8], output: &mut [u8]) -> u64 {
    answered(trace, output, |answers| {
        let mut before = Vec::new();
        for answer in answers.iter_mut().filter(|answer| answer.is_write()) {
            if answer.acts() {
                before = answer.actions.clone();
            } else if answer.refusal().is_some() == REFUSED {
                before.append(&mut answer.actions);
                answer.hand_over(std::mem::take(&mut before));
            }
        }
    })
}

#[test]
fn actions_handed_over_again_are_found() {
    told_otherwise(hands_over_again::<true>, "WR ", "WR ");
    other_when_folded(hands_over_again::<false>, "WR 0 ", "WR 0 ");
}

/// The count of the actions without their lines.
fn only_counts(trace: &[u8], output: &mut [u8]) -> u64 {
    acting(trace, output, |answer| answer.actions.clear())
}

#[test]
fn a_count_without_its_lines_is_found() {
    told_otherwise(only_counts, "", "AC ");
}

/// The lines of the actions without their count.
fn counts_none(trace: &[u8], output: &mut [u8]) -> u64 {
    acting(trace, output, |answer| answer.words[5] = "0".into())
}

#[test]
fn lines_without_their_count_are_found() {
    other_when_folded(counts_none, "AC ", "");
}

fn reverses(trace: &[u8], output: &mut [u8]) -> u64 {
    acting(trace, output, |answer| answer.actions.reverse())
}

#[test]
fn actions_in_another_order_are_found() {
    told_otherwise(reverses, "AC ", "AC ");
}

/// Another processor, LPI or pending in the last action.
fn another_action<const WORD: usize>(trace: &[u8], output: &mut [u8]) -> u64 {
    acting(trace, output, |answer| {
        let last = answer.actions.last_mut().expect("an action");
        let mut words: Vec<String> = last.split(' ').map(String::from).collect();
        words[WORD] = other(&words[WORD]);
        *last = words.join(" ");
    })
}

#[test]
fn another_number_of_an_action_is_found() {
    told_otherwise(another_action::<1>, "AC ", "AC ");
    told_otherwise(another_action::<2>, "AC ", "AC ");
    told_otherwise(another_action::<3>, "AC ", "AC ");
}

/// Another opcode, offset or count of commands done, only where actions are set
/// aside.
fn another_word<const WORD: usize>(trace: &[u8], output: &mut [u8]) -> u64 {
    acting(trace, output, |answer| {
        answer.words[WORD] = other(&answer.words[WORD]);
    })
}

#[test]
fn setting_aside_hides_no_other_word() {
    other_when_folded(another_word::<2>, "WR ", "WR ");
    other_when_folded(another_word::<3>, "WR ", "WR ");
    other_when_folded(another_word::<4>, "WR ", "WR ");
}

/// The last number of every read or message after actions were set aside.
fn another_answer<const READ: bool>(trace: &[u8], output: &mut [u8]) -> u64 {
    let mark = if READ { "RD" } else { "TR" };
    answered(trace, output, |answers| {
        let after = answers.iter_mut().skip_while(|answer| !answer.acts());
        for answer in after.filter(|answer| answer.words[0] == mark) {
            let last = answer.words.last_mut().expect("a number");
            *last = other(last);
        }
    })
}

/// An accepted write after actions were set aside loses its own.
fn no_action_after(trace: &[u8], output: &mut [u8]) -> u64 {
    answered(trace, output, |answers| {
        let after = answers.iter_mut().skip_while(|answer| !answer.acts());
        for answer in after.filter(|answer| answer.is_write() && !answer.acts()) {
            answer.hand_over(Vec::new());
        }
    })
}

#[test]
fn setting_aside_hides_nothing_after_it() {
    other_when_folded(another_answer::<true>, "RD ", "RD ");
    other_when_folded(another_answer::<false>, "TR ", "TR ");
    other_when_folded(no_action_after, "WR 0 ", "WR 0 ");
}
