//! What folding did over many traces, so that it is seen how much the comparison
//! with what the Rust itself answers leaves to the other one, and that every
//! reason was met, and actions before every refusal of a command.

use oracle::compare::Folded;
use oracle::record::DEVICE_TOO_LARGE;

use crate::numbers::grouped;
use crate::run::Traces;

/// From so many seeds on, with the exhaustive traces, all of it must be met.
const ENOUGH: u64 = 20_000;

pub struct Foldings {
    /// Counted on the call's own lines.
    pub folded: Folded,
    /// The refused MOVIs with neither their collection nor their pair mapped:
    /// where the order of two checks decides which number is told.
    pub moves: u64,
    /// The refused writes for which the Rust was run once more, those without
    /// actions among them.
    pub again: u64,
}

impl Foldings {
    /// In one line, how many answers were folded, for each number, and what of
    /// them is a MOVI of which two checks fail; in another, how many actions were
    /// set aside, for each refusal.
    pub fn summary(&self) -> String {
        let aside = self.folded.all_aside();
        format!(
            "Folded into 7: {} answers ({}), {} of them of a MOVI with neither its collection nor \
             its pair mapped.\n\
             Set aside: {} actions of {} refused writes ({}), each of them given by the Rust when \
             run up to the refused command; {} refused writes were run so, those without actions \
             among them.",
            grouped(self.folded.all()),
            each(self.folded.counts()),
            grouped(self.moves),
            grouped(aside.actions),
            grouped(aside.writes),
            each(self.actions()),
            grouped(self.again),
        )
    }

    /// Each refusal of a command with the actions set aside before it.
    fn actions(&self) -> impl Iterator<Item = (u8, u64)> {
        let aside = self.folded.aside();
        aside.map(|(refusal, aside)| (refusal, aside.actions))
    }

    /// Whether nothing was left out that so many traces must meet; an error names
    /// what was.
    pub fn held_against(&self, traces: &Traces) -> Result<(), String> {
        let mut gaps = String::new();
        // Only a strict unit has that one, and the comparison is with base ones.
        let of_base = |(reason, _): &(u8, u64)| *reason != DEVICE_TOO_LARGE;
        let mut never_folded = zero(self.folded.counts().filter(of_base));
        if self.moves == 0 {
            never_folded.push("a MOVI with neither its collection nor its pair mapped".into());
        }
        if !never_folded.is_empty() {
            gaps += &format!("\nNever folded into 7: {}.", never_folded.join("; "));
        }
        let never_aside = zero(self.actions());
        if !never_aside.is_empty() {
            gaps += &format!("\nNo actions before: {}.", never_aside.join("; "));
        }
        if gaps.is_empty() || !traces.exhaustive || traces.count < ENOUGH {
            return Ok(());
        }
        Err(format!(
            "No difference was found, but these traces do not try every way in which a command is \
             refused.{gaps}"
        ))
    }
}

/// Numbers with their counts, in words.
fn each(counts: impl Iterator<Item = (u8, u64)>) -> String {
    let each: Vec<String> = counts
        .map(|(number, count)| format!("{number}: {}", grouped(count)))
        .collect();
    each.join(", ")
}

/// The numbers with a count of 0.
fn zero(counts: impl Iterator<Item = (u8, u64)>) -> Vec<String> {
    let zero = counts.filter(|(_, count)| *count == 0);
    zero.map(|(number, _)| number.to_string()).collect()
}
