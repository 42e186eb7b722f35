//! How often each rule of the strict profile was met.

use arm_vgic::{GITS_CBASER, GITS_CREADR, GITS_CTLR, GITS_CWRITER};

use crate::answers::Answer;
use crate::record::{DEVICE_TOO_LARGE, RETRY, Record};
use crate::unit::Written;

const CBASER_HIGH: u64 = GITS_CBASER + 4;
const CWRITER_HIGH: u64 = GITS_CWRITER + 4;
const CREADR_HIGH: u64 = GITS_CREADR + 4;

/// A rule, or a corner of one. Those of a stalled unit count where commands wait in an
/// enabled one, so that another unit would have run them, or given a 5.
#[derive(Clone, Copy, Debug, Eq, PartialEq)]
pub enum Rule {
    MappedAgain,
    TooLarge,
    Held,
    HeldBeyondBudget,
    StalledBy6,
    StalledBy8,
    StalledBy9,
    StalledByCheck,
    FiveWithoutStall,
    ReadWhole,
    ReadLow,
    ReadHigh,
    KeptByControl,
    KeptByWriter,
    KeptByHighHalf,
    KeptByRefusedRetry,
    KeptByIgnoredBase,
    KeptByRefusedBase,
    NoFive,
    RetryGoesOn,
    RetryStopsAgain,
    RetryGivesFive,
    RetryOfNothing,
    RetryWhileDisabled,
    RetryByLowHalf,
    ClearedByBase,
    ConfiguredAnew,
    RetryUnstalled,
    RetryHeld,
    RetryBeforeRing,
    RetryRefusedBeforeRing,
}

/// Every rule, in order, and how it is called.
pub const RULES: [(Rule, &str); 31] = [
    (Rule::MappedAgain, "a mapped device mapped again"),
    (Rule::TooLarge, "a device above 65535 refused"),
    (Rule::Held, "a ring held that is not valid"),
    (Rule::HeldBeyondBudget, "one held with more than the budget"),
    (Rule::StalledBy6, "stalled by 6"),
    (Rule::StalledBy8, "stalled by 8"),
    (Rule::StalledBy9, "stalled by 9"),
    (Rule::StalledByCheck, "stalled by a command's own check"),
    (Rule::FiveWithoutStall, "5, not stalled"),
    (Rule::ReadWhole, "Stalled read at 8 bytes of CREADR"),
    (Rule::ReadLow, "Stalled read in the low half"),
    (Rule::ReadHigh, "the high half read while stalled"),
    (Rule::KeptByControl, "CTLR enables a stalled unit"),
    (Rule::KeptByWriter, "CWRITER of one without Retry"),
    (Rule::KeptByHighHalf, "an odd high half of CWRITER of one"),
    (Rule::KeptByRefusedRetry, "Retry of one refused"),
    (Rule::KeptByIgnoredBase, "CBASER of one ignored"),
    (Rule::KeptByRefusedBase, "CBASER of one refused"),
    (Rule::NoFive, "no 5 of one beyond the budget"),
    (Rule::RetryGoesOn, "Retry goes on"),
    (Rule::RetryStopsAgain, "Retry stops again"),
    (Rule::RetryGivesFive, "Retry gives 5"),
    (Rule::RetryOfNothing, "Retry with nothing to run"),
    (Rule::RetryWhileDisabled, "Retry while disabled"),
    (Rule::RetryByLowHalf, "Retry by the low half"),
    (Rule::ClearedByBase, "CBASER clears Stalled"),
    (Rule::ConfiguredAnew, "a stalled unit configured anew"),
    (Rule::RetryUnstalled, "Retry without a stall"),
    (Rule::RetryHeld, "Retry with a ring that is not valid"),
    (Rule::RetryBeforeRing, "Retry before CBASER"),
    (Rule::RetryRefusedBeforeRing, "Retry refused before CBASER"),
];

/// What the counts look at in a unit.
pub struct State {
    pub strict: bool,
    pub enabled: bool,
    pub stalled: bool,
    /// CBASER is not zero, and its bit 63.
    pub ring: bool,
    pub valid: bool,
    pub waiting: u64,
    /// More wait than the budget.
    pub beyond: bool,
    /// The valid MAPDs of a mapped device so far.
    pub mapped_again: u64,
}

#[derive(Clone, Copy, Debug, Default, Eq, PartialEq)]
pub struct Met([u64; RULES.len()]);

impl Met {
    /// Each rule with its count.
    pub fn counts(&self) -> impl Iterator<Item = (&'static str, u64)> {
        RULES.iter().map(|(_, name)| *name).zip(self.0)
    }

    pub fn of(&self, rule: Rule) -> u64 {
        self.0[rule as usize]
    }

    pub fn add(&mut self, more: &Self) {
        for (sum, more) in self.0.iter_mut().zip(more.0) {
            *sum += more;
        }
    }

    fn count(&mut self, rule: Rule) {
        self.0[rule as usize] += 1;
    }

    fn count_if(&mut self, holds: bool, rule: Rule) {
        self.0[rule as usize] += u64::from(holds);
    }

    /// Counts what a record met in a unit.
    pub(super) fn see(&mut self, before: &State, record: &Record, answer: &Answer, after: &State) {
        if !before.strict {
            return;
        }
        match (record, answer) {
            (Record::Cf(_), _) => self.count_if(before.stalled, Rule::ConfiguredAnew),
            (Record::Rd { offset, width }, Answer::Rd(Ok(_))) if before.stalled => {
                match (*offset, *width) {
                    (GITS_CREADR, 8) => self.count(Rule::ReadWhole),
                    (GITS_CREADR, _) => self.count(Rule::ReadLow),
                    (CREADR_HIGH, _) => self.count(Rule::ReadHigh),
                    _ => {}
                }
            }
            (
                Record::Wr {
                    offset,
                    width,
                    value,
                },
                Answer::Wr(written),
            ) => self.write(before, (*offset, *width, *value), written, after),
            _ => {}
        }
    }

    fn write(
        &mut self,
        before: &State,
        (offset, width, value): (u64, u8, u64),
        written: &Written,
        after: &State,
    ) {
        match (offset, written.told) {
            (_, 1..=3) => {}
            (GITS_CBASER | CBASER_HIGH, refusal) => self.base(before, refusal),
            (GITS_CTLR | CWRITER_HIGH, _) => {
                self.run(before, false, written, after);
                let odd = offset == CWRITER_HIGH && value & 1 == 1;
                self.kept(before, Rule::KeptByHighHalf, odd);
                let enabled = offset == GITS_CTLR && after.enabled && after.waiting > 0;
                self.kept(before, Rule::KeptByControl, enabled);
            }
            (GITS_CWRITER, 7) if value & RETRY != 0 => {
                self.kept(before, Rule::KeptByRefusedRetry, true);
                self.count_if(!before.ring, Rule::RetryRefusedBeforeRing);
            }
            (GITS_CWRITER, 7) => {}
            (GITS_CWRITER, _) if value & RETRY != 0 => {
                self.run(before, true, written, after);
                self.retry(before, width, written, after);
            }
            (GITS_CWRITER, _) => {
                self.run(before, false, written, after);
                let waits = after.enabled && after.waiting > 0;
                self.kept(before, Rule::KeptByWriter, waits);
            }
            _ => {}
        }
    }

    /// What left a stalled unit stalled.
    fn kept(&mut self, before: &State, rule: Rule, holds: bool) {
        self.count_if(before.stalled && holds, rule);
    }

    fn base(&mut self, before: &State, refusal: u8) {
        self.kept(before, Rule::KeptByIgnoredBase, before.enabled);
        self.kept(before, Rule::KeptByRefusedBase, refusal == 4);
        let stored = refusal == 0 && !before.enabled;
        self.count_if(before.stalled && stored, Rule::ClearedByBase);
    }

    /// A write after which an enabled unit runs, if nothing holds it.
    fn run(&mut self, before: &State, retry: bool, written: &Written, after: &State) {
        self.0[Rule::MappedAgain as usize] += after.mapped_again - before.mapped_again;
        self.count_if(written.told == DEVICE_TOO_LARGE, Rule::TooLarge);
        match written.told {
            0 => {}
            5 => self.count(Rule::FiveWithoutStall),
            6 => self.count(Rule::StalledBy6),
            8 => self.count(Rule::StalledBy8),
            9 => self.count(Rule::StalledBy9),
            _ => self.count(Rule::StalledByCheck),
        }
        if !after.enabled {
            return;
        }
        if !after.valid {
            self.count_if(after.waiting > 0, Rule::Held);
            self.count_if(after.beyond, Rule::HeldBeyondBudget);
        }
        self.kept(before, Rule::NoFive, !retry && after.beyond);
    }

    /// An accepted write with Retry.
    fn retry(&mut self, before: &State, width: u8, written: &Written, after: &State) {
        if before.stalled {
            self.count_if(width == 4, Rule::RetryByLowHalf);
            self.count(match (written.told, written.done) {
                _ if !after.enabled => Rule::RetryWhileDisabled,
                (0, 0) => Rule::RetryOfNothing,
                (0, _) => Rule::RetryGoesOn,
                (5, _) => Rule::RetryGivesFive,
                _ => Rule::RetryStopsAgain,
            });
        } else {
            self.count(match (before.ring, before.valid) {
                (false, _) => Rule::RetryBeforeRing,
                (true, false) => Rule::RetryHeld,
                (true, true) => Rule::RetryUnstalled,
            });
        }
    }
}
