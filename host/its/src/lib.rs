//! The proved ITS for a host in Rust.
//!
//! [`Its`] is a unit; the host owns it, and lends it to each call. No call keeps
//! a pointer, allocates or blocks, and each of them answers whatever it is given.
//! Numbers of different kinds have different types, so that no call takes an
//! event for a device or an LPI for a processor.
#![no_std]

mod calls;
pub mod command;
mod numbers;
mod refusal;
mod settings;

pub use numbers::{Action, CollectionId, DeviceId, EventId, Lpi, Processor, Window};
pub use refusal::{Refusal, WriteRefused};
pub use settings::{Profile, Settings};

/// How many words a unit is.
pub const WORDS: usize = 608;

/// The layout of these words: the first of them holds its number. Under another
/// one they are a unit that is not configured, and no call but
/// [`Its::configure`] changes them.
pub const LAYOUT: u64 = 2;

/// Bit 0 of CWRITER, for a strict unit: go on with the command that stopped the
/// queue. It is taken off before the offset is looked at, and is not stored.
pub const RETRY: u64 = 1;

/// Bit 0 of CREADR, as a strict unit shows it: a refused command has stopped the
/// queue. No offset that a write reports has it.
pub const STALLED: u64 = 1;

/// An action row that is long enough for any command budget.
pub type Row = [Action; 1024];

/// A unit. Until a configuration is accepted every call is refused with 1.
#[derive(Clone, Debug)]
#[repr(C)]
pub struct Its([u64; WORDS]);

/// Where a message goes.
#[derive(Clone, Copy, Debug, Eq, PartialEq)]
pub struct Delivery {
    pub lpi: Lpi,
    pub processor: Processor,
}

/// What a write did.
#[derive(Clone, Copy, Debug, Eq, PartialEq)]
pub struct Written {
    /// The commands carried out.
    pub done: u64,
    /// How many actions were handed over.
    pub actions: usize,
}

impl Its {
    /// A unit that is not configured.
    #[inline]
    pub const fn new() -> Self {
        Self([0; WORDS])
    }

    /// The unit that a host kept as words. Any words are taken: where they are of
    /// another [`LAYOUT`], or of no unit, every call is refused with 1.
    #[inline]
    pub const fn of_words(words: [u64; WORDS]) -> Self {
        Self(words)
    }

    /// The words, for a host that keeps them.
    #[inline]
    pub const fn words(&self) -> &[u64; WORDS] {
        &self.0
    }

    /// Makes the unit a fresh one of these settings, with these processors: 1 to
    /// 16 different ones. Where that is refused, with 1, it is one that is not
    /// configured.
    #[inline]
    pub fn configure(
        &mut self,
        settings: &Settings,
        processors: &[Processor],
    ) -> Result<(), Refusal> {
        Refusal::of(calls::configure(&mut self.0, &settings.row(), processors).refusal())
    }

    /// Reads a register of the frame.
    #[inline]
    pub fn read(&self, offset: u64, width: u8) -> Result<u64, Refusal> {
        let answer = calls::read(&self.0, offset, width);
        Refusal::of(answer.refusal()).map(|()| answer.value())
    }

    /// Writes a register of the frame. An enabled unit then runs its queue (a
    /// strict one only while bit 63 of CBASER is 1 and it is not [`STALLED`]): it
    /// reads commands from the window, and puts the actions of INT and CLEAR into
    /// the row, which must have room for a whole command budget.
    ///
    /// It hands over the actions of this write, which are the row's first, and
    /// answers. They stand beside the answer and not in it, for they are to be
    /// delivered, in order, whether a command behind them was refused or not.
    #[inline]
    #[must_use = "the actions are to be delivered, of a refused write too"]
    pub fn write<'r>(
        &mut self,
        window: Window<'_>,
        row: &'r mut [Action],
        offset: u64,
        width: u8,
        value: u64,
    ) -> (&'r [Action], Result<Written, WriteRefused>) {
        let answer = calls::write(&mut self.0, window, row, offset, width, value);
        let written = WriteRefused::of(&answer).map(|()| Written {
            done: answer.done(),
            actions: answer.actions(),
        });
        (&row[..answer.actions()], written)
    }

    /// Where a message of this device and event goes.
    #[inline]
    pub fn translate(&self, device: DeviceId, event: EventId) -> Result<Delivery, Refusal> {
        let answer = calls::translate(&self.0, device, event);
        Refusal::of(answer.refusal()).map(|()| answer.delivery())
    }
}

impl Default for Its {
    fn default() -> Self {
        Self::new()
    }
}
