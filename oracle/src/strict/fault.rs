//! What can be wrong about Retry and Stalled.

/// The last two are faults of base units, the others of strict ones.
#[derive(Clone, Copy, Debug, Eq, PartialEq)]
pub enum Fault {
    /// CWRITER reads with the Retry that it was written with.
    RetryStored,
    /// The offset of a refused CWRITER write has Retry in it.
    RetryReported,
    /// The offset of a refused command has Stalled in it.
    StalledReported,
    FiveStalls,
    SixDoesNotStall,
    EightDoesNotStall,
    NineDoesNotStall,
    /// 20 to 27 do not.
    CheckDoesNotStall,
    /// An enabling CTLR write tries again, as in base.
    ControlRetries,
    /// So does a CWRITER write without Retry.
    WriterRetries,
    /// Bit 0 of what is written to the high half of CWRITER is Retry.
    HighHalfRetries,
    RefusedRetryClears,
    IgnoredBaseClears,
    RefusedBaseClears,
    StoredBaseKeeps,
    DisabledRetryKeeps,
    /// Retry runs nothing: what waits goes on with the next write.
    RetryOnlyClears,
    /// Where Retry gives a 5, the unit stays stalled.
    RetryWithFiveKeeps,
    /// A stalled unit gives a 5 when more wait than the budget.
    StalledAnswersFive,
    /// Stalled is shown at 8 bytes of CREADR only.
    LowHalfHides,
    HighHalfShows,
    ConfigurationKeeps,
    /// A base unit takes bit 0 off CWRITER.
    BaseTakesRetry,
    /// A base unit shows in CREADR that a command stopped its last run.
    BaseShowsStalled,
}

/// Every fault, in order.
pub const FAULTS: [Fault; 24] = [
    Fault::RetryStored,
    Fault::RetryReported,
    Fault::StalledReported,
    Fault::FiveStalls,
    Fault::SixDoesNotStall,
    Fault::EightDoesNotStall,
    Fault::NineDoesNotStall,
    Fault::CheckDoesNotStall,
    Fault::ControlRetries,
    Fault::WriterRetries,
    Fault::HighHalfRetries,
    Fault::RefusedRetryClears,
    Fault::IgnoredBaseClears,
    Fault::RefusedBaseClears,
    Fault::StoredBaseKeeps,
    Fault::DisabledRetryKeeps,
    Fault::RetryOnlyClears,
    Fault::RetryWithFiveKeeps,
    Fault::StalledAnswersFive,
    Fault::LowHalfHides,
    Fault::HighHalfShows,
    Fault::ConfigurationKeeps,
    Fault::BaseTakesRetry,
    Fault::BaseShowsStalled,
];

impl Fault {
    pub fn of_base(self) -> bool {
        matches!(self, Self::BaseTakesRetry | Self::BaseShowsStalled)
    }
}
