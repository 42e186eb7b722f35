//! Every constant that the published sources use and do not define. Their
//! values are Arm's, as document 01 gives them.
//!
//! A run confirms a constant if another value would change its answers, and if
//! those answers come from elsewhere: from real guests on another
//! implementation (tests/runs/linux.rs) or from an answer printed in document 01
//! (tests/runs/example.rs, tests/runs/corners.rs).

/// Confirmed by tests/runs/linux.rs: the guests read it, and enable the unit by it.
pub const GITS_CTLR: u64 = 0x0;

/// No run confirms it: the guests' reads of IIDR were left out of the captures,
/// and 01 prints no answer with it. tests/runs/constants.rs holds it against 01.
pub const GITS_IIDR: u64 = 0x4;

/// Confirmed by tests/runs/corners.rs, P1 and P2, as far as 01's own words go: the
/// guests' reads of TYPER were left out of the captures.
pub const GITS_TYPER: u64 = 0x8;

/// Confirmed by tests/runs/linux.rs and tests/runs/example.rs: written and read back, and
/// the commands are found where it says.
pub const GITS_CBASER: u64 = 0x80;

/// Confirmed by tests/runs/linux.rs and tests/runs/example.rs: commands run by it.
pub const GITS_CWRITER: u64 = 0x88;

/// Confirmed by tests/runs/linux.rs and tests/runs/example.rs: read after each write.
pub const GITS_CREADR: u64 = 0x90;

/// Confirmed by tests/runs/linux.rs: the guests find the device and the collection
/// table here, write them and read them back.
pub const GITS_BASER: u64 = 0x100;

/// No run confirms it: the guests write 0 to eight and read 0 from the last
/// six, which a unit with two would answer alike. tests/runs/constants.rs holds it
/// against 01.
pub const GITS_BASER_COUNT: usize = 8;

/// Confirmed by tests/runs/corners.rs, P10, and from above by tests/runs/linux.rs: the
/// guests map LPI 8192.
pub const LPI_INTID_BASE: u32 = 8192;
