//! The names that the published files take from the crate's register module.

use crate::constants;

pub(crate) use constants::{
    GITS_BASER, GITS_BASER_COUNT, GITS_CBASER, GITS_CREADR, GITS_CTLR, GITS_CWRITER, GITS_IIDR,
    GITS_TYPER,
};

pub(crate) enum GicComponent {
    Its,
}

/// The identification registers are left out of the port (01, refusal 3), so
/// no offset is one here. At those offsets the Rust is then left with its tests
/// of the frame and of alignment, which is what 01 puts before refusal 3.
pub(crate) fn component_id(_offset: u64, component: GicComponent) -> Option<u64> {
    match component {
        GicComponent::Its => None,
    }
}
