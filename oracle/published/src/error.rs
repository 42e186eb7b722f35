//! The errors that the published files make, with the fields they fill in.

use crate::AccessWidth;

pub type VgicResult<T = ()> = Result<T, VgicError>;

#[derive(Clone, Debug, Eq, PartialEq)]
pub enum VgicError {
    InvalidAccess {
        region: RegisterRegion,
        operation: &'static str,
        offset: u64,
        width: AccessWidth,
        detail: String,
    },
    InvalidConfig {
        detail: String,
    },
    InvalidItsCommand {
        opcode: u8,
        offset: u64,
        detail: String,
    },
    ItsCommandBudgetExceeded {
        budget: usize,
        offset: u64,
    },
    GuestMemory {
        operation: &'static str,
        address: u64,
        length: usize,
        detail: String,
    },
    ResourceNotFound {
        resource: String,
        operation: &'static str,
    },
    Unsupported {
        operation: &'static str,
        detail: String,
    },
}

#[derive(Clone, Copy, Debug, Eq, PartialEq)]
pub enum RegisterRegion {
    Its,
}
