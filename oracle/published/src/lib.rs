//! The ITS of arm_vgic 0.6.2 as published, and stubs for what it leans on.
//!
//! The modules `its` and `controller::mmio` are the published files, copied
//! unchanged by the build script. All else here is a stand-in.

extern crate alloc;

// The published files name two more crates; what they take from them stands here.
extern crate self as axdevice_base;
extern crate self as axvm_types;

mod constants;
mod controller;
mod error;
mod left_out;
mod register;
mod types;

include!(concat!(env!("OUT_DIR"), "/its_module.rs"));

pub use constants::*;
pub use controller::*;
pub use error::*;
pub use its::{GuestMemory, GuestMemoryError};
pub(crate) use its::{ItsAction, ItsState};
pub use types::*;
