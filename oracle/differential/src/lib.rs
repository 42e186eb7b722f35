//! The C call `its_trace`, linked natively, held against the published Rust and
//! against what document 01 says of its output.

pub mod call;
pub mod damage;
pub mod damaged;
#[cfg(feature = "published")]
pub mod differ;
#[cfg(feature = "published")]
pub mod foldings;
pub mod numbers;
pub mod recorded;
pub mod rooms;
#[cfg(feature = "published")]
pub mod run;
pub mod shape;
#[cfg(feature = "published")]
pub mod shrink;
#[cfg(feature = "published")]
pub mod strict;
pub mod workers;
