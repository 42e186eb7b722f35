//! The published ITS behind the traces of document 01.
//!
//! `answers::answers` gives the Rust's answers to a trace; the other modules
//! make traces, write them as text and count what they reach. Without the
//! feature `published` the Rust is left out, and what asks it.

#[cfg(feature = "published")]
pub mod again;
#[cfg(feature = "published")]
pub mod answers;
pub mod command;
#[cfg(feature = "published")]
pub mod compare;
pub mod convert;
#[cfg(feature = "published")]
pub mod coverage;
#[cfg(feature = "published")]
pub mod digests;
pub mod draft;
pub mod edits;
pub mod exhaustive;
#[cfg(feature = "published")]
pub mod explain;
pub mod fields;
pub mod generate;
pub mod lines;
#[cfg(feature = "published")]
pub mod reason;
pub mod record;
#[cfg(feature = "published")]
pub mod recorded;
pub mod room;
#[cfg(feature = "published")]
pub mod strict;
pub mod tables;
pub mod text;
#[cfg(feature = "published")]
pub mod unit;
#[cfg(feature = "published")]
pub mod window;
