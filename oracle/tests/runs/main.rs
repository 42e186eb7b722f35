//! The package's tests, in one program.

mod again;
mod common;
mod compare;
mod constants;
mod convert;
mod corners;
mod domain;
mod example;
mod lines;
mod linux;
mod reason;
mod recorded;
mod room;
mod stalled;
mod strict;
mod tables;
mod text;
