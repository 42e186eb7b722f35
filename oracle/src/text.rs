//! Traces as text, for people.
//!
//! One record a line; `#` starts a comment; numbers are decimal or `0x..`.
//!
//! ```text
//! cf limit=65535 budget=64 frame=65536 processors=0,1    (or processors=none)
//! cf limit=65535 budget=64 frame=65536 profile=strict processors=0,1
//!                                 (base where it is left out, or a number)
//! gm 0x40000000                   the lines below it are the window's bytes:
//!   mapd device=5 bits=4          a command by its name and fields
//!   words 0x5 0 0 0               a command by its four words
//!   bytes 00ff                    bytes, in hexadecimal
//!   repeat 127 sync               any line of a window, so many times
//! rd cbaser+4 4                   register (name, name+n or number), width
//! wr cwriter 8 128                register, width, value
//! wr cwriter retry 8 128          the same with Retry, bit 0 of CWRITER: 129 is written
//! tr 5 9                          device, event
//! raw 5858                        bytes outside any record
//! ```

mod assemble;
mod commands;
mod list;
mod numbers;
mod registers;

pub use assemble::{Fault, assemble};
pub use list::{list, show};
pub use registers::{REGISTERS, Register};
