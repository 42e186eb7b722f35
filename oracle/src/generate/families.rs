//! The kinds of traces, one function each.

mod budgets;
mod configurations;
mod malformed;
mod ordinary;
mod registers;
mod retries;
mod rings;
mod tables;
mod windows;

use super::random::Random;

/// A family writes one trace from the numbers it draws, for units of a profile.
pub type Family = fn(Random, u8) -> Vec<u8>;

/// Drivers that try to go on in all ways, most of them with Retry.
pub const RETRIES: Family = retries::trace;

/// In turn, seed by seed; the commonest guests stand several times.
pub const FAMILIES: [Family; 16] = [
    ordinary::trace,
    ordinary::hostile,
    registers::trace,
    windows::trace,
    ordinary::trace,
    rings::one_page,
    tables::trace,
    budgets::trace,
    ordinary::trace,
    ordinary::hostile,
    configurations::trace,
    rings::several_pages,
    registers::trace,
    malformed::trace,
    ordinary::hostile,
    windows::trace,
];
