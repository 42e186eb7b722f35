//! One call, over and over: for a program that counts instructions.

use its::{DeviceId, EventId};

use crate::both::{Both, pair};
use crate::clock::seen;

/// What can be repeated, on a unit with 64 pairs.
pub const CALLS: [&str; 5] = [
    "refused-read",
    "read",
    "translate-first",
    "translate-last",
    "translate-none",
];

/// Makes the call of this name so many times.
pub fn repeat(name: &str, count: usize) -> bool {
    let both = Both::new(64, &[its::command::sync(its::Processor(0))]);
    let (device, event) = pair(63);
    let call: Box<dyn Fn()> = match name {
        // Not aligned: refused as soon as the unit was found sound.
        "refused-read" => Box::new(|| seen(both.its.read(0x91, 8))),
        "read" => Box::new(|| seen(both.its.read(0x90, 8))),
        "translate-first" => Box::new(|| seen(both.its.translate(DeviceId(1), EventId(0)))),
        "translate-last" => Box::new(|| seen(both.its.translate(device, event))),
        "translate-none" => Box::new(|| seen(both.its.translate(device, EventId(250)))),
        _ => return false,
    };
    for _ in 0..count {
        call();
    }
    true
}
