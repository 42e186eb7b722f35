//! How much stack a method of the crate for hosts uses, with the C call that it
//! makes: it runs on a stack of its own that was painted before, and the paint
//! that is left is counted. (The C calls alone: tools/stack.sh.)

use std::arch::asm;
use std::ffi::c_void;

use its::command::{Command, clear, discard, int, inv, invall, mapc, mapd, mapi, mapti, movi};
use its::command::{sync, unmapc, unmapd};
use its::{CollectionId, DeviceId, EventId, Its, Lpi, Processor, Settings};

use crate::both::{Both, pair};
use crate::clock::seen;

const SIZE: usize = 64 * 1024;
const PAINT: u8 = 0xa5;

type Body = unsafe extern "C" fn(*mut c_void);

/// Calls on another stack.
#[cfg(target_arch = "x86_64")]
unsafe fn on(top: *mut u8, body: Body, data: *mut c_void) {
    unsafe {
        asm!(
            "xchg rsp, r12",
            "call {body}",
            "mov rsp, r12",
            body = in(reg) body,
            inout("r12") top => _,
            in("rdi") data,
            clobber_abi("C"),
        );
    }
}

#[cfg(target_arch = "aarch64")]
unsafe fn on(top: *mut u8, body: Body, data: *mut c_void) {
    unsafe {
        asm!(
            "mov x21, sp",
            "mov sp, x20",
            "blr {body}",
            "mov sp, x21",
            body = in(reg) body,
            in("x20") top,
            out("x21") _,
            in("x0") data,
            clobber_abi("C"),
        );
    }
}

unsafe extern "C" fn call<F: FnMut()>(data: *mut c_void) {
    // The closure lives on the caller's stack through the call.
    let body = unsafe { &mut *data.cast::<F>() };
    body();
}

/// The most stack that the closure uses.
fn used<F: FnMut()>(mut body: F) -> usize {
    let mut stack = vec![PAINT; SIZE];
    let end = unsafe { stack.as_mut_ptr().add(SIZE) };
    let top = end.wrapping_sub(end as usize % 16);
    // The stack is ours, and large enough for any call by far.
    unsafe { on(top, call::<F>, (&raw mut body).cast()) };
    let untouched = stack.iter().take_while(|byte| **byte == PAINT).count();
    assert!(untouched > SIZE / 4, "the stack was too small to tell");
    SIZE - untouched
}

/// One of every kind of command, none of them refused.
fn every_kind() -> Vec<Command> {
    let (device, event) = (DeviceId(3), EventId(1));
    let (one, other) = (CollectionId(3), CollectionId(1));
    vec![
        mapd(device, 14),
        mapc(one, Processor(1)),
        mapti(device, event, Lpi(9_000), one),
        mapi(device, EventId(8_300), one),
        movi(device, event, other),
        int(device, event),
        clear(device, event),
        inv(device, event),
        invall(other),
        sync(Processor(0)),
        discard(device, event),
        unmapc(one),
        unmapd(device),
    ]
}

pub fn all() -> Vec<(&'static str, usize)> {
    let (device, event) = pair(253);
    let mut both = Both::new(254, &every_kind());
    let read = used(|| seen(both.its.read(0x08, 8)));
    let translate = used(|| seen(both.its.translate(device, event)));
    let miss = used(|| seen(both.its.translate(DeviceId(9), EventId(9))));
    both.advance(every_kind().len());
    let write = used(|| seen(both.port()));
    both.published();
    let mut fresh = Its::new();
    let sixteen: Vec<Processor> = (0..16).map(Processor).collect();
    let settings = Settings::new(65_535, 1_024, 65_536);
    let configure = used(|| seen(fresh.configure(&settings, &sixteen)));
    vec![
        ("configure", configure),
        ("read", read),
        ("translate", translate.max(miss)),
        ("write, one of every kind of command", write),
    ]
}
