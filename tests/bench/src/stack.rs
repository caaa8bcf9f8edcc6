//! The bytes of stack that a call touches, on x86-64.

use std::arch::asm;
use std::hint::black_box;
use std::thread;

/// The stack of the thread that makes the call.
const STACK: usize = 4 << 20;

/// The bytes painted below the caller's frame; well under the stack.
const PAINTED: usize = 2 << 20;

/// What a function may use below its stack pointer without moving it.
const RED_ZONE: usize = 128;

const PAINT: u8 = 0xA7;

/// Makes the call on a thread of its own; answers the bytes from the caller's frame down to the
/// lowest byte that is no longer as it was painted.
pub fn touched(call: &(dyn Fn() + Sync)) -> usize {
    thread::scope(|scope| {
        thread::Builder::new()
            .stack_size(STACK)
            .spawn_scoped(scope, || touched_here(call))
            .expect("a thread")
            .join()
            .expect("the call returns")
    })
}

#[inline(never)]
fn touched_here(call: &(dyn Fn() + Sync)) -> usize {
    let top: usize;
    // SAFETY: only the stack pointer is read.
    unsafe { asm!("mov {}, rsp", out(reg) top, options(nomem, nostack, preserves_flags)) };
    let bottom = top - PAINTED;
    // SAFETY: the bytes from `bottom` to the red zone are this thread's stack, and no frame is on
    // them, for no function is called here.
    unsafe {
        asm!(
            "rep stosb",
            inout("rdi") bottom => _,
            inout("rcx") PAINTED - RED_ZONE => _,
            in("al") PAINT,
            options(nostack, preserves_flags)
        );
    }
    black_box(call)();
    let after: usize;
    // SAFETY: the same bytes are read, up to the first that differs.
    unsafe {
        asm!(
            "repe scasb",
            inout("rdi") bottom => after,
            inout("rcx") PAINTED - RED_ZONE => _,
            in("al") PAINT,
            options(nostack, readonly)
        );
    }
    let lowest = after - 1;
    assert!(lowest > bottom, "the call used all that was painted");
    top - lowest
}
