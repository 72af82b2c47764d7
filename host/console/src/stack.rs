//! How deep the stack went: it is painted once, and looked at in the end. There is no guard page below it.
use core::arch::asm;
use core::ptr::{read_volatile, write_volatile};

unsafe extern "C" {
    /// boot.s: the stack's bounds.
    static mut guest_stack: u8;
    static guest_stack_top: u8;
}

/// As boot.s has it.
pub const SIZE: usize = 262_144;
const PAINT: u8 = 0xa5;
/// Below the pointer, left as it is: an interrupt may come while the rest is painted.
const SPARED: usize = 4096;

/// Paints all that is not in use.
pub fn paint() {
    let pointer: usize;
    // SAFETY: reads a register.
    unsafe { asm!("mov {}, rsp", out(reg) pointer, options(nomem, nostack, preserves_flags)) }
    let bottom = &raw mut guest_stack;
    for place in 0..pointer.saturating_sub(bottom.addr() + SPARED) {
        // SAFETY: inside the stack, and far below all that is in use.
        unsafe { write_volatile(bottom.wrapping_add(place), PAINT) }
    }
}

/// The most bytes that were ever in use.
pub fn used() -> usize {
    let bottom = &raw const guest_stack;
    let size = (&raw const guest_stack_top).addr() - bottom.addr();
    // SAFETY: inside the stack; any bytes are bytes.
    let unused = (0..size).take_while(|place| unsafe { read_volatile(bottom.wrapping_add(*place)) } == PAINT);
    size - unused.count()
}
