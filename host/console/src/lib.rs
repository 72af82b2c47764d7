//! A console with no operating system, as a library: what a guest in QEMU needs to speak through a VirtIO sound device. docs/CONSOLE.md tells how to take it as
//! the start of one's own.
#![no_std]
#![deny(clippy::undocumented_unsafe_blocks)]
#![deny(clippy::unwrap_used, clippy::expect_used, clippy::panic, clippy::indexing_slicing)]

pub mod device;
pub mod files;
pub mod memory;
pub mod mmio;
mod port;
pub mod record;
pub mod script;
pub mod serial;
pub mod speak;
pub mod stack;
pub mod timer;
pub mod told;

use core::arch::global_asm;
use core::fmt::Display;
use core::panic::PanicInfo;
use serial::{End, end};

global_asm!(include_str!("../boot.s"), options(att_syntax));
global_asm!(include_str!("../memory.s"), options(att_syntax));
global_asm!(include_str!("../timer.s"), options(att_syntax));

/// Ticks in which what a device has accepted comes out, before QEMU ends.
pub const LAST: u64 = 300;

#[panic_handler]
fn panicked(why: &PanicInfo) -> ! {
    say!("console: {why}");
    end(End::Trapped)
}

/// boot.s calls it with an exception, and on another stack.
#[unsafe(no_mangle)]
extern "C" fn guest_trapped(number: u64, error: u64, address: u64) -> ! {
    say!("console: exception {number}, error {error:#x}, at {address:#x}");
    end(End::Trapped)
}

/// Says why nothing can be done.
pub fn stopped(why: impl Display) -> &'static str {
    say!("console: {why}");
    "it goes no further"
}

/// Runs a guest to its end: whether all came out as expected, or why it was not run.
pub fn whole(run: impl FnOnce() -> Result<bool, &'static str>) -> ! {
    stack::paint();
    end(match run() {
        Ok(true) => End::AsExpected,
        Ok(false) => End::NotAsExpected,
        Err(why) => {
            say!("console: {why}");
            End::NotRun
        }
    })
}
