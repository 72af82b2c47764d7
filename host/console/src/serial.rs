//! The serial line, and the end of the run.
use crate::port::{EXIT, SERIAL_DATA, SERIAL_STATUS};
use core::fmt;

pub struct Serial;

/// Looks at "there is room" before a byte is sent all the same: a line that hangs loses text and holds nothing up.
const LOOKS: u32 = 100_000;
const ROOM: u8 = 0x20;

impl fmt::Write for Serial {
    fn write_str(&mut self, text: &str) -> fmt::Result {
        for byte in text.bytes() {
            let _room = (0..LOOKS).any(|_look| SERIAL_STATUS.read8() & ROOM != 0);
            SERIAL_DATA.write8(byte);
        }
        Ok(())
    }
}

/// Says a line.
#[macro_export]
macro_rules! say {
    ($($text:tt)*) => {{
        // the line never refuses
        let _ = ::core::fmt::Write::write_fmt(&mut $crate::serial::Serial, format_args!("{}\n", format_args!($($text)*)));
    }};
}

/// How a run ended. QEMU's own failures have status 1, so these begin further up.
#[derive(Clone, Copy)]
#[repr(u8)]
pub enum End {
    /// Every line of the script came out as expected.
    AsExpected = 16,
    /// One did not.
    NotAsExpected = 17,
    /// The script could not be run; why was said.
    NotRun = 18,
    /// An exception or a panic.
    Trapped = 19,
}

/// Ends QEMU, with status 2 * code + 1.
pub fn end(how: End) -> ! {
    EXIT.write8(how as u8);
    loop {
        // SAFETY: stops the processor, on a machine that does not end; there is nothing more to do.
        unsafe { core::arch::asm!("cli", "hlt", options(nomem, nostack)) }
    }
}
