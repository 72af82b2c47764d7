//! I/O ports: those that the console uses, and no others.
use core::arch::asm;

/// A port of a device that touches no memory of the program when it is read or written.
#[derive(Clone, Copy)]
pub struct Port(u16);

/// The serial line (16550): what is sent, and whether there is room.
pub const SERIAL_DATA: Port = Port(0x3f8);
pub const SERIAL_STATUS: Port = Port(0x3fd);
/// `isa-debug-exit`: ends QEMU.
pub const EXIT: Port = Port(0xf4);
/// fw_cfg: which file, and its bytes one by one.
pub const FILE_SELECT: Port = Port(0x510);
pub const FILE_DATA: Port = Port(0x511);

impl Port {
    pub fn write8(self, value: u8) {
        // SAFETY: no memory is touched: the ports above are all that there are.
        unsafe { asm!("out dx, al", in("dx") self.0, in("al") value, options(nomem, nostack, preserves_flags)) }
    }

    pub fn write16(self, value: u16) {
        // SAFETY: as above.
        unsafe { asm!("out dx, ax", in("dx") self.0, in("ax") value, options(nomem, nostack, preserves_flags)) }
    }

    pub fn read8(self) -> u8 {
        let value;
        // SAFETY: as above.
        unsafe { asm!("in al, dx", in("dx") self.0, out("al") value, options(nomem, nostack, preserves_flags)) }
        value
    }
}
