//! The local APIC's timer, and all waiting. Its interrupt runs on the stack that it meets, so that a red zone would show.
use core::arch::asm;
use core::ptr::{read_volatile, write_volatile};
use core::time::Duration;

unsafe extern "C" {
    /// boot.s: who takes an interrupt, on the stack that it meets (0) or on that of the exceptions (1).
    fn gate(number: u32, entry: unsafe extern "C" fn(), stack: u32);
    fn timer_entry();
    fn spurious_entry();
    static timer_ticks: u64;
    static timer_inside: u64;
}

/// QEMU's local APIC counts nanoseconds.
const TICK_COUNT: u32 = 1_000_000;
/// Between two ticks.
pub const TICK: Duration = Duration::from_nanos(TICK_COUNT as u64);
/// Ticks of a second.
pub const SECOND: u64 = 1_000;

const TIMER: u32 = 32;
const SPURIOUS: u32 = 255;
/// Looks for the first tick, before there is anything to wait by.
const LOOKS: u32 = 1_000_000_000;
/// Ticks over which the processor's counter is measured.
const MEASURED: u64 = 20;

const APIC: usize = 0xfee0_0000;
const APIC_SPURIOUS: usize = 0x0f0;
const APIC_TIMER: usize = 0x320;
const APIC_COUNT: usize = 0x380;
const APIC_DIVIDE: usize = 0x3e0;
const APIC_ON: u32 = 0x100;
const PERIODIC: u32 = 1 << 17;
const BY_ONE: u32 = 0xb;

fn apic(register: usize, value: u32) {
    // SAFETY: the APIC's page is mapped by boot.s and is no memory of the program; none of the registers above starts an access to memory.
    unsafe { write_volatile((APIC + register) as *mut u32, value) }
}

/// The timer, which runs: there is none before its first tick was seen.
#[derive(Clone, Copy)]
pub struct Timer {
    /// What the processor counts in `MEASURED` ticks.
    counted: u64,
}

impl Timer {
    /// Starts it, and interrupts with it. `None`: no tick came.
    pub fn start() -> Option<Self> {
        // SAFETY: both entries leave every register as it was and return by iretq. No interrupt is on yet, so the table is not in use.
        unsafe {
            gate(TIMER, timer_entry, 0);
            gate(SPURIOUS, spurious_entry, 0);
        }
        apic(APIC_SPURIOUS, APIC_ON | SPURIOUS);
        apic(APIC_DIVIDE, BY_ONE);
        apic(APIC_TIMER, PERIODIC | TIMER);
        apic(APIC_COUNT, TICK_COUNT);
        // SAFETY: the two interrupts that can come have their entries.
        unsafe { asm!("sti", options(nostack)) }
        (0..LOOKS).find(|_look| ticks() > 0)?;
        let timer = Self { counted: 0 };
        timer.wait();
        let began = count();
        timer.sleep(MEASURED);
        Some(Self {
            counted: (count() - began).max(1),
        })
    }

    /// Sleeps until the next tick.
    pub fn wait(self) {
        // SAFETY: the timer ticks, so that the halt ends. What its interrupt writes is read after it, so memory is not taken as unchanged.
        unsafe { asm!("hlt", options(nostack)) }
    }

    /// Sleeps for so many ticks.
    pub fn sleep(self, ticks: u64) {
        for _ in 0..ticks {
            self.wait();
        }
    }

    /// Tries again after each tick, at most so many times.
    pub fn within<T>(self, ticks: u64, mut attempt: impl FnMut() -> Option<T>) -> Option<T> {
        for _ in 0..ticks {
            if let Some(done) = attempt() {
                return Some(done);
            }
            self.wait();
        }
        attempt()
    }

    /// How long the processor took to count so far.
    pub fn time(self, counted: u64) -> Duration {
        let nanoseconds =
            u128::from(counted) * u128::from(MEASURED) * TICK.as_nanos() / u128::from(self.counted.max(1));
        Duration::from_nanos(u64::try_from(nanoseconds).unwrap_or(u64::MAX))
    }
}

/// Interrupts of the timer so far.
pub fn ticks() -> u64 {
    // SAFETY: written by the interrupt alone, and an aligned word is read whole.
    unsafe { read_volatile(&raw const timer_ticks) }
}

/// Those of them that met the driver's code.
pub fn inside() -> u64 {
    // SAFETY: as above.
    unsafe { read_volatile(&raw const timer_inside) }
}

/// The processor's counter.
pub fn count() -> u64 {
    // SAFETY: every x86-64 processor has it.
    unsafe { core::arch::x86_64::_rdtsc() }
}
