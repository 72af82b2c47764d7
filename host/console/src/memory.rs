//! The memory behind the program, given out once and never taken back: what a device was lent stays where it is.
use core::mem::MaybeUninit;
use core::sync::atomic::{AtomicBool, Ordering};

unsafe extern "C" {
    /// console.ld: behind all that is loaded.
    static guest_end: u8;
}

/// boot.s maps the first 4 GiB; from here on QEMU's microvm may have no memory.
const MOST: usize = 0x8000_0000;
const ALIGNED: usize = 4096;

pub struct Arena {
    next: usize,
    end: usize,
}

impl Arena {
    /// The memory of a machine that has so many bytes. There is one arena in a run.
    pub fn new(size: u64) -> Option<Self> {
        static TAKEN: AtomicBool = AtomicBool::new(false);
        let end = usize::try_from(size).unwrap_or(MOST).min(MOST);
        let next = (&raw const guest_end).addr();
        (!TAKEN.swap(true, Ordering::Relaxed)).then_some(Self { next, end })
    }

    /// Room at a page's beginning.
    fn room(&mut self, length: usize) -> Option<usize> {
        let at = self.next.checked_next_multiple_of(ALIGNED)?;
        let next = at.checked_add(length)?;
        (next <= self.end).then(|| {
            self.next = next;
            at
        })
    }

    /// So many bytes, whatever they hold.
    pub fn bytes(&mut self, length: usize) -> Option<&'static mut [u8]> {
        let at = self.room(length)?;
        // SAFETY: memory that is there and mapped, behind the program, given out once; any bytes are bytes.
        Some(unsafe { core::slice::from_raw_parts_mut(at as *mut u8, length) })
    }

    /// A place for a value that is made there.
    pub fn place<T>(&mut self) -> Option<&'static mut MaybeUninit<T>> {
        const { assert!(align_of::<T>() <= ALIGNED) };
        let place = self.room(size_of::<T>())? as *mut MaybeUninit<T>;
        // SAFETY: as above, and aligned; nothing is said of what it holds.
        Some(unsafe { &mut *place })
    }

    /// A place for a value.
    pub fn put<T>(&mut self, value: T) -> Option<&'static mut T> {
        self.place().map(|place| place.write(value))
    }
}
