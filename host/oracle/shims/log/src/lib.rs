//! Stand-in for `log` 0.4. Assumed: the arguments are evaluated only where the level is enabled, and by default it is not, as in a
//! program that installs no logger. Enabled, the text is made and dropped.
#![no_std]
pub extern crate alloc;

use core::sync::atomic::{AtomicBool, Ordering};

pub static ENABLED: AtomicBool = AtomicBool::new(false);

pub fn enabled() -> bool {
    ENABLED.load(Ordering::Relaxed)
}

#[macro_export]
macro_rules! info { ($($a:tt)*) => { if $crate::enabled() { drop($crate::alloc::format!($($a)*)); } } }
#[macro_export]
macro_rules! warn { ($($a:tt)*) => { if $crate::enabled() { drop($crate::alloc::format!($($a)*)); } } }
#[macro_export]
macro_rules! error { ($($a:tt)*) => { if $crate::enabled() { drop($crate::alloc::format!($($a)*)); } } }
