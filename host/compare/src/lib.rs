//! The Rust driver, the port and the rules, run side by side on the same cases.
pub mod captures;
pub mod case;
pub mod driver;
pub mod entries;
mod ffi;
pub mod guarded;
pub mod host;
pub mod indirect;
pub mod judge;
pub mod outside;
pub mod pending;
pub mod plain;
pub mod port;
pub mod random;
pub mod raw;
pub mod record;
pub mod run;
pub mod rust;
pub mod short;
pub mod shown;
pub mod stages;
pub mod text;
pub mod traces;
pub mod versions;
pub mod waves;

// it links the port's archive
use snd as _;
