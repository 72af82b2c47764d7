//! Document 01, read a second time: plain Rust, written from the paper (and from the decisions on what
//! it leaves open) and from nothing else. The port and the Rust driver are both held to it by `compare`.
//! Of document 02 these requests are read here too: 2026-01, feeds that carry the length the device wrote; 2026-02, the guard
//! over a stream's lifecycle; 2026-03, announcements from WAV; 2026-05, the device's status in 2 and 3;
//! 2026-06, submissions that do not wait; 2026-08, VirtIO 1.3 beside 1.2; 2026-09, microphones;
//! 2026-11, traces of transfers and their judge; 2026-12, two of them compared; 2026-13, what was heard before a failure;
//! 2026-14, indirect descriptors.
//!
//! Clarity before speed: tables are vectors, refusals are numbers.

pub mod capture;
pub mod differences;
pub mod entries;
pub mod event;
pub mod life;
pub mod model;
pub mod pending;
pub mod ring;
pub mod sound;
pub mod spoken;
pub mod status;
pub mod trace;
pub mod versions;
pub mod wave;
pub mod wire;

/// The answers' numbers.
pub const OK: u8 = 0;
pub const INVALID_PARAM: u8 = 1;
pub const IO_ERROR: u8 = 2;
pub const UNSUPPORTED: u8 = 3;
pub const NO_INFO: u8 = 4;
pub const TOO_MANY: u8 = 5;
pub const WRONG_TOKEN: u8 = 6;
pub const QUEUE_FAILED: u8 = 7;
pub const BUSY: u8 = 8;
pub const OUT_OF_TURNS: u8 = 9;
pub const BAD_LENGTH: u8 = 10;
/// Strict mode only: the device wrote fewer bytes than its answer needs.
pub const SHORT: u8 = 11;
/// Under the guard only: the stream's state does not permit it.
pub const BAD_STATE: u8 = 12;
/// Of WAVE files only: their structure, then their sound.
pub const NOT_WAVE: u8 = 13;
pub const BAD_SOUND: u8 = 14;
/// Of submissions that do not wait: no place is free; finishing one that is not marked.
pub const FULL: u8 = 15;
pub const NOT_YET: u8 = 16;
/// Of captures only: a written length under 8 or above period plus 8.
pub const BAD_CAPTURE: u8 = 17;
/// Of traces only: no tagged fields; fields that no run writes.
pub const BAD_TRACE: u8 = 18;
pub const NOT_A_RUN: u8 = 19;
/// Of the list of two traces' differences: it does not fit.
pub const LIST_FULL: u8 = 20;

/// The answer page.
pub const PAGE: usize = 4096;
/// The least room for a control message, whatever the call sends.
pub const MESSAGE: usize = 24;
/// Bytes of a state that are reserved: a store in which one is not 0 is inconsistent. The first of them has the guard in its lowest bit.
pub const RESERVED: usize = 16;
/// A page holds this many jacks, streams, channel maps.
pub const FIT: [u32; 3] = [170, 127, 170];
