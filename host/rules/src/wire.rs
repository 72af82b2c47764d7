//! Bytes: "All numbers are little-endian."

/// The header's bytes: every answer has them.
pub const HEADER: usize = 4;
pub const JACK: usize = 24;
pub const PCM: usize = 32;
pub const MAP: usize = 24;
/// The sizes of a table's record: jacks, streams, maps.
pub const SIZES: [usize; 3] = [JACK, PCM, MAP];
/// Where a PCM info has its direction, and the two that have a name.
pub const DIRECTION: usize = 24;
pub const OUTPUT: u8 = 0;
pub const INPUT: u8 = 1;
/// The codes of the three queries.
pub const QUERIES: [u32; 3] = [1, 0x0100, 0x0200];
pub const REMAP: u32 = 2;
pub const SET_PARAMS: u32 = 0x0101;
pub const PREPARE: u32 = 0x0102;
pub const RELEASE: u32 = 0x0103;
pub const START: u32 = 0x0104;
pub const STOP: u32 = 0x0105;
pub const STATUS_OK: u32 = 0x8000;
pub const STATUS_BAD: u32 = 0x8001;
pub const STATUS_NOT_SUPPORTED: u32 = 0x8002;
pub const STATUS_IO_ERROR: u32 = 0x8003;

pub fn u16_at(bytes: &[u8], at: usize) -> u16 {
    u16::from_le_bytes(bytes[at..at + 2].try_into().unwrap())
}

pub fn u32_at(bytes: &[u8], at: usize) -> u32 {
    u32::from_le_bytes(bytes[at..at + 4].try_into().unwrap())
}

pub fn u64_at(bytes: &[u8], at: usize) -> u64 {
    u64::from_le_bytes(bytes[at..at + 8].try_into().unwrap())
}

/// Words, one after the other.
pub fn words(words: &[u32]) -> Vec<u8> {
    words.iter().flat_map(|w| w.to_le_bytes()).collect()
}

/// A query of a whole table.
pub fn query(table: usize, count: u32) -> Vec<u8> {
    words(&[QUERIES[table], 0, count, SIZES[table] as u32])
}

/// What an ok answer to a table's query takes: 4 + count × size, computed wide.
pub fn answer_length(table: usize, count: u32) -> u64 {
    HEADER as u64 + count as u64 * SIZES[table] as u64
}

/// A whole table is within a page.
pub fn fits(table: usize, count: u32) -> bool {
    answer_length(table, count) <= crate::PAGE as u64
}
