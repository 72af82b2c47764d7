//! The ways to get the same work done, and what they are given.
use snd::{ChannelMap, JackInfo, PAGE_SIZE, PcmInfo, STATUS_OK};

/// A way to get the work done: each does the same, on the same inputs, with no device in between: the answers are prepared.
pub trait Way {
    /// Gives stream 0, and the input stream 1 where a way has captures, this period.
    fn set_period(&mut self, period: u32);
    /// Prepares stream 0: the call and its answer.
    fn control(&mut self);
    /// A new state of 170 jacks, 127 streams and 170 channel maps, set up, and the list of its output streams.
    fn set_up(&mut self);
    /// An announcement whose every period is completed in its own turn, as long as the budget is. Says how many turns it took.
    fn announce(&mut self, frames: &[u8]) -> u64;
    /// The same, with no look at what is offered.
    fn announce_blindly(&mut self, frames: &[u8]) -> u64;
    /// A capture of so many periods of stream 1, each of which comes back whole in its own turn. Says how many turns it took.
    fn capture(&mut self, periods: usize, period: usize) -> u64;
    /// A submission that does not wait, its completion and its finish.
    fn submit(&mut self, period: &[u8]);
    /// Reads an event.
    fn event(&mut self);
}

/// An event of 8 bytes.
pub const EVENT: [u8; 8] = [0x01, 0x11, 0, 0, 3, 0, 0, 0];
/// The places of submissions that do not wait, for the longest period here.
pub const PLACES_SIZE: usize = snd::PLACES * (4000 + 4);
/// More than every announcement here needs.
pub const BUDGET: u64 = 1 << 40;

/// What a microphone wrote of a period: the payload, and the status behind it.
pub fn captured(period: usize) -> Vec<u8> {
    let status = [STATUS_OK.to_le_bytes(), [0; 4]];
    [&vec![0x55; period][..], status.as_flattened()].concat()
}

/// The records of an output and an input stream.
pub fn streams() -> [u8; 64] {
    let mut records = [0; 64];
    let (output, input) = records.split_at_mut(32);
    output.copy_from_slice(&PcmInfo::output(1, 2).to_bytes());
    input.copy_from_slice(&PcmInfo::input(1, 2).to_bytes());
    records
}

/// The configured counts of a device with full tables.
pub const FULL: [u32; 3] = [170, 127, 170];

/// An answer page: ok, then records.
pub fn page(records: &[u8]) -> [u8; PAGE_SIZE] {
    let mut page = [0; PAGE_SIZE];
    page[..4].copy_from_slice(&STATUS_OK.to_le_bytes());
    page[4..4 + records.len()].copy_from_slice(records);
    page
}

/// The three answers of a device with full tables.
pub fn full_pages() -> [[u8; PAGE_SIZE]; 3] {
    let jack = JackInfo {
        features: JackInfo::REMAP,
        ..JackInfo::default()
    };
    let map = ChannelMap {
        channels: 2,
        ..ChannelMap::default()
    };
    [
        page(&jack.to_bytes().repeat(170)),
        page(&PcmInfo::output(1, 2).to_bytes().repeat(127)),
        page(&map.to_bytes().repeat(170)),
    ]
}
