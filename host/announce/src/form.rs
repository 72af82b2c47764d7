//! What frames are.
use snd::{Format, Params, Rate};

#[derive(Clone, Copy, PartialEq, Eq, Debug)]
pub struct Form {
    pub channels: u8,
    pub format: Format,
    pub rate: Rate,
}

impl Form {
    /// What a stream is set to for such frames.
    pub const fn params(self, buffer: u32, period: u32) -> Params {
        Params {
            buffer,
            period,
            features: 0,
            channels: self.channels,
            format: self.format,
            rate: self.rate,
        }
    }

    /// The format's name in the documents.
    pub const fn format_name(self) -> &'static str {
        page::sample(self.format).0
    }

    /// Bytes of a frame.
    pub fn frame(self) -> usize {
        page::frame(&self.params(0, 0))
    }

    /// Where a byte of the frames is heard, in seconds.
    pub fn second(self, byte: usize) -> f64 {
        page::second(&self.params(0, 0), byte)
    }

    /// As a line of the page has it.
    pub fn shown(self) -> String {
        let ending = if self.channels == 1 { "" } else { "s" };
        let (name, hz) = (self.format_name(), self.rate.hz());
        format!("{} channel{ending}, {name}, {hz} Hz", self.channels)
    }
}
