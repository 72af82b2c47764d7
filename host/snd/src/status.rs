//! What a device says where it refuses.
use core::fmt;

/// A status of the device that is not ok: one of the standard's three, or a number that it does not name.
///
/// ```
/// use snd::Status;
/// assert_eq!(Status::of(0x8002), Some(Status::NotSupported));
/// assert_eq!(Status::NotSupported.to_string(), "0x8002, not supported");
/// assert_eq!(Status::Other(0x1234).to_string(), "0x00001234, no status that the standard names");
/// // ok refuses nothing; a page of zeros, which no device wrote, is no ok
/// assert_eq!((Status::of(0x8000), Status::of(0)), (None, Some(Status::Other(0))));
/// ```
#[derive(Clone, Copy, PartialEq, Eq, Debug, Hash)]
pub enum Status {
    /// 0x8001: the request is malformed, or one of its numbers is not valid.
    BadMessage,
    /// 0x8002: the device cannot do what is asked.
    NotSupported,
    /// 0x8003: it failed to.
    IoError,
    /// Any other number, but 0x8000.
    Other(u32),
}

/// The status that caused a refusal, or none where no status did: the stream has no parameters, an event has an unknown code, a jack
/// cannot be remapped.
pub type Cause = Option<Status>;

impl Status {
    /// What the device's word says; none for ok, which causes no refusal.
    #[must_use]
    pub const fn of(word: u32) -> Cause {
        match word {
            crate::STATUS_OK => None,
            0x8001 => Some(Self::BadMessage),
            0x8002 => Some(Self::NotSupported),
            0x8003 => Some(Self::IoError),
            word => Some(Self::Other(word)),
        }
    }

    /// The device's own word.
    #[must_use]
    pub const fn word(self) -> u32 {
        match self {
            Self::BadMessage => 0x8001,
            Self::NotSupported => 0x8002,
            Self::IoError => 0x8003,
            Self::Other(word) => word,
        }
    }

    /// What it means, in words.
    #[must_use]
    pub const fn words(self) -> &'static str {
        match self {
            Self::BadMessage => "bad message",
            Self::NotSupported => "not supported",
            Self::IoError => "I/O error",
            Self::Other(_) => "no status that the standard names",
        }
    }
}

/// The word, and what it means. A number that has no name is shown with all its digits.
impl fmt::Display for Status {
    fn fmt(&self, f: &mut fmt::Formatter<'_>) -> fmt::Result {
        let (word, words) = (self.word(), self.words());
        match self {
            Self::Other(_) => write!(f, "{word:#010x}, {words}"),
            _ => write!(f, "{word:#06x}, {words}"),
        }
    }
}

#[cfg(test)]
mod tests {
    use super::Status;

    #[test]
    fn a_word_and_its_status_determine_each_other() {
        let near = 0x7ff0..0x8010;
        for word in near.chain([0, 1, 0x1234, 0x10_8001, 0x8001_0000, u32::MAX]) {
            match Status::of(word) {
                None => assert_eq!(word, 0x8000),
                Some(status) => assert_eq!(status.word(), word),
            }
        }
    }

    #[test]
    fn each_is_shown_by_its_number_and_in_words() {
        extern crate std;
        use std::string::ToString;
        let shown = [
            (0x8001, "0x8001, bad message"),
            (0x8002, "0x8002, not supported"),
            (0x8003, "0x8003, I/O error"),
            (0, "0x00000000, no status that the standard names"),
            (0x8004, "0x00008004, no status that the standard names"),
            (u32::MAX, "0xffffffff, no status that the standard names"),
        ];
        for (word, text) in shown {
            assert_eq!(Status::of(word).map(|status| status.to_string()).as_deref(), Some(text));
        }
    }
}
