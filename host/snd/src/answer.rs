//! What a call says: document 01's table, and document 02's.
use crate::status::{Cause, Status};
use core::fmt;

/// The table stands here once; both enums, their numbers and their names are made from it. A row with a cause carries it.
macro_rules! table {
    ($($(#[$doc:meta])* $name:ident $(($cause:ident: $of:ty))? = $number:literal,)*) => {
        /// What a call says, by document 01's names and numbers, and document 02's.
        ///
        /// ```
        /// use snd::{Answer, Refusal, Status};
        /// assert_eq!(Answer::from(Refusal::Busy), Answer::Busy);
        /// assert_eq!(Answer::Busy.to_string(), "8 Busy");
        /// let said = Answer::IoError(Some(Status::NotSupported));
        /// assert_eq!(said.to_string(), "2 IoError: the device said 0x8002, not supported");
        /// assert_eq!(Answer::IoError(None).to_string(), "2 IoError: no status caused it");
        /// ```
        #[derive(Clone, Copy, PartialEq, Eq, Debug, Hash)]
        #[non_exhaustive]
        pub enum Answer {
            /// Done.
            Ok,
            $($(#[$doc])* $name $(($of))?,)*
            /// No number of the table: the archive linked is not the one that this crate is for. The proved library never says it.
            Unknown,
        }

        /// Every answer but Ok.
        ///
        /// ```
        /// use snd::{Refusal, Status};
        /// assert_eq!(Refusal::of(9), Refusal::OutOfTurns);
        /// assert_eq!(Refusal::OutOfTurns.number(), 9);
        /// assert_eq!(Refusal::OutOfTurns.name(), "OutOfTurns");
        ///
        /// // by the number alone, or by what the device said
        /// let refusal = Refusal::of(0x8001_0000_0002);
        /// assert!(matches!(refusal, Refusal::IoError(_)));
        /// assert_eq!(refusal, Refusal::IoError(Some(Status::BadMessage)));
        /// assert_eq!(refusal.number(), 2);
        /// ```
        #[derive(Clone, Copy, PartialEq, Eq, Debug, Hash)]
        #[non_exhaustive]
        pub enum Refusal {
            $($(#[$doc])* $name $(($of))?,)*
            /// No number of the table: the archive linked is not the one that this crate is for. The proved library never says it.
            Unknown,
        }

        impl Refusal {
            /// The refusal that an entry answered: the number in the low half, the cause of 2 and 3 in the high half.
            #[must_use]
            pub const fn of(answer: u64) -> Self {
                match answer as u32 {
                    $($number => {
                        $(let $cause: $of = Status::of((answer >> 32) as u32);)?
                        Self::$name $(($cause))?
                    })*
                    _ => Self::Unknown,
                }
            }

            const fn answer(self) -> Answer {
                match self {
                    $(Self::$name $(($cause))? => Answer::$name $(($cause))?,)*
                    Self::Unknown => Answer::Unknown,
                }
            }
        }

        impl Answer {
            /// Its number in the documents.
            #[must_use]
            pub const fn number(self) -> u32 {
                match self {
                    Self::Ok => 0,
                    $(Self::$name { .. } => $number,)*
                    Self::Unknown => u32::MAX,
                }
            }

            /// Its name in the documents.
            #[must_use]
            pub const fn name(self) -> &'static str {
                match self {
                    Self::Ok => "Ok",
                    $(Self::$name { .. } => stringify!($name),)*
                    Self::Unknown => "Unknown",
                }
            }
        }
    };
}

table! {
    /// A bad id, number or period rule; a payload that is not one period; a feed with no exchange open; a turn with no transfer running; a drain turn while one runs; a
    /// store that is inconsistent; a mode that is none.
    InvalidParam = 1,
    /// The device's status was not ok, which is the cause; or, with none, the stream has no parameters, or an event's code is unknown.
    IoError(cause: Cause) = 2,
    /// The device refused to remap the jack, and its status is the cause; or, with none, the jack cannot be remapped.
    Unsupported(cause: Cause) = 3,
    /// The jack table is empty after its query failed.
    NoInfo = 4,
    /// More records than a page holds.
    TooMany = 5,
    /// A completion that does not name the oldest slot in flight; of submissions that do not wait, a token that is not pending, or was
    /// completed already.
    WrongToken = 6,
    /// The queue reported failure of a control request.
    QueueFailed = 7,
    /// An exchange is open, a transfer runs, or a slot is in flight; of the start of a transfer also that a token is pending.
    Busy = 8,
    /// The turn budget is used up.
    OutOfTurns = 9,
    /// A lent slice has a wrong length, or a device is said to have written more than a page; a place that is shorter than a period and 4.
    BadLength = 10,
    /// In strict mode ([`crate::Sound::feed_written`]): the device wrote fewer bytes than its answer needs.
    Short = 11,
    /// Under the guard ([`crate::Sound::new_guarded`]): the stream's last ok command does not permit this. A stream is started after it was
    /// prepared, prepared or set after it was released, and plays while it is prepared or started. Nothing was sent.
    BadState = 12,
    /// No RIFF WAVE file: its tags, the order of its chunks or a size is at fault ([`crate::wav::read`]).
    NotWave = 13,
    /// A WAVE file's format, rate, channels or block size is not taken; to write one, the frames too ([`crate::wav`]).
    BadSound = 14,
    /// Every place for submissions that do not wait is taken ([`crate::Sound::pcm_xfer_nb`]): finish one first.
    Full = 15,
    /// A submission that is to be finished, and whose completion was not seen yet ([`crate::Sound::pcm_xfer_ok`]).
    NotYet = 16,
    /// A capture's completion whose written length is under 8, the bytes of a status, or above a period and 8 ([`crate::Capture`]).
    BadCapture = 17,
    /// No trace: it is empty, or a field of it has an unknown tag, a wrong length or is cut ([`crate::trace`]).
    BadTrace = 18,
    /// A trace whose fields are whole, and which no run of the turns writes ([`crate::trace::judge`]).
    NotARun = 19,
    /// Two traces have more differences than the list has room for ([`crate::trace::compare`]).
    ListFull = 20,
}

impl Answer {
    /// Of 2 and 3 the status that caused it, or none; no other answer has a cause.
    #[must_use]
    pub const fn cause(self) -> Option<Cause> {
        match self {
            Self::IoError(cause) | Self::Unsupported(cause) => Some(cause),
            _ => None,
        }
    }
}

impl Refusal {
    /// Its number in the documents.
    #[must_use]
    pub const fn number(self) -> u32 {
        self.answer().number()
    }

    /// Its name in the documents.
    #[must_use]
    pub const fn name(self) -> &'static str {
        self.answer().name()
    }

    /// Of 2 and 3 the status that caused it, or none; no other refusal has a cause.
    #[must_use]
    pub const fn cause(self) -> Option<Cause> {
        self.answer().cause()
    }
}

impl From<Refusal> for Answer {
    fn from(refusal: Refusal) -> Self {
        refusal.answer()
    }
}

/// The number, the name and, of 2 and 3, what the device said.
impl fmt::Display for Answer {
    fn fmt(&self, f: &mut fmt::Formatter<'_>) -> fmt::Result {
        write!(f, "{} {}", self.number(), self.name())?;
        match self.cause() {
            None => Ok(()),
            Some(None) => f.write_str(": no status caused it"),
            Some(Some(status)) => write!(f, ": the device said {status}"),
        }
    }
}

impl fmt::Display for Refusal {
    fn fmt(&self, f: &mut fmt::Formatter<'_>) -> fmt::Result {
        self.answer().fmt(f)
    }
}

impl core::error::Error for Refusal {}

/// What an entry's answer says. Its low half is the number; the high half has the cause of 2 and 3.
#[derive(Clone, Copy, PartialEq, Eq, Debug)]
pub(crate) enum Said {
    /// 0.
    Ok,
    /// 256 + n: a request of n bytes is to be sent.
    Send(usize),
    /// 512: the transfer runs.
    Going,
    /// 513: the event says nothing.
    Nothing,
    Refused(Refusal),
}

impl Said {
    pub(crate) const fn of(answer: u64) -> Self {
        match answer as u32 {
            0 => Self::Ok,
            number @ 256..=511 => Self::Send(number.wrapping_sub(256) as usize),
            512 => Self::Going,
            513 => Self::Nothing,
            _ => Self::Refused(Refusal::of(answer)),
        }
    }

    /// For entries that answer Ok or a refusal, and nothing else.
    pub(crate) const fn done(answer: u64) -> Result<(), Refusal> {
        match Self::of(answer) {
            Self::Ok => Ok(()),
            Self::Refused(refusal) => Err(refusal),
            Self::Send(_) | Self::Going | Self::Nothing => Err(Refusal::Unknown),
        }
    }
}

#[cfg(test)]
mod tests {
    use super::{Refusal, Said};
    use crate::Status;

    #[test]
    fn the_number_stands_in_the_low_half() {
        assert_eq!(Said::of(256 + 24), Said::Send(24));
        assert_eq!(
            (Said::of(0), Said::of(512), Said::of(513)),
            (Said::Ok, Said::Going, Said::Nothing)
        );
    }

    #[test]
    fn the_cause_stands_in_the_high_half_of_2_and_3() {
        let causes = [
            (0x8000, None),
            (0x8001, Some(Status::BadMessage)),
            (0x8002, Some(Status::NotSupported)),
            (0x8003, Some(Status::IoError)),
            // a page of zeros that no device wrote
            (0, Some(Status::Other(0))),
            (u32::MAX, Some(Status::Other(u32::MAX))),
        ];
        for (word, cause) in causes {
            let high = u64::from(word) << 32;
            assert_eq!(Said::of(high | 2), Said::Refused(Refusal::IoError(cause)), "{word:#x}");
            assert_eq!(Said::done(high | 3), Err(Refusal::Unsupported(cause)), "{word:#x}");
        }
    }

    #[test]
    fn a_number_outside_the_table_is_unknown() {
        for number in [21, 255, 514, u64::MAX] {
            assert_eq!(Said::of(number), Said::Refused(Refusal::Unknown));
        }
        assert_eq!(Said::done(512), Err(Refusal::Unknown));
    }
}
