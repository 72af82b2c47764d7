//! What a stream is set to.

/// Makes the formats from one table: name, number.
macro_rules! formats {
    ($($name:ident = $number:literal,)*) => {
        /// A sample format, by VirtIO's numbers.
        ///
        /// ```
        /// use snd::Format;
        /// assert_eq!(Format::from_number(5), Some(Format::S16));
        /// assert_eq!(Format::S16 as u8, 5);
        /// assert_eq!(Format::from_number(25), None);
        /// ```
        #[derive(Clone, Copy, PartialEq, Eq, Debug, Hash)]
        #[repr(u8)]
        #[allow(missing_docs)]
        pub enum Format {
            $($name = $number,)*
        }

        impl Format {
            /// Every format, by number.
            pub const ALL: &'static [Self] = &[$(Self::$name,)*];

            /// The format of a number.
            #[must_use]
            pub const fn from_number(number: u8) -> Option<Self> {
                match number {
                    $($number => Some(Self::$name),)*
                    _ => None,
                }
            }
        }
    };
}

formats! {
    ImaAdpcm = 0,
    MuLaw = 1,
    ALaw = 2,
    S8 = 3,
    U8 = 4,
    S16 = 5,
    U16 = 6,
    S18In3 = 7,
    U18In3 = 8,
    S20In3 = 9,
    U20In3 = 10,
    S24In3 = 11,
    U24In3 = 12,
    S20 = 13,
    U20 = 14,
    S24 = 15,
    U24 = 16,
    S32 = 17,
    U32 = 18,
    Float = 19,
    Float64 = 20,
    DsdU8 = 21,
    DsdU16 = 22,
    DsdU32 = 23,
    Iec958Subframe = 24,
}

/// Makes the rates from one table: name, number, Hz.
macro_rules! rates {
    ($($name:ident = $number:literal, $hz:literal;)*) => {
        /// A frame rate, by VirtIO's numbers.
        ///
        /// ```
        /// use snd::Rate;
        /// assert_eq!(Rate::from_hz(48_000), Some(Rate::Hz48000));
        /// assert_eq!((Rate::Hz48000 as u8, Rate::Hz48000.hz()), (7, 48_000));
        /// assert_eq!(Rate::from_hz(47_999), None);
        /// assert_eq!((Rate::from_number(7), Rate::from_number(14)), (Some(Rate::Hz48000), None));
        /// ```
        #[derive(Clone, Copy, PartialEq, Eq, Debug, Hash)]
        #[repr(u8)]
        #[allow(missing_docs)]
        pub enum Rate {
            $($name = $number,)*
        }

        impl Rate {
            /// Every rate, ascending.
            pub const ALL: &'static [Self] = &[$(Self::$name,)*];

            /// The rate of a number.
            #[must_use]
            pub const fn from_number(number: u8) -> Option<Self> {
                match number {
                    $($number => Some(Self::$name),)*
                    _ => None,
                }
            }

            /// Frames a second.
            #[must_use]
            pub const fn hz(self) -> u32 {
                match self {
                    $(Self::$name => $hz,)*
                }
            }

            /// The rate of so many frames a second.
            #[must_use]
            pub const fn from_hz(hz: u32) -> Option<Self> {
                match hz {
                    $($hz => Some(Self::$name),)*
                    _ => None,
                }
            }
        }
    };
}

rates! {
    Hz5512 = 0, 5512;
    Hz8000 = 1, 8000;
    Hz11025 = 2, 11025;
    Hz16000 = 3, 16000;
    Hz22050 = 4, 22050;
    Hz32000 = 5, 32000;
    Hz44100 = 6, 44100;
    Hz48000 = 7, 48000;
    Hz64000 = 8, 64000;
    Hz88200 = 9, 88200;
    Hz96000 = 10, 96000;
    Hz176400 = 11, 176400;
    Hz192000 = 12, 192000;
    Hz384000 = 13, 384000;
}

/// The parameters of a stream. The buffer must be a multiple of the period, and the period above 0.
#[derive(Clone, Copy, PartialEq, Eq, Debug)]
pub struct Params {
    /// Bytes of the device's buffer.
    pub buffer: u32,
    /// Bytes of a period: what one submission carries.
    pub period: u32,
    /// Feature bits: see [`crate::Features`].
    pub features: u32,
    /// Channels of a frame.
    pub channels: u8,
    /// Format of a sample.
    pub format: Format,
    /// Frames a second.
    pub rate: Rate,
}
