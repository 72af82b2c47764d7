//! VirtIO 1.2 and 1.3, the port against the rules: configurations of every length up to 20 bytes, every event code up to past the five, with versions that are
//! none, features of all kinds and results of other lengths. Every byte of the result is compared.
use crate::entries::Entries;
use crate::plain::Plain;
use crate::port::Port;
use crate::text::hex;
use rules::entries::RESULT_SIZE;
use rules::wire;

const FILL: u8 = 0x5a;
/// The longest slice that is lent.
const LONGEST: usize = 20;
/// 1.2, 1.3, and what is neither.
const VERSIONS: [u32; 11] = [0x0102, 0x0103, 0, 1, 0x0100, 0x0101, 0x0104, 0x0202, 0x0301, 0x0001_0103, u32::MAX];
/// With bit 0 and without.
const FEATURES: [u64; 9] = [0, 1, 2, 3, 6, 1 << 32, (1 << 32) | 1, u64::MAX - 1, u64::MAX];
const RESULTS: [usize; 6] = [0, 11, 16, RESULT_SIZE - 1, RESULT_SIZE, RESULT_SIZE + 7];
const FIVE: [u32; 5] = [0x1000, 0x1001, 0x1100, 0x1101, 0x1200];

/// What is asked of a slice of bytes.
#[derive(Copy, Clone, Debug)]
enum Asked {
    Config,
    Event,
}

/// The version and the features that are named.
type Mode = (u32, u64);

struct Both {
    port: Port,
    rules: Plain,
    tried: u64,
}

fn ask<E: Entries>(e: &E, asked: Asked, bytes: &[u8], (version, features): Mode, result: &mut [u8]) -> u64 {
    match asked {
        Asked::Config => e.config(bytes, version, features, result),
        Asked::Event => e.notification_in(bytes, version, features, result),
    }
}

impl Both {
    fn agree(&mut self, asked: Asked, bytes: &[u8], mode: Mode, room: usize) -> Result<(), String> {
        let (mut left, mut plain) = (vec![FILL; room], vec![FILL; room]);
        let said = ask(&self.port, asked, bytes, mode, &mut left);
        let expected = ask(&self.rules, asked, bytes, mode, &mut plain);
        self.tried += 1;
        if said == expected && left == plain {
            return Ok(());
        }
        let (version, features) = mode;
        let front = |result: &[u8]| hex(&result[..room.min(24)]);
        Err(format!(
            "{asked:?} {} of version {version:#x}, features {features:#x}, result of {room}\n  port  {said} {}\n  rules {expected} {}",
            hex(bytes),
            front(&left),
            front(&plain)
        ))
    }

    /// Some bytes in every mode, with every length of the result.
    fn everywhere(&mut self, asked: Asked, bytes: &[u8]) -> Result<(), String> {
        for version in VERSIONS {
            for features in FEATURES {
                for room in RESULTS {
                    self.agree(asked, bytes, (version, features), room)?;
                }
            }
        }
        Ok(())
    }

    fn configs(&mut self) -> Result<(), String> {
        let counted: Vec<u8> = (1..).take(LONGEST).collect();
        for bytes in [&counted[..], &[0; LONGEST], &[0xff; LONGEST]] {
            for length in 0..=LONGEST {
                self.everywhere(Asked::Config, &bytes[..length])?;
            }
        }
        Ok(())
    }

    fn events(&mut self) -> Result<(), String> {
        let near = FIVE.into_iter().flat_map(|code| [code, code - 1, code + 1, code.swap_bytes(), code | 0x1_0000]);
        for code in near.chain([0, 0x12, u32::MAX]) {
            for data in [0, 0x0403_0201, u32::MAX] {
                self.everywhere(Asked::Event, &wire::words(&[code, data]))?;
            }
        }
        for code in FIVE {
            for length in 0..=LONGEST {
                self.everywhere(Asked::Event, &wire::words(&[code, 7, 0, 0, 0])[..length])?;
            }
        }
        for code in 0..0x1_2000 {
            for mode in [(0x0102, 1), (0x0103, 0), (0x0103, 1)] {
                self.agree(Asked::Event, &wire::words(&[code, 0x0403_0201]), mode, RESULT_SIZE)?;
            }
        }
        Ok(())
    }
}

/// How many agreed, or the first that did not.
pub fn all() -> Result<u64, String> {
    let mut both = Both { port: Port::fresh(), rules: Plain::fresh(), tried: 0 };
    both.configs()?;
    both.events()?;
    Ok(both.tried)
}
