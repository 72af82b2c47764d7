//! Sizes that cannot be: refused before anything is done.
use crate::options::Options;

/// A tone is held in memory.
const MOST_TONE: u64 = 1 << 30;
/// So is the account of every period.
const MOST_PERIODS: usize = 1_000_000;

/// The buffer that is named, or four periods.
pub fn buffer(named: Option<u32>, period: u32) -> Result<u32, String> {
    match named {
        Some(buffer) if !buffer.is_multiple_of(period) => {
            Err(format!("--buffer {buffer} is no multiple of the period, {period}"))
        }
        Some(buffer) => Ok(buffer),
        None => period.checked_mul(4).ok_or_else(|| {
            let most = u32::MAX;
            format!("four periods of {period} bytes are more than a buffer can have, {most}: name one with --buffer")
        }),
    }
}

/// Whether the tone can be made.
pub fn tone(options: &Options) -> Result<(), String> {
    let form = options.form();
    let frames = u64::from(options.seconds) * u64::from(form.rate.hz());
    let bytes = frames.saturating_mul(form.frame() as u64);
    if bytes <= MOST_TONE {
        return Ok(());
    }
    Err(format!(
        "a tone of {} s at {} Hz with {} channels is {bytes} bytes; at most {MOST_TONE} are made",
        options.seconds,
        form.rate.hz(),
        form.channels
    ))
}

/// How many places there are for periods that do not wait.
pub fn places_of(options: &Options) -> usize {
    if options.indirect {
        snd::PLACES_INDIRECT
    } else {
        snd::PLACES
    }
}

/// Whether there can be places for them.
pub fn places(options: &Options) -> Result<(), String> {
    let (places, period) = (places_of(options), options.period);
    let bytes = places as u64 * (u64::from(period) + 4);
    if bytes <= MOST_TONE {
        return Ok(());
    }
    Err(format!(
        "{places} places for periods of {period} bytes are {bytes} bytes; at most {MOST_TONE} are made"
    ))
}

/// Whether there can be a recording of so many periods, and a buffer for each slot.
pub fn recording(options: &Options) -> Result<(), String> {
    let (periods, period) = (options.periods, u64::from(options.period));
    let bytes = periods.saturating_mul(period);
    if periods > MOST_PERIODS as u64 || bytes > MOST_TONE {
        return Err(format!(
            "{periods} periods of {period} bytes are {bytes} bytes; at most {MOST_PERIODS} periods and {MOST_TONE} bytes are recorded"
        ));
    }
    let buffers = snd::SLOTS as u64 * (period + snd::CAPTURE_STATUS as u64);
    if buffers > MOST_TONE {
        return Err(format!(
            "{} buffers for periods of {period} bytes are {buffers} bytes; at most {MOST_TONE} are made",
            snd::SLOTS
        ));
    }
    Ok(())
}

/// Whether an account of so many periods can be kept.
pub fn periods(name: &str, bytes: usize, period: u32) -> Result<(), String> {
    let periods = bytes.div_ceil(period as usize);
    if periods <= MOST_PERIODS {
        return Ok(());
    }
    Err(format!(
        "{name} has {periods} periods with --period {period}; an account is kept of at most {MOST_PERIODS}"
    ))
}
