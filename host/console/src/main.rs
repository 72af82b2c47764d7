//! A console with no operating system: it finds a VirtIO sound device and speaks through the proved driver what it is handed from outside. docs/CONSOLE.md
//! tells how to take it as the start of one's own.
#![no_std]
#![no_main]
#![deny(clippy::undocumented_unsafe_blocks)]
#![deny(clippy::unwrap_used, clippy::expect_used, clippy::panic, clippy::indexing_slicing)]

use console::device::Device;
use console::files::{self, Files};
use console::memory::Arena;
use console::script::{self, Asked, Verb};
use console::speak::Console;
use console::timer::{self, Timer};
use console::told::Told;
use console::{LAST, say, serial, stack, stopped};
use core::fmt::{Display, Write};
use page::{Answered, Together};

/// Ticks in which a device gives back what it held, after a release.
const GIVEN_BACK: u64 = 50;

/// timer.s calls it, once, when all is ready for compiled code.
#[unsafe(no_mangle)]
extern "C" fn console_main() -> ! {
    console::whole(run)
}

/// How many announcements there were.
struct Count {
    all: usize,
    given: usize,
    /// How many recordings.
    recordings: usize,
    /// Lines of the script that did not come out as expected.
    wrong: u32,
}

/// Runs the script; whether all came out as expected.
fn run() -> Result<bool, &'static str> {
    let timer = Timer::start().ok_or("the timer does not tick")?;
    let size = files::memory_size().ok_or("there is no fw_cfg: the console is for QEMU")?;
    let arena = Arena::new(size).ok_or("the memory is in use")?;
    let mut files = Files::new(timer, arena).ok_or("there is no memory")?;
    let text = files
        .read("script")
        .ok_or("there is no file opt/console/script, or no room for it")?;
    let text = core::str::from_utf8(text).map_err(|_| "opt/console/script is no text")?;
    let found = Device::find(timer, files.arena()).and_then(|device| Console::new(timer, device));
    let mut console = found.map_err(stopped)?;
    begin(&console)?;
    let mut count = Count {
        all: 0,
        given: 0,
        recordings: 0,
        wrong: 0,
    };
    for line in script::lines(text) {
        let verb = script::verb(line).map_err(stopped)?;
        let right = step(&mut console, &mut files, timer, verb, &mut count)?;
        count.wrong += u32::from(!right);
    }
    timer.sleep(LAST);
    closing(&console, &count);
    Ok(count.wrong == 0)
}

/// Says what ends its last line itself.
fn show(lines: impl Display) {
    // the line never refuses
    let _ = write!(serial::Serial, "{lines}");
}

/// The device, before all else.
fn begin(console: &Console) -> Result<(), &'static str> {
    let device = console.device();
    let counts = device.counts().map_err(stopped)?;
    say!(
        "device       virtio-mmio at {:#x}; it offers features {:#x}, VirtIO 1 is taken and no other",
        device.base(),
        device.seen.features
    );
    say!(
        "configured   {} jacks, {} streams, {} channel maps\n",
        counts.jacks,
        counts.streams,
        counts.channel_maps
    );
    Ok(())
}

/// What there is to tell of all of it.
fn closing(console: &Console, count: &Count) {
    let seen = console.device().seen;
    let Count {
        all,
        given,
        recordings,
        wrong,
    } = *count;
    if all > 1 || all + recordings == 0 {
        show(Together { all, given });
    }
    say!(
        "queues       {} requests, {} completions, {} of them of nothing that was out; {} events; {} resets",
        seen.controls,
        seen.completions,
        seen.odd,
        seen.events,
        seen.resets
    );
    if let Some(event) = seen.event {
        say!("event        the last: {event:?}");
    }
    say!(
        "interrupts   {} of the timer, {} of them inside the driver",
        timer::ticks(),
        timer::inside()
    );
    say!("stack        {} of {} bytes", stack::used(), stack::SIZE);
    match wrong {
        0 => say!("console      every line of the script as expected"),
        wrong => say!("console      {wrong} lines of the script NOT as expected"),
    }
}

/// One line of the script; whether it came out as expected.
fn step(
    console: &mut Console,
    files: &mut Files,
    timer: Timer,
    verb: Verb<'static>,
    count: &mut Count,
) -> Result<bool, &'static str> {
    match verb {
        Verb::Speak(name, asked) => return speak(console, files, name, asked, count),
        Verb::Record(periods, asked) => return record(console, files, periods, &asked, count),
        Verb::Reset { indirect } => {
            console.reset(indirect).map_err(stopped)?;
            let with = if indirect { ", with indirect descriptors" } else { "" };
            say!("reset        the device{with}; state and ring are new\n");
        }
        Verb::Release(stream) => {
            let refused = console.release(stream).err();
            let came = console.take_off(GIVEN_BACK);
            say!(
                "release      of stream {stream}: {}; completions taken off the queue: {came}\n",
                Answered(refused)
            );
            return Ok(refused.is_none());
        }
        Verb::Unstick(stream) => match console.unstick(stream) {
            Ok(owed) => {
                say!("unstick      stream {stream} by a release past the driver; still owed {owed}\n");
                return Ok(owed == 0);
            }
            Err(refused) => {
                say!("unstick      stream {stream}: {}\n", Answered(Some(refused)));
                return Ok(false);
            }
        },
        Verb::Wait(ticks) => timer.sleep(ticks),
    }
    Ok(true)
}

/// Records, prints the page, and holds the answer to what is expected.
fn record(
    console: &mut Console,
    files: &mut Files,
    periods: u64,
    asked: &Asked,
    count: &mut Count,
) -> Result<bool, &'static str> {
    count.recordings += 1;
    let bytes = periods.saturating_mul(asked.params.period.into());
    let room = usize::try_from(bytes).ok().and_then(|bytes| files.arena().bytes(bytes));
    let room = room.ok_or_else(|| stopped(format_args!("there is no room for {bytes} bytes")))?;
    let recorded = console.record(asked, periods, room);
    let page = recorded.page(asked);
    let number = page.refused.map_or(0, |(_call, refusal)| refusal.number());
    let owed = asked.owed.is_none_or(|owed| owed == page.owed);
    let right = number == asked.expect && owed && (number != 0 || page.given());
    show(&page);
    let how = if right { "as expected" } else { "NOT AS EXPECTED" };
    say!("expected     {}: {how}\n", asked.expect);
    Ok(right)
}

/// Speaks, prints the page, and holds the answer to what is expected.
fn speak(
    console: &mut Console,
    files: &mut Files,
    name: &'static str,
    mut asked: Asked,
    count: &mut Count,
) -> Result<bool, &'static str> {
    let recording = files
        .recording(name)
        .ok_or_else(|| stopped(format_args!("there is no file opt/console/{name}, or no room for it")))?;
    asked.params = recording.params(&asked.params);
    let mut told = Told::new();
    console.announce(&asked, &recording, &mut told);
    let page = told.page(&asked, &recording);
    count.all += 1;
    count.given += usize::from(page.given());
    let number = page.refused.map_or(0, |(_call, refusal)| refusal.number());
    let owed = asked.owed.is_none_or(|owed| owed == page.owed);
    let right = number == asked.expect && owed && (number != 0 || page.given());
    let periods = recording.frames.len().div_ceil(asked.params.period.max(1) as usize) as u64;
    show(&page);
    if told.faults.more > 0 {
        say!("fault        and {} more", told.faults.more);
    }
    if page.given() && told.apart > 0 {
        let apart = told.apart;
        say!(
            "completions  at most {apart} turns apart: with g = {apart}, {} turns are enough",
            periods.saturating_mul(apart).saturating_add(1)
        );
    }
    let how = if right { "as expected" } else { "NOT AS EXPECTED" };
    say!("expected     {}: {how}\n", asked.expect);
    Ok(right)
}
