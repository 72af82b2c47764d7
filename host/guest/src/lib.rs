//! Calls every call, feed, turn and read of the crate `snd`, and of its model device, on anything at all. A panic would call a function that is nowhere defined, so the test that builds
//! this only has to look whether that function is asked for.
#![no_std]
use snd::trace::Difference;
use snd::{
    Captured, Capturing, Config, F_CTLS, Features, Format, Formats, Model, Notification, Page, Params, Pending, Places,
    Rate, Rates, Reading, Refusal, Ring, Sound, Started, Status, Step, StreamList, Submitted, Tracing, Unfed, Value,
    Version, latest_notification, latest_notification_in, trace, wav,
};

unsafe extern "C" {
    fn a_panic_can_be_reached() -> !;
}

#[panic_handler]
fn panicked(_why: &core::panic::PanicInfo) -> ! {
    // SAFETY: never linked, so never called.
    unsafe { a_panic_can_be_reached() }
}

/// Everything that a console has.
pub struct Console {
    sound: Sound,
    ring: Ring,
    model: Model,
    page: Page,
    places: Places<&'static mut [u8]>,
    number: u32,
    bytes: [u8; 64],
    length: usize,
}

/// What comes of it; the sum keeps the compiler from leaving a call out.
#[unsafe(no_mangle)]
pub extern "C" fn guest_main(console: &mut Console) -> u64 {
    [
        calls, supported, feeds, lists, turns, transfer, traced, traces, capture, pending, reads, device, versions,
        waves, values,
    ]
    .iter()
    .fold(0, |sum, part| part(console).wrapping_add(sum))
}

fn sum(bytes: &[u8]) -> u64 {
    bytes.iter().map(|&byte| u64::from(byte)).sum()
}

fn length<T: Value>(step: Result<Step<T>, Refusal>) -> u64 {
    match step {
        Ok(Step::Send(exchange)) => sum(exchange.bytes()) ^ sum(exchange.message().bytes()),
        Ok(Step::Done(_)) => 0,
        Err(refusal) => refused(refusal),
    }
}

/// The number, the name's length and the device's word.
fn refused(refusal: Refusal) -> u64 {
    let word = refusal.cause().flatten().map_or(0, Status::word);
    u64::from(refusal.number()) ^ refusal.name().len() as u64 ^ u64::from(word)
}

fn calls(console: &mut Console) -> u64 {
    let Console {
        sound, ring, number, ..
    } = console;
    let format = Format::from_number(*number as u8).unwrap_or(Format::S16);
    let rate = Rate::from_number(*number as u8).unwrap_or(Rate::Hz48000);
    let to = Params {
        buffer: *number,
        period: *number,
        features: 0,
        channels: 2,
        format,
        rate,
    };
    let said = [
        length(sound.jack_remap(ring, *number, 1, 2)),
        length(sound.pcm_set_params(ring, *number, to)),
        length(sound.pcm_prepare(ring, *number)),
        length(sound.pcm_release(ring, *number)),
        length(sound.pcm_start(ring, *number)),
        length(sound.pcm_stop(ring, *number)),
    ];
    said.iter().fold(0, |sum, said| said.wrapping_add(sum))
}

fn supported(console: &mut Console) -> u64 {
    let Console {
        sound, ring, number, ..
    } = console;
    let said = [
        length(sound.rates_supported(ring, *number)),
        length(sound.formats_supported(ring, *number)),
        length(sound.channel_range_supported(ring, *number)),
        length(sound.features_supported(ring, *number)),
    ];
    let bits = u64::from(*number);
    let has = [
        Rates::from_bits(bits).has(Rate::Hz48000),
        Formats::from_bits(bits).has(Format::S16),
        Features::from_bits(*number).has(Features::MSG_POLLING | Features::EVT_XRUNS),
    ];
    said.iter().fold(0, |sum, said| said.wrapping_add(sum)) ^ has.map(u64::from).iter().sum::<u64>()
}

fn feeds(console: &mut Console) -> u64 {
    let Console {
        sound,
        ring,
        page,
        number,
        ..
    } = console;
    let fed = match sound.output_streams(ring) {
        Ok(Step::Send(exchange)) => length(sound.feed(exchange, page)),
        _ => 0,
    };
    let written = match sound.input_streams(ring) {
        Ok(Step::Send(exchange)) => match sound.feed_written(exchange, page, *number as usize) {
            Err(Unfed::TooLong(exchange)) => sum(exchange.bytes()),
            other => length(other.map_err(Refusal::from)),
        },
        _ => 0,
    };
    let failed = match sound.pcm_stop(ring, 0) {
        Ok(Step::Send(exchange)) => length(sound.feed_failure(exchange)),
        _ => 0,
    };
    fed ^ written ^ failed ^ u64::from(sound.abandon().is_ok())
}

fn lists(console: &mut Console) -> u64 {
    let Console { sound, ring, .. } = console;
    let lists = [sound.output_streams(ring), sound.input_streams(ring)];
    let sum = |list: &StreamList| list.ids().iter().map(|&id| u64::from(id)).sum();
    let ids = lists.iter().map(|list| match list {
        Ok(Step::Done(list)) => sum(list),
        _ => 0,
    });
    ids.fold(0, u64::wrapping_add)
}

fn turns(console: &mut Console) -> u64 {
    let frames = console.bytes.get(..console.length).unwrap_or_default();
    let Console {
        sound, ring, number, ..
    } = console;
    let started = length(sound.pcm_xfer_start(ring, *number, frames, u64::MAX));
    let offered = match ring.offered(frames) {
        Ok(Some(offer)) => u64::from(offer.slot) ^ (offer.offset ^ offer.period.len()) as u64,
        Ok(None) => 0,
        Err(refusal) => refusal.number().into(),
    };
    let turned = ring
        .turn(
            frames,
            Reading::Completed {
                slot: *number,
                status: *number,
            },
        )
        .is_ok();
    let drained = ring.drain_turn(Reading::Quiet).is_ok();
    started ^ offered ^ u64::from(turned) ^ u64::from(drained)
}

fn transfer(console: &mut Console) -> u64 {
    static FRAMES: [u8; 64] = [7; 64];
    let Console {
        sound, ring, number, ..
    } = console;
    let reading = Reading::Completed {
        slot: *number,
        status: *number,
    };
    let mut transfer = match sound.transfer(ring, *number, &FRAMES, u64::MAX) {
        Started::Runs(transfer) => transfer,
        Started::SetUp(exchange, frames) => return length(sound.feed_failure(exchange)) ^ sum(frames),
        Started::Refused(refusal, frames) => return u64::from(refusal.number()) ^ sum(frames),
    };
    let offered = match transfer.offered() {
        Ok(Some(offer)) => u64::from(offer.slot) ^ sum(offer.period),
        Ok(None) => 0,
        Err(refusal) => refusal.number().into(),
    };
    let turned = transfer.turn(reading).is_ok();
    let drained = transfer.drain_turn(reading).is_ok();
    let kept = sum(transfer.frames()) ^ transfer.ring().turns_run().unwrap_or(0);
    let ended = transfer.end().map_or(0, |frames| sum(frames));
    offered ^ u64::from(turned) ^ u64::from(drained) ^ kept ^ ended
}

fn traced(console: &mut Console) -> u64 {
    static FRAMES: [u8; 64] = [7; 64];
    let Console {
        sound,
        ring,
        number,
        bytes,
        length: end,
        ..
    } = console;
    let reading = Reading::Completed {
        slot: *number,
        status: *number,
    };
    let room = bytes.get_mut(..*end).unwrap_or_default();
    let by_hand = ring.turn_traced(&FRAMES, room, reading).is_ok();
    let need = trace::room_len(*end, *number) as u64;
    let mut traced = match sound.transfer_traced(ring, *number, &FRAMES, u64::MAX, room) {
        Tracing::Runs(traced) => traced,
        Tracing::SetUp(exchange, frames) => return length(sound.feed_failure(exchange)) ^ sum(frames),
        Tracing::Refused(refusal, frames) => return u64::from(refusal.number()) ^ sum(frames),
    };
    let offered = traced.offered().is_ok_and(|offer| offer.is_some());
    let turned = traced.turn(reading).is_ok();
    let drained = traced.drain_turn(reading).is_ok();
    let wrote = sum(traced.trace().unwrap_or_default());
    let kept = sum(traced.frames()) ^ traced.ring().trace_length().unwrap_or(0) as u64;
    let ended = traced.end().map_or(0, |frames| sum(frames));
    let said = [by_hand, offered, turned, drained].map(u64::from);
    sum(&said.map(|said| said as u8)) ^ wrote ^ kept ^ ended ^ need
}

fn traces(console: &mut Console) -> u64 {
    let bytes = console.bytes.get(..console.length).unwrap_or_default();
    let judged = [trace::judge(console.number, bytes), trace::scan(bytes)];
    let said = judged.map(|said| said.map_or_else(|judged| refused(judged.number) ^ judged.at as u64, |()| 0));
    let fields = trace::Fields::of(bytes).map(|(at, field)| at as u64 ^ u64::from(field.tag()));
    let mut list = [0; 64];
    let listed = match trace::compare(bytes, bytes, &mut list) {
        Ok(entries) => entries.map(Difference::position).fold(0, u64::wrapping_add),
        Err(unlisted) => refused(unlisted.number()),
    };
    let read = trace::Entries::of(bytes).filter(|one| one.first() == one.second());
    let listed = [
        listed,
        read.count() as u64,
        trace::differences(bytes, bytes).unwrap_or(0) as u64,
    ];
    fields
        .chain(said)
        .chain(listed)
        .fold(0, |sum, said| said.wrapping_add(sum))
}

fn capture(console: &mut Console) -> u64 {
    let Console {
        sound,
        ring,
        number,
        bytes,
        length: end,
        ..
    } = console;
    let (mut recording, heard) = ([7; 64], bytes.get(..*end).unwrap_or_default());
    let seen = Captured::Completed {
        slot: *number,
        written: *number,
        bytes: heard,
    };
    let by_hand = ring.capture_turn(&mut recording, seen).is_ok();
    let mut capture = match sound.capture(ring, *number, u64::from(*number), &mut recording, u64::MAX) {
        Ok(Capturing::Runs(capture)) => capture,
        Ok(Capturing::SetUp(exchange)) => return length(sound.feed_failure(exchange)),
        Err(refusal) => return refused(refusal),
    };
    let offered = match capture.offered() {
        Ok(Some(room)) => u64::from(room.slot) ^ room.length as u64,
        Ok(None) => 0,
        Err(refusal) => refused(refusal),
    };
    let turned = capture.turn(seen).is_ok();
    let drained = capture.drain_turn(seen).is_ok();
    let kept = capture.recorded().map_or_else(refused, sum) ^ capture.ring().turns_run().unwrap_or(0);
    offered ^ u64::from(by_hand) ^ u64::from(turned) ^ u64::from(drained) ^ kept
}

fn pending(console: &mut Console) -> u64 {
    let payload = console.bytes.get(..console.length).unwrap_or_default();
    let Console {
        sound,
        ring,
        places,
        number,
        ..
    } = console;
    let reading = Reading::Completed {
        slot: *number,
        status: *number,
    };
    let out = match sound.pcm_xfer_nb(ring, *number, payload, places) {
        Ok(Submitted::Token(token)) => places.request(token).map_or(0, sum),
        Ok(Submitted::SetUp(exchange)) => length(sound.feed_failure(exchange)),
        Err(refusal) => refused(refusal),
    };
    let marked = sound.pcm_xfer_mark(reading).map_or_else(refused, |()| 0);
    let held = match sound.pending_token(*number) {
        Ok(Pending::Free) => 0,
        Ok(Pending::Waits) => 1,
        Ok(Pending::Marked { status }) => status.into(),
        Err(refusal) => refused(refusal),
    };
    let ended = sound.pcm_xfer_ok(places, *number).map_or_else(refused, |()| 0);
    let count = sound.pending_count().unwrap_or(0);
    out ^ marked ^ held ^ ended ^ count ^ places.size() as u64
}

fn reads(console: &mut Console) -> u64 {
    let Console {
        sound,
        ring,
        number,
        length,
        ..
    } = console;
    let counts = [sound.jacks(), sound.streams(), sound.chmaps()];
    let reads = [
        ring.in_flight(),
        ring.free_descriptors(),
        ring.turns_run(),
        ring.accepted(),
        ring.spoken_bytes(*number, *length).map(|bytes| bytes as u64),
        ring.stream().map(u64::from),
    ];
    let carried = ring
        .carried(*number)
        .map_or(0, |part| (part.offset ^ part.length) as u64);
    let oldest = ring.oldest().map_or(0, |slot| u64::from(slot.unwrap_or(0)));
    let counts = counts.iter().fold(0, |sum, count| sum ^ u64::from(count.unwrap_or(0)));
    let reads = reads.iter().fold(0, |sum, read| sum ^ read.unwrap_or(0));
    counts ^ reads ^ carried ^ oldest ^ u64::from(ring.running().is_ok())
}

fn device(console: &mut Console) -> u64 {
    let request = console.bytes.get(..console.length).unwrap_or_default();
    let Console {
        model, page, number, ..
    } = console;
    let control = model.control(request, page).map_or(0, |length| length as u64);
    let status = model.transfer(request).map_or(0, |answer| answer.status.into());
    let payload = model.payload(request).map_or(0, |payload| payload.len() as u64);
    let params = model
        .params(*number)
        .map_or(0, |set| set.map_or(0, |set| u64::from(set[23])));
    let event = latest_notification(request).map_or(0, |event| event.map_or(0, |event| event.data.into()));
    control ^ status ^ payload ^ params ^ event ^ model.played(*number).unwrap_or(0)
}

fn versions(console: &mut Console) -> u64 {
    let Console {
        number, bytes, length, ..
    } = console;
    let shown = bytes.get(..*length).unwrap_or(bytes);
    let (version, features) = match *number {
        0 => (Version::V12, 0),
        number => (Version::V13, u64::from(number) | F_CTLS),
    };
    let config = Config::read(shown, version, features).map_or(0, |config| {
        u64::from(config.jacks ^ config.streams ^ config.chmaps ^ config.controls.unwrap_or(0))
    });
    let event = match latest_notification_in(shown, version, features) {
        Ok(Some(Notification::Control { id, mask })) => u64::from(id ^ mask),
        Ok(Some(Notification::Event(event))) => event.data.into(),
        Ok(None) => 0,
        Err(refusal) => refusal.number().into(),
    };
    config ^ event ^ Config::size(version, features) as u64
}

fn waves(console: &mut Console) -> u64 {
    let Console {
        number, bytes, length, ..
    } = console;
    let format = Format::from_number(*number as u8).unwrap_or(Format::S16);
    let rate = Rate::from_number(*number as u8).unwrap_or(Rate::Hz48000);
    let wave = wav::Wave {
        channels: *number as u8,
        format,
        rate,
        frames: bytes.get(..*length).unwrap_or_default(),
    };
    let mut file = [0; 128];
    let written = wav::write(&wave, &mut file).map_or_else(|refusal| refusal.number().into(), |length| length as u64);
    wav::read(&file).map_or(written, |read| written ^ sum(read.frames) ^ u64::from(read.channels))
}

fn values(console: &mut Console) -> u64 {
    console.sound = match console.length {
        0 => Sound::new(console.number, 1, 2),
        1 => Sound::new_guarded(console.number, 1, 2),
        _ => Sound::new_guarded_in(*console.sound.store(), console.number, 1, 2),
    };
    console.ring = match console.length {
        0 => Ring::new(),
        1 => Ring::new_indirect(),
        _ => Ring::new_indirect_in(*console.ring.store()),
    };
    if let Ok(model) = Model::new(&[[0; 24]], &[[0; 32]], &[]) {
        console.model = model;
    }
    console.page = Page::new();
    Rate::from_hz(console.number).map_or(0, |rate| rate.hz().into())
}
