//! A good day: every call, turn, read and request goes through the safe types.
mod common;
use common::{Desk, PARAMS};
use snd::{
    Carried, ChannelMap, ChannelRange, Event, EventKind, Features, Formats, JackInfo, MODEL_SIZE, Model, Offer,
    PcmInfo, RING_SIZE, Rates, Reading, Ring, STATE_SIZE, STATUS_OK, Sound, Step, Turn,
};

#[test]
fn the_counts_are_those_configured() {
    let sound = Sound::new(u32::MAX, 127, 3);
    assert_eq!(
        (sound.jacks(), sound.streams(), sound.chmaps()),
        (Ok(u32::MAX), Ok(127), Ok(3))
    );
}

#[test]
fn set_up_asks_for_jacks_then_streams_then_maps() {
    let mut desk = Desk::new();
    let mut codes = vec![];
    let mut step = desk.sound.pcm_prepare(&desk.ring, 0).unwrap();
    while let Step::Send(exchange) = step {
        codes.push(u32::from_le_bytes(exchange.bytes()[..4].try_into().unwrap()));
        desk.device.control(exchange.bytes(), &mut desk.page).unwrap();
        step = desk.sound.feed(exchange, &desk.page).unwrap();
    }
    assert_eq!(codes, [1, 0x0100, 0x0200, 0x0102]);
}

#[test]
fn set_parameters_has_the_bytes_of_the_worked_number() {
    let mut desk = Desk::with_params();
    let to = snd::Params {
        buffer: 8192,
        period: 2048,
        ..PARAMS
    };
    let Ok(Step::Send(exchange)) = desk.sound.pcm_set_params(&desk.ring, 1, to) else {
        panic!("set-up is done")
    };
    let wanted = [1, 1, 0, 0, 1, 0, 0, 0, 0, 32, 0, 0, 0, 8, 0, 0, 0, 0, 0, 0, 2, 5, 7, 0];
    assert_eq!(exchange.bytes(), wanted);
    assert_eq!(desk.finish(Ok(Step::Send(exchange))), Ok(()));
    assert_eq!(desk.device.params(1), Ok(Some(wanted)));
}

#[test]
fn the_four_commands_reach_the_device() {
    let mut desk = Desk::with_params();
    let calls = [
        Sound::pcm_prepare,
        Sound::pcm_start,
        Sound::pcm_stop,
        Sound::pcm_release,
    ];
    for (call, code) in calls.iter().zip([2, 4, 5, 3]) {
        let Ok(Step::Send(exchange)) = call(&mut desk.sound, &desk.ring, 1) else {
            panic!("set-up is done")
        };
        assert_eq!(exchange.bytes(), [code, 1, 0, 0, 1, 0, 0, 0]);
        assert_eq!(desk.finish(Ok(Step::Send(exchange))), Ok(()));
    }
}

#[test]
fn a_jack_is_remapped() {
    let mut desk = Desk::with_params();
    let Ok(Step::Send(exchange)) = desk.sound.jack_remap(&desk.ring, 0, 7, 9) else {
        panic!("set-up is done")
    };
    assert_eq!(exchange.bytes(), [2, 0, 0, 0, 0, 0, 0, 0, 7, 0, 0, 0, 9, 0, 0, 0]);
    // the model does not know remaps; a device that does answers ok
    assert_eq!(desk.finish_with_status(Ok(Step::Send(exchange)), STATUS_OK), Ok(()));
}

#[test]
fn streams_are_listed_by_direction() {
    let mut desk = Desk::new();
    let step = desk.sound.output_streams(&desk.ring);
    assert_eq!(desk.finish(step).unwrap().ids(), [0]);
    let step = desk.sound.input_streams(&desk.ring);
    assert_eq!(desk.finish(step).unwrap().ids(), [1]);
}

#[test]
fn a_full_list_has_127_streams() {
    let pcms = [PcmInfo::output(1, 1).to_bytes(); 127];
    let mut desk = Desk {
        device: Model::new(&[], &pcms, &[]).unwrap(),
        sound: Sound::new(0, 127, 0),
        ..Desk::new()
    };
    let step = desk.sound.output_streams(&desk.ring);
    let all: Vec<u32> = (0..127).collect();
    assert_eq!(desk.finish(step).unwrap().ids(), all);
}

#[test]
fn what_a_stream_supports_is_as_the_device_said() {
    let odd = PcmInfo {
        node: 1,
        features: 0x8000_0011,
        formats: u64::MAX,
        rates: 1 << 63,
        direction: 9,
        channels_min: 3,
        channels_max: 250,
    };
    let mut desk = Desk {
        device: Model::new(&[], &[odd.to_bytes()], &[]).unwrap(),
        sound: Sound::new(0, 1, 0),
        ..Desk::new()
    };
    let step = desk.sound.rates_supported(&desk.ring, 0);
    assert_eq!(desk.finish(step), Ok(Rates::from_bits(1 << 63)));
    let step = desk.sound.formats_supported(&desk.ring, 0);
    assert_eq!(desk.finish(step), Ok(Formats::from_bits(u64::MAX)));
    let step = desk.sound.channel_range_supported(&desk.ring, 0);
    assert_eq!(desk.finish(step), Ok(ChannelRange { min: 3, max: 250 }));
    let step = desk.sound.features_supported(&desk.ring, 0);
    assert_eq!(desk.finish(step), Ok(Features::from_bits(0x8000_0011)));
    // neither an output nor an input
    let step = desk.sound.output_streams(&desk.ring);
    assert_eq!(desk.finish(step).unwrap().ids(), []);
    let step = desk.sound.input_streams(&desk.ring);
    assert_eq!(desk.finish(step).unwrap().ids(), []);
}

#[test]
fn ten_bytes_go_in_three_periods_and_four_turns() {
    let frames = b"ten bytes.";
    let mut desk = Desk::with_transfer(frames, 4);
    for (slot, part) in (0..).zip([0..4, 4..8, 8..10]) {
        let offer = desk.ring.offered(frames).unwrap().unwrap();
        assert_eq!(
            offer,
            Offer {
                slot,
                offset: part.start,
                period: &frames[part]
            }
        );
        let reading = Reading::Completed {
            slot: offer.slot,
            status: STATUS_OK,
        };
        assert_eq!(desk.ring.turn(frames, reading), Ok(Turn::Going));
    }
    assert_eq!(desk.ring.offered(frames), Ok(None));
    assert_eq!(desk.ring.turn(frames, Reading::Quiet), Ok(Turn::Done));
    assert_eq!((desk.ring.turns_run(), desk.ring.running()), (Ok(4), Ok(false)));
}

#[test]
fn empty_frames_are_done_on_turn_1() {
    let mut desk = Desk::with_transfer(&[], 1);
    assert_eq!(desk.ring.offered(&[]), Ok(None));
    assert_eq!(
        desk.ring.turn(&[], Reading::Completed { slot: 5, status: 0 }),
        Ok(Turn::Done)
    );
}

#[test]
fn the_ring_tells_what_is_in_flight() {
    let frames = b"ten bytes.";
    let mut desk = Desk::with_transfer(frames, 100);
    assert_eq!(
        (desk.ring.oldest(), desk.ring.stream(), desk.ring.running()),
        (Ok(None), Ok(0), Ok(true))
    );
    let Ok(Some(first)) = desk.ring.offered(frames) else {
        panic!("a period is there")
    };
    assert_eq!(
        first,
        Offer {
            slot: first.slot,
            offset: 0,
            period: b"ten "
        }
    );
    assert_eq!(desk.ring.turn(frames, Reading::Quiet), Ok(Turn::Going));
    assert_eq!(desk.ring.turn(frames, Reading::Quiet), Ok(Turn::Going));
    assert_eq!((desk.ring.in_flight(), desk.ring.free_descriptors()), (Ok(2), Ok(26)));
    assert_eq!(desk.ring.oldest(), Ok(Some(first.slot)));
    assert_eq!(desk.ring.carried(first.slot), Ok(Carried { offset: 0, length: 4 }));
}

#[test]
fn events_say_their_kind() {
    let kinds = [
        (0x1000u32, EventKind::JackConnected),
        (0x1001, EventKind::JackDisconnected),
        (0x1100, EventKind::PcmPeriodElapsed),
        (0x1101, EventKind::PcmXrun),
    ];
    for (code, kind) in kinds {
        let bytes = [code.to_le_bytes(), 0xdead_beef_u32.to_le_bytes()].concat();
        assert_eq!(
            snd::latest_notification(&bytes),
            Ok(Some(Event {
                kind,
                data: 0xdead_beef
            }))
        );
    }
}

#[test]
fn the_model_counts_what_it_plays() {
    let map = ChannelMap {
        channels: 1,
        ..ChannelMap::default()
    };
    let jack = JackInfo::default();
    let mut device = Model::new(
        &[jack.to_bytes()],
        &[PcmInfo::output(1, 2).to_bytes()],
        &[map.to_bytes()],
    )
    .unwrap();
    assert_eq!((device.params(0), device.played(0)), (Ok(None), Ok(0)));
    let request = [&[0; 4][..], b"feeder one"].concat();
    assert_eq!(device.transfer(&request).unwrap().status, STATUS_OK);
    assert_eq!(device.payload(&request), Ok(&b"feeder one"[..]));
    assert_eq!(device.played(0), Ok(10));
    // a stream too high: refused by the device, and nothing is taken
    assert_eq!(device.transfer(&[1, 0, 0, 0, b'x']).unwrap().status, 0x8001);
    assert_eq!(device.payload(&[1, 0, 0, 0, b'x']), Ok(&b""[..]));
}

#[test]
fn stores_may_be_lent() {
    let (mut state, mut ring, mut model) = ([0xff; STATE_SIZE], [0xff; RING_SIZE], [0xff; MODEL_SIZE]);
    let mut device = Model::new_in(&mut model, &[], &[], &[]).unwrap();
    let mut page = snd::Page::default();
    let ring = Ring::new_in(&mut ring);
    let mut step = Sound::new_in(&mut state, 0, 0, 0).output_streams(&ring).unwrap();
    while let Step::Send(exchange) = step {
        device.control(exchange.bytes(), &mut page).unwrap();
        step = Sound::over(&mut state).feed(exchange, &page).unwrap();
    }
    let Step::Done(streams) = step else { unreachable!() };
    assert_eq!(streams.ids(), []);
}
