//! The few places of stores that the crate itself knows: new stores as constants write them, and what `Debug` shows.
mod common;
use common::{Desk, PARAMS, sent};
use snd::{
    MODEL_SIZE, Model, Pending, Places, RING_SIZE, Reading, Refusal, Ring, STATE_SIZE, Sound, Step, Submitted, Turn,
    ffi,
};
use std::sync::Mutex;

/// Counts at the edges of a byte, of a page and of their width.
const COUNTS: [u32; 13] = [
    0,
    1,
    2,
    127,
    128,
    170,
    171,
    255,
    256,
    65_535,
    0x0102_0304,
    u32::MAX - 1,
    u32::MAX,
];

#[test]
fn a_new_state_is_what_the_archive_writes() {
    let mut written = [0xff; STATE_SIZE];
    for jacks in COUNTS {
        for streams in COUNTS {
            for chmaps in COUNTS {
                assert_eq!(ffi::snd_new(&mut written, jacks, streams, chmaps), 0);
                assert!(*Sound::new(jacks, streams, chmaps).store() == written);
                assert_eq!(ffi::snd_new_guarded(&mut written, jacks, streams, chmaps), 0);
                assert!(*Sound::new_guarded(jacks, streams, chmaps).store() == written);
                let lent = Sound::new_guarded_in([0xff; STATE_SIZE], jacks, streams, chmaps);
                assert!(*lent.store() == written);
            }
        }
    }
}

#[test]
fn a_new_ring_is_what_the_archive_writes() {
    let mut written = [0xff; RING_SIZE];
    assert_eq!(ffi::snd_ring_new(&mut written), 0);
    assert_eq!(*Ring::new().store(), written);
    assert!(!Ring::new().indirect());
    assert_eq!(ffi::snd_ring_new_indirect(&mut written), 0);
    assert_eq!(*Ring::new_indirect().store(), written);
    assert_eq!(*Ring::new_indirect_in([0xff; RING_SIZE]).store(), written);
    assert!(Ring::new_indirect().indirect());
}

static SOUND: Mutex<Sound> = Mutex::new(Sound::new(2, 2, 0));
static RING: Mutex<Ring> = Mutex::new(Ring::new());

#[test]
fn state_and_ring_may_stand_in_statics() {
    let (mut sound, ring) = (SOUND.lock().unwrap(), RING.lock().unwrap());
    assert!(matches!(sound.pcm_prepare(&ring, 0), Ok(Step::Send(_))));
    assert_eq!(sound.abandon(), Ok(()));
}

/// A call whose exchange is lost.
type Lost = fn(&mut Sound, &Ring) -> Result<(), Refusal>;

#[test]
fn a_state_shows_which_call_waits() {
    let shown = |call: Lost| {
        let mut sound = Sound::new(2, 1, 3);
        call(&mut sound, &Ring::new()).unwrap();
        format!("{sound:?}")
    };
    let open = |what: &str| format!("Sound {{ jacks: 2, streams: 1, chmaps: 3, set_up: false, open: {what} }}");
    assert_eq!(shown(|_, _| Ok(())), open("nothing"));
    let waiting = |call: &str| open(&format!("query of jacks, for {call}"));
    let calls: [(Lost, &str); 14] = [
        (|s, r| s.jack_remap(r, 0, 0, 0).map(drop), "remap"),
        (|s, r| s.pcm_set_params(r, 0, PARAMS).map(drop), "set parameters"),
        (|s, r| s.pcm_prepare(r, 0).map(drop), "prepare"),
        (|s, r| s.pcm_release(r, 0).map(drop), "release"),
        (|s, r| s.pcm_start(r, 0).map(drop), "start"),
        (|s, r| s.pcm_stop(r, 0).map(drop), "stop"),
        (|s, r| s.output_streams(r).map(drop), "output streams"),
        (|s, r| s.input_streams(r).map(drop), "input streams"),
        (|s, r| s.rates_supported(r, 0).map(drop), "rates"),
        (|s, r| s.formats_supported(r, 0).map(drop), "formats"),
        (|s, r| s.channel_range_supported(r, 0).map(drop), "channel range"),
        (|s, r| s.features_supported(r, 0).map(drop), "features"),
        (
            |s, _| s.pcm_xfer_start(&mut Ring::new(), 0, b"", 1).map(drop),
            "transfer",
        ),
        (
            |s, _| s.pcm_capture_start(&mut Ring::new(), 0, 0, b"", 1).map(drop),
            "capture",
        ),
    ];
    for (call, name) in calls {
        assert_eq!(shown(call), waiting(name));
    }
}

#[test]
fn a_state_shows_how_far_a_call_is() {
    let mut desk = Desk::new();
    let mut step = desk.sound.pcm_start(&desk.ring, 0);
    for open in ["query of jacks", "query of streams", "query of channel maps"] {
        let set_up = format!("set_up: false, open: {open}, for start }}");
        let shown = format!("{:?}", desk.sound);
        assert!(shown.ends_with(&set_up), "{shown}");
        let exchange = sent(step);
        desk.device.control(exchange.bytes(), &mut desk.page).unwrap();
        step = desk.sound.feed(exchange, &desk.page);
    }
    let shown = format!("{:?}", desk.sound);
    assert!(
        shown.ends_with("set_up: true, open: its own request, for start }"),
        "{shown}"
    );
    assert_eq!(desk.finish(step), Ok(()));
    let shown = format!("{:?}", desk.sound);
    assert!(shown.ends_with("set_up: true, open: nothing }"), "{shown}");
}

#[test]
fn a_guarded_state_shows_where_its_streams_are() {
    let mut desk = Desk {
        sound: Sound::new_guarded(2, 2, 0),
        ..Desk::new()
    };
    for (call, now) in [
        (Sound::pcm_prepare as fn(&mut Sound, &Ring, u32) -> _, "prepare"),
        (Sound::pcm_start, "start"),
        (Sound::pcm_stop, "stop"),
        (Sound::pcm_release, "release"),
    ] {
        let step = call(&mut desk.sound, &desk.ring, 1);
        assert_eq!(desk.finish(step), Ok(()));
        let shown = format!("{:?}", desk.sound);
        assert!(
            shown.ends_with(&format!("open: nothing, guarded: [set parameters, {now}] }}")),
            "{shown}"
        );
    }
    let shown = format!("{:?}", Sound::new_guarded(0, u32::MAX, 0));
    assert_eq!(shown.matches("set parameters").count(), 127);
}

#[test]
fn a_state_and_places_show_what_is_pending() {
    let mut desk = Desk::with_params();
    let mut places = Places::new(vec![0; 16 * 8 + 3]);
    assert!(!format!("{:?}", desk.sound).contains("pending"));
    assert_eq!(format!("{places:?}"), "Places { size: 8, taken: [] }");
    for token in 0..3 {
        let out = desk.sound.pcm_xfer_nb(&desk.ring, 0, b"four", &mut places);
        assert_eq!(out, Ok(Submitted::Token(token)));
    }
    let marked = Reading::Completed { slot: 1, status: 3 };
    desk.sound.pcm_xfer_mark(marked).unwrap();
    let marked = Reading::Completed {
        slot: 0,
        status: 0x8000,
    };
    desk.sound.pcm_xfer_mark(marked).unwrap();
    desk.sound.pcm_xfer_ok(&mut places, 0).unwrap();
    let shown = format!("{:?}", desk.sound);
    assert!(
        shown.ends_with("open: nothing, pending: {1: marked 0x0003, 2: waits} }"),
        "{shown}"
    );
    assert_eq!(format!("{places:?}"), "Places { size: 8, taken: [1, 2] }");
    // the places that the crate knows are those of the archive: each token in turn
    for token in 0..32 {
        let mut store = *desk.sound.store();
        store[STATE_SIZE - 256..].fill(0);
        store[STATE_SIZE - 256 + 8 * token as usize] = 1;
        let sound = Sound::over(store);
        assert_eq!(
            (sound.pending_count(), sound.pending_token(token)),
            (Ok(1), Ok(Pending::Waits))
        );
        let shown = format!("{sound:?}");
        assert!(shown.ends_with(&format!("pending: {{{token}: waits}} }}")), "{shown}");
    }
}

#[test]
fn a_ring_and_a_device_are_shown_in_short() {
    let frames = b"ten bytes.";
    let mut desk = Desk::with_transfer(frames, 9);
    assert_eq!(desk.ring.turn(frames, Reading::Quiet), Ok(Turn::Going));
    assert_eq!(
        format!("{:?}", desk.ring),
        "Ring { running: true, in_flight: 1, stream: 0, turns_run: 1 }"
    );
    assert_eq!(
        format!("{:?}", desk.device),
        "Model { jacks: 2, streams: 2, chmaps: 0 }"
    );
}

#[test]
fn an_inconsistent_store_says_so() {
    assert_eq!(format!("{:?}", Sound::over([0xff; STATE_SIZE])), "Sound(inconsistent)");
    assert_eq!(format!("{:?}", Ring::over([0xff; RING_SIZE])), "Ring(inconsistent)");
    assert_eq!(format!("{:?}", Model::over([0xff; MODEL_SIZE])), "Model(inconsistent)");
}
