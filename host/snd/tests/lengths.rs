//! Sizes, and answer 10: which lengths every entry tests, and that it then leaves every byte as it was.
mod common;
use common::entries::{ENTRIES, entry};
use common::lent::{Lent, Part};
use snd::ffi;

#[test]
fn the_types_have_the_sizes_that_the_entries_hand_out() {
    assert_eq!(ffi::snd_state_size(), snd::STATE_SIZE as u64);
    assert_eq!(ffi::snd_ring_size(), snd::RING_SIZE as u64);
    assert_eq!(ffi::snd_message_size(), snd::MESSAGE_SIZE as u64);
    assert_eq!(ffi::snd_result_size(), snd::RESULT_SIZE as u64);
    assert_eq!(ffi::snd_page_size(), snd::PAGE_SIZE as u64);
    assert_eq!(ffi::snd_model_size(), snd::MODEL_SIZE as u64);
    assert_eq!(ffi::snd_entry_size(), snd::trace::ENTRY_SIZE as u64);
}

#[test]
fn a_short_slice_is_10_and_leaves_every_byte() {
    for entry in ENTRIES {
        for &part in entry.tested {
            for cut in [1, usize::MAX] {
                let mut lent = Lent::good();
                let length = lent.part(part).len();
                lent.part(part).truncate(length.saturating_sub(cut));
                // no table at all is a table of no records
                if cut == usize::MAX && entry.name == "snd_model_new" && part != Part::Model {
                    continue;
                }
                let before = lent.clone();
                assert_eq!((entry.call)(&mut lent), 10, "{} with a short {part:?}", entry.name);
                assert!(lent == before, "{} with a short {part:?} changed a byte", entry.name);
            }
        }
    }
}

/// Each way to it of a capture's turn: tests/capture.rs.
#[test]
fn a_recording_of_another_length_than_at_the_start_is_10() {
    for name in ["snd_capture_offered", "snd_capture_turn"] {
        for length in [0, 28, 30] {
            let mut lent = Lent::capturing();
            lent.recording.resize(length, 0);
            let before = lent.clone();
            assert_eq!((entry(name).call)(&mut lent), 10, "{name}");
            assert!(lent == before, "{name} changed a byte");
        }
    }
}

/// An empty room too, which is that of a turn that writes nothing.
#[test]
fn a_room_of_another_length_than_at_the_start_is_10() {
    for length in [0, 1, 179, 181, 360] {
        let mut lent = Lent::tracing();
        assert_eq!(lent.room.len(), 180);
        lent.room.resize(length, 0);
        let before = lent.clone();
        assert_eq!((entry("snd_turn_traced").call)(&mut lent), 10, "{length}");
        assert_eq!((entry("snd_turn").call)(&mut lent), 10);
        assert!(lent == before, "a turn with a room of {length} changed a byte");
    }
    // a transfer that writes no trace takes none
    let mut lent = Lent::good();
    let before = lent.clone();
    assert_eq!((entry("snd_turn_traced").call)(&mut lent), 10);
    assert!(lent == before);
    lent.room.clear();
    let mut plain = lent.clone();
    assert_eq!((entry("snd_turn_traced").call)(&mut lent), 512);
    assert_eq!((entry("snd_turn").call)(&mut plain), 512);
    assert!(lent == plain, "with an empty room it is the plain turn");
}

#[test]
fn a_page_of_4097_bytes_is_10() {
    for name in ["snd_feed", "snd_feed_written", "snd_model_control"] {
        let mut lent = Lent::asking();
        lent.page.push(0);
        let before = lent.clone();
        assert_eq!((entry(name).call)(&mut lent), 10, "{name}");
        assert!(lent == before, "{name} changed a byte");
    }
}

#[test]
fn a_page_of_which_more_than_4096_bytes_were_written_is_10() {
    for written in [4097, (1 << 32) + 4, u64::MAX] {
        // the exchange stays open; with none open, and in a store that is inconsistent, the length still comes first
        let mut inconsistent = Lent::asking();
        inconsistent.state.fill(0xff);
        for mut lent in [Lent::asking(), Lent::idle(), inconsistent] {
            lent.written = written;
            let before = lent.clone();
            assert_eq!(
                (entry("snd_feed_written").call)(&mut lent),
                10,
                "{written} bytes written"
            );
            assert!(lent == before, "{written} bytes written changed a byte");
        }
    }
}

#[test]
fn frames_longer_than_at_the_start_are_10() {
    for name in ["snd_offered", "snd_turn"] {
        let mut lent = Lent::good();
        lent.frames.push(0);
        let before = lent.clone();
        assert_eq!((entry(name).call)(&mut lent), 10, "{name}");
        assert!(lent == before, "{name} changed a byte");
    }
}

#[test]
fn a_bad_length_shows_before_an_inconsistent_store() {
    for entry in ENTRIES.iter().filter(|entry| entry.tested.len() > 1) {
        let mut lent = Lent::good();
        lent.state.fill(0xff);
        lent.ring.fill(0xff);
        lent.model.fill(0xff);
        let part = entry.tested[entry.tested.len() - 1];
        if [Part::Frames, Part::Recording].contains(&part) {
            // a ring that runs nothing has no start to compare lengths with
            continue;
        }
        lent.part(part).pop();
        assert_eq!((entry.call)(&mut lent), 10, "{} with a short {part:?}", entry.name);
    }
}
