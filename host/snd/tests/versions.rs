//! VirtIO 1.2 and 1.3: every length of a configuration in each mode, events near the five codes, and versions that are none.
use snd::ffi::{snd_config, snd_latest_notification, snd_latest_notification_in};
use snd::{Config, Event, EventKind, F_CTLS, Notification, RESULT_SIZE, Refusal, Version, latest_notification_in};

/// 20 bytes of which no two are the same.
const BYTES: [u8; 20] = [
    0x01, 0x12, 0x23, 0x34, 0x45, 0x56, 0x67, 0x78, 0x89, 0x9a, 0xab, 0xbc, 0xcd, 0xde, 0xef, 0xf0, 0x0f, 0x1e, 0x2d,
    0x3c,
];

/// Each version and features, with whether the device then has control elements.
const MODES: [(u32, u64, bool); 9] = [
    (0x0102, 0, false),
    (0x0102, 1, false),
    (0x0102, u64::MAX, false),
    (0x0103, 0, false),
    (0x0103, 2, false),
    (0x0103, u64::MAX - 1, false),
    (0x0103, 1, true),
    (0x0103, 3, true),
    (0x0103, u64::MAX, true),
];

const NO_VERSIONS: [u32; 9] = [0, 1, 0x0101, 0x0104, 0x0203, 0x0100, 0x1_0103, 0x0301, u32::MAX];

/// What an entry answers, and its result, which held marks.
fn told(entry: fn(&[u8], u32, u64, &mut [u8]) -> u64, bytes: &[u8], version: u32, features: u64) -> (u64, Vec<u8>) {
    let mut result = vec![0xa2; RESULT_SIZE + 1];
    let answer = entry(bytes, version, features, &mut result);
    (answer, result)
}

/// The marks, with these bytes at their front.
fn marks(front: &[u8]) -> Vec<u8> {
    let mut result = vec![0xa2; RESULT_SIZE + 1];
    result[..front.len()].copy_from_slice(front);
    result
}

#[test]
fn a_configuration_has_just_the_bytes_of_its_mode() {
    for (version, features, controls) in MODES {
        let size = if controls { 16 } else { 12 };
        for len in 0..=20 {
            let expected = if len == size {
                (0, marks(&BYTES[..size]))
            } else {
                (10, marks(&[]))
            };
            let got = told(snd_config, &BYTES[..len], version, features);
            assert_eq!(
                got, expected,
                "{len} bytes, version {version:#x}, features {features:#x}"
            );
        }
    }
}

#[test]
fn a_number_that_is_no_version_is_1_after_the_length() {
    for version in NO_VERSIONS {
        for features in [0, 1] {
            for len in 0..=20 {
                let expected = if len == 12 { 1 } else { 10 };
                let got = told(snd_config, &BYTES[..len], version, features);
                assert_eq!(got, (expected, marks(&[])), "{len} bytes, version {version:#x}");
                let got = told(snd_latest_notification_in, &BYTES[..len], version, features);
                assert_eq!(got, (1, marks(&[])), "{len} bytes, version {version:#x}");
            }
        }
    }
}

#[test]
fn a_short_result_is_10_before_all_else() {
    let mut short = [0xa2; RESULT_SIZE - 1];
    for version in [0x0102, 0x0103, 0x0104] {
        for bytes in [&BYTES[..8], &BYTES[..12], &BYTES[..16]] {
            assert_eq!(snd_config(bytes, version, 1, &mut short), 10);
            assert_eq!(snd_latest_notification_in(bytes, version, 1, &mut short), 10);
        }
    }
    assert_eq!(short, [0xa2; RESULT_SIZE - 1]);
}

fn event(code: u32, data: u32) -> Vec<u8> {
    [code.to_le_bytes(), data.to_le_bytes()].concat()
}

/// The five codes, what stands beside each, and codes whose bytes are exchanged.
fn codes() -> Vec<u32> {
    let five = [0x1000u32, 0x1001, 0x1100, 0x1101, 0x1200];
    let near = |code: u32| (code.wrapping_sub(2)..code + 3).chain([code.swap_bytes(), code | 0x1_0000]);
    five.into_iter()
        .flat_map(near)
        .chain([0, 0x12, 0x1300, u32::MAX])
        .collect()
}

#[test]
fn an_event_says_in_each_mode_what_its_code_is() {
    for (version, features, controls) in MODES {
        for code in codes() {
            let bytes = event(code, 0x0407_0206);
            let expected = match code {
                0x1000 | 0x1001 | 0x1100 | 0x1101 => (0, marks(&bytes)),
                0x1200 if controls => (0, marks(&[0, 0x12, 0, 0, 6, 2, 0, 0, 7, 4, 0, 0])),
                _ => (0x8000_0000_0002, marks(&[])), // 2, and no status caused it
            };
            assert_eq!(
                told(snd_latest_notification_in, &bytes, version, features),
                expected,
                "{code:#x}, version {version:#x}, features {features:#x}"
            );
        }
        for len in (0..=20).filter(|len| *len != 8) {
            assert_eq!(
                told(snd_latest_notification_in, &BYTES[..len], version, features),
                (513, marks(&[]))
            );
        }
    }
}

#[test]
fn without_control_elements_both_entries_for_an_event_are_one() {
    let old = |bytes: &[u8], _version, _features, result: &mut [u8]| snd_latest_notification(bytes, result);
    for (version, features, _) in MODES.into_iter().filter(|(_, _, controls)| !controls) {
        for code in codes() {
            let bytes = event(code, 0xdead_beef);
            for len in 0..=8 {
                let new = told(snd_latest_notification_in, &bytes[..len], version, features);
                assert_eq!(new, told(old, &bytes[..len], version, features));
            }
        }
    }
}

#[test]
fn the_types_say_the_same() {
    let bytes = [9, 0, 0, 0, 8, 0, 0, 0, 7, 0, 0, 0, 6, 0, 0, 0];
    let three = Config {
        jacks: 9,
        streams: 8,
        chmaps: 7,
        controls: None,
    };
    for features in [0, F_CTLS, u64::MAX] {
        for version in [Version::V12, Version::V13] {
            let size = Config::size(version, features);
            let controls = (size == 16).then_some(6);
            let expected = Config { controls, ..three };
            assert_eq!(Config::read(&bytes[..size], version, features), Ok(expected));
            assert_eq!(
                Config::read(&bytes[..size - 1], version, features),
                Err(Refusal::BadLength)
            );
        }
    }
    let said = latest_notification_in(&event(0x1101, 4), Version::V13, F_CTLS);
    let xrun = Event {
        kind: EventKind::PcmXrun,
        data: 4,
    };
    assert_eq!(said, Ok(Some(Notification::Event(xrun))));
    let said = latest_notification_in(&event(0x1200, 0xffff_fffe), Version::V13, F_CTLS);
    let change = Notification::Control {
        id: 0xfffe,
        mask: 0xffff,
    };
    assert_eq!(said, Ok(Some(change)));
    assert_eq!(
        latest_notification_in(&event(0x1200, 1), Version::V12, F_CTLS),
        Err(Refusal::IoError(None))
    );
    assert_eq!(latest_notification_in(&[0; 7], Version::V13, F_CTLS), Ok(None));
}
