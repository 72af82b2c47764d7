//! Request 2026-08, "VirtIO 1.3 beside 1.2": each test names the rulings on it by their numbers.
use rules::entries::{self, RESULT_SIZE, number};
use rules::versions::{V1_2, V1_3, config, has_controls, notification};
use rules::wire;

const GOOD: usize = RESULT_SIZE;
const UNKNOWN: [u32; 7] = [0, 1, 0x0101, 0x0104, 0x0203, 0x1_0103, u32::MAX];
/// 2, and no status caused it.
const IO_ERROR: u64 = 0x8000_0000_0002;
const NO_VALUES: Vec<u32> = vec![];
/// Features without the bit, and with it, beside others.
const WITHOUT: [u64; 5] = [0, 2, 1 << 32, 1 << 63, !1];
const WITH: [u64; 4] = [1, 3, 1 << 32 | 1, u64::MAX];

/// Versions and features that read as 1.2.
fn plain() -> Vec<(u32, u64)> {
    let old = WITHOUT.into_iter().chain(WITH).map(|features| (V1_2, features));
    old.chain(WITHOUT.map(|features| (V1_3, features))).collect()
}

#[test]
fn rulings_1_and_2_the_mode() {
    assert!(plain().into_iter().all(|(version, features)| !has_controls(version, features)));
    assert!(WITH.into_iter().all(|features| has_controls(V1_3, features)));
    for version in UNKNOWN {
        assert!(WITH.into_iter().chain(WITHOUT).all(|features| !has_controls(version, features)));
    }
}

#[test]
fn rulings_3_and_5_a_configuration() {
    let bytes: Vec<u8> = (1..=20).collect();
    let counts = [0x0403_0201, 0x0807_0605, 0x0c0b_0a09, 0x100f_0e0d];
    for length in 0..=20 {
        for (version, features) in plain() {
            let said = if length == 12 { (0, counts[..3].to_vec()) } else { (10, NO_VALUES) };
            assert_eq!(config(&bytes[..length], version, features, GOOD), said);
        }
        for features in WITH {
            let said = if length == 16 { (0, counts.to_vec()) } else { (10, NO_VALUES) };
            assert_eq!(config(&bytes[..length], V1_3, features, GOOD), said);
        }
    }
    // longer result slices are good, and any counts are
    assert_eq!(config(&[0xff; 16], V1_3, 1, GOOD + 1), (0, vec![u32::MAX; 4]));
    assert_eq!(config(&[0; 12], V1_2, 0, usize::MAX), (0, vec![0; 3]));
}

#[test]
fn ruling_4_the_order_of_a_configurations_refusals() {
    for version in UNKNOWN {
        for features in WITH.into_iter().chain(WITHOUT) {
            // without controls: 12 bytes pass the length, and the version is told
            assert_eq!(config(&[1; 12], version, features, GOOD), (1, NO_VALUES));
            for length in [0, 11, 13, 16] {
                assert_eq!(config(&vec![1; length], version, features, GOOD), (10, NO_VALUES));
            }
            assert_eq!(config(&[1; 12], version, features, GOOD - 1), (10, NO_VALUES));
        }
    }
    for (version, features, length) in [(V1_2, 0, 12), (V1_2, 1, 12), (V1_3, 0, 12), (V1_3, 1, 16)] {
        for short in [0, 16, GOOD - 1] {
            assert_eq!(config(&vec![1; length], version, features, short), (10, NO_VALUES));
        }
    }
}

#[test]
fn rulings_5_and_7_a_control_change() {
    let event = [0, 0x12, 0, 0, 1, 2, 3, 4];
    for features in WITH {
        assert_eq!(notification(&event, V1_3, features, GOOD), (0, vec![0x1200, 0x0201, 0x0403]));
        // any id, and any bits of the mask
        for (id, mask) in [(0, 0), (1, 7), (0xffff, 0), (0, 0xffff), (0xffff, 0xffff)] {
            let event = wire::words(&[0x1200, mask << 16 | id]);
            assert_eq!(notification(&event, V1_3, features, GOOD), (0, vec![0x1200, id, mask]));
        }
        for code in [0x1201, 0x11ff, 0x1_1200, 0x1200_0000, 0x0012, 0] {
            assert_eq!(notification(&wire::words(&[code, 5]), V1_3, features, GOOD), (IO_ERROR, NO_VALUES));
        }
    }
    for (version, features) in plain() {
        for code in [0x1200, 0x1201] {
            assert_eq!(notification(&wire::words(&[code, 5]), version, features, GOOD), (IO_ERROR, NO_VALUES));
        }
    }
}

#[test]
fn rulings_9_and_10_all_else_is_as_in_1_2() {
    let all = plain().into_iter().chain(WITH.map(|features| (V1_3, features)));
    for (version, features) in all {
        for code in (0x0ff0..=0x1210).chain([0, 0x8000, u32::MAX]) {
            if code == 0x1200 && has_controls(version, features) {
                continue;
            }
            let event = wire::words(&[code, 0x8765_4321]);
            let mut result = [0; RESULT_SIZE];
            let answer = number(entries::notification(&event, &mut result));
            let values = if answer == 0 { vec![wire::u32_at(&result, 0), wire::u32_at(&result, 4)] } else { vec![] };
            assert_eq!(notification(&event, version, features, GOOD), (answer, values));
            assert_eq!(answer == 0, matches!(code, 0x1000 | 0x1001 | 0x1100 | 0x1101));
        }
    }
}

#[test]
fn ruling_8_the_order_of_an_events_refusals() {
    for length in (0..=20).filter(|length| *length != 8) {
        for code in [0x1000, 0x1200, 0x1201, 0x8001] {
            let event = &wire::words(&[code, 1, 2, 3, 4])[..length];
            // before the code, in every mode
            for (version, features) in plain().into_iter().chain(WITH.map(|features| (V1_3, features))) {
                assert_eq!(notification(event, version, features, GOOD), (513, NO_VALUES));
                assert_eq!(notification(event, version, features, GOOD - 1), (10, NO_VALUES));
            }
            // after the version
            for version in UNKNOWN {
                assert_eq!(notification(event, version, 1, GOOD), (1, NO_VALUES));
                assert_eq!(notification(event, version, 1, GOOD - 1), (10, NO_VALUES));
            }
        }
    }
    for code in [0x1000, 0x1200, 0x1201] {
        for version in UNKNOWN {
            assert_eq!(notification(&wire::words(&[code, 1]), version, 1, GOOD), (1, NO_VALUES));
        }
        assert_eq!(notification(&wire::words(&[code, 1]), V1_3, 1, 0), (10, NO_VALUES));
    }
}
