//! The vectors of FIPS 180-4, and sums whose bytes come in parts.
use sha256::{Sha256, hex};

#[test]
fn known_vectors() {
    assert_eq!(
        hex(b""),
        "e3b0c44298fc1c149afbf4c8996fb92427ae41e4649b934ca495991b7852b855"
    );
    assert_eq!(
        hex(b"abc"),
        "ba7816bf8f01cfea414140de5dae2223b00361a396177a9cb410ff61f20015ad"
    );
    let two_blocks = b"abcdbcdecdefdefgefghfghighijhijkijkljklmklmnlmnomnopnopq";
    assert_eq!(
        hex(two_blocks),
        "248d6a61d20638b8e5c026930c3e6039a33ce45964ff2167f6ecedd419db06c1"
    );
    assert_eq!(
        hex(&vec![b'a'; 1_000_000]),
        "cdc76e5c9914fb9281a1c7e284d73e67f1809a48a497200e046d39ccc7112cd0"
    );
}

/// Every length around two blocks, cut at every place: the parts have the sum of the whole.
#[test]
fn parts() {
    let bytes: Vec<u8> = (0..=130).collect();
    for length in 0..=bytes.len() {
        let whole = hex(&bytes[..length]);
        for cut in 0..=length {
            let mut sum = Sha256::new();
            sum.update(&bytes[..cut]);
            sum.update(&bytes[cut..length]);
            assert_eq!(sum.hex(), whole, "{length} cut at {cut}");
        }
    }
}
