//! What is reserved is 0: a state in which it is not is inconsistent.
use rules::ring::Ring;
use rules::sound::{Call, Fed, Say, Sound};
use rules::{INVALID_PARAM, RESERVED};

#[test]
fn a_reserved_byte_that_is_not_0_is_refused() {
    let refused = Say::refused(INVALID_PARAM);
    for at in 0..RESERVED {
        let mut message = [0; 24];
        let mut sound = Sound::new([0, 1, 0]);
        sound.reserved[at] = 1;
        let before = sound.clone();
        assert_eq!(sound.call(&Ring::default(), Call::OutputStreams, &mut message), refused);
        assert_eq!(sound.feed(Fed::Failure, &mut message), refused);
        assert_eq!(sound.xfer_start(&mut Ring::default(), 0, 8, 9, &mut message), refused);
        assert_eq!((sound, message), (before, [0; 24]));
    }
}
