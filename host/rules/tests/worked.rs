//! Document 01's worked numbers, said of this reading of it.
use rules::event::{Event, latest_notification};
use rules::ring::{Reading, Ring, Turn};
use rules::sound::{Call, Fed, Params, Say, Sound, Value};
use rules::wire;

fn page(status: u32) -> Vec<u8> {
    let mut page = wire::words(&[status]);
    page.resize(4096, 0);
    page
}

/// Makes a call, every answer ok: the requests that were sent, and what was said last.
fn all_ok(sound: &mut Sound, call: Call) -> (Vec<Vec<u8>>, Say) {
    let mut message = [0; 24];
    let mut say = sound.call(&Ring::default(), call, &mut message);
    let mut requests = vec![];
    while let Say::Send(n) = say {
        requests.push(message[..n].to_vec());
        say = sound.feed(Fed::Page(&page(wire::STATUS_OK)), &mut message);
    }
    (requests, say)
}

fn set(stream: u32, buffer: u32, period: u32) -> Call {
    let params = Params { buffer, period, features: 0, channels: 2, format: 5, rate: 7 };
    Call::SetParams { stream, params }
}

#[test]
fn set_parameters() {
    let (requests, say) = all_ok(&mut Sound::new([0, 2, 0]), set(1, 8192, 2048));
    let bytes = [1, 1, 0, 0, 1, 0, 0, 0, 0, 0x20, 0, 0, 0, 8, 0, 0, 0, 0, 0, 0, 2, 5, 7, 0];
    assert_eq!((requests[3].as_slice(), say), (&bytes[..], Say::Done(Value::Nothing)));
}

#[test]
fn query_of_three_jacks() {
    let (requests, _) = all_ok(&mut Sound::new([3, 0, 0]), Call::OutputStreams);
    assert_eq!(requests[0], [1, 0, 0, 0, 0, 0, 0, 0, 3, 0, 0, 0, 0x18, 0, 0, 0]);
}

#[test]
fn the_period_rule_comes_after_set_up() {
    for (buffer, period, sent) in [(8, 8, 4), (8, 3, 3), (8, 0, 3)] {
        let (requests, say) = all_ok(&mut Sound::new([0, 1, 0]), set(0, buffer, period));
        let said = if sent == 4 { Say::Done(Value::Nothing) } else { Say::refused(1) };
        assert_eq!((requests.len(), say), (sent, said));
    }
}

#[test]
fn what_a_page_holds() {
    let says = |counts| all_ok(&mut Sound::new(counts), Call::InputStreams).1;
    assert_eq!(says([0, 127, 0]), Say::Done(Value::Streams(vec![])));
    for counts in [[0, 128, 0], [171, 0, 0], [0, 0, 171], [u32::MAX, 0, 0]] {
        assert_eq!(says(counts), Say::refused(5));
    }
}

#[test]
fn a_refused_query_of_171_jacks_is_an_empty_table() {
    let (mut sound, mut message) = (Sound::new([171, 0, 0]), [0; 24]);
    assert_eq!(sound.call(&Ring::default(), Call::OutputStreams, &mut message), Say::Send(16));
    assert_eq!(sound.feed(Fed::Page(&page(0x8001)), &mut message), Say::Send(16));
}

/// Runs a transfer: each submission's length, the answer, the turns run.
fn transfer(frames: u64, period: u64, budget: u64, completes: bool) -> (Vec<u64>, u8, Ring) {
    let mut ring = Ring::default();
    assert_eq!(ring.start(0, frames, period, budget), Turn::Going);
    let mut lengths = vec![];
    loop {
        let offer = ring.offered(frames).unwrap();
        lengths.extend(offer.map(|offer| offer.length));
        let oldest = ring.oldest().or(offer.map(|offer| offer.slot)).unwrap_or(99);
        let reading = Reading::from_words(completes.into(), oldest as u32, wire::STATUS_OK);
        if let Turn::Ended(said) = ring.turn(frames, reading) {
            return (lengths, said.number, ring);
        }
    }
}

#[test]
fn transfers() {
    let (lengths, number, ring) = transfer(0, 4, 5, false);
    assert_eq!((lengths, number, ring.turns), (vec![], 0, 1));
    let (lengths, number, ring) = transfer(10, 4, 20, true);
    assert_eq!((lengths, number, ring.turns), (vec![4, 4, 2], 0, 4));
    let (lengths, number, ring) = transfer(11, 1, 12, false);
    assert_eq!((lengths.len(), number, ring.in_flight, ring.turns), (10, 9, 10, 12));
}

#[test]
fn events() {
    assert_eq!(latest_notification(&wire::words(&[0x1002, 7])), Event::Refused(rules::IO_ERROR.into()));
    assert_eq!(latest_notification(&wire::words(&[0x1000, 7])[..7]), Event::Nothing);
}
