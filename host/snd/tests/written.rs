//! Strict mode: of an answer only what the device wrote is read.
mod common;
use common::{Desk, PARAMS, Random, sent};
use snd::{Exchange, Model, PAGE_SIZE, Page, Params, PcmInfo, Refusal, Ring, Sound, Status, Step, Unfed, Value};

const JACKS: u32 = 1;
const STREAMS: u32 = 0x0100;
const MAPS: u32 = 0x0200;
const REMAP: u32 = 2;

fn code(request: &[u8]) -> u32 {
    u32::from_le_bytes(request[..4].try_into().unwrap())
}

/// Feeds the device's answers with its own lengths, but that of requests of one code so many bytes were written. What was sent, by code,
/// and the call's result.
fn finish<T: Value>(
    desk: &mut Desk,
    first: Result<Step<T>, Refusal>,
    cut: Option<(u32, usize)>,
) -> (Vec<u32>, Result<T, Refusal>) {
    let (mut codes, mut step) = (vec![], first);
    loop {
        match step {
            Ok(Step::Done(value)) => return (codes, Ok(value)),
            Err(refusal) => return (codes, Err(refusal)),
            Ok(Step::Send(exchange)) => {
                let asked = code(exchange.bytes());
                codes.push(asked);
                let written = desk.device.control(exchange.bytes(), &mut desk.page).unwrap();
                let written = cut.filter(|(code, _)| *code == asked).map_or(written, |(_, cut)| cut);
                let fed = desk.sound.feed_written(exchange, &desk.page, written);
                step = fed.map_err(Refusal::from);
            }
        }
    }
}

#[test]
fn the_devices_own_lengths_lead_where_whole_pages_lead() {
    let (mut strict, mut whole) = (Desk::new(), Desk::new());
    let step = strict.sound.pcm_set_params(&strict.ring, 0, PARAMS);
    let (codes, said) = finish(&mut strict, step, None);
    let step = whole.sound.pcm_set_params(&whole.ring, 0, PARAMS);
    assert_eq!((codes, said), (vec![JACKS, STREAMS, MAPS, 0x0101], whole.finish(step)));
    assert!(strict.sound == whole.sound && strict.device == whole.device);
    // mixed, each feed by itself
    let step = strict.sound.pcm_prepare(&strict.ring, 0);
    assert_eq!(strict.finish(step), Ok(()));
}

#[test]
fn a_header_alone_leaves_no_jack_though_the_page_holds_old_ones() {
    // read whole, the page has a jack that can be remapped: the remap goes out
    let mut desk = Desk::new();
    let jacks = sent(desk.sound.jack_remap(&desk.ring, 0, 1, 2));
    desk.device.control(jacks.bytes(), &mut desk.page).unwrap();
    let step = desk.sound.feed(jacks, &desk.page);
    assert_eq!(finish(&mut desk, step, None).0, [STREAMS, MAPS, REMAP]);
    for cut in [0, 3, 4, 4 + 2 * 24 - 1] {
        let mut desk = Desk::new();
        let step = desk.sound.jack_remap(&desk.ring, 0, 1, 2);
        let (codes, said) = finish(&mut desk, step, Some((JACKS, cut)));
        assert_eq!(
            (codes, said),
            (vec![JACKS, STREAMS, MAPS], Err(Refusal::NoInfo)),
            "{cut} bytes"
        );
        // set-up is done, with no jack
        let step = desk.sound.output_streams(&desk.ring);
        assert!(matches!(step, Ok(Step::Done(_))), "{cut} bytes");
    }
    // just enough
    let mut desk = Desk::new();
    let step = desk.sound.jack_remap(&desk.ring, 0, 1, 2);
    let (codes, _) = finish(&mut desk, step, Some((JACKS, 4 + 2 * 24)));
    assert_eq!(codes, [JACKS, STREAMS, MAPS, REMAP]);
}

/// A call on a device that also has a channel map: it has had so many whole answers, and the next one stands in the page.
fn answered(feeds: usize) -> (Desk, Exchange<()>) {
    let (jack, map) = ([1; 24], [2; 24]);
    let stream = PcmInfo::output(1, 2).to_bytes();
    let mut desk = Desk {
        device: Model::new(&[jack; 2], &[stream; 2], &[map]).unwrap(),
        sound: Sound::new(2, 2, 1),
        ..Desk::new()
    };
    let mut exchange = sent(desk.sound.pcm_set_params(&desk.ring, 1, PARAMS));
    for _ in 0..feeds {
        desk.device.control(exchange.bytes(), &mut desk.page).unwrap();
        exchange = sent(desk.sound.feed(exchange, &desk.page));
    }
    desk.device.control(exchange.bytes(), &mut desk.page).unwrap();
    (desk, exchange)
}

#[test]
fn what_stands_past_the_length_plays_no_part() {
    let mut random = Random(0x5eed_0011);
    for written in [0, 3, 4, 27, 28, 51, 52, 67, 68, 100, 4095] {
        for feeds in 0..4 {
            let ((mut one, asked), (mut two, again)) = (answered(feeds), answered(feeds));
            random.fill(&mut two.page.bytes_mut()[written..]);
            let said = one.sound.feed_written(asked, &one.page, written);
            assert_eq!(said, two.sound.feed_written(again, &two.page, written));
            assert!(one.sound == two.sound, "{written} bytes after {feeds} feeds");
        }
    }
}

#[test]
fn after_11_the_state_is_the_one_after_7() {
    for (feeds, most) in [(0, 51), (1, 67), (2, 27), (3, 3)] {
        for written in [0, 3, most] {
            let ((mut short, asked), (mut failed, again)) = (answered(feeds), answered(feeds));
            let said = short.sound.feed_written(asked, &short.page, written);
            let other = failed.sound.feed_failure(again);
            assert!(short.sound == failed.sound, "{written} bytes after {feeds} feeds");
            match other {
                // jacks and maps: set-up goes on with the same request
                Ok(next) => assert_eq!(said, Ok(next)),
                Err(refusal) => {
                    let short = Err(Unfed::Refused(Refusal::Short));
                    assert_eq!((said, refusal), (short, Refusal::QueueFailed));
                }
            }
        }
    }
}

#[test]
fn four_bytes_are_a_whole_answer_to_a_command() {
    let mut desk = Desk::with_params();
    let to = Params { period: 8, ..PARAMS };
    let step = desk.sound.pcm_set_params(&desk.ring, 0, to);
    assert_eq!(finish(&mut desk, step, Some((0x0101, 4))).1, Ok(()));
    let step = desk.sound.jack_remap(&desk.ring, 0, 1, 2);
    assert_eq!(finish(&mut desk, step, Some((REMAP, 3))).1, Err(Refusal::Short));
}

#[test]
fn the_header_is_judged_after_its_length_and_before_the_count() {
    let ring = Ring::new();
    let mut page = Page::new();
    for (status, written, refusal) in [
        (0x8001_u32, 3, Refusal::Short),
        (0x8001, 4, Refusal::IoError(Some(Status::BadMessage))),
        (0x8000, 3, Refusal::Short),
        (0x8000, 4, Refusal::TooMany),
    ] {
        page.bytes_mut()[..4].copy_from_slice(&status.to_le_bytes());
        let mut sound = Sound::new(0, 128, 0);
        let jacks = sent(sound.pcm_prepare(&ring, 0));
        let streams = sent(sound.feed_failure(jacks));
        let fed = sound.feed_written(streams, &page, written);
        assert_eq!(fed, Err(Unfed::Refused(refusal)), "{status:#x}, {written} bytes");
    }
}

#[test]
fn a_length_above_a_page_gives_the_exchange_back() {
    let (mut desk, mut exchange) = answered(1);
    let before = desk.sound.clone();
    for written in [PAGE_SIZE + 1, usize::MAX] {
        let said = desk.sound.feed_written(exchange, &desk.page, written);
        let Err(Unfed::TooLong(back)) = said else {
            panic!("no page has {written} bytes")
        };
        assert!(desk.sound == before);
        exchange = back;
    }
    assert!(matches!(
        desk.sound.feed_written(exchange, &desk.page, PAGE_SIZE),
        Ok(Step::Send(_))
    ));
    // its number, and what a host may do instead
    let (mut desk, exchange) = answered(1);
    let said = desk
        .sound
        .feed_written(exchange, &desk.page, PAGE_SIZE + 1)
        .unwrap_err();
    assert_eq!(
        (said.refusal(), said.to_string()),
        (Refusal::BadLength, "10 BadLength".into())
    );
    let Unfed::TooLong(exchange) = said else {
        panic!("it comes back")
    };
    assert_eq!(desk.sound.feed_failure(exchange), Err(Refusal::QueueFailed));
}

#[test]
fn an_exchange_that_is_not_the_open_one_is_1() {
    let (mut desk, open) = answered(0);
    let (_, other) = answered(1);
    let before = desk.sound.clone();
    let said = desk.sound.feed_written(other, &desk.page, PAGE_SIZE);
    assert_eq!(said, Err(Unfed::Refused(Refusal::InvalidParam)));
    assert!(desk.sound == before);
    assert!(matches!(
        desk.sound.feed_written(open, &desk.page, PAGE_SIZE),
        Ok(Step::Send(_))
    ));
}
