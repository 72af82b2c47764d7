//! Request 2026-12, "Compare two traces": each test names the rulings on it by their numbers.
use rules::differences::{
    Difference::{self, OnlyFirst, OnlySecond, Other},
    ENTRY, Refused, applied, compare, differences, printed,
};
use rules::trace::{Fault, Field, bytes, judge, scan};
use rules::wire::{STATUS_OK, u64_at};
use rules::{BAD_TRACE, LIST_FULL};

const FILL: u8 = 0xb7;

fn start(length: u32) -> Field {
    Field::Start { stream: 1, length, period: 4 }
}
fn submitted(slot: u8, offset: u32, length: u32) -> Field {
    Field::Submitted { slot, offset, length }
}
fn completed(slot: u8, status: u32) -> Field {
    Field::Completed { slot, status }
}
fn end(answer: u8) -> Field {
    Field::End { answer }
}

/// Two traces of a 10-byte announcement: one that was heard to its end, one of which the second period failed.
fn announcements() -> [Vec<u8>; 2] {
    let good = |slot| completed(slot, STATUS_OK);
    let head = [start(10), submitted(0, 0, 4), good(0), submitted(1, 4, 4)];
    let whole = [&head[..], &[good(1), submitted(2, 8, 2), good(2), end(0)]].concat();
    let failed = [&head[..], &[completed(1, 0x8003), end(2)]].concat();
    [whole, failed].map(|fields| bytes(&fields))
}

#[test]
fn ruling_7_the_whole_example() {
    let [whole, failed] = announcements();
    assert_eq!((judge(&whole), judge(&failed)), (Ok(()), Ok(())));
    let expected = "\
differences 5
4 < completed slot 1 status 0x8000
4 > completed slot 1 status 0x8003
5 - submitted slot 2 offset 8 length 2
5 + end answer 2
6 - completed slot 2 status 0x8000
7 - end answer 0
";
    assert_eq!(printed(&whole, &failed), expected);
    assert_eq!(printed(&whole, &whole), "differences 0\n");
    // a field that is cut in the first, then in the second
    assert_eq!(printed(&whole[..20], &[]), "refused 18 first 15\n");
    assert_eq!(printed(&whole, &failed[..30]), "refused 18 second 27\n");
    assert_eq!(printed(&[], &[]), "refused 18 first 0\n");
}

#[test]
fn ruling_4_an_entry_in_bytes() {
    let difference = Other { at: 0x0102, first: submitted(3, 0x0403_0201, 5), second: submitted(4, 6, 0x0807_0605) };
    #[rustfmt::skip]
    let expected = [
        2, 1, 0, 0, 0, 0, 0, 0, 2, 1,
        3, 0, 0, 0, 1, 2, 3, 4, 5, 0, 0, 0,
        4, 0, 0, 0, 6, 0, 0, 0, 5, 6, 7, 8,
    ];
    assert_eq!(difference.entry(), expected);
    let only = OnlySecond { at: 7, field: completed(9, 0x8003) };
    #[rustfmt::skip]
    let expected = [
        7, 0, 0, 0, 0, 0, 0, 0, 1, 2,
        0, 0, 0, 0, 0, 0, 0, 0, 0, 0, 0, 0,
        9, 0, 0, 0, 3, 0x80, 0, 0, 0, 0, 0, 0,
    ];
    assert_eq!(only.entry(), expected);
    let only = OnlyFirst { at: 1, field: end(6) };
    assert_eq!((only.entry()[8..14].to_vec(), only.entry().len()), (vec![0, 3, 6, 0, 0, 0], ENTRY));
    let named = OnlyFirst { at: 0, field: Field::Start { stream: 1, length: 2, period: 3 } };
    assert_eq!(named.entry()[8..22], [0, 0, 1, 0, 0, 0, 2, 0, 0, 0, 3, 0, 0, 0]);
}

/// Every trace of up to three of these fields.
fn short_traces() -> Vec<Vec<Field>> {
    let fields =
        [start(5), start(6), submitted(0, 0, 4), submitted(0, 1, 4), completed(0, 0), completed(1, 0), end(0), end(9)];
    let (mut all, mut last) = (vec![], vec![vec![]]);
    for _ in 0..3 {
        last = last.iter().flat_map(|some: &Vec<Field>| fields.map(|field| [&some[..], &[field]].concat())).collect();
        all.extend(last.clone());
    }
    all
}

/// "An empty list exactly when the bytes are equal, and applying the list to the first gives the second."
#[test]
fn rulings_2_3_and_6_every_pair_of_short_traces() {
    let all = short_traces();
    for first in &all {
        for second in all.iter().step_by(3) {
            let (ours, theirs) = (bytes(first), bytes(second));
            let list = differences(&ours, &theirs).expect("both are traces");
            assert_eq!(list.is_empty(), ours == theirs);
            // by the entries alone
            let read: Vec<Difference> =
                list.iter().map(|entry| Difference::read(&entry.entry()).expect("an entry")).collect();
            assert_eq!(read, list);
            assert_eq!(applied(&read, first), *second);
            assert!(list.is_sorted_by_key(|difference| u64_at(&difference.entry(), 0)));
        }
    }
}

#[test]
fn ruling_3_kinds() {
    let (a, b) = (bytes(&[start(5), end(0)]), bytes(&[start(6), submitted(0, 0, 4), end(0)]));
    let expected = vec![
        Other { at: 0, first: start(5), second: start(6) },
        OnlyFirst { at: 1, field: end(0) },
        OnlySecond { at: 1, field: submitted(0, 0, 4) },
        OnlySecond { at: 2, field: end(0) },
    ];
    assert_eq!(differences(&a, &b), Ok(expected));
    // they need be no runs
    assert!(judge(&a).is_err() && judge(&b).is_err());
}

#[test]
fn ruling_1_which_is_judged_first() {
    let good = bytes(&[start(0), end(0)]);
    let bad = |at| Fault { number: BAD_TRACE, at };
    for (first, second, refused) in [
        (&good[..18], &good[..16], Refused::First(bad(15))),
        (&good[..], &good[..16], Refused::Second(bad(15))),
        (&[][..], &[][..], Refused::First(bad(0))),
        (&good[..], &[][..], Refused::Second(bad(0))),
        (&good[..14], &good[..], Refused::First(bad(0))),
    ] {
        // before the room
        let mut room = [FILL; 3];
        assert_eq!(compare(first, second, &mut room), Err(refused));
        assert_eq!((refused.number(), room), (BAD_TRACE, [FILL; 3]));
    }
}

#[test]
fn ruling_5_full_exactly_when_they_outnumber_the_room() {
    let [whole, failed] = announcements();
    for (first, second, count) in [(&whole, &failed, 5), (&failed, &whole, 5), (&whole, &whole, 0)] {
        for length in 0..=6 * ENTRY {
            let mut room = vec![FILL; length];
            let said = compare(first, second, &mut room);
            if count > length / ENTRY {
                assert_eq!((said, Refused::Full.number()), (Err(Refused::Full), LIST_FULL));
                assert_eq!(room, vec![FILL; length]);
                continue;
            }
            assert_eq!(said, Ok(count as u64));
            let (list, rest) = room.split_at(count * ENTRY);
            assert!(rest.iter().all(|byte| *byte == FILL));
            let read: Vec<Difference> = list.chunks(ENTRY).map(|entry| Difference::read(entry).unwrap()).collect();
            assert_eq!(bytes(&applied(&read, &scan(first).unwrap())), **second);
        }
    }
}
