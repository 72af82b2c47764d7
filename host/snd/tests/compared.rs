//! Two traces compared: the rows of the list, its room, what is refused, and that the list applied to the first gives the second.
mod common;
use common::Random;
use common::entries::entry;
use common::lent::Lent;
use common::{failed_trace, trace as example};
use snd::trace::{self, Difference, ENTRY_SIZE, Entries, Field, Fields, Judged, Unlisted};
use snd::{Refusal, STATUS_OK, ffi};

const FILL: u8 = 0x6d;

/// The bytes that docs/TRACE.md shows.
#[test]
fn the_rows_are_those_of_the_page() {
    let page = include_str!("../../../docs/TRACE.md");
    let (_, block) = page.split_once("have five differences:\n\n").unwrap();
    let block: Vec<_> = block.lines().take_while(|line| line.starts_with("    ")).collect();
    let words = block.iter().flat_map(|line| line.split_whitespace());
    let shown: Vec<u8> = words.map(|word| u8::from_str_radix(word, 16).unwrap()).collect();
    assert_eq!((block.len(), shown.len()), (5, 5 * ENTRY_SIZE));
    let mut list = [FILL; 5 * ENTRY_SIZE];
    let entries = trace::compare(&example(), &failed_trace(), &mut list).unwrap();
    assert_eq!(entries.count(), 5);
    assert_eq!(list[..], shown);
}

#[test]
fn a_list_is_full_exactly_when_the_entries_do_not_fit() {
    for room in 0..=6 * ENTRY_SIZE {
        let mut lent = Lent::good();
        lent.list = vec![FILL; room];
        let before = lent.clone();
        let said = (entry("snd_compare").call)(&mut lent);
        if room < 5 * ENTRY_SIZE {
            assert_eq!(said, 20, "{room}");
            assert!(lent == before, "a refusal changed a byte");
        } else {
            assert_eq!(said, 0, "{room}");
            let (rows, rest) = lent.list.split_at(5 * ENTRY_SIZE);
            assert_eq!(Entries::of(rows).count(), 5);
            assert!(rest.iter().all(|byte| *byte == FILL), "behind the list");
            lent.list = before.list.clone();
            assert!(lent == before, "it changed a byte besides the list");
        }
    }
    assert_eq!(trace::differences(&example(), &failed_trace()), Ok(5));
    let none = trace::compare(&example(), &failed_trace(), &mut []);
    assert_eq!(none.unwrap_err(), Unlisted::Full);
    // equal ones need no room
    assert_eq!(ffi::snd_compare(&example(), &example(), &mut []), 0);
}

#[test]
fn the_first_is_judged_first() {
    let cut = &example()[..30];
    let bad = |at| Judged {
        number: Refusal::BadTrace,
        at,
    };
    let refused = |first: &[u8], second: &[u8]| {
        let mut list = [FILL; 40];
        let said = trace::compare(first, second, &mut list).map(Iterator::count);
        assert_eq!(trace::differences(first, second).unwrap_err(), said.unwrap_err());
        assert_eq!((ffi::snd_compare(first, second, &mut list), list), (18, [FILL; 40]));
        assert_eq!(ffi::snd_differences(first, second), 0);
        said.unwrap_err()
    };
    assert_eq!(refused(cut, &example()), Unlisted::First(bad(27)));
    assert_eq!(refused(&example(), cut), Unlisted::Second(bad(27)));
    assert_eq!(refused(cut, &[]), Unlisted::First(bad(27)));
    assert_eq!(refused(&example(), &[]), Unlisted::Second(bad(0)));
    // before the list is looked at
    assert_eq!(ffi::snd_compare(&example(), cut, &mut []), 18);
    let told = [Unlisted::First(bad(27)), Unlisted::Second(bad(0)), Unlisted::Full];
    assert_eq!(told.map(|one| one.to_string()), ["18 first 27", "18 second 0", "20"]);
    assert_eq!(told.map(|one| one.number().number()), [18, 18, 20]);
}

/// Rows that nobody wrote are not taken for differences.
#[test]
fn a_row_that_is_no_entry_ends_the_list() {
    let mut list = [0; 3 * ENTRY_SIZE];
    trace::compare(&[3, 1, 0, 0], &[3, 1, 0, 2], &mut list).unwrap();
    let read = |at: usize, byte: u8| {
        let mut other = list;
        other[at] = byte;
        Entries::of(&other).count()
    };
    // zeros are a start that only the first has
    assert_eq!(read(0, 0), 3);
    // another kind, another tag, an answer of more than a byte
    assert_eq!([read(8, 3), read(9, 4), read(11, 1), read(23, 1)], [0; 4]);
    assert_eq!(read(ENTRY_SIZE + 8, 9), 1);
    assert_eq!(Entries::of(&list[..ENTRY_SIZE - 1]).count(), 0);
}

fn bytes(fields: &[Field]) -> Vec<u8> {
    let mut bytes = vec![];
    for field in fields {
        let words = |small: &[u8], numbers: &[u32]| {
            let numbers = numbers.iter().flat_map(|number| number.to_le_bytes());
            small.iter().copied().chain(numbers).collect::<Vec<u8>>()
        };
        let contents = match *field {
            Field::Start { stream, length, period } => words(&[], &[stream, length, period]),
            Field::Submitted { slot, offset, length } => words(&[slot], &[offset, length]),
            Field::Completed { slot, status } => words(&[slot], &[status]),
            Field::End { answer } => words(&[answer], &[]),
        };
        bytes.extend([field.tag(), contents.len() as u8, 0]);
        bytes.extend(contents);
    }
    bytes
}

/// What the list does not name stays; what it names is taken away, put in, or replaced.
fn applied(list: &[Difference], first: &[Field]) -> Vec<Field> {
    let past = list.iter().map(|one| one.position() + 1).max().unwrap_or(0);
    let mut fields = vec![];
    for position in 0..past.max(first.len() as u64) {
        let named: Vec<_> = list.iter().filter(|one| one.position() == position).collect();
        if named.is_empty() {
            fields.push(first[position as usize]);
        }
        fields.extend(named.iter().filter_map(|one| one.second()));
    }
    fields
}

fn field(random: &mut Random) -> Field {
    let slot = random.below(3) as u8;
    let small = random.below(3) as u32;
    match random.below(4) {
        0 => Field::Start {
            stream: small,
            length: 4,
            period: 4,
        },
        1 => Field::Submitted {
            slot,
            offset: small,
            length: 4,
        },
        2 => Field::Completed {
            slot,
            status: STATUS_OK + small,
        },
        _ => Field::End { answer: slot },
    }
}

#[test]
fn applied_to_the_first_it_gives_the_second() {
    let mut random = Random(12);
    let mut equal = 0;
    for _ in 0..5_000 {
        let [first, second] = [0, 1].map(|_| {
            let length = 1 + random.below(5);
            (0..length).map(|_| field(&mut random)).collect::<Vec<_>>()
        });
        let (one, two) = (bytes(&first), bytes(&second));
        assert_eq!(Fields::of(&one).map(|(_, field)| field).collect::<Vec<_>>(), first);
        let mut list = [FILL; 10 * ENTRY_SIZE];
        let listed: Vec<_> = trace::compare(&one, &two, &mut list).unwrap().collect();
        assert_eq!(trace::differences(&one, &two), Ok(listed.len()));
        assert_eq!(listed.is_empty(), one == two);
        assert_eq!(applied(&listed, &first), second, "{listed:?}");
        equal += u32::from(one == two);
    }
    assert!(equal > 0, "no two were equal");
}
