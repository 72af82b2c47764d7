//! Request 2026-12: two traces compared. "A tool takes two traces of that form and lists every difference in order."

use crate::trace::{Fault, Field, scan};
use crate::wire::{self, u32_at, u64_at};
use crate::{BAD_TRACE, LIST_FULL};

/// An entry of a list: position 8, kind 1, tag 1, three numbers of the first, three of the second, 4 each.
pub const ENTRY: usize = 34;

/// "A field only in one, or the same position and tag with other contents, both named." A position is a field's number, from 0.
#[derive(Copy, Clone, Debug, PartialEq, Eq)]
pub enum Difference {
    OnlyFirst { at: u64, field: Field },
    OnlySecond { at: u64, field: Field },
    Other { at: u64, first: Field, second: Field },
}

use Difference::{OnlyFirst, OnlySecond, Other};

/// A field's numbers in its own order, and zeros.
fn numbers(field: Field) -> [u32; 3] {
    match field {
        Field::Start { stream, length, period } => [stream, length, period],
        Field::Submitted { slot, offset, length } => [slot.into(), offset, length],
        Field::Completed { slot, status } => [slot.into(), status, 0],
        Field::End { answer } => [answer.into(), 0, 0],
    }
}

/// The field of a tag and its numbers.
fn field_of(tag: u8, [a, b, c]: [u32; 3]) -> Option<Field> {
    let small = u8::try_from(a);
    Some(match tag {
        0 => Field::Start { stream: a, length: b, period: c },
        1 => Field::Submitted { slot: small.ok()?, offset: b, length: c },
        2 => Field::Completed { slot: small.ok()?, status: b },
        3 => Field::End { answer: small.ok()? },
        _ => return None,
    })
}

impl Difference {
    fn at(self) -> u64 {
        match self {
            OnlyFirst { at, .. } | OnlySecond { at, .. } | Other { at, .. } => at,
        }
    }

    /// As it stands in a list; zeros where there is no field.
    pub fn entry(self) -> Vec<u8> {
        let (kind, tag, first, second) = match self {
            OnlyFirst { field, .. } => (0, field.tag(), numbers(field), [0; 3]),
            OnlySecond { field, .. } => (1, field.tag(), [0; 3], numbers(field)),
            Other { first, second, .. } => (2, first.tag(), numbers(first), numbers(second)),
        };
        [&self.at().to_le_bytes()[..], &[kind, tag], &wire::words(&first), &wire::words(&second)].concat()
    }

    /// An entry read back: a list is of use without the traces.
    pub fn read(entry: &[u8]) -> Option<Self> {
        let (at, tag) = (u64_at(entry, 0), entry[9]);
        let named = |from: usize| field_of(tag, [0, 4, 8].map(|n| u32_at(entry, from + n)));
        Some(match entry[8] {
            0 => OnlyFirst { at, field: named(10)? },
            1 => OnlySecond { at, field: named(22)? },
            2 => Other { at, first: named(10)?, second: named(22)? },
            _ => return None,
        })
    }
}

/// Position by position: "other tags at one position count as one only in the first, then one only in the second".
pub fn of_fields(first: &[Field], second: &[Field]) -> Vec<Difference> {
    let mut all = vec![];
    for at in 0..first.len().max(second.len()) {
        let (ours, theirs, at) = (first.get(at).copied(), second.get(at).copied(), at as u64);
        match (ours, theirs) {
            (Some(first), Some(second)) if first == second => {}
            (Some(first), Some(second)) if first.tag() == second.tag() => all.push(Other { at, first, second }),
            _ => {
                all.extend(ours.map(|field| OnlyFirst { at, field }));
                all.extend(theirs.map(|field| OnlySecond { at, field }));
            }
        }
    }
    all
}

/// What the list does not name stays; what is only in the first is taken away, what is only in the second is put at its place, what is other
/// is replaced.
pub fn applied(list: &[Difference], first: &[Field]) -> Vec<Field> {
    let past = list.iter().map(|difference| difference.at() + 1).max().unwrap_or(0);
    let mut fields = vec![];
    for at in 0..past.max(first.len() as u64) {
        let mut old = first.get(at as usize).copied();
        for difference in list.iter().filter(|difference| difference.at() == at) {
            match *difference {
                OnlyFirst { .. } => old = None,
                OnlySecond { field, .. } => fields.push(field),
                Other { second, .. } => old = Some(second),
            }
        }
        fields.extend(old);
    }
    fields
}

/// Why there is no list: "18 for either trace, the first one judged first"; which one, and where.
#[derive(Copy, Clone, Debug, PartialEq, Eq)]
pub enum Refused {
    First(Fault),
    Second(Fault),
    /// "20 ListFull exactly when the differences outnumber the room lent"
    Full,
}

impl Refused {
    pub fn number(self) -> u8 {
        if self == Refused::Full { LIST_FULL } else { BAD_TRACE }
    }
}

/// Both need be traces; neither need be a run's.
pub fn differences(first: &[u8], second: &[u8]) -> Result<Vec<Difference>, Refused> {
    let (first, second) = (scan(first).map_err(Refused::First)?, scan(second).map_err(Refused::Second)?);
    Ok(of_fields(&first, &second))
}

/// The list goes to the front of the room, whose whole entries count; a refusal leaves it. How many there are.
pub fn compare(first: &[u8], second: &[u8], room: &mut [u8]) -> Result<u64, Refused> {
    let list = differences(first, second)?;
    if list.len() > room.len() / ENTRY {
        return Err(Refused::Full);
    }
    for (place, difference) in room.chunks_mut(ENTRY).zip(&list) {
        place.copy_from_slice(&difference.entry());
    }
    Ok(list.len() as u64)
}

fn field_text(field: Field) -> String {
    match field {
        Field::Start { stream, length, period } => format!("start stream {stream} length {length} period {period}"),
        Field::Submitted { slot, offset, length } => format!("submitted slot {slot} offset {offset} length {length}"),
        Field::Completed { slot, status } => format!("completed slot {slot} status {status:#x}"),
        Field::End { answer } => format!("end answer {answer}"),
    }
}

/// As it is printed: the count, then one line an entry, two for what is other.
pub fn printed(first: &[u8], second: &[u8]) -> String {
    let list = match differences(first, second) {
        Err(Refused::First(fault)) => return format!("refused {} first {}\n", fault.number, fault.at),
        Err(Refused::Second(fault)) => return format!("refused {} second {}\n", fault.number, fault.at),
        Err(Refused::Full) => unreachable!("no room was lent"),
        Ok(list) => list,
    };
    let mut text = format!("differences {}\n", list.len());
    for difference in list {
        let at = difference.at();
        text += &match difference {
            OnlyFirst { field, .. } => format!("{at} - {}\n", field_text(field)),
            OnlySecond { field, .. } => format!("{at} + {}\n", field_text(field)),
            Other { first, second, .. } => format!("{at} < {}\n{at} > {}\n", field_text(first), field_text(second)),
        };
    }
    text
}
