//! Little-endian numbers in results. A place outside the slice reads as 0, so nothing here can fail.
use crate::RESULT_SIZE;

/// A result as the entries fill it.
pub(crate) type Results = [u8; RESULT_SIZE];

/// The `N` bytes at a place.
pub(crate) fn run<const N: usize>(bytes: &[u8], at: usize) -> [u8; N] {
    let found = bytes.get(at..).and_then(|rest| rest.first_chunk::<N>());
    found.copied().unwrap_or([0; N])
}

pub(crate) fn u32_at(bytes: &[u8], at: usize) -> u32 {
    u32::from_le_bytes(run(bytes, at))
}

pub(crate) fn u64_at(bytes: &[u8], at: usize) -> u64 {
    u64::from_le_bytes(run(bytes, at))
}

/// An offset or a length; a `usize` has 64 bits on every target that the crate takes.
pub(crate) fn size_at(bytes: &[u8], at: usize) -> usize {
    u64_at(bytes, at) as usize
}

/// The part of `whole` that a result names by offset and length at a place; `None` if it is no part of it.
pub(crate) fn part_at<'a>(whole: &'a [u8], bytes: &[u8], at: usize) -> Option<&'a [u8]> {
    let offset = size_at(bytes, at);
    let length = size_at(bytes, at.saturating_add(8));
    whole.get(offset..)?.get(..length)
}

/// Puts `from` at a place of `to`, as far as it has room there.
pub(crate) fn put(to: &mut [u8], at: usize, from: &[u8]) {
    let room = to.get_mut(at..).unwrap_or_default();
    for (byte, new) in room.iter_mut().zip(from) {
        *byte = *new;
    }
}

#[cfg(test)]
mod tests {
    use super::{part_at, put, u32_at, u64_at};

    #[test]
    fn places_outside_read_as_0_and_take_nothing() {
        let mut bytes = [1, 2, 3, 4, 5];
        assert_eq!(
            (u32_at(&bytes, 1), u32_at(&bytes, 2), u64_at(&bytes, usize::MAX)),
            (0x0504_0302, 0, 0)
        );
        put(&mut bytes, 4, &[9, 9]);
        put(&mut bytes, usize::MAX, &[9]);
        assert_eq!(bytes, [1, 2, 3, 4, 9]);
    }

    #[test]
    fn a_part_is_inside_or_none() {
        let named = |offset: u64, length: u64| {
            let mut bytes = [0; 16];
            put(&mut bytes, 0, &offset.to_le_bytes());
            put(&mut bytes, 8, &length.to_le_bytes());
            bytes
        };
        assert_eq!(part_at(b"frames", &named(2, 4), 0), Some(&b"ames"[..]));
        assert_eq!(part_at(b"frames", &named(6, 0), 0), Some(&b""[..]));
        assert_eq!(part_at(b"frames", &named(2, 5), 0), None);
        assert_eq!(part_at(b"frames", &named(u64::MAX, u64::MAX), 0), None);
    }
}
