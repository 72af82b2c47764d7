//! SHA-256 (FIPS 180-4), so that a run can say which bytes it had before it. With the feature `std` it uses the processor's own instructions for it, where
//! they are there; without `alloc` it needs no allocator.
#![no_std]
#![deny(unsafe_code)]
#![deny(clippy::unwrap_used, clippy::expect_used, clippy::panic, clippy::indexing_slicing)]

#[cfg(feature = "std")]
extern crate std;
#[cfg(all(feature = "std", target_arch = "x86_64"))]
mod instructions;

#[cfg(feature = "alloc")]
extern crate alloc;
#[cfg(feature = "alloc")]
use alloc::string::{String, ToString};
use core::fmt;

/// The first 32 bits of the fractional parts of the cube roots of the first 64 primes.
#[rustfmt::skip]
const K: [u32; 64] = [
    0x428a2f98, 0x71374491, 0xb5c0fbcf, 0xe9b5dba5, 0x3956c25b, 0x59f111f1, 0x923f82a4, 0xab1c5ed5,
    0xd807aa98, 0x12835b01, 0x243185be, 0x550c7dc3, 0x72be5d74, 0x80deb1fe, 0x9bdc06a7, 0xc19bf174,
    0xe49b69c1, 0xefbe4786, 0x0fc19dc6, 0x240ca1cc, 0x2de92c6f, 0x4a7484aa, 0x5cb0a9dc, 0x76f988da,
    0x983e5152, 0xa831c66d, 0xb00327c8, 0xbf597fc7, 0xc6e00bf3, 0xd5a79147, 0x06ca6351, 0x14292967,
    0x27b70a85, 0x2e1b2138, 0x4d2c6dfc, 0x53380d13, 0x650a7354, 0x766a0abb, 0x81c2c92e, 0x92722c85,
    0xa2bfe8a1, 0xa81a664b, 0xc24b8b70, 0xc76c51a3, 0xd192e819, 0xd6990624, 0xf40e3585, 0x106aa070,
    0x19a4c116, 0x1e376c08, 0x2748774c, 0x34b0bcb5, 0x391c0cb3, 0x4ed8aa4a, 0x5b9cca4f, 0x682e6ff3,
    0x748f82ee, 0x78a5636f, 0x84c87814, 0x8cc70208, 0x90befffa, 0xa4506ceb, 0xbef9a3f7, 0xc67178f2,
];

/// The same of the square roots of the first 8 primes.
#[rustfmt::skip]
const START: [u32; 8] = [
    0x6a09e667, 0xbb67ae85, 0x3c6ef372, 0xa54ff53a, 0x510e527f, 0x9b05688c, 0x1f83d9ab, 0x5be0cd19,
];

/// A sum, which shows itself in 64 hexadecimal digits.
#[derive(Clone, Copy, PartialEq, Eq, Debug)]
pub struct Sum([u32; 8]);

impl fmt::Display for Sum {
    fn fmt(&self, f: &mut fmt::Formatter<'_>) -> fmt::Result {
        self.0.iter().try_for_each(|word| write!(f, "{word:08x}"))
    }
}

/// A sum over bytes that come in parts.
#[derive(Clone, Debug)]
pub struct Sha256 {
    state: [u32; 8],
    /// What came since the last whole block stands at its beginning.
    rest: [u8; 64],
    length: u64,
}

impl Sha256 {
    /// The sum of nothing yet.
    #[must_use]
    pub const fn new() -> Self {
        Self {
            state: START,
            rest: [0; 64],
            length: 0,
        }
    }

    /// Takes the next bytes.
    pub fn update(&mut self, bytes: &[u8]) {
        let held = (self.length % 64) as usize;
        self.length = self.length.wrapping_add(bytes.len() as u64);
        let (filling, after) = bytes.split_at(bytes.len().min(64 - held));
        fill(self.rest.iter_mut().skip(held), filling);
        if held + filling.len() == 64 {
            take(&mut self.state, &[self.rest]);
        }
        let (blocks, rest) = after.as_chunks();
        take(&mut self.state, blocks);
        // there is none where the block before was not filled
        fill(self.rest.iter_mut(), rest);
    }

    /// The sum of all that came.
    #[must_use]
    pub fn sum(mut self) -> Sum {
        let bits = self.length.wrapping_mul(8).to_be_bytes();
        self.update(&[0x80]);
        while self.length % 64 != 56 {
            self.update(&[0]);
        }
        self.update(&bits);
        Sum(self.state)
    }

    /// The sum, in 64 hexadecimal digits.
    #[cfg(feature = "alloc")]
    #[must_use]
    pub fn hex(self) -> String {
        self.sum().to_string()
    }
}

impl Default for Sha256 {
    fn default() -> Self {
        Self::new()
    }
}

/// The sum of bytes that are all at hand.
#[must_use]
pub fn sum(bytes: &[u8]) -> Sum {
    let mut sum = Sha256::new();
    sum.update(bytes);
    sum.sum()
}

/// The same, in 64 hexadecimal digits.
#[cfg(feature = "alloc")]
#[must_use]
pub fn hex(bytes: &[u8]) -> String {
    sum(bytes).to_string()
}

/// Takes whole blocks: by the processor's instructions, or one round after the other.
fn take(state: &mut [u32; 8], blocks: &[[u8; 64]]) {
    #[cfg(all(feature = "std", target_arch = "x86_64"))]
    if instructions::take(state, blocks) {
        return;
    }
    take_plainly(state, blocks);
}

fn take_plainly(state: &mut [u32; 8], blocks: &[[u8; 64]]) {
    for whole in blocks {
        block(state, whole);
    }
}

fn fill<'p>(places: impl Iterator<Item = &'p mut u8>, bytes: &[u8]) {
    for (place, byte) in places.zip(bytes) {
        *place = *byte;
    }
}

fn block(state: &mut [u32; 8], bytes: &[u8; 64]) {
    // the sixteen words of the schedule that the next rounds need, the round's own first
    let mut w = [0u32; 16];
    for (word, four) in w.iter_mut().zip(bytes.as_chunks().0) {
        *word = u32::from_be_bytes(*four);
    }
    let mut v = *state;
    for k in K {
        v = round(v, k, w[0]);
        let s0 = w[1].rotate_right(7) ^ w[1].rotate_right(18) ^ (w[1] >> 3);
        let s1 = w[14].rotate_right(17) ^ w[14].rotate_right(19) ^ (w[14] >> 10);
        let next = w[0].wrapping_add(s0).wrapping_add(w[9]).wrapping_add(s1);
        w.rotate_left(1);
        w[15] = next;
    }
    for (word, added) in state.iter_mut().zip(v) {
        *word = word.wrapping_add(added);
    }
}

fn round([a, b, c, d, e, f, g, h]: [u32; 8], k: u32, w: u32) -> [u32; 8] {
    let s1 = e.rotate_right(6) ^ e.rotate_right(11) ^ e.rotate_right(25);
    let choice = (e & f) ^ (!e & g);
    let t1 = h.wrapping_add(s1).wrapping_add(choice).wrapping_add(k).wrapping_add(w);
    let s0 = a.rotate_right(2) ^ a.rotate_right(13) ^ a.rotate_right(22);
    let majority = (a & b) ^ (a & c) ^ (b & c);
    let t2 = s0.wrapping_add(majority);
    [t1.wrapping_add(t2), a, b, c, d.wrapping_add(t1), e, f, g]
}

#[cfg(all(test, feature = "std", target_arch = "x86_64"))]
mod tests {
    use super::{START, instructions, take_plainly};

    /// Both ways come to the same, from any state and over any number of blocks.
    #[test]
    fn the_instructions_say_the_same() {
        let (mut by_rounds, mut by_instructions) = (START, START);
        for count in 0..40 {
            let blocks = [
                [count as u8; 64],
                core::array::from_fn(|at| (at * at + count * 7) as u8),
            ];
            let blocks: std::vec::Vec<_> = blocks.into_iter().cycle().take(count).collect();
            if !instructions::take(&mut by_instructions, &blocks) {
                std::println!("this processor has no instructions for SHA-256: not tried");
                return;
            }
            take_plainly(&mut by_rounds, &blocks);
            assert_eq!(by_rounds, by_instructions);
        }
    }
}
