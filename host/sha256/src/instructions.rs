//! The same by the processor's own instructions (Intel's SHA extensions), where it has them.
#![allow(unsafe_code)]
use crate::K;
use core::arch::x86_64::{
    __m128i, _mm_add_epi32, _mm_alignr_epi8, _mm_loadu_si128, _mm_set_epi64x, _mm_setr_epi32, _mm_sha256msg1_epu32,
    _mm_sha256msg2_epu32, _mm_sha256rnds2_epu32, _mm_shuffle_epi8, _mm_shuffle_epi32, _mm_storeu_si128,
};

/// Takes whole blocks, and tells whether it could.
pub(crate) fn take(state: &mut [u32; 8], blocks: &[[u8; 64]]) -> bool {
    let there = std::is_x86_feature_detected!("sha")
        && std::is_x86_feature_detected!("ssse3")
        && std::is_x86_feature_detected!("sse4.1");
    if there {
        // SAFETY: the processor has just said that it has these instructions, which is all that the function asks for.
        unsafe { all(state, blocks) }
    }
    there
}

/// Four words, in the order of memory.
#[target_feature(enable = "sha,ssse3,sse4.1")]
fn four(words: &[u32; 4]) -> __m128i {
    let [a, b, c, d] = words.map(|word| word as i32);
    _mm_setr_epi32(a, b, c, d)
}

/// The state is kept as the instructions want it: words a, b, e, f, and c, d, g, h, each from the last to the first.
#[target_feature(enable = "sha,ssse3,sse4.1")]
fn all(state: &mut [u32; 8], blocks: &[[u8; 64]]) {
    let [a, b, c, d, e, f, g, h] = *state;
    let (mut abef, mut cdgh) = (four(&[f, e, b, a]), four(&[h, g, d, c]));
    for block in blocks {
        let (abef_before, cdgh_before) = (abef, cdgh);
        let mut words = words_of(block);
        for sixteen in K.as_chunks::<16>().0 {
            for k in sixteen.as_chunks::<4>().0 {
                let wk = _mm_add_epi32(words[0], four(k));
                cdgh = _mm_sha256rnds2_epu32(cdgh, abef, wk);
                abef = _mm_sha256rnds2_epu32(abef, cdgh, _mm_shuffle_epi32(wk, 0x0e));
                words = [words[1], words[2], words[3], next(words)];
            }
        }
        abef = _mm_add_epi32(abef, abef_before);
        cdgh = _mm_add_epi32(cdgh, cdgh_before);
    }
    let ([f, e, b, a], [h, g, d, c]) = (apart(abef), apart(cdgh));
    *state = [a, b, c, d, e, f, g, h];
}

/// The sixteen words of a block, whose bytes stand from the highest to the lowest.
#[target_feature(enable = "sha,ssse3,sse4.1")]
fn words_of(block: &[u8; 64]) -> [__m128i; 4] {
    let turned = _mm_set_epi64x(0x0c0d_0e0f_0809_0a0b, 0x0405_0607_0001_0203);
    let mut words = [turned; 4];
    for (word, bytes) in words.iter_mut().zip(block.as_chunks::<16>().0) {
        // SAFETY: sixteen bytes are read from an array of sixteen; the load asks for no alignment.
        let loaded = unsafe { _mm_loadu_si128(bytes.as_ptr().cast()) };
        *word = _mm_shuffle_epi8(loaded, turned);
    }
    words
}

/// The four words of the schedule that follow these sixteen.
#[target_feature(enable = "sha,ssse3,sse4.1")]
fn next([w0, w4, w8, w12]: [__m128i; 4]) -> __m128i {
    let sum = _mm_add_epi32(_mm_sha256msg1_epu32(w0, w4), _mm_alignr_epi8(w12, w8, 4));
    _mm_sha256msg2_epu32(sum, w12)
}

#[target_feature(enable = "sha,ssse3,sse4.1")]
fn apart(words: __m128i) -> [u32; 4] {
    let mut apart = [0u32; 4];
    // SAFETY: sixteen bytes are written to an array of sixteen; the store asks for no alignment.
    unsafe { _mm_storeu_si128(apart.as_mut_ptr().cast(), words) };
    apart
}
