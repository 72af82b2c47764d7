//! WAVE files, the port against the rules: random ones, good and damaged, each from its own seed, read and written; large ones. Every byte
//! of the lent slices is compared, and bytes around them are not touched.
use crate::case::{Frames, Rng};
use crate::ffi::{snd_wav_read, snd_wav_write};
use crate::text::hex;
use rules::entries::{RESULT_SIZE, number, wav_read, wav_write};
use rules::wave::{self, FORMATS, Fault, HEADER, MOST, RATES, Unwritten, file_length};
use std::collections::BTreeMap;

const FILL: u8 = 0x5a;
/// Bytes before a lent slice, so that it begins at an odd address, and after it.
const LEAD: usize = 1;
const PAST: usize = 16;

/// How a file was read or written, by what the rules say of it.
#[derive(Copy, Clone, Debug, PartialEq, Eq, PartialOrd, Ord)]
pub enum Kind {
    Read,
    Refused(Fault),
    /// the result slice was too short
    NoResult,
    Written,
    Unwritten(Unwritten),
}

impl Kind {
    /// All of them; frames above the writer's bound are tried with the large files.
    fn all() -> Vec<Kind> {
        let mut all = vec![Kind::Read, Kind::NoResult, Kind::Written];
        all.extend(Fault::ALL.map(Kind::Refused));
        all.extend(Unwritten::ALL.into_iter().filter(|why| *why != Unwritten::TooLarge).map(Kind::Unwritten));
        all
    }
}

/// How often each kind was seen.
#[derive(Clone, Debug, Default)]
pub struct Kinds(pub BTreeMap<Kind, u64>);

impl Kinds {
    fn count(&mut self, kind: Kind) {
        *self.0.entry(kind).or_default() += 1;
    }

    pub fn missing(&self) -> Vec<Kind> {
        Kind::all().into_iter().filter(|kind| !self.0.contains_key(kind)).collect()
    }
}

/// A lent slice among bytes that no entry may touch.
struct Lent {
    bytes: Vec<u8>,
}

impl Lent {
    fn new(bytes: &[u8]) -> Self {
        let mut all = vec![FILL; LEAD + bytes.len() + PAST];
        all[LEAD..][..bytes.len()].copy_from_slice(bytes);
        Lent { bytes: all }
    }

    fn slice(&mut self) -> &mut [u8] {
        let end = self.bytes.len() - PAST;
        &mut self.bytes[LEAD..end]
    }

    /// What the slice holds now, or that bytes beside it were written.
    fn left(&self) -> Result<&[u8], String> {
        let end = self.bytes.len() - PAST;
        let (before, after) = (&self.bytes[..LEAD], &self.bytes[end..]);
        if before.iter().chain(after).any(|byte| *byte != FILL) {
            return Err("port: bytes beside a lent slice were written".into());
        }
        Ok(&self.bytes[LEAD..end])
    }
}

fn port_read(file: &[u8], result: &mut [u8]) -> u64 {
    // SAFETY: both slices live through the call, and the one that is written overlaps no other
    unsafe { snd_wav_read(file.as_ptr(), file.len(), result.as_mut_ptr(), result.len()) }
}

fn port_write([channels, format, rate]: [u8; 3], frames: &[u8], file: &mut [u8]) -> u64 {
    // SAFETY: both slices live through the call, and the one that is written overlaps no other
    unsafe {
        let (f, n) = (frames.as_ptr(), frames.len());
        snd_wav_write(channels, format, rate, f, n, file.as_mut_ptr(), file.len())
    }
}

fn differ<T: PartialEq>(what: &str, port: T, rules: T, shown: impl Fn(T) -> String) -> Result<(), String> {
    if port == rules {
        return Ok(());
    }
    Err(format!("{what}\n  port  {}\n  rules {}", shown(port), shown(rules)))
}

fn bytes(what: &str, port: &[u8], rules: &[u8]) -> Result<(), String> {
    let Some(at) = port.iter().zip(rules).position(|(a, b)| a != b) else {
        return differ(what, port.len(), rules.len(), |length| format!("{length} bytes"));
    };
    Err(format!("{what}, from byte {at} on\n  port  {}\n  rules {}", some(&port[at..]), some(&rules[at..])))
}

fn some(bytes: &[u8]) -> String {
    hex(&bytes[..bytes.len().min(400)])
}

/// Reads a file by both.
pub fn reads(file: &[u8], result: usize) -> Result<Kind, String> {
    let (mut lent, mut plain) = (Lent::new(&vec![FILL; result]), vec![FILL; result]);
    let mut held = Lent::new(file);
    let said = port_read(held.slice(), lent.slice());
    let expected = number(wav_read(file, &mut plain));
    let named = || format!("snd_wav_read of {} bytes, result of {result}: {}", file.len(), some(file));
    differ("the answer", said, expected, |n| n.to_string()).map_err(|text| format!("{}\n{text}", named()))?;
    bytes("the result", lent.left()?, &plain).map_err(|text| format!("{}\n{text}", named()))?;
    bytes("the file, which is not written", held.left()?, file).map_err(|text| format!("{}\n{text}", named()))?;
    Ok(match wave::read(file) {
        _ if result < RESULT_SIZE => Kind::NoResult,
        Ok(_) => Kind::Read,
        Err(fault) => Kind::Refused(fault),
    })
}

/// Writes a file by both; what was written is read back.
pub fn writes(sound: [u8; 3], frames: &[u8], room: usize) -> Result<Kind, String> {
    let (mut lent, mut plain) = (Lent::new(&vec![FILL; room]), vec![FILL; room]);
    let mut held = Lent::new(frames);
    let said = port_write(sound, held.slice(), lent.slice());
    let [channels, format, rate] = sound;
    let expected = number(wav_write(channels, format, rate, frames, &mut plain));
    let named = |text| format!("snd_wav_write {sound:?} of {} bytes, room {room}\n{text}", frames.len());
    differ("the answer", said, expected, |n| n.to_string()).map_err(named)?;
    bytes("the file", lent.left()?, &plain).map_err(named)?;
    bytes("the frames, which are not written", held.left()?, frames).map_err(named)?;
    if expected == 0 {
        reads_back(sound, frames, &plain).map_err(named)?;
        return Ok(Kind::Written);
    }
    let mut again = vec![FILL; room];
    Ok(Kind::Unwritten(wave::write(channels, format, rate, frames, &mut again).expect_err("it is refused")))
}

/// "Reading gives all back", whatever stands behind.
fn reads_back(sound: [u8; 3], frames: &[u8], file: &[u8]) -> Result<(), String> {
    let mut result = [FILL; RESULT_SIZE];
    let said = port_read(file, &mut result);
    let head = [HEADER, frames.len() as u64].map(u64::to_le_bytes).concat();
    differ("the answer to what was written", said, 0, |n| n.to_string())?;
    bytes("what was written, read", &result[..19], &[&head[..], &sound].concat())?;
    bytes("the frames read", &file[HEADER as usize..][..frames.len()], frames)
}

/// One file read and one written, of this seed.
pub fn tried(seed: u64, kinds: &mut Kinds) -> Result<(), String> {
    let mut rng = Rng(seed.wrapping_mul(0x8ebc_6af0_9c88_c6e3));
    let file = file(&mut rng);
    let result = around(&mut rng, RESULT_SIZE, 9);
    kinds.count(reads(&file, result)?);
    let (sound, frames) = (sound(&mut rng), frames_len(&mut rng));
    let frames = Frames { len: frames_for(&mut rng, sound, frames), seed: seed as u8 }.bytes();
    let room = around(&mut rng, file_length(frames.len() as u64) as usize, 20);
    kinds.count(writes(sound, &frames, room)?);
    Ok(())
}

/// Mostly the right length, else around it.
fn around(rng: &mut Rng, right: usize, more: usize) -> usize {
    match rng.below(16) {
        0 => right - 1,
        1 => rng.below(right as u64) as usize,
        2 | 3 => right + 1 + rng.below(more as u64) as usize,
        _ => right,
    }
}

fn sound(rng: &mut Rng) -> [u8; 3] {
    let channels = match rng.below(8) {
        0 => rng.word() as u8,
        1 => rng.pick(&[0, 254, 255]),
        _ => 1 + rng.below(6) as u8,
    };
    let format =
        if rng.one_in(6) { rng.pick(&[0, 3, 6, 10, 12, 15, 18, 24, 25, 128, 255]) } else { rng.pick(&FORMATS) };
    let rate = if rng.one_in(8) { rng.pick(&[14, 15, 128, 255]) } else { rng.below(14) as u8 };
    [channels, format, rate]
}

fn frames_len(rng: &mut Rng) -> u64 {
    if rng.one_in(20) { rng.below(3000) } else { rng.below(24) }
}

/// Whole blocks mostly: so many of them, if the sound has any.
fn frames_for(rng: &mut Rng, [channels, format, _]: [u8; 3], blocks: u64) -> u32 {
    let block = if FORMATS.contains(&format) { wave::block(channels, format).max(1) } else { 1 };
    let odd = if rng.one_in(6) { rng.below(block) } else { 0 };
    // large blocks are few
    (block * blocks.min(40_000 / block) + odd) as u32
}

/// A file being made: chunks, each with its tag, the size that it says, and its bytes with or without a pad.
struct Chunk {
    tag: [u8; 4],
    size: u32,
    bytes: Vec<u8>,
}

impl Chunk {
    fn new(tag: &[u8; 4], mut bytes: Vec<u8>, pad: u8) -> Self {
        let size = bytes.len() as u32;
        if !size.is_multiple_of(2) {
            bytes.push(pad);
        }
        Chunk { tag: *tag, size, bytes }
    }
}

fn noise(rng: &mut Rng, length: u64) -> Vec<u8> {
    (0..length).map(|_| rng.word() as u8).collect()
}

/// Good mostly; each field now and then another.
fn fmt(rng: &mut Rng) -> Vec<u8> {
    let bits: u16 =
        if rng.one_in(12) { rng.pick(&[0, 1, 7, 12, 20, 25, 33, 64, 264, 0xff08]) } else { rng.pick(&[8, 16, 24, 32]) };
    let channels = match rng.below(16) {
        0 => rng.pick(&[0, 0, 254, 255, 256, 257, 512, 0xffff]),
        1 => rng.below(256) as u16,
        _ => 1 + rng.below(8) as u16,
    };
    let block = channels.wrapping_mul(bits / 8);
    let block = if rng.one_in(12) {
        rng.pick(&[block.wrapping_add(1), block.wrapping_sub(1), 0, bits / 8, channels, rng_word(channels)])
    } else {
        block
    };
    let hz =
        if rng.one_in(12) { rng.pick(&[0, 1, 5513, 44099, 96001, 65536 + 8000, u32::MAX]) } else { rng.pick(&RATES) };
    let tag: u16 = if rng.one_in(16) { rng.pick(&[0, 2, 3, 6, 0x101, 0x100, 0xfffe]) } else { 1 };
    let words = |all: [u16; 2]| all.map(u16::to_le_bytes).concat();
    let rates = [hz, rng.word() as u32].map(u32::to_le_bytes).concat();
    let mut all = [words([tag, channels]), rates, words([block, bits])].concat();
    if rng.one_in(5) {
        all.extend(noise(rng, 24));
        all.truncate(rng.pick(&[0, 2, 14, 15, 16, 17, 18, 18, 20, 40, 40]));
    }
    all
}

fn rng_word(seed: u16) -> u16 {
    Rng(u64::from(seed)).word() as u16
}

fn chunks(rng: &mut Rng) -> Vec<Chunk> {
    let pad = rng.pick(&[0, 0, 1, 0xff]);
    let fmt = Chunk::new(b"fmt ", fmt(rng), pad);
    let frames = if rng.one_in(30) { rng.below(4000) } else { rng.below(40) };
    let data = Chunk::new(b"data", noise(rng, frames), pad);
    let mut all = match rng.below(40) {
        0 => vec![data, fmt],
        1 => vec![fmt],
        2 => vec![data],
        3 => vec![],
        _ => vec![fmt, data],
    };
    while rng.one_in(3) {
        let at = rng.below(all.len() as u64 + 1) as usize;
        all.insert(at, other(rng, pad));
    }
    all
}

/// A chunk of another kind, or one more of the same.
fn other(rng: &mut Rng, pad: u8) -> Chunk {
    let tag =
        rng.pick(&[b"LIST", b"LIST", b"fact", b"cue ", b"FMT ", b"Data", b"RIFF", b"WAVE", &[0; 4], b"fmt ", b"data"]);
    let length = rng.below(24);
    let bytes = match rng.below(4) {
        0 => fmt(rng),
        // tags inside are no chunks
        1 => [b"INFOdata\x04\0\0\0", &noise(rng, length)[..], b"fmt \0\0\0\0"].concat(),
        _ => noise(rng, length),
    };
    Chunk::new(tag, bytes, pad)
}

/// A whole file: chunks, one of them damaged now and then, in a RIFF, with bytes after it; cut, or some bits of it turned.
pub fn file(rng: &mut Rng) -> Vec<u8> {
    let mut chunks = chunks(rng);
    if rng.one_in(12) && !chunks.is_empty() {
        let at = rng.below(chunks.len() as u64) as usize;
        damage(rng, &mut chunks[at]);
    }
    if rng.one_in(16)
        && let Some(last) = chunks.last_mut()
    {
        // as some programs write it: no pad, and none counted
        last.bytes.truncate(last.size as usize);
    }
    let mut file = b"RIFF\0\0\0\0WAVE".to_vec();
    for chunk in &chunks {
        file.extend(chunk.tag);
        file.extend(chunk.size.to_le_bytes());
        file.extend(&chunk.bytes);
    }
    let size = riff_size(rng, file.len() as u32 - 8);
    file[4..8].copy_from_slice(&size.to_le_bytes());
    if rng.one_in(4) {
        let more = rng.below(24);
        file.extend(noise(rng, more));
    }
    worn(rng, &mut file);
    file
}

/// Another size than its bytes have, or another tag.
fn damage(rng: &mut Rng, chunk: &mut Chunk) {
    let size = chunk.size;
    if rng.one_in(4) {
        chunk.tag[rng.below(4) as usize] ^= 0x20;
        return;
    }
    let near = [size.wrapping_add(1), size.wrapping_sub(1), size + 2, size / 2, 0, 7, 15];
    let far = [u32::MAX, u32::MAX - 1, u32::MAX - 7, u32::MAX - 8, u32::MAX - 43, 1 << 31, (1 << 31) - 1, 1 << 16];
    chunk.size = if rng.one_in(2) { rng.pick(&near) } else { rng.pick(&far) };
}

/// The right one mostly.
fn riff_size(rng: &mut Rng, right: u32) -> u32 {
    match rng.below(24) {
        0 => rng.pick(&[0, 1, 2, 3, 4, 5, 8, 11, 12]),
        1 => rng.pick(&[u32::MAX, u32::MAX - 1, u32::MAX - 7, u32::MAX - 8, 1 << 31]),
        2 => right + 1 + rng.below(12) as u32,
        3 => right - rng.below(12).min(right as u64) as u32,
        _ => right,
    }
}

/// Tags, a cut, single bits.
fn worn(rng: &mut Rng, file: &mut Vec<u8>) {
    match rng.below(30) {
        0 => file[..4].copy_from_slice(rng.pick(&[b"RIFX", b"RF64", b"riff", b"WAVE"])),
        1 => file[8..12].copy_from_slice(rng.pick(&[b"wave", b"WAV ", b"RIFF", b"AVI "])),
        2 | 3 => file.truncate(rng.below(file.len() as u64 + 1) as usize),
        4 => file.truncate(rng.below(46) as usize),
        5..=8 => {
            for _ in 0..1 + rng.below(3) {
                let at = rng.below(file.len().min(60) as u64) as usize;
                file[at] ^= 1 << rng.below(8);
            }
        }
        9 if rng.one_in(4) => {
            let length = rng.below(60);
            *file = noise(rng, length);
        }
        _ => {}
    }
}

/// 64 MiB of frames, read and written.
pub fn large() -> Result<u64, String> {
    let n = 64u32 << 20;
    let frames = Frames { len: n, seed: 3 }.bytes();
    for (sound, length, room) in
        [([2, 17, 7], n, file_length(n.into()) + 3), ([1, 4, 0], n - 1, file_length(n as u64 - 1))]
    {
        let kind = writes(sound, &frames[..length as usize], room as usize)?;
        differ("64 MiB of frames", kind, Kind::Written, |kind| format!("{kind:?}"))?;
    }
    let mut file = vec![0; file_length(n.into()) as usize];
    differ("64 MiB of frames", port_write([2, 17, 7], &frames, &mut file), 0, |n| n.to_string())?;
    for cut in [0, 1, 2, 1 << 20] {
        reads(&file[..file.len() - cut], RESULT_SIZE)?;
    }
    // a second chunk of data is looked for in vain, and a chunk past the RIFF at its end
    for (at, byte) in [(40, 0), (43, 3), (43, 4), (4, 0x23), (36, b'D')] {
        let was = std::mem::replace(&mut file[at], byte);
        reads(&file, RESULT_SIZE)?;
        file[at] = was;
    }
    Ok(12)
}

/// Sizes around 2^32, in memory that is handed out as it is used: few pages of it are. None where there is not so much.
pub fn huge() -> Result<Option<u64>, String> {
    let length = (1usize << 32) + 64;
    let mut zeros: Vec<u8> = Vec::new();
    if zeros.try_reserve_exact(length).is_err() {
        return Ok(None);
    }
    drop(zeros);
    let mut file = vec![0; length];
    let mut count = 0;
    for n in [MOST - 2, MOST - 1, MOST, MOST + 1, MOST + 2, 1 << 32] {
        for (channels, room) in [(1, 0), (1, 44), (2, 44), (255, 44)] {
            let (mut lent, mut plain) = ([FILL; 44], [FILL; 44]);
            let frames = &file[..n as usize];
            let said = port_write([channels, 4, 7], frames, &mut lent[..room]);
            let expected = number(wav_write(channels, 4, 7, frames, &mut plain[..room]));
            differ(&format!("{n} bytes written"), said, expected, |n| n.to_string())?;
            bytes(&format!("{n} bytes written"), &lent, &plain)?;
            count += 1;
        }
    }
    let mut small = [0; 44];
    wave::write(2, 5, 7, &[], &mut small).expect("a header");
    file[..44].copy_from_slice(&small);
    for data in [u32::MAX - 38, u32::MAX - 37, u32::MAX - 36, u32::MAX - 35, u32::MAX - 1, u32::MAX] {
        for riff in [u32::MAX - 2, u32::MAX - 1, u32::MAX] {
            for end in [riff as usize + 7, riff as usize + 8, length] {
                file[4..8].copy_from_slice(&riff.to_le_bytes());
                file[40..44].copy_from_slice(&data.to_le_bytes());
                let (mut lent, mut plain) = ([FILL; RESULT_SIZE], [FILL; RESULT_SIZE]);
                let said = port_read(&file[..end], &mut lent);
                let expected = number(wav_read(&file[..end], &mut plain));
                let named = format!("a file of {end} bytes, RIFF of {riff}, data of {data}");
                differ(&named, said, expected, |n| n.to_string())?;
                bytes(&named, &lent, &plain)?;
                count += 1;
            }
        }
    }
    Ok(Some(count))
}
