//! Request 2026-03, "Announcements from WAV": each test names the rulings on it by their numbers.
use rules::entries::{RESULT_SIZE, number, wav_read, wav_write};
use rules::wave::{FORMATS, Fault, MOST, RATES, SAMPLE, STORAGE, Unwritten, Wave, read, write};

fn chunk(tag: &[u8; 4], bytes: &[u8]) -> Vec<u8> {
    let mut all = [&tag[..], &(bytes.len() as u32).to_le_bytes(), bytes].concat();
    all.resize(all.len().next_multiple_of(2), 0x77);
    all
}

fn fmt(tag: u16, channels: u16, rate: u32, block: u16, bits: u16) -> Vec<u8> {
    let (a, b) = ([tag, channels], [block, bits]);
    let words = |all: [u16; 2]| all.map(u16::to_le_bytes).concat();
    [words(a), rate.to_le_bytes().to_vec(), 99u32.to_le_bytes().to_vec(), words(b)].concat()
}

fn good() -> Vec<u8> {
    chunk(b"fmt ", &fmt(1, 2, 48000, 4, 16))
}

fn riff(chunks: &[Vec<u8>]) -> Vec<u8> {
    let chunks = chunks.concat();
    [&b"RIFF"[..], &(4 + chunks.len() as u32).to_le_bytes(), b"WAVE", &chunks].concat()
}

fn with_size(mut file: Vec<u8>, size: u32) -> Vec<u8> {
    file[4..8].copy_from_slice(&size.to_le_bytes());
    file
}

fn sound_of(fmt: Vec<u8>) -> Result<(u8, u8, u8), Fault> {
    read(&riff(&[chunk(b"fmt ", &fmt), chunk(b"data", &[])])).map(|w| (w.channels, w.format, w.rate))
}

#[test]
fn the_smallest_file() {
    let file = riff(&[good(), chunk(b"data", &[1, 2, 3, 4])]);
    assert_eq!(file.len(), 48);
    assert_eq!(read(&file), Ok(Wave { channels: 2, format: 5, rate: 7, offset: 44, length: 4 }));
}

#[test]
fn rulings_1_and_3_tags() {
    let file = riff(&[good(), chunk(b"data", &[])]);
    for length in 0..12 {
        assert_eq!(read(&file[..length]), Err(Fault::WrongTags));
    }
    for at in [0, 1, 2, 3, 8, 9, 10, 11] {
        let mut wrong = file.clone();
        wrong[at] ^= 0x20;
        assert_eq!(read(&wrong), Err(Fault::WrongTags));
    }
    // an unknown tag inside is a chunk that is passed over, whatever its bytes
    for tag in [b"FMT ", b"DATA", b"LIST", &[0; 4]] {
        assert!(read(&riff(&[chunk(tag, &[1; 5]), good(), chunk(tag, &[]), chunk(b"data", &[])])).is_ok());
    }
}

#[test]
fn ruling_4_pads() {
    let file = riff(&[good(), chunk(b"data", &[1, 2, 3])]);
    assert_eq!(read(&file).map(|w| (w.offset, w.length)), Ok((44, 3)));
    // no pad, none counted: even if a byte follows
    let unpadded = with_size(file, 39);
    assert_eq!(read(&unpadded[..47]), Err(Fault::PadPastRiff));
    assert_eq!(read(&unpadded), Err(Fault::PadPastRiff));
}

#[test]
fn rulings_2_5_and_6_sizes() {
    let file = riff(&[good(), chunk(b"data", &[1, 2])]);
    for size in [39, 40, u32::MAX - 8, u32::MAX] {
        assert_eq!(read(&with_size(file.clone(), size)), Err(Fault::RiffPastFile));
    }
    for size in 0..4 {
        assert_eq!(read(&with_size(file.clone(), size)), Err(Fault::RiffTooSmall));
    }
    assert_eq!(read(&with_size(file.clone(), 4)), Err(Fault::NoFmt));
    for size in (5..12).chain(29..36) {
        assert_eq!(read(&with_size(file.clone(), size)), Err(Fault::HeadPastRiff));
    }
    // bytes past the RIFF are not looked at; those within it are
    for more in 0..20 {
        let longer = [&file[..], &vec![0xee; more]].concat();
        assert!(read(&longer).is_ok());
        let within = with_size(longer, 38 + more as u32);
        let fault = match more {
            0 => continue,
            1..8 => Fault::HeadPastRiff,
            _ => Fault::ChunkPastRiff,
        };
        assert_eq!(read(&within), Err(fault));
    }
    assert!(read(&riff(&[good(), chunk(b"data", &[]), vec![0; 8]])).is_ok());
    for size in [3, 4, u32::MAX - 1, u32::MAX] {
        let mut wide = file.clone();
        wide[40..44].copy_from_slice(&size.to_le_bytes());
        assert_eq!(read(&wide), Err(Fault::ChunkPastRiff));
    }
}

#[test]
fn ruling_7_structure_before_sound() {
    let bad = chunk(b"fmt ", &fmt(3, 0, 1, 0, 7));
    assert_eq!(read(&riff(&[bad.clone(), chunk(b"data", &[])])), Err(Fault::NotPcm));
    assert_eq!(read(&riff(&[bad, chunk(b"data", &[]), vec![0; 7]])), Err(Fault::HeadPastRiff));
}

#[test]
fn rulings_8_and_9_order_and_kinds() {
    let data = |n| chunk(b"data", &vec![5; n]);
    assert_eq!(read(&riff(&[])), Err(Fault::NoFmt));
    assert_eq!(read(&riff(&[data(2)])), Err(Fault::NoFmt));
    assert_eq!(read(&riff(&[good()])), Err(Fault::NoData));
    assert_eq!(read(&riff(&[data(2), good()])), Err(Fault::DataBeforeFmt));
    assert_eq!(read(&riff(&[data(2), good(), data(4)])), Err(Fault::DataBeforeFmt));
    let later = [good(), chunk(b"fmt ", &[9; 3]), data(2), chunk(b"fmt ", &fmt(7, 7, 7, 7, 7)), data(4)];
    assert_eq!(read(&riff(&later)).map(|w| (w.channels, w.length)), Ok((2, 2)));
    // what stands in a LIST is no chunk
    let list = chunk(b"LIST", &[data(2), chunk(b"fmt ", &[])].concat());
    assert_eq!(read(&riff(&[list, good(), data(6)])).map(|w| w.length), Ok(6));
}

#[test]
fn ruling_10_the_length_of_fmt() {
    let long = [fmt(1, 1, 8000, 1, 8), vec![0xaa; 30]].concat();
    for length in 0..46 {
        let read = read(&riff(&[chunk(b"fmt ", &long[..length]), chunk(b"data", &[])]));
        assert_eq!(read.is_ok(), length >= 16);
        assert!(read.is_ok() || read == Err(Fault::ShortFmt));
    }
}

#[test]
fn rulings_10_to_14_sounds() {
    for (format, bits) in FORMATS.into_iter().zip([8, 16, 24, 32]) {
        for channels in 1..=255u16 {
            let block = channels * bits / 8;
            for (rate, hz) in (0..).zip(RATES) {
                assert_eq!(sound_of(fmt(1, channels, hz, block, bits)), Ok((channels as u8, format, rate)));
                assert_eq!(sound_of(fmt(1, channels, hz + 1, block, bits)), Err(Fault::Rate));
            }
            assert_eq!(sound_of(fmt(1, channels, 8000, block + 1, bits)), Err(Fault::Block));
            assert_eq!(sound_of(fmt(1, channels, 8000, block - 1, bits)), Err(Fault::Block));
        }
    }
    for channels in [0, 256, 257, 0xff01, 0xffff] {
        assert_eq!(sound_of(fmt(1, channels, 8000, channels.wrapping_mul(2), 16)), Err(Fault::Channels));
    }
    for tag in [0, 2, 3, 0x100, 0x101, 0xfffe] {
        assert_eq!(sound_of(fmt(tag, 1, 8000, 2, 16)), Err(Fault::NotPcm));
    }
    for bits in (0..=65535).filter(|bits| ![8, 16, 24, 32].contains(bits)) {
        assert_eq!(sound_of(fmt(1, 1, 8000, bits / 8, bits)), Err(Fault::Bits));
    }
    // 13: data that is no whole number of blocks is read
    assert!(read(&riff(&[good(), chunk(b"data", &[1, 2, 3])])).is_ok());
}

#[test]
fn rulings_12_and_22_the_tables() {
    assert_eq!(FORMATS.map(|format| SAMPLE[format as usize]), [8, 16, 24, 32]);
    assert_eq!(FORMATS.map(|format| STORAGE[format as usize]), [8, 16, 24, 32]);
    assert!(SAMPLE.iter().zip(STORAGE).all(|(sample, storage)| *sample <= storage));
}

#[test]
fn rulings_17_to_21_written_and_read_back() {
    let frames: Vec<u8> = (0..61).collect();
    let mut file = [0xee; 120];
    for format in 0..=255 {
        for rate in 0..=255 {
            for channels in [0, 1, 3, 5, 255] {
                let unwritten = match (FORMATS.contains(&format), rate < 14, channels) {
                    (false, ..) => Some(Unwritten::Format),
                    (_, false, _) => Some(Unwritten::Rate),
                    (_, _, 0) => Some(Unwritten::Channels),
                    _ => None,
                };
                if let Some(why) = unwritten {
                    assert_eq!(write(channels, format, rate, &frames, &mut file), Err(why));
                }
            }
        }
    }
    assert_eq!(file, [0xee; 120], "refused: no byte changes");
    for n in [0, 15, 30, 45, 60] {
        let (mut file, length) = ([0xee; 120], 44 + n + n % 2);
        for room in 0..length {
            assert_eq!(write(5, 11, 13, &frames[..n], &mut file[..room]), Err(Unwritten::Room));
        }
        assert_eq!(file, [0xee; 120]);
        // 14 comes before 10
        assert_eq!(write(5, 11, 13, &frames[..n + 1], &mut []), Err(Unwritten::NotWholeBlocks));
        assert_eq!(write(5, 11, 13, &frames[..n], &mut file), Ok(length as u64));
        assert!(file[length..].iter().all(|byte| *byte == 0xee));
        assert_eq!(&file[44 + n..length], &vec![0; n % 2]);
        assert_eq!(&file[28..32], &(384_000u32 * 15).to_le_bytes(), "byte rate");
        for end in length..=120 {
            let read = read(&file[..end]).expect("it is a file");
            assert_eq!(read, Wave { channels: 5, format: 11, rate: 13, offset: 44, length: n });
            assert_eq!(&file[44..44 + n], &frames[..n]);
        }
    }
    assert_eq!(MOST, (1 << 32) - 1 - 36);
}

#[test]
fn the_entries_say_it_in_numbers() {
    let file = riff(&[good(), chunk(b"data", &[1, 2])]);
    for length in 0..RESULT_SIZE {
        assert_eq!(number(wav_read(&[], &mut vec![0; length])), 10);
    }
    let mut result = [0xee; RESULT_SIZE];
    assert_eq!(number(wav_read(&file[..20], &mut result)), 13);
    assert_eq!(result, [0xee; RESULT_SIZE]);
    assert_eq!(number(wav_read(&file, &mut result)), 0);
    assert_eq!(&result[..20], &[44, 0, 0, 0, 0, 0, 0, 0, 2, 0, 0, 0, 0, 0, 0, 0, 2, 5, 7, 0xee]);
    assert_eq!(number(wav_write(0, 5, 7, &[], &mut [])), 14);
    assert_eq!(number(wav_write(1, 5, 7, &[], &mut [])), 10);
    assert!(Fault::ALL.map(Fault::number).is_sorted());
    assert_eq!(Fault::ALL.iter().filter(|fault| fault.number() == 13).count(), 10);
}
