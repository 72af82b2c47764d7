//! WAVE files: small ones made here, good ones, each kind of damage, and both kinds of fault at once.
use snd::wav::{self, Wave};
use snd::{Format, Rate, Refusal};

/// A chunk: tag, size, bytes, and a pad where their number is odd.
fn chunk(tag: &[u8; 4], bytes: &[u8]) -> Vec<u8> {
    let size = (bytes.len() as u32).to_le_bytes();
    let pad = vec![0xee; bytes.len() % 2];
    [tag, &size[..], bytes, &pad].concat()
}

/// The bytes of a `fmt ` chunk. The byte rate is one that fits nothing.
fn fmt(tag: u16, channels: u16, hz: u32, block: u16, bits: u16) -> Vec<u8> {
    let mut bytes = [tag.to_le_bytes(), channels.to_le_bytes()].concat();
    bytes.extend(hz.to_le_bytes());
    bytes.extend(0xdead_beef_u32.to_le_bytes());
    bytes.extend(block.to_le_bytes());
    bytes.extend(bits.to_le_bytes());
    bytes
}

/// One channel of 16 bits at 8000 Hz.
fn plain() -> Vec<u8> {
    chunk(b"fmt ", &fmt(1, 1, 8000, 2, 16))
}

/// A RIFF file of these chunks.
fn riff(chunks: &[Vec<u8>]) -> Vec<u8> {
    chunk(b"RIFF", &[b"WAVE".to_vec(), chunks.concat()].concat())
}

fn data(bytes: &[u8]) -> Vec<u8> {
    chunk(b"data", bytes)
}

/// What a file of one channel, S16, 8000 Hz, holds.
fn holds(frames: &[u8]) -> Result<Wave<'_>, Refusal> {
    Ok(Wave {
        channels: 1,
        format: Format::S16,
        rate: Rate::Hz8000,
        frames,
    })
}

#[test]
fn a_file_is_a_fmt_chunk_and_a_data_chunk() {
    let file = riff(&[plain(), data(b"ab")]);
    assert_eq!(file.len(), 46);
    assert_eq!(wav::read(&file), holds(b"ab"));
    // the frames are a part of the file itself
    let frames = wav::read(&file).unwrap().frames;
    assert_eq!(frames.as_ptr(), file[44..].as_ptr());
}

#[test]
fn other_chunks_stand_anywhere_and_the_first_of_each_kind_counts() {
    let list = chunk(b"LIST", b"odd");
    let lie = chunk(b"fmt ", &fmt(3, 9, 1, 7, 5));
    let short = chunk(b"fmt ", b"");
    for (what, chunks) in [
        ("before", vec![list.clone(), plain(), data(b"abc")]),
        ("between", vec![plain(), list.clone(), data(b"abc")]),
        ("after", vec![plain(), data(b"abc"), list.clone()]),
        ("no tag at all", vec![vec![0; 8], plain(), data(b"abc"), vec![0; 8]]),
        ("a second fmt", vec![plain(), lie, data(b"abc")]),
        ("a short second fmt", vec![plain(), short, data(b"abc")]),
        ("a second data", vec![plain(), data(b"abc"), data(b"xyzw")]),
        (
            "chunks in a chunk",
            vec![chunk(b"LIST", &data(b"zz")), plain(), data(b"abc")],
        ),
    ] {
        assert_eq!(wav::read(&riff(&chunks)), holds(b"abc"), "{what}");
    }
}

#[test]
fn a_fmt_chunk_may_be_longer_than_16_bytes() {
    for more in [1, 2, 24] {
        let long = [fmt(1, 1, 8000, 2, 16), vec![7; more]].concat();
        assert_eq!(
            wav::read(&riff(&[chunk(b"fmt ", &long), data(b"ab")])),
            holds(b"ab"),
            "{more} more"
        );
    }
}

#[test]
fn what_stands_past_the_riff_is_not_read() {
    let mut file = riff(&[plain(), data(b"ab")]);
    file.extend(b"dat");
    assert_eq!(wav::read(&file), holds(b"ab"));
    file.extend(data(b"other"));
    assert_eq!(wav::read(&file), holds(b"ab"));
}

#[test]
fn no_frames_and_cut_frames_are_read() {
    for frames in [&b""[..], b"a", b"abc"] {
        assert_eq!(wav::read(&riff(&[plain(), data(frames)])), holds(frames));
    }
}

#[test]
fn every_format_rate_and_number_of_channels() {
    let formats = [
        (8, 1, Format::U8),
        (16, 2, Format::S16),
        (24, 3, Format::S24In3),
        (32, 4, Format::S32),
    ];
    for (bits, bytes, format) in formats {
        for &rate in Rate::ALL {
            for channels in [1, 2, 6, 8, 255] {
                let fmt = fmt(1, channels, rate.hz(), channels * bytes, bits);
                let file = riff(&[chunk(b"fmt ", &fmt), data(b"frames")]);
                let channels = channels as u8;
                assert_eq!(
                    wav::read(&file),
                    Ok(Wave {
                        channels,
                        format,
                        rate,
                        frames: b"frames"
                    })
                );
            }
        }
    }
}

/// The file with a number of 4 bytes changed.
fn with(file: &[u8], at: usize, number: u32) -> Vec<u8> {
    let mut file = file.to_vec();
    file[at..at + 4].copy_from_slice(&number.to_le_bytes());
    file
}

#[test]
fn not_wave_13() {
    let good = riff(&[plain(), data(b"ab")]);
    let odd = riff(&[plain(), data(b"abc")]);
    let after = riff(&[plain(), data(b"ab"), chunk(b"LIST", b"text")]);
    let short = chunk(b"fmt ", &fmt(1, 1, 8000, 2, 16)[..15]);
    for (what, file) in [
        ("nothing", vec![]),
        ("eleven bytes", good[..11].to_vec()),
        ("RIFX", [b"RIFX", &good[4..]].concat()),
        ("riff", [b"riff", &good[4..]].concat()),
        ("AVI", [&good[..8], b"AVI ", &good[12..]].concat()),
        ("a RIFF size of 0, as to a pipe", with(&good, 4, 0)),
        ("a RIFF size that counts no letters", with(&good, 4, 3)),
        ("a RIFF size of all, as to a pipe", with(&good, 4, u32::MAX)),
        ("a RIFF size past the file", with(&good, 4, 39)),
        ("a byte is missing", good[..45].to_vec()),
        ("no fmt", riff(&[data(b"ab")])),
        ("no data", riff(&[plain()])),
        ("no chunk", riff(&[])),
        (
            "FMT in capitals",
            riff(&[chunk(b"FMT ", &fmt(1, 1, 8000, 2, 16)), data(b"ab")]),
        ),
        ("data before fmt", riff(&[data(b"ab"), plain()])),
        ("the first data before fmt", riff(&[data(b"ab"), plain(), data(b"ab")])),
        ("a fmt of 15 bytes", riff(&[short, data(b"ab")])),
        ("a data chunk past the RIFF", with(&good, 40, 4)),
        ("a data chunk near 2^32", with(&good, 40, u32::MAX)),
        ("a fmt chunk past the RIFF", with(&good, 16, 27)),
        ("the pad is missing", with(&odd[..47], 4, 39)),
        ("the pad stands past the RIFF", with(&odd, 4, 39)),
        ("a chunk after data is cut", with(&after, 50, 5)),
        (
            "bytes left over in the RIFF",
            [&with(&good, 4, 45)[..], b"1234567"].concat(),
        ),
    ] {
        assert_eq!(wav::read(&file), Err(Refusal::NotWave), "{what}");
    }
}

#[test]
fn bad_sound_14() {
    for (what, fmt) in [
        ("floats", fmt(3, 1, 8000, 4, 32)),
        ("extensible", fmt(0xfffe, 1, 8000, 3, 24)),
        ("A-law", fmt(6, 1, 8000, 1, 8)),
        ("12 bits", fmt(1, 1, 8000, 2, 12)),
        ("20 bits in 3 bytes", fmt(1, 1, 8000, 3, 20)),
        ("64 bits", fmt(1, 1, 8000, 8, 64)),
        ("no bits", fmt(1, 1, 8000, 0, 0)),
        ("a rate of 12000 Hz", fmt(1, 1, 12_000, 2, 16)),
        ("a rate of 0", fmt(1, 1, 0, 2, 16)),
        ("no channels", fmt(1, 0, 8000, 0, 16)),
        ("256 channels", fmt(1, 256, 8000, 512, 16)),
        ("a block of one channel for two", fmt(1, 2, 8000, 2, 16)),
        ("a block in bits", fmt(1, 1, 8000, 16, 16)),
    ] {
        assert_eq!(
            wav::read(&riff(&[chunk(b"fmt ", &fmt), data(b"ab")])),
            Err(Refusal::BadSound),
            "{what}"
        );
        // structure comes first, also where it is at fault behind the sound
        let cut = riff(&[chunk(b"fmt ", &fmt), data(b"ab"), b"LIST".to_vec()]);
        assert_eq!(wav::read(&cut), Err(Refusal::NotWave), "{what}");
    }
}

#[test]
fn a_file_is_written_and_read_back() {
    for (format, bytes) in [(Format::U8, 1), (Format::S16, 2), (Format::S24In3, 3), (Format::S32, 4)] {
        for &rate in Rate::ALL {
            for channels in [1, 2, 3, 255] {
                for count in [0, 1, 2, 5] {
                    let frames: Vec<u8> = (0..count * channels * bytes).map(|at| (at * 37) as u8).collect();
                    let wave = Wave {
                        channels: channels as u8,
                        format,
                        rate,
                        frames: &frames,
                    };
                    let mut file = vec![0xa5; wav::file_len(frames.len()) + 3];
                    let len = wav::write(&wave, &mut file).unwrap();
                    assert_eq!(len, 44 + frames.len() + frames.len() % 2);
                    assert_eq!(&file[len..], [0xa5; 3], "what stands behind it stays");
                    assert_eq!(wav::read(&file[..len]), Ok(wave));
                    assert_eq!(wav::read(&file), Ok(wave));
                    if frames.len() % 2 == 1 {
                        assert_eq!(file[len - 1], 0, "the pad");
                    }
                }
            }
        }
    }
}

/// Byte for byte: what a file of two channels, S16, 44100 Hz, has.
#[test]
fn the_header_as_it_stands() {
    let wave = Wave {
        channels: 2,
        format: Format::S16,
        rate: Rate::Hz44100,
        frames: b"abcdefgh",
    };
    let mut file = [0; 52];
    assert_eq!(wav::write(&wave, &mut file), Ok(52));
    let mut wanted = b"RIFF\x2c\0\0\0WAVEfmt \x10\0\0\0\x01\0\x02\0".to_vec();
    wanted.extend(44_100_u32.to_le_bytes());
    wanted.extend(176_400_u32.to_le_bytes());
    wanted.extend(b"\x04\0\x10\0data\x08\0\0\0abcdefgh");
    assert_eq!(file[..], wanted);
}

#[test]
fn what_is_not_written() {
    let good = Wave {
        channels: 2,
        format: Format::S16,
        rate: Rate::Hz44100,
        frames: b"abcdefgh",
    };
    let refused = |wave: Wave, room: usize, why: Refusal| {
        let mut file = vec![0xa5; room];
        assert_eq!(wav::write(&wave, &mut file), Err(why), "{wave:?}");
        assert!(file.iter().all(|&byte| byte == 0xa5), "a refusal leaves the slice");
    };
    for &format in Format::ALL {
        if ![Format::U8, Format::S16, Format::S24In3, Format::S32].contains(&format) {
            refused(Wave { format, ..good }, 100, Refusal::BadSound);
        }
    }
    refused(Wave { channels: 0, ..good }, 100, Refusal::BadSound);
    let frames = &b"abcdef"[..];
    refused(Wave { frames, ..good }, 100, Refusal::BadSound);
    // the room is judged last
    refused(Wave { frames, ..good }, 0, Refusal::BadSound);
    refused(good, 51, Refusal::BadLength);
    refused(good, 0, Refusal::BadLength);
    // a rate and a format that have no name here
    let mut file = [0xa5; 100];
    assert_eq!(snd::ffi::snd_wav_write(2, 5, 14, b"abcdefgh", &mut file), 14);
    assert_eq!(snd::ffi::snd_wav_write(2, 255, 7, b"abcdefgh", &mut file), 14);
    assert_eq!(file, [0xa5; 100]);
}

/// Any bytes are safe to read: each byte of a file set to each of a few values, and each length.
#[test]
fn damage_of_every_byte() {
    let good = riff(&[plain(), chunk(b"LIST", b"odd"), data(b"abcd")]);
    for at in 0..good.len() {
        for value in [0, 1, 0x20, 0x7f, 0x80, 0xff] {
            let mut file = good.clone();
            file[at] = value;
            if let Ok(wave) = wav::read(&file) {
                assert!(wave.frames.len() <= good.len());
            }
        }
        assert_eq!(wav::read(&good[..at]), Err(Refusal::NotWave), "the first {at} bytes");
    }
}
