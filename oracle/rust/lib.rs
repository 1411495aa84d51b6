//! The Rust's own functions on one try: the bytes from some place of a card on, and the reservoir before them. What is
//! printed is told in ../README.md.
#![allow(warnings)]
include!(concat!(env!("OUT_DIR"), "/modules.rs"));

use bitstream_io::{BigEndian, BitReader};
use error::{Error, Mp3Error};
use std::fmt::{Display, Write};
use std::panic::{catch_unwind, AssertUnwindSafe};
use types::*;

/// What a try prints, how far the next one is, and whether a frame was read.
pub struct Tried {
    pub text: String,
    pub advance: usize,
    pub frame: bool,
}

/// How a call of the Rust's failed.
enum Failure {
    Error(String),
    Panic(String),
}

fn message(e: Error) -> String {
    match e {
        Error::Mp3Error(Mp3Error::InvalidData(s)) => s.to_string(),
        Error::Mp3Error(Mp3Error::Unsupported(s)) => s.to_string(),
        Error::IoError(_) => "input ended".to_string(),
    }
}

fn caught<T>(call: impl FnOnce() -> Result<T, Error>) -> Result<T, Failure> {
    match catch_unwind(AssertUnwindSafe(call)) {
        Ok(Ok(value)) => Ok(value),
        Ok(Err(e)) => Err(Failure::Error(message(e))),
        Err(p) => Err(Failure::Panic(match p.downcast_ref::<String>() {
            Some(s) => s.clone(),
            None => p.downcast_ref::<&str>().unwrap_or(&"").to_string(),
        })),
    }
}

impl Display for Failure {
    fn fmt(&self, f: &mut std::fmt::Formatter) -> std::fmt::Result {
        match self {
            Failure::Error(s) => write!(f, "error {}", s.replace('\n', " ")),
            Failure::Panic(s) => write!(f, "panic {}", s.replace('\n', " ")),
        }
    }
}

fn row<T: Display>(out: &mut String, word: &str, values: impl IntoIterator<Item = T>) {
    out.push_str(word);
    for v in values {
        write!(out, " {}", v).unwrap();
    }
    out.push('\n');
}

fn header_row(out: &mut String, h: &FrameHeader) {
    let version = match h.version {
        MpegVersion::Mpeg1 => 1,
        MpegVersion::Mpeg2 => 2,
        MpegVersion::Mpeg2_5 => 25,
    };
    let (mode, mid_side, intensity) = match h.channels {
        Channels::Stereo => (0, false, false),
        Channels::JointStereo { intensity_stereo, mid_side_stereo } => (1, mid_side_stereo, intensity_stereo),
        Channels::DualMono => (2, false, false),
        Channels::Mono => (3, false, false),
    };
    let emphasis = match h.emphasis {
        Emphasis::None => 0,
        Emphasis::FiftyFifteen => 1,
        Emphasis::CcitJ17 => 3,
    };
    let bits = [mid_side, intensity, h.copyright, h.original];
    let mut values = vec![version, h.crc as u32, h.bitrate.bps(), h.sample_rate.hz(), h.padding as u32, mode];
    values.extend(bits.iter().map(|&b| b as u32));
    values.push(emphasis);
    row(out, "header", values);
}

/// What the Rust says where a record has mixed_block_flag: it goes no further.
const MIXED: &str = "assertion failed: !mixed_block || info.block_type == BlockType::Short";

/// The number of `n` bits at a place.
fn field(bytes: &[u8], at: usize, n: usize) -> usize {
    (at..at + n).fold(0, |v, i| 2 * v + usize::from(bytes[i / 8] >> (7 - i % 8) & 1))
}

/// The places of window_switching_flag in a frame's records; block_type has the two bits after it, mixed_block_flag the third.
fn window_places(h: &FrameHeader) -> Vec<usize> {
    let (channels, one) = (h.channels.num_channels(), h.version == MpegVersion::Mpeg1);
    let before = match (one, channels) {
        (true, 1) => 9 + 5 + 4,
        (true, _) => 9 + 3 + 8,
        (false, 1) => 8 + 1,
        (false, _) => 8 + 2,
    };
    let (compress, width) = if one { (4, 59) } else { (9, 63) };
    let first = 8 * if h.crc { 6 } else { 4 } + before + 29 + compress;
    (0..h.num_granules() * channels).map(|n| first + n * width).collect()
}

/// Side information, and which records have mixed_block_flag. The Rust stops at each; so it reads a copy in which they are cleared one by one, and the
/// first that is of a short block at 8 kHz is told.
fn side_of(h: &FrameHeader, bytes: &[u8]) -> (Result<SideInfo, Failure>, Vec<bool>) {
    let head = if h.crc { 6 } else { 4 };
    let places = window_places(h);
    let mut copy = bytes[..bytes.len().min(head + h.side_data_len())].to_vec();
    let mut flags = vec![false; places.len()];
    loop {
        match caught(|| decoder::side_info(&copy[head..], h)) {
            Err(Failure::Panic(text)) if text == MIXED => {
                let n = places.iter().position(|&at| field(&copy, at, 1) == 1 && field(&copy, at + 3, 1) == 1).unwrap();
                if h.sample_rate.hz() == 8000 && field(&copy, places[n] + 1, 2) == 2 {
                    return (Err(Failure::Panic(text)), flags);
                }
                flags[n] = true;
                copy[(places[n] + 3) / 8] ^= 128 >> (places[n] + 3) % 8;
            }
            read => return (read, flags),
        }
    }
}

fn side_rows(out: &mut String, h: &FrameHeader, side: &SideInfo, flags: &[bool]) {
    let shares = side.scfsi.iter().flatten().map(|&b| b as u32);
    row(out, "side", std::iter::once(u32::from(side.main_data_begin)).chain(shares));
    for g in 0..h.num_granules() {
        for c in 0..h.channels.num_channels() {
            let r = &side.granules[g].channels[c];
            let flag = flags[g * h.channels.num_channels() + c];
            let block = match r.block_type {
                BlockType::Long => 0,
                BlockType::Start => 1,
                BlockType::Short => 2,
                BlockType::End => 3,
                BlockType::Mixed => 4,
            };
            let mut values = vec![g as u32, c as u32, u32::from(r.part2_3_length), u32::from(r.big_values)];
            values.extend(&[u32::from(r.global_gain), u32::from(r.scalefac_compress), block, flag as u32]);
            assert!(r.subblock_gain.iter().all(|&x| x.to_bits() == (x as u8 as f32).to_bits()));
            values.extend(r.subblock_gain.iter().map(|&x| x as u32));
            values.extend(r.table_select.iter().map(|&x| u32::from(x)));
            let regions = if flag { [7, 13] } else { [r.region0_count, r.region1_count] };
            values.extend(regions.iter().map(|&x| u32::from(x)));
            values.extend(&[r.preflag as u32, r.scalefac_scale as u32, r.count1table_select as u32]);
            row(out, "record", values);
        }
    }
}

/// The numbers before an end; each is a whole number.
fn numbers_row(out: &mut String, word: &str, samples: &[f32], end: usize) {
    assert!(samples.iter().all(|&x| x as i32 as f32 == x));
    row(out, word, samples[..end].iter().map(|&x| x as i32));
}

/// Factors, numbers up to the count (past it they are 0), and a short slot's numbers after the Rust's reorder, of a mixed one
/// those from 36 on. Any other slot's must be left as they are.
fn slot_rows(h: &FrameHeader, r: &GranuleChannelSideInfo, d: &MainDataChannel, flag: bool) -> String {
    let mut out = String::new();
    row(&mut out, "long", d.scalefac_l.iter());
    row(&mut out, "short", d.scalefac_s.iter().flatten());
    numbers_row(&mut out, "numbers", &d.samples, d.count1 as usize);
    assert!(d.samples[d.count1 as usize..].iter().all(|&x| x == 0.0));
    let mut after = MainDataChannel {
        scalefac_l: d.scalefac_l,
        scalefac_s: d.scalefac_s,
        count1: d.count1,
        samples: d.samples,
    };
    requantize::reorder(h, r, &mut after);
    if r.block_type == BlockType::Short {
        if flag {
            after.samples[..36].copy_from_slice(&d.samples[..36]);
        }
        numbers_row(&mut out, "reordered", &after.samples, 576);
    } else {
        assert!(after.samples[..] == d.samples[..]);
    }
    out
}

/// How many factors of a mixed block have each length, and the lengths, by docs/RULES.md: what the Rust has for them is never run.
fn mixed_plan(h: &FrameHeader, channel: usize, compress: u32) -> ([u32; 4], [u32; 4]) {
    if h.version == MpegVersion::Mpeg1 {
        let (one, two) = tables::SCALE_FACTOR_SIZES[compress as usize];
        return ([8, 9, 18, 0], [one as u32, one as u32, two as u32, 0]);
    }
    if channel == 1 && h.is_intensity_stereo() {
        return match compress / 2 {
            x if x < 180 => ([6, 15, 12, 0], [x / 36, x % 36 / 6, x % 6, 0]),
            x if x < 244 => ([6, 12, 9, 6], [(x - 180) / 16, (x - 180) % 16 / 4, (x - 180) % 4, 0]),
            x => ([6, 18, 9, 0], [(x - 244) / 3, (x - 244) % 3, 0, 0]),
        };
    }
    match compress {
        x if x < 400 => ([6, 9, 9, 9], [x / 80, x / 16 % 5, x % 16 / 4, x % 4]),
        x if x < 500 => ([6, 9, 12, 6], [(x - 400) / 20, (x - 400) / 4 % 5, (x - 400) % 4, 0]),
        x => ([15, 18, 0, 0], [(x - 500) / 3, (x - 500) % 3, 0, 0]),
    }
}

/// The factors of a mixed block: the first are long ones, the rest short ones from band 3 on. The bits that they took.
fn mixed_factors(
    reader: &mut BitReader<&[u8], BigEndian>,
    h: &FrameHeader,
    channel: usize,
    compress: u32,
    d: &mut MainDataChannel,
) -> Result<u32, Error> {
    let (counts, lengths) = mixed_plan(h, channel, compress);
    let long = if h.version == MpegVersion::Mpeg1 { 8 } else { 6 };
    let widths = (0..4).flat_map(|i| std::iter::repeat(lengths[i]).take(counts[i] as usize));
    let mut bits = 0;
    for (n, width) in widths.enumerate() {
        let value: u8 = if width == 0 { 0 } else { reader.read(width)? };
        bits += width;
        if n < long {
            d.scalefac_l[n] = value;
        } else {
            d.scalefac_s[3 + (n - long) / 3][(n - long) % 3] = value;
        }
    }
    Ok(bits)
}

/// What the Rust says where the regions run off the end of its band starts.
const NO_BAND: &str = "index out of bounds: the len is 23 but the index is ";

/// A record of long bands without its third region: the region counts sum up to 20, where the second boundary is 576.
fn without_third(r: &GranuleChannelSideInfo) -> GranuleChannelSideInfo {
    GranuleChannelSideInfo {
        big_values: r.big_values,
        table_select: r.table_select,
        region0_count: r.region0_count,
        region1_count: 20 - r.region0_count,
        count1table_select: r.count1table_select,
        ..Default::default()
    }
}

/// The numbers of a record from a reader; where its regions run off the end, as that without the third one. Whether they did.
fn numbers(
    reader: &mut BitReader<&[u8], BigEndian>,
    h: &FrameHeader,
    r: &GranuleChannelSideInfo,
    length: u32,
    samples: &mut [f32; 576],
) -> (bool, Result<u32, Failure>) {
    let read = caught(|| huffman::read_huffman(reader, h, r, length, samples));
    match &read {
        Err(Failure::Panic(why)) if why.starts_with(NO_BAND) => {
            (true, caught(|| huffman::read_huffman(reader, h, &without_third(r), length, samples)))
        }
        _ => (false, read),
    }
}

/// Whether a pair of the record has a codeword: told one bit and handed none, the Rust fails in the first such pair, and
/// leaves its two numbers as they were.
fn promised(h: &FrameHeader, r: &GranuleChannelSideInfo) -> bool {
    let mut samples = [1.0; 576];
    numbers(&mut BitReader::endian(&[], BigEndian), h, r, 1, &mut samples);
    samples[..2 * usize::from(r.big_values)].contains(&1.0)
}

/// One slot read from the place where the lengths before it say that it starts, with zeros after the main data: what the
/// Rust's functions make of the slot's own bits. The first line's end, and the rows below it.
fn slot_alone(
    h: &FrameHeader,
    side: &SideInfo,
    (g, c): (usize, usize),
    start: u32,
    padded: &[u8],
    data: &mut MainData,
    flag: bool,
) -> (String, String) {
    let r = &side.granules[g].channels[c];
    let length = u32::from(r.part2_3_length);
    let mut reader = BitReader::endian(padded, BigEndian);
    reader.skip(start).unwrap();
    let mixed = flag && r.block_type == BlockType::Short;
    let factors = caught(|| {
        if mixed {
            let d = &mut data.granules[g].channels[c];
            return mixed_factors(&mut reader, h, c, u32::from(r.scalefac_compress), d);
        }
        decoder::factors(&mut reader, h, g, c, side, data)
    });
    let bits = match factors {
        Ok(bits) => bits,
        Err(why) => return (format!("used {} {}", reader.place() - u64::from(start), why), String::new()),
    };
    if bits > length {
        return (format!("factors {}", bits), String::new());
    }
    let d = &mut data.granules[g].channels[c];
    let (off, read) = numbers(&mut reader, h, r, length - bits, &mut d.samples);
    let off = if off { "off " } else { "" };
    let used = reader.place() - u64::from(start);
    match read {
        Ok(count) => {
            d.count1 = count;
            let unread = if length == bits && promised(h, r) { " promised" } else { "" };
            (format!("{}used {} count {}{}", off, used, count, unread), slot_rows(h, r, d, flag))
        }
        Err(why) => (format!("{}used {} {}", off, used, why), String::new()),
    }
}

/// The slots as the Rust reads them, one after the other; and, where that failed or a slot read more or less than its
/// length or the two differ, each slot alone. Where a record has mixed_block_flag only that.
fn slots_rows(out: &mut String, h: &FrameHeader, side: &SideInfo, main: &[u8], flags: &[bool]) {
    let mut padded = main.to_vec();
    padded.resize(main.len() + 8192, 0);
    let places: Vec<(usize, usize)> = (0..h.num_granules())
        .flat_map(|g| (0..h.channels.num_channels()).map(move |c| (g, c)))
        .collect();
    let flagged = flags.iter().any(|&f| f);
    let whole = caught(|| decoder::slots(&mut BitReader::endian(main, BigEndian), h, side));
    let mut data: MainData = Default::default();
    let mut alone = String::new();
    let mut alike = whole.is_ok() && !flagged;
    let mut start = 0;
    if let (Err(why), false) = (&whole, flagged) {
        writeln!(out, "whole {}", why).unwrap();
    }
    for (n, (g, c)) in places.into_iter().enumerate() {
        let r = &side.granules[g].channels[c];
        let (first, rows) = slot_alone(h, side, (g, c), start, &padded, &mut data, flags[n]);
        start += u32::from(r.part2_3_length);
        writeln!(alone, "alone {} {} {}", g, c, first).unwrap();
        alone += &rows;
        if let (Ok(whole), false) = (&whole, flagged) {
            let d = &whole.granules[g].channels[c];
            let mine = slot_rows(h, r, d, false);
            writeln!(out, "slot {} {} {}", g, c, d.count1).unwrap();
            *out += &mine;
            alike &= first == format!("used {} count {}", r.part2_3_length, d.count1) && mine == rows;
        }
    }
    if !alike {
        *out += &alone;
    }
}

/// After a frame that reaches too far back docs/RULES.md keeps the old bytes and adds the frame's main data.
fn added(reservoir: &mut Vec<u8>, frame: &[u8], h: &FrameHeader) {
    let main = h.data_size - h.side_data_len();
    reservoir.extend_from_slice(&frame[frame.len() - main..]);
}

fn failed(place: usize, stage: &str, why: Failure, advance: usize) -> Tried {
    let text = format!("failed {} {} {}\n", place, stage, why);
    Tried { text, advance, frame: false }
}

/// Whether the side information is there and the CRC does not fit, by the polynomial division of 11172-3: the covered bits with sixteen zeros after
/// them, the first sixteen turned, divided by x^16 + x^15 + x^2 + 1. The Rust skips the word.
fn unfit(h: &FrameHeader, bytes: &[u8]) -> bool {
    let end = 6 + h.side_data_len();
    if !h.crc || bytes.len() < end {
        return false;
    }
    let covered = [&bytes[2..4], &bytes[6..end], &[0, 0]].concat();
    let rest = (0..8 * covered.len()).fold(0u32, |rest, i| {
        let bit = covered[i / 8] >> (7 - i % 8) & 1 ^ (i < 16) as u8;
        let next = rest << 1 | u32::from(bit);
        if next >> 16 == 1 { next ^ 0x18005 } else { next }
    });
    rest != field(bytes, 32, 16) as u32
}

/// The Rust on these bytes; where the CRC does not fit, on a copy of the reservoir, as docs/RULES.md has such a frame refused.
pub fn try_at(place: usize, bytes: &[u8], reservoir: &mut Vec<u8>) -> Tried {
    let mut rest = bytes;
    match caught(|| decoder::read_frame_header(&mut rest)) {
        Ok(h) if unfit(&h, bytes) => {
            let tried = try_fit(place, bytes, &mut reservoir.clone());
            Tried { text: tried.text + "unfit\n", advance: 1, frame: false }
        }
        _ => try_fit(place, bytes, reservoir),
    }
}

/// After a failure the reservoir is what docs/RULES.md says that it is, and not what the Rust left, so that what follows can be compared; the length that
/// the Rust left is printed.
fn try_fit(place: usize, bytes: &[u8], reservoir: &mut Vec<u8>) -> Tried {
    let mut rest = bytes;
    let h = match caught(|| decoder::read_frame_header(&mut rest)) {
        Ok(h) => h,
        Err(why) => return failed(place, "header", why, 1),
    };
    let length = if h.crc { 6 } else { 4 } + h.data_size;
    let (side, flags) = side_of(&h, bytes);
    let told = if flags.iter().any(|&f| f) { "flagged\n" } else { "" };
    let side = match side {
        Ok(side) => side,
        Err(why) => {
            let mut t = failed(place, "side", why, 1);
            t.text += told;
            return t;
        }
    };
    rest = &rest[h.side_data_len()..];
    let mut state = DecoderState::new();
    state.frame_buffer[..reservoir.len()].copy_from_slice(reservoir);
    state.frame_buffer_len = reservoir.len();
    let mut rows = String::new();
    header_row(&mut rows, &h);
    side_rows(&mut rows, &h, &side, &flags);
    rows += told;
    let main = match caught(|| decoder::logical_frame_data(&mut state, &mut rest, &h, &side)) {
        Ok(main) => main,
        Err(why) => {
            let short = if let Failure::Panic(_) = why { true } else { false };
            let whole = short && length <= bytes.len();
            if whole {
                added(reservoir, &bytes[..length], &h);
            }
            let mut t = failed(place, "main", why, if whole { length } else { 1 });
            writeln!(t.text, "left {} {}", length, state.frame_buffer_len).unwrap();
            t.text += &rows;
            return t;
        }
    };
    *reservoir = main.clone();
    let mut text = format!("frame {} {} {}\n", place, length, main.len());
    text += &rows;
    slots_rows(&mut text, &h, &side, &main, &flags);
    Tried { text, advance: length, frame: true }
}
