//! The calls of ../../vectors.txt, which C's test makes too: each line is made again from what was answered, and must be the same.
use crate::*;

fn bytes_of(word: &str) -> Vec<u8> {
    let digits = word.trim_start_matches('-');
    (0..digits.len() / 2)
        .map(|i| u8::from_str_radix(&digits[2 * i..2 * i + 2], 16).unwrap())
        .collect()
}

fn joined<T: ToString>(values: impl IntoIterator<Item = T>) -> String {
    values.into_iter().map(|v| format!(" {}", v.to_string())).collect()
}

fn scale_told(s: &Scale) -> String {
    let [first, second, third] = s.subblock_gain;
    joined(vec![s.block_type as u16, s.global_gain, first, second, third, s.scalefac_scale as u16, s.preflag as u16, s.mixed_block_flag as u16])
}

/// What is printed of the first slot.
fn first_slot(slots: &[Slot; SLOTS], numbers: &[i32]) -> String {
    match &slots[0] {
        Slot::Read(read) => format!(" 0 {}{}{}", read.count, scale_told(&read.scale), joined(&numbers[..read.count])),
        Slot::Refused { refusal, scale } => format!(" {} 0{}", refusal.number(), scale_told(scale)),
        Slot::Lacking => panic!("no first slot"),
    }
}

/// What is printed of a refusal: its number and the offset that it tells.
fn refused(why: Refusal) -> String {
    let offset = if let Refusal::AbsentBytes { offset } = why { offset } else { 0 };
    format!(" {} {}", why.number(), offset)
}

fn frame_call(words: &[&str], reservoir: &mut Reservoir) -> String {
    let mut numbers = [7; NUMBERS];
    match reservoir.frame(&bytes_of(words[1]), &mut numbers) {
        Ok(frame) => format!(" 0 0 {} {} {}{}", frame.length, frame.main_data_begin, reservoir.length(), first_slot(&frame.slots, &numbers)),
        Err(why) => {
            assert!(numbers.iter().all(|&n| n == 7));
            assert_eq!(why.length.is_some(), why.main_data_begin.is_some());
            format!("{} {} {} {}", refused(why.refusal), why.length.unwrap_or(0), why.main_data_begin.unwrap_or(0), reservoir.length())
        }
    }
}

fn slots_call(words: &[&str]) -> String {
    let mut numbers = [7; NUMBERS];
    match slots(&bytes_of(words[1]), &bytes_of(words[2]), &mut numbers) {
        Ok(told) => format!(" 0 0{}", first_slot(&told, &numbers)),
        Err(refusal) => refused(refusal),
    }
}

fn reorder_call(words: &[&str]) -> String {
    let own: Vec<i32> = words[4..].iter().map(|w| w.parse().unwrap()).collect();
    let slot: usize = words[2].parse().unwrap();
    let place = SLOT * slot..SLOT * slot + own.len();
    let mut numbers = [7; NUMBERS];
    numbers[place.clone()].copy_from_slice(&own);
    let answer = reorder(&bytes_of(words[1]), slot, &mut numbers);
    assert!((0..NUMBERS).all(|i| i / SLOT == slot || numbers[i] == 7), "another slot's numbers have changed");
    format!("{}{}", answer.map_or_else(refused, |()| " 0 0".into()), joined(&numbers[place]))
}

fn sizes_call(words: &[&str]) -> String {
    match sizes(&bytes_of(words[1])) {
        Ok(s) => joined(vec![0, 0, s.length, s.header, s.side, s.main, s.granules, s.channels, s.rate as usize, s.bitrate as usize]),
        Err(refusal) => refused(refusal) + &" 0".repeat(8),
    }
}

/// Memory of these sizes, which the safe calls could not lend.
fn lent_call(words: &[&str]) -> String {
    let size: Vec<usize> = words[1..5].iter().map(|w| w.parse().unwrap()).collect();
    let (mut reservoir, mut numbers, mut rows) = (vec![0x55; size[0]], vec![7; size[2]], vec![0x7777; size[3]]);
    let told = calls::frame(&bytes_of(words[5]), &mut reservoir, size[1], &mut numbers, &mut rows);
    let same = reservoir.iter().all(|&b| b == 0x55) && numbers.iter().all(|&n| n == 7) && rows.iter().all(|&n| n == 0x7777);
    let changed = if same { "same" } else { "changed" };
    format!(" {} {} {} {} {} {}", told.refusal, told.offset, told.length, told.main_data_begin, told.reservoir, changed)
}

#[test]
fn vectors() {
    let lines = || include_str!("../../vectors.txt").lines().filter(|line| !line.starts_with('#'));
    let mut reservoir = Reservoir::new();
    let mut made = 0;
    for line in lines() {
        let call = line.split(" =").next().unwrap();
        let words: Vec<&str> = call.split(' ').collect();
        let answer = match words[0] {
            "empty" => {
                reservoir.empty();
                continue;
            }
            "frame" => frame_call(&words, &mut reservoir),
            "slots" => slots_call(&words),
            "reorder" => reorder_call(&words),
            "sizes" => sizes_call(&words),
            "lent" => lent_call(&words),
            other => panic!("no call {}", other),
        };
        assert_eq!(line, format!("{} ={}", call, answer));
        made += 1;
    }
    assert!(made > 30 && made == lines().filter(|line| line.contains(" =")).count());
}

#[test]
fn too_small_is_said() {
    let f = bytes_of("fff314c00000400748000800017a00000000000000000000");
    let mut reservoir = Reservoir::new();
    let refused = reservoir.frame(&f, &mut [7; NUMBERS - 1]).unwrap_err();
    assert_eq!((refused.refusal, refused.length, refused.main_data_begin), (Refusal::UnfitMemory, None, None));
    assert_eq!(slots(&f, &f[13..], &mut [7; NUMBERS - 1]), Err(Refusal::UnfitMemory));
    assert_eq!(Refusal::UnfitMemory.to_string(), "unfit memory");
}

#[test]
fn factors_are_told() {
    // F with scalefac_compress 16 and length 8: five factors of one bit each, from 7A.
    let f = bytes_of("fff314c00000400748200800017a00000000000000000000");
    let frame = Reservoir::new().frame(&f, &mut [0; NUMBERS]).unwrap();
    match &frame.slots[0] {
        Slot::Read(read) => assert_eq!(read.long.iter().filter(|&&n| n > 0).count(), 4),
        other => panic!("{:?}", other),
    }
    assert_eq!(frame.slots[1], Slot::Lacking);
}

const F: &str = "FFF314C00000400748000800017A00000000000000000000";
/// What is printed of its slot.
const F_SLOT: &str = " 0 6 0 210 0 0 0 0 0 0 -1 0 0 0 1 0";

/// A slot past the last of any frame is refused as one that the frame lacks, and no number changes.
#[test]
fn no_fifth_slot_is_reordered() {
    let mut numbers = [7; NUMBERS];
    assert_eq!(reorder(&bytes_of(F), SLOTS, &mut numbers), Err(Refusal::MadeUpRecord));
    assert_eq!(reorder(&bytes_of(F), usize::MAX, &mut numbers), Err(Refusal::MadeUpRecord));
    assert!(numbers.iter().all(|&n| n == 7));
}

/// A frame that reaches back, cut off: its slots come from what the frames before it left, or are not known.
#[test]
fn a_cut_frame_reaches_back() {
    let mut numbers = [7; NUMBERS];
    let mut reservoir = Reservoir::new();
    let mut frame = bytes_of(F);
    reservoir.frame(&frame, &mut numbers).unwrap();
    frame[4] = 11;
    let told = reservoir.slots(&frame[..14], &mut numbers).unwrap();
    assert_eq!(first_slot(&told, &numbers), F_SLOT);
    frame[4] = 12;
    assert_eq!(reservoir.slots(&frame[..14], &mut numbers), Err(Refusal::ShortReservoir));
    assert_eq!(reservoir.slots(&frame[..12], &mut numbers), Err(Refusal::AbsentBytes { offset: 12 }));
}

/// After a gap a reader reaches back to nothing, and goes on.
#[test]
fn a_reader_empties_at_a_gap() {
    let mut numbers = [7; NUMBERS];
    let mut back = bytes_of(F);
    back[4] = 11;
    let card = [bytes_of(F), back.clone(), vec![0; 3], back.clone(), back].concat();
    let mut reader = Reader::new(&card);
    let mut steps = Vec::new();
    while let Some(step) = reader.next(&mut numbers) {
        steps.push(match step {
            Step::Read { at, frame } => format!("read {} {}", at, first_slot(&frame.slots, &numbers)),
            Step::Short { at, length, main_data_begin } => format!("short {} {} {}", at, length, main_data_begin),
            Step::Gap { from, to, why } => format!("gap {} {} {}", from, to, why.number()),
        });
    }
    let read = |at| format!("read {} {}", at, F_SLOT);
    assert_eq!(steps, [read(0), read(24), "gap 48 51 3".into(), "short 51 24 11".into(), read(75)]);
    assert_eq!(reader.place(), card.len());
}
