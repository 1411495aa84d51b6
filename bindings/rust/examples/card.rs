//! Reads a card from standard input and prints its frames and slots, as ../../c/card.c does.
use front_end::{reorder, Reader, Slot, Step, NUMBERS, SLOT};
use std::io::Read;

fn print_slots(frame: &[u8], slots: &[Slot], numbers: &mut [i32; NUMBERS]) {
    for (n, slot) in slots.iter().enumerate() {
        match slot {
            Slot::Read(read) => {
                reorder(frame, n, numbers).expect("the frame was read, and has this slot");
                let coded = numbers[SLOT * n..SLOT * (n + 1)].iter().enumerate().filter(|(_, v)| **v != 0);
                let told: String = coded.map(|(i, v)| format!(" {}:{}", i, v)).collect();
                let scale = read.scale;
                let mixed = if scale.mixed_block_flag { " mixed" } else { "" };
                println!("  slot {} block {}{} gain {} count {}:{}", n, scale.block_type as u8, mixed, scale.global_gain, read.count, told);
            }
            Slot::Refused { refusal, .. } => println!("  slot {} refused {}: {}", n, refusal.number(), refusal),
            Slot::Lacking => {}
        }
    }
}

fn main() -> std::io::Result<()> {
    let mut card = Vec::new();
    std::io::stdin().read_to_end(&mut card)?;
    let mut numbers = [0; NUMBERS];
    let mut reader = Reader::new(&card);
    let mut frames = 0;
    while let Some(step) = reader.next(&mut numbers) {
        match step {
            Step::Read { at, frame } => {
                frames += 1;
                println!("frame {} at byte {} length {}", frames, at, frame.length);
                print_slots(&card[at..], &frame.slots, &mut numbers);
            }
            Step::Short { at, length, main_data_begin } => {
                frames += 1;
                println!("frame {} at byte {} length {} refused 13: it reaches back {} bytes", frames, at, length, main_data_begin);
            }
            Step::Gap { from, to, why } => {
                println!("byte {} refused {}: {:?}", from, why.number(), why);
                println!("nothing was read from byte {} to byte {}", from, to);
            }
        }
    }
    println!("end {}", frames);
    Ok(())
}
