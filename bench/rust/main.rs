//! Reads a stream from its first frame to its last, so many times over, as ../card.c does: PROGRAM FILE PASSES.
#![allow(warnings)]
include!(concat!(env!("OUT_DIR"), "/modules.rs"));

fn main() {
    let args: Vec<String> = std::env::args().collect();
    let bytes = std::fs::read(&args[1]).expect("the stream");
    let passes: usize = args[2].parse().expect("passes");
    let (mut frames, mut seen) = (0, 0u32);
    for _ in 0..passes {
        let mut decoder = types::DecoderState::new();
        let mut at = 0;
        frames = 0;
        while at < bytes.len() {
            let (length, data) = decoder::frame(&mut decoder, &bytes[at..]).expect("a frame");
            let first = &data.granules[0].channels[0];
            seen = seen.wrapping_mul(31).wrapping_add(first.samples[0] as i32 as u32).wrapping_add(first.count1);
            at += length;
            frames += 1;
        }
    }
    println!("{} {}", frames, seen);
}
