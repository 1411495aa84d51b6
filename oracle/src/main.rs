//! The Rust on cards from standard input, printed line by line: see README.md.
use std::io::{stdin, stdout, BufWriter, Read, Write};

/// One card from an empty reservoir. Where the Rust with the standard's band starts prints something else, that follows.
fn card(bytes: &[u8], on: bool, out: &mut dyn Write) -> std::io::Result<()> {
    let mut reservoir = Vec::new();
    let mut place = 0;
    while place < bytes.len() {
        let mut other = reservoir.clone();
        let tried = published::try_at(place, &bytes[place..], &mut reservoir);
        out.write_all(tried.text.as_bytes())?;
        if tried.frame {
            let mended = mended::try_at(place, &bytes[place..], &mut other);
            if mended.text != tried.text {
                write!(out, "mended\n{}", mended.text)?;
            }
        } else if !on {
            return Ok(());
        }
        place += tried.advance;
    }
    Ok(())
}

/// Four bytes, the most significant first, and as many bytes as they say.
fn cards(mut bytes: &[u8]) -> Vec<&[u8]> {
    let mut all = Vec::new();
    while bytes.len() >= 4 {
        let n = u32::from_be_bytes([bytes[0], bytes[1], bytes[2], bytes[3]]) as usize;
        let n = n.min(bytes.len() - 4);
        all.push(&bytes[4..4 + n]);
        bytes = &bytes[4 + n..];
    }
    all
}

fn main() -> std::io::Result<()> {
    let words: Vec<String> = std::env::args().skip(1).collect();
    if let Some(word) = words.iter().find(|w| *w != "on" && *w != "cards") {
        eprintln!("oracle: no such word: {}", word);
        std::process::exit(2);
    }
    let on = words.iter().any(|w| w == "on");
    let many = words.iter().any(|w| w == "cards");
    let mut bytes = Vec::new();
    stdin().read_to_end(&mut bytes)?;
    std::panic::set_hook(Box::new(|_| {}));
    let mut out = BufWriter::with_capacity(1 << 16, stdout());
    let all = if many { cards(&bytes) } else { vec![&bytes[..]] };
    for (n, c) in all.iter().enumerate() {
        writeln!(out, "card {}", n)?;
        card(c, on, &mut out)?;
    }
    writeln!(out, "end")?;
    out.flush()
}
