//! The floor that the program is measured against: plain Rust, std alone, that does what any reader of
//! recordings has to do and nothing more. It reads the recording's lines, decodes the octets of each event
//! line, and writes them back twice: as a line of the history and as a line of output.
//!
//!     rustc -O -o floor floor.rs && ./floor < recording > /dev/null

use std::io::{self, BufRead, BufReader, BufWriter, Write};

const PIECE: usize = 1 << 16;
const DIGITS: &[u8; 16] = b"0123456789ABCDEF";

fn digit(c: u8) -> Option<u8> {
    match c {
        b'0'..=b'9' => Some(c - b'0'),
        b'A'..=b'F' => Some(c - b'A' + 10),
        b'a'..=b'f' => Some(c - b'a' + 10),
        _ => None,
    }
}

fn decode(digits: &[u8], octets: &mut Vec<u8>) {
    octets.clear();
    let mut high = None;
    for value in digits.iter().filter_map(|&c| digit(c)) {
        match high.take() {
            None => high = Some(value),
            Some(high) => octets.push(high << 4 | value),
        }
    }
}

fn encode(octets: &[u8], text: &mut Vec<u8>) {
    for &octet in octets {
        text.push(DIGITS[usize::from(octet >> 4)]);
        text.push(DIGITS[usize::from(octet & 15)]);
    }
}

fn main() -> io::Result<()> {
    let mut input = BufReader::with_capacity(PIECE, io::stdin().lock());
    let mut out = BufWriter::with_capacity(PIECE, io::stdout().lock());
    let (mut line, mut octets, mut text) = (Vec::new(), Vec::new(), Vec::new());
    let mut in_body = false;
    let mut place = 0u64;
    loop {
        line.clear();
        if input.read_until(b'\n', &mut line)? == 0 {
            break;
        }
        let content = line.trim_ascii();
        if !in_body {
            in_body = content == b"end";
            continue;
        }
        let Some(gap) = content.iter().position(|&c| c == b' ') else {
            continue;
        };
        place += 1;
        decode(&content[gap..], &mut octets);
        text.clear();
        write!(text, "{place} ")?;
        text.extend_from_slice(&content[..=gap]);
        encode(&octets, &mut text);
        text.extend_from_slice(b"\n> ");
        encode(&octets, &mut text);
        text.push(b'\n');
        out.write_all(&text)?;
    }
    out.flush()
}
