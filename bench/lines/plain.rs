//! Writes what `check` and `list` write of a capture of DLLPs whose CRCs are wrong, in ordinary Rust with a
//! `BufWriter`. It reads the records and the CRC-16 of each DLLP, and knows no other rule and no other item.
//!
//! Words: `check` or `list`, and the capture's name.
use std::env;
use std::fs::File;
use std::io::{self, BufReader, BufWriter, Read, Write};

const DLLP: u8 = 1;
const END: u8 = 3;

/// What each byte adds to the CRC-16 of a DLLP, its bits reflected.
fn table() -> [u16; 256] {
    std::array::from_fn(|byte| {
        (0..8).fold(byte as u16, |state, _| state >> 1 ^ if state & 1 == 1 { 0xd008 } else { 0 })
    })
}

fn crc(table: &[u16; 256], bytes: &[u8]) -> u16 {
    !bytes.iter().fold(0xffff, |state, byte| state >> 8 ^ table[((state ^ u16::from(*byte)) & 0xff) as usize])
}

fn main() -> io::Result<()> {
    let words: Vec<String> = env::args().collect();
    let lists = words[1] == "list";
    let mut capture = BufReader::new(File::open(&words[2])?);
    let mut out = BufWriter::new(io::stdout().lock());
    let table = table();
    let mut header = [0; 16];
    capture.read_exact(&mut header)?;
    assert_eq!(&header[..10], b"PCIELINK\x00\x01");
    let (mut items, mut verdicts) = (0u64, 0u64);
    loop {
        let mut head = [0; 12];
        capture.read_exact(&mut head)?;
        if head[0] == END {
            break;
        }
        assert_eq!((head[0], head[2], head[3]), (DLLP, 0, 6));
        let time = u64::from_be_bytes(head[4..].try_into().expect("8 bytes"));
        let mut body = [0; 6];
        capture.read_exact(&mut body)?;
        items += 1;
        let is_wrong = crc(&table, &body[..4]).to_le_bytes() != body[4..];
        assert!(is_wrong);
        if lists {
            let dir = if head[1] & 1 == 1 { "up" } else { "down" };
            writeln!(out, "item {items} {dir} dllp badcrc {time}")?;
        }
        verdicts += 1;
        writeln!(out, "item {items} rule L2 first - second -")?;
    }
    if lists {
        writeln!(out, "end items {items} shown {items} verdicts {verdicts}")?;
    } else {
        writeln!(out, "end items {items} verdicts {verdicts}")?;
    }
    out.flush()
}
