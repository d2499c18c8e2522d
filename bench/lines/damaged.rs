//! Writes a capture of a verdict at each item: Acks whose CRC is wrong.
//!
//! Words: the capture's name, and the number of Acks (2,000,000).
use std::env;
use std::fs::File;
use std::io::{self, BufWriter, Write};

const DLLP: u8 = 1;
const END: u8 = 3;
const UP: u8 = 1;

/// An Ack of number 4095. Its CRC would be 25 A8.
const DAMAGED_ACK: [u8; 6] = [0x00, 0x00, 0x0f, 0xff, 0x25, 0xa9];

fn record<W: Write>(out: &mut W, kind: u8, flags: u8, time: u64, body: &[u8]) -> io::Result<()> {
    out.write_all(&[kind, flags])?;
    out.write_all(&(body.len() as u16).to_be_bytes())?;
    out.write_all(&time.to_be_bytes())?;
    out.write_all(body)
}

fn main() -> io::Result<()> {
    let words: Vec<String> = env::args().collect();
    let count: u64 = words.get(2).map_or(2_000_000, |word| word.parse().expect("a number"));
    let mut out = BufWriter::with_capacity(1 << 20, File::create(&words[1])?);
    out.write_all(b"PCIELINK\x00\x01\x00\x00\x00\x00\x00\x00")?;
    for number in 1..=count {
        record(&mut out, DLLP, UP, number, &DAMAGED_ACK)?;
    }
    record(&mut out, END, 0, 0, &count.to_be_bytes())?;
    out.flush()
}
