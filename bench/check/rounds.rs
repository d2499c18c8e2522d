//! Writes the capture of a link at work: credits, then rounds of a memory read, its two completions, their Acks and
//! a grant of credits. No item breaks a rule under the usual profile.
//!
//! Words: the capture's name, the number of rounds, and the number that the sizes and addresses begin from (1).
use std::env;
use std::fs::File;
use std::io::{self, BufWriter, Write};

const DOWN: u8 = 0;
const UP: u8 = 1;

const TLP: u8 = 0;
const DLLP: u8 = 1;
const END: u8 = 3;

const ACK: u8 = 0x00;
const UPDATE_NP: u8 = 0x90;

/// The Requester ID of every read.
const REQUESTER: u16 = 0x0100;

/// What each byte adds to a CRC with this polynomial, its bits reflected.
fn table(polynomial: u32) -> [u32; 256] {
    std::array::from_fn(|byte| {
        (0..8).fold(byte as u32, |state, _| state >> 1 ^ if state & 1 == 1 { polynomial } else { 0 })
    })
}

fn crc(table: &[u32; 256], ones: u32, bytes: &[u8]) -> u32 {
    ones ^ bytes.iter().fold(ones, |state, byte| {
        state >> 8 ^ table[((state ^ u32::from(*byte)) & 0xff) as usize]
    })
}

struct Capture<W: Write> {
    out: W,
    items: u64,
    table_16: [u32; 256],
    table_32: [u32; 256],
}

impl<W: Write> Capture<W> {
    fn begin(mut out: W) -> io::Result<Capture<W>> {
        out.write_all(b"PCIELINK\x00\x01\x00\x00\x00\x00\x00\x00")?;
        let (table_16, table_32) = (table(0xd008), table(0xedb8_8320));
        Ok(Capture { out, items: 0, table_16, table_32 })
    }

    /// The time of an item is its number.
    fn item(&mut self, kind: u8, dir: u8, body: &[u8]) -> io::Result<()> {
        self.items += 1;
        self.record(kind, dir, self.items, body)
    }

    fn record(&mut self, kind: u8, flags: u8, time: u64, body: &[u8]) -> io::Result<()> {
        self.out.write_all(&[kind, flags])?;
        self.out.write_all(&(body.len() as u16).to_be_bytes())?;
        self.out.write_all(&time.to_be_bytes())?;
        self.out.write_all(body)
    }

    fn dllp(&mut self, dir: u8, content: [u8; 4]) -> io::Result<()> {
        let mut body = content.to_vec();
        body.extend((crc(&self.table_16, 0xffff, &content) as u16).to_le_bytes());
        self.item(DLLP, dir, &body)
    }

    fn ack(&mut self, dir: u8, number: u64) -> io::Result<()> {
        let [high, low] = (number as u16 % 4096).to_be_bytes();
        self.dllp(dir, [ACK, 0, high, low])
    }

    fn flow(&mut self, dir: u8, first: u8, header: u8, data: u16) -> io::Result<()> {
        let fields = u32::from(header) << 14 | u32::from(data);
        let [_, one, two, three] = fields.to_be_bytes();
        self.dllp(dir, [first, one, two, three])
    }

    fn tlp(&mut self, dir: u8, number: u64, header: &[u8; 12], data: &[u8]) -> io::Result<()> {
        let mut body = (number as u16 % 4096).to_be_bytes().to_vec();
        body.extend(header);
        body.extend(data);
        let lcrc = crc(&self.table_32, 0xffff_ffff, &body);
        body.extend(lcrc.to_le_bytes());
        self.item(TLP, dir, &body)
    }

    fn end(mut self) -> io::Result<()> {
        self.record(END, 0, 0, &self.items.to_be_bytes())?;
        self.out.flush()
    }
}

/// A memory read of `length` DW, all bytes enabled.
fn read(tag: u8, address: u32, length: u16) -> [u8; 12] {
    let ([long, short], [bus, function]) = (length.to_be_bytes(), REQUESTER.to_be_bytes());
    let [a, b, c, d] = address.to_be_bytes();
    [0x00, 0, long, short, bus, function, tag, 0xff, a, b, c, d]
}

/// A successful completion with `length` DW of data.
fn completion(tag: u8, byte_count: u16, lower_address: u8, length: u16) -> [u8; 12] {
    let ([long, short], [bus, function]) = (length.to_be_bytes(), REQUESTER.to_be_bytes());
    let [many, few] = byte_count.to_be_bytes();
    [0x4a, 0, long, short, 0, 0, many, few, bus, function, tag, lower_address]
}

/// Both ends advertise their credits twice. The upper end takes any completion.
fn bring_up<W: Write>(capture: &mut Capture<W>) -> io::Result<()> {
    for first in [0x40, 0xc0] {
        for (dir, header, data) in [(DOWN, 32, 64), (UP, 0, 0)] {
            capture.flow(dir, first, 32, 64)?;
            capture.flow(dir, first + 0x10, 32, 32)?;
            capture.flow(dir, first + 0x20, header, data)?;
        }
    }
    Ok(())
}

/// A read Up across a boundary of 64 bytes, two completions Down that meet at it, and what answers them.
fn round<W: Write>(capture: &mut Capture<W>, k: u64, drawn: u64) -> io::Result<()> {
    let (first, second) = (1 + drawn % 16, 1 + drawn / 16 % 16);
    let (unit, page) = (drawn / 256 % 62, drawn / 16384 % 65536);
    let boundary = 4096 * page + 64 * (1 + unit);
    let start = boundary - 4 * first;
    let (tag, data) = (k as u8, [k as u8; 64]);
    let bytes = |length: u64| (4 * length) as u16;

    capture.tlp(UP, k, &read(tag, start as u32, (first + second) as u16), &[])?;
    capture.ack(DOWN, k)?;
    let header = completion(tag, bytes(first + second), (start % 128) as u8, first as u16);
    capture.tlp(DOWN, 2 * k, &header, &data[..4 * first as usize])?;
    let header = completion(tag, bytes(second), (boundary % 128) as u8, second as u16);
    capture.tlp(DOWN, 2 * k + 1, &header, &data[..4 * second as usize])?;
    capture.ack(UP, 2 * k + 1)?;
    capture.flow(DOWN, UPDATE_NP, (33 + k) as u8, 32)
}

fn main() -> io::Result<()> {
    let words: Vec<String> = env::args().collect();
    let number_in = |place: usize, usual| words.get(place).map_or(usual, |word| word.parse().expect("a number"));
    let mut capture = Capture::begin(BufWriter::with_capacity(1 << 20, File::create(&words[1])?))?;
    bring_up(&mut capture)?;
    let mut state: u64 = number_in(3, 1);
    for k in 0..number_in(2, 1_000_000) {
        state = state.wrapping_mul(6364136223846793005).wrapping_add(1442695040888963407);
        round(&mut capture, k, state >> 32)?;
    }
    capture.end()
}
