//! The same work as crates/bench_tlp in plain Rust, with a reader of the same fields.
//!
//! Words: COUNT ROUNDS. It prints what all fields come to and the nanoseconds spent.
use std::time::Instant;

#[derive(Clone, Copy)]
pub enum Kind {
    MRd,
    MRdLk,
    MWr,
    IORd,
    IOWr,
    CfgRd0,
    CfgWr0,
    CfgRd1,
    CfgWr1,
    Msg,
    MsgD,
    Cpl,
    CplD,
    CplLk,
    CplDLk,
    FetchAdd,
    Swap,
    Cas,
}

pub struct Tlp<'a> {
    pub kind: Kind,
    pub wide: bool,
    pub tc: u8,
    pub attr: u8,
    pub at: u8,
    pub ep: bool,
    pub th: bool,
    pub length: u16,
    pub requester: u16,
    pub tag: u16,
    pub first_be: u8,
    pub last_be: u8,
    pub address: u64,
    pub code: u8,
    pub routing: u8,
    pub completer: u16,
    pub status: u8,
    pub bcm: bool,
    pub byte_count: u16,
    pub lower: u8,
    pub prefixes: &'a [u8],
    pub payload: &'a [u8],
    pub digest: Option<[u8; 4]>,
    pub header: &'a [u8],
}

pub enum View<'a> {
    Whole(Tlp<'a>),
    Undefined,
    WrongSize,
}

fn kind_of(first: u8) -> Option<Kind> {
    Some(match first {
        0x00 | 0x20 => Kind::MRd,
        0x01 | 0x21 => Kind::MRdLk,
        0x40 | 0x60 => Kind::MWr,
        0x02 => Kind::IORd,
        0x42 => Kind::IOWr,
        0x04 => Kind::CfgRd0,
        0x44 => Kind::CfgWr0,
        0x05 => Kind::CfgRd1,
        0x45 => Kind::CfgWr1,
        0x30..=0x37 => Kind::Msg,
        0x70..=0x77 => Kind::MsgD,
        0x0a => Kind::Cpl,
        0x4a => Kind::CplD,
        0x0b => Kind::CplLk,
        0x4b => Kind::CplDLk,
        0x4c | 0x6c => Kind::FetchAdd,
        0x4d | 0x6d => Kind::Swap,
        0x4e | 0x6e => Kind::Cas,
        _ => return None,
    })
}

pub fn view(bytes: &[u8]) -> View<'_> {
    let mut front = 0;
    while front < bytes.len() && bytes[front] >> 5 == 4 {
        front += 4;
    }
    if front >= bytes.len() {
        return View::WrongSize;
    }
    let (prefixes, tlp) = bytes.split_at(front);
    let Some(kind) = kind_of(tlp[0]) else {
        return View::Undefined;
    };
    let wide = tlp[0] & 0x20 != 0;
    let start = if wide { 16 } else { 12 };
    if tlp.len() < start {
        return View::WrongSize;
    }
    let (header, rest) = tlp.split_at(start);
    let length = match u16::from_be_bytes([header[2] & 3, header[3]]) {
        0 => 1024,
        length => length,
    };
    let size = if header[0] & 0x40 != 0 { 4 * length as usize } else { 0 };
    let digested = header[2] & 0x80 != 0;
    if rest.len() != size + if digested { 4 } else { 0 } {
        return View::WrongSize;
    }
    let (payload, last) = rest.split_at(size);
    let id = |at: usize| u16::from_be_bytes([header[at], header[at + 1]]);
    let tag_high = u16::from(header[1] >> 7) << 9 | u16::from(header[1] >> 3 & 1) << 8;
    let mut seen = Tlp {
        kind,
        wide,
        tc: header[1] >> 4 & 7,
        attr: header[1] & 4 | header[2] >> 4 & 3,
        at: header[2] >> 2 & 3,
        ep: header[2] & 0x40 != 0,
        th: header[1] & 1 != 0,
        length,
        requester: 0,
        tag: 0,
        first_be: 0,
        last_be: 0,
        address: 0,
        code: 0,
        routing: 0,
        completer: 0,
        status: 0,
        bcm: false,
        byte_count: 0,
        lower: 0,
        prefixes,
        payload,
        digest: if digested { last.try_into().ok() } else { None },
        header,
    };
    if let Kind::Cpl | Kind::CplD | Kind::CplLk | Kind::CplDLk = kind {
        seen.completer = id(4);
        seen.status = match header[6] >> 5 {
            status @ (0 | 2 | 4) => status,
            _ => 1,
        };
        seen.bcm = header[6] & 0x10 != 0;
        seen.byte_count = match u16::from_be_bytes([header[6] & 15, header[7]]) {
            0 => 4096,
            count => count,
        };
        seen.requester = id(8);
        seen.tag = tag_high | u16::from(header[10]);
        seen.lower = header[11] & 0x7f;
        return View::Whole(seen);
    }
    seen.requester = id(4);
    seen.tag = tag_high | u16::from(header[6]);
    seen.address = if wide {
        u64::from_be_bytes(header[8..16].try_into().unwrap())
    } else {
        u64::from(u32::from_be_bytes(header[8..12].try_into().unwrap()))
    };
    match kind {
        Kind::Msg | Kind::MsgD => {
            seen.code = header[7];
            seen.routing = header[0] & 7;
        }
        Kind::CfgRd0 | Kind::CfgWr0 | Kind::CfgRd1 | Kind::CfgWr1 => {
            seen.first_be = header[7] & 15;
            seen.last_be = header[7] >> 4;
        }
        _ => {
            seen.first_be = header[7] & 15;
            seen.last_be = header[7] >> 4;
            seen.address &= !3;
        }
    }
    View::Whole(seen)
}

fn folded(tlp: &Tlp) -> u64 {
    let digest = match tlp.digest {
        Some(bytes) => u64::from(u32::from_be_bytes(bytes)),
        None => 0,
    };
    let parts = [
        tlp.kind as u64,
        u64::from(tlp.wide) << 5,
        u64::from(tlp.tc) << 6,
        u64::from(tlp.attr) << 9,
        u64::from(tlp.at) << 12,
        u64::from(tlp.ep) << 14,
        u64::from(tlp.th) << 15,
        u64::from(tlp.length) << 16,
        u64::from(tlp.requester) << 27,
        u64::from(tlp.tag) << 43,
        u64::from(tlp.first_be) << 53,
        u64::from(tlp.last_be) << 57,
        tlp.address.rotate_left(9),
        u64::from(tlp.code) << 40,
        u64::from(tlp.routing) << 61,
        u64::from(tlp.completer) << 11,
        u64::from(tlp.status) << 30,
        u64::from(tlp.bcm) << 33,
        u64::from(tlp.byte_count) << 34,
        u64::from(tlp.lower) << 47,
        (tlp.prefixes.len() as u64) << 7,
        (tlp.payload.len() as u64) << 21,
        (tlp.header.len() as u64) << 1,
        digest << 17,
    ];
    parts.iter().fold(0, |total, part| total ^ *part)
}

fn seen(tlp: &[u8]) -> u64 {
    match view(tlp) {
        View::Whole(whole) => folded(&whole),
        View::Undefined => 1,
        View::WrongSize => 2,
    }
}

const MIX: [(&[u8], usize); 12] = [
    (&[0x00, 0x00, 0x00, 0x20], 12),
    (&[0x20, 0x00, 0x00, 0x20], 16),
    (&[0x40, 0x00, 0x00, 0x10], 76),
    (&[0x60, 0x30, 0x20, 0x40], 272),
    (&[0x4a, 0x00, 0x00, 0x10], 76),
    (&[0x4a, 0x08, 0x10, 0x20], 140),
    (&[0x0a, 0x00, 0x00, 0x00], 12),
    (&[0x4a, 0x00, 0x80, 0x10], 80),
    (&[0x04, 0x00, 0x00, 0x01], 12),
    (&[0x34, 0x00, 0x00, 0x00], 16),
    (&[0x4c, 0x00, 0x00, 0x02], 20),
    (&[0x90, 0x01, 0x02, 0x03, 0x40, 0x00, 0x00, 0x10], 80),
];

fn next(state: u32) -> u32 {
    state.wrapping_mul(1_664_525).wrapping_add(1_013_904_223)
}

fn main() {
    let words: Vec<u32> = std::env::args().skip(1).map(|word| word.parse().unwrap()).collect();
    let (count, rounds) = (words[0], words[1]);
    let mut buffer = Vec::new();
    let mut sizes = Vec::new();
    let mut state = 1;
    for i in 0..count {
        let (first, size) = MIX[(next(i.wrapping_mul(2_654_435_761)) >> 16) as usize % MIX.len()];
        buffer.extend_from_slice(first);
        for _ in first.len()..size {
            state = next(state);
            buffer.push((state >> 24) as u8);
        }
        sizes.push(size);
    }
    let mut tlps: Vec<&[u8]> = Vec::new();
    let mut rest = &buffer[..];
    for size in sizes {
        let (tlp, behind) = rest.split_at(size);
        tlps.push(tlp);
        rest = behind;
    }
    let start = Instant::now();
    let mut total: u64 = 0;
    for _ in 0..rounds {
        for tlp in &tlps {
            total = total.wrapping_mul(31).wrapping_add(seen(tlp));
        }
    }
    println!("{total:016x} {}", start.elapsed().as_nanos());
}
