//! The formation rules in ordinary Rust, to measure `pl_form` against: the same TLPs and tests, by the kind first.
//! Its list of verdicts has room for 32 and isn't filled before use, and the caller hands it down.
//!
//! Words: ROUNDS. It prints the nanoseconds of the reads, the writes and the completions, and how many verdicts
//! there are: 0.
use std::mem::MaybeUninit;
use std::time::Instant;

#[allow(dead_code)]
#[derive(Clone, Copy)]
enum Rule {
    M1,
    M2,
    M3,
    M4,
    M5,
    M6,
    M7,
    M8,
    M9,
    M10,
    M11,
    M12,
    M13,
    M14,
    M15,
    M16,
    M17,
    M18,
    M19,
    M20,
}

#[allow(dead_code)]
#[derive(Clone, Copy)]
struct Verdict {
    rule: Rule,
    at: u64,
    first: Option<u64>,
    second: Option<u64>,
}

/// At most 32 verdicts.
struct Found {
    items: [MaybeUninit<Verdict>; 32],
    len: usize,
}

impl Found {
    fn new() -> Self {
        Found {
            items: [MaybeUninit::uninit(); 32],
            len: 0,
        }
    }

    fn clear(&mut self) {
        self.len = 0;
    }

    #[inline]
    fn add_if(&mut self, broken: bool, rule: Rule, at: u64) {
        if broken {
            self.add(rule, at);
        }
    }

    #[cold]
    #[inline(never)]
    fn add(&mut self, rule: Rule, at: u64) {
        self.items[self.len].write(Verdict {
            rule,
            at,
            first: None,
            second: None,
        });
        self.len += 1;
    }

    fn as_slice(&self) -> &[Verdict] {
        // The first `len` items are written.
        unsafe { std::slice::from_raw_parts(self.items.as_ptr().cast(), self.len) }
    }
}

#[allow(dead_code)]
#[derive(Clone, Copy, PartialEq)]
enum Kind {
    MRd,
    MRdLk,
    MWr,
    IORd,
    IOWr,
    CfgRd0,
    CfgWr0,
    CfgRd1,
    CfgWr1,
    Msg,
    MsgD,
    Cpl,
    CplD,
    CplLk,
    CplDLk,
    FetchAdd,
    Swap,
    Cas,
}

#[allow(dead_code)]
#[derive(Clone, Copy)]
struct Tlp<'a> {
    kind: Kind,
    wide: bool,
    tc: u8,
    attr: u8,
    at: u8,
    ep: bool,
    th: bool,
    length: u16,
    requester: u16,
    tag: u16,
    first_be: u8,
    last_be: u8,
    address: u64,
    code: u8,
    routing: u8,
    completer: u16,
    status: u8,
    bcm: bool,
    byte_count: u16,
    lower: u8,
    prefixes: &'a [u8],
    payload: &'a [u8],
    digest: Option<[u8; 4]>,
    header: &'a [u8],
}

#[allow(dead_code)]
enum View<'a> {
    Whole(Tlp<'a>),
    Undefined,
    WrongSize,
}

#[derive(Clone, Copy, PartialEq)]
enum Dir {
    Down,
    Up,
}

struct Profile {
    max_payload: [u16; 2],
    max_read: [u16; 2],
    tag_bits: u8,
    tc_vc: [u8; 8],
}

#[inline(never)]
fn judge(profile: &Profile, dir: Dir, view: &View, at: u64, found: &mut Found) {
    match view {
        View::Whole(tlp) => judge_whole(profile, dir, tlp, at, found),
        View::Undefined => found.add_if(true, Rule::M1, at),
        View::WrongSize => found.add_if(true, Rule::M2, at),
    }
}

fn judge_whole(profile: &Profile, dir: Dir, tlp: &Tlp, at: u64, found: &mut Found) {
    let max_payload = usize::from(profile.max_payload[dir as usize]);
    match tlp.kind {
        Kind::MRd | Kind::MRdLk => {
            if tlp.at != 1 {
                let max_read = u32::from(profile.max_read[dir as usize]);
                found.add_if(4 * u32::from(tlp.length) > max_read, Rule::M4, at);
                judge_memory(tlp, at, found);
            }
        }
        Kind::MWr => {
            found.add_if(tlp.payload.len() > max_payload, Rule::M3, at);
            if tlp.at != 1 {
                judge_memory(tlp, at, found);
            }
        }
        Kind::IORd | Kind::IOWr => judge_fixed(tlp, at, found),
        Kind::CfgRd0 | Kind::CfgWr0 | Kind::CfgRd1 | Kind::CfgWr1 => {
            judge_fixed(tlp, at, found);
            found.add_if(dir == Dir::Up, Rule::M10, at);
        }
        Kind::Msg => judge_message(dir, tlp, at, found),
        Kind::MsgD => {
            found.add_if(tlp.payload.len() > max_payload, Rule::M3, at);
            judge_message(dir, tlp, at, found);
        }
        Kind::FetchAdd | Kind::Swap => {
            found.add_if(tlp.payload.len() > max_payload, Rule::M3, at);
            judge_atomic(tlp, matches!(tlp.length, 1 | 2), 4, at, found);
        }
        Kind::Cas => {
            found.add_if(tlp.payload.len() > max_payload, Rule::M3, at);
            judge_atomic(tlp, matches!(tlp.length, 2 | 4 | 8), 2, at, found);
        }
        Kind::Cpl | Kind::CplD | Kind::CplLk | Kind::CplDLk => {}
    }
    found.add_if(profile.tc_vc[usize::from(tlp.tc)] == 8, Rule::M16, at);
    if matches!(tlp.kind, Kind::CplD | Kind::CplDLk) {
        found.add_if(tlp.payload.len() > max_payload, Rule::M17, at);
    }
    if let Some(digest) = tlp.digest {
        found.add_if(digest != ecrc(tlp), Rule::M18, at);
    }
    if !tlp.prefixes.is_empty() {
        found.add_if(breaks_m19(tlp.prefixes), Rule::M19, at);
    }
    let beyond = match profile.tag_bits {
        5 => tlp.tag / 32 % 32,
        8 => tlp.tag / 256 % 4,
        _ => 0,
    };
    if beyond != 0 && needs_completion(tlp.kind) {
        found.add_if(true, Rule::M20, at);
    }
}

#[inline(always)]
fn judge_memory(tlp: &Tlp, at: u64, found: &mut Found) {
    let over = tlp.address % 4096 + 4 * u64::from(tlp.length) > 4096;
    found.add_if(over, Rule::M5, at);
    found.add_if(tlp.wide && tlp.address < 1 << 32, Rule::M6, at);
    if tlp.th {
        return;
    }
    if tlp.length == 1 {
        found.add_if(tlp.last_be != 0, Rule::M7, at);
    } else if tlp.first_be == 0 || tlp.last_be == 0 {
        found.add_if(true, Rule::M7, at);
    } else {
        let reaches_end = matches!(tlp.first_be, 0b1111 | 0b1110 | 0b1100 | 0b1000);
        let begins_at_start = matches!(tlp.last_be, 0b1111 | 0b0111 | 0b0011 | 0b0001);
        let is_one_qw = tlp.length == 2 && tlp.address % 8 == 0;
        found.add_if(
            !(reaches_end && begins_at_start) && !is_one_qw,
            Rule::M8,
            at,
        );
    }
}

fn judge_fixed(tlp: &Tlp, at: u64, found: &mut Found) {
    let fixed =
        tlp.tc == 0 && tlp.attr % 4 == 0 && tlp.at == 0 && tlp.last_be == 0 && tlp.length == 1;
    found.add_if(!fixed, Rule::M9, at);
}

fn judge_atomic(tlp: &Tlp, has_length: bool, unit: u64, at: u64, found: &mut Found) {
    found.add_if(tlp.wide && tlp.address < 1 << 32, Rule::M6, at);
    found.add_if(!has_length, Rule::M11, at);
    let aligned = has_length && tlp.address % (unit * u64::from(tlp.length)) == 0;
    found.add_if(has_length && !aligned, Rule::M12, at);
}

fn judge_message(dir: Dir, tlp: &Tlp, at: u64, found: &mut Found) {
    let with_data = tlp.kind == Kind::MsgD;
    let (routing, way, only_tc0, fits) = match tlp.code {
        0x00 | 0x19 => (0b011, Dir::Down, true, !with_data),
        0x10 | 0x20..=0x27 => (0b100, Dir::Up, true, !with_data),
        0x12 | 0x14 => (0b100, Dir::Down, true, !with_data),
        0x18 | 0x30 | 0x31 | 0x33 => (0b000, Dir::Up, true, !with_data),
        0x1b => (0b101, Dir::Up, true, !with_data),
        0x50 => (0b100, Dir::Down, true, with_data && tlp.length == 1),
        0x52 => (0b100, Dir::Up, false, !with_data),
        0x53 => (0b100, Dir::Down, false, true),
        _ => return,
    };
    found.add_if(tlp.routing != routing || dir != way, Rule::M13, at);
    found.add_if(only_tc0 && tlp.tc != 0, Rule::M14, at);
    found.add_if(!fits, Rule::M15, at);
}

fn needs_completion(kind: Kind) -> bool {
    !matches!(
        kind,
        Kind::MWr | Kind::Msg | Kind::MsgD | Kind::Cpl | Kind::CplD | Kind::CplLk | Kind::CplDLk
    )
}

fn breaks_m19(prefixes: &[u8]) -> bool {
    let mut end_ends = 0;
    let mut late_local = false;
    for prefix in prefixes.chunks_exact(4) {
        if prefix[0] & 0x10 != 0 {
            end_ends += 1;
        } else if end_ends > 0 {
            late_local = true;
        }
    }
    late_local || end_ends > 4
}

fn updated(mut crc: u32, bytes: &[u8]) -> u32 {
    for byte in bytes {
        crc ^= u32::from(*byte);
        for _ in 0..8 {
            crc = (crc >> 1) ^ (0xedb8_8320 & 0u32.wrapping_sub(crc & 1));
        }
    }
    crc
}

/// Not reached by what is timed, and written the short way.
#[cold]
fn ecrc(tlp: &Tlp) -> [u8; 4] {
    let mut crc = u32::MAX;
    for prefix in tlp.prefixes.chunks_exact(4) {
        if prefix[0] & 0x10 != 0 {
            crc = updated(crc, prefix);
        }
    }
    let header = tlp.header;
    crc = updated(crc, &[header[0] | 1, header[1], header[2] | 0x40]);
    crc = updated(crc, &header[3..]);
    (!updated(crc, tlp.payload)).to_le_bytes()
}

/// A lawful TLP of this kind.
fn lawful(kind: Kind, data: &[u8]) -> Tlp<'_> {
    let is_completion = kind == Kind::CplD;
    Tlp {
        kind,
        wide: false,
        tc: 0,
        attr: 0,
        at: 0,
        ep: false,
        th: false,
        length: if data.is_empty() { 32 } else { 4 },
        requester: 0x0100,
        tag: 0,
        first_be: if is_completion { 0 } else { 0xf },
        last_be: if is_completion { 0 } else { 0xf },
        address: if is_completion { 0 } else { 0x0100_0000 },
        code: 0,
        routing: 0,
        completer: if is_completion { 0x0100 } else { 0 },
        status: 0,
        bcm: false,
        byte_count: if is_completion { 16 } else { 0 },
        lower: 0,
        prefixes: &[],
        payload: data,
        digest: None,
        header: &[0; 12],
    }
}

fn folded(found: &Found) -> u64 {
    found.as_slice().iter().fold(0, |total, verdict| {
        total.wrapping_add(verdict.at).wrapping_add(1)
    })
}

/// What the verdicts on a TLP come to that is judged so many times.
fn repeated(profile: &Profile, view: &View, rounds: u32) -> u64 {
    let mut total: u64 = 0;
    let mut found = Found::new();
    for round in 0..rounds {
        found.clear();
        judge(profile, Dir::Up, view, u64::from(round), &mut found);
        total = total.wrapping_add(folded(&found));
    }
    total
}

fn main() {
    let rounds = std::env::args()
        .nth(1)
        .and_then(|word| word.parse::<u32>().ok())
        .unwrap_or(1);
    let profile = Profile {
        max_payload: [256; 2],
        max_read: [512; 2],
        tag_bits: 8,
        tc_vc: [0; 8],
    };
    let mut sum: u64 = 0;
    for (kind, size) in [(Kind::MRd, 0), (Kind::MWr, 16), (Kind::CplD, 16)] {
        let data = vec![0; size];
        let view = View::Whole(lawful(kind, &data));
        let start = Instant::now();
        sum = sum.wrapping_add(repeated(&profile, &view, rounds));
        print!("{} ", start.elapsed().as_nanos());
    }
    println!("{sum}");
}
