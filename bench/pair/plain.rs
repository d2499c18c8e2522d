//! The pairs in ordinary Rust, to measure `pl_pair` against: the same calls and rules over the same open addressing,
//! with bounds checked as the program runs. Its lists of verdicts are `Vec`s, which take no memory while they are empty.
//!
//! Words: how many requests are open at once, and how many are made and answered while so many are. It prints how many
//! items break a rule, 0, and how many requests are still open.
use std::env;

#[derive(Clone, Copy, PartialEq)]
enum Rule {
    C1,
    C2,
    C3,
    C4,
    C5,
    C6,
    C7,
    C8,
    C9,
    C10,
}

#[allow(dead_code)]
#[derive(Clone, Copy)]
struct Verdict {
    rule: Rule,
    at: u64,
    first: Option<u64>,
    second: Option<u64>,
}

#[allow(dead_code)]
#[derive(Clone, Copy, PartialEq)]
enum Kind {
    MRd,
    MRdLk,
    MWr,
    IORd,
    IOWr,
    CfgRd0,
    CfgWr0,
    CfgRd1,
    CfgWr1,
    Msg,
    MsgD,
    Cpl,
    CplD,
    CplLk,
    CplDLk,
    FetchAdd,
    Swap,
    Cas,
}

#[allow(dead_code)]
#[derive(Clone, Copy)]
struct Tlp<'a> {
    kind: Kind,
    wide: bool,
    tc: u8,
    attr: u8,
    at: u8,
    ep: bool,
    th: bool,
    length: u16,
    requester: u16,
    tag: u16,
    first_be: u8,
    last_be: u8,
    address: u64,
    code: u8,
    routing: u8,
    completer: u16,
    status: u8,
    bcm: bool,
    byte_count: u16,
    lower: u8,
    prefixes: &'a [u8],
    payload: &'a [u8],
    digest: Option<[u8; 4]>,
    header: &'a [u8],
}

#[derive(Clone, Copy)]
struct Request {
    kind: Kind,
    tc: u8,
    attr: u8,
    at: u8,
    th: bool,
    length: u16,
    first_be: u8,
    last_be: u8,
    address: u64,
}

#[derive(Clone, Copy)]
struct OpenRequest {
    request: Request,
    at: u64,
    first_part: Option<u64>,
    got: u16,
}

impl Request {
    fn of(tlp: &Tlp) -> Request {
        Request {
            kind: tlp.kind,
            tc: tlp.tc,
            attr: tlp.attr,
            at: tlp.at,
            th: tlp.th,
            length: tlp.length,
            first_be: tlp.first_be,
            last_be: tlp.last_be,
            address: tlp.address,
        }
    }

    fn is_read(&self) -> bool {
        matches!(self.kind, Kind::MRd | Kind::MRdLk)
    }

    fn is_configuration(&self) -> bool {
        matches!(
            self.kind,
            Kind::CfgRd0 | Kind::CfgWr0 | Kind::CfgRd1 | Kind::CfgWr1
        )
    }

    fn is_io_or_configuration(&self) -> bool {
        matches!(self.kind, Kind::IORd | Kind::IOWr) || self.is_configuration()
    }

    fn is_atomic(&self) -> bool {
        matches!(self.kind, Kind::FetchAdd | Kind::Swap | Kind::Cas)
    }

    fn wanted(&self) -> u16 {
        match self.kind {
            Kind::MRd | Kind::MRdLk | Kind::FetchAdd | Kind::Swap => self.length,
            Kind::Cas => self.length / 2,
            Kind::IORd | Kind::CfgRd0 | Kind::CfgRd1 => 1,
            _ => 0,
        }
    }

    fn lead(&self) -> u16 {
        if self.th || self.first_be == 0 {
            0
        } else {
            self.first_be.trailing_zeros() as u16
        }
    }

    fn trail(&self) -> u16 {
        if self.last_be == 0 {
            0
        } else {
            self.last_be.leading_zeros() as u16 - 4
        }
    }

    fn bytes(&self) -> u16 {
        if self.th {
            4 * self.length
        } else if self.length == 1 {
            if self.first_be == 0 {
                1
            } else {
                8 - (self.first_be.leading_zeros() + self.first_be.trailing_zeros()) as u16
            }
        } else {
            4 * self.length - self.lead() - self.trail()
        }
    }

    fn remaining(&self, got: u16) -> u16 {
        if got == 0 {
            self.bytes()
        } else {
            self.lead() + self.bytes() - 4 * got
        }
    }
}

struct Table<V: Copy> {
    slots: Vec<Option<(u32, V)>>,
    len: u32,
    room: u32,
}

impl<V: Copy> Table<V> {
    fn open(room: u32) -> Table<V> {
        Table {
            slots: vec![None; 2 * room as usize],
            len: 0,
            room,
        }
    }

    fn home(&self, key: u32) -> usize {
        let spread = u64::from(key.wrapping_mul(0x9E37_79B1));
        ((spread * self.slots.len() as u64) >> 32) as usize
    }

    fn next(&self, at: usize) -> usize {
        if at + 1 == self.slots.len() {
            0
        } else {
            at + 1
        }
    }

    fn distance(&self, from: usize, to: usize) -> usize {
        if from <= to {
            to - from
        } else {
            to + self.slots.len() - from
        }
    }

    fn find(&self, key: u32) -> Result<(usize, V), usize> {
        let mut at = self.home(key);
        loop {
            match self.slots[at] {
                None => return Err(at),
                Some((other, value)) if other == key => return Ok((at, value)),
                Some(_) => at = self.next(at),
            }
        }
    }

    fn put(&mut self, key: u32, value: V) -> Option<V> {
        match self.find(key) {
            Ok((at, before)) => {
                self.slots[at] = Some((key, value));
                Some(before)
            }
            Err(at) => {
                self.slots[at] = Some((key, value));
                self.len += 1;
                None
            }
        }
    }

    fn get(&self, key: u32) -> Option<V> {
        self.find(key).ok().map(|(_, value)| value)
    }

    fn take(&mut self, key: u32) -> Option<V> {
        let (mut hole, value) = self.find(key).ok()?;
        self.slots[hole] = None;
        let mut at = self.next(hole);
        while let Some((other, _)) = self.slots[at] {
            let start = self.home(other);
            if self.distance(start, hole) < self.distance(start, at) {
                self.slots[hole] = self.slots[at];
                self.slots[at] = None;
                hole = at;
            }
            at = self.next(at);
        }
        self.len -= 1;
        Some(value)
    }
}

struct Pairs {
    table: Table<OpenRequest>,
    rcb: [u8; 2],
}

fn key(direction: usize, tlp: &Tlp) -> u32 {
    ((direction as u32) << 26) + (u32::from(tlp.requester) << 10) + u32::from(tlp.tag)
}

impl Pairs {
    fn full_for(&self, dir: usize, tlp: &Tlp) -> bool {
        self.table.len >= self.table.room && self.table.get(key(dir, tlp)).is_none()
    }

    #[inline(never)]
    fn request(&mut self, dir: usize, tlp: &Tlp, at: u64) -> Vec<Verdict> {
        let mut found = Vec::new();
        let opened = OpenRequest {
            request: Request::of(tlp),
            at,
            first_part: None,
            got: 0,
        };
        if let Some(before) = self.table.put(key(dir, tlp), opened) {
            found.push(Verdict {
                rule: Rule::C2,
                at,
                first: Some(before.at),
                second: None,
            });
        }
        found
    }

    #[inline(never)]
    fn completion(&mut self, dir: usize, tlp: &Tlp, at: u64) -> Vec<Verdict> {
        let key = key(1 - dir, tlp);
        let Some(opened) = self.table.get(key) else {
            return vec![Verdict {
                rule: Rule::C1,
                at,
                first: None,
                second: None,
            }];
        };
        let found = judge(self.rcb[dir], &opened, tlp, at);
        match after(opened, tlp, at) {
            Some(opened) => {
                self.table.put(key, opened);
            }
            None => {
                self.table.take(key);
            }
        }
        found
    }
}

fn has_data(tlp: &Tlp) -> bool {
    matches!(tlp.kind, Kind::CplD | Kind::CplDLk)
}

fn judge(boundary: u8, opened: &OpenRequest, tlp: &Tlp, at: u64) -> Vec<Verdict> {
    let mut found = Vec::new();
    let mut hold = |broken: bool, rule: Rule| {
        if broken {
            found.push(Verdict {
                rule,
                at,
                first: Some(opened.at),
                second: opened.first_part,
            });
        }
    };
    let request = &opened.request;
    let (wanted, got) = (request.wanted(), opened.got);
    let (has_data, successful) = (has_data(tlp), tlp.status == 0);
    hold(
        tlp.tc != request.tc || (tlp.attr ^ request.attr) & 3 != 0,
        Rule::C3,
    );
    hold(
        has_data && !successful
            || successful && !has_data && wanted != 0
            || has_data && wanted == 0
            || request.is_atomic() && has_data && successful && tlp.length < wanted,
        Rule::C4,
    );
    hold(
        has_data && wanted != 0 && got + tlp.length > wanted,
        Rule::C5,
    );
    let counted = successful && request.at != 1;
    hold(
        counted
            && !tlp.bcm
            && (request.is_read() && has_data && tlp.byte_count != request.remaining(got)
                || request.is_io_or_configuration() && tlp.byte_count != 4
                || request.is_atomic() && tlp.byte_count != 4 * wanted),
        Rule::C6,
    );
    let begins = if got == 0 {
        request.address + u64::from(request.lead())
    } else {
        request.address + 4 * u64::from(got)
    };
    hold(
        counted
            && (request.is_read() && has_data && u64::from(tlp.lower) != begins % 128
                || request.is_io_or_configuration() && tlp.lower != 0),
        Rule::C7,
    );
    hold(tlp.status == 2 && !request.is_configuration(), Rule::C8);
    let reached = got + tlp.length;
    let ends = request.address + 4 * u64::from(reached);
    hold(
        request.is_read()
            && has_data
            && counted
            && reached < wanted
            && ends % u64::from(boundary) != 0,
        Rule::C9,
    );
    hold(
        matches!(tlp.kind, Kind::CplLk | Kind::CplDLk) && request.kind != Kind::MRdLk
            || tlp.kind == Kind::CplD && request.kind == Kind::MRdLk,
        Rule::C10,
    );
    found
}

fn after(mut opened: OpenRequest, tlp: &Tlp, at: u64) -> Option<OpenRequest> {
    let wanted = opened.request.wanted();
    if !has_data(tlp)
        || tlp.status != 0
        || wanted == 0
        || opened.got + tlp.length >= wanted
        || opened.request.at == 1 && tlp.byte_count <= 4 * tlp.length
    {
        return None;
    }
    opened.first_part = opened.first_part.or(Some(at));
    opened.got += tlp.length;
    Some(opened)
}

static DATA: [u8; 64] = [0; 64];

const UP: usize = 1;
const DOWN: usize = 0;

fn tlp(number: u32) -> Tlp<'static> {
    Tlp {
        kind: Kind::MRd,
        wide: false,
        tc: 0,
        attr: 0,
        at: 0,
        ep: false,
        th: false,
        length: 16,
        requester: (number >> 8 & 0xFFFF) as u16,
        tag: (number & 0xFF) as u16,
        first_be: 0xF,
        last_be: 0xF,
        address: 0x1000,
        code: 0,
        routing: 0,
        completer: 0,
        status: 0,
        bcm: false,
        byte_count: 0,
        lower: 0,
        prefixes: &[],
        payload: &[],
        digest: None,
        header: &[],
    }
}

fn completion(number: u32) -> Tlp<'static> {
    Tlp {
        kind: Kind::CplD,
        first_be: 0,
        last_be: 0,
        address: 0,
        byte_count: 64,
        payload: &DATA,
        ..tlp(number)
    }
}

fn main() {
    let words: Vec<u32> = env::args()
        .skip(1)
        .map(|word| word.parse().unwrap())
        .collect();
    let (open, requests) = (words[0], words[1]);
    let mut pairs = Pairs {
        table: Table::open(open + 1),
        rcb: [64, 128],
    };
    let mut broken = 0u64;
    for number in 0..open {
        broken += u64::from(!pairs.request(UP, &tlp(number), u64::from(number)).is_empty());
    }
    for number in 0..requests {
        let next = number.wrapping_add(open);
        let request = tlp(next);
        if pairs.full_for(UP, &request) {
            break;
        }
        let at = u64::from(next) * 2;
        broken += u64::from(!pairs.request(UP, &request, at).is_empty());
        broken += u64::from(
            !pairs
                .completion(DOWN, &completion(number), at + 1)
                .is_empty(),
        );
    }
    println!("{broken} {}", pairs.table.len);
}
