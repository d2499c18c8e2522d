//! The credits in ordinary Rust, to measure `pl_credit` against: the same calls and rules, with bounds checked as the
//! program runs. Its lists of verdicts are `Vec`s, which take no memory while they are empty.
//!
//! Words: the number of TLPs. It prints how many items break a rule: 0.
use std::env;

#[derive(Clone, Copy)]
enum Rule {
    F1,
    F2,
    F3,
    F4,
    F5,
    F6,
    F7,
    F8,
    F9,
    F10,
    F11,
}

#[allow(dead_code)]
#[derive(Clone, Copy)]
struct Verdict {
    rule: Rule,
    at: u64,
    first: Option<u64>,
    second: Option<u64>,
}

fn verdict(rule: Rule, at: u64, first: Option<u64>) -> Verdict {
    Verdict {
        rule,
        at,
        first,
        second: None,
    }
}

#[derive(Clone, Copy, PartialEq)]
enum Stage {
    Init1,
    Init2,
    Update,
}

const POSTED: usize = 0;
const COMPLETION: usize = 2;

#[derive(Clone, Copy)]
struct Fc {
    stage: Stage,
    class: usize,
    vc: u8,
    hdr_scale: u8,
    hdr: u8,
    data_scale: u8,
    units: u16,
}

#[derive(Clone, Copy)]
struct Cost {
    class: usize,
    header: u8,
    units: u16,
}

#[derive(Clone, Copy)]
struct Initial {
    at: u64,
    header: u32,
    data: u32,
    header_factor: u32,
    data_factor: u32,
}

#[derive(Clone, Copy)]
struct Grant {
    at: u64,
    header: u32,
    data: u32,
}

#[derive(Clone, Copy, Default)]
struct Account {
    initial: Option<Initial>,
    grant: Option<Grant>,
    used_header: u32,
    used_data: u32,
}

#[derive(Clone, Copy, Default)]
struct Channel {
    accounts: [Account; 3],
    latest_init1: Option<(u64, usize)>,
    is_spoiled_since: bool,
    is_ready: bool,
}

struct Credits {
    channels: [[Channel; 8]; 2],
    max_payload: [u32; 2],
    endpoint: [bool; 2],
    vcs: u8,
}

fn factor(scale: u8) -> u32 {
    match scale {
        2 => 4,
        3 => 16,
        _ => 1,
    }
}

impl Account {
    fn is_over(&self, initial: &Initial, header: u32, data: u32) -> bool {
        let unused_header = header.wrapping_sub(self.used_header) % (256 * initial.header_factor);
        let unused_data = data.wrapping_sub(self.used_data) % (4096 * initial.data_factor);
        (initial.header != 0 && unused_header > 127 * initial.header_factor)
            || (initial.data != 0 && unused_data > 2047 * initial.data_factor)
    }
}

impl Channel {
    fn is_advertised(&self) -> bool {
        self.accounts
            .iter()
            .all(|account| account.initial.is_some())
    }
}

impl Credits {
    #[inline(never)]
    fn fc(&mut self, dir: usize, fc: &Fc, at: u64) -> Vec<Verdict> {
        let mut found = Vec::new();
        if fc.vc >= self.vcs {
            found.push(verdict(Rule::F11, at, None));
            return found;
        }
        let channel = &mut self.channels[1 - dir][fc.vc as usize];
        if fc.stage == Stage::Init1 {
            let turn = channel.latest_init1.map_or(0, |(_, class)| (class + 1) % 3);
            if fc.class != turn && !channel.is_spoiled_since {
                found.push(verdict(
                    Rule::F2,
                    at,
                    channel.latest_init1.map(|(at, _)| at),
                ));
            }
            channel.latest_init1 = Some((at, fc.class));
            channel.is_spoiled_since = false;
        } else if channel.is_advertised() {
            channel.is_ready = true;
        }
        let account = &mut channel.accounts[fc.class];
        let (header_factor, data_factor) = (factor(fc.hdr_scale), factor(fc.data_scale));
        let header = u32::from(fc.hdr) * header_factor;
        let data = u32::from(fc.units) * data_factor;
        match (account.initial, fc.stage) {
            (None, Stage::Update) => found.push(verdict(Rule::F7, at, None)),
            (None, _) => {
                if fc.class == POSTED && data != 0 && data < self.max_payload[1 - dir] / 16 {
                    found.push(verdict(Rule::F4, at, None));
                }
                if fc.class == COMPLETION && self.endpoint[dir] && (header != 0 || data != 0) {
                    found.push(verdict(Rule::F6, at, None));
                }
                let initial = Initial {
                    at,
                    header,
                    data,
                    header_factor,
                    data_factor,
                };
                if account.is_over(&initial, header, data) {
                    found.push(verdict(Rule::F8, at, None));
                }
                account.initial = Some(initial);
                account.grant = Some(Grant { at, header, data });
            }
            (Some(initial), Stage::Update) => {
                if (initial.header == 0 && fc.hdr != 0) || (initial.data == 0 && fc.units != 0) {
                    found.push(verdict(Rule::F5, at, Some(initial.at)));
                }
                let header = u32::from(fc.hdr) * initial.header_factor;
                let data = u32::from(fc.units) * initial.data_factor;
                if account.is_over(&initial, header, data) {
                    found.push(verdict(Rule::F8, at, Some(initial.at)));
                }
                account.grant = Some(Grant { at, header, data });
            }
            (Some(initial), _) => {
                if header != initial.header || data != initial.data {
                    found.push(verdict(Rule::F3, at, Some(initial.at)));
                }
            }
        }
        found
    }

    #[inline(never)]
    fn tlp(&mut self, dir: usize, vc: u8, cost: Cost, at: u64) -> Vec<Verdict> {
        let mut found = Vec::new();
        let channel = &mut self.channels[dir][vc as usize];
        if !channel.is_ready {
            found.push(verdict(Rule::F1, at, None));
        }
        let account = &mut channel.accounts[cost.class];
        account.used_header = account.used_header.wrapping_add(u32::from(cost.header));
        account.used_data = account.used_data.wrapping_add(u32::from(cost.units));
        if let (Some(initial), Some(grant)) = (account.initial, account.grant) {
            let ring = 256 * initial.header_factor;
            if initial.header != 0
                && grant.header.wrapping_sub(account.used_header) % ring > ring / 2
            {
                found.push(verdict(Rule::F9, at, Some(grant.at)));
            }
            let ring = 4096 * initial.data_factor;
            let is_judged = cost.units != 0 && initial.data != 0;
            if is_judged && grant.data.wrapping_sub(account.used_data) % ring > ring / 2 {
                found.push(verdict(Rule::F10, at, Some(grant.at)));
            }
        }
        let other = &mut self.channels[1 - dir][vc as usize];
        if other.is_advertised() {
            other.is_ready = true;
        }
        found
    }
}

fn main() {
    let tlps = env::args()
        .nth(1)
        .and_then(|word| word.parse::<u32>().ok())
        .unwrap_or(1000);
    let mut credits = Credits {
        channels: [[Channel::default(); 8]; 2],
        max_payload: [256; 2],
        endpoint: [false, true],
        vcs: 1,
    };
    let mut fc = Fc {
        stage: Stage::Init1,
        class: POSTED,
        vc: 0,
        hdr_scale: 0,
        hdr: 64,
        data_scale: 0,
        units: 256,
    };
    let cost = Cost {
        class: POSTED,
        header: 1,
        units: 4,
    };
    let mut broken = 0;
    for class in 0..3 {
        fc.class = class;
        broken += u64::from(!credits.fc(0, &fc, 1).is_empty());
    }
    fc.class = POSTED;
    fc.stage = Stage::Init2;
    broken += u64::from(!credits.fc(0, &fc, 4).is_empty());
    fc.stage = Stage::Update;
    for i in 0..tlps {
        let at = u64::from(i) * 2 + 5;
        broken += u64::from(!credits.tlp(1, 0, cost, at).is_empty());
        if i % 32 == 31 {
            fc.hdr = fc.hdr.wrapping_add(32);
            fc.units = (fc.units + 128) % 4096;
            broken += u64::from(!credits.fc(0, &fc, at + 1).is_empty());
        }
    }
    println!("{broken}");
}
