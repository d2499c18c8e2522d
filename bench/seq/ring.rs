//! A plain ring of TLPs, to measure the lane against: the same calls and rules in ordinary Rust, with bounds
//! checked as the program runs. Its lists of verdicts are `Vec`s, which take no memory while they are empty.
//!
//! Words: the ring's room and the number of TLPs. It prints how many items break a rule: 0.
use std::env;

const LONGEST_TLP: usize = 4154;

#[derive(Clone, Copy)]
enum Rule {
    L1,
    S1,
    S2,
    S3,
    S4,
    S5,
}

#[allow(dead_code)]
#[derive(Clone, Copy)]
struct Verdict {
    rule: Rule,
    at: u64,
    first: Option<u64>,
    second: Option<u64>,
}

fn verdict(rule: Rule, at: u64, first: Option<u64>, second: Option<u64>) -> Verdict {
    Verdict { rule, at, first, second }
}

#[allow(dead_code)]
#[derive(Clone, Copy, PartialEq)]
enum Body {
    Whole,
    Nullified,
    Spoiled,
}

struct Slot {
    at: u64,
    bytes: Vec<u8>,
}

#[derive(Clone, Copy)]
struct Latest {
    at: u64,
    number: u16,
    body: Body,
}

/// Slots in a ring: `count` are in use, from `head` on.
struct Ring {
    slots: Vec<Slot>,
    head: usize,
    count: usize,
    next: u64,
    answered: u64,
    latest_taken: Option<u64>,
    latest: Option<Latest>,
    spoiled: bool,
}

impl Ring {
    fn new(room: usize) -> Ring {
        Ring {
            slots: (0..room)
                .map(|_| Slot { at: 0, bytes: Vec::with_capacity(LONGEST_TLP) })
                .collect(),
            head: 0,
            count: 0,
            next: 0,
            answered: 0,
            latest_taken: None,
            latest: None,
            spoiled: false,
        }
    }

    fn full(&self) -> bool {
        self.count == self.slots.len()
    }

    fn slot(&self, place: usize) -> usize {
        let index = self.head + place;
        if index < self.slots.len() { index } else { index - self.slots.len() }
    }

    fn tlp(&mut self, number: u16, tlp: &[u8], body: Body, at: u64) -> Vec<Verdict> {
        let mut found = Vec::new();
        let behind = (self.next.wrapping_sub(u64::from(number)) % 4096) as usize;
        if body != Body::Whole {
            if body == Body::Spoiled {
                found.push(verdict(Rule::L1, at, None, None));
                self.spoiled = true;
            }
        } else if behind == 0 {
            if self.count >= 2047 {
                found.push(verdict(Rule::S4, at, Some(self.slots[self.head].at), None));
            }
            let index = self.slot(self.count);
            let slot = &mut self.slots[index];
            slot.at = at;
            slot.bytes.clear();
            slot.bytes.extend_from_slice(tlp);
            self.count += 1;
            self.next += 1;
            self.latest_taken = Some(at);
            self.spoiled = false;
        } else if behind <= 2048 && behind as u64 <= self.next {
            if behind <= self.count {
                let place = self.count - behind;
                let original = &self.slots[self.slot(place)];
                if original.bytes != tlp {
                    found.push(verdict(Rule::S2, at, Some(original.at), None));
                }
                if let Some(latest) = self.latest {
                    if place != 0 && latest.body == Body::Whole && latest.number != (number + 4095) % 4096 {
                        found.push(verdict(Rule::S3, at, Some(latest.at), Some(original.at)));
                    }
                }
            }
        } else if !self.spoiled {
            found.push(verdict(Rule::S1, at, self.latest_taken, None));
        }
        self.latest = Some(Latest { at, number, body });
        found
    }

    fn ack(&mut self, number: u16, at: u64) -> Vec<Verdict> {
        let mut found = Vec::new();
        let gain = ((u64::from(number) + 1).wrapping_sub(self.answered) % 4096) as usize;
        if gain <= self.count {
            self.head = self.slot(gain);
            self.count -= gain;
            self.answered += gain as u64;
        } else {
            found.push(verdict(Rule::S5, at, self.latest_taken, None));
        }
        found
    }
}

/// So many TLPs of 64 bytes, each acknowledged by the next item: how many of the items break a rule.
fn traffic(ring: &mut Ring, tlps: u32) -> u64 {
    let tlp = [7u8; 64];
    let mut broken = 0;
    for i in 0..tlps {
        if ring.full() {
            break;
        }
        let number = (i % 4096) as u16;
        let at = u64::from(i) * 2 + 1;
        broken += u64::from(!ring.tlp(number, &tlp, Body::Whole, at).is_empty());
        broken += u64::from(!ring.ack(number, at + 1).is_empty());
    }
    broken
}

fn main() {
    let mut words = env::args().skip(1).map(|word| word.parse::<u32>().ok());
    let room = words.next().flatten().unwrap_or(16);
    let tlps = words.next().flatten().unwrap_or(1000);
    let mut ring = Ring::new(room as usize);
    println!("{}", traffic(&mut ring, tlps));
}
