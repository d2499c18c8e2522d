//! A plain table of open addressing, to measure the table against: the same slots, hash, linear probes and
//! removal in ordinary Rust, with bounds checked as the program runs. It has no way to clear but slot by slot.
//!
//! Words: how many requests are open at once, and how many are opened and answered while so many are. It prints
//! how many of these were found again, and how many are still open.
use std::env;

#[allow(dead_code)]
#[derive(Clone, Copy)]
struct Request {
    at: u64,
    first_part: u64,
    wanted: u32,
    got: u32,
}

struct Table<V: Copy> {
    slots: Vec<Option<(u32, V)>>,
    len: u32,
    room: u32,
}

impl<V: Copy> Table<V> {
    fn open(room: u32) -> Table<V> {
        Table { slots: vec![None; 2 * room as usize], len: 0, room }
    }

    fn home(&self, key: u32) -> usize {
        let spread = u64::from(key.wrapping_mul(0x9E37_79B1));
        ((spread * self.slots.len() as u64) >> 32) as usize
    }

    fn next(&self, at: usize) -> usize {
        if at + 1 == self.slots.len() { 0 } else { at + 1 }
    }

    fn distance(&self, from: usize, to: usize) -> usize {
        if from <= to { to - from } else { to + self.slots.len() - from }
    }

    fn find(&self, key: u32) -> Result<(usize, V), usize> {
        let mut at = self.home(key);
        loop {
            match self.slots[at] {
                None => return Err(at),
                Some((other, value)) if other == key => return Ok((at, value)),
                Some(_) => at = self.next(at),
            }
        }
    }

    fn put(&mut self, key: u32, value: V) -> Result<Option<V>, V> {
        match self.find(key) {
            Ok((at, before)) => {
                self.slots[at] = Some((key, value));
                Ok(Some(before))
            }
            Err(_) if self.len == self.room => Err(value),
            Err(at) => {
                self.slots[at] = Some((key, value));
                self.len += 1;
                Ok(None)
            }
        }
    }

    fn take(&mut self, key: u32) -> Option<V> {
        let (mut hole, value) = self.find(key).ok()?;
        self.slots[hole] = None;
        let mut at = self.next(hole);
        while let Some((other, _)) = self.slots[at] {
            let start = self.home(other);
            if self.distance(start, hole) < self.distance(start, at) {
                self.slots[hole] = self.slots[at];
                self.slots[at] = None;
                hole = at;
            }
            at = self.next(at);
        }
        self.len -= 1;
        Some(value)
    }
}

fn key(request: u32) -> u32 {
    (request >> 8 & 0xFFFF) << 10 | request & 0xFF
}

impl Request {
    fn at(position: u32) -> Request {
        Request { at: u64::from(position), first_part: 0, wanted: 64, got: 0 }
    }
}

fn main() {
    let words: Vec<u32> = env::args().skip(1).map(|word| word.parse().unwrap()).collect();
    let (open, requests) = (words[0], words[1]);
    let mut table = Table::open(open + 1);
    let mut found = 0u32;
    for number in 0..open {
        let _ = table.put(key(number), Request::at(number));
    }
    for number in 0..requests {
        let next = number.wrapping_add(open);
        let _ = table.put(key(next), Request::at(next));
        if let Some(oldest) = table.take(key(number)) {
            found = found.wrapping_add(u32::from(oldest.at == u64::from(number)));
        }
    }
    println!("{found} {}", table.len);
}
