//! The calls that `bench_table parts` times, on what Rust's std has in the place of each part: a list of entries with a
//! free list, a `HashMap` beside a list of keys, and a list linked by index.
//!
//!     rustc -O --edition 2024 benches/parts.rs -o /tmp/parts && /tmp/parts 1000000

use std::collections::HashMap;
use std::hash::{Hash, Hasher};
use std::hint::black_box;
use std::time::Instant;

const SLOTS: u32 = 65_536;
const NONE: u32 = u32::MAX;

/// A linear congruential generator with the constants of Knuth's MMIX.
struct Random {
    state: u64,
}

impl Random {
    fn slot(&mut self) -> u32 {
        self.state = self
            .state
            .wrapping_mul(6_364_136_223_846_793_005)
            .wrapping_add(1_442_695_040_888_963_407);
        ((self.state >> 33) % u64::from(SLOTS)) as u32
    }
}

#[derive(Clone, Copy)]
struct Handle {
    slot: u32,
    generation: u64,
}

type Value = [u64; 8];

enum Entry {
    Free(u32),
    Full(u64, Value),
}

/// Values in a `Vec`, whose free entries form a list.
struct Pool {
    entries: Vec<Entry>,
    first_free: u32,
}

impl Pool {
    fn new(capacity: u32) -> Self {
        Pool {
            entries: Vec::with_capacity(capacity as usize),
            first_free: NONE,
        }
    }

    fn insert(&mut self, value: Value, generation: u64) -> Result<Handle, Value> {
        let slot = self.first_free;
        if slot == NONE {
            if self.entries.len() == self.entries.capacity() {
                return Err(value);
            }
            let slot = self.entries.len() as u32;
            self.entries.push(Entry::Full(generation, value));
            return Ok(Handle { slot, generation });
        }
        if let Entry::Free(next) = self.entries[slot as usize] {
            self.first_free = next;
        }
        self.entries[slot as usize] = Entry::Full(generation, value);
        Ok(Handle { slot, generation })
    }

    fn get(&self, handle: Handle) -> Option<&Value> {
        match self.entries.get(handle.slot as usize) {
            Some(Entry::Full(generation, value)) if *generation == handle.generation => Some(value),
            _ => None,
        }
    }

    fn remove(&mut self, handle: Handle) -> Option<Value> {
        self.get(handle)?;
        let free = Entry::Free(self.first_free);
        match std::mem::replace(&mut self.entries[handle.slot as usize], free) {
            Entry::Full(_, value) => {
                self.first_free = handle.slot;
                Some(value)
            }
            Entry::Free(_) => None,
        }
    }
}

/// A key of up to sixteen bytes.
#[derive(Clone, PartialEq, Eq)]
struct Key {
    length: usize,
    bytes: [u8; 16],
}

impl Key {
    fn new(from: &[u8]) -> Self {
        let mut bytes = [0; 16];
        bytes[..from.len()].copy_from_slice(from);
        Key {
            length: from.len(),
            bytes,
        }
    }
}

impl Hash for Key {
    fn hash<H: Hasher>(&self, state: &mut H) {
        self.bytes[..self.length].hash(state);
    }
}

/// Handles by their keys, and the key of each slot.
struct Index {
    handles: HashMap<Key, Handle>,
    keys: Vec<Option<Key>>,
}

impl Index {
    fn new(capacity: u32) -> Self {
        Index {
            handles: HashMap::with_capacity(capacity as usize),
            keys: vec![None; capacity as usize],
        }
    }

    fn get(&self, key: &Key) -> Option<Handle> {
        self.handles.get(key).copied()
    }

    fn insert(&mut self, key: Key, handle: Handle) {
        self.keys[handle.slot as usize] = Some(key.clone());
        self.handles.insert(key, handle);
    }

    fn remove_slot(&mut self, slot: u32) -> Option<Key> {
        let key = self.keys[slot as usize].take()?;
        self.handles.remove(&key);
        Some(key)
    }
}

#[derive(Clone, Copy)]
struct Link {
    next: u32,
    previous: u32,
}

/// A list of slots, linked by index.
struct Order {
    links: Vec<Link>,
    front: u32,
    back: u32,
}

fn some_slot(slot: u32) -> Option<u32> {
    if slot == NONE { None } else { Some(slot) }
}

impl Order {
    fn new(capacity: u32) -> Self {
        let alone = Link {
            next: NONE,
            previous: NONE,
        };
        Order {
            links: vec![alone; capacity as usize],
            front: NONE,
            back: NONE,
        }
    }

    fn front(&self) -> Option<u32> {
        some_slot(self.front)
    }

    fn after(&self, slot: u32) -> Option<u32> {
        some_slot(self.links[slot as usize].next)
    }

    fn push_back(&mut self, slot: u32) {
        self.links[slot as usize] = Link {
            next: NONE,
            previous: self.back,
        };
        if self.back == NONE {
            self.front = slot;
        } else {
            self.links[self.back as usize].next = slot;
        }
        self.back = slot;
    }

    fn remove(&mut self, slot: u32) {
        let Link { next, previous } = self.links[slot as usize];
        if previous == NONE {
            self.front = next;
        } else {
            self.links[previous as usize].next = next;
        }
        if next == NONE {
            self.back = previous;
        } else {
            self.links[next as usize].previous = previous;
        }
    }
}

/// A pool in which every slot has a value, and the handles of all.
struct FullPool {
    pool: Pool,
    handles: Vec<Handle>,
    generation: u64,
}

impl FullPool {
    fn new() -> Self {
        let mut full = FullPool {
            pool: Pool::new(SLOTS),
            handles: Vec::with_capacity(SLOTS as usize),
            generation: 0,
        };
        for _slot in 0..SLOTS {
            full.generation += 1;
            if let Ok(handle) = full.pool.insert([full.generation; 8], full.generation) {
                full.handles.push(handle);
            }
        }
        full
    }

    fn replace(&mut self, place: u32) -> u64 {
        let handle = self.handles[place as usize];
        let Some(value) = self.pool.remove(handle) else {
            return 0;
        };
        self.generation += 1;
        match self.pool.insert([self.generation; 8], self.generation) {
            Ok(handle) => self.handles[place as usize] = handle,
            Err(_) => return 0,
        }
        value[0]
    }

    fn read(&self, place: u32) -> u64 {
        match self.pool.get(self.handles[place as usize]) {
            Some(value) => value[0],
            None => 0,
        }
    }
}

/// An index in which every slot has a key, its keys, and as many others.
struct FullIndex {
    index: Index,
    keys: Vec<Key>,
    others: Vec<Key>,
}

fn key(number: u32, wide: bool) -> Key {
    if wide {
        let mut bytes = [0; 16];
        bytes[..4].copy_from_slice(&[0x20, 0x01, 0x0d, 0xb8]);
        bytes[12..].copy_from_slice(&number.to_be_bytes());
        Key::new(&bytes)
    } else {
        Key::new(&number.to_be_bytes())
    }
}

impl FullIndex {
    fn new(wide: bool) -> Self {
        let mut full = FullIndex {
            index: Index::new(SLOTS),
            keys: Vec::new(),
            others: Vec::new(),
        };
        for slot in 0..SLOTS {
            full.keys.push(key(slot, wide));
            full.others.push(key(slot + SLOTS, wide));
            let handle = Handle {
                slot,
                generation: 2,
            };
            full.index.insert(key(slot, wide), handle);
        }
        full
    }

    fn find(&self, keys: &[Key], place: u32) -> u64 {
        match self.index.get(&keys[place as usize]) {
            Some(handle) => handle.generation,
            None => 1,
        }
    }

    fn put_back(&mut self, slot: u32) -> u64 {
        let Some(key) = self.index.remove_slot(slot) else {
            return 0;
        };
        let handle = Handle {
            slot,
            generation: 2,
        };
        self.index.insert(key, handle);
        1
    }
}

/// An order that has every slot.
struct FullOrder {
    order: Order,
}

impl FullOrder {
    fn new() -> Self {
        let mut order = Order::new(SLOTS);
        for slot in 0..SLOTS {
            order.push_back(slot);
        }
        FullOrder { order }
    }

    fn refresh(&mut self, slot: u32) -> u64 {
        self.order.remove(slot);
        self.order.push_back(slot);
        u64::from(slot)
    }

    fn walk(&self, count: u32) -> u64 {
        let mut sum = 0;
        let mut at = self.order.front();
        for _step in 0..count {
            at = match at {
                Some(slot) => {
                    sum += u64::from(slot);
                    self.order.after(slot)
                }
                None => self.order.front(),
            };
        }
        sum
    }
}

/// The least time of five runs, in nanoseconds for each round.
fn time(name: &str, count: u32, mut run: impl FnMut(&mut Random, u32) -> u64) {
    let mut random = Random { state: 1 };
    let mut least = f64::MAX;
    let mut made = 0u64;
    for _run in 0..5 {
        let start = Instant::now();
        made = made.wrapping_add(black_box(run(&mut random, count)));
        least = least.min(start.elapsed().as_nanos() as f64 / f64::from(count.max(1)));
    }
    println!("{name}: {least:.1} ns ({made})");
}

fn rounds(random: &mut Random, count: u32, mut round: impl FnMut(u32) -> u64) -> u64 {
    let mut sum = 0u64;
    for _round in 0..count {
        sum = sum.wrapping_add(round(random.slot()));
    }
    sum
}

fn main() {
    let count = std::env::args().nth(1).and_then(|word| word.parse().ok());
    let Some(count) = count else {
        println!("usage: parts COUNT");
        return;
    };
    let mut pool = FullPool::new();
    time("pool: remove, insert", count, |random, count| {
        rounds(random, count, |place| pool.replace(place))
    });
    time("pool: get", count, |random, count| {
        rounds(random, count, |place| pool.read(place))
    });
    for (kind, wide) in [("4", false), ("16", true)] {
        let mut index = FullIndex::new(wide);
        time(
            &format!("index, keys of {kind} bytes: get"),
            count,
            |random, count| rounds(random, count, |place| index.find(&index.keys, place)),
        );
        time(
            &format!("index, keys of {kind} bytes: get an absent one"),
            count,
            |random, count| rounds(random, count, |place| index.find(&index.others, place)),
        );
        time(
            &format!("index, keys of {kind} bytes: remove_slot, insert"),
            count,
            |random, count| rounds(random, count, |slot| index.put_back(slot)),
        );
    }
    let mut order = FullOrder::new();
    time("order: remove, push_back", count, |random, count| {
        rounds(random, count, |slot| order.refresh(slot))
    });
    time("order: after", count, |_, count| order.walk(count));
}
