//! What a lock takes in Rust: the rounds of `bench_table locks` with a `Mutex` of std's in the place of each shard's lock,
//! and the same rounds with none, by as many threads, of as many locks. A round takes the lock of a payload as large as
//! a shard's book, and counts in it.
//!
//!     rustc -O --edition 2024 benches/mutex/main.rs -o /tmp/mutex && /tmp/mutex 1000000
//!
//! Prints, as `bench_table locks` does, the least of five times for a round in ns, of the thread that took longest each
//! time: without the lock, and with it.

use std::hint::black_box;
use std::sync::Mutex;
use std::time::{Duration, Instant};

/// The bytes of a shard's book of a pooled table.
const BYTES: usize = 568;

/// How many keys each thread has of its own: its rounds go over their locks in turn.
const KEYS: u32 = 16;

const REPEATS: u32 = 5;

/// What is locked: all but the first word is not used.
struct Payload([u64; BYTES / 8]);

/// A value in memory that no other's lies in.
#[repr(align(128))]
struct Padded<T>(T);

fn payload() -> Payload {
    Payload([0; BYTES / 8])
}

/// The shard of a key: FNV-1a of its four bytes, as the program has it.
fn shard_of(key: u32, shards: usize) -> usize {
    let hash = key.to_be_bytes().iter().fold(0xcbf2_9ce4_8422_2325u64, |hash, byte| {
        (hash ^ u64::from(*byte)).wrapping_mul(0x0000_0100_0000_01b3)
    });
    (hash % shards as u64) as usize
}

/// The shards of a thread's keys.
fn places_of(thread: u32, shards: usize) -> Vec<usize> {
    (0..KEYS).map(|place| shard_of(thread * KEYS + place, shards)).collect()
}

/// What is done under a lock.
fn count(payload: &mut Payload) {
    payload.0[0] += 1;
    black_box(payload);
}

fn time_locked(locks: &[Padded<Mutex<Payload>>], places: &[usize], rounds: u32) -> Duration {
    let start = Instant::now();
    for number in 0..rounds {
        let place = black_box(places[(number % KEYS) as usize]);
        count(&mut locks[place].0.lock().unwrap());
    }
    start.elapsed()
}

fn time_bare(payloads: &mut [Padded<Payload>], places: &[usize], rounds: u32) -> Duration {
    let start = Instant::now();
    for number in 0..rounds {
        let place = black_box(places[(number % KEYS) as usize]);
        count(&mut payloads[place].0);
    }
    start.elapsed()
}

/// The longest time of so many threads, each of which takes its time by this function.
fn longest(threads: u32, time: impl Fn(u32) -> Duration + Sync) -> Duration {
    std::thread::scope(|scope| {
        let time = &time;
        let started: Vec<_> = (0..threads).map(|thread| scope.spawn(move || time(thread))).collect();
        started.into_iter().map(|one| one.join().unwrap()).max().unwrap()
    })
}

/// The least of five times for a round, in ns.
fn least(rounds: u32, time: impl Fn() -> Duration) -> f64 {
    let least = (0..REPEATS).map(|_| time()).min().unwrap();
    least.as_nanos() as f64 / f64::from(rounds)
}

fn print_setting(shards: usize, threads: u32, rounds: u32) {
    let locks: Vec<_> = (0..shards).map(|_| Padded(Mutex::new(payload()))).collect();
    let bare = least(rounds, || {
        longest(threads, |thread| {
            let mut payloads: Vec<_> = (0..shards).map(|_| Padded(payload())).collect();
            time_bare(&mut payloads, &places_of(thread, shards), rounds)
        })
    });
    let locked = least(rounds, || {
        longest(threads, |thread| time_locked(&locks, &places_of(thread, shards), rounds))
    });
    println!("mutex {shards} {threads} {bare:.1} {locked:.1}");
}

fn main() {
    let word = std::env::args().nth(1).expect("usage: mutex ROUNDS");
    let rounds = word.parse().expect("a number of rounds");
    println!("round shards threads bare-ns locked-ns");
    for shards in [1, 8] {
        for threads in [1, 2, 4] {
            print_setting(shards, threads, rounds);
        }
    }
}
