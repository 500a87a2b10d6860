//! Hash maps of Rust's std: one, behind a lock where threads share it, and 64 of them, each behind a lock. What is shared with the
//! peers in C++ is told in ycsb.hpp.
//!
//!     maps KEYS OPERATIONS THREADS MIX LAW HOW
//!
//! HOW is `one` or `shards`, with the hash that crates/fkv_ycsb has, or `one-std` or `shards-std`, with std's own.

use std::collections::HashMap;
use std::hash::{BuildHasher, BuildHasherDefault, Hasher, RandomState};
use std::hint::black_box;
use std::sync::Mutex;
use std::time::Instant;

/// The last steps of MurmurHash3.
fn mixed(word: u64) -> u64 {
    let word = (word ^ (word >> 33)).wrapping_mul(18397679294719823053);
    let word = (word ^ (word >> 33)).wrapping_mul(14181476777654086739);
    word ^ (word >> 33)
}

#[derive(Default)]
struct Mixed(u64);

impl Hasher for Mixed {
    fn finish(&self) -> u64 {
        self.0
    }

    fn write(&mut self, _bytes: &[u8]) {
        unreachable!("keys are numbers")
    }

    fn write_u64(&mut self, word: u64) {
        self.0 = mixed(word);
    }
}

/// xoshiro256++, begun by SplitMix64.
struct Words([u64; 4]);

impl Words {
    fn new(mut seed: u64) -> Words {
        Words(std::array::from_fn(|_| {
            seed = seed.wrapping_add(0x9e3779b97f4a7c15);
            let z = (seed ^ (seed >> 30)).wrapping_mul(0xbf58476d1ce4e5b9);
            let z = (z ^ (z >> 27)).wrapping_mul(0x94d049bb133111eb);
            z ^ (z >> 31)
        }))
    }

    fn next(&mut self) -> u64 {
        let s = &mut self.0;
        let word = s[0].wrapping_add(s[3]).rotate_left(23).wrapping_add(s[0]);
        let shifted = s[1] << 17;
        s[2] ^= s[0];
        s[3] ^= s[1];
        s[1] ^= s[2];
        s[0] ^= s[3];
        s[2] ^= shifted;
        s[3] = s[3].rotate_left(45);
        word
    }
}

/// So many keys for each thread, drawn alike or by Zipf's law.
fn draws(keys: u64, operations: u64, threads: u64, law: &str) -> Vec<Vec<u64>> {
    let zipf = law == "zipf";
    let total: f64 = if zipf { (1..=keys).map(|rank| 1.0 / (rank as f64).powf(0.99)).sum() } else { 1.0 };
    let second = 0.5f64.powf(0.99);
    let eta = (1.0 - (2.0 / keys as f64).powf(1.0 - 0.99)) / (1.0 - (1.0 + second) / total);
    let rank = |word: u64| {
        let share = (word >> 11) as f64 / 9007199254740992.0;
        match share * total {
            weight if weight < 1.0 => 0,
            weight if weight < 1.0 + second => 1,
            _ => (keys as f64 * (eta * share - eta + 1.0).powf(1.0 / (1.0 - 0.99))) as u64,
        }
    };
    let list = |thread| {
        let mut words = Words::new(1 + thread);
        let draw = |_| if zipf { mixed(rank(words.next())) % keys } else { words.next() % keys };
        (0..operations).map(draw).collect()
    };
    (0..threads).map(list).collect()
}

/// So many maps, a power of two. The bits of a hash that lead to a key's map are none that the map itself uses.
struct Maps<H>(Vec<Mutex<HashMap<u64, u64, H>>>);

impl<H: BuildHasher + Default + Sync + Send> Maps<H> {
    fn of(&self, key: u64) -> &Mutex<HashMap<u64, u64, H>> {
        &self.0[(mixed(key) >> 48) as usize & (self.0.len() - 1)]
    }

    fn make(&self, keys: &[u64], period: usize) {
        for (place, &key) in keys.iter().enumerate() {
            let mut map = self.of(key).lock().unwrap();
            if period == 1 {
                let value = map.entry(key).or_insert(0);
                *value = value.wrapping_add(1);
                black_box(*value);
            } else if place % period == period - 1 {
                map.insert(key, key + 1);
            } else {
                black_box(map.get(&key));
            }
        }
    }

    fn run(count: usize, keys: u64, lists: Vec<Vec<u64>>, mix: &str) -> ! {
        let maps = Maps((0..count).map(|_| Mutex::new(HashMap::<u64, u64, H>::default())).collect());
        for key in 0..keys {
            maps.of(key).lock().unwrap().insert(key, 0);
        }
        let period = match mix {
            "0:100" => 1,
            "50:50" => 2,
            _ => 20,
        };
        let before = processor_nanoseconds();
        let go = |list: &[u64]| {
            let begun = Instant::now();
            if mix != "none" {
                maps.make(list, period);
            }
            begun.elapsed().as_nanos()
        };
        let times: Vec<u128> = std::thread::scope(|scope| {
            let threads: Vec<_> = lists.iter().map(|list| scope.spawn(|| go(list))).collect();
            threads.into_iter().map(|thread| thread.join().unwrap()).collect()
        });
        let spent = processor_nanoseconds() - before;
        let (mut digest, mut sum, mut held) = (0u64, 0u64, 0u64);
        for map in &maps.0 {
            for (key, value) in map.lock().unwrap().iter() {
                digest = digest.wrapping_add(value.wrapping_mul(2 * key + 1));
                sum += value;
                held += 1;
                assert!(period == 1 || *value == 0 || *value == key + 1);
            }
        }
        let operations = lists.iter().map(Vec::len).sum::<usize>() as u64;
        println!("operations {operations}\nnanoseconds {}", times.iter().max().unwrap());
        println!("processor nanoseconds {spent}\ndigest {digest}");
        std::process::exit((held != keys || mix == "0:100" && sum != operations) as i32)
    }
}

unsafe extern "C" {
    fn clock_gettime(clock: i32, time: &mut [i64; 2]) -> i32;
}

/// The processor time of the process.
fn processor_nanoseconds() -> i64 {
    let mut time = [0; 2];
    // SAFETY: a timespec is two numbers of 64 bits on Linux of 64 bits, and 2 is the clock of the process
    unsafe { clock_gettime(2, &mut time) };
    time[0] * 1_000_000_000 + time[1]
}

fn main() {
    let words: Vec<String> = std::env::args().collect();
    let [_, keys, operations, threads, mix, law, how] = &words[..] else {
        panic!("KEYS OPERATIONS THREADS MIX LAW HOW");
    };
    let number = |word: &str| word.parse::<u64>().expect("a number");
    let keys = number(keys);
    let lists = draws(keys, number(operations), number(threads), law);
    match how.as_str() {
        "one" => Maps::<BuildHasherDefault<Mixed>>::run(1, keys, lists, mix),
        "shards" => Maps::<BuildHasherDefault<Mixed>>::run(64, keys, lists, mix),
        "one-std" => Maps::<RandomState>::run(1, keys, lists, mix),
        "shards-std" => Maps::<RandomState>::run(64, keys, lists, mix),
        _ => panic!("one, shards, one-std or shards-std"),
    }
}
