//! Calls through the boundary beside std's `BTreeMap<Vec<u8>, u64>`, in one process: `speed [KEYS [COUNT [PART]]]`. KEYS is a
//! file with a key a line, or `random` for 8 random bytes each; COUNT is 100,000. It prints nanoseconds. With PART, as
//! `get here` or `get std`, only that is done, once, for a count of instructions. With `threads` it prints how many million
//! keys a second threads look up in one map.

use std::collections::BTreeMap;
use std::env::args;
use std::hint::black_box;
use std::thread;
use std::time::Instant;
use vokujin::{Frozen, Map};

struct Random(u64);

impl Random {
    fn next(&mut self) -> u64 {
        self.0 ^= self.0 << 13;
        self.0 ^= self.0 >> 7;
        self.0 ^= self.0 << 17;
        self.0
    }

    fn shuffle<T>(&mut self, items: &mut [T]) {
        for at in (1..items.len()).rev() {
            items.swap(at, (self.next() % (at as u64 + 1)) as usize);
        }
    }
}

type Model = BTreeMap<Vec<u8>, u64>;

fn keys(file: &str, count: usize, random: &mut Random) -> Vec<Vec<u8>> {
    let mut keys: Vec<Vec<u8>> = match file {
        "random" => (0..count).map(|_| random.next().to_be_bytes().to_vec()).collect(),
        file => std::fs::read(file)
            .unwrap()
            .split(|byte| *byte == b'\n')
            .filter(|it| !it.is_empty())
            .map(<[u8]>::to_vec)
            .collect(),
    };
    keys.sort();
    keys.dedup();
    random.shuffle(&mut keys);
    keys.truncate(count);
    keys
}

#[inline(never)]
fn fill_here(keys: &[Vec<u8>]) -> Map<u64> {
    let mut map = Map::new();
    for (key, at) in keys.iter().zip(0..) {
        map.insert(key, at);
    }
    map
}

#[inline(never)]
fn fill_std(keys: &[Vec<u8>]) -> Model {
    let mut map = BTreeMap::new();
    for (key, at) in keys.iter().zip(0..) {
        map.insert(key.clone(), at);
    }
    map
}

#[inline(never)]
fn collect_here(keys: &[Vec<u8>]) -> Map<u64> {
    keys.iter().zip(0..).collect()
}

/// Sorts the pairs first.
#[inline(never)]
fn sort_here(keys: &[Vec<u8>]) -> Map<u64> {
    let mut pairs: Vec<(&[u8], u64)> = keys.iter().map(Vec::as_slice).zip(0..).collect();
    pairs.sort_unstable();
    pairs.into_iter().collect()
}

#[inline(never)]
fn collect_std(keys: &[Vec<u8>]) -> Model {
    keys.iter().cloned().zip(0..).collect()
}

#[inline(never)]
fn get_here(map: &Map<u64>, keys: &[Vec<u8>]) -> u64 {
    keys.iter().map(|key| *map.get(key).unwrap()).fold(0, u64::wrapping_add)
}

#[inline(never)]
fn get_std(map: &Model, keys: &[Vec<u8>]) -> u64 {
    keys.iter().map(|key| *map.get(key.as_slice()).unwrap()).fold(0, u64::wrapping_add)
}

#[inline(never)]
fn walk_here(map: &Map<u64>) -> u64 {
    let (mut pairs, mut sum) = (map.iter(), 0u64);
    while let Some((key, value)) = pairs.next_borrowed() {
        sum = sum.wrapping_add(value + key.first().map_or(0, |byte| *byte as u64));
    }
    sum
}

/// The values and the first bytes of the keys.
#[inline(never)]
fn walk_std(map: &Model) -> u64 {
    map.iter().fold(0, |sum, (key, value)| sum.wrapping_add(value + key.first().map_or(0, |byte| *byte as u64)))
}

/// The same, with each key copied to a buffer, as a call of this map does.
#[inline(never)]
fn copy_std(map: &Model, buffer: &mut [u8]) -> u64 {
    let mut sum = 0u64;
    for (key, value) in map {
        buffer[..key.len()].copy_from_slice(key);
        sum = sum.wrapping_add(value + buffer[0] as u64);
    }
    sum
}

#[inline(never)]
fn remove_here(map: &mut Map<u64>, keys: &[Vec<u8>]) -> u64 {
    keys.iter().map(|key| map.remove(key).unwrap()).fold(0, u64::wrapping_add)
}

#[inline(never)]
fn remove_std(map: &mut Model, keys: &[Vec<u8>]) -> u64 {
    keys.iter().map(|key| map.remove(key.as_slice()).unwrap()).fold(0, u64::wrapping_add)
}

/// The least nanoseconds a key of seven turns.
fn least(count: usize, mut work: impl FnMut()) -> f64 {
    let mut turn = || {
        let start = Instant::now();
        work();
        start.elapsed().as_secs_f64() * 1e9 / count as f64
    };
    (0..7).map(|_| turn()).fold(f64::INFINITY, f64::min)
}

/// The most million keys a second of seven turns, in which each thread looks up all keys.
fn throughput(threads: usize, keys: &[Vec<u8>], get: impl Fn(&[u8]) -> u64 + Sync) -> f64 {
    let read = |at: usize| {
        let (after, before) = keys.split_at(keys.len() * at / threads);
        black_box(before.iter().chain(after).map(|key| get(key)).fold(0, u64::wrapping_add));
    };
    let seconds = least(1, || thread::scope(|scope| (0..threads).for_each(|at| _ = scope.spawn(move || read(at))))) / 1e9;
    (threads * keys.len()) as f64 / seconds / 1e6
}

fn by_threads(map: Map<u64>, model: &Model, keys: &[Vec<u8>]) {
    let here = [1, 2, 4].map(|threads| throughput(threads, keys, |key| *map.get(key).unwrap()));
    let map: Frozen<u64> = map.freeze();
    println!("threads: millions a second of Map, of Frozen, of BTreeMap");
    for (threads, here) in [1, 2, 4].into_iter().zip(here) {
        let frozen = throughput(threads, keys, |key| *map.get(key).unwrap());
        let std = throughput(threads, keys, |key| *model.get(key).unwrap());
        println!("{threads} {here:6.1} {frozen:6.1} {std:6.1}");
    }
}

fn main() {
    let words: Vec<String> = args().skip(1).collect();
    let file = words.first().map_or("random", |it| it);
    let count = words.get(1).map_or(100_000, |it| it.parse().unwrap());
    let mut random = Random(88172645463325252);
    let keys = keys(file, count, &mut random);
    let mut asked = keys.clone();
    random.shuffle(&mut asked);
    let (mut here, mut model) = (fill_here(&keys), fill_std(&keys));
    here.compact().unwrap();
    let mut buffer = vec![0; keys.iter().map(Vec::len).max().unwrap_or(0)];
    if words.get(2).is_some_and(|it| it == "threads") {
        return by_threads(here, &model, &asked);
    }
    if let [_, _, part @ ..] = words.as_slice() {
        if !part.is_empty() {
            return one_part(&part.join(" "), &mut here, &mut model, &keys, &asked);
        }
    }
    let count = keys.len();
    println!("{count} keys of {file}: nanoseconds here, of BTreeMap, and their ratio");
    let show = |name: &str, here: f64, std: f64| println!("{name:26} {here:6.0} {std:6.0} {:5.2}", here / std);
    let insert = least(count, || _ = black_box(fill_here(&keys)));
    show("insertion, and drop", insert, least(count, || _ = black_box(fill_std(&keys))));
    let sort = least(count, || _ = black_box(sort_here(&keys)));
    show("sort, collect, and drop", sort, least(count, || _ = black_box(collect_std(&keys))));
    let mut sorted = keys.clone();
    sorted.sort();
    let (insert, collect) =
        (least(count, || _ = black_box(fill_here(&sorted))), least(count, || _ = black_box(collect_here(&sorted))));
    show("insertion, sorted, and drop", insert, least(count, || _ = black_box(fill_std(&sorted))));
    show("collect, sorted, and drop", collect, least(count, || _ = black_box(collect_std(&sorted))));
    show("clone, and drop", least(count, || _ = black_box(here.clone())), least(count, || _ = black_box(model.clone())));
    let get = least(count, || _ = black_box(get_here(&here, &asked)));
    show("lookup", get, least(count, || _ = black_box(get_std(&model, &asked))));
    let walk = least(count, || _ = black_box(walk_here(&here)));
    show("iteration, keys copied", walk, least(count, || _ = black_box(copy_std(&model, &mut buffer))));
    show("iteration", walk, least(count, || _ = black_box(walk_std(&model))));
    let len = least(count, || (0..count).for_each(|_| _ = black_box(here.len())));
    println!("the boundary alone (len)   {len:6.1}");
}

fn one_part(part: &str, here: &mut Map<u64>, model: &mut Model, keys: &[Vec<u8>], asked: &[Vec<u8>]) {
    let sum = match part {
        "insert here" => fill_here(keys).len() as u64,
        "insert std" => fill_std(keys).len() as u64,
        "collect here" => collect_here(keys).len() as u64,
        "collect std" => collect_std(keys).len() as u64,
        "get here" => get_here(here, asked),
        "get std" => get_std(model, asked),
        "iterate here" => walk_here(here),
        "iterate std" => walk_std(model),
        "remove here" => remove_here(here, asked),
        "remove std" => remove_std(model, asked),
        _ => panic!("no such part: {part}"),
    };
    println!("{sum}");
}
