//! The work on Rust's `BTreeMap`. Each call has several callers, as on the library's side.

use crate::keys::{Keys, Work};
use crate::parts::*;
use std::cell::Cell;
use std::cmp::Ordering;
use std::collections::BTreeMap;
use std::hint::black_box;
use std::ops::Bound::{Included, Unbounded};

type Map = BTreeMap<Vec<u8>, u32>;

pub fn run(work: &Work) {
    let count = work.keys.count() as u64;
    let mut map = Map::new();
    begin(INSERT);
    assert_eq!(insert_all(&mut map, &work.keys), count);
    begin(GET);
    assert_eq!(get_all(&map, &work.asked), count);
    begin(GET_MUT);
    assert_eq!(write_all(&mut map, &work.asked), count);
    begin(WALK);
    black_box(walk_all(&map));
    begin(BACK);
    black_box(back_all(&map));
    begin(BELOW);
    assert_eq!(below_all(&map, &work.prefixes), work.walked());
    begin(RANGE);
    assert_eq!(range_all(&map, &work.asked), count);
    begin(CLONE);
    let copy = map.clone();
    begin(WALK_CLONE);
    black_box(walk_all(&copy));
    begin(DROP_CLONE);
    let_go(copy);
    begin(REMOVE);
    assert_eq!(remove_all(&mut map, &work.asked), count);
    begin(AGAIN);
    insert_again(&mut map, &work.keys);
    begin(CLEAR);
    map.clear();
    begin(REST);
    more(&mut map, &work.asked);
}

#[inline(never)]
fn insert_all(map: &mut Map, keys: &Keys) -> u64 {
    let numbered = keys.iter().zip(0..);
    numbered.filter(|(key, value)| map.insert(key.to_vec(), *value).is_none()).count() as u64
}

#[inline(never)]
fn insert_again(map: &mut Map, keys: &Keys) {
    for key in keys.iter() {
        map.insert(key.to_vec(), 7);
    }
}

#[inline(never)]
fn get_all(map: &Map, asked: &Keys) -> u64 {
    asked.iter().filter(|key| map.get(*key).is_some()).count() as u64
}

#[inline(never)]
fn write_all(map: &mut Map, asked: &Keys) -> u64 {
    let mut count = 0;
    for key in asked.iter() {
        if let Some(value) = map.get_mut(key) {
            *value = value.wrapping_add(1);
            count += 1;
        }
    }
    count
}

#[inline(never)]
fn walk_all(map: &Map) -> u64 {
    map.iter().map(|(key, value)| *value as u64 + key.len() as u64).sum()
}

#[inline(never)]
fn back_all(map: &Map) -> u64 {
    map.iter().rev().map(|(key, value)| *value as u64 + key.len() as u64).sum()
}

#[inline(never)]
fn below_all(map: &Map, prefixes: &Keys) -> u64 {
    let mut count = 0;
    for prefix in prefixes.iter() {
        let from = map.range::<[u8], _>((Included(prefix), Unbounded));
        for (_, value) in from.take_while(|(key, _)| key.starts_with(prefix)) {
            count += u64::from(*value > 0);
        }
    }
    count
}

#[inline(never)]
fn range_all(map: &Map, asked: &Keys) -> u64 {
    let mut count = 0;
    for key in asked.iter() {
        let mut pairs = map.range::<[u8], _>((Included(key), Unbounded));
        count += u64::from(pairs.next().is_some_and(|(first, _)| first.len() == key.len()));
    }
    count
}

#[inline(never)]
fn let_go(copy: Map) {
    drop(copy);
}

#[inline(never)]
fn remove_all(map: &mut Map, asked: &Keys) -> u64 {
    asked.iter().filter(|key| map.remove(*key).is_some()).count() as u64
}

/// Makes each call once more.
#[inline(never)]
fn more(map: &mut Map, asked: &Keys) {
    for key in asked.iter().take(2) {
        map.insert(key.to_vec(), 1);
        let below = map.range::<[u8], _>((Included(key), Unbounded)).count();
        if map.get(key).is_some() && below > 0 {
            *map.get_mut(key).unwrap() = 2;
            map.remove(key);
        }
    }
    black_box(map.clone());
}

thread_local! {
    static COMPARED: Cell<u64> = const { Cell::new(0) };
}

/// A key whose comparisons are counted.
#[derive(PartialEq, Eq)]
struct Watched<'a>(&'a [u8]);

impl Ord for Watched<'_> {
    fn cmp(&self, other: &Self) -> Ordering {
        COMPARED.set(COMPARED.get() + 1);
        self.0.cmp(other.0)
    }
}

impl PartialOrd for Watched<'_> {
    fn partial_cmp(&self, other: &Self) -> Option<Ordering> {
        Some(self.cmp(other))
    }
}

/// How many keys all look-ups compare.
pub fn comparisons(work: &Work) -> u64 {
    let map: BTreeMap<_, _> = work.keys.iter().fold(BTreeMap::new(), |mut map, key| {
        map.insert(Watched(key), ());
        map
    });
    COMPARED.set(0);
    assert!(work.asked.iter().all(|key| map.contains_key(&Watched(key))));
    COMPARED.get()
}
