//! The work on Rust's `HashMap` of strings, with the hash that it has by itself. Each call has several callers.

use crate::keys::{Keys, Work};
use crate::parts::*;
use crate::strings::{iter, shorter};
use std::collections::HashMap;
use std::hint::black_box;

type Map = HashMap<String, u32>;

pub fn run(work: &Work) {
    let (texts, asked) = (work.keys.texts(), work.asked.texts());
    let count = texts.count() as u64;
    let mut map = Map::new();
    begin(INSERT);
    assert_eq!(insert_all(&mut map, &texts), count);
    begin(GET);
    assert_eq!(get_all(&map, &asked), count);
    begin(COUNT);
    count_all(&mut map, &asked);
    begin(SHORTER);
    black_box(get_shorter(&map, &asked));
    begin(REMOVE);
    assert_eq!(remove_all(&mut map, &asked), count);
    begin(REST);
    assert_eq!(insert_all(&mut map, &texts), count);
    more(&mut map, &asked);
}

#[inline(never)]
fn insert_all(map: &mut Map, texts: &Keys) -> u64 {
    let numbered = iter(texts).zip(0..);
    numbered.filter(|(text, value)| map.insert(text.to_string(), *value).is_none()).count() as u64
}

#[inline(never)]
fn get_all(map: &Map, asked: &Keys) -> u64 {
    iter(asked).filter(|text| map.get(*text).is_some()).count() as u64
}

#[inline(never)]
fn get_shorter(map: &Map, asked: &Keys) -> u64 {
    iter(asked).filter(|text| map.get(shorter(text)).is_some()).count() as u64
}

#[inline(never)]
fn count_all(map: &mut Map, asked: &Keys) {
    for text in iter(asked) {
        match map.get_mut(text) {
            Some(count) => *count += 1,
            None => drop(map.insert(text.to_string(), 1)),
        }
    }
}

#[inline(never)]
fn remove_all(map: &mut Map, asked: &Keys) -> u64 {
    iter(asked).filter(|text| map.remove(*text).is_some()).count() as u64
}

/// Makes each call once more.
#[inline(never)]
fn more(map: &mut Map, asked: &Keys) {
    for text in iter(asked).take(2) {
        if map.get(text).is_some() {
            map.remove(text);
            map.insert(text.to_string(), 1);
        }
    }
    black_box(map.len());
}
