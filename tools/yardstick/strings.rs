//! The work on Rust's `BTreeMap` of strings, by texts. Each call has several callers, as on the library's side.

use crate::keys::{Keys, Work};
use crate::parts::*;
use std::collections::BTreeMap;
use std::hint::black_box;
use std::ops::Bound::{Included, Unbounded};
use std::str;

type Map = BTreeMap<String, u32>;

pub fn run(work: &Work) {
    let (texts, asked) = (work.keys.texts(), work.asked.texts());
    let count = texts.count() as u64;
    let mut map = Map::new();
    begin(INSERT);
    assert_eq!(insert_all(&mut map, &texts), count);
    begin(GET);
    assert_eq!(get_all(&map, &asked), count);
    begin(MATCH);
    assert_eq!(match_all(&map, &asked), count);
    begin(COUNT);
    count_all(&mut map, &asked);
    begin(SHORTER);
    black_box(get_shorter(&map, &asked));
    begin(REMOVE);
    assert_eq!(remove_all(&mut map, &asked), count);
    begin(REST);
    assert_eq!(insert_all(&mut map, &texts), count);
    more(&mut map, &asked);
}

/// The texts one after another. Their keys were made of UTF-8.
pub fn iter(texts: &Keys) -> impl Iterator<Item = &str> {
    texts.iter().map(|text| unsafe { str::from_utf8_unchecked(text) })
}

#[inline(never)]
fn insert_all(map: &mut Map, texts: &Keys) -> u64 {
    let numbered = iter(texts).zip(0..);
    numbered.filter(|(text, value)| map.insert(text.to_string(), *value).is_none()).count() as u64
}

#[inline(never)]
fn get_all(map: &Map, asked: &Keys) -> u64 {
    iter(asked).filter(|text| map.get(*text).is_some()).count() as u64
}

#[inline(never)]
fn get_shorter(map: &Map, asked: &Keys) -> u64 {
    iter(asked).filter(|text| map.get(shorter(text)).is_some()).count() as u64
}

/// The text without its last byte, which need not be a letter: a map compares bytes alone.
pub fn shorter(text: &str) -> &str {
    unsafe { str::from_utf8_unchecked(&text.as_bytes()[..text.len() - 1]) }
}

#[inline(never)]
fn count_all(map: &mut Map, asked: &Keys) {
    for text in iter(asked) {
        match map.get_mut(text) {
            Some(count) => *count += 1,
            None => drop(map.insert(text.to_string(), 1)),
        }
    }
}

#[inline(never)]
fn match_all(map: &Map, asked: &Keys) -> u64 {
    iter(asked).filter(|text| longest_match(map, text).is_some()).count() as u64
}

#[inline(never)]
fn remove_all(map: &mut Map, asked: &Keys) -> u64 {
    iter(asked).filter(|text| map.remove(*text).is_some()).count() as u64
}

fn shared_len(one: &str, other: &str) -> usize {
    one.bytes().zip(other.bytes()).take_while(|(a, b)| a == b).count()
}

/// The longest stored prefix of a text: the last string up to it, or else up to what both share, and so on.
fn longest_match<'a>(map: &'a Map, text: &str) -> Option<(&'a String, &'a u32)> {
    let mut query = text;
    loop {
        let pair = map.range::<str, _>((Unbounded, Included(query))).next_back()?;
        let mut shared = shared_len(pair.0, query);
        if shared == pair.0.len() {
            return Some(pair);
        }
        while !query.is_char_boundary(shared) {
            shared -= 1;
        }
        query = &query[..shared];
    }
}

/// Makes each call once more.
#[inline(never)]
fn more(map: &mut Map, asked: &Keys) {
    for text in iter(asked).take(2) {
        if map.get(text).is_some() && longest_match(map, text).is_some() {
            map.remove(text);
            map.insert(text.to_string(), 1);
        }
    }
    black_box(map.len());
}
