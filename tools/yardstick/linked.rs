//! The work on the unproved radix trees. They have no deletion and no clone. Each call has several callers.

use crate::keys::{Keys, Work};
use crate::parts::*;
use crate::tree::{Links, Neighbours, Tree, Unlinked};
use std::hint::black_box;

type Linked = Tree<Neighbours>;

pub fn run_linked(work: &Work) {
    let count = work.keys.count() as u64;
    let mut map = Linked::default();
    begin(INSERT);
    assert_eq!(insert_all(&mut map, &work.keys), count);
    begin(GET);
    assert_eq!(get_all(&map, &work.asked), count);
    begin(MATCH);
    assert_eq!(match_all(&map, &work.asked), count);
    begin(WALK);
    black_box(walk_all(&map));
    begin(BACK);
    black_box(back_all(&map));
    begin(CLEAR);
    let_go(map);
    let mut map = Linked::default();
    begin(AGAIN);
    insert_again(&mut map, &work.keys);
    begin(REST);
    more(&mut map, &work.asked);
}

pub fn run_plain(work: &Work) {
    let count = work.keys.count() as u64;
    let mut map: Tree<Unlinked> = Tree::default();
    begin(INSERT);
    assert_eq!(insert_all(&mut map, &work.keys), count);
    begin(GET);
    assert_eq!(get_all(&map, &work.asked), count);
    begin(REST);
    more(&mut map, &work.asked);
}

#[inline(never)]
fn insert_all<L: Links>(map: &mut Tree<L>, keys: &Keys) -> u64 {
    let numbered = keys.iter().zip(0..);
    numbered.filter(|(key, value)| map.insert(key, *value)).count() as u64
}

#[inline(never)]
fn insert_again(map: &mut Linked, keys: &Keys) {
    for key in keys.iter() {
        map.insert(key, 7);
    }
}

#[inline(never)]
fn get_all<L: Links>(map: &Tree<L>, asked: &Keys) -> u64 {
    asked.iter().filter(|key| map.get(key).is_some()).count() as u64
}

#[inline(never)]
fn match_all(map: &Linked, asked: &Keys) -> u64 {
    asked.iter().filter(|key| map.longest_match(key).is_some()).count() as u64
}

#[inline(never)]
fn walk_all(map: &Linked) -> u64 {
    map.iter().map(|(key, value)| value as u64 + key.len() as u64).sum()
}

#[inline(never)]
fn back_all(map: &Linked) -> u64 {
    map.iter_back().map(|(key, value)| value as u64 + key.len() as u64).sum()
}

#[inline(never)]
fn let_go(map: Linked) {
    drop(map);
}

/// Makes each call once more.
#[inline(never)]
fn more<L: Links>(map: &mut Tree<L>, asked: &Keys) {
    for key in asked.iter().take(2) {
        if map.get(key).is_some() && map.longest_match(key).is_some() {
            map.insert(key, 1);
        }
    }
}
