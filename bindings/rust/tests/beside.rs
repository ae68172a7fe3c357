//! The map beside std's `BTreeMap`, by random calls. `CALLS` says how many; it is 100,000. The values are counted.

mod support;

use std::collections::BTreeMap;
use std::ops::Bound;
use std::rc::Rc;
use support::{Counts, Random, Value};
use vokujin::{Entry, Map};

type Model = BTreeMap<Vec<u8>, u64>;

fn number((key, value): (Vec<u8>, &Value)) -> (Vec<u8>, u64) {
    (key, value.number())
}

fn owned((key, value): (&Vec<u8>, &u64)) -> (Vec<u8>, u64) {
    (key.clone(), *value)
}

fn number_of(value: Value) -> u64 {
    value.number()
}

/// All pairs, and those of a prefix and of a range, from both ends.
fn compare_parts(here: &Map<Value>, model: &Model, random: &mut Random) {
    let (key, other) = (random.key(), random.key());
    assert!(here.iter().map(number).eq(model.iter().map(owned)));
    assert!(here.iter().rev().map(number).eq(model.iter().rev().map(owned)));
    assert!(here.keys().eq(model.keys().cloned()));
    assert!(here.values().rev().map(Value::number).eq(model.values().rev().copied()));
    assert_eq!(here.iter().size_hint(), (model.len(), Some(model.len())));
    let part: Vec<_> = model.iter().map(owned).filter(|(it, _)| it.starts_with(&key)).collect();
    assert!(here.prefix(&key).map(number).eq(part.iter().cloned()));
    assert!(here.prefix(&key).rev().map(number).eq(part.into_iter().rev()));
    let (low, high) = if key < other { (key, other) } else { (other, key) };
    assert!(here.range(&low..&high).map(number).eq(model.range(low.clone()..high.clone()).map(owned)));
    assert!(here.range(&high..&low).next().is_none());
    let after = (Bound::Excluded(&low), Bound::Included(&high));
    if low < high {
        assert!(here.range(after).map(number).eq(model.range::<Vec<u8>, _>(after).map(owned)));
    }
    assert!(here.range(&low..=&high).rev().map(number).eq(model.range(low..=high).rev().map(owned)));
}

/// A call that changes a pair, or a few.
fn change(here: &mut Map<Value>, model: &mut Model, counts: &Rc<Counts>, turn: u64, random: &mut Random) {
    let key = random.key();
    match random.next() % 12 {
        0..4 => assert_eq!(here.insert(&key, Value::new(turn, counts)).map(number_of), model.insert(key, turn)),
        4..7 => assert_eq!(here.remove(&key).map(number_of), model.remove(&key)),
        7 => {
            let value =
                here.entry(&key).and_modify(|it| it.set(it.number() + 1)).or_insert_with(|| Value::new(turn, counts));
            assert_eq!(value.number(), *model.entry(key).and_modify(|it| *it += 1).or_insert(turn));
        }
        8 => match here.entry(&key) {
            Entry::Occupied(entry) => assert_eq!(number_of(entry.remove()), model.remove(&key).unwrap()),
            Entry::Vacant(entry) => assert!(entry.key() == key && !model.contains_key(&key)),
        },
        9 => {
            let value = here.get_mut(&key).map(|it| it.set(turn));
            assert_eq!(value, model.get_mut(&key).map(|it| *it = turn));
        }
        10 => assert_eq!(here.pop_first().map(|(key, value)| (key, number_of(value))), model.pop_first()),
        _ => assert_eq!(here.pop_last().map(|(key, value)| (key, number_of(value))), model.pop_last()),
    }
}

/// A call that only reads.
fn look(here: &Map<Value>, model: &Model, random: &mut Random) {
    let key = random.key();
    assert_eq!(here.get(&key).map(Value::number), model.get(&key).copied());
    assert_eq!(here.contains_key(&key), model.contains_key(&key));
    assert_eq!(here.range(&key..).next().map(number), model.range(key.clone()..).next().map(owned));
    assert_eq!(here.range(..=&key).next_back().map(number), model.range(..=key.clone()).next_back().map(owned));
    let matches: Vec<_> = (0..=key.len()).filter_map(|len| model.get(&key[..len]).map(|it| (len, *it))).collect();
    assert_eq!(here.longest_match(&key).map(|(len, it)| (len, it.number())), matches.last().copied());
    assert!(here.matches(&key).map(|(len, it)| (len, it.number())).eq(matches));
    let count = model.range(key.clone()..).take_while(|it| it.0.starts_with(&key)).count();
    assert_eq!(here.count_prefix(&key), count);
    assert_eq!(here.first_key_value().map(number), model.first_key_value().map(owned));
    assert_eq!(here.last_key_value().map(number), model.last_key_value().map(owned));
}

/// A call that changes many pairs.
fn change_many(here: &mut Map<Value>, model: &mut Model, random: &mut Random) {
    match random.next() % 8 {
        0 => {
            let key = random.key();
            let before = model.len();
            model.retain(|it, _| !it.starts_with(&key));
            assert_eq!(here.remove_prefix(&key), before - model.len());
        }
        1 => {
            here.retain(|key, value| value.number() % 4 > 0 && key.len() != 5);
            model.retain(|key, value| *value % 4 > 0 && key.len() != 5);
        }
        2 => {
            let copy = here.clone();
            assert!(copy == *here);
            *here = copy;
        }
        3 => {
            here.values_mut().for_each(|it| it.set(it.number() / 2));
            model.values_mut().for_each(|it| *it /= 2);
        }
        4 => {
            let (first, last) = (random.key(), random.key());
            here.range_mut(&first..&last).rev().for_each(|(_, it)| it.set(7));
            model.iter_mut().filter(|it| *it.0 >= first && *it.0 < last).for_each(|it| *it.1 = 7);
        }
        5 => {
            let mut other: Map<_> = here.iter().step_by(3).map(|(key, value)| (key.repeat(2), value.clone())).collect();
            model.extend(other.iter().map(number));
            here.append(&mut other);
            assert!(other.is_empty());
        }
        6 => {
            let key = random.key();
            let (mut rest, other) = (here.split_off(&key), model.split_off(&key));
            assert!(rest.iter().map(number).eq(other.iter().map(owned)));
            if let Some(first) = rest.first_entry() {
                assert_eq!(Some((first.key().to_vec(), first.get().number())), other.first_key_value().map(owned));
            }
            if let Some(last) = rest.last_entry() {
                assert_eq!(Some((last.key().to_vec(), number_of(last.remove()))), other.last_key_value().map(owned));
            }
        }
        _ => {
            let half = model.len() / 2;
            *here = std::mem::take(here).into_iter().take(half).collect();
            *model = std::mem::take(model).into_iter().take(half).collect();
        }
    }
}

#[test]
fn does_what_a_btree_map_does() {
    let calls: u64 = std::env::var("CALLS").map_or(100_000, |it| it.parse().unwrap());
    let (mut random, counts) = (Random(88172645463325252), Rc::default());
    let (mut here, mut model) = (Map::new(), Model::new());
    for turn in 0..calls {
        change(&mut here, &mut model, &counts, turn, &mut random);
        assert_eq!((here.len(), counts.live()), (model.len(), model.len()));
        if turn % 4 == 0 {
            look(&here, &model, &mut random);
        }
        if turn % 500 == 0 {
            compare_parts(&here, &model, &mut random);
            change_many(&mut here, &mut model, &mut random);
        }
        if turn % 20_000 == 0 {
            here.compact().unwrap();
        }
    }
    compare_parts(&here, &model, &mut random);
    here.clear();
    assert!(here.is_empty() && here.iter().next().is_none() && counts.live() == 0);
    here.insert("a", Value::new(1, &counts));
    drop(here);
    assert_eq!(counts.live(), 0);
}

/// An iteration from both ends meets in the middle, wherever that is.
/// Of pairs whose keys rise, and then do not, or that are equal.
#[test]
fn is_made_of_pairs_in_any_order() {
    let mut random = Random(1234567);
    let counts = Rc::default();
    for turn in 0..2000 {
        let mut keys: Vec<_> = (0..random.next() % 40).map(|_| random.key()).collect();
        let sorted = random.next() as usize % (keys.len() + 1);
        keys[..sorted].sort();
        if turn % 2 == 0 {
            keys.dedup();
        }
        let model: Model = keys.iter().cloned().zip(0..).collect();
        let here: Map<Value> = keys.iter().zip(0..).map(|(key, number)| (key, Value::new(number, &counts))).collect();
        assert!(here.iter().map(number).eq(model.iter().map(owned)));
        assert_eq!((here.len(), counts.live()), (model.len(), model.len()));
        let copy = here.clone();
        drop(here);
        assert!(copy.iter().map(number).eq(model.iter().map(owned)));
    }
    assert_eq!(counts.live(), 0);
}

#[test]
fn iterates_from_both_ends() {
    let mut here: Map<u64> = (0..1000u64).map(|it| (it.to_be_bytes(), it)).collect();
    let mut random = Random(7);
    for turn in 0..30 {
        let (count, other) = (random.next() % 60, random.next() % 60);
        match turn % 3 {
            0 => meets(here.values().copied(), count, other),
            1 => meets(here.values_mut().map(|it| *it), count, other),
            _ => meets(here.clone().into_values(), count, other),
        }
    }
}

fn meets(mut pairs: impl DoubleEndedIterator<Item = u64>, count: u64, other: u64) {
    let (mut low, mut high) = (0, 1000);
    while low < high {
        for _ in 0..=count.min(high - low - 1) {
            assert_eq!(pairs.next(), Some(low));
            low += 1;
        }
        for _ in 0..other.min(high - low) {
            high -= 1;
            assert_eq!(pairs.next_back(), Some(high));
        }
    }
    assert_eq!((pairs.next(), pairs.next_back()), (None, None));
}

/// Keys that are longer than the space that an iteration begins with.
#[test]
fn long_keys_are_written() {
    let keys: Vec<Vec<u8>> = (0..=255).map(|byte| vec![byte; 20_000]).collect();
    let here: Map<u8> = keys.iter().map(|key| (key, key[0])).collect();
    assert!(here.keys().eq(keys.iter().cloned()));
    assert!(here.keys().rev().eq(keys.iter().rev().cloned()));
    assert_eq!(here.first_key_value(), Some((keys[0].clone(), &0)));
    assert_eq!(here.last_key_value(), Some((keys[255].clone(), &255)));
}

/// Prefixes that all greater keys start with.
#[test]
fn prefixes_without_an_end() {
    let keys = [&b""[..], b"a", b"\xfe\xff", b"\xff", b"\xff\xff", b"\xff\xff\xff\0"];
    let mut here: Map<usize> = keys.iter().zip(0..).collect();
    for (prefix, first) in [(&b""[..], 0), (b"\xff", 3), (b"\xff\xff", 4), (b"\xff\xff\xff", 5)] {
        assert!(here.prefix(prefix).map(|(_, at)| *at).eq(first..6));
        assert!(here.prefix_mut(prefix).rev().map(|(_, at)| *at).eq((first..6).rev()));
    }
    assert_eq!((here.remove_prefix(b"\xff"), here.remove_prefix(""), here.len()), (3, 3, 0));
}
