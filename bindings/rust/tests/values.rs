//! Values of any type: dropped once, also where code of a value or of a key panics or lies.

mod support;

use std::cell::Cell;
use std::collections::hash_map::DefaultHasher;
use std::hash::{Hash, Hasher};
use std::panic::{AssertUnwindSafe, catch_unwind};
use std::rc::Rc;
use support::{Counts, Value};
use vokujin::{Entry, Map};

fn numbers(counts: &Rc<Counts>, count: u64) -> Map<Value> {
    (0..count).map(|it| (format!("{it:04}"), Value::new(it, counts))).collect()
}

fn panics(work: impl FnOnce()) {
    catch_unwind(AssertUnwindSafe(work)).expect_err("a panic");
}

/// The map has these many values, each is found, and the map can still be changed.
fn is_whole(map: &mut Map<Value>, counts: &Rc<Counts>, count: usize) {
    assert_eq!((map.len(), counts.live(), map.iter().count()), (count, count, count));
    assert!(map.iter().all(|(key, value)| key.as_slice() == format!("{:04}", value.number()).as_bytes()));
    map.insert("x", Value::new(1, counts));
    assert_eq!(counts.live(), count + 1);
    map.remove("x");
}

#[test]
fn a_drop_that_panics_loses_no_value() {
    let counts = Rc::default();
    let mut map = numbers(&counts, 1000);
    counts.panic_at(700);
    panics(|| _ = map.remove_prefix("07"));
    is_whole(&mut map, &counts, 999);
    counts.panic_at(10);
    panics(|| map.retain(|_, value| value.number() >= 20));
    is_whole(&mut map, &counts, 988);
    counts.panic_at(500);
    panics(|| drop(map.insert("0500", Value::new(500, &counts))));
    is_whole(&mut map, &counts, 988);
    counts.panic_at(800);
    panics(|| map.clear());
    is_whole(&mut map, &counts, 0);
    map.extend(numbers(&counts, 100));
    counts.panic_at(50);
    panics(|| drop(map));
    assert_eq!(counts.live(), 0);
}

#[test]
fn a_function_or_a_clone_that_panics_loses_no_value() {
    let counts = Rc::default();
    let mut map = numbers(&counts, 1000);
    panics(|| map.retain(|_, value| if value.number() == 300 { panic!() } else { value.number() % 2 == 0 }));
    is_whole(&mut map, &counts, 850);
    counts.panic_at(600);
    panics(|| drop(map.clone()));
    is_whole(&mut map, &counts, 850);
    panics(|| {
        drop(
            (0..10).map(|it| (format!("{it}"), if it < 5 { Value::new(it, &counts) } else { panic!() })).collect::<Map<_>>(),
        )
    });
    is_whole(&mut map, &counts, 850);
    panics(|| _ = map.entry("0299").or_insert_with(|| panic!()));
    panics(|| _ = map.entry("0302").and_modify(|_| panic!()));
    panics(|| map.extend((0..10).map(|it| (format!("{it:04}"), if it < 5 { Value::new(it, &counts) } else { panic!() }))));
    is_whole(&mut map, &counts, 852);
}

/// A key that has other bytes each time.
struct Liar(Cell<usize>);

impl AsRef<[u8]> for Liar {
    fn as_ref(&self) -> &[u8] {
        self.0.set(self.0.get() + 1);
        &b"abcdef"[..self.0.get() % 6]
    }
}

#[test]
fn a_key_that_changes_does_no_harm() {
    let counts = Rc::default();
    let mut map = Map::new();
    for turn in 0..1000 {
        let key = Liar(Cell::new(turn / 7));
        match map.entry(key) {
            Entry::Vacant(entry) => _ = entry.insert(Value::new(turn as u64, &counts)),
            Entry::Occupied(entry) if turn % 3 > 0 => _ = catch_unwind(AssertUnwindSafe(|| entry.remove())),
            Entry::Occupied(mut entry) => _ = entry.insert(Value::new(turn as u64, &counts)),
        }
        assert_eq!((map.len(), map.iter().count()), (counts.live(), counts.live()));
    }
    drop(map);
    assert_eq!(counts.live(), 0);
}

#[test]
fn iterators_may_be_dropped_or_forgotten() {
    let counts = Rc::default();
    let map = numbers(&counts, 100);
    let mut pairs = map.into_iter();
    assert_eq!((pairs.len(), pairs.next().unwrap().1.number(), pairs.next_back().unwrap().1.number()), (100, 0, 99));
    assert_eq!((pairs.len(), counts.live()), (98, 98));
    drop(pairs);
    assert_eq!(counts.live(), 0);
    let mut map = numbers(&counts, 100);
    std::mem::forget(map.iter_mut());
    is_whole(&mut map, &counts, 100);
    assert!(map.into_keys().next_back().is_some_and(|it| it == b"0099"));
    assert_eq!(counts.live(), 0);
}

/// The values of an iteration may all be borrowed at once.
#[test]
fn values_are_borrowed_at_once() {
    let mut map: Map<String> = (0..2000).map(|it| (format!("{it}"), format!("{it}"))).collect();
    let mut values: Vec<&mut String> = map.values_mut().collect();
    let count = values.len();
    for at in 0..count / 2 {
        let (front, back) = values.split_at_mut(count - 1 - at);
        std::mem::swap(front[at], back[0]);
    }
    values.into_iter().for_each(|it| it.push('!'));
    let mut reversed: Vec<_> = map.keys().map(|it| String::from_utf8(it).unwrap() + "!").collect();
    reversed.reverse();
    assert!(map.values().eq(&reversed));
}

#[repr(align(64))]
#[derive(Clone, Copy, PartialEq, Debug)]
struct Aligned(u8);

#[test]
fn values_of_any_size() {
    let mut nothing: Map<()> = (0..500).map(|it: u32| (it.to_be_bytes(), ())).collect();
    assert_eq!((nothing.values_mut().count(), nothing.remove(7u32.to_be_bytes()), nothing.len()), (500, Some(()), 499));
    let mut aligned: Map<Aligned> = (0..200).map(|it: u8| ([it], Aligned(it))).collect();
    assert!(aligned.values_mut().all(|it| (&raw const *it).addr() % 64 == 0));
    assert_eq!((aligned[&[9]], aligned.pop_last()), (Aligned(9), Some((vec![199], Aligned(199)))));
    let never: Map<std::convert::Infallible> = Map::new();
    assert_eq!(never.into_iter().count(), 0);
}

fn hash(it: impl Hash) -> u64 {
    let mut hasher = DefaultHasher::new();
    it.hash(&mut hasher);
    hasher.finish()
}

#[test]
fn compares_and_shows_as_std() {
    let lists = [
        vec![],
        vec![("a", 1)],
        vec![("a", 1), ("b", 2)],
        vec![("a", 1), ("b", 3)],
        vec![("b", 0)],
        vec![("a", 0), ("c", 9)],
    ];
    for one in &lists {
        for other in &lists {
            let (here, there) = (Map::from_iter(one.clone()), Map::from_iter(other.clone()));
            let std = one.iter().cmp(other);
            assert_eq!(
                (here.cmp(&there), here == there, here.clone().freeze().cmp(&there.clone().freeze())),
                (std, std.is_eq(), std)
            );
            assert_eq!(hash(&here) == hash(&there), std.is_eq());
        }
    }
    assert_eq!(Map::from([("a", f64::NAN)]).partial_cmp(&Map::from([("a", 1.0)])), None);
    assert!(Map::from([("a", f64::NAN)]) != Map::from([("a", f64::NAN)]));
    assert_eq!(format!("{:?}", Map::from([("key\0", [1]), ("b", [2])])), r#"{"b": [2], "key\\x00": [1]}"#);
    assert_eq!(Map::<u8>::default(), Map::new());
    let mut map = Map::from([("a", 1)]);
    assert_eq!(format!("{:?}", map.entry("a")), r#"Entry(OccupiedEntry { key: "a", value: 1 })"#);
    assert_eq!(format!("{:?}", map.entry("b")), r#"Entry(VacantEntry("b"))"#);
    panics(|| _ = map["b"]);
    for (key, value) in &mut map {
        *value += key.len();
    }
    assert_eq!((&map).into_iter().collect::<Vec<_>>(), [(b"a".to_vec(), &2)]);
}

/// A value's type may have a shorter lifetime than it was made with.
fn shorter<'a>(map: Map<&'static str>, frozen: vokujin::Frozen<&'static str>) -> (Map<&'a str>, vokujin::Frozen<&'a str>) {
    (map, frozen)
}

#[test]
fn maps_move() {
    let maps: Vec<Map<usize>> = (0..9).map(|n| (0..n).map(|it| (format!("key{it}"), it)).collect()).collect();
    let moved: Vec<Map<usize>> = maps.into_iter().rev().collect();
    assert_eq!((moved[0].prefix("key").count(), &moved[6]["key1"]), (8, &1));
    let text = String::from("short");
    let (mut map, frozen) = shorter(Map::from([("a", "long")]), Map::from([("a", "long")]).freeze());
    map.insert("a", &text);
    assert_eq!((map["a"], frozen["a"]), ("short", "long"));
}
