//! Many threads read one map, and one frozen map.

mod support;

use std::rc::Rc;
use std::sync::Arc;
use support::{Counts, Value};
use vokujin::{Frozen, IntoIter, Iter, IterMut, Map};

fn crosses<T: Send + Sync>() {}

const COUNT: usize = 2000;

fn texts() -> Map<String> {
    (0..COUNT).map(|it| (it.to_string(), it.to_string())).collect()
}

#[test]
fn types_cross_threads() {
    crosses::<Map<String>>();
    crosses::<Frozen<String>>();
    crosses::<Iter<String>>();
    crosses::<IterMut<String>>();
    crosses::<IntoIter<String>>();
}

#[test]
fn threads_read_a_map() {
    let map = &texts();
    std::thread::scope(|scope| {
        for first in 0..4 {
            scope.spawn(move || {
                for at in 0..COUNT {
                    let key = ((at + first * COUNT / 4) % COUNT).to_string();
                    assert_eq!(map.get(&key), Some(&key));
                    assert_eq!(map.longest_match(key.clone() + "x"), Some((key.len(), &key)));
                    assert!(at % 100 > 0 || map.iter().all(|(key, value)| key == value.as_bytes()));
                }
            });
        }
    });
}

#[test]
fn threads_read_a_frozen_map() {
    let frozen = texts().freeze();
    assert_eq!(
        (frozen.len(), frozen.longest_match("12x"), frozen.contains_key("x")),
        (COUNT, Some((2, &"12".into())), false)
    );
    let threads: Vec<_> = (0..4)
        .map(|first| (first, frozen.clone()))
        .map(|(first, mine)| {
            std::thread::spawn(move || {
                for at in 0..COUNT {
                    let key = ((at + first * COUNT / 4) % COUNT).to_string();
                    let other = mine.clone();
                    assert_eq!((mine.get(&key), other.matches(&key).next_back()), (Some(&key), Some((key.len(), &key))));
                    assert!(at % 100 > 0 || mine.prefix(&key).all(|(key, value)| key == value.as_bytes()));
                }
            })
        })
        .collect();
    drop(frozen);
    threads.into_iter().for_each(|it| it.join().unwrap());
}

/// Each call that reads a frozen map returns what that of the map does.
#[test]
fn a_frozen_map_reads_as_the_map() {
    let map: Map<String> = texts().into_iter().map(|(key, value)| (String::from_utf8(key).unwrap() + "0", value)).collect();
    let frozen = map.clone().freeze();
    assert!(frozen.iter().eq(&map) && (&frozen).into_iter().rev().eq(map.iter().rev()));
    assert!(frozen.keys().eq(map.keys()) && frozen.values().eq(map.values()) && format!("{frozen:?}") == format!("{map:?}"));
    assert_eq!((frozen.first_key_value(), frozen.last_key_value()), (map.first_key_value(), map.last_key_value()));
    for at in 0..COUNT {
        let key = at.to_string();
        assert!(
            frozen.prefix(&key).eq(map.prefix(&key)) && frozen.range(..&key).next_back() == map.range(..&key).next_back()
        );
        assert!(frozen.matches(&key).eq(map.matches(&key)) && frozen.longest_match(&key) == map.longest_match(&key));
        assert_eq!((frozen.get(&key), frozen.contains_key(&key)), (map.get(&key), map.contains_key(&key)));
    }
    assert!(Map::<u8>::new().freeze().is_empty() && !frozen.is_empty() && frozen["10"] == "1");
}

/// The values of threads' maps are changed by one thread after another.
#[test]
fn values_move_between_threads() {
    let shared = Arc::new(7);
    let mut map: Map<Arc<i32>> = (0..100u8).map(|it| ([it], shared.clone())).collect();
    std::thread::scope(|scope| {
        let (first, second) = map.iter_mut().partition::<Vec<_>, _>(|(key, _)| key[0] < 50);
        for part in [first, second] {
            scope.spawn(|| part.into_iter().for_each(|(_, value)| *value = Arc::new(8)));
        }
    });
    assert_eq!((Arc::strong_count(&shared), map.values().map(|it| **it).sum::<i32>()), (1, 800));
}

#[test]
fn the_last_owner_drops_the_values() {
    let counts: Rc<Counts> = Rc::default();
    let frozen = (0..50u8).map(|it| ([it], Value::new(it.into(), &counts))).collect::<Map<_>>().freeze();
    let other = frozen.clone();
    assert!(frozen == other && counts.live() == 50);
    drop(frozen);
    assert_eq!(
        (other.range([10]..[20]).rev().count(), other.first_key_value().map(|it| it.0), counts.live()),
        (10, Some(vec![0]), 50)
    );
    drop(other);
    assert_eq!(counts.live(), 0);
}
