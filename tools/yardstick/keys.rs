//! The keys of the work: made ones, or the lines of a file.

use std::mem::forget;

/// Keys one after another, and where each ends.
#[derive(Default)]
pub struct Keys {
    pub bytes: Vec<u8>,
    pub ends: Vec<u64>,
}

/// All keys, the same ones in another order, and prefixes that each have ten keys below them.
pub struct Work {
    pub keys: Keys,
    pub asked: Keys,
    pub prefixes: Keys,
}

/// How many keys have each prefix that is walked below.
pub const BELOW: usize = 10;

/// How many walks below a prefix there are, at least.
const WALKS: usize = 10_000;

/// What the name of a deep shape begins with, before its number of levels.
const DEEP: &str = "deep-";

struct Random(u64);

impl Random {
    fn next(&mut self) -> u64 {
        self.0 ^= self.0 << 13;
        self.0 ^= self.0 >> 7;
        self.0 ^= self.0 << 17;
        self.0
    }

    fn shuffle<T>(&mut self, items: &mut [T]) {
        for at in (1..items.len()).rev() {
            items.swap(at, (self.next() % (at as u64 + 1)) as usize);
        }
    }
}

impl Keys {
    fn new(keys: &[Vec<u8>]) -> Keys {
        let mut end = 0;
        let ends = keys.iter().map(|key| {
            end += key.len() as u64;
            end
        });
        Keys {
            ends: ends.collect(),
            bytes: keys.concat(),
        }
    }

    /// The keys without the zero that ends each.
    pub fn texts(&self) -> Keys {
        let texts: Vec<Vec<u8>> = self.iter().map(|key| key[..key.len() - 1].to_vec()).collect();
        Keys::new(&texts)
    }

    pub fn count(&self) -> usize {
        self.ends.len()
    }

    /// The keys one after another, each checked for being there, as the library's side does it.
    pub fn iter(&self) -> impl Iterator<Item = &[u8]> {
        let mut from = 0;
        self.ends.iter().map(move |end| {
            let to = *end as usize;
            let key = self.bytes.get(from..to).unwrap_or(&self.bytes);
            from = to;
            key
        })
    }
}

fn lines(file: &str, count: usize) -> Vec<Vec<u8>> {
    let text = std::fs::read(file).unwrap();
    let lines = text.split(|byte| *byte == b'\n').filter(|line| !line.is_empty());
    lines.take(count).map(|line| [line, b"\0"].concat()).collect()
}

/// Keys that part from one another at so many levels, with shared pieces of 19 bytes between these: each is one level
/// deeper than the one before. There are as many sets of them as have together 400 bytes for each key that is asked for.
fn deep_keys(levels: usize, count: usize) -> Vec<Vec<u8>> {
    let mut keys = Vec::new();
    for set in 0..(count * 40 / (levels * levels)).max(1) as u32 {
        let mut stem = set.to_be_bytes().to_vec();
        for _ in 0..levels {
            stem.extend(b"/a-shared-piece-of-");
            keys.push([&stem, &b"x\0"[..]].concat());
            stem.push(b'y');
        }
    }
    keys
}

/// The keys of a shape, in the order in which they are put in. A shape with a slash is the name of a file.
fn keys_of(shape: &str, count: usize, random: &mut Random) -> Vec<Vec<u8>> {
    match shape {
        "random" => (0..count).map(|_| random.next().to_be_bytes().to_vec()).collect(),
        "dense" => (0..count as u32)
            .map(|number| number.to_be_bytes().to_vec())
            .collect(),
        "paths" => {
            let mut keys: Vec<Vec<u8>> = (0..count as u32)
                .map(|number| {
                    let (site, page) = (random.next() % 50, number.wrapping_mul(2654435761));
                    format!("/srv/www/site-{site:02}/pages/{page:08x}/index\0").into_bytes()
                })
                .collect();
            random.shuffle(&mut keys);
            keys
        }
        deep if deep.starts_with(DEEP) => {
            let mut keys = deep_keys(deep[DEEP.len()..].parse().unwrap(), count);
            random.shuffle(&mut keys);
            keys
        }
        file if file.contains('/') => {
            let mut keys = lines(file, count);
            random.shuffle(&mut keys);
            keys
        }
        _ => panic!("no such shape of keys: {shape}"),
    }
}

fn shared_len(one: &[u8], other: &[u8]) -> usize {
    one.iter().zip(other).take_while(|(a, b)| a == b).count()
}

/// The shortest prefixes that so many keys begin with, of sorted keys.
fn prefixes_of(sorted: &[Vec<u8>], below: usize) -> Vec<Vec<u8>> {
    let shared = |at: usize| match (at.checked_sub(1), sorted.get(at)) {
        (Some(before), Some(key)) => shared_len(&sorted[before], key) + 1,
        _ => 1,
    };
    (0..(sorted.len() + 1).saturating_sub(below))
        .filter_map(|at| {
            let len = shared(at).max(shared(at + below));
            let is_prefix = shared_len(&sorted[at], &sorted[at + below - 1]) >= len;
            is_prefix.then(|| sorted[at][..len].to_vec())
        })
        .collect()
}

/// How many inner nodes the radix tree of sorted keys has on the ways to all its leaves, from a depth on.
pub fn levels(sorted: &[&[u8]], depth: usize) -> u64 {
    let (Some(first), Some(last)) = (sorted.first(), sorted.last()) else {
        return 0;
    };
    if sorted.len() == 1 {
        return 0;
    }
    let depth = depth + shared_len(&first[depth..], &last[depth..]);
    let groups = sorted.chunk_by(|one, other| one[depth] == other[depth]);
    sorted.len() as u64 + groups.map(|group| levels(group, depth)).sum::<u64>()
}

impl Work {
    /// How many pairs all walks below a prefix come to.
    pub fn walked(&self) -> u64 {
        (self.prefixes.count() * BELOW) as u64
    }

    pub fn new(shape: &str, count: usize) -> Work {
        let mut random = Random(0x9E37_79B9_7F4A_7C15);
        let mut keys = keys_of(shape, count, &mut random);
        let all = Keys::new(&keys);
        random.shuffle(&mut keys);
        let asked = Keys::new(&keys);
        keys.sort();
        let mut found = if shape.starts_with(DEEP) { Vec::new() } else { prefixes_of(&keys, BELOW) };
        random.shuffle(&mut found);
        let walks = WALKS.next_multiple_of(found.len().max(1));
        let walked: Vec<_> = found.iter().cycle().take(walks).cloned().collect();
        let prefixes = Keys::new(&walked);
        // Not freed: a map begins on a heap without holes.
        forget((keys, found, walked));
        Work {
            keys: all,
            asked,
            prefixes,
        }
    }
}
