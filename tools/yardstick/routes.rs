//! What `route_table` does, as one writes it in Rust with nothing proved: `routes trie FILE` with a Patricia trie by
//! bits, `routes maps FILE` with a hash map for each length, `routes poptrie FILE` with a poptrie, `routes none FILE` with
//! none of them, which prints `none` for each address; `routes make N M FOLDER`, which writes N routes and M addresses,
//! and `routes nested N M FOLDER`, with 32 routes around each host. How long the table and the replies took, and the bytes
//! of the heap for each route, come on standard error.

use std::alloc::{GlobalAlloc, Layout, System};
use std::collections::HashMap;
use std::env;
use std::fs::File;
use std::io::{self, BufRead, BufReader, BufWriter, Write};
use std::net::{IpAddr, Ipv4Addr, Ipv6Addr};
use std::sync::atomic::{AtomicUsize, Ordering};
use std::time::Instant;

/// The heap, with the bytes of its blocks counted as glibc rounds them.
struct Counting;

static IN_USE: AtomicUsize = AtomicUsize::new(0);

fn block(size: usize) -> usize {
    (size + 8).next_multiple_of(16).max(32)
}

unsafe impl GlobalAlloc for Counting {
    unsafe fn alloc(&self, layout: Layout) -> *mut u8 {
        IN_USE.fetch_add(block(layout.size()), Ordering::Relaxed);
        unsafe { System.alloc(layout) }
    }

    unsafe fn dealloc(&self, at: *mut u8, layout: Layout) {
        IN_USE.fetch_sub(block(layout.size()), Ordering::Relaxed);
        unsafe { System.dealloc(at, layout) }
    }

    unsafe fn realloc(&self, at: *mut u8, layout: Layout, size: usize) -> *mut u8 {
        IN_USE.fetch_add(block(size), Ordering::Relaxed);
        IN_USE.fetch_sub(block(layout.size()), Ordering::Relaxed);
        unsafe { System.realloc(at, layout, size) }
    }
}

#[global_allocator]
static HEAP: Counting = Counting;

/// An address with its bits at the top, and how many there are.
fn bits_of(address: IpAddr) -> (usize, u128, u32) {
    match address {
        IpAddr::V4(ip) => (0, u128::from(ip.to_bits()) << 96, 32),
        IpAddr::V6(ip) => (1, ip.to_bits(), 128),
    }
}

fn prefix(bits: u128, length: u32) -> u128 {
    if length == 0 { 0 } else { bits >> (128 - length) << (128 - length) }
}

/// A table of lines under networks.
trait Table: Default {
    /// Adds a line, unless the network has one.
    fn add(&mut self, family: usize, bits: u128, length: u32, line: Vec<u8>) -> bool;
    /// Called once, when all lines are added.
    fn done(&mut self) {}
    /// The line of the longest network with these bits.
    fn find(&self, family: usize, bits: u128) -> Option<&[u8]>;
}

#[derive(Default)]
struct Node {
    bits: u128,
    length: u32,
    line: Option<Vec<u8>>,
    children: [Option<Box<Node>>; 2],
}

/// A Patricia trie by bits for each family.
#[derive(Default)]
struct Trie {
    roots: [Option<Box<Node>>; 2],
}

fn bit_at(bits: u128, at: u32) -> usize {
    (bits >> (127 - at) & 1) as usize
}

impl Table for Trie {
    fn add(&mut self, family: usize, bits: u128, length: u32, line: Vec<u8>) -> bool {
        let mut place = &mut self.roots[family];
        loop {
            let Some(node) = place else {
                *place = Some(Box::new(Node { bits, length, line: Some(line), children: [None, None] }));
                return true;
            };
            let shared = (node.bits ^ bits).leading_zeros().min(node.length).min(length);
            if shared < node.length {
                let old = place.take().unwrap();
                let mut children = [None, None];
                let side = bit_at(old.bits, shared);
                children[side] = Some(old);
                let mut new = Node { bits: prefix(bits, shared), length: shared, line: None, children };
                if shared == length {
                    new.line = Some(line);
                } else {
                    new.children[1 - side] = Some(Box::new(Node { bits, length, line: Some(line), children: [None, None] }));
                }
                *place = Some(Box::new(new));
                return true;
            }
            if node.length == length {
                let is_new = node.line.is_none();
                if is_new {
                    node.line = Some(line);
                }
                return is_new;
            }
            let side = bit_at(bits, shared);
            place = &mut place.as_mut().unwrap().children[side];
        }
    }

    fn find(&self, family: usize, bits: u128) -> Option<&[u8]> {
        let mut best = None;
        let mut place = &self.roots[family];
        while let Some(node) = place {
            if prefix(bits, node.length) != node.bits {
                break;
            }
            if node.line.is_some() {
                best = node.line.as_deref();
            }
            if node.length == 128 {
                break;
            }
            place = &node.children[bit_at(bits, node.length)];
        }
        best
    }
}

/// For each family and length a hash map of its networks.
struct Maps {
    families: [Vec<HashMap<u128, Vec<u8>>>; 2],
}

impl Default for Maps {
    fn default() -> Self {
        Maps { families: [32, 128].map(|most| (0..=most).map(|_| HashMap::new()).collect()) }
    }
}

impl Table for Maps {
    fn add(&mut self, family: usize, bits: u128, length: u32, line: Vec<u8>) -> bool {
        self.families[family][length as usize].insert(bits, line).is_none()
    }

    fn find(&self, family: usize, bits: u128) -> Option<&[u8]> {
        let maps = self.families[family].iter().enumerate().rev().filter(|(_, map)| !map.is_empty());
        maps.flat_map(|(length, map)| map.get(&prefix(bits, length as u32))).map(|line| line.as_slice()).next()
    }
}

#[derive(Clone, Copy, Default)]
struct Branch {
    /// Which of its 64 slots have a node, and at which of the others the line is not that of the one before.
    children: u64,
    changes: u64,
    first_child: u32,
    first_leaf: u32,
}

/// The routes of a family: bits, length, and the number of the line.
type Routes = [(u128, u32, u32)];

/// A poptrie of a family: what the first 16 bits lead to, a line or a node, and nodes by 6 bits each.
#[derive(Default)]
struct Slots {
    tops: Vec<u32>,
    nodes: Vec<Branch>,
    leaves: Vec<u32>,
}

const NO_LINE: u32 = u32::MAX;
const LEAF: u32 = 1 << 31;
const TOP_BITS: u32 = 16;
const NODE_BITS: u32 = 6;

/// The bits from a depth on, as many as are wanted and zeros after the last.
fn slot_of(bits: u128, depth: u32, width: u32) -> usize {
    (bits.checked_shl(depth).unwrap_or(0) >> (128 - width)) as usize
}

impl Slots {
    /// For each slot below a prefix its line, and the longer routes in it. The routes are sorted, and inside the prefix.
    fn split(routes: &Routes, depth: u32, width: u32, around: u32) -> Vec<(u32, &Routes)> {
        let mut slots = vec![(around, &routes[..0]); 1 << width];
        let mut at = 0;
        while at < routes.len() {
            let (bits, length, line) = routes[at];
            let slot = slot_of(bits, depth, width);
            if length <= depth + width {
                for below in &mut slots[slot..slot + (1 << (depth + width - length))] {
                    below.0 = line;
                }
                at += 1;
            } else {
                let inside = routes[at..].partition_point(|it| slot_of(it.0, depth, width) == slot);
                slots[slot].1 = &routes[at..at + inside];
                at += inside;
            }
        }
        slots
    }

    fn fill(&mut self, at: usize, routes: &Routes, depth: u32, around: u32) {
        let mut node = Branch { first_leaf: self.leaves.len() as u32, ..Branch::default() };
        let mut longer = Vec::new();
        let mut last = None;
        for (slot, (line, inside)) in Self::split(routes, depth, NODE_BITS, around).into_iter().enumerate() {
            if !inside.is_empty() {
                node.children |= 1 << slot;
                longer.push((line, inside));
            } else if last != Some(line) {
                node.changes |= 1 << slot;
                self.leaves.push(line);
                last = Some(line);
            }
        }
        node.first_child = self.nodes.len() as u32;
        self.nodes.resize(self.nodes.len() + longer.len(), Branch::default());
        self.nodes[at] = node;
        for (child, (line, inside)) in longer.into_iter().enumerate() {
            self.fill(node.first_child as usize + child, inside, depth + NODE_BITS, line);
        }
    }

    fn of(routes: &Routes) -> Self {
        let mut slots = Slots::default();
        for (line, inside) in Self::split(routes, 0, TOP_BITS, NO_LINE) {
            if inside.is_empty() {
                slots.tops.push(line | LEAF);
            } else {
                slots.tops.push(slots.nodes.len() as u32);
                slots.nodes.push(Branch::default());
                slots.fill(slots.nodes.len() - 1, inside, TOP_BITS, line);
            }
        }
        slots.nodes.shrink_to_fit();
        slots.leaves.shrink_to_fit();
        slots
    }

    fn find(&self, bits: u128) -> Option<usize> {
        let top = self.tops[slot_of(bits, 0, TOP_BITS)];
        if top & LEAF != 0 {
            return (top != NO_LINE).then_some((top & !LEAF) as usize);
        }
        let mut node = &self.nodes[top as usize];
        let mut depth = TOP_BITS;
        loop {
            let bit = 1u64 << slot_of(bits, depth, NODE_BITS);
            if node.children & bit == 0 {
                let leaf = node.first_leaf + (node.changes & (bit | (bit - 1))).count_ones() - 1;
                let line = self.leaves[leaf as usize];
                return (line != NO_LINE).then_some(line as usize);
            }
            node = &self.nodes[(node.first_child + (node.children & (bit - 1)).count_ones()) as usize];
            depth += NODE_BITS;
        }
    }
}

/// A poptrie (Asai and Ohara, 2015) for each family, over the lines in one text.
#[derive(Default)]
struct Poptrie {
    text: Vec<u8>,
    ends: Vec<u32>,
    loaded: [Vec<(u128, u32, u32)>; 2],
    families: [Slots; 2],
}

impl Table for Poptrie {
    fn add(&mut self, family: usize, bits: u128, length: u32, line: Vec<u8>) -> bool {
        self.loaded[family].push((bits, length, self.ends.len() as u32));
        self.text.extend_from_slice(&line);
        self.ends.push(self.text.len() as u32);
        true
    }

    fn done(&mut self) {
        self.text.shrink_to_fit();
        for (family, slots) in self.families.iter_mut().enumerate() {
            let mut routes = std::mem::take(&mut self.loaded[family]);
            routes.sort_unstable();
            assert!(routes.windows(2).all(|two| (two[0].0, two[0].1) != (two[1].0, two[1].1)), "comes twice");
            *slots = Slots::of(&routes);
        }
    }

    fn find(&self, family: usize, bits: u128) -> Option<&[u8]> {
        let line = self.families[family].find(bits)?;
        let from = line.checked_sub(1).map_or(0, |before| self.ends[before]);
        Some(&self.text[from as usize..self.ends[line] as usize])
    }
}

#[derive(Default)]
struct Nothing;

impl Table for Nothing {
    fn add(&mut self, _: usize, _: u128, _: u32, _: Vec<u8>) -> bool {
        true
    }

    fn find(&self, _: usize, _: u128) -> Option<&[u8]> {
        None
    }
}

fn read<T: Table>(path: &str) -> (T, usize) {
    let mut table = T::default();
    let mut count = 0;
    for line in BufReader::new(File::open(path).unwrap()).split(b'\n') {
        let line = line.unwrap();
        let text = std::str::from_utf8(&line).unwrap();
        let (network, _) = text.split_once(' ').expect("not a route");
        let (address, length) = network.split_once('/').expect("not a route");
        let (family, bits, width) = bits_of(address.parse().expect("not a route"));
        let length: u32 = length.parse().expect("not a route");
        assert!(length <= width && prefix(bits, length) == bits, "not a route");
        assert!(table.add(family, bits, length, line), "comes twice");
        count += 1;
    }
    table.done();
    (table, count)
}

fn answer<T: Table>(table: &T) -> usize {
    let mut count = 0;
    let mut output = BufWriter::new(io::stdout().lock());
    for line in io::stdin().lock().split(b'\n') {
        let line = line.unwrap();
        let (family, bits, _) = bits_of(std::str::from_utf8(&line).unwrap().parse().expect("not an address"));
        output.write_all(table.find(family, bits).unwrap_or(b"none")).unwrap();
        output.write_all(b"\n").unwrap();
        count += 1;
    }
    count
}

fn run<T: Table>(path: &str) {
    let before = IN_USE.load(Ordering::Relaxed);
    let start = Instant::now();
    let (table, routes) = read::<T>(path);
    let loaded = start.elapsed();
    let bytes = IN_USE.load(Ordering::Relaxed) - before;
    let start = Instant::now();
    let addresses = answer(&table);
    let answered = start.elapsed();
    eprintln!(
        "{routes} routes in {:.2} s, {} bytes each; {addresses} addresses in {:.2} s",
        loaded.as_secs_f64(), bytes / routes.max(1), answered.as_secs_f64()
    );
    std::mem::forget(table);
}

/// Numbers that look random.
struct Chance(u64);

impl Chance {
    fn next(&mut self) -> u64 {
        self.0 = self.0.wrapping_add(0x9e37_79b9_7f4a_7c15);
        let mut x = self.0;
        x = (x ^ x >> 30).wrapping_mul(0xbf58_476d_1ce4_e5b9);
        x = (x ^ x >> 27).wrapping_mul(0x94d0_49bb_1331_11eb);
        x ^ x >> 31
    }

    fn wide(&mut self) -> u128 {
        u128::from(self.next()) << 64 | u128::from(self.next())
    }
}

fn address_of(family: usize, bits: u128) -> IpAddr {
    if family == 0 { IpAddr::V4(Ipv4Addr::from_bits((bits >> 96) as u32)) } else { IpAddr::V6(Ipv6Addr::from_bits(bits)) }
}

/// Lengths about as often as they come in the routes of the internet.
const LENGTHS: [&[u32]; 2] = [
    &[24, 24, 24, 24, 24, 24, 23, 23, 22, 22, 22, 21, 20, 20, 19, 18, 17, 16, 16, 15, 14, 12, 28, 32],
    &[48, 48, 48, 48, 48, 44, 44, 40, 40, 36, 34, 33, 32, 32, 32, 30, 29, 29, 28, 56, 64, 128],
];

/// The lengths of the routes around a host: one as those of the internet, or 32.
fn lengths(family: usize, is_nested: bool, chance: &mut Chance) -> Vec<u32> {
    if is_nested {
        return (1..=32).map(|step| step << (2 * family)).collect();
    }
    vec![LENGTHS[family][chance.next() as usize % LENGTHS[family].len()]]
}

/// Four of five hosts are of version 4. Half of the addresses are in one of the routes, and the others anywhere.
fn make(is_nested: bool, routes: usize, addresses: usize, folder: &str) {
    let mut chance = Chance(67);
    let mut seen = HashMap::new();
    let mut networks = Vec::new();
    let mut file = BufWriter::new(File::create(format!("{folder}/routes")).unwrap());
    while networks.len() < routes {
        let family = usize::from(chance.next() % 5 == 0);
        let lengths = lengths(family, is_nested, &mut chance);
        let whole = if family == 0 { chance.wide() >> 96 << 96 } else { 0x2 << 124 | chance.wide() >> 4 };
        for length in lengths {
            let bits = prefix(whole, length);
            if networks.len() < routes && seen.insert((family, bits, length), ()).is_none() {
                writeln!(file, "{}/{length} route-{}", address_of(family, bits), networks.len()).unwrap();
                networks.push((family, bits, length));
            }
        }
    }
    let mut file = BufWriter::new(File::create(format!("{folder}/addresses")).unwrap());
    for at in 0..addresses {
        let (family, bits, length) = networks[chance.next() as usize % networks.len()];
        let rest = if at % 2 == 0 { chance.wide().checked_shr(length).unwrap_or(0) } else { 0 };
        let bits = if at % 2 == 0 { bits | rest } else if family == 0 { chance.wide() } else { 0x2 << 124 | chance.wide() >> 4 };
        writeln!(file, "{}", address_of(family, bits)).unwrap();
    }
}

fn main() {
    let words: Vec<String> = env::args().collect();
    let words: Vec<&str> = words.iter().map(|word| word.as_str()).collect();
    match words[1..] {
        ["trie", path] => run::<Trie>(path),
        ["maps", path] => run::<Maps>(path),
        ["poptrie", path] => run::<Poptrie>(path),
        ["none", path] => run::<Nothing>(path),
        [kind @ ("make" | "nested"), routes, addresses, folder] => {
            make(kind == "nested", routes.parse().unwrap(), addresses.parse().unwrap(), folder)
        }
        _ => panic!("usage: routes trie|maps|poptrie|none FILE < ADDRESSES, or routes make|nested N M FOLDER"),
    }
}
