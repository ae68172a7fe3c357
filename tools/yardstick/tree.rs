//! A yardstick: an adaptive radix tree with boxed nodes of four kinds, of which nothing is verified. So many bytes of a
//! prefix are stored; the others are passed over and compared at the leaf. No key may be a prefix of another.

use std::arch::x86_64::*;
use std::iter::successors;
use std::mem::replace;
use std::ptr::null_mut;

const STORED: usize = 16;

/// How leaves are linked.
pub trait Links: Default {
    /// Links a new leaf beside the nodes on one side of it.
    fn link<'a>(new: &mut Node<Self>, beside: impl FnOnce() -> Beside<'a, Self>)
    where
        Self: 'a;
}

/// A node next to a new leaf: the keys below it come before the leaf's, or after it.
pub enum Beside<'a, L> {
    Before(&'a Node<L>),
    After(&'a Node<L>),
}

/// No links.
#[derive(Default)]
pub struct Unlinked;

/// The neighbours in the order of keys.
pub struct Neighbours {
    previous: *mut Leaf<Neighbours>,
    next: *mut Leaf<Neighbours>,
}

pub struct Leaf<L> {
    key: Box<[u8]>,
    value: u32,
    links: L,
}

pub struct Header {
    len: u32,
    stored: [u8; STORED],
}

type Slot<L> = Option<Box<Node<L>>>;

pub enum Node<L> {
    Leaf(Leaf<L>),
    Inner(Header, Children<L>),
}

/// The children of a kind: sorted with their bytes, by an index of places, or in a place for each byte.
pub enum Children<L> {
    Node4(u8, [u8; 4], [Slot<L>; 4]),
    Node16(u8, [u8; 16], Box<[Slot<L>; 16]>),
    Node48(u8, Box<[u8; 256]>, Box<[Slot<L>; 48]>),
    Node256(Box<[Slot<L>; 256]>),
}

const NO_PLACE: u8 = 255;

impl Links for Unlinked {
    fn link<'a>(_new: &mut Node<Self>, _beside: impl FnOnce() -> Beside<'a, Self>) {}
}

impl Default for Neighbours {
    fn default() -> Self {
        Neighbours {
            previous: null_mut(),
            next: null_mut(),
        }
    }
}

impl Links for Neighbours {
    fn link<'a>(new: &mut Node<Self>, beside: impl FnOnce() -> Beside<'a, Self>) {
        let Node::Leaf(leaf) = new else { return };
        let this: *mut Leaf<Self> = leaf;
        unsafe {
            match beside() {
                Beside::Before(node) => {
                    leaf.links.previous = node.greatest() as *const Leaf<Self> as *mut Leaf<Self>;
                    leaf.links.next = (*leaf.links.previous).links.next;
                }
                Beside::After(node) => {
                    leaf.links.next = node.least() as *const Leaf<Self> as *mut Leaf<Self>;
                    leaf.links.previous = (*leaf.links.next).links.previous;
                }
            }
            if let Some(previous) = leaf.links.previous.as_mut() {
                previous.links.next = this;
            }
            if let Some(next) = leaf.links.next.as_mut() {
                next.links.previous = this;
            }
        }
    }
}

impl Header {
    fn new(bytes: &[u8]) -> Header {
        let mut stored = [0; STORED];
        let count = bytes.len().min(STORED);
        stored[..count].copy_from_slice(&bytes[..count]);
        Header {
            len: bytes.len() as u32,
            stored,
        }
    }
}

impl<L> Node<L> {
    fn least(&self) -> &Leaf<L> {
        let mut node = self;
        loop {
            match node {
                Node::Leaf(leaf) => return leaf,
                Node::Inner(_, children) => node = children.first(),
            }
        }
    }

    fn greatest(&self) -> &Leaf<L> {
        let mut node = self;
        loop {
            match node {
                Node::Leaf(leaf) => return leaf,
                Node::Inner(_, children) => node = children.last(),
            }
        }
    }
}

/// Puts a child in its place among sorted ones.
fn put_sorted<L>(count: u8, bytes: &mut [u8], slots: &mut [Slot<L>], byte: u8, node: Box<Node<L>>) {
    let mut at = count as usize;
    while at > 0 && bytes[at - 1] > byte {
        bytes[at] = bytes[at - 1];
        slots[at] = slots[at - 1].take();
        at -= 1;
    }
    bytes[at] = byte;
    slots[at] = Some(node);
}

/// The child before a byte that has none, or else the first.
fn beside_sorted<'a, L>(bytes: &[u8], slots: &'a [Slot<L>], byte: u8) -> Beside<'a, L> {
    match bytes.iter().take_while(|other| **other < byte).count() {
        0 => Beside::After(slots[0].as_deref().unwrap()),
        before => Beside::Before(slots[before - 1].as_deref().unwrap()),
    }
}

impl<L> Children<L> {
    fn none() -> Self {
        Children::Node4(0, [0; 4], [const { None }; 4])
    }

    #[inline(always)]
    fn get(&self, byte: u8) -> Option<&Node<L>> {
        match self {
            Children::Node4(count, bytes, slots) => {
                let at = bytes[..*count as usize].iter().position(|other| *other == byte)?;
                slots[at].as_deref()
            }
            Children::Node16(count, bytes, slots) => {
                let same = unsafe {
                    let lanes = _mm_loadu_si128(bytes.as_ptr().cast());
                    _mm_movemask_epi8(_mm_cmpeq_epi8(lanes, _mm_set1_epi8(byte as i8))) as u32
                };
                match same & ((1 << *count) - 1) {
                    0 => None,
                    found => slots[found.trailing_zeros() as usize].as_deref(),
                }
            }
            Children::Node48(_, index, slots) => match index[byte as usize] {
                NO_PLACE => None,
                place => slots[place as usize].as_deref(),
            },
            Children::Node256(slots) => slots[byte as usize].as_deref(),
        }
    }

    fn get_mut(&mut self, byte: u8) -> Option<&mut Box<Node<L>>> {
        match self {
            Children::Node4(count, bytes, slots) => {
                let at = bytes[..*count as usize].iter().position(|other| *other == byte)?;
                slots[at].as_mut()
            }
            Children::Node16(count, bytes, slots) => {
                let at = bytes[..*count as usize].iter().position(|other| *other == byte)?;
                slots[at].as_mut()
            }
            Children::Node48(_, index, slots) => match index[byte as usize] {
                NO_PLACE => None,
                place => slots[place as usize].as_mut(),
            },
            Children::Node256(slots) => slots[byte as usize].as_mut(),
        }
    }

    fn add(&mut self, byte: u8, node: Box<Node<L>>) {
        match self {
            Children::Node4(count, bytes, slots) if *count < 4 => {
                put_sorted(*count, bytes, slots, byte, node);
                *count += 1;
            }
            Children::Node16(count, bytes, slots) if *count < 16 => {
                put_sorted(*count, bytes, &mut slots[..], byte, node);
                *count += 1;
            }
            Children::Node48(count, index, slots) if *count < 48 => {
                index[byte as usize] = *count;
                slots[*count as usize] = Some(node);
                *count += 1;
            }
            Children::Node256(slots) => slots[byte as usize] = Some(node),
            _ => {
                self.grow();
                self.add(byte, node);
            }
        }
    }

    fn grow(&mut self) {
        *self = match self {
            Children::Node4(count, bytes, slots) => {
                let (mut more_bytes, mut more) = ([0; 16], Box::new([const { None }; 16]));
                for at in 0..4 {
                    (more_bytes[at], more[at]) = (bytes[at], slots[at].take());
                }
                Children::Node16(*count, more_bytes, more)
            }
            Children::Node16(count, bytes, slots) => {
                let (mut index, mut more) = (Box::new([NO_PLACE; 256]), Box::new([const { None }; 48]));
                for at in 0..16 {
                    index[bytes[at] as usize] = at as u8;
                    more[at] = slots[at].take();
                }
                Children::Node48(*count, index, more)
            }
            Children::Node48(_, index, slots) => {
                let mut more = Box::new([const { None }; 256]);
                for (place, slot) in index.iter().zip(more.iter_mut()) {
                    if *place != NO_PLACE {
                        *slot = slots[*place as usize].take();
                    }
                }
                Children::Node256(more)
            }
            Children::Node256(_) => return,
        };
    }

    fn beside(&self, byte: u8) -> Beside<'_, L> {
        match self {
            Children::Node4(count, bytes, slots) => {
                beside_sorted(&bytes[..*count as usize], &slots[..], byte)
            }
            Children::Node16(count, bytes, slots) => {
                beside_sorted(&bytes[..*count as usize], &slots[..], byte)
            }
            _ => {
                for distance in 1..=255 {
                    if let Some(node) = byte.checked_sub(distance).and_then(|other| self.get(other)) {
                        return Beside::Before(node);
                    }
                    if let Some(node) = byte.checked_add(distance).and_then(|other| self.get(other)) {
                        return Beside::After(node);
                    }
                }
                unreachable!()
            }
        }
    }

    fn first(&self) -> &Node<L> {
        let first = match self {
            Children::Node4(_, _, slots) => slots[0].as_deref(),
            Children::Node16(_, _, slots) => slots[0].as_deref(),
            Children::Node48(_, index, slots) => index
                .iter()
                .find(|place| **place != NO_PLACE)
                .and_then(|place| slots[*place as usize].as_deref()),
            Children::Node256(slots) => slots.iter().find_map(|slot| slot.as_deref()),
        };
        first.unwrap()
    }

    fn last(&self) -> &Node<L> {
        let last = match self {
            Children::Node4(count, _, slots) => slots[*count as usize - 1].as_deref(),
            Children::Node16(count, _, slots) => slots[*count as usize - 1].as_deref(),
            Children::Node48(_, index, slots) => index
                .iter()
                .rev()
                .find(|place| **place != NO_PLACE)
                .and_then(|place| slots[*place as usize].as_deref()),
            Children::Node256(slots) => slots.iter().rev().find_map(|slot| slot.as_deref()),
        };
        last.unwrap()
    }
}

/// What an insertion does at a node.
enum Meets {
    /// The key goes on below, or is the leaf's.
    Whole,
    /// The key parts from the node's after so many bytes, at this byte; an inner node keeps a shorter prefix.
    Parts(usize, u8, Option<Header>),
    /// The key is a prefix of the node's, or the leaf's key of it.
    Related,
}

#[derive(Default)]
pub struct Tree<L> {
    root: Slot<L>,
}

fn shared_len(one: &[u8], other: &[u8]) -> usize {
    one.iter().zip(other).take_while(|(a, b)| a == b).count()
}

fn new_leaf<L: Links>(key: &[u8], value: u32) -> Box<Node<L>> {
    Box::new(Node::Leaf(Leaf {
        key: key.into(),
        value,
        links: L::default(),
    }))
}

impl Tree<Neighbours> {
    /// The pairs in the order of their keys.
    pub fn iter(&self) -> impl Iterator<Item = (&[u8], u32)> {
        let first = self.root.as_deref().map(Node::least);
        successors(first, |leaf| unsafe { leaf.links.next.as_ref() }).map(Leaf::pair)
    }

    /// The same from the last to the first.
    pub fn iter_back(&self) -> impl Iterator<Item = (&[u8], u32)> {
        let last = self.root.as_deref().map(Node::greatest);
        successors(last, |leaf| unsafe { leaf.links.previous.as_ref() }).map(Leaf::pair)
    }
}

impl<L> Leaf<L> {
    fn pair(&self) -> (&[u8], u32) {
        (&self.key, self.value)
    }
}

impl<L: Links> Tree<L> {
    /// The value of the stored key that is a prefix of this one.
    #[inline(always)]
    pub fn longest_match(&self, key: &[u8]) -> Option<u32> {
        let mut node = self.root.as_deref()?;
        let mut depth = 0;
        loop {
            match node {
                Node::Leaf(leaf) => return key.starts_with(&leaf.key).then_some(leaf.value),
                Node::Inner(header, children) => {
                    let len = header.len as usize;
                    let stored = &header.stored[..len.min(STORED)];
                    if key.len() <= depth + len || key[depth..depth + stored.len()] != *stored {
                        return None;
                    }
                    depth += len;
                    node = children.get(key[depth])?;
                    depth += 1;
                }
            }
        }
    }

    #[inline(always)]
    pub fn get(&self, key: &[u8]) -> Option<u32> {
        let mut node = self.root.as_deref()?;
        let mut depth = 0;
        loop {
            match node {
                Node::Leaf(leaf) => return (*leaf.key == *key).then_some(leaf.value),
                Node::Inner(header, children) => {
                    let len = header.len as usize;
                    let stored = &header.stored[..len.min(STORED)];
                    if key.len() <= depth + len || key[depth..depth + stored.len()] != *stored {
                        return None;
                    }
                    depth += len;
                    node = children.get(key[depth])?;
                    depth += 1;
                }
            }
        }
    }

    /// Whether the key was put in, or its value replaced: its key is not related to an unequal one.
    pub fn insert(&mut self, key: &[u8], value: u32) -> bool {
        match &mut self.root {
            None => {
                self.root = Some(new_leaf(key, value));
                true
            }
            Some(node) => Self::insert_at(node, key, value, 0),
        }
    }

    fn meet(node: &Node<L>, key: &[u8], depth: usize) -> Meets {
        match node {
            Node::Leaf(leaf) if *leaf.key == *key => Meets::Whole,
            Node::Leaf(leaf) => {
                let shared = shared_len(&leaf.key[depth..], &key[depth..]);
                if depth + shared >= leaf.key.len().min(key.len()) {
                    return Meets::Related;
                }
                Meets::Parts(shared, leaf.key[depth + shared], None)
            }
            Node::Inner(header, _) => {
                let len = header.len as usize;
                let prefix = match len > STORED {
                    true => &node.least().key[depth..depth + len],
                    false => &header.stored[..len],
                };
                let shared = shared_len(prefix, &key[depth..]);
                if depth + shared >= key.len() {
                    return Meets::Related;
                }
                match shared < len {
                    true => Meets::Parts(shared, prefix[shared], Some(Header::new(&prefix[shared + 1..]))),
                    false => Meets::Whole,
                }
            }
        }
    }

    fn insert_at(node: &mut Box<Node<L>>, key: &[u8], value: u32, depth: usize) -> bool {
        match Self::meet(node, key, depth) {
            Meets::Related => false,
            Meets::Parts(shared, byte, header) => {
                Self::part(node, key, value, depth, (shared, byte, header));
                true
            }
            Meets::Whole => match &mut **node {
                Node::Leaf(leaf) => {
                    leaf.value = value;
                    true
                }
                Node::Inner(header, children) => {
                    let depth = depth + header.len as usize;
                    if let Some(next) = children.get_mut(key[depth]) {
                        return Self::insert_at(next, key, value, depth + 1);
                    }
                    let mut new = new_leaf(key, value);
                    L::link(&mut new, || children.beside(key[depth]));
                    children.add(key[depth], new);
                    true
                }
            },
        }
    }

    fn part(node: &mut Box<Node<L>>, key: &[u8], value: u32, depth: usize, at: (usize, u8, Option<Header>)) {
        let (shared, byte, shorter) = at;
        let mut old = replace(node, new_leaf(&[], 0));
        if let (Node::Inner(header, _), Some(shorter)) = (&mut *old, shorter) {
            *header = shorter;
        }
        let own = key[depth + shared];
        let mut new = new_leaf(key, value);
        L::link(&mut new, || {
            if byte < own {
                Beside::Before(&old)
            } else {
                Beside::After(&old)
            }
        });
        let mut children = Children::none();
        children.add(byte, old);
        children.add(own, new);
        **node = Node::Inner(Header::new(&key[depth..depth + shared]), children);
    }
}
