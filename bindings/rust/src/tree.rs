//! The trees of the library, with a number for each key: each call of this module is one call of the library.

use std::marker::PhantomData;
use std::mem::MaybeUninit;
use std::ops::Bound;

use crate::OutOfMemory;
use crate::calls::{
    self, BuilderPlace, DONE, EXCLUDED, FrozenPlace, Given, INCLUDED, NO_MEMORY, NOT_AFTER, Pair, Place, REPLACED, TOO_LONG,
    UNBOUNDED,
};

/// A tree that may be changed.
pub(crate) struct Tree {
    place: Place,
}

// SAFETY: that a map is `Send` and `Sync` is proved (crates/string_map/src/threads.rt). A call by `&self` asks only that the map
// is lent.
unsafe impl Send for Tree {}
unsafe impl Sync for Tree {}

/// A handle of a tree that is no longer changed.
pub(crate) struct FrozenTree {
    place: FrozenPlace,
}

// SAFETY: as of a tree; that a handle is `Send` and `Sync` is proved there too.
unsafe impl Send for FrozenTree {}
unsafe impl Sync for FrozenTree {}

/// A tree that is built of keys in their order, in one thread.
pub(crate) struct TreeBuilder {
    place: BuilderPlace,
    stays: PhantomData<*const ()>,
}

/// What a call did that finds nothing and may allocate.
fn done<T>(code: u32, it: T) -> Result<T, OutOfMemory> {
    match code {
        DONE => Ok(it),
        NO_MEMORY => Err(OutOfMemory),
        _ => unreachable!("code {code}"),
    }
}

/// What a lookup found, which allocates nothing.
fn looked_up<T>(code: u32, it: T) -> Option<T> {
    if code == DONE { Some(it) } else { None }
}

impl Tree {
    pub fn new() -> Tree {
        let mut place = Place(MaybeUninit::uninit());
        assert_eq!(unsafe { calls::vokujin_size() }, size_of::<Place>(), "a library of another version");
        // SAFETY: the place has the size of a map.
        unsafe { calls::vokujin_new(&mut place) };
        Tree { place }
    }

    pub fn len(&self) -> usize {
        let mut len = 0;
        // SAFETY: a map lies in `place` from `new` to `drop`; the others are Rust's references. So of each call below.
        unsafe { calls::vokujin_len(&self.place, &mut len) };
        len
    }

    pub fn get(&self, key: &[u8]) -> Option<u64> {
        let mut value = 0;
        looked_up(unsafe { calls::vokujin_get(&self.place, key.as_ptr(), key.len(), &mut value) }, value)
    }

    /// Inserts a pair, and returns the number that it replaced.
    pub fn insert(&mut self, key: &[u8], value: u64) -> Result<Option<u64>, OutOfMemory> {
        let mut replaced = 0;
        let code = unsafe { calls::vokujin_insert(&mut self.place, key.as_ptr(), key.len(), value, &mut replaced) };
        if code == REPLACED { Ok(Some(replaced)) } else { done(code, None) }
    }

    pub fn remove(&mut self, key: &[u8]) -> Option<u64> {
        let mut value = 0;
        looked_up(unsafe { calls::vokujin_remove(&mut self.place, key.as_ptr(), key.len(), &mut value) }, value)
    }

    pub fn clear(&mut self) {
        unsafe { calls::vokujin_clear(&mut self.place) };
    }

    pub fn compact(&mut self) -> Result<(), OutOfMemory> {
        done(unsafe { calls::vokujin_compact(&mut self.place) }, ())
    }

    pub fn first(&self) -> Option<(Vec<u8>, u64)> {
        self.end(calls::vokujin_first)
    }

    pub fn last(&self) -> Option<(Vec<u8>, u64)> {
        self.end(calls::vokujin_last)
    }

    fn end(&self, call: unsafe extern "C" fn(*const Place, *mut u8, usize, *mut Pair) -> u32) -> Option<(Vec<u8>, u64)> {
        let (mut key, mut pair) = (vec![0; 64], Pair::default());
        loop {
            let code = unsafe { call(&self.place, key.as_mut_ptr(), key.len(), &mut pair) };
            key.resize(pair.key_len, 0);
            if code != TOO_LONG {
                return looked_up(code, (key, pair.value));
            }
        }
    }

    pub fn longest_match(&self, query: &[u8]) -> Option<(usize, u64)> {
        let mut pair = Pair::default();
        let code = unsafe { calls::vokujin_longest_match(&self.place, query.as_ptr(), query.len(), &mut pair) };
        looked_up(code, (pair.key_len, pair.value))
    }

    pub fn count_prefix(&self, prefix: &[u8]) -> usize {
        let mut count = 0;
        let code = unsafe { calls::vokujin_count_prefix(&self.place, prefix.as_ptr(), prefix.len(), &mut count) };
        looked_up(code, count).unwrap_or(0)
    }

    /// Moves the tree behind a handle, and leaves an empty tree.
    pub fn freeze(&mut self) -> Result<FrozenTree, OutOfMemory> {
        let mut frozen = FrozenTree::none();
        let code = unsafe { calls::vokujin_freeze(&mut self.place, &mut frozen.place) };
        done(code, frozen)
    }
}

impl Drop for Tree {
    fn drop(&mut self) {
        unsafe { calls::vokujin_free(&mut self.place) };
    }
}

impl TreeBuilder {
    pub fn new() -> TreeBuilder {
        let mut place = BuilderPlace(MaybeUninit::uninit());
        assert_eq!(unsafe { calls::vokujin_builder_size() }, size_of::<BuilderPlace>(), "a library of another version");
        // SAFETY: the place has the size of a builder. From here to `drop` one lies in it, which each call below asks for.
        unsafe { calls::vokujin_builder_new(&mut place) };
        TreeBuilder { place, stays: PhantomData }
    }

    /// Adds a pair, and returns whether its key is after all others; if it is not, nothing changes.
    pub fn push(&mut self, key: &[u8], value: u64) -> Result<bool, OutOfMemory> {
        let code = unsafe { calls::vokujin_builder_push(&mut self.place, key.as_ptr(), key.len(), value) };
        if code == NOT_AFTER { Ok(false) } else { done(code, true) }
    }

    /// Moves the pairs to a tree, in place of what that has.
    pub fn finish(mut self, tree: &mut Tree) {
        unsafe { calls::vokujin_builder_finish(&mut self.place, &mut tree.place) };
    }
}

impl Drop for TreeBuilder {
    fn drop(&mut self) {
        unsafe { calls::vokujin_builder_free(&mut self.place) };
    }
}

impl FrozenTree {
    fn none() -> FrozenTree {
        let mut place = FrozenPlace(MaybeUninit::uninit());
        assert_eq!(unsafe { calls::vokujin_frozen_size() }, size_of::<FrozenPlace>(), "a library of another version");
        // SAFETY: the place has the size of a handle. From here to `drop` a handle lies in it, which each call below asks for.
        unsafe { calls::vokujin_frozen_new(&mut place) };
        FrozenTree { place }
    }

    /// Returns another handle. It fails only if there are 2^63 handles.
    pub fn share(&self) -> Result<FrozenTree, OutOfMemory> {
        let mut other = FrozenTree::none();
        let code = unsafe { calls::vokujin_frozen_share(&self.place, &mut other.place) };
        done(code, other)
    }

    pub fn len(&self) -> usize {
        let mut len = 0;
        unsafe { calls::vokujin_frozen_len(&self.place, &mut len) };
        len
    }

    pub fn get(&self, key: &[u8]) -> Option<u64> {
        let mut value = 0;
        looked_up(unsafe { calls::vokujin_frozen_get(&self.place, key.as_ptr(), key.len(), &mut value) }, value)
    }

    pub fn longest_match(&self, query: &[u8]) -> Option<(usize, u64)> {
        let mut pair = Pair::default();
        let code = unsafe { calls::vokujin_frozen_longest_match(&self.place, query.as_ptr(), query.len(), &mut pair) };
        looked_up(code, (pair.key_len, pair.value))
    }
}

impl Drop for FrozenTree {
    fn drop(&mut self) {
        unsafe { calls::vokujin_frozen_free(&mut self.place) };
    }
}

/// The bounds of a range.
#[derive(Clone)]
pub(crate) struct Bounds {
    pub from: Bound<Vec<u8>>,
    pub to: Bound<Vec<u8>>,
}

impl Bounds {
    pub const ALL: Bounds = Bounds { from: Bound::Unbounded, to: Bound::Unbounded };

    /// Returns the range of the keys that start with a prefix.
    pub fn of_prefix(prefix: &[u8]) -> Bounds {
        let mut end = prefix.to_vec();
        // SAFETY: the vector has the length that is passed.
        let len = unsafe { calls::vokujin_prefix_end(end.as_mut_ptr(), end.len()) };
        end.truncate(len);
        let to = if len == 0 { Bound::Unbounded } else { Bound::Excluded(end) };
        Bounds { from: Bound::Included(prefix.to_vec()), to }
    }
}

fn parts(bound: &Bound<Vec<u8>>) -> (&[u8], u32) {
    match bound {
        Bound::Unbounded => (&[], UNBOUNDED),
        Bound::Included(key) => (key, INCLUDED),
        Bound::Excluded(key) => (key, EXCLUDED),
    }
}

/// A tree that is iterated over.
#[derive(Clone, Copy)]
pub(crate) enum Source<'a> {
    Tree(&'a Tree),
    Frozen(&'a FrozenTree),
}

impl Source<'_> {
    /// Writes the pairs next to one end of a range: as many as there is space for. Returns the code, too.
    pub fn next_pairs(self, bounds: &Bounds, is_backward: bool, keys: &mut [u8], pairs: &mut [Pair]) -> (u32, Given) {
        let ((from, from_kind), (to, to_kind)) = (parts(&bounds.from), parts(&bounds.to));
        let mut given = Given::default();
        macro_rules! call {
            ($call:ident, $place:expr) => {
                // SAFETY: the place is lent, and the slices have the lengths that are passed.
                unsafe {
                    calls::$call(
                        $place,
                        from.as_ptr(),
                        from.len(),
                        from_kind,
                        to.as_ptr(),
                        to.len(),
                        to_kind,
                        is_backward,
                        keys.as_mut_ptr(),
                        keys.len(),
                        pairs.as_mut_ptr(),
                        pairs.len(),
                        &mut given,
                    )
                }
            };
        }
        let code = match self {
            Source::Tree(tree) => call!(vokujin_next_pairs, &tree.place),
            Source::Frozen(tree) => call!(vokujin_frozen_next_pairs, &tree.place),
        };
        (code, given)
    }
}
