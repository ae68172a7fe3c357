//! Each allocation of a call fails in turn: that of the library, and that of the values. What the library allocates it frees.

use std::alloc::{GlobalAlloc, Layout};
use std::cell::Cell;
use std::ffi::c_void;
use std::ptr::null_mut;
use vokujin::{Map, OutOfMemory};

thread_local! {
    /// How many allocations succeed before one fails; none fails if it is negative.
    static ALLOWED: Cell<i64> = const { Cell::new(-1) };
    /// How many blocks there are that were allocated by calls from C.
    static BLOCKS: Cell<i64> = const { Cell::new(0) };
}

fn fails() -> bool {
    let allowed = ALLOWED.get();
    ALLOWED.set((allowed - 1).max(-1));
    allowed == 0
}

unsafe extern "C" {
    fn __libc_malloc(size: usize) -> *mut c_void;
    fn __libc_realloc(block: *mut c_void, size: usize) -> *mut c_void;
    fn __libc_memalign(alignment: usize, size: usize) -> *mut c_void;
    fn __libc_free(block: *mut c_void);
}

fn counted(block: *mut c_void) -> *mut c_void {
    BLOCKS.set(BLOCKS.get() + !block.is_null() as i64);
    block
}

// SAFETY: these are glibc's calls, or fail.
#[unsafe(no_mangle)]
extern "C" fn malloc(size: usize) -> *mut c_void {
    if fails() { null_mut() } else { counted(unsafe { __libc_malloc(size) }) }
}

#[unsafe(no_mangle)]
extern "C" fn realloc(block: *mut c_void, size: usize) -> *mut c_void {
    match (fails(), block.is_null()) {
        (true, _) => null_mut(),
        (false, true) => counted(unsafe { __libc_realloc(block, size) }),
        (false, false) => unsafe { __libc_realloc(block, size) },
    }
}

#[unsafe(no_mangle)]
extern "C" fn free(block: *mut c_void) {
    BLOCKS.set(BLOCKS.get() - !block.is_null() as i64);
    unsafe { __libc_free(block) }
}

/// What Rust allocates may fail, and is not counted.
struct Uncounted;

// SAFETY: as above.
unsafe impl GlobalAlloc for Uncounted {
    unsafe fn alloc(&self, layout: Layout) -> *mut u8 {
        if fails() { null_mut() } else { unsafe { __libc_memalign(layout.align(), layout.size()).cast() } }
    }

    unsafe fn dealloc(&self, block: *mut u8, _: Layout) {
        unsafe { __libc_free(block.cast()) }
    }
}

#[global_allocator]
static GLOBAL: Uncounted = Uncounted;

fn key(number: u64) -> String {
    format!("{}{}", "long".repeat(number as usize % 20), number % 150)
}

/// Makes a call with more and more allocations, and returns how often it failed.
fn attempts(map: &mut Map<Box<u64>>, number: u64) -> i64 {
    let before: Vec<_> = map.iter().map(|(key, value)| (key, value.clone())).collect();
    let key = key(number);
    for allowed in 0.. {
        let value = Box::new(number);
        ALLOWED.set(allowed);
        let result = map.try_insert(&key, value);
        ALLOWED.set(-1);
        let Err(OutOfMemory) = result else {
            return allowed;
        };
        assert!(map.iter().map(|(key, value)| (key, value.clone())).eq(before.iter().cloned()));
    }
    unreachable!()
}

#[test]
fn a_failed_insertion_changes_nothing() {
    let (mut map, mut failed) = (Map::new(), 0);
    for number in 0..200 {
        failed += attempts(&mut map, number);
        assert_eq!(map.get(key(number)), Some(&Box::new(number)));
    }
    assert!(failed > 50, "{failed}");
}

#[test]
fn no_block_is_left() {
    let before = BLOCKS.get();
    let map: Map<u64> = (0..1000).map(|it| (key(it), it)).collect();
    assert!(BLOCKS.get() > before);
    let (mut copy, mut pairs) = (map.clone(), map.clone().into_iter());
    pairs.next();
    copy.clear();
    let frozen = map.freeze();
    let other = frozen.clone();
    drop((copy, pairs, frozen));
    assert!(BLOCKS.get() > before);
    drop(other);
    assert_eq!(BLOCKS.get(), before);
}
