//! The heap of both sides. It counts what is in use where it is built with `--cfg counted`, and ends a part of the work
//! where the library's side asks for what none can meet.

use crate::parts;
use std::alloc::{GlobalAlloc, Layout};
use std::ptr::{addr_of_mut, dangling_mut, null_mut};

unsafe extern "C" {
    fn malloc(size: usize) -> *mut u8;
    fn realloc(block: *mut u8, size: usize) -> *mut u8;
    fn free(block: *mut u8);
    fn malloc_usable_size(block: *mut u8) -> usize;
    fn malloc_trim(kept: usize) -> i32;
}

const COUNTED: bool = cfg!(counted);
const MARK: usize = 1 << 62;

struct State {
    live: usize,
    start: usize,
}

static mut STATE: State = State { live: 0, start: 0 };

// One thread alone runs here.
fn state() -> &'static mut State {
    unsafe { &mut *addr_of_mut!(STATE) }
}

/// Counts anew from what is in use now.
pub fn start() {
    let state = state();
    state.start = state.live;
}

/// Gives the system what nobody uses.
pub fn give_back() {
    unsafe { malloc_trim(0) };
}

/// Bytes in use, less those at the start.
pub fn in_use() -> usize {
    let state = state();
    state.live.saturating_sub(state.start)
}

// What a block costs: what can be used of it, and the word before it. Nothing where nothing is counted.
fn cost(block: *mut u8) -> usize {
    match COUNTED && !block.is_null() {
        true => unsafe { malloc_usable_size(block) + 8 },
        false => 0,
    }
}

fn gain(block: *mut u8) -> *mut u8 {
    state().live += cost(block);
    block
}

fn lose(cost: usize) {
    state().live -= cost;
}

fn resize(block: *mut u8, size: usize) -> *mut u8 {
    let old = cost(block);
    let new = unsafe { realloc(block, size) };
    if !new.is_null() {
        lose(old);
    }
    gain(new)
}

struct Heap;

#[global_allocator]
static HEAP: Heap = Heap;

unsafe impl GlobalAlloc for Heap {
    unsafe fn alloc(&self, layout: Layout) -> *mut u8 {
        gain(unsafe { malloc(layout.size()) })
    }

    unsafe fn dealloc(&self, block: *mut u8, _layout: Layout) {
        lose(cost(block));
        unsafe { free(block) }
    }

    unsafe fn realloc(&self, block: *mut u8, _layout: Layout, size: usize) -> *mut u8 {
        resize(block, size)
    }
}

/// What the library's runtime asks of a heap.
#[repr(C)]
pub struct Tried {
    is_there: u64,
    block: *mut u8,
}

fn tried(block: *mut u8) -> Tried {
    match block.is_null() {
        true => Tried {
            is_there: 0,
            block: dangling_mut(),
        },
        false => Tried { is_there: 1, block },
    }
}

#[unsafe(no_mangle)]
pub extern "C" fn rattle_alloc(size: usize, align: usize) -> Tried {
    if size >= MARK {
        parts::begin(size - MARK);
        return tried(null_mut());
    }
    tried(gain(unsafe { malloc(if size == 0 { align } else { size }) }))
}

#[unsafe(no_mangle)]
pub unsafe extern "C" fn rattle_realloc(block: *mut u8, _kept: usize, size: usize, align: usize) -> Tried {
    tried(resize(block, if size == 0 { align } else { size }))
}

#[unsafe(no_mangle)]
pub unsafe extern "C" fn rattle_dealloc(block: *mut u8) {
    lose(cost(block));
    unsafe { free(block) }
}
