//! The calls of the library. `tools/declarations` writes this file.
#![allow(dead_code)]

use std::mem::MaybeUninit;

/// The memory of a map.
#[repr(C)]
pub struct Place(pub MaybeUninit<[u64; 35]>);

/// The memory of a handle of a frozen map.
#[repr(C)]
pub struct FrozenPlace(pub MaybeUninit<[u64; 2]>);

/// The memory of a builder.
#[repr(C)]
pub struct BuilderPlace(pub MaybeUninit<[u64; 35]>);

/// A pair whose key is in a buffer.
#[repr(C)]
#[derive(Clone, Copy, Default)]
pub struct Pair {
    pub value: u64,
    pub key_len: usize,
}

/// How many pairs were written, and the length of the next key if that is too long for the space.
#[repr(C)]
#[derive(Clone, Copy, Default)]
pub struct Given {
    pub count: usize,
    pub key_len: usize,
}

pub const DONE: u32 = 0;
pub const ABSENT: u32 = 1;
pub const NO_MEMORY: u32 = 2;
pub const TOO_LONG: u32 = 3;
pub const FULL: u32 = 4;
pub const FREED: u32 = 5;
pub const REPLACED: u32 = 6;
pub const NOT_AFTER: u32 = 7;
pub const UNBOUNDED: u32 = 0;
pub const INCLUDED: u32 = 1;
pub const EXCLUDED: u32 = 2;

unsafe extern "C" {
    pub fn vokujin_size() -> usize;
    pub fn vokujin_new(map: *mut Place);
    pub fn vokujin_free(map: *mut Place) -> u32;
    pub fn vokujin_len(map: *const Place, len: *mut usize) -> u32;
    pub fn vokujin_clear(map: *mut Place) -> u32;
    pub fn vokujin_compact(map: *mut Place) -> u32;
    pub fn vokujin_get(map: *const Place, key: *const u8, key_len: usize, value: *mut u64) -> u32;
    pub fn vokujin_insert(map: *mut Place, key: *const u8, key_len: usize, value: u64, replaced: *mut u64) -> u32;
    pub fn vokujin_remove(map: *mut Place, key: *const u8, key_len: usize, value: *mut u64) -> u32;
    pub fn vokujin_count_prefix(map: *const Place, prefix: *const u8, prefix_len: usize, count: *mut usize) -> u32;
    pub fn vokujin_longest_match(map: *const Place, query: *const u8, query_len: usize, pair: *mut Pair) -> u32;
    pub fn vokujin_first(map: *const Place, buffer: *mut u8, buffer_len: usize, pair: *mut Pair) -> u32;
    pub fn vokujin_last(map: *const Place, buffer: *mut u8, buffer_len: usize, pair: *mut Pair) -> u32;
    pub fn vokujin_next_pairs(map: *const Place, from: *const u8, from_len: usize, from_kind: u32, to: *const u8, to_len: usize, to_kind: u32, is_backward: bool, buffer: *mut u8, buffer_len: usize, pairs: *mut Pair, pairs_len: usize, given: *mut Given) -> u32;
    pub fn vokujin_prefix_end(prefix: *mut u8, prefix_len: usize) -> usize;
    pub fn vokujin_builder_size() -> usize;
    pub fn vokujin_builder_new(builder: *mut BuilderPlace);
    pub fn vokujin_builder_push(builder: *mut BuilderPlace, key: *const u8, key_len: usize, value: u64) -> u32;
    pub fn vokujin_builder_finish(builder: *mut BuilderPlace, map: *mut Place) -> u32;
    pub fn vokujin_builder_free(builder: *mut BuilderPlace) -> u32;
    pub fn vokujin_frozen_size() -> usize;
    pub fn vokujin_frozen_new(frozen: *mut FrozenPlace);
    pub fn vokujin_freeze(map: *mut Place, frozen: *mut FrozenPlace) -> u32;
    pub fn vokujin_frozen_share(frozen: *const FrozenPlace, other: *mut FrozenPlace) -> u32;
    pub fn vokujin_frozen_free(frozen: *mut FrozenPlace) -> u32;
    pub fn vokujin_frozen_len(frozen: *const FrozenPlace, len: *mut usize) -> u32;
    pub fn vokujin_frozen_get(frozen: *const FrozenPlace, key: *const u8, key_len: usize, value: *mut u64) -> u32;
    pub fn vokujin_frozen_longest_match(frozen: *const FrozenPlace, query: *const u8, query_len: usize, pair: *mut Pair) -> u32;
    pub fn vokujin_frozen_next_pairs(frozen: *const FrozenPlace, from: *const u8, from_len: usize, from_kind: u32, to: *const u8, to_len: usize, to_kind: u32, is_backward: bool, buffer: *mut u8, buffer_len: usize, pairs: *mut Pair, pairs_len: usize, given: *mut Given) -> u32;
}
