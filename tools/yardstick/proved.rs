//! The work on the proved maps, which their side does part by part.

use crate::keys::Work;

#[repr(C)]
#[derive(Default, Debug)]
struct Counts {
    stored: u64,
    found: u64,
    written: u64,
    matched: u64,
    walked: u64,
    back: u64,
    below: u64,
    ranged: u64,
    cloned: u64,
    taken: u64,
    again: u64,
    over: u64,
    compacted: u64,
    more: u64,
}

unsafe extern "C" {
    fn bench_byte_map(
        keys: *const u8,
        keys_len: usize,
        ends: *const u64,
        ends_len: usize,
        asked: *const u8,
        asked_len: usize,
        asked_ends: *const u64,
        asked_ends_len: usize,
        prefixes: *const u8,
        prefixes_len: usize,
        prefix_ends: *const u64,
        prefix_ends_len: usize,
        counts: &mut Counts,
    );

    fn bench_kit_map(
        keys: *const u8,
        keys_len: usize,
        ends: *const u64,
        ends_len: usize,
        asked: *const u8,
        asked_len: usize,
        asked_ends: *const u64,
        asked_ends_len: usize,
        counts: &mut Counts,
    );

    fn bench_text_map(
        texts: *const u8,
        texts_len: usize,
        ends: *const u64,
        ends_len: usize,
        asked: *const u8,
        asked_len: usize,
        asked_ends: *const u64,
        asked_ends_len: usize,
        counts: &mut Counts,
    );

    fn bench_hinted_map(
        texts: *const u8,
        texts_len: usize,
        ends: *const u64,
        ends_len: usize,
        asked: *const u8,
        asked_len: usize,
        asked_ends: *const u64,
        asked_ends_len: usize,
        counts: &mut Counts,
    );

    fn bench_store(
        keys: *const u8,
        keys_len: usize,
        ends: *const u64,
        ends_len: usize,
        asked: *const u8,
        asked_len: usize,
        asked_ends: *const u64,
        asked_ends_len: usize,
        counts: &mut Counts,
    );
}

pub fn byte_map(work: &Work) {
    let mut counts = Counts::default();
    let (keys, asked, prefixes) = (&work.keys, &work.asked, &work.prefixes);
    unsafe {
        bench_byte_map(
            keys.bytes.as_ptr(),
            keys.bytes.len(),
            keys.ends.as_ptr(),
            keys.ends.len(),
            asked.bytes.as_ptr(),
            asked.bytes.len(),
            asked.ends.as_ptr(),
            asked.ends.len(),
            prefixes.bytes.as_ptr(),
            prefixes.bytes.len(),
            prefixes.ends.as_ptr(),
            prefixes.ends.len(),
            &mut counts,
        );
    }
    let count = keys.count() as u64;
    let told = [counts.stored, counts.found, counts.written, counts.matched, counts.ranged, counts.taken, counts.again, counts.over];
    assert_eq!(told, [count; 8]);
    assert_eq!(counts.below, work.walked());
    assert!([counts.back, counts.cloned].iter().all(|sum| *sum == counts.walked));
    assert_eq!(counts.compacted, keys.bytes.len() as u64 + 7 * count);
    assert_eq!(counts.more, count);
}

pub fn kit_map(work: &Work) {
    let mut counts = Counts::default();
    let (keys, asked) = (&work.keys, &work.asked);
    unsafe {
        bench_kit_map(
            keys.bytes.as_ptr(),
            keys.bytes.len(),
            keys.ends.as_ptr(),
            keys.ends.len(),
            asked.bytes.as_ptr(),
            asked.bytes.len(),
            asked.ends.as_ptr(),
            asked.ends.len(),
            &mut counts,
        );
    }
    let count = keys.count() as u64;
    assert_eq!([counts.stored, counts.found, counts.written, counts.taken, counts.again], [count; 5]);
    assert!(counts.walked == counts.back && counts.walked == counts.cloned);
}

pub fn store(work: &Work) {
    let mut counts = Counts::default();
    let (keys, asked) = (&work.keys, &work.asked);
    unsafe {
        bench_store(
            keys.bytes.as_ptr(),
            keys.bytes.len(),
            keys.ends.as_ptr(),
            keys.ends.len(),
            asked.bytes.as_ptr(),
            asked.bytes.len(),
            asked.ends.as_ptr(),
            asked.ends.len(),
            &mut counts,
        );
    }
    assert_eq!([counts.stored, counts.found, counts.taken], [keys.count() as u64; 3]);
}

type TextCalls = unsafe extern "C" fn(
    *const u8,
    usize,
    *const u64,
    usize,
    *const u8,
    usize,
    *const u64,
    usize,
    &mut Counts,
);

pub fn text_map(work: &Work) {
    texts(work, bench_text_map);
}

pub fn hinted_map(work: &Work) {
    texts(work, bench_hinted_map);
}

fn texts(work: &Work, calls: TextCalls) {
    let mut counts = Counts::default();
    let (texts, asked) = (work.keys.texts(), work.asked.texts());
    unsafe {
        calls(
            texts.bytes.as_ptr(),
            texts.bytes.len(),
            texts.ends.as_ptr(),
            texts.ends.len(),
            asked.bytes.as_ptr(),
            asked.bytes.len(),
            asked.ends.as_ptr(),
            asked.ends.len(),
            &mut counts,
        );
    }
    let count = texts.count() as u64;
    let told = [counts.stored, counts.found, counts.matched, counts.written, counts.taken, counts.again, counts.more];
    assert_eq!(told, [count; 7]);
}
