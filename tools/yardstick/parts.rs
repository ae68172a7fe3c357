//! The parts of the work on a map: where each begins, how long it took, and what was in use when it ended.

use crate::heap;
use std::hint::black_box;
use std::ptr::addr_of_mut;

pub const NAMES: [&str; 24] = [
    "insert",
    "get",
    "get_mut",
    "longest_match",
    "walk",
    "back",
    "below",
    "clone",
    "walk_clone",
    "drop_clone",
    "remove",
    "again",
    "clear",
    "insert_over",
    "check",
    "compact",
    "walk_compact",
    "store_insert",
    "store_get",
    "store_remove",
    "range",
    "count",
    "shorter",
    "rest",
];

pub const INSERT: usize = 0;
pub const GET: usize = 1;
pub const GET_MUT: usize = 2;
pub const MATCH: usize = 3;
pub const WALK: usize = 4;
pub const BACK: usize = 5;
pub const BELOW: usize = 6;
pub const CLONE: usize = 7;
pub const WALK_CLONE: usize = 8;
pub const DROP_CLONE: usize = 9;
pub const REMOVE: usize = 10;
pub const AGAIN: usize = 11;
pub const CLEAR: usize = 12;
pub const RANGE: usize = 20;
pub const COUNT: usize = 21;
pub const SHORTER: usize = 22;
pub const REST: usize = 23;

/// What is written between two parts where caches are to be cold.
const EVICTED: usize = 96 << 20;

/// How long a part took, in seconds of this thread's processor time, and what was in use at its end.
#[derive(Clone, Copy)]
pub struct Noted {
    pub seconds: f64,
    pub bytes: usize,
}

struct State {
    part: Option<usize>,
    at: f64,
    noted: [Option<Noted>; NAMES.len()],
    order: [usize; NAMES.len() + 1],
    begun: usize,
    last: usize,
    junk: Vec<u64>,
}

static mut STATE: State = State {
    part: None,
    at: 0.0,
    noted: [None; NAMES.len()],
    order: [0; NAMES.len() + 1],
    begun: 0,
    last: usize::MAX,
    junk: Vec::new(),
};

// One thread alone runs here.
fn state() -> &'static mut State {
    unsafe { &mut *addr_of_mut!(STATE) }
}

#[repr(C)]
struct Moment {
    seconds: i64,
    nanoseconds: i64,
}

unsafe extern "C" {
    fn clock_gettime(clock: i32, moment: &mut Moment) -> i32;
}

fn now() -> f64 {
    let mut moment = Moment {
        seconds: 0,
        nanoseconds: 0,
    };
    unsafe { clock_gettime(3, &mut moment) };
    moment.seconds as f64 + moment.nanoseconds as f64 * 1e-9
}

/// From now on caches are cold when a part begins.
pub fn make_cold() {
    state().junk = vec![1; EVICTED / 8];
}

/// From now on the program ends when so many parts have ended, and tells which they were.
pub fn end_after(count: usize) {
    state().last = count;
}

/// Forgets all parts.
pub fn start() {
    let state = state();
    (state.part, state.begun) = (None, 0);
    state.noted = [None; NAMES.len()];
}

fn end_part(now: f64) {
    let state = state();
    if let Some(part) = state.part {
        let (seconds, bytes) = (now - state.at, heap::in_use());
        state.noted[part] = Some(Noted { seconds, bytes });
    }
}

/// Ends a part, and begins the next. Callgrind writes its counts when this is entered.
#[inline(never)]
#[unsafe(no_mangle)]
pub extern "C" fn bench_begin(part: usize) {
    end_part(now());
    let state = state();
    if state.begun == state.last {
        order().iter().for_each(|it| println!("ended {}", NAMES[*it]));
        std::process::exit(0);
    }
    state.order[state.begun] = part;
    state.begun += 1;
    state.part = Some(part);
    for word in state.junk.iter_mut().step_by(8) {
        *word = word.wrapping_add(1);
    }
    black_box(&state.junk);
    state.at = now();
}

pub fn begin(part: usize) {
    bench_begin(part);
}

/// Ends the last part. Returns what was noted of each.
pub fn finish() -> [Option<Noted>; NAMES.len()] {
    begin(REST);
    state().noted
}

/// The parts in the order in which they began.
pub fn order() -> &'static [usize] {
    let state = state();
    &state.order[..state.begun]
}
