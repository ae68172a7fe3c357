//! An ordered map of byte strings to values of any type, with prefixes, ranges and longest-prefix matches. What each call of
//! the library below it does is proved; this crate, which is not proved, makes the calls as their rules ask, and keeps the
//! values. It depends on no other crate.
//!
//! ```
//! use vokujin::Map;
//!
//! let mut routes = Map::from([("10", "east"), ("10.1", "west"), ("192.168", "home")]);
//! assert_eq!(routes.get("10.1"), Some(&"west"));
//! assert_eq!(routes.longest_match("10.1.7.9"), Some((4, &"west")));
//! assert_eq!(routes.prefix("10").count(), 2);
//! assert_eq!(routes.insert("10.1", "north"), Some("west"));
//! assert_eq!(routes.iter().next(), Some((b"10".to_vec(), &"east")));
//! assert_eq!(format!("{routes:?}"), r#"{"10": "east", "10.1": "north", "192.168": "home"}"#);
//! ```
//!
//! A map may be sent to another thread, and many threads may read one at once, if its values allow it. A [`Frozen`] map has many
//! owners. A map whose values belong to one thread stays there:
//!
//! ```compile_fail,E0277
//! fn is_send(_: impl Send) {}
//! is_send(vokujin::Map::from([("a", std::rc::Rc::new(1))]));
//! ```

#![warn(missing_docs)]

use std::alloc::{Layout, handle_alloc_error};
use std::fmt;

#[rustfmt::skip] // tools/declarations writes it
mod calls;
mod entry;
mod filling;
mod frozen;
mod iter;
mod map;
mod range;
mod slots;
mod traits;
mod tree;

pub use entry::{Entry, OccupiedEntry, VacantEntry};
pub use frozen::Frozen;
pub use iter::{IntoIter, IntoKeys, IntoValues, Iter, IterMut, Keys, Matches, Values, ValuesMut};
pub use map::Map;
pub use range::KeyRange;

/// An allocation failed. The map is unchanged.
#[derive(Clone, Copy, Debug, PartialEq, Eq)]
pub struct OutOfMemory;

impl fmt::Display for OutOfMemory {
    fn fmt(&self, f: &mut fmt::Formatter<'_>) -> fmt::Result {
        f.write_str("memory allocation failed")
    }
}

impl std::error::Error for OutOfMemory {}

fn or_abort<T>(result: Result<T, OutOfMemory>) -> T {
    result.unwrap_or_else(|OutOfMemory| handle_alloc_error(Layout::new::<u64>()))
}
