//! Ranges of keys.

use std::ops::{Bound, Range, RangeBounds, RangeFrom, RangeFull, RangeInclusive, RangeTo, RangeToInclusive};

use crate::tree::Bounds;

/// A range of keys: std's ranges of whatever has bytes, and pairs of bounds.
///
/// ```
/// use std::ops::Bound;
///
/// let map = vokujin::Map::from([("a", 1), ("b", 2), ("c", 3)]);
/// assert!(map.range("a".."c").map(|(_, value)| *value).eq([1, 2]));
/// assert!(map.range(..=b"b").rev().map(|(_, value)| *value).eq([2, 1]));
/// assert_eq!(map.range((Bound::Excluded("a"), Bound::Unbounded)).count(), 2);
/// assert_eq!(map.range(String::from("c")..).count(), 1);
/// ```
pub trait KeyRange {
    /// Returns the bounds of the range.
    fn key_bounds(&self) -> (Bound<&[u8]>, Bound<&[u8]>);
}

fn bytes_of<'a, K: AsRef<[u8]> + 'a>(range: &'a impl RangeBounds<K>) -> (Bound<&'a [u8]>, Bound<&'a [u8]>) {
    (range.start_bound().map(K::as_ref), range.end_bound().map(K::as_ref))
}

macro_rules! key_ranges {
    ($($range:ty),*) => {
        $(impl<K: AsRef<[u8]>> KeyRange for $range {
            fn key_bounds(&self) -> (Bound<&[u8]>, Bound<&[u8]>) {
                bytes_of::<K>(self)
            }
        })*
    };
}

key_ranges!(Range<K>, RangeFrom<K>, RangeTo<K>, RangeInclusive<K>, RangeToInclusive<K>, (Bound<K>, Bound<K>));

impl KeyRange for RangeFull {
    fn key_bounds(&self) -> (Bound<&[u8]>, Bound<&[u8]>) {
        (Bound::Unbounded, Bound::Unbounded)
    }
}

pub(crate) fn bounds(range: impl KeyRange) -> Bounds {
    let (from, to) = range.key_bounds();
    Bounds { from: from.map(<[u8]>::to_vec), to: to.map(<[u8]>::to_vec) }
}
