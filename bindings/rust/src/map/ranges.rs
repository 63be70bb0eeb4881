//! The orders of a map, and its ranges.
use std::ops::{Bound, RangeBounds};

use super::*;
use crate::btree::{LeftRange, RightRange};
use crate::kind::Ordered;

/// Returns the positions between which the values are within the bounds. There are `len` values. `below` returns how
/// many of them are less than a value, and if its flag says so, it counts this value too.
fn within<T: ?Sized>(range: impl RangeBounds<T>, len: usize, below: impl Fn(&T, bool) -> usize) -> (usize, usize) {
    let start = match range.start_bound() {
        Bound::Included(it) => below(it, false),
        Bound::Excluded(it) => below(it, true),
        Bound::Unbounded => 0,
    };
    let end = match range.end_bound() {
        Bound::Included(it) => below(it, true),
        Bound::Excluded(it) => below(it, false),
        Bound::Unbounded => len,
    };
    (start, end.max(start))
}

impl<L: Side, R: Side> BijectiveMap<L, R, Ordered> {
    /// Returns how many lefts are less than this one, which need not be contained.
    ///
    /// ```
    /// let seats = jetukoma::BiBTreeMap::from_iter([(10, 'a'), (20, 'b')]);
    /// assert_eq!([9, 10, 11, 21].map(|left| seats.left_rank(&left)), [0, 0, 1, 2]);
    /// ```
    pub fn left_rank<Q: Key<Form = L::Form> + ?Sized>(&self, left: &Q) -> usize
    where
        L: Borrow<Q>,
    {
        lend(left, |left| Library::left_rank(&self.handle, left)).unwrap_or_else(ended)
    }

    /// Returns how many rights are less than this one, which need not be contained.
    ///
    /// ```
    /// let seats = jetukoma::BiBTreeMap::from_iter([('a', 20), ('b', 10)]);
    /// assert_eq!([9, 10, 11, 21].map(|right| seats.right_rank(&right)), [0, 0, 1, 2]);
    /// ```
    pub fn right_rank<Q: Key<Form = R::Form> + ?Sized>(&self, right: &Q) -> usize
    where
        R: Borrow<Q>,
    {
        lend(right, |right| Library::right_rank(&self.handle, right)).unwrap_or_else(ended)
    }

    /// Returns an iterator over the pairs whose left is within the bounds, in ascending order of their lefts. If the
    /// bounds run backwards, there are none.
    ///
    /// ```
    /// let seats = jetukoma::BiBTreeMap::from_iter([("ann".to_string(), 1), ("bob".to_string(), 2)]);
    /// assert_eq!(seats.left_range('a'.to_string()..'b'.to_string()).map(|it| it.1).collect::<Vec<_>>(), [1]);
    /// assert_eq!(seats.left_range::<str, _>(..).len(), 2);
    /// ```
    pub fn left_range<T, A>(&self, range: A) -> LeftRange<'_, L, R>
    where
        L: Borrow<T>,
        A: RangeBounds<T>,
        T: Key<Form = L::Form> + ?Sized,
    {
        let below = |left: &T, and_itself| self.left_rank(left) + usize::from(and_itself && self.contains_left(left));
        let (start, end) = within(range, self.len(), below);
        Iter(Walk::new::<Ordered>(&self.handle, Library::row, start, end), PhantomData)
    }

    /// Returns an iterator over the pairs whose right is within the bounds, in ascending order of their rights. If the
    /// bounds run backwards, there are none.
    ///
    /// ```
    /// let seats = jetukoma::BiBTreeMap::from_iter([('a', 4), ('b', 3), ('c', 2), ('d', 1)]);
    /// assert_eq!(seats.right_range(2..4).collect::<Vec<_>>(), [('c', 2), ('b', 3)]);
    /// ```
    pub fn right_range<T, A>(&self, range: A) -> RightRange<'_, L, R>
    where
        R: Borrow<T>,
        A: RangeBounds<T>,
        T: Key<Form = R::Form> + ?Sized,
    {
        let below = |right: &T, and_itself| self.right_rank(right) + usize::from(and_itself && self.contains_right(right));
        let (start, end) = within(range, self.len(), below);
        Iter(Walk::new::<Ordered>(&self.handle, Library::row_by_right, start, end), PhantomData)
    }
}
