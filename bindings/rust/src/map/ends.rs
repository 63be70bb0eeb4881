//! The pairs at the two ends of a map.
use super::*;
use crate::kind::{InsertionOrder, Ordered};

impl<L: Side, R: Side> BijectiveMap<L, R, Ordered> {
    /// Removes the pair of the least left and returns it.
    ///
    /// ```
    /// let mut seats = jetukoma::BiBTreeMap::from_iter([('b', 1), ('a', 2)]);
    /// assert_eq!(seats.pop_first_by_left(), Some(('a', 2)));
    /// ```
    pub fn pop_first_by_left(&mut self) -> Option<(L, R)> {
        Library::pop_first(&self.handle).map(pair_of::<L, R>)
    }

    /// Removes the pair of the greatest left and returns it.
    ///
    /// ```
    /// let mut seats = jetukoma::BiBTreeMap::from_iter([('b', 1), ('a', 2)]);
    /// assert_eq!(seats.pop_last_by_left(), Some(('b', 1)));
    /// ```
    pub fn pop_last_by_left(&mut self) -> Option<(L, R)> {
        Library::pop_last(&self.handle).map(pair_of::<L, R>)
    }
}

impl<L: Side, R: Side> BijectiveMap<L, R, InsertionOrder> {
    /// Removes the first pair in insertion order and returns it.
    ///
    /// ```
    /// let mut seats = jetukoma::BiInsertionOrderMap::from_iter([('b', 1), ('a', 2)]);
    /// assert_eq!(seats.pop_first(), Some(('b', 1)));
    /// ```
    pub fn pop_first(&mut self) -> Option<(L, R)> {
        Library::pop_first(&self.handle).map(pair_of::<L, R>)
    }

    /// Removes the last pair in insertion order and returns it.
    ///
    /// ```
    /// let mut seats = jetukoma::BiInsertionOrderMap::from_iter([('b', 1), ('a', 2)]);
    /// assert_eq!(seats.pop_last(), Some(('a', 2)));
    /// ```
    pub fn pop_last(&mut self) -> Option<(L, R)> {
        Library::pop_last(&self.handle).map(pair_of::<L, R>)
    }

    /// Moves the pair of a left to the front of the insertion order. Returns whether the left is contained.
    ///
    /// ```
    /// let mut seats = jetukoma::BiInsertionOrderMap::from_iter([('a', 1), ('b', 2), ('c', 3)]);
    /// assert!(seats.to_front(&'c') && !seats.to_front(&'d'));
    /// assert_eq!(seats.left_values().collect::<String>(), "cab");
    /// ```
    pub fn to_front<Q: Key<Form = L::Form> + ?Sized>(&mut self, left: &Q) -> bool
    where
        L: Borrow<Q>,
    {
        lend(left, |left| Library::to_front(&self.handle, left)).unwrap_or_else(ended)
    }

    /// Moves the pair of a left to the end of the insertion order. Returns whether the left is contained.
    ///
    /// ```
    /// let mut seats = jetukoma::BiInsertionOrderMap::from_iter([('a', 1), ('b', 2), ('c', 3)]);
    /// assert!(seats.to_back(&'a') && !seats.to_back(&'d'));
    /// assert_eq!(seats.left_values().collect::<String>(), "bca");
    /// ```
    pub fn to_back<Q: Key<Form = L::Form> + ?Sized>(&mut self, left: &Q) -> bool
    where
        L: Borrow<Q>,
    {
        lend(left, |left| Library::to_back(&self.handle, left)).unwrap_or_else(ended)
    }
}
