//! Undo.
use std::ops::Deref;

use crate::kind::Kind;
use crate::side::{Key, Side};
use crate::{BijectiveMap, Overwritten, Policy};

/// A change that an [`Undoable`] has recorded.
#[derive(Clone, Copy, Debug, Eq, Hash, PartialEq)]
pub enum Entry<L, R> {
    /// The pair of this left was inserted, and it overwrote these pairs.
    Inserted(L, Overwritten<L, R>),
    /// This pair was removed.
    Removed(L, R),
}

/// A map that records its changes, so that it can go back to an earlier state. Each method of the map that changes
/// nothing is a method of an `Undoable` too.
///
/// ```
/// use jetukoma::{BiBTreeMap, Undoable};
///
/// let mut seats = Undoable::new(BiBTreeMap::from_iter([('a', 12), ('b', 7)]));
/// let mark = seats.mark();
/// seats.insert('c', 12);
/// seats.remove_by_left(&'b');
/// assert_eq!(format!("{:?}", *seats), "{'c' <> 12}");
/// seats.back_to(mark);
/// assert_eq!(format!("{:?}", *seats), "{'a' <> 12, 'b' <> 7}");
/// ```
pub struct Undoable<L: Side, R: Side, K> {
    map: BijectiveMap<L, R, K>,
    record: Vec<Entry<L, R>>,
}

impl<L: Side, R: Side, K> Deref for Undoable<L, R, K> {
    type Target = BijectiveMap<L, R, K>;
    fn deref(&self) -> &Self::Target {
        &self.map
    }
}

impl<L: Side + Clone, R: Side + Clone, K: Kind> Undoable<L, R, K> {
    /// Begins a record for this map.
    ///
    /// ```
    /// let seats = jetukoma::Undoable::new(jetukoma::BiBTreeMap::from_iter([('a', 12)]));
    /// assert_eq!((seats.len(), seats.mark()), (1, 0));
    /// ```
    pub fn new(map: BijectiveMap<L, R, K>) -> Self {
        let record = Vec::new();
        Undoable { map, record }
    }

    /// Returns the map, and drops the record.
    ///
    /// ```
    /// let mut seats = jetukoma::Undoable::new(jetukoma::BiBTreeMap::new());
    /// seats.insert('a', 12);
    /// assert_eq!(seats.into_inner().get_by_left(&'a'), Some(12));
    /// ```
    pub fn into_inner(self) -> BijectiveMap<L, R, K> {
        self.map
    }

    /// Inserts a pair and returns the pairs that it overwrote.
    ///
    /// ```
    /// let mut seats = jetukoma::Undoable::new(jetukoma::BiBTreeMap::new());
    /// assert!(!seats.insert('a', 12).did_overwrite());
    /// ```
    pub fn insert(&mut self, left: L, right: R) -> Overwritten<L, R> {
        let Ok(overwritten) = self.insert_with(left, right, Policy::OVERWRITE) else {
            unreachable!("it refuses none")
        };
        overwritten
    }

    /// Inserts a pair under a policy. If the policy refuses the pair, it returns the pair in an `Err`, and records
    /// nothing.
    ///
    /// ```
    /// use jetukoma::{OnHeld, Policy};
    ///
    /// let mut seats = jetukoma::Undoable::new(jetukoma::BiBTreeMap::from_iter([('a', 12)]));
    /// let refuse = Policy { left: OnHeld::Refuse, right: OnHeld::Refuse };
    /// assert_eq!(seats.insert_with('b', 12, refuse), Err(('b', 12)));
    /// assert_eq!(seats.mark(), 0);
    /// ```
    pub fn insert_with(&mut self, left: L, right: R, policy: Policy) -> Result<Overwritten<L, R>, (L, R)> {
        let inserted = left.clone();
        let overwritten = self.map.insert_with(left, right, policy)?;
        self.record.push(Entry::Inserted(inserted, overwritten.clone()));
        Ok(overwritten)
    }

    /// Removes the pair of a left and returns it.
    ///
    /// ```
    /// let mut seats = jetukoma::Undoable::new(jetukoma::BiBTreeMap::from_iter([('a', 12)]));
    /// assert_eq!(seats.remove_by_left(&'a'), Some(('a', 12)));
    /// ```
    pub fn remove_by_left<Q: Key<Form = L::Form> + ?Sized>(&mut self, left: &Q) -> Option<(L, R)>
    where
        L: std::borrow::Borrow<Q>,
    {
        let pair = self.map.remove_by_left(left)?;
        Some(self.removed(pair))
    }

    /// Removes the pair of a right and returns it.
    ///
    /// ```
    /// let mut seats = jetukoma::Undoable::new(jetukoma::BiBTreeMap::from_iter([('a', 12)]));
    /// assert_eq!(seats.remove_by_right(&12), Some(('a', 12)));
    /// ```
    pub fn remove_by_right<Q: Key<Form = R::Form> + ?Sized>(&mut self, right: &Q) -> Option<(L, R)>
    where
        R: std::borrow::Borrow<Q>,
    {
        let pair = self.map.remove_by_right(right)?;
        Some(self.removed(pair))
    }

    fn removed(&mut self, pair: (L, R)) -> (L, R) {
        let (left, right) = pair.clone();
        self.record.push(Entry::Removed(left, right));
        pair
    }

    /// Returns the mark of the present state, which is the number of recorded changes.
    ///
    /// ```
    /// let mut seats = jetukoma::Undoable::new(jetukoma::BiBTreeMap::new());
    /// seats.insert('a', 12);
    /// assert_eq!(seats.mark(), 1);
    /// ```
    pub fn mark(&self) -> usize {
        self.record.len()
    }

    /// Returns the changes that were recorded since a mark.
    ///
    /// # Panics
    /// Panics if the mark is above the number of recorded changes.
    ///
    /// ```
    /// use jetukoma::{Entry, Overwritten};
    ///
    /// let mut seats = jetukoma::Undoable::new(jetukoma::BiBTreeMap::new());
    /// seats.insert('a', 12);
    /// seats.insert('a', 7);
    /// assert_eq!(seats.changes_since(1), [Entry::Inserted('a', Overwritten::Left('a', 12))]);
    /// ```
    pub fn changes_since(&self, mark: usize) -> &[Entry<L, R>] {
        &self.record[mark..]
    }

    /// Restores the pairs of the state of a mark. The positions in a
    /// [`BiInsertionOrderMap`](crate::BiInsertionOrderMap) may differ. It ends all later marks: do not use them again.
    ///
    /// # Panics
    /// Panics if the mark is above the number of recorded changes.
    ///
    /// ```
    /// let mut seats = jetukoma::Undoable::new(jetukoma::BiBTreeMap::from_iter([('a', 12), ('b', 7)]));
    /// seats.insert('a', 7);
    /// seats.back_to(0);
    /// assert_eq!(seats.get_by_left(&'b'), Some(7));
    /// ```
    pub fn back_to(&mut self, mark: usize) {
        assert!(
            mark <= self.mark(),
            "the mark {mark} is above the number of changes, {}",
            self.mark()
        );
        while self.record.len() > mark
            && let Some(entry) = self.record.pop()
        {
            match entry {
                Entry::Inserted(left, overwritten) => {
                    self.map.remove_by_left(&left);
                    self.map.extend(overwritten.pairs());
                }
                Entry::Removed(left, right) => self.map.extend([(left, right)]),
            }
        }
    }

    /// Drops the record, and ends all marks.
    ///
    /// ```
    /// let mut seats = jetukoma::Undoable::new(jetukoma::BiBTreeMap::new());
    /// seats.insert('a', 12);
    /// seats.forget();
    /// assert_eq!((seats.mark(), seats.len()), (0, 1));
    /// ```
    pub fn forget(&mut self) {
        self.record.clear();
    }
}
