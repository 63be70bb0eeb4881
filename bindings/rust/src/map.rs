//! The map.
use std::alloc::{Layout, handle_alloc_error};
use std::borrow::Borrow;
use std::hash::BuildHasher;
use std::marker::PhantomData;

use crate::iter::{Iter, LeftValues, RightValues, Walk};
use crate::kind::{Fresh, Hashed, Kind, seed_of};
use crate::library::{Handle, Library, Refusal};
use crate::side::{Holds, Key, Side, Table, left_of, lend, pair_of, right_of};
use crate::{NoMemory, NotInserted, Overwritten, Policy};

mod capacity;
mod ends;
mod json;
mod ranges;
mod traits;

/// A two-way map between lefts `L` and rights `R`. The kind `K` says whether it is a [`BiBTreeMap`](crate::BiBTreeMap),
/// a [`BiHashMap`](crate::BiHashMap) or a [`BiInsertionOrderMap`](crate::BiInsertionOrderMap).
pub struct BijectiveMap<L: Side, R: Side, K> {
    handle: Handle<Table<L, R>>,
    sides: PhantomData<(L, R, K)>,
}

/// Ends the process, as the collections of std do when memory runs out.
fn ended<T>(_: Refusal) -> T {
    handle_alloc_error(Layout::new::<[u64; 2]>())
}

impl<L: Side, R: Side, K: Fresh> BijectiveMap<L, R, K> {
    /// Makes an empty map of capacity 0.
    ///
    /// ```
    /// let seats = jetukoma::BiBTreeMap::<char, i32>::new();
    /// assert!(seats.is_empty());
    /// ```
    pub fn new() -> Self {
        Self::try_new().unwrap_or_else(|NoMemory| ended(Refusal::Memory))
    }

    /// Makes an empty map of capacity 0, or returns `NoMemory`.
    ///
    /// ```
    /// let seats = jetukoma::BiBTreeMap::<char, i32>::try_new();
    /// assert!(seats.is_ok_and(|it| it.is_empty()));
    /// ```
    pub fn try_new() -> Result<Self, NoMemory> {
        Self::seeded(K::seed()).map_err(|_| NoMemory)
    }

    /// Makes an empty map with this capacity.
    ///
    /// ```
    /// let seats = jetukoma::BiHashMap::<char, i32>::with_capacity(10);
    /// assert!(seats.capacity() >= 10);
    /// ```
    pub fn with_capacity(capacity: usize) -> Self {
        let mut map = Self::new();
        map.reserve(capacity);
        map
    }
}

impl<L: Side, R: Side, LS: BuildHasher, RS: BuildHasher> BijectiveMap<L, R, Hashed<LS, RS>> {
    /// Makes an empty map of capacity 0. The library hashes the values itself, and the two hash builders give the seed
    /// of its hashes. So a map has the same order in each run if its builders have no random part.
    ///
    /// ```
    /// use jetukoma::BiHashMap;
    /// use std::hash::{BuildHasherDefault, DefaultHasher};
    ///
    /// let fixed = BuildHasherDefault::<DefaultHasher>::new();
    /// let mut seats = BiHashMap::<char, i32, _, _>::with_hashers(fixed.clone(), fixed);
    /// seats.insert('a', 42);
    /// ```
    pub fn with_hashers(hash_builder_left: LS, hash_builder_right: RS) -> Self {
        Self::seeded(seed_of(&hash_builder_left, &hash_builder_right)).unwrap_or_else(ended)
    }

    /// Makes an empty map with this capacity, as [`with_hashers`](Self::with_hashers) does.
    ///
    /// ```
    /// use jetukoma::BiHashMap;
    /// use std::hash::RandomState;
    ///
    /// let seats = BiHashMap::<char, i32>::with_capacity_and_hashers(10, RandomState::new(), RandomState::new());
    /// assert!(seats.capacity() >= 10);
    /// ```
    pub fn with_capacity_and_hashers(capacity: usize, hash_builder_left: LS, hash_builder_right: RS) -> Self {
        let mut map = Self::with_hashers(hash_builder_left, hash_builder_right);
        map.reserve(capacity);
        map
    }
}

impl<L: Side, R: Side, K: Kind> BijectiveMap<L, R, K> {
    fn of(handle: Handle<Table<L, R>>) -> Self {
        BijectiveMap {
            handle,
            sides: PhantomData,
        }
    }

    fn seeded(seed: u64) -> Result<Self, Refusal> {
        Library::make(K::NUMBER, seed).map(Self::of)
    }

    /// Returns the number of pairs.
    ///
    /// ```
    /// let seats = jetukoma::BiMap::from_iter([('a', 1), ('b', 2)]);
    /// assert_eq!(seats.len(), 2);
    /// ```
    pub fn len(&self) -> usize {
        Library::len(&self.handle)
    }

    /// Returns whether there is no pair.
    ///
    /// ```
    /// let seats = jetukoma::BiMap::from_iter([('a', 1)]);
    /// assert!(!seats.is_empty());
    /// ```
    pub fn is_empty(&self) -> bool {
        self.len() == 0
    }

    /// Removes all pairs. The capacity does not change.
    ///
    /// ```
    /// let mut seats = jetukoma::BiMap::from_iter([('a', 1)]);
    /// seats.clear();
    /// assert!(seats.is_empty());
    /// ```
    pub fn clear(&mut self) {
        Library::clear(&self.handle)
    }

    /// Returns the right of a left, as a copy.
    ///
    /// ```
    /// let seats = jetukoma::BiMap::from_iter([("ann".to_string(), 12)]);
    /// assert_eq!(seats.get_by_left("ann"), Some(12));
    /// assert_eq!(seats.get_by_left("bob"), None);
    /// ```
    #[inline]
    pub fn get_by_left<Q: Key<Form = L::Form> + ?Sized>(&self, left: &Q) -> Option<R>
    where
        L: Borrow<Q>,
    {
        let right = lend(left, |left| Library::get_by_left(&self.handle, left));
        right.unwrap_or_else(ended).map(right_of::<L, R>)
    }

    /// Returns the left of a right, as a copy.
    ///
    /// ```
    /// let seats = jetukoma::BiMap::from_iter([("ann".to_string(), 12)]);
    /// assert_eq!(seats.get_by_right(&12), Some("ann".to_string()));
    /// assert_eq!(seats.get_by_right(&7), None);
    /// ```
    #[inline]
    pub fn get_by_right<Q: Key<Form = R::Form> + ?Sized>(&self, right: &Q) -> Option<L>
    where
        R: Borrow<Q>,
    {
        let left = lend(right, |right| Library::get_by_right(&self.handle, right));
        left.unwrap_or_else(ended).map(left_of::<L, R>)
    }

    /// Returns whether the left is contained.
    ///
    /// ```
    /// let seats = jetukoma::BiMap::from_iter([('a', 1)]);
    /// assert!(seats.contains_left(&'a') && !seats.contains_left(&'b'));
    /// ```
    #[inline]
    pub fn contains_left<Q: Key<Form = L::Form> + ?Sized>(&self, left: &Q) -> bool
    where
        L: Borrow<Q>,
    {
        lend(left, |left| Library::contains_left(&self.handle, left)).unwrap_or_else(ended)
    }

    /// Returns whether the right is contained.
    ///
    /// ```
    /// let seats = jetukoma::BiMap::from_iter([('a', 1)]);
    /// assert!(seats.contains_right(&1) && !seats.contains_right(&2));
    /// ```
    #[inline]
    pub fn contains_right<Q: Key<Form = R::Form> + ?Sized>(&self, right: &Q) -> bool
    where
        R: Borrow<Q>,
    {
        lend(right, |right| Library::contains_right(&self.handle, right)).unwrap_or_else(ended)
    }

    /// Removes the pair of a left and returns it.
    ///
    /// ```
    /// let mut seats = jetukoma::BiMap::from_iter([('a', 1), ('b', 2)]);
    /// assert_eq!(seats.remove_by_left(&'b'), Some(('b', 2)));
    /// assert_eq!(seats.remove_by_left(&'b'), None);
    /// ```
    #[inline]
    pub fn remove_by_left<Q: Key<Form = L::Form> + ?Sized>(&mut self, left: &Q) -> Option<(L, R)>
    where
        L: Borrow<Q>,
    {
        let pair = lend(left, |left| Library::remove_by_left(&self.handle, left));
        pair.unwrap_or_else(ended).map(pair_of::<L, R>)
    }

    /// Removes the pair of a right and returns it.
    ///
    /// ```
    /// let mut seats = jetukoma::BiMap::from_iter([('a', 1), ('b', 2)]);
    /// assert_eq!(seats.remove_by_right(&2), Some(('b', 2)));
    /// assert_eq!(seats.remove_by_right(&2), None);
    /// ```
    #[inline]
    pub fn remove_by_right<Q: Key<Form = R::Form> + ?Sized>(&mut self, right: &Q) -> Option<(L, R)>
    where
        R: Borrow<Q>,
    {
        let pair = lend(right, |right| Library::remove_by_right(&self.handle, right));
        pair.unwrap_or_else(ended).map(pair_of::<L, R>)
    }

    /// Inserts a pair and returns the pairs that it overwrote.
    ///
    /// ```
    /// use jetukoma::Overwritten;
    ///
    /// let mut seats = jetukoma::BiMap::from_iter([('a', 1), ('b', 2)]);
    /// assert_eq!(seats.insert('a', 2), Overwritten::Both(('a', 1), ('b', 2)));
    /// assert_eq!(seats.len(), 1);
    /// ```
    #[inline]
    pub fn insert(&mut self, left: L, right: R) -> Overwritten<L, R> {
        self.put(&left, &right, Policy::OVERWRITE).unwrap_or_else(ended)
    }

    /// Does what [`insert`](Self::insert) does, or returns the pair if there is no memory.
    ///
    /// ```
    /// use jetukoma::Overwritten;
    ///
    /// let mut seats = jetukoma::BiMap::from_iter([('a', 1)]);
    /// assert_eq!(seats.try_insert('a', 2), Ok(Overwritten::Left('a', 1)));
    /// ```
    #[inline]
    pub fn try_insert(&mut self, left: L, right: R) -> Result<Overwritten<L, R>, NotInserted<L, R>> {
        self.try_insert_with(left, right, Policy::OVERWRITE)
    }

    /// Inserts a pair if neither value is contained. Otherwise it returns the pair in an `Err`.
    ///
    /// ```
    /// let mut seats = jetukoma::BiMap::from_iter([('a', 1)]);
    /// assert_eq!(seats.insert_no_overwrite('b', 2), Ok(()));
    /// assert_eq!(seats.insert_no_overwrite('c', 2), Err(('c', 2)));
    /// ```
    #[inline]
    pub fn insert_no_overwrite(&mut self, left: L, right: R) -> Result<(), (L, R)> {
        self.insert_with(left, right, Policy::REFUSE).map(drop)
    }

    /// Does what [`insert_no_overwrite`](Self::insert_no_overwrite) does, or returns the pair if there is no memory.
    ///
    /// ```
    /// use jetukoma::NotInserted;
    ///
    /// let mut seats = jetukoma::BiMap::from_iter([('a', 1)]);
    /// assert_eq!(seats.try_insert_no_overwrite('a', 2), Err(NotInserted::Occupied('a', 2)));
    /// ```
    #[inline]
    pub fn try_insert_no_overwrite(&mut self, left: L, right: R) -> Result<(), NotInserted<L, R>> {
        self.try_insert_with(left, right, Policy::REFUSE).map(drop)
    }

    /// Inserts a pair under a policy. If the policy refuses the pair, it returns the pair in an `Err`.
    ///
    /// ```
    /// use jetukoma::{OnHeld, Overwritten, Policy};
    ///
    /// let move_only = Policy { left: OnHeld::Overwrite, right: OnHeld::Refuse };
    /// let mut seats = jetukoma::BiMap::from_iter([('a', 1), ('b', 2)]);
    /// assert_eq!(seats.insert_with('a', 2, move_only), Err(('a', 2)));
    /// assert_eq!(seats.insert_with('a', 3, move_only), Ok(Overwritten::Left('a', 1)));
    /// ```
    #[inline]
    pub fn insert_with(&mut self, left: L, right: R, policy: Policy) -> Result<Overwritten<L, R>, (L, R)> {
        self.try_insert_with(left, right, policy).map_err(|why| match why {
            NotInserted::Occupied(left, right) => (left, right),
            NotInserted::Memory(..) => ended(Refusal::Memory),
        })
    }

    /// Does what [`insert_with`](Self::insert_with) does, or returns the pair if there is no memory.
    ///
    /// ```
    /// use jetukoma::{NotInserted, OnHeld, Policy};
    ///
    /// let keep = Policy { left: OnHeld::Refuse, right: OnHeld::Overwrite };
    /// let mut seats = jetukoma::BiMap::from_iter([('a', 1)]);
    /// assert_eq!(seats.try_insert_with('a', 2, keep), Err(NotInserted::Occupied('a', 2)));
    /// ```
    #[inline]
    pub fn try_insert_with(&mut self, left: L, right: R, policy: Policy) -> Result<Overwritten<L, R>, NotInserted<L, R>> {
        match self.put(&left, &right, policy) {
            Ok(overwritten) => Ok(overwritten),
            Err(Refusal::Held) => Err(NotInserted::Occupied(left, right)),
            Err(Refusal::Memory) => Err(NotInserted::Memory(left, right)),
        }
    }

    #[inline]
    fn put(&mut self, left: &L, right: &R, policy: Policy) -> Result<Overwritten<L, R>, Refusal> {
        let right = right.form();
        let told = lend(left, |left| {
            Holds::lend(right, |right| Library::insert_with(&self.handle, left, right, policy))
        });
        told.map(|it| it.map(pair_of::<L, R>))
    }

    fn walk(&self) -> Walk<&Handle<Table<L, R>>, Table<L, R>> {
        Walk::new::<K>(&self.handle, Library::row, 0, self.len())
    }

    /// Returns an iterator over the pairs. A [`BiBTreeMap`](crate::BiBTreeMap) has them in ascending order of their
    /// lefts, and a [`BiInsertionOrderMap`](crate::BiInsertionOrderMap) in insertion order.
    ///
    /// ```
    /// let seats = jetukoma::BiBTreeMap::from_iter([('b', 1), ('a', 2)]);
    /// assert_eq!(seats.iter().collect::<Vec<_>>(), [('a', 2), ('b', 1)]);
    /// assert_eq!(seats.iter().next_back(), Some(('b', 1)));
    /// ```
    pub fn iter(&self) -> Iter<'_, L, R, K::Order> {
        Iter(self.walk(), PhantomData)
    }

    /// Returns an iterator over the lefts, in the order of [`iter`](Self::iter).
    ///
    /// ```
    /// let seats = jetukoma::BiBTreeMap::from_iter([('b', 1), ('a', 2)]);
    /// assert_eq!(seats.left_values().collect::<String>(), "ab");
    /// ```
    pub fn left_values(&self) -> LeftValues<'_, L, R, K::Order> {
        LeftValues(self.walk(), PhantomData)
    }

    /// Returns an iterator over the rights. A [`BiBTreeMap`](crate::BiBTreeMap) has them in ascending order. The other
    /// kinds have them in the order of [`iter`](Self::iter).
    ///
    /// ```
    /// let seats = jetukoma::BiBTreeMap::from_iter([('a', 2), ('b', 1)]);
    /// assert_eq!(seats.right_values().collect::<Vec<_>>(), [1, 2]);
    /// ```
    pub fn right_values(&self) -> RightValues<'_, L, R, K::Order> {
        let row = if K::ORDERED { Library::row_by_right } else { Library::row };
        RightValues(Walk::new::<K>(&self.handle, row, 0, self.len()), PhantomData)
    }

    /// Keeps the pairs for which `f` returns `true`. It calls `f` once for each pair, in the order of
    /// [`iter`](Self::iter). If `f` panics, the map keeps all pairs.
    ///
    /// ```
    /// let mut seats = jetukoma::BiMap::from_iter([('a', 1), ('b', 2), ('c', 3)]);
    /// seats.retain(|&left, &right| left != 'a' && right < 3);
    /// assert_eq!(seats.iter().collect::<Vec<_>>(), [('b', 2)]);
    /// ```
    pub fn retain<F: FnMut(&L, &R) -> bool>(&mut self, mut f: F) {
        let gone: Vec<L> = self.iter().filter(|(left, right)| !f(left, right)).map(|(left, _)| left).collect();
        for left in &gone {
            lend(left, |left| Library::remove_by_left(&self.handle, left)).unwrap_or_else(ended);
        }
    }
}
