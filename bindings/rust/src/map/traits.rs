//! The traits of std that a map implements.
use std::cmp::Ordering;
use std::fmt;
use std::hash::{Hash, Hasher};

use super::*;
use crate::iter::IntoIter;
use crate::kind::{Ordered, Seeded};

impl<L: Side, R: Side, K: Seeded> Default for BijectiveMap<L, R, K> {
    fn default() -> Self {
        Self::seeded(K::seed()).unwrap_or_else(ended)
    }
}

/// The clone has the capacity and the order of the map.
impl<L: Side, R: Side, K: Kind> Clone for BijectiveMap<L, R, K> {
    fn clone(&self) -> Self {
        Self::of(Library::clone(&self.handle).unwrap_or_else(ended))
    }
}

struct Shown<L, R>(L, R);

impl<L: fmt::Debug, R: fmt::Debug> fmt::Debug for Shown<L, R> {
    fn fmt(&self, f: &mut fmt::Formatter<'_>) -> fmt::Result {
        self.0.fmt(f)?;
        f.write_str(" <> ")?;
        self.1.fmt(f)
    }
}

impl<L: Side + fmt::Debug, R: Side + fmt::Debug, K: Kind> fmt::Debug for BijectiveMap<L, R, K> {
    fn fmt(&self, f: &mut fmt::Formatter<'_>) -> fmt::Result {
        f.debug_set().entries(self.iter().map(|(left, right)| Shown(left, right))).finish()
    }
}

/// Two maps are equal if they have the same pairs, in any order.
impl<L: Side, R: Side, K: Kind> PartialEq for BijectiveMap<L, R, K> {
    fn eq(&self, other: &Self) -> bool {
        Library::equals(&self.handle, &other.handle)
    }
}

impl<L: Side, R: Side, K: Kind> Eq for BijectiveMap<L, R, K> {}

/// Compares the pairs in ascending order of their lefts.
impl<L: Side + Ord, R: Side + Ord> Ord for BijectiveMap<L, R, Ordered> {
    fn cmp(&self, other: &Self) -> Ordering {
        self.iter().cmp(other.iter())
    }
}

impl<L: Side + Ord, R: Side + Ord> PartialOrd for BijectiveMap<L, R, Ordered> {
    fn partial_cmp(&self, other: &Self) -> Option<Ordering> {
        Some(self.cmp(other))
    }
}

/// The hash is that of a `BTreeMap` with the same pairs.
impl<L: Side + Hash, R: Side + Hash> Hash for BijectiveMap<L, R, Ordered> {
    fn hash<H: Hasher>(&self, state: &mut H) {
        self.len().hash(state);
        self.iter().for_each(|pair| pair.hash(state));
    }
}

/// Inserts each pair in order, as `insert` does. A pair may overwrite earlier ones.
impl<L: Side, R: Side, K: Kind> Extend<(L, R)> for BijectiveMap<L, R, K> {
    fn extend<I: IntoIterator<Item = (L, R)>>(&mut self, pairs: I) {
        for (left, right) in pairs {
            self.insert(left, right);
        }
    }
}

/// Inserts each pair in order, as `insert` does. A pair may overwrite earlier ones.
impl<L: Side, R: Side, K: Seeded> FromIterator<(L, R)> for BijectiveMap<L, R, K> {
    fn from_iter<I: IntoIterator<Item = (L, R)>>(pairs: I) -> Self {
        let (pairs, mut map) = (pairs.into_iter(), Self::default());
        // If the iterator claims to have more pairs than there is memory for, the map grows as they come.
        let _ = map.try_reserve(pairs.size_hint().0);
        map.extend(pairs);
        map
    }
}

impl<'a, L: Side, R: Side, K: Kind> IntoIterator for &'a BijectiveMap<L, R, K> {
    type Item = (L, R);
    type IntoIter = Iter<'a, L, R, K::Order>;

    fn into_iter(self) -> Self::IntoIter {
        self.iter()
    }
}

impl<L: Side, R: Side, K: Kind> IntoIterator for BijectiveMap<L, R, K> {
    type Item = (L, R);
    type IntoIter = IntoIter<L, R, K::Order>;

    fn into_iter(self) -> Self::IntoIter {
        let len = self.len();
        IntoIter(Walk::new::<K>(self.handle, Library::row, 0, len), PhantomData)
    }
}
