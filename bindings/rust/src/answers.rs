//! What the calls of a map take and return.

/// The pairs that an insertion overwrote.
///
/// ```
/// use jetukoma::{BiMap, Overwritten};
///
/// let mut seats = BiMap::from_iter([('a', 1), ('b', 2)]);
/// assert_eq!(seats.insert('c', 3), Overwritten::Neither);
/// assert_eq!(seats.insert('c', 3), Overwritten::Pair('c', 3));
/// assert_eq!(seats.insert('c', 4), Overwritten::Left('c', 3));
/// assert_eq!(seats.insert('d', 4), Overwritten::Right('c', 4));
/// assert_eq!(seats.insert('a', 2), Overwritten::Both(('a', 1), ('b', 2)));
/// ```
#[derive(Clone, Copy, Debug, Eq, Hash, PartialEq)]
pub enum Overwritten<L, R> {
    /// Neither value was contained.
    Neither,
    /// The left was contained, in this pair.
    Left(L, R),
    /// The right was contained, in this pair.
    Right(L, R),
    /// Both values were contained, in this one pair.
    Pair(L, R),
    /// Both values were contained: the left in the first pair, and the right in the second pair.
    Both((L, R), (L, R)),
}

impl<L, R> Overwritten<L, R> {
    /// Returns whether a pair was overwritten.
    ///
    /// ```
    /// let mut seats = jetukoma::BiMap::new();
    /// assert!(!seats.insert('a', 1).did_overwrite());
    /// assert!(seats.insert('a', 2).did_overwrite());
    /// ```
    pub fn did_overwrite(&self) -> bool {
        !matches!(self, Overwritten::Neither)
    }

    /// Returns the overwritten pairs, that of the left first.
    pub(crate) fn pairs(self) -> impl Iterator<Item = (L, R)> {
        use Overwritten::*;
        let (first, second) = match self {
            Neither => (None, None),
            Left(left, right) | Right(left, right) | Pair(left, right) => (Some((left, right)), None),
            Both(first, second) => (Some(first), Some(second)),
        };
        first.into_iter().chain(second)
    }

    #[inline]
    pub(crate) fn map<M, S>(self, to: impl Fn((L, R)) -> (M, S)) -> Overwritten<M, S> {
        use Overwritten::*;
        let one = |left, right, into: fn(M, S) -> Overwritten<M, S>| {
            let (left, right) = to((left, right));
            into(left, right)
        };
        match self {
            Neither => Neither,
            Left(left, right) => one(left, right, Left),
            Right(left, right) => one(left, right, Right),
            Pair(left, right) => one(left, right, Pair),
            Both(first, second) => Both(to(first), to(second)),
        }
    }
}

/// What an insertion does if the map contains a value already.
#[derive(Clone, Copy, Debug, Eq, PartialEq)]
pub enum OnHeld {
    /// It overwrites the pair that has the value.
    Overwrite,
    /// The insertion is refused.
    Refuse,
}

/// What an insertion does if the map contains its left, and if the map contains its right. See
/// [`insert_with`](crate::BijectiveMap::insert_with).
#[derive(Clone, Copy, Debug, Eq, PartialEq)]
pub struct Policy {
    /// If the map contains the left.
    pub left: OnHeld,
    /// If the map contains the right.
    pub right: OnHeld,
}

impl Policy {
    pub(crate) const OVERWRITE: Policy = Policy {
        left: OnHeld::Overwrite,
        right: OnHeld::Overwrite,
    };
    pub(crate) const REFUSE: Policy = Policy {
        left: OnHeld::Refuse,
        right: OnHeld::Refuse,
    };

    pub(crate) fn flags(self) -> [u8; 2] {
        [self.left, self.right].map(|it| (it == OnHeld::Refuse) as u8)
    }
}

/// Why a pair was not inserted. It contains the pair, and the map has not changed.
#[derive(Clone, Copy, Debug, Eq, Hash, PartialEq)]
pub enum NotInserted<L, R> {
    /// The map contains one of the values, and it must not be overwritten.
    Occupied(L, R),
    /// There was no memory.
    Memory(L, R),
}

/// There was no memory, and nothing has changed.
#[derive(Clone, Copy, Debug, Eq, Hash, PartialEq)]
pub struct NoMemory;

impl<L, R> std::fmt::Display for NotInserted<L, R> {
    fn fmt(&self, f: &mut std::fmt::Formatter<'_>) -> std::fmt::Result {
        f.write_str(match self {
            NotInserted::Occupied(..) => "the left or the right is already contained",
            NotInserted::Memory(..) => "no memory for a pair",
        })
    }
}

impl std::fmt::Display for NoMemory {
    fn fmt(&self, f: &mut std::fmt::Formatter<'_>) -> std::fmt::Result {
        f.write_str("no memory")
    }
}

impl<L: std::fmt::Debug, R: std::fmt::Debug> std::error::Error for NotInserted<L, R> {}
impl std::error::Error for NoMemory {}
