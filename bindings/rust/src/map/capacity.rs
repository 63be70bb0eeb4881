//! The memory of a map.
use super::*;

impl<L: Side, R: Side, K: Kind> BijectiveMap<L, R, K> {
    /// Returns the capacity, which is the number of pairs for which there is memory.
    ///
    /// ```
    /// let seats = jetukoma::BiMap::<char, i32>::with_capacity(10);
    /// assert!(seats.capacity() >= 10);
    /// ```
    pub fn capacity(&self) -> usize {
        Library::capacity(&self.handle)
    }

    /// Makes the capacity at least the number of pairs plus `additional`.
    ///
    /// ```
    /// let mut seats = jetukoma::BiMap::from_iter([('a', 1)]);
    /// seats.reserve(10);
    /// assert!(seats.capacity() >= 11);
    /// ```
    pub fn reserve(&mut self, additional: usize) {
        self.try_reserve(additional).unwrap_or_else(|NoMemory| ended(Refusal::Memory))
    }

    /// Does what [`reserve`](Self::reserve) does, or returns `NoMemory`.
    ///
    /// ```
    /// let mut seats = jetukoma::BiMap::from_iter([('a', 1)]);
    /// assert_eq!(seats.try_reserve(usize::MAX), Err(jetukoma::NoMemory));
    /// ```
    pub fn try_reserve(&mut self, additional: usize) -> Result<(), NoMemory> {
        Library::reserve(&self.handle, additional).map_err(|_| NoMemory)
    }

    /// Makes the capacity the number of pairs, as [`shrink_to`](Self::shrink_to) does.
    ///
    /// ```
    /// let mut seats = jetukoma::BiMap::with_capacity(100);
    /// seats.insert('a', 1);
    /// seats.shrink_to_fit();
    /// assert!((1..100).contains(&seats.capacity()));
    /// ```
    pub fn shrink_to_fit(&mut self) {
        self.shrink_to(0)
    }

    /// Makes the capacity `min_capacity`, or the number of pairs if there are more. If the capacity is not above that,
    /// it does not change. If there is no memory for the smaller map, nothing changes.
    ///
    /// ```
    /// let mut seats = jetukoma::BiMap::with_capacity(100);
    /// seats.insert('a', 1);
    /// seats.shrink_to(10);
    /// assert!((10..100).contains(&seats.capacity()));
    /// ```
    pub fn shrink_to(&mut self, min_capacity: usize) {
        let _ = Library::shrink_to(&self.handle, min_capacity);
    }
}
