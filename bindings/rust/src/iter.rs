//! The iterators of the maps. They read a row of pairs at a time, and give copies.
//!
//! The last parameter is the kind of the map. The modules [`btree`](crate::btree) and [`hash`](crate::hash) have the
//! same iterators under the names of the crate `bimap`, without this parameter.
use std::borrow::Borrow;
use std::fmt;
use std::iter::FusedIterator;
use std::marker::PhantomData;
use std::vec;

use crate::kind::{Kind, Ordered};
use crate::library::{Found, Handle, Library};
use crate::side::{Side, Table, left_of, pair_of, right_of};

/// A call that reads a row: [`Library::row`] or [`Library::row_by_right`].
type Row<B> = fn(&Handle<B>, usize, usize) -> Vec<Found<B>>;

/// The pairs of a table between two positions. Those in `front` come before these positions, and those in `back` after
/// them.
pub(crate) struct Walk<H, B: Library> {
    handle: H,
    row: Row<B>,
    front: vec::IntoIter<Found<B>>,
    back: vec::IntoIter<Found<B>>,
    next: usize,
    end: usize,
    /// The length of the next row, which grows from row to row.
    long: usize,
    longest: usize,
}

impl<H: Borrow<Handle<B>>, B: Library> Walk<H, B> {
    pub(crate) fn new<K: Kind>(handle: H, row: Row<B>, next: usize, end: usize) -> Self {
        let longest = if K::ORDERED { B::LONGEST } else { usize::MAX };
        let (front, back) = (Vec::new().into_iter(), Vec::new().into_iter());
        let long = 16;
        Walk {
            handle,
            row,
            front,
            back,
            next,
            end,
            long,
            longest,
        }
    }

    /// Gives the same pairs by another handle of the table.
    fn by<G: Borrow<Handle<B>>>(&self, handle: G) -> Walk<G, B> {
        let (row, front, back) = (self.row, self.front.clone(), self.back.clone());
        let Walk {
            next, end, long, longest, ..
        } = *self;
        Walk {
            handle,
            row,
            front,
            back,
            next,
            end,
            long,
            longest,
        }
    }

    fn len(&self) -> usize {
        self.front.len() + self.back.len() + self.end - self.next
    }

    /// Returns how many pairs the next row has.
    fn stride(&mut self) -> usize {
        let stride = self.long.min(self.end - self.next);
        self.long = self.long.saturating_mul(4).min(self.longest);
        stride
    }

    #[inline]
    pub(crate) fn next(&mut self) -> Option<Found<B>> {
        if self.front.len() == 0 {
            if self.next == self.end {
                return self.back.next();
            }
            let stride = self.stride();
            self.front = (self.row)(self.handle.borrow(), self.next, stride).into_iter();
            self.next += stride;
        }
        self.front.next()
    }

    #[inline]
    fn next_back(&mut self) -> Option<Found<B>> {
        if self.back.len() == 0 {
            if self.next == self.end {
                return self.front.next_back();
            }
            let stride = self.stride();
            self.end -= stride;
            self.back = (self.row)(self.handle.borrow(), self.end, stride).into_iter();
        }
        self.back.next_back()
    }
}

/// Declares an iterator over a handle, which it borrows or owns.
macro_rules! iterators {
    ($($(#[$doc:meta])* $name:ident<$($life:lifetime,)?> over $handle:ty => $Item:ty, $item:expr;)*) => { $(
        $(#[$doc])*
        pub struct $name<$($life,)? L: Side, R: Side, K>(pub(crate) Walk<$handle, Table<L, R>>, pub(crate) PhantomData<fn() -> K>);

        impl<$($life,)? L: Side, R: Side, K> Iterator for $name<$($life,)? L, R, K> {
            type Item = $Item;
            #[inline]
            fn next(&mut self) -> Option<$Item> {
                self.0.next().map($item)
            }
            fn size_hint(&self) -> (usize, Option<usize>) {
                (self.0.len(), Some(self.0.len()))
            }
        }

        impl<$($life,)? L: Side, R: Side> DoubleEndedIterator for $name<$($life,)? L, R, Ordered> {
            #[inline]
            fn next_back(&mut self) -> Option<$Item> {
                self.0.next_back().map($item)
            }
        }

        impl<$($life,)? L: Side, R: Side, K> ExactSizeIterator for $name<$($life,)? L, R, K> {}
        impl<$($life,)? L: Side, R: Side, K> FusedIterator for $name<$($life,)? L, R, K> {}

        $(
            impl<$life, L: Side, R: Side, K> Clone for $name<$life, L, R, K> {
                fn clone(&self) -> Self {
                    $name(self.0.by(self.0.handle), PhantomData)
                }
            }
        )?

        /// Shows the items that are left.
        impl<$($life,)? L: Side + fmt::Debug, R: Side + fmt::Debug, K> fmt::Debug for $name<$($life,)? L, R, K> {
            fn fmt(&self, f: &mut fmt::Formatter<'_>) -> fmt::Result {
                let mut rest = self.0.by::<&Handle<_>>(self.0.handle.borrow());
                f.debug_list().entries(std::iter::from_fn(|| rest.next()).map($item)).finish()
            }
        }
    )* };
}

iterators! {
    /// An iterator over pairs of a map. [`iter`](crate::BijectiveMap::iter) returns it, and so do the ranges.
    Iter<'a,> over &'a Handle<Table<L, R>> => (L, R), pair_of::<L, R>;
    /// An iterator over the lefts of a map. [`left_values`](crate::BijectiveMap::left_values) returns it.
    LeftValues<'a,> over &'a Handle<Table<L, R>> => L, |(left, _)| left_of::<L, R>(left);
    /// An iterator over the rights of a map. [`right_values`](crate::BijectiveMap::right_values) returns it.
    RightValues<'a,> over &'a Handle<Table<L, R>> => R, |(_, right)| right_of::<L, R>(right);
    /// An iterator over the pairs of a map that it owns. A map's `into_iter` returns it.
    IntoIter<> over Handle<Table<L, R>> => (L, R), pair_of::<L, R>;
}
