//! Two-way maps with the calls of the crate `bimap`, which **return copies of the values**: an `Option<R>` where `bimap`
//! returns an `Option<&R>`. A left has one right, and a right has one left. The library that does the work is proved,
//! function by function.
//!
//! ```
//! use jetukoma::{BiBTreeMap, Overwritten};
//!
//! let mut seats = BiBTreeMap::new();
//! assert_eq!(seats.insert("ann".to_string(), 12), Overwritten::Neither);
//! assert_eq!(seats.insert("bob".to_string(), 7), Overwritten::Neither);
//! assert_eq!(seats.insert("ann".to_string(), 7), Overwritten::Both(("ann".to_string(), 12), ("bob".to_string(), 7)));
//! assert_eq!(seats.get_by_right(&7), Some("ann".to_string()));
//! assert_eq!(format!("{seats:?}"), r#"{"ann" <> 7}"#);
//! ```
//!
//! # The kinds of map
//! [`BiBTreeMap`] has its pairs in ascending order of their lefts. [`BiHashMap`] hashes both sides.
//! [`BiInsertionOrderMap`] hashes them too, and has its pairs in the order in which they were inserted. [`Undoable`] wraps
//! one of them, and goes back to an earlier state.
//!
//! # The types of the sides
//! A side may be of any type that implements [`Side`]: an integer, `bool`, `char`, `()`, `String`, `Vec<u8>`, `[u8; N]`, a
//! pair of them, or a type of yours. `&str` does not implement it, so take `String`.
//!
//! # What differs from `bimap`
//! - The library contains the values in a form of its own. So calls return copies, and a side needs [`Side`] in place
//!   of `Ord` or `Hash`.
//! - The library hashes the values itself. Hash builders only give the seed of the hashes.
//! - If there is no memory, a call that `bimap` has too ends the process, as the collections of std do. A call named
//!   `try_..` returns an error with the pair that it was given, and nothing has changed.
//! - An insertion that overwrites numbers never allocates. The library never allocates for a look-up or a removal. A call
//!   that returns a value of bytes allocates for it.
//! - A range whose bounds run backwards is empty. In `bimap` it panics.
//! - There is no feature `serde`, because this crate uses no other crate.
//! - A map can be sent to another thread. Two threads cannot share it: it is `Send` and not `Sync`.
//!
//! ```compile_fail,E0277
//! fn shared<T: Sync>() {}
//! shared::<jetukoma::BiBTreeMap<u64, u64>>();
//! ```
#![deny(missing_docs)]

// Runs the examples of docs/RUST.md.
#[cfg(doctest)]
#[doc = include_str!("../README.md")]
mod readme {}

mod answers;
pub mod iter;
pub mod kind;
mod library;
mod map;
pub mod side;
mod undo;

use std::hash::RandomState;

pub use answers::{NoMemory, NotInserted, OnHeld, Overwritten, Policy};
pub use btree::BiBTreeMap;
pub use hash::BiHashMap;
pub use map::BijectiveMap;
pub use side::Side;
pub use undo::{Entry, Undoable};

pub mod btree {
    //! The ordered map, and its iterators.
    use crate::iter;
    use crate::kind::Ordered;

    /// A map that iterates in ascending order of its lefts.
    pub type BiBTreeMap<L, R> = crate::BijectiveMap<L, R, Ordered>;
    /// What [`iter`](crate::BijectiveMap::iter) of a `BiBTreeMap` returns.
    pub type Iter<'a, L, R> = iter::Iter<'a, L, R, Ordered>;
    /// What [`left_values`](crate::BijectiveMap::left_values) of a `BiBTreeMap` returns.
    pub type LeftValues<'a, L, R> = iter::LeftValues<'a, L, R, Ordered>;
    /// What [`right_values`](crate::BijectiveMap::right_values) of a `BiBTreeMap` returns.
    pub type RightValues<'a, L, R> = iter::RightValues<'a, L, R, Ordered>;
    /// What [`left_range`](crate::BijectiveMap::left_range) returns.
    pub type LeftRange<'a, L, R> = iter::Iter<'a, L, R, Ordered>;
    /// What [`right_range`](crate::BijectiveMap::right_range) returns.
    pub type RightRange<'a, L, R> = iter::Iter<'a, L, R, Ordered>;
    /// What `into_iter` of a `BiBTreeMap` returns.
    pub type IntoIter<L, R> = iter::IntoIter<L, R, Ordered>;
}

pub mod hash {
    //! The hashed map, and its iterators.
    use crate::kind::Hashed;
    use crate::{RandomState, iter};

    /// A map whose calls take expected constant time. The hash builders `LS` and `RS` give the seed of its hashes.
    pub type BiHashMap<L, R, LS = RandomState, RS = RandomState> = crate::BijectiveMap<L, R, Hashed<LS, RS>>;
    /// What [`iter`](crate::BijectiveMap::iter) of a `BiHashMap` returns.
    pub type Iter<'a, L, R> = iter::Iter<'a, L, R, Hashed>;
    /// What [`left_values`](crate::BijectiveMap::left_values) of a `BiHashMap` returns.
    pub type LeftValues<'a, L, R> = iter::LeftValues<'a, L, R, Hashed>;
    /// What [`right_values`](crate::BijectiveMap::right_values) of a `BiHashMap` returns.
    pub type RightValues<'a, L, R> = iter::RightValues<'a, L, R, Hashed>;
    /// What `into_iter` of a `BiHashMap` returns.
    pub type IntoIter<L, R> = iter::IntoIter<L, R, Hashed>;
}

/// The same as [`BiHashMap`].
pub type BiMap<L, R> = BiHashMap<L, R>;

/// A map whose calls take expected constant time, and which iterates in insertion order. A pair that overwrites the
/// pair of the same left keeps that pair's position. Any other new pair goes to the end.
pub type BiInsertionOrderMap<L, R> = BijectiveMap<L, R, kind::InsertionOrder>;
