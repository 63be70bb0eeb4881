//! The kinds of map. They are the last parameter of a [`BijectiveMap`](crate::BijectiveMap).
use std::hash::{BuildHasher, RandomState};
use std::marker::PhantomData;

/// The kind of a [`BiBTreeMap`](crate::BiBTreeMap). Both sides are ordered.
pub enum Ordered {}

/// The kind of a [`BiHashMap`](crate::BiHashMap). Both sides are hashed. The two hash builders give the seed of the
/// hashes.
pub struct Hashed<LS = RandomState, RS = RandomState>(PhantomData<fn() -> (LS, RS)>);

/// The kind of a [`BiInsertionOrderMap`](crate::BiInsertionOrderMap). Both sides are hashed.
pub enum InsertionOrder {}

mod sealed {
    pub trait Sealed {}
}

/// A kind of map. You cannot implement this trait.
pub trait Kind: sealed::Sealed {
    /// The parameter by which the iterators name this kind. It leaves out the hash builders.
    type Order: Kind;
    #[doc(hidden)]
    const NUMBER: u32;
    /// Whether the pairs are in ascending order of their lefts.
    #[doc(hidden)]
    const ORDERED: bool;
}

/// A kind of map that has a default value. You cannot implement this trait.
pub trait Seeded: Kind {
    #[doc(hidden)]
    fn seed() -> u64;
}

/// A kind of map that [`new`](crate::BijectiveMap::new) makes. You cannot implement this trait. A hashed map that `new`
/// makes has the default hash builders, so the compiler finds its type.
pub trait Fresh: Seeded {}

/// Returns the seed that two hash builders give. With a `RandomState` it is random.
pub(crate) fn seed_of(left: &impl BuildHasher, right: &impl BuildHasher) -> u64 {
    left.hash_one(right.hash_one(()))
}

macro_rules! kinds {
    ($($kind:ty [$($builders:ident)*] as $Order:ty: $number:literal, $seed:expr;)*) => { $(
        impl<$($builders),*> sealed::Sealed for $kind {}
        impl<$($builders),*> Kind for $kind {
            type Order = $Order;
            const NUMBER: u32 = $number;
            const ORDERED: bool = $number == 0;
        }
        impl<$($builders: BuildHasher + Default),*> Seeded for $kind {
            fn seed() -> u64 {
                $seed
            }
        }
    )* };
}

kinds! {
    Ordered [] as Ordered: 0, 0;
    Hashed<LS, RS> [LS RS] as Hashed: 1, seed_of(&LS::default(), &RS::default());
    InsertionOrder [] as InsertionOrder: 2, Hashed::<RandomState, RandomState>::seed();
}

impl Fresh for Ordered {}
impl Fresh for Hashed {}
impl Fresh for InsertionOrder {}
