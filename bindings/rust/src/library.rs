//! The calls of the C library, made safe. A `Handle` has a table from the time that it is made.
use std::cell::UnsafeCell;
use std::ffi::c_void;
use std::marker::PhantomData;
use std::panic::RefUnwindSafe;
use std::ptr::{self, null_mut};

use crate::{Overwritten, Policy};

/// The reasons for which a call is refused.
pub enum Refusal {
    Memory,
    Held,
}

/// A handle as the library reads it.
#[repr(C)]
pub struct Raw {
    at: *mut c_void,
    live: bool,
}

/// The handle of a table. Its type says which calls it is for.
pub struct Handle<B: Library> {
    // A look-up takes the table out of its handle and puts it back, so it writes to a shared map too. Two calls never
    // run at the same time: the cell keeps the map on one thread, and of the program the library calls only the
    // allocator.
    raw: UnsafeCell<Raw>,
    calls: PhantomData<fn() -> B>,
}

// SAFETY: the library allows a handle to go to another thread. It has no memory that belongs to one thread.
unsafe impl<B: Library> Send for Handle<B> {}

// A call of the library ends before anything else of the program runs, so a panic leaves each table whole.
impl<B: Library> RefUnwindSafe for Handle<B> {}

impl<B: Library> Handle<B> {
    /// Makes a handle whose table this call makes.
    fn made(make: impl FnOnce(*mut Raw) -> u32) -> Result<Handle<B>, Refusal> {
        let (at, live) = (null_mut(), false);
        let raw = UnsafeCell::new(Raw { at, live });
        let handle = Handle { raw, calls: PhantomData };
        done(make(handle.raw.get())).map(|()| handle)
    }
}

impl<B: Library> Drop for Handle<B> {
    fn drop(&mut self) {
        B::free(self);
    }
}

/// A value as a table has it, which is `u64` or bytes.
pub type Owned<V> = <V as ToOwned>::Owned;
pub type Found<B> = (Owned<<B as Library>::Left>, Owned<<B as Library>::Right>);
type Told<B> = Overwritten<Owned<<B as Library>::Left>, Owned<<B as Library>::Right>>;
type Asked<T> = Result<Option<T>, Refusal>;

/// The calls on tables with one pair of sides. Those from `left_rank` to `row_by_right` need an order. The map has them
/// only for kinds with this order.
pub trait Library: Sized {
    type Left: ?Sized + ToOwned<Owned: Clone>;
    type Right: ?Sized + ToOwned<Owned: Clone>;
    /// The longest row to read from an ordered table. The others go from their first pair to the start of each row.
    const LONGEST: usize;

    fn make(kind: u32, seed: u64) -> Result<Handle<Self>, Refusal>;
    fn clone(handle: &Handle<Self>) -> Result<Handle<Self>, Refusal>;
    fn equals(handle: &Handle<Self>, other: &Handle<Self>) -> bool;
    fn free(handle: &Handle<Self>);
    fn len(handle: &Handle<Self>) -> usize;
    fn capacity(handle: &Handle<Self>) -> usize;
    fn reserve(handle: &Handle<Self>, more: usize) -> Result<(), Refusal>;
    fn shrink_to(handle: &Handle<Self>, least: usize) -> Result<(), Refusal>;
    fn clear(handle: &Handle<Self>);
    fn insert_with(handle: &Handle<Self>, left: &Self::Left, right: &Self::Right, policy: Policy) -> Result<Told<Self>, Refusal>;
    fn get_by_left(handle: &Handle<Self>, left: &Self::Left) -> Asked<Owned<Self::Right>>;
    fn get_by_right(handle: &Handle<Self>, right: &Self::Right) -> Asked<Owned<Self::Left>>;
    fn contains_left(handle: &Handle<Self>, left: &Self::Left) -> Result<bool, Refusal>;
    fn contains_right(handle: &Handle<Self>, right: &Self::Right) -> Result<bool, Refusal>;
    fn remove_by_left(handle: &Handle<Self>, left: &Self::Left) -> Asked<Found<Self>>;
    fn remove_by_right(handle: &Handle<Self>, right: &Self::Right) -> Asked<Found<Self>>;
    fn left_rank(handle: &Handle<Self>, left: &Self::Left) -> Result<usize, Refusal>;
    fn right_rank(handle: &Handle<Self>, right: &Self::Right) -> Result<usize, Refusal>;
    fn pop_first(handle: &Handle<Self>) -> Option<Found<Self>>;
    fn pop_last(handle: &Handle<Self>) -> Option<Found<Self>>;
    fn to_front(handle: &Handle<Self>, left: &Self::Left) -> Result<bool, Refusal>;
    fn to_back(handle: &Handle<Self>, left: &Self::Left) -> Result<bool, Refusal>;
    /// Does what `row` does, in ascending order of the rights.
    fn row_by_right(handle: &Handle<Self>, start: usize, most: usize) -> Vec<Found<Self>>;
    /// Returns at most this many pairs, from the start-th pair on.
    fn row(handle: &Handle<Self>, start: usize, most: usize) -> Vec<Found<Self>>;
}

// The statuses.
const DONE: u32 = 0;
const NO_MEMORY: u32 = 1;
const REFUSED: u32 = 3;
const BUFFER_TOO_SHORT: u32 = 4;
const NOT_FOUND: u32 = 5;

#[inline]
fn done(status: u32) -> Result<(), Refusal> {
    match status {
        DONE => Ok(()),
        NO_MEMORY => Err(Refusal::Memory),
        REFUSED => Err(Refusal::Held),
        other => unreachable!("status {other}"),
    }
}

fn sure(status: u32) {
    assert_eq!(status, DONE);
}

#[inline]
fn found(status: u32) -> Result<bool, Refusal> {
    if status == NOT_FOUND {
        Ok(false)
    } else {
        done(status).map(|()| true)
    }
}

#[inline]
fn overwritten<L, R>(kind: u32, mut pair: impl FnMut(usize) -> (L, R)) -> Overwritten<L, R> {
    if kind == 0 {
        return Overwritten::Neither;
    }
    let (left, right) = pair(0);
    match kind {
        1 => Overwritten::Left(left, right),
        2 => Overwritten::Right(left, right),
        3 => Overwritten::Pair(left, right),
        _ => Overwritten::Both((left, right), pair(1)),
    }
}

/// Returns a number that the library writes.
#[inline]
fn number(call: impl FnOnce(*mut u64) -> u32) -> Asked<u64> {
    let mut it = 0;
    Ok(found(call(&mut it))?.then_some(it))
}

fn size(call: impl FnOnce(*mut usize) -> u32) -> Result<usize, Refusal> {
    let mut it = 0;
    done(call(&mut it)).map(|()| it)
}

/// Returns bytes that the library writes. If the buffer is too short the first time, it is long enough the second time.
fn bytes(mut call: impl FnMut(*mut u8, usize, *mut usize) -> u32) -> Asked<Vec<u8>> {
    let mut buffer = vec![0; 32];
    loop {
        let mut len = 0;
        match call(buffer.as_mut_ptr(), buffer.len(), &mut len) {
            BUFFER_TOO_SHORT => buffer = vec![0; len],
            other => {
                buffer.truncate(len);
                return Ok(found(other)?.then_some(buffer));
            }
        }
    }
}

/// Declares calls of the library on tables of these sides.
macro_rules! external {
    ($sides:literal: $($call:ident($($given:ident: $type:ty),*);)*) => {
        unsafe extern "C" { $(
            #[link_name = concat!("jetukoma_", $sides, "_", stringify!($call), "_unchecked")]
            fn $call(handle: *mut Raw $(, $given: $type)*) -> u32;
        )* }
    };
}

// SAFETY of each call below: the handle has this type, and no other call uses it at this time. References and slices
// are passed as pointers with their lengths, and the library keeps none of them. Of the program it calls only malloc,
// realloc and free.

/// The calls that take no value.
macro_rules! plain {
    () => {
        fn make(kind: u32, seed: u64) -> Result<Handle<Self>, Refusal> {
            Handle::made(|raw| unsafe { new(raw, kind, seed) })
        }
        fn clone(handle: &Handle<Self>) -> Result<Handle<Self>, Refusal> {
            Handle::made(|raw| unsafe { clone(handle.raw.get(), raw) })
        }
        fn equals(handle: &Handle<Self>, other: &Handle<Self>) -> bool {
            // The library does not take one handle twice.
            ptr::eq(handle, other) || matches!(found(unsafe { equals(handle.raw.get(), other.raw.get()) }), Ok(true))
        }
        fn free(handle: &Handle<Self>) {
            // A handle whose table could not be made has no table.
            unsafe { free(handle.raw.get()) };
        }
        fn len(handle: &Handle<Self>) -> usize {
            let mut it = 0;
            sure(unsafe { len(handle.raw.get(), &mut it) });
            it
        }
        fn capacity(handle: &Handle<Self>) -> usize {
            let mut it = 0;
            sure(unsafe { capacity(handle.raw.get(), &mut it) });
            it
        }
        fn reserve(handle: &Handle<Self>, more: usize) -> Result<(), Refusal> {
            done(unsafe { reserve(handle.raw.get(), more) })
        }
        fn shrink_to(handle: &Handle<Self>, least: usize) -> Result<(), Refusal> {
            done(unsafe { shrink_to(handle.raw.get(), least) })
        }
        fn clear(handle: &Handle<Self>) {
            sure(unsafe { clear(handle.raw.get()) });
        }
    };
}

mod by_bytes;
mod by_numbers;
pub use by_bytes::*;
pub use by_numbers::*;
