//! The forms of values, and the tables that have them.
use std::borrow::Cow;
use std::fmt::Debug;

use super::{Key, Side};
use crate::library::{BytesBytes, BytesU64, Found, Library, Owned, U64U64};

/// What the library has in place of a value: [`Number`] or [`Bytes`]. You cannot implement this trait.
pub trait Form: Sized {
    /// A form that [`Side::to_form`] returns.
    type Lent<'a>;
    /// A form that [`Side::from_form`] takes.
    type Owned: Debug + Ord;
    /// The table for lefts that are numbers, and rights of this form.
    #[doc(hidden)]
    type AfterNumber: Library<Left: Holds<Number>, Right: Holds<Self>>;
    /// The table for lefts that are bytes, and rights of this form.
    #[doc(hidden)]
    type AfterBytes: Library<Left: Holds<Bytes>, Right: Holds<Self>>;
    /// The table for lefts of this form.
    #[doc(hidden)]
    type Before<R: Form>: Library<Left: Holds<Self>, Right: Holds<R>>;
    #[doc(hidden)]
    fn own(form: Self::Lent<'_>) -> Self::Owned;
    /// Appends a form that another one may follow. The bytes are in the order of the forms.
    #[doc(hidden)]
    fn put_first(form: Self::Lent<'_>, bytes: &mut Vec<u8>);
    /// Takes such a form from the front.
    #[doc(hidden)]
    fn take_first(bytes: &mut &[u8]) -> Self::Owned;
    /// Appends a form that is the last one.
    #[doc(hidden)]
    fn put_last(form: Self::Lent<'_>, bytes: &mut Vec<u8>);
    #[doc(hidden)]
    fn take_last(bytes: &[u8]) -> Self::Owned;
}

/// The form of a side whose values are `u64` in the library.
pub enum Number {}

/// The form of a side whose values are bytes in the library.
pub enum Bytes {}

impl Form for Number {
    type Lent<'a> = u64;
    type Owned = u64;
    type AfterNumber = U64U64;
    type AfterBytes = BytesU64;
    type Before<R: Form> = R::AfterNumber;
    fn own(form: u64) -> u64 {
        form
    }
    fn put_first(form: u64, bytes: &mut Vec<u8>) {
        bytes.extend(form.to_be_bytes());
    }
    fn take_first(bytes: &mut &[u8]) -> u64 {
        u64::from_be_bytes(bytes.split_off(..8).expect(OTHER).try_into().expect(OTHER))
    }
    fn put_last(form: u64, bytes: &mut Vec<u8>) {
        Self::put_first(form, bytes);
    }
    fn take_last(mut bytes: &[u8]) -> u64 {
        Self::take_first(&mut bytes)
    }
}

pub(super) const OTHER: &str = "the form is that of a value";

impl Form for Bytes {
    type Lent<'a> = Cow<'a, [u8]>;
    type Owned = Vec<u8>;
    // The library has no table of numbers and bytes. Its numbers are eight bytes each, which keep the order.
    type AfterNumber = BytesBytes;
    type AfterBytes = BytesBytes;
    type Before<R: Form> = R::AfterBytes;
    fn own(form: Cow<'_, [u8]>) -> Vec<u8> {
        form.into_owned()
    }
    // A zero becomes 0 and 255, and 0 and 0 end the bytes. So a beginning of other bytes is below them.
    fn put_first(form: Cow<'_, [u8]>, bytes: &mut Vec<u8>) {
        for &it in &*form {
            bytes.push(it);
            if it == 0 {
                bytes.push(255);
            }
        }
        bytes.extend([0, 0]);
    }
    fn take_first(bytes: &mut &[u8]) -> Vec<u8> {
        let mut form = Vec::new();
        loop {
            let &it = bytes.split_off_first().expect(OTHER);
            if it == 0 && *bytes.split_off_first().expect(OTHER) == 0 {
                return form;
            }
            form.push(it);
        }
    }
    fn put_last(form: Cow<'_, [u8]>, bytes: &mut Vec<u8>) {
        bytes.extend(&*form);
    }
    fn take_last(bytes: &[u8]) -> Vec<u8> {
        bytes.to_vec()
    }
}

/// A value of a table that has a form: a number or bytes.
pub trait Holds<F: Form>: ToOwned {
    fn lend<T>(form: F::Lent<'_>, call: impl FnOnce(&Self) -> T) -> T;
    fn give(it: Self::Owned) -> F::Owned;
}

impl Holds<Number> for u64 {
    #[inline]
    fn lend<T>(form: u64, call: impl FnOnce(&u64) -> T) -> T {
        call(&form)
    }
    #[inline]
    fn give(it: u64) -> u64 {
        it
    }
}

impl Holds<Number> for [u8] {
    fn lend<T>(form: u64, call: impl FnOnce(&[u8]) -> T) -> T {
        call(&form.to_be_bytes())
    }
    fn give(it: Vec<u8>) -> u64 {
        Number::take_last(&it)
    }
}

impl Holds<Bytes> for [u8] {
    fn lend<T>(form: Cow<'_, [u8]>, call: impl FnOnce(&[u8]) -> T) -> T {
        call(&form)
    }
    fn give(it: Vec<u8>) -> Vec<u8> {
        it
    }
}

/// The table of a map with these sides, and its values.
pub(crate) type Table<L, R> = <<L as Side>::Form as Form>::Before<<R as Side>::Form>;
type Left<L, R> = <Table<L, R> as Library>::Left;
type Right<L, R> = <Table<L, R> as Library>::Right;

/// Makes a call with what the table has in place of a key. The code of the key's type ends before the call begins.
#[inline]
pub(crate) fn lend<Q: Key + ?Sized, Raw: Holds<Q::Form> + ?Sized, T>(key: &Q, call: impl FnOnce(&Raw) -> T) -> T {
    Raw::lend(key.form(), call)
}

#[inline]
pub(crate) fn left_of<L: Side, R: Side>(it: Owned<Left<L, R>>) -> L {
    L::from_form(<Left<L, R> as Holds<L::Form>>::give(it))
}

#[inline]
pub(crate) fn right_of<L: Side, R: Side>(it: Owned<Right<L, R>>) -> R {
    R::from_form(<Right<L, R> as Holds<R::Form>>::give(it))
}

#[inline]
pub(crate) fn pair_of<L: Side, R: Side>((left, right): Found<Table<L, R>>) -> (L, R) {
    (left_of::<L, R>(left), right_of::<L, R>(right))
}
