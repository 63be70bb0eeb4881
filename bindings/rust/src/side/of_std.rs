//! The sides of std.
use std::borrow::Cow;

use super::form::OTHER;
use super::*;

macro_rules! sides {
    ($form:ident $lent:ty, $owned:ty: $($type:ty [$($of:tt)*], |$it:ident| $to:expr, |$back:ident| $from:expr;)*) => { $(
        impl<$($of)*> Side for $type {
            type Form = $form;
            #[inline]
            fn to_form(&self) -> $lent {
                let $it = self;
                $to
            }
            #[inline]
            fn from_form($back: $owned) -> Self {
                $from
            }
        }
    )* };
}

macro_rules! integers {
    ($lowest:expr, $wide:ty: $($type:ty)*) => {
        sides! { Number u64, u64: $( $type [], |it| (*it as $wide as u64) ^ $lowest, |form| (form ^ $lowest) as $type; )* }
    };
}

integers! { 0, u64: u8 u16 u32 u64 usize }
// The least number becomes 0.
integers! { 1 << 63, i64: i8 i16 i32 i64 isize }

sides! { Number u64, u64:
    bool [], |it| *it as u64, |form| form != 0;
    char [], |it| *it as u64, |form| char::from_u32(form as u32).expect(OTHER);
    () [], |_it| 0, |_form| ();
}

sides! { Bytes Cow<'_, [u8]>, Vec<u8>:
    u128 [], |it| Cow::Owned(it.to_be_bytes().into()), |form| u128::from_be_bytes(form.try_into().expect(OTHER));
    i128 [], |it| Cow::Owned((it ^ i128::MIN).to_be_bytes().into()), |form| i128::from_be_bytes(form.try_into().expect(OTHER)) ^ i128::MIN;
    String [], |it| Cow::Borrowed(it.as_bytes()), |form| String::from_utf8(form).expect(OTHER);
    Vec<u8> [], |it| Cow::Borrowed(it), |form| form;
    [u8; N] [const N: usize], |it| Cow::Borrowed(it), |form| form.try_into().expect(OTHER);
    (A, B) [A: Side, B: Side], |it| joined(it), |form| parted(&form);
}

fn joined<A: Side, B: Side>((first, last): &(A, B)) -> Cow<'_, [u8]> {
    let mut bytes = Vec::new();
    A::Form::put_first(first.to_form(), &mut bytes);
    B::Form::put_last(last.to_form(), &mut bytes);
    Cow::Owned(bytes)
}

fn parted<A: Side, B: Side>(mut bytes: &[u8]) -> (A, B) {
    let first = A::from_form(A::Form::take_first(&mut bytes));
    (first, B::from_form(B::Form::take_last(bytes)))
}

macro_rules! borrowed {
    ($($type:ty, |$it:ident| $bytes:expr;)*) => { $(
        impl Key for $type {
            type Form = Bytes;
            fn form(&self) -> Cow<'_, [u8]> {
                let $it = self;
                Cow::Borrowed($bytes)
            }
        }
    )* };
}

borrowed! {
    [u8], |it| it;
    str, |it| it.as_bytes();
}

macro_rules! texts {
    ($($type:ty),*) => { $(
        impl sealed::Text for $type {}
        impl Text for $type {}
    )* };
}

texts! { String, Vec<u8> }
