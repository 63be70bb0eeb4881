//! The types of the sides of a map. [`Side`] is implemented for types of std, and you can implement it for a type of
//! yours.
//!
//! The library has numbers and bytes. So each type says how its values are written as one of the two, which is their
//! form, and how they are read again.
use std::fmt::Debug;

mod form;
mod of_std;

pub use form::{Bytes, Form, Number};
pub(crate) use form::{Holds, Table, left_of, lend, pair_of, right_of};

/// A value of a side. It is implemented for these types:
///
/// - all integers, `bool`, `char` and `()`
/// - `String`, `Vec<u8>` and `[u8; N]`
/// - pairs of two of these types, and pairs of pairs
///
/// ```
/// use jetukoma::BiBTreeMap;
/// use jetukoma::side::{Number, Side, check_ordered_side};
///
/// #[derive(Clone, Copy, Debug, Eq, Ord, PartialEq, PartialOrd)]
/// struct Seat {
///     row: u8,
///     place: u8,
/// }
///
/// impl Side for Seat {
///     type Form = Number;
///     fn to_form(&self) -> u64 {
///         u64::from(self.row) * 256 + u64::from(self.place)
///     }
///     fn from_form(form: u64) -> Seat {
///         Seat { row: (form / 256) as u8, place: (form % 256) as u8 }
///     }
/// }
///
/// let [front, back] = [Seat { row: 1, place: 12 }, Seat { row: 30, place: 2 }];
/// check_ordered_side(&[front, back]);
/// let seats = BiBTreeMap::from_iter([(back, "ann".to_string()), (front, "bob".to_string())]);
/// assert_eq!(seats.get_by_right("bob"), Some(front));
/// assert_eq!(seats.left_values().collect::<Vec<_>>(), [front, back]);
/// ```
///
/// # Laws
/// 1. `V::from_form(v.to_form())` equals `v`.
/// 2. Two values have equal forms exactly if they are equal.
/// 3. Two forms are in the order of their values. Only a [`BiBTreeMap`](crate::BiBTreeMap) relies on this law. Numbers
///    are compared as numbers, and bytes one by one.
///
/// [`check_ordered_side`] tests these laws on values that you pass, and [`check_side`] tests the first two. If a type
/// breaks a law, a map of this type may find wrong pairs or panic, but it stays memory-safe. If one of the two
/// functions panics, the map is still whole: each left has one right. The call has changed the map by then, or not.
pub trait Side: Sized {
    /// What the library has in place of a value: [`Number`] or [`Bytes`].
    type Form: Form;

    /// Returns the form of the value. It is a `u64` for a [`Number`], and a `Cow<[u8]>` for [`Bytes`].
    fn to_form(&self) -> <Self::Form as Form>::Lent<'_>;

    /// Returns the value of a form. The form is a `u64` for a [`Number`], and a `Vec<u8>` for [`Bytes`].
    fn from_form(form: <Self::Form as Form>::Owned) -> Self;
}

/// A value by which a value of a side can be looked up. Each [`Side`] is one, and so are `str` and `[u8]`.
///
/// A look-up takes a `&Q` if the type of the side implements `Borrow<Q>`, as `String` implements `Borrow<str>`. The
/// form of the borrowed value must be the form of the value itself.
///
/// ```
/// let seats = jetukoma::BiMap::from_iter([("ann".to_string(), vec![1, 2])]);
/// assert_eq!(seats.get_by_left("ann"), Some(vec![1, 2]));
/// assert_eq!(seats.get_by_right(&[1, 2][..]), Some("ann".to_string()));
/// ```
pub trait Key {
    /// The same as that of the side: [`Number`] or [`Bytes`].
    type Form: Form;

    /// Returns the form of the value, as [`Side::to_form`] does.
    fn form(&self) -> <Self::Form as Form>::Lent<'_>;
}

impl<V: Side> Key for V {
    type Form = V::Form;
    #[inline]
    fn form(&self) -> <V::Form as Form>::Lent<'_> {
        self.to_form()
    }
}

/// The lefts of a map that can be [written as JSON](crate::BijectiveMap::to_json): `String` and `Vec<u8>`. You cannot
/// implement this trait for other types.
pub trait Text: Side<Form = Bytes> + sealed::Text {}

mod sealed {
    pub trait Text {}
}

/// Panics if one of the values breaks the first law of [`Side`], or two of them break the second law.
///
/// ```
/// jetukoma::side::check_side(&["", "a", "zoë"].map(String::from));
/// ```
pub fn check_side<V: Side + PartialEq + Debug>(values: &[V]) {
    let form = |it: &V| V::Form::own(it.to_form());
    for one in values {
        assert_eq!(V::from_form(form(one)), *one, "the form is read as another value");
        for other in values {
            let same = form(one) == form(other);
            assert_eq!(
                same,
                one == other,
                "{one:?} and {other:?}: are the forms equal, and are the values equal"
            );
        }
    }
}

/// Panics if one of the values breaks the first law of [`Side`], or two of them break the second or third law.
///
/// ```
/// jetukoma::side::check_ordered_side(&[i64::MIN, -1, 0, i64::MAX]);
/// ```
pub fn check_ordered_side<V: Side + Ord + Debug>(values: &[V]) {
    check_side(values);
    let form = |it: &V| V::Form::own(it.to_form());
    for [one, other] in values.iter().flat_map(|one| values.iter().map(move |other| [one, other])) {
        let order = form(one).cmp(&form(other));
        assert_eq!(
            order,
            one.cmp(other),
            "{one:?} and {other:?}: the order of the forms, and that of the values"
        );
    }
}
