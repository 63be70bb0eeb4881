//! Makes random calls beside a plain model, which is a vector of pairs in insertion order. It does so for each kind of
//! map, over several pairs of sides.
use jetukoma::kind::{Hashed, InsertionOrder, Kind, Ordered, Seeded};
use jetukoma::side::{Number, Side, check_ordered_side};
use jetukoma::{BiBTreeMap, BiInsertionOrderMap, BijectiveMap, OnHeld, Overwritten, Policy};
use std::fmt::Debug;
use std::hash::{BuildHasher, BuildHasherDefault, DefaultHasher};
use std::ops::Bound;

fn chance(state: &mut u64, below: u64) -> u64 {
    *state = state.wrapping_mul(6364136223846793005).wrapping_add(1442695040888963407);
    (*state >> 33) % below
}

/// A type with thirty values, some of which are hard to tell apart.
trait Value: Side + Clone + Debug + Ord + std::hash::Hash {
    fn of(it: u64) -> Self;
}

#[derive(Clone, Copy, Debug, Eq, Hash, Ord, PartialEq, PartialOrd)]
struct Seat {
    row: i8,
    place: u8,
}

impl Side for Seat {
    type Form = Number;
    fn to_form(&self) -> u64 {
        u64::from_be_bytes([0, 0, 0, 0, 0, 0, (self.row as u8) ^ 128, self.place])
    }
    fn from_form(form: u64) -> Seat {
        let [.., row, place] = form.to_be_bytes();
        Seat {
            row: (row ^ 128) as i8,
            place,
        }
    }
}

macro_rules! values {
    ($($type:ty: |$it:ident| $of:expr;)*) => { $(
        impl Value for $type {
            fn of($it: u64) -> Self {
                $of
            }
        }
    )* };
}

values! {
    u64: |it| it * (u64::MAX / 29);
    u16: |it| (it * 2000) as u16;
    usize: |it| it as usize * (usize::MAX / 29);
    i32: |it| (it as i32 - 15) * (i32::MAX / 15);
    i64: |it| (it as i64 - 15) * (i64::MAX / 15);
    char: |it| ['a', 'é', '\0', char::MAX, '\u{d7ff}', '\u{e000}'][it as usize % 6].max((it as u8 + b'a') as char);
    String: |it| "\0é".chars().cycle().take(it as usize % 6).chain("x".repeat(it as usize * 3).chars()).collect();
    Vec<u8>: |it| (0..it % 6).map(|at| [0, 255, 1][(it * at % 3) as usize]).chain([7].repeat(it as usize / 6 * 20)).collect();
    [u8; 3]: |it| [it as u8 % 3, it as u8 / 3 * 28, 255];
    i128: |it| (it as i128 - 15) * (i128::MAX / 15);
    (i64, String): |it| (i64::of(it % 5), String::of(it / 5));
    (String, (Vec<u8>, u16)): |it| (String::of(it % 3), (Vec::of(it / 3 % 4), u16::of(it / 12)));
    Seat: |it| Seat { row: it as i8 - 15, place: (it * 77 % 256) as u8 };
}

/// The pairs that a map must contain, in insertion order.
struct Model<L, R>(Vec<(L, R)>);

impl<L: Value, R: Value> Model<L, R> {
    /// Inserts as the documentation of `insert_with` says.
    fn insert(&mut self, left: &L, right: &R, policy: Policy) -> Result<Overwritten<L, R>, (L, R)> {
        let pair = (left.clone(), right.clone());
        let [by_left, by_right] = [
            self.0.iter().position(|it| it.0 == *left),
            self.0.iter().position(|it| it.1 == *right),
        ];
        if policy.left == OnHeld::Refuse && by_left.is_some() || policy.right == OnHeld::Refuse && by_right.is_some() {
            return Err(pair);
        }
        let at = |it: usize| self.0[it].clone();
        let told = match (by_left, by_right) {
            (None, None) => Overwritten::Neither,
            (Some(it), None) => Overwritten::Left(at(it).0, at(it).1),
            (None, Some(it)) => Overwritten::Right(at(it).0, at(it).1),
            (Some(it), Some(other)) if it == other => Overwritten::Pair(at(it).0, at(it).1),
            (Some(it), Some(other)) => Overwritten::Both(at(it), at(other)),
        };
        match by_left {
            Some(it) => self.0[it] = pair,
            None => self.0.push(pair),
        }
        if let Some(other) = by_right.filter(|it| Some(*it) != by_left) {
            self.0.remove(other);
        }
        Ok(told)
    }

    fn remove(&mut self, found: impl Fn(&(L, R)) -> bool) -> Option<(L, R)> {
        self.0.iter().position(found).map(|at| self.0.remove(at))
    }
}

fn sorted<T: Ord>(mut items: Vec<T>) -> Vec<T> {
    items.sort();
    items
}

/// Takes all items, now from the front and now from the back. They come in the order of the iterator then.
fn from_both_ends<I: DoubleEndedIterator + ExactSizeIterator>(mut walk: I, state: &mut u64) -> Vec<I::Item> {
    let (mut front, mut back) = (Vec::new(), Vec::new());
    loop {
        let (len, from_front) = (walk.len(), chance(state, 2) == 0);
        assert_eq!(walk.size_hint(), (len, Some(len)));
        let Some(item) = (if from_front { walk.next() } else { walk.next_back() }) else {
            break;
        };
        assert_eq!(walk.len(), len - 1);
        if from_front { &mut front } else { &mut back }.push(item);
    }
    assert!(walk.next().is_none() && walk.next_back().is_none() && walk.len() == 0);
    front.extend(back.into_iter().rev());
    front
}

/// Compares all pairs of a map with those that it must contain. `order` puts them into the order of the map, if it has
/// one.
fn same_pairs<L: Value, R: Value, K: Kind>(map: &BijectiveMap<L, R, K>, model: &Model<L, R>, order: Order<L, R>) {
    let (wanted, pairs) = (order(model.0.clone()), order(map.iter().collect()));
    assert_eq!((map.len(), map.is_empty()), (wanted.len(), wanted.is_empty()));
    assert_eq!(pairs, wanted);
    let (lefts, rights): (Vec<_>, Vec<_>) = map.iter().unzip();
    assert_eq!(map.left_values().collect::<Vec<_>>(), lefts);
    assert_eq!(sorted(map.right_values().collect()), sorted(rights));
    let [clone, other]: [BijectiveMap<L, R, K>; 2] = [map.clone(), map.clone()];
    let itself = map;
    assert!(clone == *map && other == clone && itself == map);
    assert_eq!(order(clone.into_iter().collect()), wanted);
}

type Order<L, R> = fn(Vec<(L, R)>) -> Vec<(L, R)>;
type Also<L, R, K> = fn(&mut BijectiveMap<L, R, K>, &mut Model<L, R>, &mut u64);

/// Makes random calls on a map, and now and then compares all of it.
fn beside<L: Value, R: Value, K: Seeded>(order: Order<L, R>, also: Also<L, R, K>) {
    let (state, mut map, mut model) = (&mut 7, BijectiveMap::<L, R, K>::default(), Model(Vec::new()));
    for step in 0..4000 {
        let (left, right) = (L::of(chance(state, 30)), R::of(chance(state, 30)));
        match chance(state, 20) {
            0..9 => {
                let [on_left, on_right] = [0; 2].map(|_| [OnHeld::Overwrite, OnHeld::Refuse][chance(state, 2) as usize]);
                let policy = Policy {
                    left: on_left,
                    right: on_right,
                };
                let wanted = model.insert(&left, &right, policy);
                assert_eq!(map.insert_with(left, right, policy), wanted);
            }
            9..12 => assert_eq!(map.remove_by_left(&left), model.remove(|it| it.0 == left)),
            12..14 => assert_eq!(map.remove_by_right(&right), model.remove(|it| it.1 == right)),
            14..19 => {
                let found = |pair: Option<&(L, R)>| pair.cloned();
                let by_left = found(model.0.iter().find(|it| it.0 == left)).map(|it| it.1);
                let by_right = found(model.0.iter().find(|it| it.1 == right)).map(|it| it.0);
                assert_eq!(
                    (map.contains_left(&left), map.contains_right(&right)),
                    (by_left.is_some(), by_right.is_some())
                );
                assert_eq!((map.get_by_left(&left), map.get_by_right(&right)), (by_left, by_right));
            }
            _ => {
                model.0.retain(|it| it.0 < left || it.1 < right);
                map.retain(|l, r| *l < left || *r < right);
            }
        }
        if step % 20 == 0 {
            let (capacity, least) = (map.capacity(), chance(state, 20) as usize);
            map.shrink_to(least);
            assert_eq!(map.capacity(), capacity.min(least.max(map.len())));
            also(&mut map, &mut model, state);
            same_pairs(&map, &model, order);
        }
    }
}

/// Compares what only an ordered map has: both ends, both orders, ranges, ranks, and the hash of a `BTreeMap`.
fn also_ordered<L: Value, R: Value>(map: &mut BiBTreeMap<L, R>, _: &mut Model<L, R>, state: &mut u64) {
    let pairs: Vec<_> = map.iter().collect();
    let by_rights = |mut pairs: Vec<(L, R)>| {
        pairs.sort_by(|one, other| one.1.cmp(&other.1));
        pairs
    };
    assert_eq!(from_both_ends(map.iter(), state), pairs);
    assert_eq!(from_both_ends(map.clone().into_iter(), state), pairs);
    assert_eq!(from_both_ends(map.left_values(), state), map.left_values().collect::<Vec<_>>());
    assert_eq!(from_both_ends(map.right_values(), state), sorted(map.right_values().collect()));
    let (lefts, rights): ([L; 2], [R; 2]) = ([0; 2].map(|_| L::of(chance(state, 30))), [0; 2].map(|_| R::of(chance(state, 30))));
    assert_eq!(map.left_rank(&lefts[0]), pairs.iter().filter(|it| it.0 < lefts[0]).count());
    assert_eq!(map.right_rank(&rights[0]), pairs.iter().filter(|it| it.1 < rights[0]).count());
    let ends = [chance(state, 3), chance(state, 3)];
    let bounds = (bound(ends[0], &lefts[0]), bound(ends[1], &lefts[1]));
    let within: Vec<_> = pairs
        .iter()
        .filter(|it| std::ops::RangeBounds::contains(&bounds, &it.0))
        .cloned()
        .collect();
    assert_eq!(from_both_ends(map.left_range::<L, _>(bounds), state), within);
    let bounds = (bound(ends[0], &rights[0]), bound(ends[1], &rights[1]));
    let within: Vec<_> = pairs
        .iter()
        .filter(|it| std::ops::RangeBounds::contains(&bounds, &it.1))
        .cloned()
        .collect();
    assert_eq!(from_both_ends(map.right_range::<R, _>(bounds), state), by_rights(within));
    let tree: std::collections::BTreeMap<_, _> = pairs.into_iter().collect();
    let hasher = BuildHasherDefault::<DefaultHasher>::new();
    assert_eq!(hasher.hash_one(map), hasher.hash_one(tree));
}

/// Moves a pair to an end of the insertion order.
fn also_in_insertion_order<L: Value, R: Value>(map: &mut BiInsertionOrderMap<L, R>, model: &mut Model<L, R>, state: &mut u64) {
    let left = L::of(chance(state, 30));
    let pair = model.remove(|it| it.0 == left);
    if chance(state, 2) == 0 {
        assert_eq!(map.to_front(&left), pair.is_some());
        model.0.splice(0..0, pair);
    } else {
        assert_eq!(map.to_back(&left), pair.is_some());
        model.0.extend(pair);
    }
}

fn bound<T>(end: u64, it: &T) -> Bound<&T> {
    [Bound::Unbounded, Bound::Included(it), Bound::Excluded(it)][end as usize]
}

/// Tests the laws of two sides, and each kind of map over them.
macro_rules! over_sides {
    ($($name:ident: $L:ty, $R:ty;)*) => { $(
        mod $name {
            use super::*;

            #[test]
            fn laws() {
                check_ordered_side(&Vec::from_iter((0..30).map(<$L>::of)));
                check_ordered_side(&Vec::from_iter((0..30).map(<$R>::of)));
            }

            #[test]
            fn ordered() {
                beside::<$L, $R, Ordered>(sorted, also_ordered);
            }

            #[test]
            fn hashed() {
                beside::<$L, $R, Hashed>(sorted, |_, _, _| ());
            }

            #[test]
            fn in_insertion_order() {
                beside::<$L, $R, InsertionOrder>(|pairs| pairs, also_in_insertion_order);
            }
        }
    )* };
}

over_sides! {
    numbers: u64, i32;
    small_values: char, u16;
    texts_and_numbers: String, i64;
    numbers_and_texts: i32, String;
    numbers_and_bytes: usize, Vec<u8>;
    bytes: Vec<u8>, Vec<u8>;
    arrays_and_wide_numbers: [u8; 3], i128;
    pairs: (i64, String), (String, (Vec<u8>, u16));
    a_type_of_the_user: Seat, (i64, String);
}
