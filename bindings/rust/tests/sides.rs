//! Tests the sides: the laws at the ends of each type of std, faulty types, and panics in a type of the user. It also
//! tests what holds for maps of any types.
use jetukoma::kind::{Hashed, InsertionOrder, Ordered, Seeded};
use jetukoma::side::{Bytes, Key, Number, Side, check_ordered_side, check_side};
use jetukoma::{BiBTreeMap, BiHashMap, BiInsertionOrderMap, BiMap, BijectiveMap, Overwritten, btree, hash, iter};
use std::borrow::{Borrow, Cow};
use std::cell::Cell;
use std::hash::{BuildHasherDefault, DefaultHasher};
use std::ops::Bound::{Excluded, Included, Unbounded};
use std::panic::{AssertUnwindSafe, RefUnwindSafe, UnwindSafe, catch_unwind};

#[test]
fn laws_of_std() {
    macro_rules! integers {
        ($($type:ident)*) => { $( check_ordered_side(&[$type::MIN, $type::MIN + 1, $type::MAX / 2, $type::MAX - 1, $type::MAX, 0, 1]); )* };
    }
    integers! { u8 u16 u32 u64 u128 usize i8 i16 i32 i64 i128 isize }
    check_ordered_side(&[-1_i128, -2, 1 << 64, -(1 << 64)]);
    check_ordered_side(&[false, true]);
    check_ordered_side(&[()]);
    check_ordered_side(&['\0', 'a', '\u{d7ff}', '\u{e000}', char::MAX]);
    check_ordered_side(&["", "\0", "a", "a\0", "ab", "é", "\u{ffff}", "\u{10ffff}"].map(String::from));
    check_ordered_side(&[[0_u8; 2], [0, 1], [1, 0], [255, 255]]);
    check_ordered_side(&[[0_u8; 0]]);
    let bytes = [
        vec![],
        vec![0],
        vec![0, 0],
        vec![0, 1],
        vec![0, 255],
        vec![1],
        vec![1, 0],
        vec![255],
        vec![255, 255],
    ];
    check_ordered_side(&bytes);
    let firsts = bytes
        .iter()
        .flat_map(|first| bytes.iter().map(|last| (first.clone(), last.clone())));
    check_ordered_side(&Vec::from_iter(firsts.clone()));
    check_ordered_side(&Vec::from_iter(firsts.clone().map(|(first, last)| ((first, -1_i8), last))));
    check_ordered_side(&Vec::from_iter(
        firsts.map(|(first, last)| (i128::from(last.len() as i8) - 1, (first, true))),
    ));
}

/// A type whose form and value are functions that a test chooses.
#[derive(Clone, Copy, Debug, Eq, Ord, PartialEq, PartialOrd)]
struct Odd<const FAULT: u8>(u64);

impl<const FAULT: u8> Side for Odd<FAULT> {
    type Form = Number;
    fn to_form(&self) -> u64 {
        match FAULT {
            2 => self.0 / 2,
            3 => !self.0,
            _ => self.0,
        }
    }
    fn from_form(form: u64) -> Self {
        Odd(match FAULT {
            1 => form + 1,
            2 => form * 2 + 1,
            3 => !form,
            _ => form,
        })
    }
}

#[test]
#[should_panic = "read as another value"]
fn a_form_is_read_as_another_value() {
    check_side(&[Odd::<1>(5)]);
}

#[test]
#[should_panic = "are the forms equal"]
fn two_values_have_one_form() {
    #[derive(Debug)]
    struct Loose(u64);
    impl PartialEq for Loose {
        fn eq(&self, other: &Loose) -> bool {
            self.0 % 10 == other.0 % 10
        }
    }
    impl Side for Loose {
        type Form = Number;
        fn to_form(&self) -> u64 {
            self.0
        }
        fn from_form(form: u64) -> Loose {
            Loose(form)
        }
    }
    check_side(&[Loose(5), Loose(15)]);
}

#[test]
#[should_panic = "the order of the forms"]
fn forms_have_another_order() {
    check_side(&[Odd::<3>(5), Odd(7)]);
    check_ordered_side(&[Odd::<3>(5), Odd(7)]);
}

/// A name, which is borrowed as a `str`. Its functions panic while the cell says so.
#[derive(Clone, Debug, Eq, Hash, Ord, PartialEq, PartialOrd)]
struct Name(String);

thread_local!(static PANICS: Cell<bool> = const { Cell::new(false) });

fn may_panic() {
    assert!(!PANICS.get(), "as the test wants");
}

impl Side for Name {
    type Form = Bytes;
    fn to_form(&self) -> Cow<'_, [u8]> {
        may_panic();
        self.0.form()
    }
    fn from_form(form: Vec<u8>) -> Name {
        may_panic();
        Name(String::from_form(form))
    }
}

impl Borrow<str> for Name {
    fn borrow(&self) -> &str {
        &self.0
    }
}

/// Makes a call in which a side panics.
fn panics<T>(call: impl FnOnce() -> T) {
    PANICS.set(true);
    let ended = catch_unwind(AssertUnwindSafe(call)).is_err();
    PANICS.set(false);
    assert!(ended);
}

#[test]
fn a_panic_leaves_the_map_whole() {
    fn tested<K: Seeded>() {
        let name = |it: &str| Name(it.to_string());
        let full: BijectiveMap<Name, Name, K> = [("a", "x"), ("b", "y"), ("c", "z")]
            .map(|(l, r)| (name(l), name(r)))
            .into_iter()
            .collect();
        let mut map = full.clone();
        panics(|| map.get_by_left("a"));
        panics(|| map.get_by_right(&name("x")));
        panics(|| map.iter().count());
        panics(|| map.insert(name("d"), name("w")));
        panics(|| map.remove_by_left(&name("a")));
        panics(|| map.retain(|_, _| false));
        let mut calls = 0;
        let retained = catch_unwind(AssertUnwindSafe(|| {
            map.retain(|_, _| {
                calls += 1;
                assert!(calls < 3);
                false
            })
        }));
        assert!(retained.is_err() && map == full);
        // The pair is removed before it is returned.
        panics(|| map.remove_by_left("a"));
        assert_eq!((map.len(), map.contains_right("x")), (2, false));
        assert_eq!(map.get_by_left("b"), Some(name("y")));
    }
    tested::<Ordered>();
    tested::<Hashed>();
    tested::<InsertionOrder>();
}

#[test]
fn borrowed_forms() {
    let map: BiBTreeMap<Name, [u8; 2]> = [("b", [1, 0]), ("a", [0, 1]), ("c", [9, 9])]
        .map(|(l, r)| (Name(l.into()), r))
        .into_iter()
        .collect();
    assert_eq!((map.get_by_left("a"), map.get_by_left(&Name("z".into()))), (Some([0, 1]), None));
    assert_eq!(
        (map.get_by_right(&[1, 0][..]), map.contains_right(&[1, 1])),
        (Some(Name("b".into())), false)
    );
    assert_eq!(map.left_range::<str, _>((Excluded("a"), Included("b"))).count(), 1);
    assert_eq!((map.left_rank("b"), map.right_rank(&[9][..])), (1, 2));
    let below_five = (Unbounded, Excluded(&[5][..]));
    assert_eq!(
        map.right_range::<[u8], _>(below_five).map(|it| it.1).collect::<Vec<_>>(),
        [[0, 1], [1, 0]]
    );
}

#[test]
fn promises_of_the_types() {
    fn promised<T: Send + UnwindSafe + RefUnwindSafe>() {}
    promised::<BiBTreeMap<u64, String>>();
    promised::<BiHashMap<u64, String>>();
    promised::<BiInsertionOrderMap<(i8, char), [u8; 4]>>();
    promised::<btree::IntoIter<u64, String>>();
    let map = std::thread::spawn(|| BiMap::from_iter([('a', 1)])).join().unwrap();
    assert_eq!(map.get_by_left(&'a'), Some(1));
}

#[test]
fn iterators() {
    fn all<I: Clone + ExactSizeIterator + std::iter::FusedIterator + std::fmt::Debug>(mut walk: I, shown: [&str; 2]) {
        assert_eq!((walk.len(), format!("{walk:?}")), (3, shown[0].to_string()));
        let clone = walk.clone();
        walk.next();
        assert_eq!((walk.len(), format!("{walk:?}")), (2, shown[1].to_string()));
        assert_eq!((clone.count(), walk.count()), (3, 2));
    }
    let map: BiBTreeMap<char, u8> = BiBTreeMap::from_iter([('a', 3), ('b', 2), ('c', 1)]);
    let pairs = ["[('a', 3), ('b', 2), ('c', 1)]", "[('b', 2), ('c', 1)]"];
    let walks: (btree::Iter<_, _>, btree::LeftValues<_, _>, btree::RightValues<_, _>) = (map.iter(), map.left_values(), map.right_values());
    all(walks.0, pairs);
    all(walks.1, ["['a', 'b', 'c']", "['b', 'c']"]);
    all(walks.2, ["[1, 2, 3]", "[2, 3]"]);
    let ranges: (btree::LeftRange<_, _>, btree::RightRange<_, _>) = (map.left_range('a'..='c'), map.right_range(1..=3));
    all(ranges.0, pairs);
    all(ranges.1, ["[('c', 1), ('b', 2), ('a', 3)]", "[('b', 2), ('a', 3)]"]);
    let in_order: BiInsertionOrderMap<char, u8> = map.iter().collect();
    all(in_order.iter(), pairs);
    all(in_order.right_values(), ["[3, 2, 1]", "[2, 1]"]);
    let hashed: BiHashMap<char, u8> = map.iter().collect();
    let (walk, rest): (hash::Iter<_, _>, hash::IntoIter<_, _>) = (hashed.iter(), hashed.clone().into_iter());
    assert_eq!(walk.collect::<Vec<_>>(), rest.collect::<Vec<_>>());
    let mut rest: iter::IntoIter<_, _, Ordered> = map.into_iter();
    rest.next_back();
    assert_eq!(format!("{rest:?}"), "[('a', 3), ('b', 2)]");
}

#[test]
fn hash_builders() {
    type Fixed = BuildHasherDefault<DefaultHasher>;
    type Map = BiHashMap<u64, u64, Fixed, Fixed>;
    let pairs = || (0..100).map(|it| (it, it * it));
    let one = Map::from_iter(pairs());
    let mut other = Map::with_capacity_and_hashers(100, Fixed::new(), Fixed::new());
    assert!(other.capacity() >= 100);
    other.extend(pairs());
    assert_eq!(one.iter().collect::<Vec<_>>(), other.iter().collect::<Vec<_>>());
    assert_eq!(one, other.clone());
    assert!(Map::default() == Map::with_hashers(Fixed::new(), Fixed::new()));
}

#[test]
fn debug_with_flags() {
    let map = BiBTreeMap::from_iter([('a', 1), ('b', 20)]);
    assert_eq!(format!("{map:?}"), "{'a' <> 1, 'b' <> 20}");
    assert_eq!(format!("{map:02?}"), "{'a' <> 01, 'b' <> 20}");
    assert_eq!(format!("{map:#?}"), "{\n    'a' <> 1,\n    'b' <> 20,\n}");
}

#[test]
fn an_iterator_that_claims_too_much() {
    struct Claims(std::vec::IntoIter<(char, i32)>);
    impl Iterator for Claims {
        type Item = (char, i32);
        fn next(&mut self) -> Option<(char, i32)> {
            self.0.next()
        }
        fn size_hint(&self) -> (usize, Option<usize>) {
            (usize::MAX, None)
        }
    }
    let map: BiMap<_, _> = Claims(vec![('a', 1), ('a', 2)].into_iter()).collect();
    assert_eq!(map.iter().collect::<Vec<_>>(), [('a', 2)]);
}

#[test]
fn shrinking() {
    let mut map: BiInsertionOrderMap<String, u64> = BiInsertionOrderMap::with_capacity(100);
    map.extend([("b".to_string(), 1), ("a".to_string(), 2)]);
    let capacity = map.capacity();
    map.shrink_to(1000);
    assert_eq!((map.capacity(), capacity >= 100), (capacity, true));
    map.shrink_to(10);
    assert_eq!(map.capacity(), 10);
    map.shrink_to_fit();
    assert_eq!(map.capacity(), 2);
    assert_eq!(map.insert("c".to_string(), 1), Overwritten::Right("b".to_string(), 1));
    assert_eq!(format!("{map:?}"), r#"{"a" <> 2, "c" <> 1}"#);
}
