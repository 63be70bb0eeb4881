//! Tests what the documentation of the crate `bimap` says about its calls, at the types that this crate has.
use jetukoma::{BiBTreeMap, BiHashMap, BiInsertionOrderMap, BiMap, Overwritten};
use std::collections::HashSet;

/// Returns a text, or its bytes.
fn s<T: From<&'static str>>(text: &'static str) -> T {
    text.into()
}

/// The tests, for each kind of map.
macro_rules! of_each_kind {
    ($($test:item)*) => {
        mod ordered {
            use super::*;
            type Map<L, R> = BiBTreeMap<L, R>;
            $($test)*
        }
        mod hashed {
            use super::*;
            type Map<L, R> = BiHashMap<L, R>;
            $($test)*
        }
        mod in_insertion_order {
            use super::*;
            type Map<L, R> = BiInsertionOrderMap<L, R>;
            $($test)*
        }
    };
}

of_each_kind! {
    #[test]
    fn elements() {
        let mut elements: Map<Vec<u8>, Vec<u8>> = Map::new();
        for (name, symbol) in [("hydrogen", "H"), ("carbon", "C"), ("bromine", "Br"), ("neodymium", "Nd")] {
            elements.insert(s(name), s(symbol));
        }
        assert_eq!(elements.get_by_left(&b"bromine"[..]), Some(s("Br")));
        assert_eq!(elements.get_by_left(&b"oxygen"[..]), None);
        assert_eq!(elements.get_by_right(&b"C"[..]), Some(s("carbon")));
        assert_eq!(elements.get_by_right(&b"Al"[..]), None);
        assert!(elements.contains_left(&b"hydrogen"[..]));
        assert!(!elements.contains_right(&b"He"[..]));
        assert_eq!(elements.remove_by_left(&b"neodymium"[..]), Some((s("neodymium"), s("Nd"))));
        assert_eq!(elements.remove_by_right(&b"Nd"[..]), None);
        assert_eq!(elements.len(), 3);
    }

    #[test]
    fn insert() {
        let mut bimap = Map::new();
        assert_eq!(bimap.len(), 0);
        assert_eq!(bimap.insert(s::<String>("a"), 1), Overwritten::Neither);
        assert_eq!(bimap.len(), 1);
        assert_eq!(bimap.insert(s("b"), 2), Overwritten::Neither);
        assert_eq!(bimap.len(), 2);
        assert_eq!(bimap.insert(s("a"), 4), Overwritten::Left(s("a"), 1));
        assert_eq!(bimap.len(), 2);
        assert_eq!(bimap.insert(s("c"), 2), Overwritten::Right(s("b"), 2));
        assert_eq!(bimap.len(), 2);
        assert_eq!(bimap.insert(s("a"), 2), Overwritten::Both((s("a"), 4), (s("c"), 2)));
        assert_eq!(bimap.len(), 1);
        assert_eq!(bimap.insert(s("a"), 2), Overwritten::Pair(s("a"), 2));
        assert_eq!(bimap.len(), 1);
    }

    #[test]
    fn insert_numbers() {
        let mut bimap = Map::new();
        assert_eq!(bimap.insert(10, 1), Overwritten::Neither);
        assert_eq!(bimap.insert(20, 2), Overwritten::Neither);
        assert_eq!(bimap.insert(10, 4), Overwritten::Left(10, 1));
        assert_eq!(bimap.insert(30, 2), Overwritten::Right(20, 2));
        assert_eq!(bimap.insert(10, 2), Overwritten::Both((10, 4), (30, 2)));
        assert_eq!(bimap.insert(10, 2), Overwritten::Pair(10, 2));
        assert_eq!(bimap.into_iter().collect::<Vec<_>>(), [(10, 2)]);
    }

    #[test]
    fn insert_no_overwrite() {
        let mut bimap = Map::new();
        assert_eq!(bimap.insert_no_overwrite(s::<String>("a"), 1), Ok(()));
        assert_eq!(bimap.insert_no_overwrite(s("b"), 2), Ok(()));
        assert_eq!(bimap.insert_no_overwrite(s("a"), 3), Err((s("a"), 3)));
        assert_eq!(bimap.insert_no_overwrite(s("c"), 2), Err((s("c"), 2)));
        assert_eq!(bimap.len(), 2);
    }

    #[test]
    fn removals() {
        let mut bimap: Map<String, u64> = [("a", 1), ("b", 2), ("c", 3)].map(|(l, r)| (s(l), r)).into_iter().collect();
        assert_eq!(bimap.remove_by_left("b"), Some((s("b"), 2)));
        assert_eq!(bimap.remove_by_left("b"), None);
        bimap.insert(s("b"), 2);
        assert_eq!(bimap.remove_by_right(&2), Some((s("b"), 2)));
        assert_eq!(bimap.remove_by_right(&2), None);
        bimap.clear();
        assert_eq!((bimap.is_empty(), bimap.len()), (true, 0));
    }

    #[test]
    fn look_ups() {
        let bimap: Map<String, u64> = [(s("a"), 1)].into_iter().collect();
        assert_eq!((bimap.get_by_left("a"), bimap.get_by_left("z")), (Some(1), None));
        assert_eq!((bimap.get_by_right(&1), bimap.get_by_right(&2)), (Some(s("a")), None));
        assert!(bimap.contains_left("a") && !bimap.contains_left(&s::<String>("b")));
        assert!(bimap.contains_right(&1) && !bimap.contains_right(&2));
    }

    #[test]
    fn later_pairs_overwrite() {
        let bimap = Map::from_iter([(10, 1), (20, 2), (30, 2)]);
        assert_eq!((bimap.len(), bimap.get_by_left(&20), bimap.get_by_left(&30)), (2, None, Some(2)));
        let bimap = Map::from_iter([(10, 1), (20, 2), (30, 3), (20, 2), (10, 4), (20, 3)]);
        assert_eq!(bimap, Map::from_iter([(10, 4), (20, 3)]));
        let mut bimap = Map::from_iter([(10, 3), (20, 2)]);
        bimap.extend([(30, 3), (20, 1), (10, 4)]);
        assert_eq!(bimap, Map::from_iter([(10, 4), (20, 1), (30, 3)]));
    }

    #[test]
    fn equality_and_copies() {
        let mut bimap = Map::default();
        assert_eq!(bimap, Map::new());
        bimap.insert(10, 1);
        bimap.insert(20, 2);
        let mut other = bimap.clone();
        assert_eq!(bimap, other);
        bimap.insert(20, 5);
        assert_ne!(bimap, other);
        assert_eq!(other.remove_by_left(&10), Some((10, 1)));
        assert_eq!((bimap.get_by_right(&1), other.get_by_right(&2)), (Some(10), Some(20)));
        assert_ne!(Map::from_iter([(10, 1)]), Map::from_iter([(10, 1), (20, 2)]));
    }

    #[test]
    fn walks() {
        let bimap = Map::from_iter([(30, 1), (10, 3), (20, 2)]);
        let mut pairs: Vec<_> = bimap.iter().collect();
        assert_eq!(pairs, (&bimap).into_iter().collect::<Vec<_>>());
        pairs.sort();
        assert_eq!(pairs, [(10, 3), (20, 2), (30, 1)]);
        let (mut lefts, mut rights): (Vec<_>, Vec<_>) = (bimap.left_values().collect(), bimap.right_values().collect());
        lefts.sort();
        rights.sort();
        assert_eq!((lefts, rights), (vec![10, 20, 30], vec![1, 2, 3]));
        let mut pairs: Vec<_> = bimap.into_iter().collect();
        pairs.sort();
        assert_eq!(pairs, [(10, 3), (20, 2), (30, 1)]);
    }

    #[test]
    fn retain() {
        let mut bimap = Map::from_iter([(10, 1), (20, 2), (30, 3)]);
        bimap.retain(|&left, _| left != 20);
        assert_eq!(bimap.len(), 2);
        assert_eq!([1, 2, 3].map(|right| bimap.get_by_right(&right)), [Some(10), None, Some(30)]);
        let mut calls = 0;
        bimap.extend([(20, 2)]);
        bimap.retain(|_, _| {
            calls += 1;
            calls <= 1
        });
        assert_eq!((calls, bimap.len()), (3, 1));
    }

    #[test]
    fn capacity() {
        let mut bimap: Map<u64, u64> = Map::new();
        assert_eq!(bimap.capacity(), 0);
        bimap.reserve(10);
        assert!(bimap.is_empty() && bimap.capacity() >= 10);
        assert!(Map::<String, u64>::with_capacity(10).capacity() >= 10);
    }

    #[test]
    fn debug() {
        let mut bimap = Map::new();
        assert_eq!(format!("{bimap:?}"), "{}");
        bimap.insert(10, 1);
        assert_eq!(format!("{bimap:?}"), "{10 <> 1}");
        bimap.insert(20, 2);
        let text = format!("{bimap:?}");
        assert!(text == "{10 <> 1, 20 <> 2}" || text == "{20 <> 2, 10 <> 1}", "{text}");
    }
}

#[test]
fn ordered_walks_ascend() {
    let [b, d] = [s::<String>("b"), s("d")];
    let bimap: BiBTreeMap<String, u64> = [("d", 1), ("b", 3), ("a", 4), ("c", 2)]
        .map(|(l, r)| (s(l), r))
        .into_iter()
        .collect();
    assert_eq!(
        bimap.iter().collect::<Vec<_>>(),
        [(s("a"), 4), (s("b"), 3), (s("c"), 2), (s("d"), 1)]
    );
    assert_eq!(bimap.left_values().collect::<Vec<String>>(), ["a", "b", "c", "d"]);
    assert_eq!(bimap.right_values().collect::<Vec<_>>(), [1, 2, 3, 4]);
    assert_eq!(format!("{bimap:?}"), r#"{"a" <> 4, "b" <> 3, "c" <> 2, "d" <> 1}"#);
    assert_eq!(
        bimap.left_range(b.clone()..d.clone()).collect::<Vec<_>>(),
        [(s("b"), 3), (s("c"), 2)]
    );
    assert_eq!(
        bimap.left_range(b.clone()..=d.clone()).map(|it| it.1).collect::<Vec<_>>(),
        [3, 2, 1]
    );
    assert_eq!(bimap.left_range::<str, _>(..).len(), 4);
    assert_eq!(bimap.left_range(b.clone()..b.clone()).len(), 0);
    assert_eq!(bimap.left_range(d..b).next(), None);
}

#[test]
fn ordered_maps_compare_and_hash() {
    let of = |pairs: &[(u64, u64)]| pairs.iter().copied().collect::<BiBTreeMap<u64, u64>>();
    assert!(of(&[(1, 2)]) < of(&[(2, 1)]) && of(&[(1, 1)]) < of(&[(1, 1), (2, 2)]) && of(&[(1, 1)]) < of(&[(1, 2)]));
    let lists: [&[(u64, u64)]; 5] = [
        &[],
        &[(0, 0)],
        &[(0, 0), (0, 1), (1, 0)],
        &[(1, 0), (0, 1), (0, 0)],
        &[(0, 1), (1, 0)],
    ];
    assert_eq!(lists.map(of).into_iter().collect::<HashSet<_>>().len(), 3);
}

#[test]
fn insertion_order() {
    let mut bimap = BiInsertionOrderMap::from_iter([(30, 1), (10, 2), (20, 3)]);
    // The first pair keeps the position of the left 30. The other one overwrites the pair of the right 2.
    bimap.extend([(30, 4), (40, 2)]);
    assert_eq!(bimap.iter().collect::<Vec<_>>(), [(30, 4), (20, 3), (40, 2)]);
    assert_eq!(bimap.right_values().collect::<Vec<_>>(), [4, 3, 2]);
    assert_eq!(format!("{:?}", bimap.clone()), "{30 <> 4, 20 <> 3, 40 <> 2}");
    assert_eq!((bimap.pop_first(), bimap.pop_last()), (Some((30, 4)), Some((40, 2))));
    assert_eq!((bimap.pop_last(), bimap.pop_first()), (Some((20, 3)), None));
    let mut bimap: BiInsertionOrderMap<String, u64> = [("b", 1), ("a", 2)].map(|(l, r)| (s(l), r)).into_iter().collect();
    assert!(bimap.to_back("b") && bimap.to_front("b") && !bimap.to_front("c") && !bimap.to_back("c"));
    assert_eq!(bimap.pop_first(), Some((s("b"), 1)));
}

#[test]
fn did_overwrite() {
    let mut bimap: BiMap<String, u64> = BiMap::new();
    assert!(!bimap.insert(s("a"), 1).did_overwrite());
    assert!(bimap.insert(s("a"), 2).did_overwrite());
}
