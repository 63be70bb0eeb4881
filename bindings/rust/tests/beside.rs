//! Tests what the crate `bimap` does not have: policies, refusals of memory, undo, ranks, ends and JSON. It also tests
//! maps with many pairs.
use jetukoma::{BiBTreeMap, BiHashMap, BiInsertionOrderMap, BiMap, Entry, NoMemory, NotInserted, OnHeld, Overwritten, Policy, Undoable};
use std::process::Command;

#[test]
fn policies() {
    let [overwrite, refuse] = [OnHeld::Overwrite, OnHeld::Refuse];
    let policy = |left, right| Policy { left, right };
    let mut bimap = BiBTreeMap::from_iter([(10, 1), (20, 2)]);
    assert_eq!(bimap.insert_with(10, 3, policy(refuse, overwrite)), Err((10, 3)));
    assert_eq!(bimap.insert_with(30, 1, policy(overwrite, refuse)), Err((30, 1)));
    assert_eq!(bimap.insert_with(10, 3, policy(overwrite, refuse)), Ok(Overwritten::Left(10, 1)));
    assert_eq!(bimap.insert_with(30, 3, policy(refuse, overwrite)), Ok(Overwritten::Right(10, 3)));
    assert_eq!(
        bimap.try_insert_with(30, 3, policy(refuse, refuse)),
        Err(NotInserted::Occupied(30, 3))
    );
    assert_eq!(bimap.try_insert_no_overwrite(40, 2), Err(NotInserted::Occupied(40, 2)));
    assert_eq!(bimap.try_insert(30, 2), Ok(Overwritten::Both((30, 3), (20, 2))));
    assert_eq!(bimap.iter().collect::<Vec<_>>(), [(30, 2)]);
}

#[test]
fn no_memory() {
    let mut bimap = BiMap::from_iter([(10, 1)]);
    let capacity = bimap.capacity();
    assert_eq!(bimap.try_reserve(usize::MAX), Err(NoMemory));
    assert_eq!(bimap.try_reserve(usize::MAX / 64), Err(NoMemory));
    assert_eq!((bimap.capacity(), bimap.len(), bimap.get_by_left(&10)), (capacity, 1, Some(1)));
    assert_eq!(NoMemory.to_string(), "no memory");
}

fn a_mib() -> Option<Vec<u8>> {
    let mut it = Vec::new();
    it.try_reserve_exact(1 << 20).is_ok().then_some(it)
}

/// The next test runs this one alone, with little memory.
#[test]
#[ignore]
fn starved() {
    let mut bimap = BiHashMap::new();
    let refused = (0..u64::MAX).find_map(|it| bimap.try_insert(it, it).err()).unwrap();
    let len = bimap.len() as u64;
    assert_eq!((refused, bimap.capacity() as u64), (NotInserted::Memory(len, len), len));
    assert_eq!(bimap.try_insert_no_overwrite(len, len), Err(NotInserted::Memory(len, len)));
    assert_eq!((bimap.get_by_left(&len), bimap.get_by_right(&(len - 1))), (None, Some(len - 1)));
    assert_eq!(bimap.try_insert(0, 1), Ok(Overwritten::Both((0, 0), (1, 1))));
    assert_eq!(bimap.try_insert(len, len), Ok(Overwritten::Neither));
    // No MiB is left then, and a map of one pair less needs more.
    let _taken: Vec<_> = std::iter::from_fn(a_mib).collect();
    let capacity = bimap.capacity();
    bimap.remove_by_left(&len);
    bimap.shrink_to_fit();
    assert_eq!((bimap.capacity(), bimap.get_by_left(&0)), (capacity, Some(1)));
}

#[test]
fn a_refused_insertion() {
    let little = r#"ulimit -v 150000 && exec "$0" --exact starved --ignored"#;
    let ran = Command::new("sh")
        .arg("-c")
        .arg(little)
        .arg(std::env::current_exe().unwrap())
        .output()
        .unwrap();
    let said = String::from_utf8_lossy(&ran.stdout);
    assert!(ran.status.success() && said.contains("1 passed"), "{said}");
}

#[test]
fn another_thread() {
    let mut bimap: BiBTreeMap<String, u64> = BiBTreeMap::new();
    bimap.insert("a".into(), 1);
    let bimap = std::thread::spawn(move || {
        bimap.insert("b".into(), 2);
        bimap
    });
    assert_eq!(bimap.join().unwrap().len(), 2);
}

#[test]
fn long_and_empty_bytes() {
    let (long, longer) = (vec![7; 100], vec![7; 100_000]);
    let mut bimap: BiBTreeMap<Vec<u8>, Vec<u8>> = BiBTreeMap::new();
    assert_eq!(bimap.insert(long.clone(), longer.clone()), Overwritten::Neither);
    assert_eq!(bimap.insert(vec![], long.clone()), Overwritten::Neither);
    assert_eq!(
        bimap.iter().collect::<Vec<_>>(),
        [(vec![], long.clone()), (long.clone(), longer.clone())]
    );
    assert_eq!(
        (bimap.get_by_left(&long), bimap.get_by_right(&longer)),
        (Some(longer.clone()), Some(long.clone()))
    );
    assert_eq!(
        bimap.insert(vec![], longer.clone()),
        Overwritten::Both((vec![], long.clone()), (long, longer.clone()))
    );
    assert_eq!(
        (bimap.pop_last_by_left(), bimap.pop_first_by_left()),
        (Some((vec![], longer)), None)
    );
    let mut letters: BiHashMap<String, u64> = BiHashMap::new();
    assert_eq!(letters.insert("zoë".into(), 1), Overwritten::Neither);
    assert_eq!(letters.remove_by_right(&1), Some(("zoë".into(), 1)));
}

#[test]
fn json() {
    let seats = BiBTreeMap::from_iter([("bob".to_string(), 7), ("ann".to_string(), u64::MAX), ("\"é\n".to_string(), 0)]);
    let text = r#"{"\"é\n":0,"ann":18446744073709551615,"bob":7}"#;
    assert_eq!(seats.to_json().as_deref(), Some(text));
    assert_eq!(BiBTreeMap::from_json(text).as_ref(), Some(&seats));
    let hashed: BiHashMap<Vec<u8>, u64> = BiHashMap::from_json(" { \"b\": 1, \"a\": 2 } ").unwrap();
    assert_eq!((hashed.len(), hashed.get_by_right(&2)), (2, Some(b"a".to_vec())));
    assert_eq!(hashed.to_json().as_deref(), Some(r#"{"a":2,"b":1}"#));
    for faulty in ["", "[]", r#"{"a":-1}"#, r#"{"a":"1"}"#, r#"{"a":1,"a":2}"#, r#"{"a":1,"b":1}"#] {
        assert_eq!(BiHashMap::<String, u64>::from_json(faulty).map(|it| it.len()), None, "{faulty}");
    }
    assert_eq!(BiBTreeMap::from_iter([(vec![255], 1)]).to_json(), None);
}

#[test]
fn marks() {
    let (mut state, mut map, mut saved) = (7_u64, Undoable::new(BiBTreeMap::new()), vec![BiBTreeMap::new()]);
    for step in 0..2000 {
        state = state.wrapping_mul(6364136223846793005).wrapping_add(1442695040888963407);
        let [left, right] = [state >> 40, state >> 50].map(|it| (it % 12) as u8);
        let changed = match state >> 60 {
            0 => map.remove_by_left(&left).is_some(),
            1 => map.remove_by_right(&right).is_some(),
            2 => {
                let refuse = Policy {
                    left: OnHeld::Refuse,
                    right: OnHeld::Overwrite,
                };
                map.insert_with(left, right, refuse).is_ok()
            }
            _ => {
                map.insert(left, right);
                true
            }
        };
        if changed {
            saved.push(map.clone());
        }
        assert_eq!(map.mark(), saved.len() - 1);
        if step % 10 == 0 {
            saved.truncate((state >> 30) as usize % saved.len() + 1);
            map.back_to(saved.len() - 1);
            assert_eq!(Some(&*map), saved.last());
        }
    }
    assert_eq!(map.changes_since(map.mark()), []);
    map.insert_with(
        77,
        77,
        Policy {
            left: OnHeld::Refuse,
            right: OnHeld::Refuse,
        },
    )
    .unwrap();
    assert_eq!(map.changes_since(map.mark() - 1), [Entry::Inserted(77, Overwritten::Neither)]);
}

#[test]
#[should_panic = "the mark 1 is above the number of changes, 0"]
fn a_mark_that_is_not_reached() {
    Undoable::new(BiMap::<u8, u8>::new()).back_to(1);
}

#[test]
fn ends_and_ranks() {
    let mut bimap = BiBTreeMap::from_iter((0..1000).map(|it| (it * 2, it)));
    assert_eq!(
        (bimap.left_rank(&10), bimap.left_rank(&11), bimap.left_rank(&u64::MAX)),
        (5, 6, 1000)
    );
    assert_eq!(
        (bimap.pop_first_by_left(), bimap.pop_last_by_left()),
        (Some((0, 0)), Some((1998, 999)))
    );
    let mut walk = bimap.left_range(100..);
    assert_eq!((walk.len(), walk.next(), walk.len()), (949, Some((100, 50)), 948));
    assert_eq!(
        walk.map(|it| it.0).collect::<Vec<_>>(),
        (51..999).map(|it| it * 2).collect::<Vec<_>>()
    );
}

#[test]
fn many_pairs() {
    let pairs: Vec<(u64, u64)> = (0..100_000).map(|it| (it * 7919 % 100_003, it)).collect();
    let mut ascending = pairs.clone();
    ascending.sort();
    let ordered = BiBTreeMap::from_iter(pairs.clone());
    assert!(ordered.right_values().eq(0..100_000) && ordered.right_values().rev().eq((0..100_000).rev()));
    let (range, within) = (ordered.right_range(5000..70_000), &pairs[5000..70_000]);
    assert!(range.clone().eq(within.iter().copied()) && range.rev().eq(within.iter().rev().copied()));
    assert_eq!(ordered.into_iter().collect::<Vec<_>>(), ascending);
    let mut walked: Vec<_> = BiMap::from_iter(pairs).into_iter().collect();
    walked.sort();
    assert_eq!(walked, ascending);
}

#[test]
fn many_bytes() {
    // Some names are longer than the buffer that the package begins with.
    let name = |it: u64| format!("{}{}", "x".repeat((it % 300) as usize), it * 7919 % 100_003);
    let pairs: Vec<(String, u64)> = (0..20_000).map(|it| (name(it), it)).collect();
    let both: Vec<(Vec<u8>, Vec<u8>)> = (0..5000).map(|it| (name(it).into_bytes(), name(it + 1).into_bytes())).collect();
    let (mut ascending, mut both_ascending) = (pairs.clone(), both.clone());
    ascending.sort();
    both_ascending.sort();
    let (ordered, mut by_rights) = (BiBTreeMap::from_iter(both.clone()), both.clone());
    by_rights.sort_by(|one, other| one.1.cmp(&other.1));
    assert!(ordered.right_range::<[u8], _>(..).eq(by_rights.iter().cloned()));
    assert!(ordered.right_values().rev().eq(by_rights.into_iter().rev().map(|it| it.1)));
    let ordered = BiBTreeMap::from_iter(pairs.clone());
    assert!(ordered.right_range(..).rev().eq(pairs.iter().rev().cloned()));
    assert_eq!(ordered.into_iter().collect::<Vec<_>>(), ascending);
    assert_eq!(BiInsertionOrderMap::from_iter(pairs.clone()).into_iter().collect::<Vec<_>>(), pairs);
    assert_eq!(BiInsertionOrderMap::from_iter(both.clone()).into_iter().collect::<Vec<_>>(), both);
    let mut hashed: Vec<_> = BiMap::from_iter(pairs).into_iter().collect();
    let mut both_hashed: Vec<_> = BiMap::from_iter(both).into_iter().collect();
    hashed.sort();
    both_hashed.sort();
    assert_eq!((hashed, both_hashed), (ascending, both_ascending));
    let none: BiHashMap<String, u64> = BiHashMap::new();
    assert_eq!(none.iter().next(), None);
}
