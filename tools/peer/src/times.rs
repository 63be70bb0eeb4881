//! Makes the calls of `crates/tool_bench` on a crate that is named `bimap`. This is the Rust crate, or the bindings
//! for Rust. The feature `ends` adds the calls at the ends of the order, which are not timed from the bindings.
use bimap::{BiBTreeMap, BiHashMap, Overwritten};
use std::time::Instant;

/// The keys of a run, as in `crates/tool_bench`.
#[derive(Clone, Copy)]
struct Keys {
    pairs: u64,
    lefts: u64,
    rights: u64,
    step: u64,
}

impl Keys {
    fn new(pairs: u64, is_rising: bool) -> Self {
        if is_rising {
            return Keys { pairs, lefts: 1, rights: 1, step: 1 };
        }
        let prime = if pairs % 7919 == 0 { 7907u64 } else { 7919 };
        let step = prime.checked_rem(pairs).unwrap_or(0);
        Keys { pairs, lefts: 0x9E37_79B9_7F4A_7C15, rights: 0xD1B5_4A32_D192_ED03, step }
    }

    fn left(&self, number: u64) -> u64 {
        number.wrapping_mul(self.lefts)
    }

    fn right(&self, number: u64) -> u64 {
        number.wrapping_mul(self.rights)
    }

    /// Returns how many of the numbers that are looked up pass a test.
    fn count(&self, mut test: impl FnMut(u64) -> bool) -> u64 {
        let (mut found, mut number) = (0, 0u64);
        for _ in 0..self.pairs {
            found += u64::from(test(number));
            let next = number.wrapping_add(self.step);
            number = if next < self.pairs { next } else { next.wrapping_sub(self.pairs) };
        }
        found
    }
}

fn timed(kind: &str, call: &str, pairs: u64, work: impl FnOnce() -> u64) {
    let start = Instant::now();
    let found = work();
    let tenths = start.elapsed().as_nanos() * 10 / u128::from(pairs.max(1));
    println!("{kind} {call} {}.{} {found}", tenths / 10, tenths % 10);
}

/// Returns how many bytes of memory the process has for itself.
fn memory() -> u64 {
    let text = std::fs::read_to_string("/proc/self/statm").unwrap_or_default();
    let mut pages = text.split(' ').skip(1).map(|word| word.parse().unwrap_or(0u64));
    let (all, shared) = (pages.next().unwrap_or(0), pages.next().unwrap_or(0));
    all.saturating_sub(shared) * 4096
}

macro_rules! measure {
    ($kind:ident, $keys:expr $(, $rev:ident, $values:ident)?) => {{
        let (name, keys, n) = (stringify!($kind), $keys, $keys.pairs);
        let mut bimap: $kind<u64, u64> = $kind::new();
        // Inserts the pair of a number, and returns whether this overwrites a pair.
        let put = |bimap: &mut $kind<u64, u64>, at: u64, apart: u64| {
            let right = keys.right(at.wrapping_add(apart));
            bimap.insert(keys.left(at), right) != Overwritten::Neither
        };
        let insert = |bimap: &mut $kind<u64, u64>, apart: u64| {
            (0..n).filter(|at| put(bimap, *at, apart)).count() as u64
        };
        let before = memory();
        timed(name, "insert", n, || insert(&mut bimap, 0));
        println!("{name} bytes {} 0", memory().saturating_sub(before) / n.max(1));
        timed(name, "hit-by-left", n, || {
            keys.count(|at| bimap.get_by_left(&keys.left(at)).is_some())
        });
        timed(name, "hit-by-right", n, || {
            keys.count(|at| bimap.get_by_right(&keys.right(at)).is_some())
        });
        timed(name, "miss-by-left", n, || {
            keys.count(|at| bimap.get_by_left(&keys.left(at + n)).is_some())
        });
        timed(name, "same-pair", n, || insert(&mut bimap, 0));
        timed(name, "overwrite", n, || insert(&mut bimap, n));
        timed(name, "walk", n, || bimap.iter().fold(0, |sum, (l, r)| sum.wrapping_add(l ^ r)));
        $(
            #[cfg(feature = "ends")]
            timed(name, "walk-back", n, || {
                bimap.iter().$rev().fold(0, |sum, (l, r)| sum.wrapping_add(l ^ r))
            });
        )?
        let mut copy: $kind<u64, u64> = $kind::new();
        timed(name, "clone", n, || {
            copy = bimap.clone();
            copy.len() as u64
        });
        $(
            #[cfg(feature = "ends")]
            {
                // Removes the first pair, and returns its `left ^ right`. The crate has no such call, so this finds the
                // least left first.
                let pop = |bimap: &mut $kind<u64, u64>| {
                    let left = bimap.$values().next().copied();
                    left.and_then(|left| bimap.remove_by_left(&left)).map_or(0, |(l, r)| l ^ r)
                };
                timed(name, "queue", n, || {
                    (0..n).fold(0, |sum: u64, at| {
                        put(&mut copy, n + at, n);
                        sum.wrapping_add(pop(&mut copy))
                    })
                });
                timed(name, "pop-first", n, || {
                    (0..n).fold(0, |sum: u64, _| sum.wrapping_add(pop(&mut copy)))
                });
            }
        )?
        timed(name, "remove", n, || {
            keys.count(|at| bimap.remove_by_left(&keys.left(at)).is_some())
        });
    }};
}

/// Makes the calls on a new map of this kind, and prints a line for each: its time, and what it found.
pub fn times(pairs: &str, keys: &str, kind: &str) {
    let keys = Keys::new(pairs.parse().unwrap_or(1000), keys == "rising");
    match kind {
        "BiBTreeMap" => measure!(BiBTreeMap, keys, rev, left_values),
        "BiHashMap" => measure!(BiHashMap, keys),
        kind => eprintln!("peer: no kind {kind}"),
    }
}
