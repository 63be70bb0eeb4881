//! Tables with numbers on both sides.
use super::*;

#[repr(C)]
#[derive(Clone, Copy, Default)]
struct Pair {
    left: u64,
    right: u64,
}

impl Pair {
    fn parts(self) -> (u64, u64) {
        (self.left, self.right)
    }
}

#[repr(C)]
#[derive(Default)]
struct Answer {
    kind: u32,
    pairs: [Pair; 2],
}

#[inline]
fn pair(call: impl FnOnce(*mut Pair) -> u32) -> Asked<(u64, u64)> {
    let mut it = Pair::default();
    Ok(found(call(&mut it))?.then_some(it.parts()))
}

/// A call that writes pairs from a position on.
type Fill = unsafe extern "C" fn(handle: *mut Raw, start: usize, row: *mut Pair, most: usize, filled: *mut usize) -> u32;

fn pairs(handle: &Handle<U64U64>, fill: Fill, start: usize, most: usize) -> Vec<(u64, u64)> {
    let (mut row, mut filled) = (Vec::<Pair>::with_capacity(most), 0);
    sure(unsafe { fill(handle.raw.get(), start, row.as_mut_ptr(), most, &mut filled) });
    // SAFETY: the library has written this many pairs, and there is room for `most`.
    unsafe { row.set_len(filled) };
    row.into_iter().map(Pair::parts).collect()
}

pub struct U64U64;

external! { "u64_u64":
    new(kind: u32, seed: u64); clone(copy: *mut Raw); equals(other: *mut Raw); free();
    len(it: *mut usize); capacity(it: *mut usize); reserve(more: usize); shrink_to(least: usize); clear();
    insert_with(left: u64, right: u64, left_refuses: u8, right_refuses: u8, told: *mut Answer);
    get_by_left(left: u64, right: *mut u64); get_by_right(right: u64, left: *mut u64);
    contains_left(left: u64); contains_right(right: u64);
    remove_by_left(left: u64, it: *mut Pair); remove_by_right(right: u64, it: *mut Pair);
    left_rank(left: u64, it: *mut usize); right_rank(right: u64, it: *mut usize);
    pop_first(it: *mut Pair); pop_last(it: *mut Pair); to_front(left: u64); to_back(left: u64);
    fill(start: usize, row: *mut Pair, most: usize, filled: *mut usize);
    fill_by_right(start: usize, row: *mut Pair, most: usize, filled: *mut usize);
}

impl Library for U64U64 {
    type Left = u64;
    type Right = u64;
    const LONGEST: usize = 1024;
    plain!();
    #[inline]
    fn insert_with(handle: &Handle<Self>, left: &u64, right: &u64, policy: Policy) -> Result<Told<Self>, Refusal> {
        let mut told = Answer::default();
        let [l, r] = policy.flags();
        done(unsafe { insert_with(handle.raw.get(), *left, *right, l, r, &mut told) })?;
        Ok(overwritten(told.kind, |at| told.pairs[at].parts()))
    }
    #[inline]
    fn get_by_left(handle: &Handle<Self>, left: &u64) -> Asked<u64> {
        number(|it| unsafe { get_by_left(handle.raw.get(), *left, it) })
    }
    #[inline]
    fn get_by_right(handle: &Handle<Self>, right: &u64) -> Asked<u64> {
        number(|it| unsafe { get_by_right(handle.raw.get(), *right, it) })
    }
    #[inline]
    fn contains_left(handle: &Handle<Self>, left: &u64) -> Result<bool, Refusal> {
        found(unsafe { contains_left(handle.raw.get(), *left) })
    }
    #[inline]
    fn contains_right(handle: &Handle<Self>, right: &u64) -> Result<bool, Refusal> {
        found(unsafe { contains_right(handle.raw.get(), *right) })
    }
    #[inline]
    fn remove_by_left(handle: &Handle<Self>, left: &u64) -> Asked<(u64, u64)> {
        pair(|it| unsafe { remove_by_left(handle.raw.get(), *left, it) })
    }
    #[inline]
    fn remove_by_right(handle: &Handle<Self>, right: &u64) -> Asked<(u64, u64)> {
        pair(|it| unsafe { remove_by_right(handle.raw.get(), *right, it) })
    }
    fn left_rank(handle: &Handle<Self>, left: &u64) -> Result<usize, Refusal> {
        size(|it| unsafe { left_rank(handle.raw.get(), *left, it) })
    }
    fn right_rank(handle: &Handle<Self>, right: &u64) -> Result<usize, Refusal> {
        size(|it| unsafe { right_rank(handle.raw.get(), *right, it) })
    }
    fn pop_first(handle: &Handle<Self>) -> Option<(u64, u64)> {
        pair(|it| unsafe { pop_first(handle.raw.get(), it) }).ok().flatten()
    }
    fn pop_last(handle: &Handle<Self>) -> Option<(u64, u64)> {
        pair(|it| unsafe { pop_last(handle.raw.get(), it) }).ok().flatten()
    }
    fn to_front(handle: &Handle<Self>, left: &u64) -> Result<bool, Refusal> {
        found(unsafe { to_front(handle.raw.get(), *left) })
    }
    fn to_back(handle: &Handle<Self>, left: &u64) -> Result<bool, Refusal> {
        found(unsafe { to_back(handle.raw.get(), *left) })
    }
    fn row_by_right(handle: &Handle<Self>, start: usize, most: usize) -> Vec<(u64, u64)> {
        pairs(handle, fill_by_right, start, most)
    }
    fn row(handle: &Handle<Self>, start: usize, most: usize) -> Vec<(u64, u64)> {
        pairs(handle, fill, start, most)
    }
}
