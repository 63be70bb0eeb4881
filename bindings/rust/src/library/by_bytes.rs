//! Tables with bytes on the left, and with numbers or bytes on the right.
use super::*;

/// A pair beside its bytes. The right is a number, or the number of its bytes.
#[repr(C)]
#[derive(Clone, Copy, Default)]
struct Row {
    left_len: usize,
    right: u64,
}

/// A call that writes rows from a position on, and how many bytes and rows it wrote.
type Fill = unsafe extern "C" fn(
    handle: *mut Raw,
    start: usize,
    buffer: *mut u8,
    size: usize,
    rows: *mut Row,
    most: usize,
    len: *mut usize,
    filled: *mut usize,
) -> u32;

/// Reads rows until there are this many pairs or no more. `right` reads a right from a row and the bytes that follow.
fn pairs<B: Library, R>(handle: &Handle<B>, fill: Fill, start: usize, most: usize, right: fn(&mut &[u8], u64) -> R) -> Vec<(Vec<u8>, R)> {
    let (mut pairs, mut rows) = (Vec::with_capacity(most), vec![Row::default(); most]);
    let mut buffer = vec![0; most.saturating_mul(32)];
    while pairs.len() < most {
        let (mut len, mut filled, wanted) = (0, 0, most - pairs.len());
        let (at, raw, size) = (start + pairs.len(), handle.raw.get(), buffer.len());
        let status = unsafe { fill(raw, at, buffer.as_mut_ptr(), size, rows.as_mut_ptr(), wanted, &mut len, &mut filled) };
        if status == BUFFER_TOO_SHORT {
            buffer = vec![0; len.max(buffer.len() * 2)];
            continue;
        }
        sure(status);
        if filled == 0 {
            break;
        }
        let mut packed = &buffer[..len];
        pairs.extend(rows[..filled].iter().map(|row| {
            let left = taken(&mut packed, row.left_len);
            (left, right(&mut packed, row.right))
        }));
        // What did not fit goes into a buffer of twice the length.
        buffer.resize(buffer.len() * 2, 0);
    }
    pairs
}

/// Takes this number of bytes from the front.
fn taken(packed: &mut &[u8], len: usize) -> Vec<u8> {
    let (first, others) = packed.split_at(len);
    *packed = others;
    first.to_vec()
}

fn right_number(_: &mut &[u8], right: u64) -> u64 {
    right
}

fn right_bytes(packed: &mut &[u8], right: u64) -> Vec<u8> {
    taken(packed, right as usize)
}

/// The calls of tables with one type of right. The arguments say how a right is passed, how the library writes one, and
/// how a row has one.
macro_rules! with_bytes {
    ($name:ident $sides:literal $Right:ty: $right:ident => ($($arg:expr),*), ($($given:ident: $type:ty),*), $read:ident($($out:ident: $of:ty),*), $in_row:ident) => {
        pub struct $name;
        const _: () = {
            external! { $sides:
                new(kind: u32, seed: u64); clone(copy: *mut Raw); equals(other: *mut Raw); free();
                len(it: *mut usize); capacity(it: *mut usize); reserve(more: usize); shrink_to(least: usize); clear();
                insert_with(left: *const u8, left_len: usize, $($given: $type,)* left_refuses: u8, right_refuses: u8, kind: *mut u32);
                get_by_left(left: *const u8, left_len: usize, $($out: $of),*);
                get_by_right($($given: $type,)* buffer: *mut u8, size: usize, len: *mut usize);
                contains_left(left: *const u8, left_len: usize); contains_right($($given: $type),*);
                remove_by_left(left: *const u8, left_len: usize); remove_by_right($($given: $type),*);
                overwritten_left(index: usize, buffer: *mut u8, size: usize, len: *mut usize);
                overwritten_right(index: usize, $($out: $of),*);
                left_rank(left: *const u8, left_len: usize, it: *mut usize); right_rank($($given: $type,)* it: *mut usize);
                pop_first(); pop_last(); to_front(left: *const u8, left_len: usize); to_back(left: *const u8, left_len: usize);
                fill(start: usize, buffer: *mut u8, size: usize, rows: *mut Row, most: usize, len: *mut usize, filled: *mut usize);
                fill_by_right(start: usize, buffer: *mut u8, size: usize, rows: *mut Row, most: usize, len: *mut usize, filled: *mut usize);
            }
            /// Returns the pair that the last call overwrote or removed.
            fn gone(handle: &Handle<$name>, index: usize) -> Found<$name> {
                let left = bytes(|buffer, size, len| unsafe { overwritten_left(handle.raw.get(), index, buffer, size, len) });
                let right = $read(|$($out),*| unsafe { overwritten_right(handle.raw.get(), index, $($out),*) });
                let (Ok(Some(left)), Ok(Some(right))) = (left, right) else { unreachable!("it is kept") };
                (left, right)
            }
            impl Library for $name {
                type Left = [u8];
                type Right = $Right;
                const LONGEST: usize = 64;
                plain!();
                fn insert_with(handle: &Handle<Self>, left: &[u8], $right: &$Right, policy: Policy) -> Result<Told<Self>, Refusal> {
                    let mut kind = 0;
                    let [l, r] = policy.flags();
                    done(unsafe { insert_with(handle.raw.get(), left.as_ptr(), left.len(), $($arg,)* l, r, &mut kind) })?;
                    Ok(overwritten(kind, |at| gone(handle, at)))
                }
                fn get_by_left(handle: &Handle<Self>, left: &[u8]) -> Asked<Owned<$Right>> {
                    $read(|$($out),*| unsafe { get_by_left(handle.raw.get(), left.as_ptr(), left.len(), $($out),*) })
                }
                fn get_by_right(handle: &Handle<Self>, $right: &$Right) -> Asked<Vec<u8>> {
                    bytes(|buffer, size, len| unsafe { get_by_right(handle.raw.get(), $($arg,)* buffer, size, len) })
                }
                fn contains_left(handle: &Handle<Self>, left: &[u8]) -> Result<bool, Refusal> {
                    found(unsafe { contains_left(handle.raw.get(), left.as_ptr(), left.len()) })
                }
                fn contains_right(handle: &Handle<Self>, $right: &$Right) -> Result<bool, Refusal> {
                    found(unsafe { contains_right(handle.raw.get(), $($arg),*) })
                }
                fn remove_by_left(handle: &Handle<Self>, left: &[u8]) -> Asked<Found<Self>> {
                    let held = found(unsafe { remove_by_left(handle.raw.get(), left.as_ptr(), left.len()) })?;
                    Ok(held.then(|| gone(handle, 0)))
                }
                fn remove_by_right(handle: &Handle<Self>, $right: &$Right) -> Asked<Found<Self>> {
                    let held = found(unsafe { remove_by_right(handle.raw.get(), $($arg),*) })?;
                    Ok(held.then(|| gone(handle, 0)))
                }
                fn left_rank(handle: &Handle<Self>, left: &[u8]) -> Result<usize, Refusal> {
                    size(|it| unsafe { left_rank(handle.raw.get(), left.as_ptr(), left.len(), it) })
                }
                fn right_rank(handle: &Handle<Self>, $right: &$Right) -> Result<usize, Refusal> {
                    size(|it| unsafe { right_rank(handle.raw.get(), $($arg,)* it) })
                }
                fn pop_first(handle: &Handle<Self>) -> Option<Found<Self>> {
                    found(unsafe { pop_first(handle.raw.get()) }).ok()?.then(|| gone(handle, 0))
                }
                fn pop_last(handle: &Handle<Self>) -> Option<Found<Self>> {
                    found(unsafe { pop_last(handle.raw.get()) }).ok()?.then(|| gone(handle, 0))
                }
                fn to_front(handle: &Handle<Self>, left: &[u8]) -> Result<bool, Refusal> {
                    found(unsafe { to_front(handle.raw.get(), left.as_ptr(), left.len()) })
                }
                fn to_back(handle: &Handle<Self>, left: &[u8]) -> Result<bool, Refusal> {
                    found(unsafe { to_back(handle.raw.get(), left.as_ptr(), left.len()) })
                }
                fn row_by_right(handle: &Handle<Self>, start: usize, most: usize) -> Vec<Found<Self>> {
                    pairs(handle, fill_by_right, start, most, $in_row)
                }
                fn row(handle: &Handle<Self>, start: usize, most: usize) -> Vec<Found<Self>> {
                    pairs(handle, fill, start, most, $in_row)
                }
            }
        };
    };
}

with_bytes!(BytesU64 "bytes_u64" u64: right => (*right), (right: u64), number(it: *mut u64), right_number);
with_bytes!(BytesBytes "bytes_bytes" [u8]: right => (right.as_ptr(), right.len()), (right: *const u8, right_len: usize), bytes(buffer: *mut u8, size: usize, len: *mut usize), right_bytes);

external! { "bytes_u64": to_json(buffer: *mut u8, size: usize, len: *mut usize); from_json(text: *const u8, text_len: usize); }

impl Handle<BytesU64> {
    pub fn to_json(&self) -> Result<Vec<u8>, Refusal> {
        let text = bytes(|buffer, size, len| unsafe { to_json(self.raw.get(), buffer, size, len) })?;
        Ok(text.expect("a table has JSON"))
    }
    pub fn read_json(&self, text: &[u8]) -> Result<(), Refusal> {
        done(unsafe { from_json(self.raw.get(), text.as_ptr(), text.len()) })
    }
}
