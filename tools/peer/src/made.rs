//! Makes the calls of the shell that the crate lacks, by calls that it has. The map then has the right pairs. What
//! these calls return is not known.
use crate::kind::Kind;
use crate::word::Word;

/// The calls that change no pair.
const KEEPING: [&str; 20] = [
    "capacity", "contains_pair", "is_subset_of", "holds_same_pairs", "for_each", "reserve", "shrink_to", "shrink_to_fit",
    "can_undo_insert", "undo_run", "first_by_left", "last_by_left", "first_by_right", "last_by_right", "left_rank",
    "right_rank", "left_range_between", "right_range_between", "json", "json_pairs",
];

/// Makes a call, if it is one of the shell.
pub fn make<B: Kind>(bimap: &mut B, call: &str, words: &[&str]) -> Option<()> {
    match (call, words) {
        ("insert_with", [policy, left, right]) => {
            put(bimap, policy, Word::read(left)?, Word::read(right)?);
        }
        ("put", [policy, left, right]) => {
            let (left, right) = (Word::read(left)?, Word::read(right)?);
            let held = bimap.remove_by_left(&left);
            let is_equal = held.as_ref().is_some_and(|held| held.1 == right);
            held.map(|(left, right)| bimap.insert(left, right));
            put(bimap, if is_equal { "oo" } else { policy }, left, right);
        }
        ("extend_with", [policy, words @ ..]) => {
            put_all(bimap, policy, Word::read_pairs(words)?);
        }
        ("get_by_left_or_insert" | "get_by_left_or_insert_with" | "get_by_right_or_insert", [left, right]) => {
            put(bimap, "rr", Word::read(left)?, Word::read(right)?);
        }
        ("replace_left", [from, to]) => {
            let (from, to) = (Word::read(from)?, Word::read(to)?);
            if from == to || !bimap.contains_left(&to) {
                let held = bimap.remove_by_left(&from);
                held.map(|(_, right)| bimap.insert(to, right));
            }
        }
        ("replace_right", [from, to]) => {
            let (from, to) = (Word::read(from)?, Word::read(to)?);
            if from == to || !bimap.contains_right(&to) {
                let held = bimap.remove_by_right(&from);
                held.map(|(left, _)| bimap.insert(left, to));
            }
        }
        ("swap_partners", [first, second]) => {
            let (first, second) = (Word::read(first)?, Word::read(second)?);
            if first != second && bimap.contains_left(&first) && bimap.contains_left(&second) {
                let (first, second) = (bimap.remove_by_left(&first)?, bimap.remove_by_left(&second)?);
                bimap.insert(first.0, second.1);
                bimap.insert(second.0, first.1);
            }
        }
        ("extract_into", [least]) => {
            let least = Word::read(least)?;
            bimap.keep(|right| *right < least);
        }
        ("drain_into", []) => bimap.keep(|_| false),
        ("pop_first_by_left" | "pop_last_by_left", []) => {
            let left = bimap.end(call);
            left.map(|left| bimap.remove_by_left(&left));
        }
        ("pop_first_by_right" | "pop_last_by_right", []) => {
            let right = bimap.end(call);
            right.map(|right| bimap.remove_by_right(&right));
        }
        ("undo_insert", [left, _, pairs @ ..]) => undo(bimap, &Word::read(left)?, Word::read_pairs(pairs)?),
        ("perform", [call, words @ ..]) => perform(bimap, call, words)?,
        ("run", ["each", count, words @ ..]) => {
            for at in 0..count.parse().ok()? {
                run(bimap, &words.join(" ").replace('#', &format!("{at:07}")))?;
            }
        }
        ("run", words) => run(bimap, &words.join(" "))?,
        ("pair_at_left_rank" | "pair_at_right_rank", [_]) => {}
        _ if KEEPING.contains(&call) => {}
        _ => return None,
    }
    Some(())
}

/// Inserts a pair if the policy allows it, and returns whether it does.
fn put<B: Kind>(bimap: &mut B, policy: &str, left: Word, right: Word) -> bool {
    let refused = policy.starts_with('r') && bimap.contains_left(&left)
        || policy.ends_with('r') && bimap.contains_right(&right);
    if !refused {
        bimap.insert(left, right);
    }
    !refused
}

/// Inserts pairs up to the first that the policy refuses, and returns whether there is none.
pub fn put_all<B: Kind>(bimap: &mut B, policy: &str, pairs: Vec<(Word, Word)>) -> bool {
    pairs.into_iter().all(|(left, right)| put(bimap, policy, left, right))
}

/// Replaces the pair of a left by the given pairs, if no two pairs share a value then.
fn undo<B: Kind>(bimap: &mut B, left: &Word, pairs: Vec<(Word, Word)>) {
    let Some((left, right)) = bimap.remove_by_left(left) else {
        return;
    };
    let apart = |p: &(Word, Word), q: &(Word, Word)| p.0 != q.0 && p.1 != q.1;
    let free = |p: &(Word, Word)| !bimap.contains_left(&p.0) && !bimap.contains_right(&p.1);
    if pairs.iter().all(free) && pairs.windows(2).all(|two| apart(&two[0], &two[1])) {
        bimap.extend(pairs);
    } else {
        bimap.insert(left, right);
    }
}

/// Makes the calls of a run, which semicolons separate.
fn run<B: Kind>(bimap: &mut B, text: &str) -> Option<()> {
    for text in text.split(';') {
        let words: Vec<&str> = text.split_whitespace().collect();
        if let [call, words @ ..] = words.as_slice() {
            perform(bimap, call, words)?;
        }
    }
    Some(())
}

/// Makes a call of a run.
fn perform<B: Kind>(bimap: &mut B, call: &str, words: &[&str]) -> Option<()> {
    match Word::read_all(words).and_then(|words| bimap.call(call, &words)) {
        Some(_) => Some(()),
        None => make(bimap, call, words),
    }
}
