//! The two kinds of map of the crate, and what each answers to the calls of the shell. `None` means that it lacks the
//! call.
use crate::word::Word;
use bimap::{BiBTreeMap, BiHashMap, Overwritten};
use std::fmt::Debug;
use std::hash::{DefaultHasher, Hash, Hasher, RandomState};

pub type Ordered = BiBTreeMap<Word, Word>;
pub type Hashed = BiHashMap<Word, Word>;

/// The greatest capacity that is tried. Above it there may be no memory, and the crate cannot say so.
pub const MOST_ROOM: usize = 1 << 20;

/// A kind of map of words.
pub trait Kind: Clone + Debug + Default + Extend<(Word, Word)> + FromIterator<(Word, Word)> {
    fn contains_left(&self, left: &Word) -> bool;
    fn contains_right(&self, right: &Word) -> bool;
    fn insert(&mut self, left: Word, right: Word) -> Overwritten<Word, Word>;
    fn remove_by_left(&mut self, left: &Word) -> Option<(Word, Word)>;
    fn remove_by_right(&mut self, right: &Word) -> Option<(Word, Word)>;

    /// Keeps the pairs whose right passes a test.
    fn keep(&mut self, test: impl Fn(&Word) -> bool);

    /// Makes a call with no pair or one pair.
    fn call(&mut self, call: &str, words: &[Word]) -> Option<String>;

    /// Returns an empty map with this capacity.
    fn with_room(room: usize) -> Option<Self>;

    /// Returns an empty map that is passed hash builders, if both sides are hashed.
    fn with_hashers() -> Option<Self>;

    /// Makes the capacity greater or smaller.
    fn change_room(&mut self, call: &str, words: &[&str]) -> Option<String>;

    /// Iterates by steps, which the words after the call name. If the order is not specified, no step may stand before
    /// `rest`.
    fn walk(&self, call: &str, words: &[&str]) -> Option<String>;

    /// Compares the map with another one.
    fn compare(&self, other: &Self, call: &str) -> Option<String>;

    /// Returns a value at an end of an ordered side.
    fn end(&self, call: &str) -> Option<Word>;
}

macro_rules! kind {
    ($kind:ident, $with_room:path, $with_hashers:path, $change_room:path, $walk:path, $compare:path, $end:path) => {
        impl Kind for $kind {
            fn contains_left(&self, left: &Word) -> bool {
                self.contains_left(left)
            }

            fn contains_right(&self, right: &Word) -> bool {
                self.contains_right(right)
            }

            fn insert(&mut self, left: Word, right: Word) -> Overwritten<Word, Word> {
                self.insert(left, right)
            }

            fn remove_by_left(&mut self, left: &Word) -> Option<(Word, Word)> {
                self.remove_by_left(left)
            }

            fn remove_by_right(&mut self, right: &Word) -> Option<(Word, Word)> {
                self.remove_by_right(right)
            }

            fn keep(&mut self, test: impl Fn(&Word) -> bool) {
                self.retain(|_, right| test(right));
            }

            fn call(&mut self, call: &str, words: &[Word]) -> Option<String> {
                Some(match (call, words) {
                    ("len", []) => self.len().to_string(),
                    ("is_empty", []) => self.is_empty().to_string(),
                    ("show", []) => format!("{self:?}"),
                    ("get_by_left", [left]) => format!("{:?}", self.get_by_left(left)),
                    ("get_by_right", [right]) => format!("{:?}", self.get_by_right(right)),
                    ("contains_left", [left]) => self.contains_left(left).to_string(),
                    ("contains_right", [right]) => self.contains_right(right).to_string(),
                    ("remove_by_left", [left]) => format!("{:?}", self.remove_by_left(left)),
                    ("remove_by_right", [right]) => format!("{:?}", self.remove_by_right(right)),
                    ("insert", [left, right]) => format!("Ok({:?})", self.insert(left.clone(), right.clone())),
                    ("insert_no_overwrite", [left, right]) => {
                        match self.insert_no_overwrite(left.clone(), right.clone()) {
                            Ok(()) => "Ok(())".to_string(),
                            Err(refused) => format!("Err(Occupied{refused:?})"),
                        }
                    }
                    ("clear", []) => {
                        self.clear();
                        "()".to_string()
                    }
                    ("retain", [least]) => {
                        self.retain(|_, right| right >= least);
                        "()".to_string()
                    }
                    _ => return None,
                })
            }

            fn with_room(room: usize) -> Option<Self> {
                $with_room(room)
            }

            fn with_hashers() -> Option<Self> {
                $with_hashers()
            }

            fn change_room(&mut self, call: &str, words: &[&str]) -> Option<String> {
                $change_room(self, call, words)
            }

            fn walk(&self, call: &str, words: &[&str]) -> Option<String> {
                $walk(self, call, words)
            }

            fn compare(&self, other: &Self, call: &str) -> Option<String> {
                $compare(self, other, call)
            }

            fn end(&self, call: &str) -> Option<Word> {
                $end(self, call)
            }
        }
    };
}

kind!(
    Ordered, ordered::with_room, ordered::with_hashers, ordered::change_room, ordered::walk, ordered::compare, ordered::end
);
kind!(Hashed, hashed::with_room, hashed::with_hashers, hashed::change_room, hashed::walk, hashed::compare, hashed::end);

type Back<I> = fn(&mut I) -> Option<<I as Iterator>::Item>;

/// What an iterator can do besides giving its next item.
struct Steps<I: Iterator> {
    back: Option<Back<I>>,
    len: fn(&I) -> usize,
    copy: Option<fn(&I) -> I>,
}

/// Iterates by steps.
fn follow<I: Iterator>(mut walk: I, steps: &[&str], has: Steps<I>) -> Option<String>
where
    I::Item: Debug,
{
    let mut said = Vec::new();
    for step in if steps.is_empty() { &["rest"] } else { steps } {
        said.push(match *step {
            "front" => format!("{:?}", walk.next()),
            "back" => format!("{:?}", has.back?(&mut walk)),
            "len" => (has.len)(&walk).to_string(),
            "rest" => format!("{:?}", walk.by_ref().collect::<Vec<_>>()),
            "copy" => {
                walk = has.copy?(&walk);
                continue;
            }
            _ => return None,
        });
    }
    Some(said.join(" · "))
}

mod ordered {
    use super::*;

    pub fn with_room(_room: usize) -> Option<Ordered> {
        None
    }

    pub fn with_hashers() -> Option<Ordered> {
        None
    }

    pub fn change_room(_bimap: &mut Ordered, _call: &str, _words: &[&str]) -> Option<String> {
        None
    }

    pub fn walk(bimap: &Ordered, call: &str, words: &[&str]) -> Option<String> {
        fn both<I: DoubleEndedIterator + ExactSizeIterator + Clone>() -> Steps<I> {
            Steps { back: Some(I::next_back), len: I::len, copy: Some(I::clone) }
        }
        // The ranges of the crate claim a wrong length, so this counts what they give.
        fn counted<I: DoubleEndedIterator + Clone>() -> Steps<I> {
            Steps { back: Some(I::next_back), len: |walk| walk.clone().count(), copy: Some(I::clone) }
        }
        let range = words.first().and_then(|word| Word::read_range(word));
        match call {
            "iter" => follow(bimap.iter(), words, both()),
            "left_values" => follow(bimap.left_values(), words, both()),
            "right_values" => follow(bimap.right_values(), words, both()),
            "into_iter" => {
                let walk = bimap.clone().into_iter();
                follow(walk, words, Steps { back: Some(|walk| walk.next_back()), len: |walk| walk.len(), copy: None })
            }
            "left_range" => follow(bimap.left_range(range?), &words[1..], counted()),
            "right_range" => follow(bimap.right_range(range?), &words[1..], counted()),
            _ => None,
        }
    }

    pub fn compare(one: &Ordered, other: &Ordered, call: &str) -> Option<String> {
        Some(match call {
            "eq" => (one == other).to_string(),
            "partial_cmp" => format!("{:?}", one.partial_cmp(other)),
            "cmp" => format!("{:?}", one.cmp(other)),
            _ => (hash_of(one) == hash_of(other)).to_string(),
        })
    }

    fn hash_of(bimap: &Ordered) -> u64 {
        let mut state = DefaultHasher::new();
        bimap.hash(&mut state);
        state.finish()
    }

    pub fn end(bimap: &Ordered, call: &str) -> Option<Word> {
        match call {
            "pop_first_by_left" => bimap.left_values().next().cloned(),
            "pop_last_by_left" => bimap.left_values().next_back().cloned(),
            "pop_first_by_right" => bimap.right_values().next().cloned(),
            "pop_last_by_right" => bimap.right_values().next_back().cloned(),
            _ => None,
        }
    }
}

mod hashed {
    use super::*;

    pub fn with_room(room: usize) -> Option<Hashed> {
        Some(Hashed::with_capacity(room))
    }

    pub fn with_hashers() -> Option<Hashed> {
        Some(Hashed::with_hashers(RandomState::new(), RandomState::new()))
    }

    pub fn change_room(bimap: &mut Hashed, call: &str, words: &[&str]) -> Option<String> {
        let number = words.first().and_then(|word| word.parse::<usize>().ok());
        match (call, number) {
            ("reserve", Some(more)) if more <= MOST_ROOM => bimap.reserve(more),
            ("shrink_to", Some(least)) => bimap.shrink_to(least),
            ("shrink_to_fit", None) => bimap.shrink_to_fit(),
            _ => return None,
        }
        Some("Ok(())".to_string())
    }

    pub fn walk(bimap: &Hashed, call: &str, words: &[&str]) -> Option<String> {
        fn ahead<I: ExactSizeIterator + Clone>() -> Steps<I> {
            Steps { back: None, len: I::len, copy: Some(I::clone) }
        }
        // The crate does not specify which pair comes first.
        let by_one = words.iter().take_while(|step| **step != "rest").any(|step| *step == "front");
        if by_one && bimap.len() > 1 {
            return None;
        }
        match call {
            "iter" => follow(bimap.iter(), words, ahead()),
            "left_values" => follow(bimap.left_values(), words, ahead()),
            "right_values" => follow(bimap.right_values(), words, ahead()),
            "into_iter" => {
                let walk = bimap.clone().into_iter();
                follow(walk, words, Steps { back: None, len: |walk| walk.len(), copy: None })
            }
            _ => None,
        }
    }

    pub fn compare(one: &Hashed, other: &Hashed, call: &str) -> Option<String> {
        (call == "eq").then(|| (one == other).to_string())
    }

    pub fn end(_bimap: &Hashed, _call: &str) -> Option<Word> {
        None
    }
}
