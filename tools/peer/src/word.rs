//! Reads the words of a line as values.
use std::cmp::Ordering;
use std::fmt;
use std::hash::{Hash, Hasher};
use std::ops::Bound::{self, Excluded, Included, Unbounded};

/// A word with a note. Comparisons and hashes see the word and not the note.
#[derive(Clone)]
pub struct Word {
    text: String,
    note: u32,
}

impl Word {
    /// Reads a text as a word with its note, as `ann` or `ann'2`.
    pub fn read(text: &str) -> Option<Word> {
        let (text, note) = match text.split_once('\'') {
            Some((text, note)) => (text, note.parse().ok()?),
            None => (text, 0),
        };
        let well = (1..=16).contains(&text.len()) && !text.contains(['.', ';', '>']);
        well.then(|| Word { text: text.to_string(), note })
    }

    pub fn read_all(words: &[&str]) -> Option<Vec<Word>> {
        words.iter().map(|word| Word::read(word)).collect()
    }

    /// Reads words as pairs: two words for each pair, or `each N L R`, in which a number replaces each `#`.
    pub fn read_pairs(words: &[&str]) -> Option<Vec<(Word, Word)>> {
        let pair = |left: &str, right: &str| Some((Word::read(left)?, Word::read(right)?));
        match words {
            ["each", count, left, right] => {
                let numbered = |word: &str, at: u64| word.replace('#', &format!("{at:07}"));
                (0..count.parse().ok()?).map(|at| pair(&numbered(left, at), &numbered(right, at))).collect()
            }
            ["each", ..] => None,
            _ => words.chunks(2).map(|two| pair(two[0], two.get(1)?)).collect(),
        }
    }

    /// Reads a range. Returns `None` if it runs backwards, since the crate panics then.
    pub fn read_range(word: &str) -> Option<(Bound<Word>, Bound<Word>)> {
        let (low, high) = word.split_once("..")?;
        let low = match low.strip_prefix('>') {
            Some(low) => Excluded(Word::read(low)?),
            None if low.is_empty() => Unbounded,
            None => Included(Word::read(low)?),
        };
        let high = match high.strip_prefix('=') {
            Some(high) => Included(Word::read(high)?),
            None if high.is_empty() => Unbounded,
            None => Excluded(Word::read(high)?),
        };
        let forward = match (&low, &high) {
            (Unbounded, _) | (_, Unbounded) => true,
            (Excluded(low), Excluded(high)) => low < high,
            (Included(low) | Excluded(low), Included(high) | Excluded(high)) => low <= high,
        };
        forward.then_some((low, high))
    }
}

impl PartialEq for Word {
    fn eq(&self, other: &Word) -> bool {
        self.text == other.text
    }
}

impl Eq for Word {}

impl PartialOrd for Word {
    fn partial_cmp(&self, other: &Word) -> Option<Ordering> {
        Some(self.cmp(other))
    }
}

impl Ord for Word {
    fn cmp(&self, other: &Word) -> Ordering {
        self.text.cmp(&other.text)
    }
}

impl Hash for Word {
    fn hash<H: Hasher>(&self, state: &mut H) {
        self.text.hash(state);
    }
}

impl fmt::Debug for Word {
    fn fmt(&self, f: &mut fmt::Formatter) -> fmt::Result {
        match self.note {
            0 => write!(f, "{}", self.text),
            note => write!(f, "{}'{note}", self.text),
        }
    }
}
