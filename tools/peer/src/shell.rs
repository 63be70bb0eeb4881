//! Answers the lines of the shell by the two kinds of map that the crate has. A kind that is not asked prints nothing.
//! If neither is asked, the answer is `-`.
//!
//! These calls are not asked:
//! - calls that the crate lacks
//! - `capacity`, which the crate counts in another way
//! - capacities for which there may be no memory, since the crate ends the program then
//! - calls whose allocations are refused, unless they allocate nothing
//! - ranges that run backwards, at which the crate panics
//! - JSON, which the crate has only by serde
//! - the first pairs of a hashed map, whose order is not specified
//! - answers of which the shell shows only the two ends
//! - all calls after one whose result is not known, because memory was refused or it was made from the other side. The calls
//! are asked again when the map is made again.
use crate::kind::{Hashed, Kind, MOST_ROOM, Ordered};
use crate::made::{make, put_all};
use crate::word::Word;
use std::{io, mem};

/// The names of the shell's kinds of map. The crate has the first two.
const KINDS: [&str; 6] = ["ordered", "hashed", "ordered-hashed", "hashed-ordered", "crowded", "insertion-order"];
/// The words that may stand before a call.
const BEFORE: [&str; 6] = ["undoable", "inverse", "counted", "bounded", "refusing", "retrying"];
/// The shell shows an answer whole if it has at most this many bytes.
const WHOLE: usize = 4096;
/// How many different answers of a repeated call are shown.
const SHOWN: usize = 8;

/// A map and the other map beside it. Each is `None` if it is not known what it contains.
struct Held<B> {
    bimap: Option<B>,
    other: Option<B>,
}

impl<B: Kind> Held<B> {
    fn new() -> Held<B> {
        Held { bimap: Some(B::default()), other: Some(B::default()) }
    }

    fn answer(&mut self, line: &str) -> Option<String> {
        let words: Vec<&str> = line.split_whitespace().collect();
        let (before, words) = words.split_at(words.iter().take_while(|word| BEFORE.contains(word)).count());
        let said = match (before, words) {
            ([], ["times", ..]) => self.times(line),
            ([], words) => self.call(words),
            (["refusing"], words) => self.without_memory(words),
            (before, _) if before.contains(&"inverse") => {
                self.bimap = None;
                None
            }
            (before, words) if before.contains(&"undoable") => self.record(words),
            // The shell adds something to the answer of the call itself, so the answers cannot be compared.
            (_, words) => {
                self.call(words);
                None
            }
        };
        said.filter(|said| said.len() <= WHOLE)
    }

    fn call(&mut self, words: &[&str]) -> Option<String> {
        match words {
            ["anew"] => {
                *self = Held::new();
                Some("()".to_string())
            }
            ["new"] => self.begin(B::default()),
            ["with_capacity", room] => self.begin_with_room(room.parse().ok()?),
            ["with_hashers"] => self.begin(B::with_hashers()?),
            ["with_hasher"] => None,
            ["from_iter", words @ ..] => self.begin(Word::read_pairs(words)?.into_iter().collect()),
            ["from_iter_with", policy, words @ ..] => {
                let mut bimap = B::default();
                if put_all(&mut bimap, policy, Word::read_pairs(words)?) {
                    self.bimap = Some(bimap);
                }
                None
            }
            ["clear"] => self.bimap.get_or_insert_with(B::default).call("clear", &[]),
            ["swap"] => {
                mem::swap(&mut self.bimap, &mut self.other);
                Some("()".to_string())
            }
            ["clone"] => {
                self.other = self.bimap.clone();
                self.shown()
            }
            [call, words @ ..] => self.of_pairs(call, words),
            [] => None,
        }
    }

    fn begin(&mut self, bimap: B) -> Option<String> {
        self.bimap = Some(bimap);
        self.shown()
    }

    /// Begins a map with a capacity. If there may be no memory for it, the old map stays.
    fn begin_with_room(&mut self, room: usize) -> Option<String> {
        if room > MOST_ROOM {
            return None;
        }
        match B::with_room(room) {
            Some(bimap) => self.begin(bimap),
            None => {
                self.bimap = Some(B::default());
                None
            }
        }
    }

    fn shown(&self) -> Option<String> {
        self.bimap.as_ref().map(|bimap| format!("Ok({bimap:?})"))
    }

    fn of_pairs(&mut self, call: &str, words: &[&str]) -> Option<String> {
        let bimap = self.bimap.as_mut()?;
        match call {
            "eq" | "partial_cmp" | "cmp" | "hash" => bimap.compare(self.other.as_ref()?, call),
            "iter" | "into_iter" | "left_values" | "right_values" | "left_range" | "right_range" => {
                bimap.walk(call, words)
            }
            "extend" => {
                bimap.extend(Word::read_pairs(words)?);
                Some("Ok(())".to_string())
            }
            "reserve" | "shrink_to" | "shrink_to_fit" => bimap.change_room(call, words),
            _ => {
                let said = Word::read_all(words).and_then(|words| bimap.call(call, &words));
                if said.is_none() && make(bimap, call, words).is_none() {
                    self.bimap = None;
                }
                said
            }
        }
    }

    /// Makes a call whose allocations are refused, if it allocates nothing.
    fn without_memory(&mut self, words: &[&str]) -> Option<String> {
        match words {
            ["reserve" | "shrink_to" | "shrink_to_fit" | "extract_into" | "drain_into", ..] => None,
            ["clone"] => {
                self.other = None;
                None
            }
            words if self.takes_memory(words) => {
                self.bimap = None;
                None
            }
            words => self.call(words),
        }
    }

    /// Returns whether a call may allocate. An insertion may if it overwrites nothing.
    fn takes_memory(&self, words: &[&str]) -> bool {
        let held = |left: &str, right: &str| {
            let (bimap, left, right) = (self.bimap.as_ref()?, Word::read(left)?, Word::read(right)?);
            Some(bimap.contains_left(&left) || bimap.contains_right(&right))
        };
        match words {
            ["perform", call @ ..] => self.takes_memory(call),
            ["insert" | "insert_no_overwrite" | "get_by_left_or_insert" | "get_by_left_or_insert_with"
            | "get_by_right_or_insert", left, right]
            | ["insert_with" | "put", _, left, right] => held(left, right) != Some(true),
            ["undo_insert", _, "Both", ..] => true,
            ["extend" | "extend_with" | "from_iter" | "from_iter_with" | "with_capacity" | "run" | "undo_run", ..] => {
                true
            }
            _ => false,
        }
    }

    /// Makes a call on the map that records its changes. The record takes the map when it begins, and returns it at its
    /// end.
    fn record(&mut self, words: &[&str]) -> Option<String> {
        match words {
            ["new"] => self.bimap = Some(B::default()),
            ["into_inner"] => self.bimap = None,
            _ => {}
        }
        None
    }

    /// Makes one call many times, each time with two numbers in its words. Returns how often each answer came.
    fn times(&mut self, line: &str) -> Option<String> {
        let (_, rest) = line.split_once(' ')?;
        let (turns, call) = rest.trim_start().split_once(' ')?;
        let turns: u64 = turns.parse().ok()?;
        let (mut answers, mut all_said) = (Vec::new(), true);
        for at in 0..turns {
            let (turn, mixed) = (format!("{at:07}"), format!("{:07}", at.saturating_mul(7919) % turns));
            match self.answer(&call.replace('#', &turn).replace('%', &mixed)) {
                Some(said) if call.contains('%') => tally(&mut answers, said.replace(&mixed, "%")),
                Some(said) => tally(&mut answers, said.replace(&turn, "#")),
                None => all_said = false,
            }
        }
        let shown: Vec<String> = answers.iter().map(|(said, count)| format!("{count} times {said}")).collect();
        all_said.then(|| shown.join(" · "))
    }
}

/// Counts an answer. After the first few different answers, all others count as one.
fn tally(answers: &mut Vec<(String, u64)>, said: String) {
    let known = answers.len() < SHOWN || answers.iter().any(|(it, _)| *it == said);
    let said = if known { said } else { "another".to_string() };
    match answers.iter_mut().find(|(it, _)| *it == said) {
        Some((_, count)) => *count += 1,
        None => answers.push((said, 1)),
    }
}

/// The kinds of map of the crate. Each is `None` if it is not chosen.
struct Shell {
    ordered: Option<Held<Ordered>>,
    hashed: Option<Held<Hashed>>,
}

impl Shell {
    /// Empties the maps, and chooses the kinds that are named, or all.
    fn choose(&mut self, names: &[&str]) {
        let chosen = |kind: &str| names.is_empty() || names.contains(&kind);
        if names.iter().all(|name| KINDS.contains(name)) {
            self.ordered = chosen(KINDS[0]).then(Held::new);
            self.hashed = chosen(KINDS[1]).then(Held::new);
        }
    }

    /// Returns the lines that answer a line. There is one line alone if both kinds say the same.
    fn answer(&mut self, line: &str) -> Vec<String> {
        if let Some(names) = line.strip_prefix("kinds:") {
            self.choose(&names.split_whitespace().collect::<Vec<_>>());
        }
        if line.is_empty() || line.starts_with('#') || line.starts_with("kinds:") {
            return Vec::new();
        }
        let ordered = self.ordered.as_mut().and_then(|held| held.answer(line));
        let hashed = self.hashed.as_mut().and_then(|held| held.answer(line));
        if ordered == hashed {
            return vec![ordered.unwrap_or("-".to_string())];
        }
        let sides = [(KINDS[0], ordered), (KINDS[1], hashed)];
        sides.into_iter().filter_map(|(kind, said)| Some(format!("[{kind}] {}", said?))).collect()
    }
}

/// Answers the lines of standard input. A line that begins with `> ` is printed before its answers.
pub fn serve() -> io::Result<()> {
    let mut shell = Shell { ordered: Some(Held::new()), hashed: Some(Held::new()) };
    for line in io::stdin().lines() {
        let line = line?;
        let call = line.strip_prefix("> ");
        if call.is_some() {
            println!("{line}");
        }
        for said in shell.answer(call.unwrap_or(&line).trim()) {
            println!("{said}");
        }
    }
    Ok(())
}
