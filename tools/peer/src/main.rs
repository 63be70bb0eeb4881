//! Runs the calls of this repository's programs on the Rust crate `bimap`, to compare the two. `peer PAIRS times KEYS
//! KIND` makes the calls of `crates/tool_bench`, with the same keys, in the same order, and prints the same lines.
//! `peer shell` answers the lines of standard input as `crates/tool_shell` does.
mod kind;
mod made;
mod shell;
mod times;
mod word;

fn main() -> std::io::Result<()> {
    let words: Vec<String> = std::env::args().skip(1).collect();
    let word = |at: usize| words.get(at).map_or("", String::as_str);
    if word(0) == "shell" {
        return shell::serve();
    }
    times::times(word(0), word(2), word(3));
    Ok(())
}
