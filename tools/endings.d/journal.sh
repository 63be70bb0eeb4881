# This file tests the reader of docs/JOURNAL.md.

# Prints the first block of docs/JOURNAL.md of this language that contains this text.
block_of_journal() {
    awk -v language="$1" -v text="$2" '
        /^```/ { if (on && index(block, text)) { printf "%s", block; exit } on = $0 == "```" language; block = ""; next }
        on { block = block $0 "\n" }' docs/JOURNAL.md
}

# Runs the Python function of docs/JOURNAL.md over a journal.
reads_journal() {
    (block_of_journal python "def read" && printf '%s\n' 'import sys' 'print(read(sys.argv[1]))') >"$room/read.py"
    python3 "$room/read.py" "$1" >"$room/out" 2>"$room/err"
    status=$?
}

# Prints the lines of the blocks of docs/JOURNAL.md in Rattle that demo_journal has not.
not_in_demo() {
    awk '/^```/ { on = $0 == "```rust"; next } on && NF' docs/JOURNAL.md | grep -v -x -F -f crates/demo_journal/src/main.rt
}

# Tests that demo_journal has the page's example, that the function reads the example of the page, and that it refuses a journal without an end or with another checksum.
journals() {
    not_in_demo >"$room/out"
    status=0
    check "demo_journal has the example of the page" 0 "" ""
    block_of_journal text "jetukoma journal 1" >"$room/example"
    reads_journal "$room/example"
    check "the reader of a journal reads the example" 0 "[('bob', 7)]\n" ""
    grep -v '^-' "$room/example" >"$room/cut"
    reads_journal "$room/cut"
    check "the reader of a journal refuses one without an end" 1 "" -
    sed 's/"bob",7/"bob",8/' "$room/example" >"$room/changed"
    reads_journal "$room/changed"
    check "the reader of a journal refuses another checksum" 1 "" -
}

# Runs tools/crashes over a program that keeps its state in a journal, and counts its checks.
crashed() {
    tools/crashes "$program" "$name" >"$room/out" 2>"$room/err" </dev/null
    status=$?
    local right wrong
    read -r right wrong < <(sed -n 's/^\([0-9]*\) passed, \([0-9]*\) failed$/\1 \2/p' "$room/out" | tail -n 1)
    [ -n "${wrong:-}" ] || right=0 wrong=1
    [ "$wrong" = 0 ] || cat "$room/err" >&2
    passed=$((passed + right)) failed=$((failed + wrong))
}
