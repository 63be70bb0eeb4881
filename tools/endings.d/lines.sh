# This file tests which lines bimap_rows accepts: long lines, lines that arrive in pieces, many lines, and bad lines.

# Tests a line that is longer than one block of input, and lines that arrive in pieces.
long_and_split() {
    local long
    long=$(head -c 10000 /dev/zero | tr '\0' 0)
    serve "insert a $long" && check "a long line" 0 "Neither\nheld 1\na <> 0\n" ""
    serve "insert a ${long}x"
    check "a long bad line" 2 "" "bad line 1; wanted:\n$listed"
    for piece in ins 'ert \xc3' '\xa9 1' '\n' 'drop-left \xc3' '\xa9\r'; do
        printf %b "$piece"
        sleep 0.05
    done | $start "$program" >"$room/out" 2>"$room/err"
    status=$?
    check "lines in pieces" 0 "Neither\nRemoved é 1\nheld 0\n" ""
}

# Tests a hundred thousand lines. Each inserts a new pair, in ascending order of the left values.
many_lines() {
    PYTHONUTF8=1 python3 -c 'for n in range(100000): print("insert", chr(65536 + n), n)' >"$room/many"
    $start "$program" <"$room/many" >"$room/out" 2>"$room/err"
    status=$?
    check "many lines" 0 "$(sed 's/.*/Neither/' "$room/many")\nheld 100000\n$(sed 's/^insert \(.*\) /\1 <> /' "$room/many")\n" ""
}

# Tests that the message counts the lines, and that a bad line ends the program even if the message cannot be written.
bad_line() {
    serve "\n\n\n\n\n\n\n\n\n\n\nput\n"
    check "the twelfth line bad" 2 "" "bad line 12; wanted:\n$listed"
    printf 'x\n' | $start "$program" >"$room/out" 2>/dev/full
    status=$?
    check "standard error full" 2 "" -
}
