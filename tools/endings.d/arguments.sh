# This file tests the arguments of the programs, and lines of the shell that no page can have.

# Prints what the help of a program says about its requests. docs/PROGRAMS.md shows this text for each program but the shell,
# which prints its own.
requests_of() {
    case "$1" in
    bimap_rows) printf %b "$(listed "$1")" ;;
    tool_shell) echo help | "$program" ;;
    *) awk -v name="\`$1\`" '/^## / { here = index($0, name) } /^(> |```)/ { on = here && $0 == "> help"; next } on' docs/PROGRAMS.md ;;
    esac
}

# Tests `--help`, and arguments that the program refuses. The first parameter is the name of the program. The second is how its
# usage names its argument. It is empty if the program takes no argument.
arguments() {
    local usage="usage: $1${2:+ $2}" requests
    local wrong=("a b" "--help a" "--halp" "-")
    [ -n "$2" ] || wrong+=(a)
    requests=$(requests_of "$1")
    rm -rf "$room/files" && mkdir "$room/files"
    file=--help
    serve ""
    check "--help" 0 "$usage\n$requests\n" ""
    for file in "${wrong[@]}"; do
        serve ""
        check "arguments $file" 2 "" "$usage\n" ""
    done
    file=""
    (cd "$room/files" && $start "$program" $'\xff' </dev/null >"$room/out" 2>"$room/err")
    status=$?
    check "an argument of other bytes" 2 "" "an argument is no UTF-8\n$usage\n"
    holds "no file is made" test "$(ls "$room/files")" = ""
}

# Tests lines whose words are separated by tabs, and numbers with a sign, which the shell refuses.
shell_words() {
    serve "kinds: ordered\n\tinsert\ta'1\tb\r\njson\tString\tu8\too\t{}\nwith_capacity +1\ninsert a'+1 b\ntimes +1 len\n"
    check "tabs and signs" 0 "Ok(Neither)\nOk({}) · true\nbad line: with_capacity +1\nbad line: insert a'+1 b\nbad line: times +1 len\n" ""
    serve "extend each +1 a b\nrun each +1 clear\n"
    check "signs before a count" 0 "bad line: extend each +1 a b\nbad line: run each +1 clear\n" ""
}
