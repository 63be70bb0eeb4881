# This file has what every test of the programs needs: the built programs, a run of one, and a check of what the run did.
#
# These variables belong to the run that is being checked. `program` is the program. `file` is the name of its file in
# "$room/files", or empty if the program gets no file. `status` is the exit status. Standard output is in "$room/out" and standard
# error is in "$room/err".

# Prints the path of each build of a program. It builds the program if it is not built.
builds_of() {
    local build=$PWD/crates/$1/out/$1 it
    if [ ! -x "$build" ]; then
        (cd "crates/$1" && rt run </dev/null >/dev/null) || echo "tools/endings: $1 could not be built" >&2
    fi
    for it in "$build" "$build.by-rattle"; do
        [ ! -x "$it" ] || echo "$it"
    done
}

# Prints what bimap_rows writes after a bad line, which docs/PROGRAMS.md shows. It prints nothing for the other programs.
listed() {
    [ "$1" != bimap_rows ] || awk '/^```/ { on = $0 == "```lines"; next } on { printf "%s\\n", $0 }' docs/PROGRAMS.md
}

# Runs the program over these lines. If `file` is set, the program gets that file.
serve() {
    (cd "$room/files" && printf %b "$1" | $start "$program" $file >"$room/out" 2>"$room/err")
    status=$?
}

# Counts one check. It compares the status, standard output, standard error and, if `file` is set, the text of the file.
# An output that is given as `-` is not compared.
check() {
    local name=$1 want_status=$2 want_out=$3 want_err=$4 want_file=${5:-}
    local why=""
    [ "$status" = "$want_status" ] || why="status $status in place of $want_status"
    [ "$want_out" = - ] || printf %b "$want_out" | cmp -s - "$room/out" || why="$why, another standard output"
    [ "$want_err" = - ] || printf %b "$want_err" | cmp -s - "$room/err" || why="$why, another standard error: $(head -c 200 "$room/err")"
    [ -z "$file" ] || cat "$room/files/$file" 2>/dev/null | cmp -s - <(printf %b "$want_file") || why="$why, another text in the file"
    if [ -z "$why" ]; then
        passed=$((passed + 1))
    else
        failed=$((failed + 1))
        echo "tools/endings: $program: $name: ${why#, }" >&2
    fi
}

# Makes an empty folder with one file, which has this text.
one_file() {
    file=table
    rm -rf "$room/files" && mkdir "$room/files"
    printf %b "$1" >"$room/files/$file"
}

# Counts one check of a file. It passes if the command returns 0.
holds() {
    local name=$1 file=""
    shift
    (cd "$room/files" && "$@") >/dev/null 2>&1
    status=$?
    check "$name" 0 - -
}
