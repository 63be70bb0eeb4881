# This file tests what a program does with the file that it is given: which files it refuses, how it replaces one, and who may read it.

# Prints what has this name: the kind of file, its mode, owner and group, and the target of a link.
stands() {
    (cd "$room/files" && stat -c '%F %a %u %g %N' "$1" 2>/dev/null)
}

# Prints the mode of a file.
mode_of() {
    stat -c %a "$room/files/$1" 2>/dev/null
}

# Tests that a new file takes the place of the old one. A hard link to the old file keeps the old text. A symbolic link stays, and its
# target is replaced. The parameters are the text of the file, a line, what the program prints, and the text of the file afterwards.
replaced() {
    one_file "$1"
    ln "$room/files/$file" "$room/files/old"
    serve "$2"
    check "a file replaced" 0 "$3" "" "$4"
    holds "the old file" cmp old <(printf %b "$1")
    one_file "$1"
    mkdir "$room/files/below" && mv "$room/files/table" "$room/files/below/kept"
    ln -s below/kept "$room/files/table"
    serve "$2"
    check "a link" 0 "$3" "" "$4"
    holds "the link" test -L table
    holds "what it leads to" test ! -L below/kept
    holds "nothing beside these" test "$(cd "$room/files" && echo * below/*)" = "below table below/kept"
}

# Tests that a file keeps its mode. If root runs the program, the file keeps its owner and group too. If the program is killed while
# it writes, nobody can read the new file who could not read the old one. A file that did not exist gets the usual mode.
keeps_access() {
    local it before
    for it in 640 600 444 604; do
        one_file "$1"
        chmod $it "$room/files/table"
        [ "$(id -u)" != 0 ] || chown 1234:2345 "$room/files/table" 2>/dev/null
        before=$(stands table)
        serve "$2"
        check "mode $it" 0 "$3" "" "$4"
        holds "mode $it stays" test "$(stands table)" = "$before"
    done
    one_file "$1"
    chmod 640 "$room/files/table"
    (umask 0 && ulimit -c 0 -f 0 && cd "$room/files" && printf %b "$2" | $start --default-signal=XFSZ "$program" table >/dev/null) 2>/dev/null
    holds "the mode of a file that is not whole" test "$(mode_of table.new)" = 640
    holds "the old file of a program that was killed" cmp table <(printf %b "$1")
    rm "$room/files/"*
    (umask 027 && serve "$2")
    holds "the mode of a file that was not there" test "$(mode_of table)" = 640
}

# Tests that the program refuses the file. Nothing may change, and no new file may appear. The parameters are what the file is, a line,
# and the reason that the program must print.
is_refused() {
    local before start="timeout 20 $start"
    before=$(stands "$file")
    serve "$2"
    file="" check "$1" 2 "" "$file: $3\n"
    holds "$1 stays" test "$(stands "$file")" = "$before"
    holds "$1 has nothing beside it" test ! -e table.new
}

# Tests that the program refuses everything but a regular file, names it, and answers no line.
refuses_others() {
    local why="it is no regular file"
    one_file ""
    rm "$room/files/table" && mkdir "$room/files/table"
    is_refused "a folder" "$2" "$why"
    rmdir "$room/files/table" && mkfifo "$room/files/table"
    is_refused "a pipe" "$2" "$why"
    rm "$room/files/table"
    python3 -c 'import socket, sys; socket.socket(socket.AF_UNIX).bind(sys.argv[1])' "$room/files/table"
    is_refused "a socket" "$2" "$why"
    rm "$room/files/table" && ln -s nowhere "$room/files/table"
    is_refused "a link to nothing" "$2" "No such file or directory (os error 2)"
    # Only root could replace /dev/null, so root tests a device of its own.
    rm "$room/files/table"
    if [ "$(id -u)" != 0 ]; then file=/dev/null; elif ! mknod "$room/files/table" c 1 3; then return; fi
    is_refused "a device" "$2" "$why"
}

# Runs the program over a line. When the program has answered it, this function runs the command, and then ends the input.
serve_beside() {
    rm -f "$room/pipe" && mkfifo "$room/pipe" && : >"$room/out"
    (cd "$room/files" && exec $start "$program" "$file" <"$room/pipe" >"$room/out" 2>"$room/err") &
    exec 3>"$room/pipe"
    (trap '' PIPE && printf %b "$1" >&3)
    local _
    for _ in $(seq 200); do [ ! -s "$room/out" ] || break; sleep 0.05; done
    (cd "$room/files" && eval "$2")
    exec 3>&-
    wait $!
    status=$?
}

# Tests what happens if the new text cannot be written. Standard error names the file and says why. The file keeps its old text, and no
# new file is left. The program does not overwrite a file that already has the name of the new one.
fails_to_write() {
    local way="a file whose name has .new behind it is in the way"
    one_file "$1"
    (trap '' XFSZ && ulimit -f 0 && cd "$room/files" && printf %b "$2" | $start "$program" $file 2>&1 >/dev/null) | cat >"$room/err"
    status=${PIPESTATUS[0]}
    check "a full device for a file" 1 - "$file: File too large (os error 27)\n" "$1"
    holds "nothing beside it" test ! -e table.new
    (cd "$room/files" && $start "$program" $file </ >"$room/out" 2>"$room/err")
    status=$?
    check "a folder as input" 1 "" "reading or writing failed: Is a directory (os error 21)\n" "$1"
    one_file "$1"
    serve_beside "$2" "rm table && mkdir table"
    file=""
    check "a folder in the file's place" 1 "$3" "table: it is no regular file\n"
    holds "the folder" rmdir table
    holds "nothing beside the folder" test ! -e table.new
    one_file "$1"
    serve_beside "$2" "echo another >table.new"
    check "the new one's name is taken" 1 "$3" "$file: $way\n" "$1"
    serve "$2"
    check "the new one's name is taken from the start" 2 "" "$file: $way\n" "$1"
    holds "the other file" cmp table.new <(echo another)
}

# Runs all tests of this file over one program. The parameters are those of `replaced`.
over_files() {
    replaced "$@"
    keeps_access "$@"
    refuses_others "$@"
    fails_to_write "$@"
    file=""
}
