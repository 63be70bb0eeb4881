# This file tests tools/add.

# Checks one run of tools/add. The parameters are a name, the status, the last line of standard output or else the first line of
# standard error, and the arguments of tools/add.
adds() {
    local name=$1 want_status=$2 said=$3
    shift 3
    tools/add "$@" >"$room/all" 2>"$room/errors"
    status=$?
    { tail -n 1 "$room/all" && head -n 1 "$room/errors"; } >"$room/out"
    : >"$room/err"
    check "$name" "$want_status" "$said\n" ""
}

# Tests that tools/add copies the crates into a repository, and updates crates that nobody has changed. It must change nothing if it
# finds a crate that it did not put there, or one that was changed. The folder has a blank in its name.
added() {
    local user="$room/a user" ends="A crate of yours names it by a line of $room/a user/crates.txt, as"
    mkdir "$user"
    adds "no folder" 1 "tools/add: $room/none is no folder" "$room/none"
    adds "no repository" 1 "tools/add: $user is no repository: it has neither a crates.txt nor a .git. Run \`git init\` there first" "$user"
    printf 'mine: bimap' >"$user/crates.txt" && chmod 640 "$user/crates.txt"
    adds "added" 0 "$ends \`myprogram: bimap bimap_undo\`." "$user" --undo
    adds "added with all" 0 "$ends \`myprogram: bimap bimap_undo bimap_dynamic bimap_journal\`." "$user" --journal --undo --dynamic
    adds "added again" 0 "$ends \`myprogram: bimap\`." "$user"
    # The file keeps its mode and the line that was there.
    printf %s "$(grep -c '^bimap' "$user/crates.txt") $(stat -c %a "$user/crates.txt") $(tail -n 1 "$user/crates.txt")" >"$room/out"
    check "the lines of crates.txt" 0 "13 640 mine: bimap" ""
    (cd "$user" && sum=$(find . -type f -exec cksum {} + | sort) && echo >>crates/bimap/src/lib.rt && printf %s "$sum" >"$room/sum")
    adds "a crate that was changed" 1 "tools/add: $user/crates/bimap was changed after it was added: move your changes away, or remove the folder, first" "$user"
    truncate -s -1 "$user/crates/bimap/src/lib.rt"
    (cd "$user" && find . -type f -exec cksum {} + | sort | cmp - <(cat "$room/sum" && echo)) >"$room/out" 2>&1
    status=$?
    check "nothing was changed" 0 "" ""
    : >"$user/crates.txt"
    adds "a crate of another" 1 "tools/add: $user/crates/bimap_base is there already, and tools/add did not put it there: move it away first" "$user"
    rm -r "$user/crates" && echo "bimap_tree: bimap" >"$user/crates.txt"
    adds "a line of another" 1 "tools/add: $user/crates.txt has a line for bimap_tree already, which tools/add did not write: remove it, and the crate, first" "$user"
}
