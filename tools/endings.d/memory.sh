# This file tests how bimap_rows ends when it runs out of memory.

# Runs the program with at most this number of kibibytes of memory. The third of its lines needs eight megabytes.
limited() {
    $start bash -c 'ulimit -v "$1" && exec "$2"' - "$1" "$program" <"$room/long" >"$room/out" 2>"$room/err"
    status=$?
}

# Returns 0 if the last run ended as a run with little memory may end. It did everything, or it ran out of memory after whole
# replies, or it was not started.
is_as_it_may_be() {
    local written
    written=$(cat "$room/out"; echo .)
    case "$status" in
    0) [ "$written" = "$whole." ] && [ ! -s "$room/err" ] ;;
    3)
        case "$written" in
        . | "$first." | "$first$second.") [ "$(cat "$room/err")" = "no memory" ] ;;
        *) false ;;
        esac
        ;;
    1 | 2) false ;;
    *) true ;;
    esac
}

# Looks for the limits at which the run changes, and tests the runs at these limits and above the lowest one.
no_memory() {
    first=$'Neither\n' second=$'Occupied a 1\n'
    whole=$first$second$'Removed a 1\nheld 0\n'
    { printf 'insert a 1\nput a 1\ndrop-right '; head -c 8000000 /dev/zero | tr '\0' 0; echo 1; } >"$room/long"
    local low=0 high=4194304 middle enough wrong=0 at
    # The first loop finds the least memory with which every line gets a reply. The second finds the least with which the program starts.
    while [ $((high - low)) -gt 64 ]; do
        middle=$(((low + high) / 2))
        limited $middle
        is_as_it_may_be || wrong=$((wrong + 1))
        if [ "$status" = 0 ]; then high=$middle; else low=$middle; fi
    done
    enough=$high
    limited $enough
    check "enough memory" 0 "$whole" ""
    limited $((enough - 64))
    check "no memory for a long line" 3 "$first$second" "no memory\n"
    low=0 high=$((enough - 64))
    while [ $((high - low)) -gt 4 ]; do
        middle=$(((low + high) / 2))
        limited $middle
        if [ "$status" = 3 ]; then high=$middle; else low=$middle; fi
    done
    limited $high
    check "no memory at the start" 3 "" "no memory\n"
    for at in $(seq 0 4 400); do
        limited $((high + at))
        is_as_it_may_be || wrong=$((wrong + 1))
    done
    status=$wrong
    : >"$room/err"
    check "each limit from there upwards" 0 - ""
}
