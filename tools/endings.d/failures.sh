# This file tests how bimap_rows ends if its input cannot be read or its output cannot be written.

# Tests an input that cannot be read.
input_fails() {
    $start "$program" </ >"$room/out" 2>"$room/err"
    status=$?
    check "a folder as input" 1 "" "input failed\n"
}

# Tests outputs that cannot be written: a full device, a pipe whose reader is gone, and a file that may not grow.
output_fails() {
    printf 'insert a 1\n' | $start "$program" >/dev/full 2>"$room/err"
    status=$?
    check "a full device" 1 - "output failed\n"
    printf 'x\n' | $start "$program" >/dev/full 2>"$room/err"
    status=$?
    check "a full device after a bad line that has no reply" 2 - "bad line 1; wanted:\n$listed"
    printf 'insert a 1\nx\n' | $start "$program" >/dev/full 2>"$room/err"
    status=$?
    check "a full device after a bad line" 1 - "output failed\n"
    # The reader of this pipe is gone.
    rm -f "$room/pipe"
    mkfifo "$room/pipe"
    exec 3<>"$room/pipe" 4>"$room/pipe" 3>&-
    printf 'insert a 1\n' | $start "$program" >&4 2>"$room/err"
    status=$?
    exec 4>&-
    check "a closed pipe" 1 - "output failed\n"
    # The first file has no room for all replies. The second has room for the replies, but not for the pairs too.
    for _ in $(seq 4096); do echo 'put a 1'; done >"$room/many"
    filled 16
    check "a file that is full among the replies" 1 - "output failed\n"
    local high low
    for high in {128..191}; do
        for low in {128..191}; do printf 'put \\xe5\\x%x\\x%x %d\n' $high $low $((high * 64 + low)); done
    done >"$room/escaped"
    printf %b "$(cat "$room/escaped")" >"$room/many"
    filled 32
    check "a file that is full among the pairs" 1 - "output failed\n"
}

# Runs the program over many lines. Its output is a file that cannot grow above this number of kibibytes.
filled() {
    (
        trap '' XFSZ
        ulimit -f "$1"
        exec $start "$program" <"$room/many" >"$room/out" 2>"$room/err"
    )
    status=$?
}
