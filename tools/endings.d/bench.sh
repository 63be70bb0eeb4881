# This file tests how tools/bench ends if it is called wrongly, or if a tool or a program is missing or fails.

# Runs a copy of tools/bench with these arguments. It must fail, its last message must be this one, and docs/SPEED.md must keep its
# text.
bench() {
    local name=$1 said=$2
    shift 2
    BIMAP_CRATE=$crate PATH=$room/path "$python" "$room/files/tools/bench" "$@" >"$room/out" 2>"$room/all"
    [ $? = 0 ] && status=well || status=ill
    tail -n 1 "$room/all" >"$room/err"
    check "$name" ill "" "tools/bench: $said\n" "as it was\n"
}

# Tests bad arguments, missing tools and programs that fail. Small scripts stand in for everything that tools/bench runs.
benched() {
    local python at=$room/files crate="" it
    python=$(python3 -c 'import sys; print(sys.executable)')
    rm -rf "$at/"* && mkdir -p "$at"/{tools,docs,empty,crate,crates/tool_bench/out} "$room/path"
    cp tools/bench "$at/tools"
    file=docs/SPEED.md
    echo "as it was" >"$at/$file"
    echo 'name = "bimap"' >"$at/crate/Cargo.toml"
    local tools="rt cargo rustc g++" ours=$at/crates/tool_bench/out/tool_bench
    for it in $tools; do printf '#!/bin/sh\n[ %s = rt ]\n' "$it" >"$room/path/$it"; done
    printf '#!/bin/sh\n. "$0.lines"\n' >"$ours"
    chmod +x "$room/path/"* "$ours"
    bench "an unknown option" "error: unrecognized arguments: --wrote" --wrote
    bench "half an option" "error: unrecognized arguments: --writ" --writ
    for it in many 0 -1 1.5 10000001 "$(head -c 5000 /dev/zero | tr '\0' 9)"; do
        bench "a size of ${it:0:20}" "error: argument PAIRS: $it is not a number of pairs from 1 to 10000000" 1000 "$it"
    done
    for it in nowhere "$at/empty"; do
        bench "--crate $it" "error: argument --crate: $it is not a folder with the Cargo.toml of the crate bimap" --crate "$it"
    done
    crate=nowhere
    bench "BIMAP_CRATE" "error: argument --crate: nowhere is not a folder with the Cargo.toml of the crate bimap"
    crate=""
    bench "another crate" "--crate $at/crate: cargo cannot build the crate bimap 0.6.3 from it" --crate "$at/crate"
    bench "--write of one size" "error: --write needs a run over all sizes, so give no PAIRS" --write 1000
    bench "--write without peers" "--write needs all libraries, and this run lacks the Rust crate and Boost.Bimap and the bindings" --write
    for it in $tools; do
        mv "$room/path/$it" "$room/apart"
        bench "no $it" "$it is not on the path. The tool needs rt, cargo, rustc, g++"
        mv "$room/apart" "$room/path/$it"
    done
    local words="$ours 1000 times chance BiBTreeMap"
    echo 'exit 3' >"$ours.lines"
    bench "a program that fails" "this library: $words ended with status 3" 1000
    echo 'echo BiBTreeMap insert fast 0' >"$ours.lines"
    bench "no measurement" "this library: a line must have a kind, a column, a figure and what was found, but this is a line: BiBTreeMap insert fast 0" 1000
    echo 'echo BiBTreeMap insert 1.5 0' >"$ours.lines"
    bench "a column alone" "this library: $words must print a line for each of insert, hit-by-left, hit-by-right, miss-by-left, same-pair, overwrite, walk, walk-back, clone, queue, pop-first, remove, bytes" 1000
    rm "$ours"
    bench "no program" "this library: $words could not be started" 1000
    printf '#!/bin/sh\nexit 4\n' >"$room/path/rt"
    bench "a program that is not proved" "crates/tool_bench could not be built: rt run ended with status 4"
    file=""
}
