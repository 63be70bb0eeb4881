# This file tests that another repository can use what tools/pack_proved wrote.

# Stamps what `rt ci` proved of a library and of the libraries below it, so that `rt lib` finds nothing to do.
stamp() {
    PYTHONPATH=tools PYTHONDONTWRITEBYTECODE=1 python3 - "$@" <<'END'
import os
import sys
from toolchain import crates_of, load_rt

for crate in crates_of(load_rt(), os.getcwd()):
    if crate.name in sys.argv[1:] and os.path.isdir(crate.rlib):
        with open(f"{crate.folder}/out/rlib/stamp", "w", encoding="utf-8") as it:
            it.write(crate.stamp())
END
}

# Another repository accepts as proved what tools/pack_proved wrote. `rt lib` finds nothing to do there, and it replaces no library.
packed() {
    local user=$room/user
    mkdir "$user"
    grep -E '^bimap_(base|chain):' crates.txt >"$user/crates.txt"
    (
        stamp bimap_base bimap_chain && timeout 60 tools/pack_proved "$room/packed.tar.gz" bimap_chain && tar -C "$user" -xf "$room/packed.tar.gz" &&
            touch "$user"/crates/bimap_{base,chain}/out/rlib/mark && cd "$user/crates/bimap_chain" && timeout 60 rt lib &&
            [ -e out/rlib/mark ] && [ -e ../bimap_base/out/rlib/mark ]
    ) >"$room/out" 2>"$room/err"
    status=$?
    check "what is packed is proved elsewhere" 0 "" ""
}
