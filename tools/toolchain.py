"""Uses the toolchain's command `rt` as a module. Run as a program, it is `rt ci` with more processors for each proof.

tools/toolchain.py CRATE..   proves these crates and their tests as soon as it can. By default, those with the longest chain of lines behind them
                             come first.

It relies on private functions of `rt`. If a new toolchain changes them, the tools that need them fail. Then adapt this file and
those tools.
"""
import importlib.machinery
import importlib.util
import os
import re
import shutil
import sys

from libraries import CORES, KIT, Libraries


def load_rt():
    """Returns the command as a module."""
    path = shutil.which("rt") or sys.exit("rt is not on the path")
    loader = importlib.machinery.SourceFileLoader("rt", os.path.realpath(path))
    made = importlib.util.module_from_spec(importlib.util.spec_from_loader("rt", loader))
    loader.exec_module(made)
    return made


def crates_of(rt, top):
    """Returns the crates of the repository in a folder. Each comes after those that it needs."""
    if hasattr(rt, "Kept"):
        return rt.crates_of(top)
    # An older toolchain's function of this name also empties each out/.
    rt.rtlib.Crate = rt.Crate
    return rt.rtlib.crates_below(top)


def prove_static(name, built, log):
    """Proves a static library of this repository, makes its archive in out/ of its crate, and returns whether both succeeded.

    It uses the libraries of the tree `built`. First it makes the checks of `rt ci` that read the text alone.
    """
    if not Libraries(built, log).are_there(name):
        return False
    rt = load_rt()
    here = os.getcwd()
    rt.Crate.allowed = rt.handles_of(here)
    every = crates_of(rt, here)
    crate = next(it for it in every if it.name == name)
    rt.rtlib.stop_on_links(crate.folder)
    rt.rtlib.stop_on_unread(crate.folder, every)
    rt.rtlib.stop_on_text(crate, "verdict")
    rt.stop_on_words(crate)
    code = rt.rtlib.code_of(crate.folder)
    beyond = [it for it, words in rt.REACHES.items() if it not in crate.allowed and re.search(words, code)]
    if beyond or re.search(rt.RENAMES, code):
        sys.exit(f"{name} names what HANDLES does not allow, or renames std")
    if rt.rtlib.fmt(crate.folder, "--check", sys.stdout):
        sys.exit(f"run rt fmt in crates/{name}")
    # Its first call sets the handler of a signal, which only the main thread may do.
    rt.rtlib.guarded()
    there = {it.name: it for it in crates_of(rt, built)}
    crate.deps = [there[it.name] for it in crate.deps]
    os.makedirs(f"{crate.folder}/out", exist_ok=True)
    # The other half of the processors is for the checks that run at the same time.
    words = crate.words(["--jobs", str(max(1, CORES // 2))], keeps=False)
    return not crate.prove(["build", *words, "--toolchain", f"{KIT}/toolchain", "--backend", "llvm", "-o", f"out/lib{name}.a"])


def ci(first):
    """Runs `rt ci`, and returns its status. It proves the crates of the list `first`, and their tests, as soon as it can.

    `rt ci` shares the idle processors among the tasks that can begin. It counts the tests of a crate without tests as a task too,
    so a proof for which other crates wait would get too few processors. Here such empty tasks come last.
    """
    rt = load_rt()
    in_lanes = rt.in_lanes

    def in_lanes_with_work(tasks):
        # Another toolchain's tasks may look otherwise. Then they are run as they are.
        if not all(part in ("proof", "tests", "edits") for _, part in tasks) or any(len(task) != 4 for task in tasks.values()):
            return in_lanes(tasks)
        # A crate that the gate left out has no task, and one without tests has no lines of them.
        for key in [it for it in tasks if it[0] in first and tasks[it][1]]:
            # The tasks with the most lines, and with the most behind them, come first.
            waits, lines, *rest = tasks[key]
            tasks[key] = (waits, lines + 100_000, *rest)
        edited = {name for name, part in tasks if part == "edits" and tasks[name, part][1]}
        given = in_lanes({key: task for key, task in tasks.items() if task[1] or key[0] in edited})
        for key, task in tasks.items():
            if key not in given:
                given[key] = task[3](given, 1)
        return given

    rt.in_lanes = in_lanes_with_work
    return rt.main(["ci"])


if __name__ == "__main__":
    sys.exit(ci(sys.argv[1:]))
