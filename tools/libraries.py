"""Provides what a check needs: the built libraries below a crate, a processor, and memory."""
import contextlib
import os
import re
import subprocess
import threading
import time

KIT = os.path.dirname(subprocess.run(["rt", "doc"], stdout=subprocess.PIPE, text=True, check=True).stdout.split()[0])
CORES = len(os.sched_getaffinity(0))
#    The memory that one check may use, in bytes.
MEMORY = 4_000_000_000


def read(path):
    with open(path, encoding="utf-8") as file:
        return file.read()


class Lanes:
    """Lets as many checks run at a time as there are processors and memory. The crate with the most checks ahead is first."""

    def __init__(self):
        self.turn, self.running, self.waiting = threading.Condition(), 0, []

    @contextlib.contextmanager
    def lane(self, ahead):
        with self.turn:
            self.waiting.append(ahead)
            while self.running >= CORES or self.running and self.free() < MEMORY or ahead < max(self.waiting):
                self.turn.wait(1)
            self.waiting.remove(ahead)
            self.running += 1
        try:
            yield
        finally:
            with self.turn:
                self.running -= 1
                self.turn.notify_all()

    def free(self):
        return 1024 * int(re.search(r"MemAvailable:\s+(\d+)", read("/proc/meminfo"))[1])


class Libraries:
    """The libraries of the repository, as crates.txt lists them, and where they are built."""

    def __init__(self, built, log):
        self.built, self.log, self.needs = built or os.getcwd(), log, {}
        self.making = threading.Lock()
        for line in read("crates.txt").split("\n"):
            name, _, needs = line.partition("#")[0].partition(":")
            if name.strip():
                self.needs[name.split()[0]] = needs.split()

    def below(self, crate):
        """Returns the libraries of the repository that a crate needs. Each comes after those that it needs itself."""
        found = []
        for it in self.needs[crate]:
            if it in self.needs:
                found += [each for each in [*self.below(it), it] if each not in found]
        return found

    def rlib(self, name):
        return f"{self.built}/crates/{name}/out/rlib"

    def are_there(self, crate):
        """Waits until the libraries below a crate are built, and returns whether they are."""
        if not self.log:
            with self.making:
                return all(not subprocess.run(["rt", "lib"], cwd=f"crates/{it}", stdout=subprocess.DEVNULL).returncode for it in self.below(crate))
        while True:
            said = read(self.log) if os.path.exists(self.log) else ""
            if all(re.search(rf"^rt: {it} (proved|is kept)", said, re.M) for it in self.below(crate)):
                return True
            if re.search(r"^\d+ passed, \d+ failed", said, re.M):
                return False
            time.sleep(1)

    def words(self, crate):
        """Returns the arguments by which the checker finds the text of a crate and the libraries below it."""
        root = "src/main.rt" if os.path.isfile(f"crates/{crate}/src/main.rt") else "src/lib.rt"
        words = ["--crate-name", crate, root, "--links", f"{crate}=", "-L", f"dependency={KIT}/rlibs"]
        for it in ["std", *self.needs[crate]]:
            words += ["--extern", f"{it}={self.rlib(it) if it in self.needs else f'{KIT}/rlibs'}/{it}.rlib"]
        for it in self.below(crate):
            words += ["-L", f"dependency={self.rlib(it)}"]
        return [*words, "--antt-project", f"{KIT}/rattle/logic/antt-project.json", "--logic-built", f"{KIT}/logic_built"]
