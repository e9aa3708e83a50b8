"""Rattle's own commands: proved libraries, and programs over them, each kept in a folder of the sum of all that it is made of.

The crates above a library load its statements and not its proofs (`--statements`, as in `rt ci`): over libraries as `rt run`
makes them a program's check takes three times the memory. And `rt run` reads all sources in one pass first, in six minutes and
10 GB, wherever it doesn't know a library for its own."""
import os
import shutil
import subprocess
import time
from concurrent.futures import FIRST_COMPLETED, ThreadPoolExecutor, wait
from pathlib import Path

# What the last line of a proof may have, as that of dswp does; another word says that the proof rests on something else.
SAID = {"logic", "functions", "axioms", "target", "cpu", "threads", "main", "may-wait", "sum", "native", "logic-built",
        "libraries-built", "statements"}
ROOM = 3 << 30  # the memory that a check may take
KEPT_DAYS = 30  # so long is kept what no call has used


def is_proved(line):
    said = dict(word.partition("=")[::2] for word in line.split())
    return said.get("logic") == "proved" and said.keys() <= SAID and said.get("main", "Threads+Wait") == "Threads+Wait"


def cache_folder():
    return Path(os.environ.get("XDG_CACHE_HOME") or Path.home() / ".cache") / "dswp"


def most_checks():
    """How many checks go on at a time: one for each processor, as far as there is memory for them."""
    lines = dict(line.split(":") for line in Path("/proc/meminfo").read_text().splitlines())
    return max(1, min(os.cpu_count(), int(lines["MemAvailable"].split()[0]) * 1024 // ROOM))


class Failed(Exception):
    """A crate that wasn't proved or compiled: its name, and all that was written of it."""

    def __init__(self, name, log):
        super().__init__(name)
        self.name, self.log = name, log


class Prover:
    """Proves crates, and keeps what it made in a folder of the cache."""

    def __init__(self):
        self.kit = Path(subprocess.run(["rt", "doc"], capture_output=True, text=True, check=True).stdout.strip()).parent
        self.version = subprocess.run(["rt", "version"], capture_output=True, check=True).stdout
        self.cache = cache_folder()

    def folder(self, crate):
        """Where what is made of a crate is kept."""
        return self.cache / "made" / (crate.name + "-" + crate.sum(self.version))

    def library(self, crate):
        return self.folder(crate) / (crate.name + ".rlib")

    def program(self, crate):
        return self.folder(crate) / crate.name

    def lacking(self, crates):
        """Those of the libraries that aren't made, each behind those that it uses."""
        for it in crates:
            if self.library(it).exists():
                os.utime(self.folder(it))
        return [it for it in crates if not self.library(it).exists()]

    def words(self, crate, root):
        """What rattle is told of a crate."""
        rlibs = self.kit / "rlibs"
        words = ["--crate-name", crate.name, "src/" + root, "-L", "dependency=%s" % rlibs]
        for it in crate.below():
            words += ["-L", "dependency=%s" % self.folder(it)]
        for name in ["std", *crate.of_kit]:
            words += ["--extern", "%s=%s" % (name, rlibs / (name + ".rlib"))]
        for it in crate.uses:
            words += ["--extern", "%s=%s" % (it.name, self.library(it))]
        logic = self.kit / "rattle" / "logic" / "antt-project.json"
        return words + ["--antt-project", logic, "--logic-built", self.kit / "logic_built", "--links", crate.name + "=", "--jobs", "1"]

    def call(self, crate, *words):
        """Has rattle build a crate, and raises where that isn't proved."""
        words = [self.kit / "bin" / "rattle", "build", *words]
        done = subprocess.run(list(map(str, words)), cwd=crate.folder, text=True, stdin=subprocess.DEVNULL, stdout=subprocess.PIPE,
                              stderr=subprocess.STDOUT)
        said = [line for line in done.stdout.split("\n") if line.startswith("logic=")]
        if done.returncode != 0 or not said or not is_proved(said[-1]):
            raise Failed(crate.name, done.stdout)

    def make_library(self, crate):
        """Has a library proved, where it isn't."""
        made = self.library(crate)
        if made.exists():
            return
        made.parent.mkdir(parents=True, exist_ok=True)
        fresh = made.with_suffix(".%d" % os.getpid())
        shutil.rmtree(fresh, ignore_errors=True)
        self.call(crate, *self.words(crate, "lib.rt"), "--statements", "-o", fresh)
        try:
            fresh.rename(made)
        except OSError:  # another call made it meanwhile
            shutil.rmtree(fresh)

    def make_program(self, crate):
        """Has a program proved, compiled and linked, where it isn't."""
        made = self.program(crate)
        if made.exists():
            return
        made.parent.mkdir(parents=True, exist_ok=True)
        whole, linked = made.with_suffix(".o"), made.with_suffix(".%d" % os.getpid())
        self.call(crate, *self.words(crate, "main.rt"), "--toolchain", self.kit / "toolchain", "--backend", "llvm", "-o", whole)
        words = [self.kit / "bin" / "rattle-link", "--target", "x86_64-unknown-linux-gnu", "--toolchain", self.kit / "toolchain"]
        words += ["-o", linked, whole, self.kit / "c" / "libos_c.a", self.kit / "c" / "liblibc_c.a"]
        done = subprocess.run(list(map(str, words)), text=True, stdout=subprocess.PIPE, stderr=subprocess.STDOUT)
        if done.returncode:
            raise Failed(crate.name, done.stdout)
        whole.unlink()
        linked.rename(made)

    def make_libraries(self, crates, tell):
        """Has libraries proved that lack, several at a time; tells of each that is made, and how long it took. Of those that may
        begin, the one begins on which the most others stand."""
        left, running = self.lacking(crates), {}
        left.sort(key=lambda it: -sum(it in other.below() for other in left))
        with ThreadPoolExecutor(most := most_checks()) as pool:
            while left or running:
                ready = [it for it in left if not {*it.uses} & {*left, *running.values()}][:most - len(running)]
                left = [it for it in left if it not in ready]
                running.update((pool.submit(self.timed, it), it) for it in ready)
                for run in wait(running, return_when=FIRST_COMPLETED).done:
                    tell(running.pop(run), run.result())

    def timed(self, crate):
        began = time.monotonic()
        self.make_library(crate)
        return time.monotonic() - began

    def forget_old(self):
        """Removes what no call has used for long."""
        for it in self.cache.glob("*/*"):
            if it.stat().st_mtime < time.time() - KEPT_DAYS * 86400:
                shutil.rmtree(it, ignore_errors=True)
