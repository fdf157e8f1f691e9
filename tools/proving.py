"""Proves crates side by side, each as soon as those below it are: `./witx --prove`, which also builds the programs of them.

`rt lib`, which proves a crate, lets no other run into the crates below it. So each of those that run side by side has a copy of
the sources of its own, a lane. What a lane leaves in a crate's out/ goes into the repository, and the library, which `rt` knows
by the text that it was made of, into all lanes. It stands until a source changes, also for whoever works in the crates above; and
the lanes stay until all is proved, with what was checked of a crate in which this is stopped. So it can be stopped and begun
again."""
import contextlib
import fcntl
import functools
import hashlib
import os
import re
import shutil
import subprocess
import sys
import tempfile
import time

import programs
from repository import TOP, libraries, read, with_libraries

# The program, the one behind tools/imports-of, and the one that writes headers; with words by which each ends at once on no input.
PROGRAMS = {"witx_cli": ["print"], "witx_imports_of": [], "witx_header_of": []}
# The memory that one proof may take, in bytes.
MEMORY = 4 << 30
# Where the lanes of this repository lie.
CACHE = os.environ.get("XDG_CACHE_HOME") or os.path.expanduser("~/.cache")
LANES = f"{CACHE}/witx-proofs/{hashlib.sha256(TOP.encode()).hexdigest()[:16]}"
# Seconds of a processor that a proof takes for a line of code, and besides, where they weren't measured; and those of a
# program's build, which goes through the code of all below.
A_LINE, BESIDES, A_BUILD = 0.2, 20, 240
# As many seconds as if proofs of them had told how long they take here.
TOLD = 600


def say(line):
    print(f"{programs.SCRIPT}: {line}", file=sys.stderr, flush=True)


def lanes():
    """How many processors prove, all for which there is memory, or as many as RT_JOBS says; and how many proofs may go on side
    by side, where what most waits for needn't wait for a processor."""
    named = os.environ.get("RT_JOBS", "")
    if re.fullmatch("[1-9][0-9]*", named):
        return int(named), int(named)
    with open("/proc/meminfo", encoding="utf-8") as file:
        room = (int(re.search(r"MemAvailable: +(\d+)", file.read())[1]) << 10) // MEMORY
    count = max(1, min(len(os.sched_getaffinity(0)), room))
    return count, max(count, min(count + 1, room))


def stands(name):
    """Whether a crate is proved, as far as the times of its files and of those below it tell."""
    if name in PROGRAMS:
        return programs.proved(name) is not None
    stamp = f"{TOP}/crates/{name}/out/rlib/stamp"
    return os.path.exists(stamp) and os.stat(stamp).st_mtime >= programs.changed(name, "src", "specs", "proofs")


@functools.lru_cache(None)
def measured():
    """How long the proof of each crate took, in seconds, where it was measured (tools/proof-times --all --keep)."""
    kept = "measured/proofs.txt"
    rows = re.findall(r"(?m)^(witx\w*) +(\d+)$", read(kept)) if os.path.exists(f"{TOP}/{kept}") else []
    return {name: int(seconds) for name, seconds in rows}


def size(name):
    """How many seconds a crate's proof takes: as it was measured, else by the lines of its code."""
    if stands(name):
        return 0
    files = [f"{at}/{it}" for at, _, names in os.walk(f"{TOP}/crates/{name}/src") for it in names]
    by_lines = BESIDES + A_LINE * sum(open(it, "rb").read().count(b"\n") for it in files)
    return A_BUILD * (name in PROGRAMS) + measured().get(name, by_lines)


def sources(top, names):
    """The files of these crates that proofs read, as paths below the top."""
    parts = [f"{top}/crates/{name}/{part}" for name in names for part in ("src", "specs", "proofs")]
    return {os.path.relpath(f"{at}/{it}", top) for part in parts for at, _, files in os.walk(part) for it in files}


def content(path):
    """What a file holds; nothing where there is none."""
    if not os.path.exists(path):
        return None
    with open(path, "rb") as file:
        return file.read()


def make_lane(number, names):
    """A copy of the sources of these crates, in which what an earlier run left stands. Gives its path."""
    lane = f"{LANES}/{number}"
    os.makedirs(lane, mode=0o700, exist_ok=True)
    wanted = {it: content(f"{TOP}/{it}") for it in {"HANDLES", *sources(TOP, names)}}
    wanted["crates.txt"] = "".join(it for it in read("crates.txt").splitlines(True) if it.split(":")[0] in names).encode()
    for it in sources(lane, names) - wanted.keys():
        os.remove(f"{lane}/{it}")
    for it, text in wanted.items():
        if content(f"{lane}/{it}") != text:
            os.makedirs(os.path.dirname(f"{lane}/{it}"), exist_ok=True)
            with open(f"{lane}/{it}", "wb") as file:
                file.write(text)
    return lane


@contextlib.contextmanager
def held(folder):
    """A folder in which no `rt`, and no other run of this, works meanwhile."""
    handle = os.open(folder, os.O_RDONLY)
    try:
        try:
            fcntl.flock(handle, fcntl.LOCK_EX | fcntl.LOCK_NB)
        except BlockingIOError:
            say(f"waiting for another run to finish in {folder}")
            fcntl.flock(handle, fcntl.LOCK_EX)
        yield
    finally:
        os.close(handle)


def replace(old, new):
    """Puts a file or folder at another path, in place of what is there."""
    clear(new)
    shutil.move(old, new)


def lend(folder, copy):
    """Makes a folder's copy, of names of the same files where that can be: nothing writes into a library that is made."""
    clear(copy)
    try:
        shutil.copytree(folder, copy, copy_function=os.link)
    except (OSError, shutil.Error):
        clear(copy)
        shutil.copytree(folder, copy)


def clear(path):
    """Takes away a file or folder, if there is one."""
    if os.path.isdir(path):
        shutil.rmtree(path)
    elif os.path.lexists(path):
        os.remove(path)


class Proof:
    """A run of `rt` in a crate's folder below a top, which proves it, with what it says in a file."""

    def __init__(self, name, top, jobs):
        self.name, self.top, self.jobs, self.began = name, top, jobs, time.time()
        self.program = f"crates/{name}/out/{name}" if name in PROGRAMS else None
        if self.program and os.path.exists(f"{top}/{self.program}"):
            os.remove(f"{top}/{self.program}")
        words = ["run", "--jobs", str(jobs), "--", *PROGRAMS[name]] if self.program else ["lib", "--jobs", str(jobs)]
        self.said = tempfile.TemporaryFile("w+", errors="replace")
        self.run = subprocess.Popen(["rt", *words], cwd=f"{top}/crates/{name}", stdin=subprocess.DEVNULL, stdout=self.said, stderr=self.said)

    def text(self):
        self.said.seek(0)
        return self.said.read()

    def holds(self):
        """Whether the run, once it has ended, has proved the crate; if not, what it said last is told. A program has run then,
        and so it may have ended with any status."""
        status = self.run.wait()
        if os.path.exists(f"{self.top}/{self.program}") if self.program else status == 0:
            return True
        sys.stderr.write("".join(self.text().splitlines(True)[-20:]))
        say(f"{self.name} NOT PROVED")
        return False

    def give(self, lanes, began):
        """Hands what was proved in a lane to the repository, and the library to all lanes, once no `rt` works in the crate.
        Whatever changed in the repository since the lanes were filled is newer."""
        out = f"crates/{self.name}/out"
        made = self.program or f"{out}/rlib/stamp"
        os.makedirs(f"{TOP}/{out}", exist_ok=True)
        with held(f"{TOP}/crates/{self.name}"):
            # What is the same already stays, with all that was checked there.
            if self.program or content(f"{self.top}/{made}") != content(f"{TOP}/{made}"):
                for part in os.listdir(f"{self.top}/{out}"):
                    replace(f"{self.top}/{out}/{part}", f"{TOP}/{out}/{part}")
            os.utime(f"{TOP}/{made}", (began, began))
            for lane in lanes if not self.program else []:
                lend(f"{TOP}/{out}/rlib", f"{lane}/{out}/rlib")

    def stop(self):
        self.run.terminate()
        self.run.wait()


class Proofs:
    """The proofs of some crates: which are left, which run, in which lanes, and how long those took that have ended."""

    def __init__(self, names):
        self.count, self.left, self.running = len(names), [*names], []
        self.below = {name: [it for it in below if it in names] for name, below in libraries().items() if name in names}
        self.sizes, (self.lanes, count) = {it: size(it) for it in names}, lanes()
        self.behind = self.chains(names)
        self.began = time.time()
        self.all = [make_lane(it, names) for it in range(count)]
        self.free = [*self.all]
        for name in names:
            if name not in PROGRAMS and stands(name):
                for lane in self.all:
                    lend(f"{TOP}/crates/{name}/out/rlib", f"{lane}/crates/{name}/out/rlib")
        self.spent = self.done = TOLD

    def chains(self, names):
        """Of each crate how long it takes with all that wait for it, one after the other."""
        found = dict.fromkeys(names, 0)
        for name in reversed(names):
            found[name] += self.sizes[name]
            for it in self.below[name]:
                found[it] = max(found[it], found[name])
        return found

    def waits(self, name):
        return any(it in self.left or any(it == other.name for other in self.running) for it in self.below[name])

    def start(self):
        """Starts what can be proved now, first what most waits for: two jobs of what is nearly as long as the longest, at once,
        and one of anything else as soon as a processor is free; more where fewer crates than processors can be proved."""
        ready = sorted((it for it in self.left if not self.waits(it)), key=self.behind.get, reverse=True)
        longest = max((self.behind[it] for it in [*self.left, *(it.name for it in self.running)]), default=0)
        for at, name in enumerate(ready):
            is_near, idle = 4 * self.behind[name] >= 3 * longest, self.lanes - sum(it.jobs for it in self.running)
            if not self.free or idle < 1 and not (is_near and len(self.all) > self.lanes):
                break
            jobs = max(1 + (is_near and self.lanes > 1), min(4, idle // (len(ready) - at)))
            self.left.remove(name)
            self.running.append(Proof(name, self.take_lane(name), jobs))

    def take_lane(self, name):
        """A free lane, in which a run that was stopped has begun with the crate, if there is one."""
        begun = [it for it in self.free if os.path.isdir(f"{it}/crates/{name}/out/incremental")]
        lane = (begun or self.free)[-1]
        self.free.remove(lane)
        return lane

    def minutes_left(self):
        """How long it takes still: all on these processors, or the longest chain one after the other, two jobs at a time."""
        unproved = {*self.left, *(it.name for it in self.running)}

        @functools.lru_cache(None)
        def chain(name):
            return max(map(chain, self.below[name]), default=0) + (self.sizes[name] if name in unproved else 0)

        seconds = max([sum(self.sizes[it] for it in unproved) / self.lanes, *(chain(it) / 2 for it in self.below)])
        return round(seconds * self.spent / self.done / 60)

    def end(self, proof):
        """Tells of a proof that has ended, and gives whether it is one."""
        self.running.remove(proof)
        self.free.append(proof.top)
        if not proof.holds():
            return False
        proof.give(self.all, self.began)
        is_new = "logic=proved" in proof.text()
        self.spent += (time.time() - proof.began) * proof.jobs * is_new
        self.done += self.sizes[proof.name] * is_new
        proved = self.count - len(self.left) - len(self.running)
        say(f"{proof.name} {'proved' if is_new else 'was proved before'}, {proved} of {self.count}; about {self.minutes_left()} minutes left")
        return True

    def run(self):
        """Gives whether all are proved. At the first that isn't, the others are stopped."""
        try:
            while self.left or self.running:
                self.start()
                ended = [it for it in self.running if it.run.poll() is not None]
                if not all([self.end(it) for it in ended]):
                    return False
                time.sleep(0 if ended else 0.2)
            return True
        finally:
            for it in self.running:
                it.stop()


def prove_crates(names):
    """Proves crates, with a line for each, and builds those that are programs. Gives whether all are proved."""
    if not shutil.which("rt"):
        say("the Rattle kit's command `rt`, which proves and builds, isn't on the path")
        return False
    programs.end_by_exit()
    os.makedirs(LANES, mode=0o700, exist_ok=True)
    with held(LANES):
        proofs = Proofs(names)
        say(f"proving {proofs.count} crates on {proofs.lanes} processors, in about {proofs.minutes_left()} minutes; what is proved stays so if this is stopped")
        if not proofs.run():
            return False
        shutil.rmtree(LANES, ignore_errors=True)
    return True


def prove():
    """Proves and builds the programs. Gives the status for the script: 70 where something isn't proved."""
    wanted = [it for it in PROGRAMS if not programs.proved(it)]
    if not wanted:
        say("the program is proved and built")
        return 0
    began = time.time()
    if not prove_crates(with_libraries(*wanted)):
        say("not everything is proved, so the program is not built")
        return 70
    say(f"proved and built in {round((time.time() - began) / 60)} minutes: crates/witx_cli/out/witx_cli")
    return 0
