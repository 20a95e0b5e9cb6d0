#!/usr/bin/env python3
"""Proves the crates of a copied tree with the checker of Rattle's kit, and keeps each library that is proved, so that no run proves it again.

The checker gets the words that `rt ci` gives it, over nothing that an earlier check left but the proved libraries below. These stand in out/proved/, one
file for each crate, NAME-KEY: the key is a checksum of its code, contracts, definitions and proofs, of the crates that it stands on, and of the kit. Such a
file is written under another name first, so that one that was broken off is never taken."""
import glob
import hashlib
import os
import re
import shutil
import signal
import subprocess
import tarfile
import time

import programs

KEPT = f"{programs.OUT}/proved"
# The memory that a proof may take, in bytes, and what of it each further processor adds.
NEED = 3_000_000_000
MORE = 0.6
# As many processors as gain anything for one crate.
MOST = 4
# What of the free memory is given to proofs.
SHARE = 0.85
# How much faster a chain of crates is proved with the processors that it leaves free, as a part of what all do side by side.
ALONE = 0.5
# The last line of a proof that stands on nothing but the kit and the libraries below.
WORDS = "functions axioms target cpu threads main may-wait sum".replace(" ", "|")
PROVED = re.compile(rf"^logic=proved( ({WORDS})=\S+)+ native=\S+ logic-built=trusted libraries-built=trusted statements=trusted$", re.M)
LIMITS = ("/sys/fs/cgroup/cpu.max", "/sys/fs/cgroup/memory.max", "/sys/fs/cgroup/memory.current")


def number_in(file, pattern=r"(\d+)"):
    """Returns a number of a file, or None where there is none."""
    try:
        with open(file, encoding="utf-8") as it:
            return int(re.search(pattern, it.read())[1])
    except (OSError, TypeError):
        return None


def processors():
    """Returns on how many processors this may run."""
    quota, period = number_in(LIMITS[0], r"^(\d+)"), number_in(LIMITS[0], r" (\d+)")
    found = len(os.sched_getaffinity(0))
    return min(found, max(quota // period, 1)) if quota and period else found


def memory():
    """Returns how much memory there is for proofs, in bytes."""
    found = 1024 * (number_in("/proc/meminfo", r"MemAvailable:\s+(\d+)") or 0)
    most, held = number_in(LIMITS[1]), number_in(LIMITS[2])
    return SHARE * (min(found, most - held) if most and held else found)


class Kit:
    """Rattle's kit: where it stands, and a checksum of it."""

    def __init__(self):
        self.top = os.path.dirname(self.asked("doc"))
        self.checker = f"{self.top}/bin/rattle"
        if not os.path.isfile(self.checker):
            raise programs.Fault(f"the kit in {self.top} has no bin/rattle, its checker")
        found = hashlib.sha256(self.asked("version").encode())
        with open(self.checker, "rb") as it:
            for block in iter(lambda: it.read(1 << 20), b""):
                found.update(block)
        self.key = found.hexdigest()

    @staticmethod
    def asked(word):
        """Returns what the kit's command answers to a word."""
        how = {"stdin": subprocess.DEVNULL, "capture_output": True, "text": True}
        return subprocess.run([programs.kit(), word], **how).stdout.strip()


class Progress:
    """What the proofs cost, and how far they are, by the lines of the crates' code and of what they load."""

    def __init__(self, tree, uses):
        self.uses = uses
        self.code = {name: self.lines(f"{tree}/crates/{name}/src") for name in uses}
        self.left = {name: self.weight(name) for name in uses}
        self.behind = {}
        for name in uses:
            self.reach(name)
        self.all, self.whole = len(uses), sum(self.left.values())
        self.proved, self.begun = 0, time.time()

    @staticmethod
    def lines(folder):
        """Returns how many lines of code stand below a folder, without tests."""
        found = 0
        for at, folders, files in os.walk(folder):
            folders[:] = [it for it in folders if it != "tests"]
            for file in files:
                with open(f"{at}/{file}", "rb") as it:
                    found += it.read().count(b"\n") if file != "tests.rt" else 0
        return found

    def weight(self, name):
        """Returns about what the proof of a crate costs, as so many lines: a line of the crates below, which it loads, is an eightieth of one of its own."""
        below = programs.needed(self.uses, name)[1:]
        return self.code[name] + sum(self.code[it] for it in below) / 80

    def reach(self, name):
        """Returns the weight of the longest chain from this crate up."""
        if name not in self.behind:
            above = [self.reach(it) for it in self.uses if name in self.uses[it]]
            self.behind[name] = self.left[name] + max(above, default=0)
        return self.behind[name]

    def minutes(self, running):
        """Returns about how many minutes are left, or None before enough was proved to tell. Of what is in work, half is taken to be done."""
        half = sum(self.left[it] for it in running) / 2
        if not self.left or self.proved < self.whole / 25:
            return None
        speed = (self.proved + half) / (time.time() - self.begun)
        chain = max(self.behind[it] for it in self.left)
        return max((sum(self.left.values()) - half) / speed, chain / (ALONE * speed)) / 60

    def kept(self, name):
        """Says that a crate was proved by an earlier run."""
        del self.left[name]
        self.whole -= self.weight(name)

    def done(self, name, running):
        """Says that a crate is proved, with how many are left."""
        self.proved += self.left.pop(name)
        minutes = self.minutes(running)
        rest = f", about {round(minutes)} minutes" if minutes and minutes >= 1.5 else ", about a minute" if minutes else ""
        print(f"{name} is proved; {len(self.left)} of {self.all} left{rest}", flush=True)


class Prover:
    """Proves the crates of the program that stand in the folder `tree` of a room, which has the libraries that are proved in `libraries`."""

    def __init__(self, room):
        self.room, self.tree, self.libraries = room, f"{room}/tree", f"{room}/libraries"
        self.kit, self.uses = Kit(), programs.listed(self.tree)
        self.keys, self.running, self.killed, self.fresh = {}, {}, set(), []
        for name in self.uses:
            self.key(name)
        self.processors, self.memory = processors(), memory()
        self.progress = Progress(self.tree, self.uses)
        os.makedirs(self.libraries)
        os.makedirs(f"{room}/tmp")
        os.makedirs(KEPT, exist_ok=True)

    def key(self, name):
        """Returns the checksum of all that the proof of a crate rests on."""
        if name not in self.keys:
            below = [self.key(it) for it in self.uses[name] if it in self.uses]
            found = hashlib.sha256(repr((self.kit.key, name, self.uses[name], below)).encode())
            for part in programs.PARTS:
                programs.read_into(found, self.tree, name, part)
            self.keys[name] = found.hexdigest()[:32]
        return self.keys[name]

    def take(self, name):
        """Takes a library that an earlier run proved of the same sources, and returns whether there is one."""
        try:
            with tarfile.open(f"{KEPT}/{name}-{self.keys[name]}") as it:
                it.extractall(self.libraries, **({"filter": "data"} if hasattr(tarfile, "data_filter") else {}))
        except (OSError, tarfile.TarError):
            shutil.rmtree(f"{self.libraries}/{name}.rlib", ignore_errors=True)
            return False
        self.progress.kept(name)
        return True

    def keep(self):
        """Keeps a library that was proved, in the place of those of other sources."""
        name = self.fresh[0]
        new = f"{KEPT}/{name}.new"
        with tarfile.open(new, "w:gz", compresslevel=1) as it:
            it.add(f"{self.libraries}/{name}.rlib", f"{name}.rlib")
        for file in glob.glob(f"{KEPT}/{name}-*"):
            os.remove(file)
        os.replace(new, f"{KEPT}/{name}-{self.keys[name]}")
        del self.fresh[0]

    def command(self, name, jobs):
        """Returns the call of the checker that proves a crate, as `rt ci` makes it, and builds what the crates above or the linker read."""
        at = self.kit.top
        words = [self.kit.checker, "build", "--crate-name", name, "src/main.rt" if name == programs.PROGRAM else "src/lib.rt"]
        for it in ["std", *self.uses[name]]:
            words += ["--extern", f"{it}={self.libraries if it in self.uses else f'{at}/rlibs'}/{it}.rlib"]
        words += ["-L", f"dependency={at}/rlibs", "-L", f"dependency={self.libraries}"]
        words += ["--antt-project", f"{at}/rattle/logic/antt-project.json", "--logic-built", f"{at}/logic_built"]
        words += ["--jobs", str(jobs), "--links", f"{name}=", "--empty-contracts"]
        if name == programs.PROGRAM:
            return [*words, "--toolchain", f"{at}/toolchain", "--backend", "llvm", "-o", f"{self.room}/{name}.o"]
        return [*words, "--statements", "-o", f"{self.libraries}/{name}.rlib"]

    def room_for(self, waiting):
        """Returns how many processors the first of so many crates that wait gets, or 0 where there is no room for it."""
        idle = self.processors - sum(jobs for jobs, _ in self.running.values())
        space = self.memory / NEED - sum(1 + MORE * (jobs - 1) for jobs, _ in self.running.values())
        if self.running and (idle < 1 or space < 1):
            return 0
        return max(1, min(MOST, idle // waiting, 1 + int((space - 1) / MORE)))

    def start(self, name, jobs):
        """Begins the proof of a crate."""
        how = {"cwd": f"{self.tree}/crates/{name}", "env": {**os.environ, "TMPDIR": f"{self.room}/tmp"}, "stdin": subprocess.DEVNULL}
        with open(f"{self.room}/{name}.log", "wb") as log:
            ran = subprocess.Popen(self.command(name, jobs), stdout=log, stderr=subprocess.STDOUT, start_new_session=True, **how)
        self.running[name] = jobs, ran

    def end(self, name):
        """Judges a proof that has ended: True where the crate is proved, None where it is to be tried again."""
        status = self.running.pop(name)[1].returncode
        with open(f"{self.room}/{name}.log", encoding="utf-8", errors="replace") as log:
            said = log.read()
        if status == 0 and PROVED.search(said):
            self.fresh += [name] if name != programs.PROGRAM else []
            self.progress.done(name, self.running)
            return True
        if status == -signal.SIGKILL and name not in self.killed:
            print(f"the proof of {name} was killed, most likely for memory: once more, and one less beside it", flush=True)
            self.killed.add(name)
            self.memory = max(self.memory - NEED, NEED)
            return None
        print(f"== {name}\n{said.rstrip()}\n{name} is not proved", flush=True)
        return False

    def prove(self):
        """Proves what is not proved yet, the crates with the longest chain of others behind them first, and returns whether all are."""
        left = sorted(self.progress.left, key=lambda it: -self.progress.behind[it])
        proved = {*self.uses} - {*left}
        while True:
            ready = [it for it in left if all(below in proved for below in self.uses[it] if below in self.uses)]
            for at, name in enumerate(ready):
                jobs = self.room_for(len(ready) - at)
                if jobs:
                    left.remove(name)
                    self.start(name, 1 if name in self.killed else jobs)
            # What waited for a library begins before that is packed.
            if self.fresh:
                self.keep()
            elif not self.running:
                return not self.progress.left
            else:
                time.sleep(0.05)
            for name in [it for it, (_, ran) in self.running.items() if ran.poll() is not None]:
                was = self.end(name)
                if was:
                    proved.add(name)
                elif was is None:
                    left.insert(0, name)

    def link(self):
        """Links the program that was proved and built, and returns its path."""
        at, made = self.kit.top, f"{self.room}/{programs.PROGRAM}"
        words = [f"{at}/bin/rattle-link", "--target", "x86_64-unknown-linux-gnu", "--toolchain", f"{at}/toolchain", "-o", made, f"{made}.o"]
        words += [f"{at}/c/libos_c.a", f"{at}/c/liblibc_c.a"]
        ran = subprocess.run(words, stdin=subprocess.DEVNULL, stdout=subprocess.PIPE, stderr=subprocess.STDOUT, text=True, errors="replace")
        if ran.returncode:
            raise programs.Fault(f"the program is proved and was not linked:\n{ran.stdout}")
        return made

    def stop(self):
        """Ends the proofs that are in work, and keeps what was proved."""
        for _, ran in self.running.values():
            try:
                os.killpg(ran.pid, signal.SIGKILL)
            except OSError:
                pass
            ran.wait()
        while self.fresh:
            self.keep()
