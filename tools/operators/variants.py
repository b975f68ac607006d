"""Copies of a crate under other names, which one run of the prover checks together: an edit, or several of different functions, in each.

What every run costs, as to load the program logic and to read the libraries, is so paid once for all of them."""
import os
import re
import resource
import shutil
import signal
import subprocess

from . import generated

RUNNER = "tries"
# seconds of a processor after which a check is ended
LONGEST = 3600
# processes that a check may have
JOBS = ["1"]


class Budget:
    """Seconds of a processor that the commands may take, or none."""

    def __init__(self, seconds):
        self.seconds = seconds
        self.began = self.used()

    def used(self):
        it = resource.getrusage(resource.RUSAGE_CHILDREN)
        return it.ru_utime + it.ru_stime

    def since(self):
        return self.used() - self.began

    def left(self):
        return float("inf") if self.seconds is None else self.seconds - self.since()


def ran(words, folder, budget):
    """Runs a command, and ends it where it takes much more than what is left."""
    left = budget.left()
    if left <= 0:
        return None
    how = {"stdin": subprocess.DEVNULL, "stdout": subprocess.PIPE, "stderr": subprocess.STDOUT, "errors": "replace", "start_new_session": True}
    done = subprocess.Popen(words, cwd=folder, preexec_fn=lambda: resource.setrlimit(resource.RLIMIT_CPU, (LONGEST, LONGEST)), **how)
    try:
        return done.communicate(timeout=None if budget.seconds is None else 2 * left + 20)[0]
    except subprocess.TimeoutExpired:
        return None
    finally:
        if done.poll() is None:
            os.killpg(done.pid, signal.SIGKILL)
            done.communicate()


def uses_of(crate):
    """Returns the libraries that a crate names in crates.txt, those of the kit with them."""
    for row in generated.read("crates.txt").split("\n"):
        name, _, rest = row.partition("#")[0].partition(":")
        if name.split()[:1] == [crate]:
            return rest.split()
    return []


def with_edits(edits):
    """Returns the texts of the files with these edits, each of another unit, and the first and last line of each edit's unit then."""
    # what brings in names by itself has a variant to itself
    if not hasattr(edits[0], "start") or hasattr(edits[0].unit, "law"):
        return edits[0].texts(), {edits[0]: (0, 0)}
    texts, places = {}, {}
    for path in {it.path for it in edits}:
        text, moved, here = generated.read(path), 0, {}
        for it in sorted((one for one in edits if one.path == path), key=lambda one: one.start):
            text = text[:it.start + moved] + it.new + text[it.end + moved:]
            start = getattr(it.unit, "head", it.unit.start) + moved
            moved += len(it.new) - (it.end - it.start)
            here[it] = (start, it.unit.end + moved)
        for it, (start, end) in here.items():
            places[it] = (text.count("\n", 0, start) + 1, text.count("\n", 0, end) + 1)
        if path.endswith(".antt"):
            text = generated.bring_in(text, " ".join(it.new for it in edits))
        texts[path] = text
    return texts, places


class Variants:
    def __init__(self, copy, crate, budget):
        self.copy, self.crate, self.budget = copy, crate, budget
        self.names, self.kept, self.functions = [], {}, []

    def make(self, count):
        """Makes so many; where it is one, that is the crate itself, with the work that is kept of it."""
        if count == 1:
            self.names, self.room = [self.crate], self.copy.folder(self.crate)
            return
        self.room = self.copy.folder(RUNNER)
        if not os.path.isdir(self.room):
            os.makedirs(f"{self.room}/src")
            with open(f"{self.room}/src/lib.rt", "w", encoding="utf-8") as it:
                it.write("#![tactic(auto)]\n")
            uses = dict.fromkeys(["core", *uses_of(self.crate)])
            with open(f"{self.copy.root}/crates.txt", "a", encoding="utf-8") as it:
                it.write(f"{RUNNER}: {' '.join(uses)}\n")
        for k in range(len(self.names) + 1, count + 1):
            self.names.append(f"{self.crate}_v{k}")
            for part in ("src", "specs", "proofs"):
                for folder, _, files in os.walk(f"{self.copy.folder(self.crate)}/{part}"):
                    for it in files:
                        place = os.path.relpath(f"{folder}/{it}", self.copy.root)
                        with open(f"{folder}/{it}", encoding="utf-8") as file:
                            self.write(self.names[-1], place, file.read())

    def write(self, name, path, text):
        place = f"{self.copy.root}/{path}".replace(f"/crates/{self.crate}/", f"/crates/{name}/", 1)
        os.makedirs(os.path.dirname(place), exist_ok=True)
        with open(place, "w", encoding="utf-8") as it:
            it.write(re.sub(rf"\b{self.crate}\b", name, text))

    # ---- what is kept between runs

    def incremental(self):
        for folder, _, files in os.walk(f"{self.room}/out/incremental"):
            for it in files:
                yield f"{folder}/{it}"

    def keep(self):
        """Sets aside what the run without edits kept."""
        aside = f"{self.copy.room}/aside"
        shutil.rmtree(aside, ignore_errors=True)
        os.makedirs(aside)
        for i, path in enumerate(self.incremental()):
            os.link(path, f"{aside}/{i}")
            self.kept[path] = (os.stat(path).st_ino, f"{aside}/{i}")

    def put_back(self):
        """Takes back what a run with edits changed: the toolchain makes each file anew."""
        if not self.kept:
            return
        seen = set()
        for path in list(self.incremental()):
            inode, aside = self.kept.get(path, (None, None))
            seen.add(path)
            if aside is None:
                os.unlink(path)
            elif os.stat(path).st_ino != inode:
                os.unlink(path)
                os.link(aside, path)
        for path, (_, aside) in self.kept.items():
            if path not in seen:
                os.link(aside, path)

    # ---- runs

    def prove(self, count, only=None):
        """Proves so many without any edit, or some of their functions, and keeps that; returns what was said where they aren't proved, or None."""
        self.make(count)
        names = self.names[:count]
        said = self.run(names, [it for name in names for path in only or () for it in ("--only", f"{name}::{path}")])
        if said is None:
            return "the time is over"
        counted = re.search(r"^only=(\d+) proved=(\d+)", said, re.M)
        if "logic=proved" not in said if only is None else not counted or counted[1] != counted[2]:
            return said
        self.keep()
        self.functions = self.functions or sorted(re.findall(rf"^fn {self.names[0]}::(\S+): proved", said, re.M))
        return None

    def run(self, names, words):
        if self.names != [self.crate]:
            uses = ",".join(dict.fromkeys(["core", "std", *uses_of(self.crate)]))
            root = "main" if os.path.isfile(f"{self.copy.folder(self.crate)}/src/main.rt") else "lib"
            words = [*(it for name in names for it in ("--lib", f"{name}:{uses}=../{name}/src/{root}.rt")), *words]
        return ran(["rt", "check", "--jobs", *JOBS, *words], self.room, self.budget)

    def check(self, loads, only=None):
        """Checks variants with these edits, one load for each, and of these the functions named alone, where `only` has a list for each load.
        Returns what was said of each load, and the place of each edit's unit, or None at the end of the budget."""
        self.make(max(len(loads), len(self.names)))
        names, written, places = self.names[:len(loads)], [], {}
        for name, edits in zip(names, loads):
            texts, found = with_edits(edits)
            places.update(found)
            for path, text in texts.items():
                self.write(name, path, text)
                written.append((name, path))
        asked = [] if only is None else [f"{name}::{it}" if it else "" for name, asks in zip(names, only) for it in asks]
        said = self.run(names, [it for path in dict.fromkeys(asked) for it in ("--only", path)])
        for name, path in written:
            self.write(name, path, generated.read(path))
        self.put_back()
        return None if said is None else (self.split(said, names), places)

    def split(self, said, names):
        """Returns for each variant what was said of it, with the crate's own name, and what was said of none."""
        if self.names == [self.crate]:
            return [said]
        found, to = {name: [] for name in names}, None
        for line in said.split("\n"):
            named = [it for it in dict.fromkeys(re.findall(rf"\b{self.crate}_v\d+\b", line)) if it in found]
            if not line.startswith("  "):
                to = named[0] if named else None
            for name in [to] if to else found:
                found[name].append(line.replace(f"../{name}/", "").replace(name, self.crate))
        return ["\n".join(found[it]) for it in names]


def is_reached(said):
    """Whether a check came to the prover."""
    return bool(re.search(r"^(logic|only)=|no proof", said, re.M))


def is_proved(said):
    """Whether all functions of a variant that were asked are proved, and nothing of it is refused."""
    told = re.findall(r"^fn \S+: (.*)$", said, re.M)
    return is_reached(said) and all(it == "proved" for it in told) and bool(told) and not re.search(r"^(?!note: |warning: )\S+:\d+:\d+: error", said, re.M)
