"""Tries generated edits against the proofs of their crate: each must be refused by a goal. Which are tried, and what is told of them."""
import collections
import functools
import itertools
import os
import random
import re
import signal
import subprocess
import sys

from . import chains, generated, premises, streams, typed, variants, whole
from .trial import BY_CODE, EQUAL, NOT_TRIED, REFUSED, SURVIVED, Trial, key_of
from .variants import Budget


def known_equal(crate):
    """Returns the edits of crates/NAME/planted/EQUAL, each by its place and its lines, with its reason; and whether all edits were tried once."""
    path = f"{generated.TOP}/crates/{crate}/planted/EQUAL"
    found, place, lines, is_whole = {}, "", {}, False
    for row in open(path, encoding="utf-8").read().split("\n") if os.path.isfile(path) else ():
        key, _, rest = row.partition(": ")
        if key == "in":
            place, lines = rest, {}
        elif key in ("old", "new"):
            lines[key] = rest
        elif key == "new:":
            lines["new"] = ""
        elif key == "equal":
            found[place, lines.get("old", ""), lines.get("new", "")] = rest
        elif key == "tried":
            is_whole = rest == "all"
    return found, is_whole


class Firsts:
    """Tells of each edit of a list whether it is the first of its unit that means what it means, and has a type as far as is seen. So a sample takes of several edits of one meaning
    the one that the whole list has. A unit is read once an edit of it is asked for."""

    def __init__(self, edits, below):
        self.below, self.units, self.found = below, {}, {}
        for it in edits:
            self.units.setdefault((it.path, it.unit.start), []).append(it)

    def has(self, edit):
        place = (edit.path, edit.unit.start)
        if place not in self.found:
            meanings = generated.Meanings()
            self.found[place] = {it for it in self.units[place] if meanings.is_new(it)}
        return edit in self.found[place] and not typed.why_untyped(edit, self.below)


def chosen(crate, tools, most, seed, is_wide=True, is_left=False):
    """Returns edits of a crate: all, or so many, each kind of operator alike; and those among them that are known to be equal. Of those that no contract decides
    so many are taken that each is as likely as each other, and the first of them stay the same where more are wanted. What is seen to have no type is left out.
    A sample is a part of the whole list."""
    below = tuple(tools.below(crate))
    edits = generated.all_of(crate, below, is_wide)
    if is_left:
        edits = [it for it in edits if not whole.is_decided(it)]
    firsts = Firsts(edits, below)
    if most is None:
        edits = [it for it in edits if firsts.has(it)]
    elif is_left:
        random.Random(f"{seed} {crate}").shuffle(edits)
        edits = list(itertools.islice((it for it in edits if firsts.has(it)), most))
    else:
        edits = of_each_kind(edits, firsts, most, random.Random(f"{seed} {crate}"))
    equal, _ = known_equal(crate)
    same = [it for it in edits if key_of(it) in equal]
    return [it for it in edits if it not in same], same


def of_each_kind(edits, firsts, most, order):
    """Draws so many edits, each kind of operator alike."""
    kinds, found = {}, []
    for it in edits:
        kinds.setdefault((it.is_definition(), it.operator), []).append(it)
    for it in kinds.values():
        order.shuffle(it)
    while len(found) < most and any(kinds.values()):
        for it in list(kinds.values()):
            if it and len(found) < most and firsts.has(one := it.pop()):
                found.append(one)
    return found


class Log:
    """The results of edits in a file, so that a run that was ended goes on with what is left."""

    def __init__(self, path):
        self.path, self.seen = path, collections.Counter()
        rows = [it.split("\t") for it in open(path, encoding="utf-8").read().split("\n")] if path and os.path.isfile(path) else []
        self.results = {tuple(it[:2]): it[2] for it in rows if len(it) > 2}
        self.names = {}

    def key(self, edit):
        if id(edit) not in self.names:
            # a kept edit has a name and a crate, which an edit that is made works out
            name, crate = (it() if callable(it) else it for it in (edit.name, edit.crate))
            self.seen[crate, name] += 1
            self.names[id(edit)] = (crate, f"{name} #{self.seen[crate, name]}")
        return self.names[id(edit)]

    def add(self, edit, result, why):
        self.results[self.key(edit)] = result
        if self.path:
            with open(self.path, "a", encoding="utf-8") as it:
                it.write("\t".join([*self.key(edit), result, " ".join(why.split())]) + "\n")


def copies_for(crate, edits):
    """Returns how many variants of a crate are best: each has to be proved once, and each run costs some seconds of a processor for all of them."""
    if os.path.isfile(f"{generated.TOP}/crates/{crate}/src/main.rt"):
        return 1
    depth = collections.Counter((it.path, it.unit.start) for it in edits if not it.is_definition() and it.unit.kind == "fn")
    runs = len(edits) - sum(depth.values()) + max(depth.values(), default=0)
    paths = [f"{at}/{it}" for part in ("src", "specs", "proofs") for at, _, files in os.walk(f"{generated.TOP}/crates/{crate}/{part}") for it in files]
    once, each, more = sum(generated.read(os.path.relpath(it, generated.TOP)).count("\n") for it in paths) / 50, 7, 1.1
    is_kept = os.path.isdir(f"{generated.TOP}/crates/{crate}/out/incremental")

    def cost(count):
        return once * (count if count > 1 or not is_kept else 0) + runs / count * (each + more * (count - 1))

    return min(range(1, 11), key=cost)


def try_crate(tools, crate, most, seed, budget, is_wide=True, kind=None, asks_runs=False, log=None, copies=None, is_left=False, proved=None):
    """Tries edits of a crate, and returns how many of each result there were."""
    if kind is None:
        edits, same = chosen(crate, tools, most, seed, is_wide, is_left)
    else:
        equal, _ = known_equal(crate)
        edits = streams.some_of(streams.all_of(kind, crate, tuple(tools.below(crate)), is_wide), most, f"{seed} {crate}")
        same = [it for it in edits if key_of(it) in equal]
        edits = [it for it in edits if it not in same]
    log = log or Log(None)
    done = [log.results[log.key(it)] for it in edits if log.key(it) in log.results]
    left = [it for it in edits if log.key(it) not in log.results]
    used, found = budget.since(), []
    if left:
        copy = tools.Copy({crate, *tools.below(crate)})
        try:
            of_crate = variants.Variants(copy, crate, budget)
            trial = Trial(tools, copy, crate, budget, of_crate, asks_runs=asks_runs, log=log)
            # a log that has nothing of the crate, as where its proofs were kept, would have nobody asked
            is_told = proved and proved_in(proved, crate)
            why = trial.prove(copies or copies_for(crate, left), left, most is not None, functools.partial(proved_in, proved) if is_told else None)
            if why:
                why = f"{crate}: not proved without any edit, so no edit shows anything:\n{why[-2000:]}"
                if budget.seconds is None:
                    tools.stop(why)
                print(why, flush=True)
                return {}
            trial.try_all(left)
            found = [it for it, _ in trial.results.values()]
        finally:
            copy.remove()
    counts = {**collections.Counter([*found, *done]), EQUAL: len(same)}
    print(f"{crate}: {len(edits) + len(same)} edits, " + ", ".join(f"{counts.get(it, 0)} {it}" for it in (REFUSED, BY_CODE, EQUAL, SURVIVED, NOT_TRIED))
          + f"; {budget.since() - used:.0f} seconds of a processor for {len(found)}", flush=True)
    return counts


def proved_in(path, crate):
    """Returns the functions of a crate that a log of a check has as proved, by the names that `--only` takes."""
    return sorted(set(re.findall(rf"^fn {crate}::(\S+): proved", text_of(path), re.M)))


@functools.cache
def text_of(path):
    with open(path, encoding="utf-8", errors="replace") as it:
        return it.read()


def changed_crates(since):
    """Returns the crates of which code or definitions changed after a commit, or in the day before the last one."""
    def git(*words):
        return subprocess.run(["git", "-C", generated.TOP, *words], stdout=subprocess.PIPE, check=True, text=True).stdout.strip()
    if since is None:
        last = int(git("log", "-1", "--format=%ct"))
        since = git("rev-list", "-1", f"--before={last - 24 * 3600}", "HEAD") or git("rev-list", "--max-parents=0", "HEAD").split("\n")[0]
    paths = git("diff", "--name-only", since, "HEAD", "--", "crates").split("\n")
    return sorted({it.split("/")[1] for it in paths if re.match(r"crates/\w+/(src|specs)/", it)}), git("rev-parse", "HEAD")


def sample(tools, words):
    """Tries a few edits of each crate that changed. A survivor fails in a crate whose edits were all tried once."""
    minutes = 10
    if "--minutes" in words:
        place = words.index("--minutes")
        minutes = float(words[place + 1])
        del words[place:place + 2]
    proved = None
    if "--proved" in words:
        place = words.index("--proved")
        proved = words[place + 1]
        del words[place:place + 2]
    crates, seed = changed_crates(words[0] if words else None)
    crates = [it for it in crates if it in tools.USES and not it.endswith("_tests")]
    random.Random(seed).shuffle(crates)
    budget, failed = Budget(60 * minutes), 0
    for i, crate in enumerate(crates):
        share = budget.left() / (len(crates) - i)
        if budget.left() <= 0:
            break
        one = Budget(max(share, min(120, budget.left())))
        # of a crate that was tried whole, what was tried then; and what the gate has proved just before isn't proved again without any edit
        is_whole = known_equal(crate)[1]
        counts = try_crate(tools, crate, 40, seed, one, not is_whole, is_left=is_whole, proved=proved)
        failed += counts.get(SURVIVED, 0) if is_whole else 0
    print(f"{len(crates)} crates changed; {failed} edits survived in those whose edits were all tried")
    return 1 if failed else 0


def main(tools, words):
    # so that a run that is ended ends what it began, and leaves no copy
    signal.signal(signal.SIGTERM, lambda *_: sys.exit(1))
    kind, words = words[0], words[1:]
    if kind == "--sample":
        return sample(tools, words)
    given = {"--most": None, "--seed": "0", "--log": None, "--copies": None, "--minutes": None, "--proved": None, "--jobs": "1"}
    for name in given:
        if name in words:
            place = words.index(name)
            given[name] = words[place + 1]
            del words[place:place + 2]
    most, seed, log = given["--most"] and int(given["--most"]), given["--seed"], Log(given["--log"])
    budget = Budget(60 * float(given["--minutes"]) if given["--minutes"] else None)
    copies, variants.JOBS[:] = given["--copies"] and int(given["--copies"]), [given["--jobs"]]
    if kind == "--premises":
        return premises.main(tools, words, budget, log, copies, most, seed, given["--proved"] and functools.partial(proved_in, given["--proved"]))
    if kind == "--asked":
        return chains.main(tools, words, budget, log, copies, given["--proved"] and functools.partial(proved_in, given["--proved"]))
    only, is_wide, asks_runs, is_left = "--list" in words, "--wide" in words, "--runs" in words, "--left" in words
    kind = next((it for it in streams.KINDS if it in words), None)
    words = [it.strip("/").removeprefix("crates/") for it in words if it not in ("--list", "--wide", "--runs", "--left", *streams.KINDS)]
    if kind in streams.LONG and most is None and not only:
        tools.stop(f"with {kind} so many are made that a sample alone is tried: say --most N")
    failed = 0
    for crate in words:
        if crate not in tools.USES:
            tools.stop(f"no crate of crates.txt: {crate}")
        if only:
            show(tools, crate, most, seed, is_wide, kind, is_left)
            continue
        failed += try_crate(tools, crate, most, seed, budget, is_wide, kind, asks_runs, log, copies, is_left, given["--proved"]).get(SURVIVED, 0)
    return 1 if failed else 0


def show(tools, crate, most, seed, is_wide, kind, is_left):
    """Prints the edits of a crate by their names, and how many they are."""
    below, count = tuple(tools.below(crate)), 0
    for it in streams.all_of(kind, crate, below, is_wide) if kind else chosen(crate, tools, most, seed, is_wide, is_left)[0]:
        print(it.name())
        count += 1
    print(f"{crate}: {count} edits")


if __name__ == "__main__":
    sys.exit(2)
