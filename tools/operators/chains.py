"""Copies of several crates, of which each stands on the one before, that one run of the prover checks together: an edit of any of them in each copy.

A law is so asked of an edit of a definition far below it, and of a bug the function that it changes. Nothing else is proved."""
import os
import re
import shutil

from . import generated
from .variants import RUNNER, Variants, is_proved, is_reached, ran, uses_of


class Chain(Variants):
    """Copies of a crate and of those that build upon it, each copy of all of them."""

    def __init__(self, copy, crates, budget):
        super().__init__(copy, crates[0], budget)
        self.crates = crates
        self.room = copy.folder(RUNNER)
        for it in crates:
            shutil.rmtree(f"{copy.folder(it)}/out", ignore_errors=True)
        self.own = re.compile(rf"\b({'|'.join(crates)})\b")
        os.makedirs(f"{self.room}/src")
        with open(f"{self.room}/src/lib.rt", "w", encoding="utf-8") as it:
            it.write("#![tactic(auto)]\n")
        self.uses = {crate: [it for it in dict.fromkeys(["core", "std", *uses_of(crate)])] for crate in crates}
        others = dict.fromkeys(it for uses in self.uses.values() for it in uses if it not in crates and it != "std")
        with open(f"{copy.root}/crates.txt", "a", encoding="utf-8") as it:
            it.write(f"{RUNNER}: {' '.join(others)}\n")

    def make(self, count):
        for k in range(len(self.names) + 1, count + 1):
            self.names.append(f"_v{k}")
            for crate in self.crates:
                for part in ("src", "specs", "proofs"):
                    for folder, _, files in os.walk(f"{self.copy.folder(crate)}/{part}"):
                        for it in files:
                            place = os.path.relpath(f"{folder}/{it}", self.copy.root)
                            with open(f"{folder}/{it}", encoding="utf-8") as file:
                                self.write(self.names[-1], place, file.read())

    def write(self, name, path, text):
        crate = path.split("/")[1]
        place = f"{self.copy.root}/{path}".replace(f"/crates/{crate}/", f"/crates/{crate}{name}/", 1)
        os.makedirs(os.path.dirname(place), exist_ok=True)
        with open(place, "w", encoding="utf-8") as it:
            it.write(self.own.sub(rf"\g<1>{name}", text))

    def ask(self, edits, laws):
        """Asks these laws of each edit, or of each its own, in a copy of its own; returns what was said of each, or None at the end of the budget."""
        asks = [laws.get(it, ()) for it in edits] if isinstance(laws, dict) else [laws] * len(edits)
        self.make(len(edits))
        names, written = self.names[:len(edits)], []
        for name, edit in zip(names, edits):
            for path, text in edit.texts().items() if edit else ():
                self.write(name, path, text)
                written.append((name, path))
        words = []
        for name in names:
            for crate in self.crates:
                uses = ",".join(it + name if it in self.crates else it for it in self.uses[crate])
                words += ["--lib", f"{crate}{name}:{uses}=../{crate}{name}/src/lib.rt"]
        words += [it for name, own in zip(names, asks) for law in own for it in ("--only", law.replace("::", f"{name}::", 1))]
        said = ran(["rt", "check", "--jobs", "1", *words], self.room, self.budget)
        for name, path in written:
            self.write(name, path, generated.read(path))
        return None if said is None else [self.said_of(said, name) for name in names]

    def said_of(self, said, name):
        """What was said of one copy, with the crates' own names, and what was said of none."""
        found, is_own = [], True
        for line in said.split("\n"):
            if not line.startswith("  "):
                named = re.findall(rf"\b(?:{'|'.join(self.crates)})(_v\d+)\b", line)
                is_own = not named or name in named
            if is_own:
                found.append(re.sub(rf"{name}\b", "", re.sub(rf"\.\./(?:{'|'.join(self.crates)}){name}/", "", line)))
        return "\n".join(found)


def crates_of(tools, edit):
    """Returns the crates that a kept edit changes or of which there is no library, and those between them and the one of its laws, lowest first."""
    last = {name for name, _, _ in edit.targets()}
    reached = {it for name in last for it in [*tools.below(name), name]}
    first = {it.split("/")[1] for it in edit.texts()} | {it for it in reached if not os.path.exists(f"{generated.TOP}/crates/{it}/out/rlib/{it}.rlib")}
    return tuple(it for it in tools.USES if it in reached and (it in first or first & {*tools.below(it)}))


def main(tools, words, budget, log, copies, proved=None):
    """Asks of kept edits the laws alone that are to refuse them, and of bugs the functions that they change, where a log gives the functions of a crate that are
    proved without any. Several edits are in a run. Returns 1 where one is let through, or shows nothing, and where a bug can't be asked."""
    waiting, bugs, failed = sorted_out(tools, words, log, proved)
    for crate, edits in bugs.items():
        if not (functions := proved(crate)):
            # a run over proofs that were kept doesn't tell them
            print(f"{crate}: not asked: the log has no function of it", flush=True)
            continue
        asks = {it: [f"{crate}::{name}" for name in changed_by(it, functions)] for it in edits}
        for edit in [it for it in edits if not asks[it]]:
            print(f"{edit.label()}: FAILED: it changes more than one function, or one that the log doesn't have as proved", flush=True)
            failed += 1
        failed += in_runs(tools, (crate,), [it for it in edits if asks[it]], budget, copies, lambda chain, some: asked_bugs(tools, chain, some, asks, log))
    for crates, edits in waiting.items():
        failed += in_runs(tools, crates, edits, budget, copies, lambda chain, some: asked(tools, chain, some, log))
    return 1 if failed else 0


def sorted_out(tools, words, log, proved):
    """Returns the edits that laws are to refuse, by the crates that they are asked in; the bugs, by their crate; and how many bugs can't be asked."""
    waiting, bugs, failed = {}, {}, 0
    for edit in [it for found in tools.wanted(words).values() for it in found]:
        if log.key(edit) in log.results:
            continue
        if edit.refused_by and all(kind == "law" for _, _, kind in edit.targets()):
            waiting.setdefault(crates_of(tools, edit), []).append(edit)
        elif edit.refused_by:
            print(f"{edit.label()}: not asked: no law is to refuse it")
        elif proved:
            bugs.setdefault(edit.crate, []).append(edit)
        else:
            print(f"{edit.label()}: FAILED: a bug is asked by the log of a check alone, with --proved")
            failed += 1
    return waiting, bugs, failed


def in_runs(tools, crates, edits, budget, copies, ask):
    """Asks edits in copies of these crates, so many in a run, and returns how many fail."""
    if not edits:
        return 0
    copy = tools.Copy({crates[-1], *tools.below(crates[-1])})
    try:
        chain, most = Chain(copy, crates, budget), copies or 6
        return sum(ask(chain, edits[at:at + most]) for at in range(0, len(edits), most))
    finally:
        copy.remove()


def changed_by(edit, functions):
    """Returns the names, of those that a check gives, of the one function that a bug changes; none where it changes more."""
    found = edit.function()
    if not found:
        return []
    module, name = os.path.basename(found[0]).removesuffix(".rt"), found[3]
    named = [it for it in functions if it.rpartition("::")[2] == name]
    return [it for it in named if module in ("lib", "main") or module in it.split("::")] or named


def asked_bugs(tools, chain, edits, asks, log):
    """Asks of each bug the function that it changes, and tells what refused."""
    saids = chain.ask(edits, asks)
    if saids is None:
        return len(edits)
    if not is_reached(saids[0]) and len(edits) > 1:
        half = len(edits) // 2
        return asked_bugs(tools, chain, edits[:half], asks, log) + asked_bugs(tools, chain, edits[half:], asks, log)
    failed = 0
    for edit, said in zip(edits, saids):
        refused = [it for it in re.findall(r"^fn (\S+): (?:not proved|no proof)", said, re.M) if it in asks[edit]]
        try:
            why = tools.refusal(said, [it.split("/", 2)[2] for it in edit.texts()]) if refused else "NOT REFUSED: its function is still proved"
        except tools.Bad as it:
            refused, why = [], str(it)
        failed += not refused
        log.add(edit, "refused" if refused else "failed", why)
        print(f"{edit.label()}: {'refused at' if refused else 'FAILED:'} {why}", flush=True)
    return failed


def asked(tools, chain, edits, log):
    """Asks the laws that these edits name, of each and of the crates without any edit, and tells what refused."""
    laws = sorted({path for it in edits for _, path, _ in it.targets()})
    saids = chain.ask([None, *edits], laws)
    if saids is None:
        return len(edits)
    if not is_reached(saids[0]) and len(edits) > 1:
        half = len(edits) // 2
        return asked(tools, chain, edits[:half], log) + asked(tools, chain, edits[half:], log)
    if not is_proved(saids[0]):
        tools.stop(f"{chain.crates[-1]}: not proved without any edit, so no edit shows anything:\n{saids[0][-2000:]}")
    failed = 0
    for edit, said in zip(edits, saids[1:]):
        named = [path for _, path, _ in edit.targets()]
        refused = [it for it in named if re.search(rf"^fn {it}: (not proved|no proof)", said, re.M)]
        try:
            why = tools.refusal(said, [it.split("/", 2)[2] for it in edit.texts()]) if refused == named else f"NOT REFUSED: {', '.join(it for it in named if it not in refused)} is still proved"
        except tools.Bad as it:
            refused, why = [], str(it)
        is_good = refused == named
        failed += not is_good
        log.add(edit, "refused" if is_good else "failed", why)
        print(f"{edit.label()}: refused at {', '.join(it.rpartition('::')[2] for it in named)}: {why}" if is_good else f"{edit.label()}: FAILED: {why}", flush=True)
    return failed
