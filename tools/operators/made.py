"""Which of the kept edits an operator makes."""
import glob
import itertools
import os
import re
from collections import Counter, defaultdict

from . import code, code_special, contracts, definitions, donors, generated, items, pairs, pinned, premises, shadows
from .spelling import code_form, term_form

# words by which forms differ though they mean the same
SPELLED = ("let", "_", "true", "false", "len", "is_empty", "return", "else", "if", "then")


def outside(text, file):
    """What stands in a file beside its units, without what it brings in and comments."""
    found, at = [], 0
    for unit in sorted(file.units, key=lambda it: it.start):
        if unit.start >= at:
            found.append(text[at:unit.start])
            at = unit.end
    found.append(text[at:])
    text = " ".join(found)
    text = re.sub(r"^(?:ghost |pub )?use [^;\n]*(?:\{[^}]*\})?;?$|//[^\n]*|--[^\n]*", "", text, flags=re.M)
    return re.sub(r"\s+", "", text)


def changed_units(path, text, new):
    """Returns the units that an edit of a file changes, each with its new text, or None where it changes more."""
    parse = items.File if path.endswith(".rt") else definitions.File
    file = generated.parsed(path)
    try:
        other = parse(new)
    except (code.Unread, definitions.Unread, KeyError, IndexError, RecursionError):
        return None
    if len(file.units) != len(other.units) or outside(text, file) != outside(new, other):
        return None
    return [(path, one, new[two.start:two.end]) for one, two in zip(file.units, other.units) if text[one.start:one.end] != new[two.start:two.end]]


class Change:
    """What a kept edit makes of one unit: its new text, the form of it, and the part of the file that is another."""

    def __init__(self, path, unit, body):
        self.path, self.unit, self.body, self.form = path, unit, body, form(path, unit, body)
        old = generated.read(path)[unit.start:unit.end]
        before = len(os.path.commonprefix([old, body]))
        after = len(os.path.commonprefix([old[before:][::-1], body[before:][::-1]]))
        self.first, self.last = unit.start + before, unit.end - after
        self.place = path, unit.start

    def words_gained(self):
        return gained(self.body, generated.read(self.path)[self.unit.start:self.unit.end])

    def is_near(self, edit):
        return edit.start <= self.last + 2 and edit.end >= self.first - 2


def gained(new, old):
    """Returns how many of each word and sign a text has more than another, or less."""
    found = Counter(re.findall(r"\w+|[^\w\s(){},;]", re.sub(r"(?<=\d)_(?=\d)", "", new)))
    found.subtract(re.findall(r"\w+|[^\w\s(){},;]", re.sub(r"(?<=\d)_(?=\d)", "", old)))
    return {it: count for it, count in found.items() if count}


def changes(edit):
    """Returns what a kept edit makes of each unit of code and of definitions, or None where it changes more."""
    found = []
    for path, new in edit.texts().items():
        units = changed_units(path, generated.read(path), new) if re.search(r"/(src|specs)/", path) else None
        if not units:
            return None
        found += [Change(*it) for it in units]
    return found if all(it.form is not None for it in found) else None


def form(path, unit, body):
    try:
        return code_form(body, unit, generated.constants().items(), generated.reading()) if path.endswith(".rt") else term_form(body)
    except (code.Unread, definitions.Unread, KeyError, RecursionError):
        return None


def made(edits, below, with_special=False):
    """Yields each kept edit with the generated one that is the same, or the pair of these, or None. `below` tells the crates below one.

    Special cases are asked only where told: their lists are so long that these edits would hardly be tried again."""
    waiting, kept = defaultdict(list), []
    for edit in edits:
        if one := premises.made(edit.texts()):
            yield edit, one
            continue
        found = changes(edit)
        if found is None and (one := shadow(edit, below) or contract(edit, below)) is not None:
            yield edit, one
            continue
        if found is None or any(it.form == generated.form_of(it.path, it.unit) for it in found):
            yield edit, None
            continue
        kept.append((edit, found))
        for it in found:
            waiting[it.place].append(it)
    made_of = defaultdict(list)
    for place, found in sorted(waiting.items()):
        crates = tuple(below(place[0].split("/")[1]))
        for it in generated.of_unit(place[0], found[0].unit, crates):
            near = [one for one in found if one.is_near(it)]
            if near and (one := it.form()) in [wanted.form for wanted in near]:
                made_of[place, one].append(it)
        for it in found:
            if (place, it.form) not in made_of:
                made_of[place, it.form] += told_shortly(it, crates)
            if with_special and not made_of[place, it.form]:
                made_of[place, it.form] += special(it, crates)
    for edit, found in kept:
        yield edit, chosen([made_of[it.place, it.form] for it in found])


def shadow(edit, below):
    """Returns the definition taken otherwise that is the same as what a kept edit puts into a file of laws."""
    texts = edit.texts()
    path = next(iter(texts))
    if len(texts) != 1 or not re.match(r"crates/\w+_laws/specs/", path):
        return None
    wanted = shadows.kept_as(path, texts[path])
    return wanted and next((it for it in shadows.of_file(path, tuple(below(path.split("/")[1]))) if it.key() == wanted.key()), None)


def contract(edit, below):
    """Returns what says a law's contract otherwise as a kept edit does."""
    [(path, new), *others] = edit.texts().items()
    if others or "/src/" not in path:
        return None
    try:
        return contracts.made(path, new, items.File(new), tuple(below(path.split("/")[1])))
    except (code.Unread, KeyError, IndexError, RecursionError):
        return None


def told_shortly(change, below):
    """Returns the edits of the short lists that are the same as a change."""
    wanted = names_in(change.words_gained())
    for it in generated.short_of_unit(change.path, change.unit, below):
        if change.is_near(it) and names_in(gained(it.new, generated.read(it.path)[it.start:it.end])) == wanted and it.form() == change.form:
            return [it]
    return []


def names_in(words):
    """The names among words that a text gained or lost, without those that ask the same in other words."""
    return {it for it in words if re.match(r"[^\W\d]", it) and it not in SPELLED}


def special(change, below):
    """Returns the special case, or what brings another expression of the crate, that is the same as a change."""
    words, wanted = code_special.words_of(change.body), change.words_gained()
    found = generated.special_of_unit(change.path, change.unit, below, (change.first, change.last), words)
    found = list(itertools.islice((it for it in found if gained(it.new, generated.read(it.path)[it.start:it.end]) == wanted and it.form() == change.form), 1))
    if found:
        return found
    wanted = donors.bare(change.body)
    found = generated.donated_of_unit(change.path, change.unit, (change.first, change.last), wanted)
    return list(itertools.islice((it for it in found if donors.bare(it.body()) == wanted and it.form() == change.form), 1))


def chosen(found):
    """Returns the generated edit of one unit, or the pair of those of several."""
    if len(found) == 1:
        return found[0][0] if found[0] else None
    # more than two, and with a part that is made one after the other, are in no list
    found = [[it for it in part if it.operator not in (donors.OPERATOR, donors.STATEMENT) and (it.is_definition() or it.operator != code_special.OPERATOR)] for part in found]
    if len(found) != 2:
        return None
    tried = itertools.islice(itertools.product(*found), 64)
    return next((pairs.Pair(list(it)) for it in tried if pairs.is_pair(it)), None)


def without_spaces(text):
    return re.sub(r"\s+", "", text)


def remove(tools, words):
    """Prints the kept edits that operators make, each with the generated edit that is the same, and with `--remove` removes their files.

    With `--special` it asks for special cases too, and removes none."""
    with_special = "--special" in words
    is_to_remove = "--remove" in words and not with_special
    crates = [it for it in words if it not in ("--remove", "--special")] or [it for it in tools.USES if glob.glob(f"{generated.TOP}/crates/{it}/planted/*.edit")]
    kept, count, spelled, by_runs = [], 0, 0, 0
    for edit in [it for found in tools.wanted(crates).values() for it in found]:
        # a program in C isn't run with what operators make: the other runs are, with `--generate --runs`
        if any(kind == "c" for _, _, kind in edit.targets()):
            by_runs += 1
            continue
        try:
            edit.texts()
            kept.append(edit)
        except tools.Bad as why:
            print(f"{edit.label()}: stays: {why}")
    listed = 0
    for edit in [it for it in kept if pinned.changed(it)]:
        kept.remove(edit)
        listed += 1
        print(f"{edit.label()} : {' '.join(pinned.changed(edit)[1])} of {pinned.changed(edit)[0]}: given by equations", flush=True)
        if is_to_remove:
            pinned.take(edit)
            os.remove(edit.path)
    for edit, same in made(kept, tools.below, with_special):
        if same is None:
            continue
        count += 1
        is_same = all(without_spaces(it) == without_spaces(same.texts()[path]) for path, it in edit.texts().items())
        spelled += not is_same
        print(f"{edit.label()} {'=' if is_same else '~'} {same.name()}", flush=True)
        if is_to_remove:
            os.remove(edit.path)
    done = "removed" if is_to_remove else "made by operators"
    print(f"{listed} bugs in functions that are given by equations{', removed' if is_to_remove else ''}")
    print(f"{len(kept)} kept edits: {count} {done}, of these {spelled} in another spelling; {len(kept) - count} stay, and {by_runs} that programs in C refuse")
    return 0
