"""Which statements contracts of code make that no law reaches: one that says less passes where no other function's proof needs what is left out.

A definition is told by its crate and its name, as each file takes it. Left out is what is no promise to another crate: a type of values; what a
function requires (one that asks less is proved from less, and one that asks more is refused where it is called); an invariant, and the contract of a function that no
other crate can call (where these say less, what is proved from them is refused, or says what it said). What docs/EDITS.md says needs no law, since a function stands on it, isn't told."""
import functools
import os
import re

from . import generated

WORD = re.compile(r"[^\W\d][\w'-]*")
# the same with one of a module
NAME = re.compile(r"[^\W\d][\w'-]*(?:\.[^\W\d][\w'-]*)?")
TAKEN = re.compile(r"^ *(pub )?(?:ghost )?use Rattle\.(\w+)\.specs\.([\w.]+?)(?:\.\{([^}]*)\}|(?: as (\w+))?);?$", re.M)


# a requirement or an invariant up to its clause
UNSAID = re.compile(r"\b(?:requires\b[^{;]*|ghost invariant = )\{")


def words_of(text):
    return {*WORD.findall(text)}


def without_unsaid(text):
    """Returns a contract without what the function requires, and without the invariant of a type."""
    while found := UNSAID.search(text):
        depth, end = 1, found.end()
        while depth and end < len(text):
            depth += {"{": 1, "}": -1}.get(text[end], 0)
            end += 1
        text = text[:found.start()] + text[end:]
    return text


@functools.cache
def shown(crate):
    """Returns the names that a library shows to other crates: of its items, and of its modules that are public."""
    path = f"crates/{crate}/src/lib.rt"
    text = generated.read(path) if os.path.isfile(f"{generated.TOP}/{path}") else ""
    return words_of(re.sub(r"\w+::", "", " ".join(re.findall(r"^pub (?:use|mod)\b[^;]*;", text, re.M))))


@functools.cache
def own_traits(crate):
    """Returns the names of the traits of a crate."""
    return words_of(" ".join(re.findall(r"\btrait (\w+)", " ".join(map(generated.read, generated.paths_of(crate, "src"))))))


def is_shown_trait(path, text, at):
    """Returns whether this place stands in a trait that its crate shows, or that is another crate's; in no trait it answers None."""
    heads = re.findall(r"^(?:pub(?:\(\w+\))? )?(?:unsafe )?(?:impl|trait)\b[^{]*", text[:at], re.M)
    found = re.search(r"\btrait (\w+)|(\w+)(?:<[^{]*>)? for\b", heads[-1]) if heads else None
    if not found:
        return None
    crate, name = path.split("/")[1], found[1] or found[2]
    return name in shown(crate) or name not in own_traits(crate)


def is_promise(unit, path, text):
    """Returns whether other crates are told the contract of a function: it is public and its crate shows it, C calls it, or it is a method of such a trait."""
    is_shown = is_shown_trait(path, text, unit.head) if unit.owner else None
    if is_shown is not None:
        return is_shown
    said = re.search(r"\bpub (?:[\w\"]+ )*$", text[:unit.head].rpartition("\n")[2])
    names = {unit.owner or unit.name, os.path.basename(path).removesuffix(".rt")}
    return bool(said and ("extern" in said[0] or names & shown(path.split("/")[1])))


def is_of_types(units, text):
    """Returns whether a definition is a record whose fields are types alone, so that it holds values and states nothing."""
    fields = [text[it.start:it.end] for it in units]
    return all("." in it.name for it in units) and not any(re.search(r"[≡≢≤<↔]|\b[a-z]", it) for it in fields)


def taken(text):
    """Returns the definitions that a file takes, each by its name there: its crate and its own name. A module has no name of its own."""
    found, passed = {}, {}
    for is_passed, crate, module, names, other in TAKEN.findall(text):
        for it in names.split(",") if names else (f" as {other or module.rpartition('.')[2]}",):
            name, _, here = it.partition(" as ")
            found[(here or name).strip()] = crate, name.strip()
            if is_passed:
                passed[(here or name).strip()] = crate, name.strip()
    return found, passed


@functools.cache
def passed_on():
    """Returns what specs pass on of other crates, by the crate and the name under which it is taken from there."""
    found = {}
    for path in generated.all_paths("specs"):
        crate = path.split("/")[1]
        found.update({(crate, name): it for name, it in taken(generated.read(path))[1].items() if it[0] != crate})
    return found


def named(text, crate, names):
    """Returns the definitions that a text of a crate may name, each by its crate and its name."""
    found = set()
    for word in NAME.findall(text):
        head, _, rest = word.partition(".")
        of, name = names.get(head, (crate, head))
        place = of, name or rest
        found.add(passed_on().get(place, place))
        # what stands behind a point may be a word by itself
        found.add(passed_on().get(names.get(rest, (crate, rest)), names.get(rest, (crate, rest))))
    return found


def cited():
    """Returns what each definition cites, by its crate and its name, and the crates in which a statement of a name stands."""
    cites, crates = {}, {}
    for path in generated.all_paths("specs"):
        text, crate, parts = generated.read(path), path.split("/")[1], {}
        for unit in generated.parsed(path).units:
            parts.setdefault(unit.name.partition(".")[0], []).append(unit)
        names = taken(text)[0]
        for name, units in parts.items():
            cites.setdefault((crate, name), set()).update(*(named(text[it.start:it.end], crate, names) for it in units))
            if not is_of_types(units, text):
                crates.setdefault(name, set()).add(crate)
    return cites, crates


def said():
    """Returns what the contracts of laws name, and those of code, its traits and its models."""
    laws, code = set(), set()
    for path in generated.all_paths("src"):
        text, crate = generated.read(path), path.split("/")[1]
        names = taken(text)[0]
        for unit in generated.parsed(path).units:
            if unit.kind == "fn":
                is_law = generated.is_law(unit) or os.path.basename(path) == "laws.rt"
                if is_law or is_promise(unit, path, text):
                    (laws if is_law else code).update(named(without_unsaid(text[unit.head:unit.start]), crate, names))
        for it in re.finditer(r"ghost (?!invariant)\w+ = \{[^}]*\}|\bensures[^{;]*\{[^}]*\}\s*;", text):
            code |= named(it[0], crate, names) if is_shown_trait(path, text, it.start()) is not False else set()
    return laws, code


def reached(words, cites):
    """Returns the definitions that are cited from these words on."""
    found, ahead = set(), [it for it in words if it in cites]
    while ahead:
        name = ahead.pop()
        if name not in found:
            found.add(name)
            ahead += [it for it in cites[name] if it in cites]
    return found


def excused():
    """Returns for each crate the statements that docs/EDITS.md says need no law, with the function that stands on them."""
    found = {}
    part = generated.read("docs/EDITS.md").split("\n## What no law reaches\n")[1].split("\n## ")[0]
    for names, statements, _ in re.findall(r"^\| (`osdp_[^|]*) \| ([^|]*) \| ([^|]*) \|$", part, re.M):
        for crate in re.findall(r"`(\w+)`", names):
            found.setdefault(crate, set()).update(re.findall(r"`(\w+)`", statements))
    return found


def lawless():
    """Returns for each crate the statements that its code makes and no law reaches; values are left out, since code gives these."""
    cites, crates = cited()
    laws, code = said()
    excuses, found = excused(), {}
    for crate, name in reached(code, cites) - reached(laws, cites):
        if name[0].isupper() and crate in crates.get(name, ()) and not re.search(r"_tests$|_test_packets$", crate) and name not in excuses.get(crate, ()):
            found.setdefault(crate, []).append(name)
    return {crate: sorted(found[crate]) for crate in sorted(found)}


def main():
    found = lawless()
    for crate, names in found.items():
        print(f"{crate}: {len(names)}: {' '.join(names)}")
    print(f"{sum(map(len, found.values()))} statements in {len(found)} crates")
    return 0
