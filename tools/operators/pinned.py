"""Functions whose contracts say by equations what comes of them: of these no wrong body passes, whatever its case, so a bug in one needs no file.

`crates/NAME/planted/PINNED` has a line for each such function that had files: its file and name, and the left sides of its equations."""
import functools
import glob
import os
import re

from . import generated

CLOSE = {"(": ")", "[": "]", "{": "}", "<": ">"}
COMES = re.compile(r"\bresult\b|\w+\.new\b")
# kinds of values of which there is one: what holds for each of them holds
KINDS = "ℕ|Bool|Command|List ℕ"
# relations of which the last operand has one value, as a packet has one spelling (a law of osdp_frame_laws)
FUNCTIONAL = ("Spells", "IsSpelled", "IsSpelledIf", "IsWritten")


def group_end(text, at):
    """Returns the place after a group in brackets."""
    first, depth = text[at], 0
    for i in range(at, len(text)):
        if text[i] == first:
            depth += 1
        elif text[i] == CLOSE[first] and not (first == "<" and text[i - 1] in "-="):
            depth -= 1
            if depth == 0:
                return i + 1
    raise ValueError(first)


class Function:
    """The head of a function: what its contract says, with that of its trait, and where its body stands."""

    def __init__(self, text, at, of_trait=()):
        self.start = at
        opened = text.index("(", at)
        types = text.find("<", at)
        if 0 <= types < opened:
            opened = text.index("(", group_end(text, types))
        at = group_end(text, opened)
        self.given = text[opened + 1:at - 1]
        self.returns, self.clauses, self.needs = "", [], []
        told = re.compile(r"\s*->\s*").match(text, at)
        if told:
            at, end = told.end(), re.compile(r"\b(?:where|requires|ensures|decreases|diverges|ghost)\b|[{;]")
            # an array's length stands after a `;`
            while not end.match(text, at):
                at = group_end(text, at) if text[at] in "[(" else at + 1
            self.returns = text[told.end():at].strip()
        while clause := re.compile(r"\s*(?:(where)\b[^{;]*?(?=\b(?:requires|ensures|decreases)\b|\{)|(requires|ensures|decreases|ghost)\b)").match(text, at):
            at = clause.end()
            if not clause[1]:
                opened = text.index("{", at)
                at = group_end(text, opened)
                if clause[2] in ("ensures", "requires"):
                    (self.clauses if clause[2] == "ensures" else self.needs).append(" ".join(text[opened + 1:at - 1].split()))
        # clauses of its own stand in place of those of its trait
        self.clauses = self.clauses or list(of_trait)
        # what a trait declares has no body
        self.body = at if re.compile(r"\s*;").match(text, at) else text.index("{", at)
        self.end = group_end(text, self.body) if text[self.body] == "{" else at

    def results(self):
        """Returns what the function answers and may change."""
        found = ["result"] if self.returns not in ("", "()") else []
        if re.search(r"&\s*(?:'\w+\s+)?mut\s+self\b", self.given):
            found.append("self.new")
        return found + [f"{it}.new" for it in re.findall(r"(\w+)\s*:\s*&\s*(?:'\w+\s+)?mut\b", self.given)]

    def left_sides(self):
        """Returns the left sides of its equations, or None where a clause says something of a result otherwise, and nothing gives that whole."""
        found = [left_side(it) for it in self.clauses]
        by_cases = [by_case(it) for it in self.clauses]
        # what is given both where the answer is true and where it is false
        found = [left or (f"either: {case[1]}" if case and (not case[0], case[1]) in by_cases else None) for left, case in zip(found, by_cases)]
        whole = {bare for it in found if it and (bare := it.removeprefix("either: ").removesuffix(".now")) in self.results()}
        # what held before and holds after takes nothing from what an equation says
        kept = [it for it in self.clauses if it.replace(".new", ".old") in self.needs]
        if any(left is None and it not in kept and set(COMES.findall(it)) - whole for it, left in zip(self.clauses, found)):
            return None
        return [it for it in found if it] if self.results() else None


def left_side(clause, bound=()):
    """Returns the left side of an equation that gives what comes of a function, also where it answers well or badly alone, or None."""
    clause = clause.strip()
    while clause.startswith("(") and group_end(clause, 0) == len(clause):
        clause = clause[1:-1].strip()
    told = re.match(r"(OnOk|OnErr|OnSome) result \(", clause)
    if told and group_end(clause, told.end() - 1) == len(clause):
        inner = left_side(clause[told.end():-1], bound)
        return inner and f"{told[1]}: {inner}"
    told = re.match(r"(IfOk|IfErr|IfSome) result \(λ \(?(\w+)(?: : [^).]*\))?\. ", clause)
    if told and group_end(clause, clause.index("(λ")) == len(clause):
        inner = left_side(clause[told.end():-1], (*bound, told[2]))
        return inner and f"{told[1]} {told[2]}: {inner}"
    clause = re.sub(rf"^(?:\((?:\w+ )+: (?:{KINDS})\) → )+", "", clause)
    clause = re.sub(r"^\(result ≡ true\) ↔ ", "IsTrue result ↔ ", clause)
    related = related_by(clause, bound)
    signs = signs_of(clause)
    if related or len(signs) != 1:
        return related
    left, right = clause[:signs[0][1]].strip(), clause[signs[0][1] + 1:].strip()

    def comes(text):
        return COMES.search(text) or any(re.search(rf"\b{it}\b", text) for it in bound)

    if signs[0][0] == "↔":
        return "result" if left == "IsTrue result" and not comes(right) else None
    if signs[0][0] != "≡" or bool(comes(left)) == bool(comes(right)):
        return None
    return left if comes(left) else right


def related_by(clause, bound):
    """Returns the operand to which a relation gives one value, where nothing else in it comes of the function; or None."""
    told = re.match(r"SomeIff result (.*)$", clause)
    if told:
        return None if COMES.search(told[1]) or any(re.search(rf"\b{it}\b", told[1]) for it in bound) else "result"
    told = re.match(rf"({'|'.join(FUNCTIONAL)}) (.*) ([^\s()]+)$", clause)
    if not told or signs_of(clause) or not COMES.search(told[3]):
        return None
    return None if COMES.search(told[2]) or any(re.search(rf"\b{it}\b", told[2]) for it in bound) else told[3]


def by_case(clause):
    """Returns whether the answer is true, and the left side of an equation that holds in that case; or None."""
    told = re.match(r"result ≡ (true|false) → ", clause)
    left = told and left_side(clause[told.end():])
    return (told[1] == "true", left) if left else None


def signs_of(clause):
    """Returns the signs that stand in no brackets, each with its place."""
    depth, found = 0, []
    for i, it in enumerate(clause):
        depth += (it in "([{") - (it in ")]}")
        if depth == 0 and it in "≡→×⊎↔≢≤<":
            found.append((it, i))
    return found


@functools.cache
def declared(trait):
    """Returns what a trait of the tree says of each of its functions: none where two traits have this name."""
    found = []
    for path in sorted(glob.glob(f"{generated.TOP}/crates/*/src/**/*.rt", recursive=True)):
        text = generated.read(os.path.relpath(path, generated.TOP))
        for it in re.finditer(rf"^pub(?:\([a-z]+\))? trait {trait}\b[^\n]*\{{\n.*?^\}}", text, re.M | re.S):
            found.append({name: one.clauses for name, one in functions(it[0]).items()})
    return found[0] if len(found) == 1 else {}


def trait_at(text, at):
    """Returns the trait of the impl in which a place of a file stands, or nothing."""
    heads = [it for it in re.finditer(r"^impl\b[^\n]*", text, re.M) if it.start() < at]
    if not heads or "\n}\n" in text[heads[-1].start():at]:
        return ""
    told = re.match(r"impl(?:<.*?>)? (?:\w+::)*(\w+)(?:<.*>)? for ", heads[-1][0])
    return told[1] if told else ""


def functions(text):
    """Returns the functions of a file by their names: the second of a name has its number."""
    found, counts = {}, {}
    for it in re.finditer(r"^ *(?:pub(?:\([a-z]+\))? )?(?:const )?(?:unsafe )?(?:extern \"C\" )?fn (\w+)", text, re.M):
        counts[it[1]] = counts.get(it[1], 0) + 1
        try:
            trait = trait_at(text, it.start())
            found[it[1] if counts[it[1]] == 1 else f"{it[1]} {counts[it[1]]}"] = Function(text, it.start(1), declared(trait).get(it[1], ()) if trait else ())
        except ValueError:
            continue
    return found


def changed(edit):
    """Returns the file, and the names of the functions whose bodies alone a bug changes, where the contract of each is of equations; or None."""
    if any(kind != "law" for _, _, kind in edit.targets()) or any("/src/" not in path for path, _, _ in edit.pairs) or len(edit.texts()) != 1:
        return None
    [(path, new)] = edit.texts().items()
    before, after = functions(generated.read(path)), functions(new)
    if list(before) != list(after) or without_bodies(generated.read(path), before) != without_bodies(new, after):
        return None
    names = [it for it in before if body(generated.read(path), before[it]) != body(new, after[it])]
    # where a function is named that is to refuse, it is the one that changes
    named = {it.rpartition("::")[2] for _, it, _ in edit.targets()}
    is_own = not named or named == {it.partition(" ")[0] for it in names} and all(it == path.split("/")[1] for it, _, _ in edit.targets())
    return (path, names) if names and is_own and all(before[it].left_sides() for it in names) else None


def body(text, function):
    return text[function.body:function.end]


def without_bodies(text, found):
    for it in sorted(found.values(), key=lambda one: -one.body):
        text = text[:it.body] + text[it.end:]
    return text


def list_of(crate):
    return f"{generated.TOP}/crates/{crate}/planted/PINNED"


def kept(crate):
    """Returns the lines of a crate's list: for each function its left sides."""
    found = {}
    for line in open(list_of(crate), encoding="utf-8").read().split("\n") if os.path.isfile(list_of(crate)) else ():
        if line and not line.startswith("#"):
            place, _, sides = line.partition(": ")
            found[tuple(place.split(" ", 1))] = sides.split("; ")
    return found


def write(crate, found):
    with open(list_of(crate), "w", encoding="utf-8") as it:
        it.write("# functions whose contracts say by equations what comes of them: the left sides (docs/EDITS.md)\n")
        it.writelines(f"{path} {name}: {'; '.join(sides)}\n" for (path, name), sides in sorted(found.items()))


def missing():
    """Yields what the lists say and the contracts don't, with the count of all functions that are listed."""
    count = 0
    for path in sorted(glob.glob(f"{generated.TOP}/crates/*/planted/PINNED")):
        crate = path.split("/")[-3]
        for (file, name), sides in kept(crate).items():
            count += 1
            where = f"crates/{crate}/{file}"
            one = functions(generated.read(where)).get(name) if os.path.isfile(f"{generated.TOP}/{where}") else None
            if one is None:
                yield f"{crate}/PINNED: there is no function {name} in {file}"
            elif (now := one.left_sides()) is None:
                yield f"{crate}/PINNED: the contract of {name} in {file} says something otherwise than by an equation"
            elif gone := [it for it in sides if it not in now]:
                yield f"{crate}/PINNED: the contract of {name} in {file} has no equation for {', '.join(gone)}"
    yield count


def take(edit):
    """Puts the function of a bug on its crate's list, if its contract is of equations."""
    if (found := changed(edit)) is None:
        return None
    path, names = found
    listed = kept(edit.crate)
    listed.update({(path.split("/", 2)[2], it): functions(generated.read(path))[it].left_sides() for it in names})
    write(edit.crate, listed)
    return found
