"""Pairs of edits: the same change made in a definition and in the code that it stands over, so that code and definition agree on it and laws alone can refuse."""
import functools
import re
from collections import defaultdict

from . import generated
from .tokens import CODE, DEFINITION, tokens

OPERATOR = "the same in both"
# which operators make the same change, one in a definition and the other in code
FAMILIES = [
    {"a case's value", "a case", "a constant", "a name", "a bound", "a case moved", "a sign", "a comparison", "two cases turned", "another expression", "another number", "another text"},
    {"an operand left out", "a condition", "a call left out", "a statement left out", "what is written is lost", "a case left out", "a body left out", "a name", "a conclusion dropped", "a constant", "a case's value", "two statements turned"},
    {"two cases turned", "a sign"},
    {"a special case", "another expression", "another statement", "a field more", "a field otherwise", "a name", "a statement left out", "a condition"},
]


class Pair:
    """An edit of a definition, and those of code or of its other clauses that make the same change."""

    def __init__(self, edits):
        self.edits, self.operator = edits, OPERATOR
        self.path, self.unit = edits[0].path, edits[0].unit

    def crate(self):
        return self.path.split("/")[1]

    def is_definition(self):
        return True

    def lines(self):
        found = [it.lines() for it in self.edits]
        return " & ".join(old for old, _ in found), " & ".join(new for _, new in found)

    def name(self):
        return " & ".join(it.name() for it in self.edits)

    def texts(self):
        """Returns the texts of the files that it changes."""
        found = {}
        for path in dict.fromkeys(it.path for it in self.edits):
            text = generated.read(path)
            for it in sorted((one for one in self.edits if one.path == path), key=lambda one: -one.start):
                text = text[:it.start] + it.new + text[it.end:]
            found[path] = generated.bring_in(text, " ".join(it.new for it in self.edits)) if path.endswith(".antt") else text
        return found


@functools.cache
def names_in(crate):
    """Returns for each definition of a crate the names that its clauses use."""
    found = defaultdict(set)
    for path in generated.paths_of(crate, "specs"):
        text = generated.read(path)
        for unit in generated.parsed(path).units:
            found[unit.name.rpartition(".")[2]] |= words_of(text[unit.start:unit.end])
            found[unit.name.partition(".")[0]] |= words_of(text[unit.start:unit.end])
    return found


def words_of(text):
    return set(re.findall(r"[^\W\d][\w']*", text))


@functools.cache
def words_of_code(crate):
    return frozenset(words_of(" ".join(generated.read(it) for it in generated.paths_of(crate, "src"))))


@functools.cache
def reached(crate, words):
    """Returns the names that definitions of the crate use, from these on."""
    names, ahead, found = names_in(crate), [it for it in words], set(words)
    while ahead:
        for it in names.get(ahead.pop(), ()):
            if it not in found:
                found.add(it)
                ahead.append(it)
    return frozenset(found)


def stands_over(definition, code):
    """Whether the contract of a function reaches a definition. A constant, or what has no contract, is reached with the code of its crate."""
    text = generated.read(code.path)
    contract = text[getattr(code.unit, "head", code.unit.start):code.unit.start]
    words = frozenset(words_of(contract)) if "ensures" in contract else words_of_code(code.path.split("/")[1])
    found = reached(definition.path.split("/")[1], words)
    return definition.unit.name.partition(".")[0] in found or definition.unit.name.rpartition(".")[2] in found


def words_changed(edit):
    """Returns the words of the lines that an edit takes away or brings, in small letters and without what joins them."""
    pattern = DEFINITION if edit.is_definition() else CODE
    old, new = edit.lines()
    found = []
    for one in (old, new):
        words = [it.text for it in tokens(one, pattern) if it.kind in ("name", "number", "projected")]
        found.append([plain_word(part) for it in words for part in re.split(r"[.:]+", it) if part])
    gone, come = found
    return frozenset(it for it in {*gone, *come} if gone.count(it) != come.count(it))


def plain_word(word):
    if re.fullmatch(r"0x[0-9a-fA-F]+", word):
        return str(int(word, 16))
    return word.replace("_", "").lower()


def is_told_by(definition, code):
    """Whether the contract of a function names the definition, or both have one name, or what has no contract is changed."""
    text = generated.read(code.path)
    contract = text[getattr(code.unit, "head", code.unit.start):code.unit.start]
    names = {definition.unit.name.partition(".")[0], definition.unit.name.rpartition(".")[2]}
    return bool(names & words_of(contract)) or code.unit.name in names or "ensures" not in contract


def are_alike(definition, code):
    """Whether both make the same change: by the same operator, or by those that do the same, to words of which one is in both or where one tells the other."""
    gone, come = words_changed(definition), words_changed(code)
    is_near = definition.operator == code.operator or any(definition.operator in it and code.operator in it for it in FAMILIES)
    if not is_near:
        return False
    return bool(gone & come) or definition.operator == code.operator and not gone and not come or is_told_by(definition, code)


def is_pair(edits):
    """Whether these edits are the same change: of a definition and of code under it, or of two clauses of one definition."""
    definitions = [it for it in edits if it.is_definition()]
    code = [it for it in edits if not it.is_definition()]
    if not code:
        first = definitions[0]
        return all(it.unit.name == first.unit.name and it.path == first.path and it.operator == first.operator for it in definitions)
    return len(definitions) == 1 and all(are_alike(definitions[0], it) and stands_over(definitions[0], it) for it in code)


def of_crate(crate, below, is_wide):
    """Yields the pairs of a crate: of two clauses of a definition, and of a definition's edit and one of code."""
    edits = generated.all_of(crate, below, is_wide)
    by_unit = defaultdict(list)
    for it in edits:
        if not it.is_definition():
            by_unit[it.path, it.unit.start].append(it)
    definitions = defaultdict(list)
    for it in edits:
        if it.is_definition():
            definitions[it.path, it.unit.start].append(it)
    yield from of_clauses(definitions)
    for one in definitions.values():
        for other in by_unit.values():
            if stands_over(one[0], other[0]):
                yield from (Pair([it, code]) for it in one for code in other if are_alike(it, code))


def of_clauses(definitions):
    """Yields the pairs of two clauses of one definition that the same operator changes."""
    places = sorted(definitions)
    for i, one in enumerate(places):
        for other in places[i + 1:]:
            first, second = definitions[one], definitions[other]
            if one[0] == other[0] and first[0].unit.name == second[0].unit.name:
                yield from (Pair([it, more]) for it in first for more in second if it.operator == more.operator)
