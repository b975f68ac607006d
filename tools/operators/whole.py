"""Functions whose contracts give all that comes of them, whatever the case: an edit of such a body means the same, or a goal refuses it, so none has to be tried.

This asks more than `pinned.py`. Here each result has an equation for all of it, or for each of its parts, that holds whatever comes: an equation for a good answer alone
leaves the bad one open, a relation may leave more, and a view of a type leaves what it doesn't show."""
import collections
import functools
import re

from . import generated, pinned

# what an edit may do that no clause of results speaks of
HIDDEN = re.compile(r"\*\s?(?:mut|const)\b|\bNonNull\b|\bunsafe\b|\b(?:Fn|FnMut|FnOnce|dyn|HostRuntime|Stdout|Stdin|Stderr|File|Env|Instant|Cell|RefCell|IterMut|ChunksMut|Drain|Formatter)\b")
MUTABLE = re.compile(r"&\s*(?:'\s?\w+\s+)?mut\b")
# types that are the list of what they hold, but for room that no clause of a value sees
LISTS = ("Vec", "ArrayVec", "VecDeque", "Burst", "Spelling", "Bytes")
ARGUMENT = r"[^\W\d]\w*(?:\.(?:old|now|entry))?"
WHOLE, ON_OK, VIEW, OPEN = "whole", "whole but for an error", "a view", "open"


@functools.cache
def lending():
    """Returns the structs and enums of the tree that hold a reference by which something can be changed."""
    held = {}
    for path in generated.all_paths("src"):
        file = generated.parsed(path)
        for name, found in [*file.fields.items(), *file.variants.items()]:
            held.setdefault(name, []).extend(found.values())
    names = {name for name, kinds in held.items() if any(MUTABLE.search(it) for it in kinds)}
    while more := {name for name, kinds in held.items() if name not in names and any(names & {*re.findall(r"\w+", it)} for it in kinds)}:
        names |= more
    return names


def results(unit):
    """Returns what a function answers and may change, each with its type."""
    found = [("result", unit.owner if unit.returns == "Self" else unit.returns)] if unit.returns not in ("", "( )", "()") else []
    if MUTABLE.search(unit.takes_self):
        found.append(("self.new", unit.owner))
    return found + [(f"{name}.new", MUTABLE.sub("", kind, count=1)) for name, kind in unit.params.items() if MUTABLE.match(kind)]


def is_hidden(unit, head):
    """Whether a function may do what no clause of its results tells: by a pointer, a handle, a call that it is given, or a reference inside a value."""
    kinds = [unit.returns, *(MUTABLE.sub("", it, count=1) if MUTABLE.match(it) else it for it in unit.params.values())]
    takes = [unit.owner] if unit.takes_self else []
    if HIDDEN.search(head) or any(HIDDEN.search(it) or MUTABLE.search(it) or lending() & {*re.findall(r"\w+", it)} for it in kinds + takes):
        return True
    # a value of a type parameter that isn't answered may be a reference
    given = [kind for kind in unit.params.values() if re.fullmatch(r"(?:mut )?[A-Z]", kind)]
    return any(kind[-1] not in re.findall(r"\w+", unit.returns) and unit.returns != "Self" and unit.owner not in unit.returns.split() for kind in given)


class Given:
    """The left sides of a function's equations."""

    def __init__(self, function, fields):
        self.fields = fields
        cases = [pinned.by_case(it) for it in function.clauses]
        self.sides = {it for clause in function.clauses if (it := pinned.left_side(clause)) and not pinned.related_by(clause.strip(), ()) or (it := is_some_if(clause))}
        # two cases of an answer that is given
        self.cases = {it[1] for it in cases if it and (not it[0], it[1]) in cases}
        self.cases |= {it.removeprefix("OnOk: ") for it in self.sides if it.startswith("OnOk: ") and it.replace("OnOk", "OnErr", 1) in self.sides}

    def has(self, side):
        return {side, f"{side}.now"} & self.sides or side in self.cases and {"result", "result.now"} & self.sides

    def is_whole(self, thing, kind, deep=0):
        kind = re.sub(r"^(?:& )?(?:' ?\w+ )?|\b(?:\w+ :: )+", "", kind.strip()).strip()
        name = kind.partition("<")[0].strip()
        if self.has(thing) or name in LISTS and self.has(f"{thing}.items") or name == "String" and self.has(f"string_bytes {thing}"):
            return True
        if name == "Option" and "&" in kind and self.has(f"option_copied {thing}"):
            return True
        parts = self.fields.get(name, {}) if deep < 3 else {}
        return bool(parts) and all(self.is_whole(f"{thing}.{it}", of, deep + 1) for it, of in parts.items())

    def is_seen(self, thing):
        """Whether an equation that holds whatever comes gives a view of this, or a part."""
        return any(re.search(rf"(?<![\w.]){re.escape(thing)}(?!\w)", it) and not it.startswith(("On", "If")) for it in self.sides)

    def on_ok(self, returns):
        """Returns the same, of an answer that is good."""
        other = Given.__new__(Given)
        other.fields, other.cases = self.fields, self.cases
        other.sides = {it.removeprefix("OnOk: ") for it in self.sides}
        for it in self.sides:
            told = re.match(r"IfOk (\w+): (?:string_bytes )?(\w+)(?:\.items)?$", it)
            if told and told[1] == told[2]:
                other.sides.add("result")
        # a good answer that holds nothing has one value
        if re.match(r"(?:\w+ :: )*Result < \( \)", returns):
            other.sides.add("result")
        return other


def is_some_if(clause):
    return pinned.related_by(clause.strip(), ()) if clause.strip().startswith("SomeIff result ") else None


def kind_of(path, unit):
    """Returns how much of what comes of a function its contract gives."""
    return kind(by_body(path).get(unit.start), unit, generated.read(path)[unit.head:unit.start], fields_of(path.split("/")[1]))


def kind(function, unit, head, fields):
    """Returns the same of a function whose head has this text, where structs have these fields."""
    things = results(unit)
    if function is None or not things or is_hidden(unit, head):
        return OPEN
    given = Given(function, fields)
    if all(given.is_whole(*it) for it in things):
        return WHOLE
    if all(given.on_ok(unit.returns).is_whole(*it) for it in things):
        return ON_OK
    return VIEW if all(given.is_seen(it) for it, _ in things) else OPEN


@functools.cache
def by_body(path):
    """Returns the functions of a file by the place of their bodies."""
    return {it.body: it for it in pinned.functions(generated.read(path)).values()}


@functools.cache
def fields_of(crate):
    """Returns the fields of each struct of the tree: of two with one name, that of the crate."""
    found = {}
    for path in sorted(generated.all_paths("src"), key=lambda it: it.split("/")[1] == crate):
        found.update(generated.parsed(path).fields)
    return found


def is_decided(edit):
    """Whether an edit is of the body of a function whose contract gives all that comes of it."""
    return not edit.is_definition() and edit.unit.kind == "fn" and kind_of_unit(edit.path, edit.unit) == WHOLE


@functools.cache
def kind_of_unit(path, unit):
    return kind_of(path, unit)


@functools.cache
def given_by_code(crate):
    """Returns the definitions that functions of their crate give whole, at all arguments that these can be given: the file and name of each. The code refuses an edit of one, or
    the edit means the same at each of these arguments."""
    found = set()
    for path in generated.paths_of(crate, "src"):
        for unit in generated.parsed(path).units:
            if unit.kind == "fn" and unit.tree is not None and not generated.is_law(unit) and kind_of_unit(path, unit) == WHOLE and not by_body(path)[unit.start].needs:
                found |= {it for clause in by_body(path)[unit.start].clauses for it in defining(crate, path, clause)}
    return found


def defining(crate, path, clause):
    """Yields the definition of which a clause says that it is what comes of its function, at arguments that are nothing but the function's own, each once."""
    told = re.fullmatch(rf"(?:(?:IsTrue|string_bytes|option_copied) )?(?:result|\w+\.new)(?:\.now|\.items)? (?:≡|↔) ([^\W\d][\w-]*)((?: {ARGUMENT})+)", clause)
    arguments = told[2].split() if told else []
    if not told or len({*arguments}) < len(arguments) or any(re.match(r"result\b|[A-Z]|\w+\.new", it) for it in arguments):
        return
    places = [it for it in generated.paths_of(crate, "specs") if any(one.name == told[1] for one in generated.parsed(it).units)]
    module = places[0].split("/specs/")[1].removesuffix(".antt").replace("/", ".") if len(places) == 1 else "none"
    if re.search(rf"Rattle\.{crate}\.specs\.{re.escape(module)}\.\{{[^}}]*\b{told[1]}\b[^}}]*\}}", generated.read(path)):
        yield places[0], told[1]


def narrow_edits(crate, below):
    """Yields the edits of the narrow operators of a crate, each meaning once."""
    meanings = generated.Meanings()
    return (it for it in generated.all_of(crate, below, False) if meanings.is_new(it))


def main(tools, words):
    """Prints for each crate how many of its edits are of functions, and of these how many in functions of each kind, and of definitions; with --list its functions with their kinds."""
    only = "--list" in words
    crates = [it for it in words if it != "--list"] or [it for it in tools.USES if not it.endswith("_tests")]
    kinds, sums = (WHOLE, ON_OK, VIEW, OPEN), collections.Counter()
    print("crate: edits of functions: " + ", ".join(kinds) + "; of constants and macros; of definitions: given whole by code, others", flush=True)
    for crate in crates:
        if only:
            show(crate)
            continue
        counts = collections.Counter(kind_of_edit(it) for it in narrow_edits(crate, tuple(tools.below(crate))))
        sums.update(counts)
        if counts:
            print(f"{crate}: {row(counts, kinds)}", flush=True)
    if not only:
        print(f"all: {row(sums, kinds)}")
    return 0


def row(counts, kinds):
    return f"{sum(counts[it] for it in kinds)}: {', '.join(str(counts[it]) for it in kinds)}; {counts['other']}; {counts['given by code']}, {counts['definition']}"


def kind_of_edit(edit):
    if edit.is_definition():
        return "given by code" if (edit.path, edit.unit.name) in given_by_code(edit.crate()) else "definition"
    return kind_of_unit(edit.path, edit.unit) if edit.unit.kind == "fn" else "other"


def show(crate):
    for path in generated.paths_of(crate, "src"):
        for unit in generated.parsed(path).units:
            if unit.kind == "fn" and unit.tree is not None and not generated.is_law(unit):
                print(f"{path.removeprefix('crates/')} {unit.name}: {kind_of_unit(path, unit)}")
