"""Makes the edits of a crate: each place of its code and of its definitions by each operator that fits there."""
import functools
import glob
import os
import re

from . import code, definitions, items
from . import definition_operators, code_operators, code_special, donors, short
from .facts import Facts
from .spelling import code_form, term_form

TOP = os.path.dirname(os.path.dirname(os.path.dirname(os.path.realpath(__file__))))
# what an edit of definitions may bring in that the file didn't use: words of the library's Prelude
BROUGHT = {"≤": "◌≤◌", "<": "◌<◌", "≢": "◌≢◌", "⊎": "◌⊎◌", "+": "◌+◌", "-": "◌-◌", "*": "◌*◌", "/": "◌/◌", "%": "◌%◌", "||": "◌||◌", "≡": "◌≡◌", "&&": "◌&&◌"}
# operators that make very many edits: names of the same type, fields that stay, other numbers
WIDE = ("a name", "a field left as it was", "a constant", "a call left out", "a case more", "a case moved", "two statements turned", "what is written is lost", "a statement more", "a result passed over",
        "a special case", "an operand twice", "a call twice", "an element more", "two calls turned", "a field more",
        "another number", "another text", "a field otherwise")
WORDS = ("suc", "true", "false", "[]", "None", "take", "drop", "not", "max", "min")


@functools.cache
def read(path):
    with open(f"{TOP}/{path}", encoding="utf-8") as it:
        return it.read()


@functools.cache
def parsed(path):
    return items.File(read(path)) if path.endswith(".rt") else definitions.File(read(path))


@functools.cache
def paths_of(crate, part):
    ending = "src/**/*.rt" if part == "src" else "specs/**/*.antt"
    found = [os.path.relpath(it, TOP) for it in glob.glob(f"{TOP}/crates/{crate}/{ending}", recursive=True)]
    return sorted(it for it in found if "/src/tests" not in it)


@functools.cache
def all_paths(part):
    """Returns the files of all crates."""
    return [it for crate in sorted(os.listdir(f"{TOP}/crates")) for it in paths_of(crate, part)]


class Generated:
    """An edit that an operator makes."""

    def __init__(self, path, unit, operator, start, end, new):
        self.path, self.unit, self.operator, self.start, self.end, self.new = path, unit, operator, start, end, new

    def crate(self):
        return self.path.split("/")[1]

    def is_definition(self):
        return self.path.endswith(".antt")

    def lines(self):
        """Returns the lines that it changes, as they are and as they become, without their spaces."""
        text = read(self.path)
        start = text.rfind("\n", 0, self.start) + 1
        end = text.find("\n", self.end)
        end = len(text) if end < 0 else end
        old = text[start:end]
        new = text[start:self.start] + self.new + text[self.end:end]
        return squeezed(old), squeezed(new)

    def name(self):
        """A name that stays while other lines change: the file, what is edited, the lines and the operator."""
        old, new = self.lines()
        return f"{self.path.split('/', 2)[2]} {self.unit.name}: {old} => {new} ({self.operator})"

    def body(self):
        text = read(self.path)
        return text[self.unit.start:self.start] + self.new + text[self.end:self.unit.end]

    def text(self):
        """Returns the text of its file with it."""
        text = read(self.path)
        text = text[:self.start] + self.new + text[self.end:]
        return bring_in(text, self.new) if self.is_definition() else text

    def texts(self):
        return {self.path: self.text()}

    def form(self):
        try:
            return term_form(self.body()) if self.is_definition() else code_form(self.body(), self.unit, constants().items(), reading())
        except (code.Unread, definitions.Unread, KeyError, RecursionError):
            return None


@functools.cache
def constants():
    """Returns the values of the constants of all crates that are sums of numbers and of each other."""
    found = {}
    texts = [read(os.path.relpath(it, TOP)) for it in sorted(glob.glob(f"{TOP}/crates/*/src/*.rt"))]
    waiting = [it for text in texts for it in re.findall(r"^ *(?:pub(?:\([a-z]+\))? )?const ([A-Z][A-Z_0-9]*): (?:u8|u16|u32|u64|usize) = ([^;\n]+);", text, re.M)]
    said = {}
    for name, value in waiting:
        said.setdefault(name, set()).add(value)
    for _ in range(4):
        for name, value in waiting:
            one = re.sub(r"[A-Z][A-Z_0-9]*", lambda it: str(found.get(it[0], "none")), value.replace("_", "") if value[:1].isdigit() else value)
            if len(said[name]) == 1 and re.fullmatch(r"[0-9a-fx +*()-]+", one) and "none" not in one:
                found.setdefault(name, eval(one, {}))  # a sum of numbers, from the tree
    return found


@functools.cache
def reading():
    """Returns the names of the functions and methods of the tree of which none changes what it is given."""
    found = {}
    for path in sorted(glob.glob(f"{TOP}/crates/*/src/**/*.rt", recursive=True)):
        for it in parsed(os.path.relpath(path, TOP)).signatures:
            changes = "mut" in it.takes_self.split(" ") or it.takes_self in ("self", "mut self") or any("mut" in kind.split(" ") for kind in it.params.values())
            found[it.name] = found.get(it.name, True) and not changes
    return frozenset(name for name, is_reading in found.items() if is_reading)


def squeezed(text):
    return " ".join(text.split())


def bring_in(text, new):
    """Adds what a new text needs to the line that brings in the Prelude."""
    line = re.search(r"^use Rattle\.std\.specs\.Prelude\.\{([^}]*)\}", text, re.M)
    if not line:
        return text
    held = [it.strip() for it in line[1].split(",")]
    words = re.findall(r"[^\s(){};.]+", new)
    wanted = [BROUGHT[it] for it in words if it in BROUGHT] + [it for it in words if it in WORDS]
    more = [it for it in dict.fromkeys(wanted) if it not in held]
    text = text[:line.end(1)] + "".join(f", {it}" for it in more) + text[line.end(1):]
    # another word of a module that the file takes words of stands beside these
    for word in dict.fromkeys(it for it in words if re.fullmatch(r"[^\W\d][\w']*", it)):
        for path, crate, module in declaring(word):
            taken = re.search(rf"^use Rattle\.{crate}\.specs\.{module}\.\{{([^}}]*)\}}", text, re.M)
            if taken and word not in re.split(r"[\s,{}]+", " ".join(re.findall(r"^use [^\n]*", text, re.M))):
                text = text[:taken.end(1)] + f", {word}" + text[taken.end(1):]
    return text


@functools.cache
def declaring(word):
    """Returns the files of definitions that declare a word, each with its crate and its module."""
    found = []
    for path in sorted(glob.glob(f"{TOP}/crates/*/specs/**/*.antt", recursive=True)):
        path = os.path.relpath(path, TOP)
        if word in parsed(path).types:
            found.append((path, path.split("/")[1], path.split("/specs/")[1].removesuffix(".antt").replace("/", ".")))
    return found


@functools.cache
def code_facts(crate, below):
    own = [parsed(it) for it in paths_of(crate, "src")]
    return Facts(own, [parsed(it) for name in reversed(below) for it in paths_of(name, "src")])


@functools.cache
def definition_facts(crate, below):
    paths = [it for name in (crate, *reversed(below)) for it in paths_of(name, "specs")]
    modules = {"Rattle." + it.removeprefix("crates/").removesuffix(".antt").replace("/", "."): parsed(it) for it in paths}
    return definition_operators.Facts([parsed(it) for it in paths], code_facts(crate, below), modules)


def is_law(unit):
    """Whether a function takes and answers nothing: it is a law, and its body says to a proof what to use."""
    return unit.kind == "fn" and not unit.params and not unit.returns and not unit.takes_self


def of_unit(path, unit, below):
    """Returns the edits of one unit of a file."""
    crate, file = path.split("/")[1], parsed(path)
    if unit.tree is None:
        return []
    if path.endswith(".rt"):
        if is_law(unit):
            return []
        found = code_operators.Maker(file, unit, code_facts(crate, below)).make()
    else:
        own = {name: kind for it in paths_of(crate, "specs") for name, kind in parsed(it).types.items()}
        found = definition_operators.Maker(file.text, unit, file, definition_facts(crate, below), own).make()
    edits = {(start, end, new): Generated(path, unit, operator, start, end, new) for operator, start, end, new in reversed(found)}
    return sorted(edits.values(), key=lambda it: (it.start, it.end, it.new))


def special_of_unit(path, unit, below, near=None, words=None):
    """Yields the special cases of one unit of code."""
    if path.endswith(".rt") and unit.tree is not None and not is_law(unit):
        maker = code_special.Special(parsed(path), unit, code_facts(path.split("/")[1], below), near, words)
        for operator, start, end, new in maker.make():
            yield Generated(path, unit, operator, start, end, new)


def short_of_unit(path, unit, below):
    """Returns the special cases and other expressions of one unit in their short lists."""
    crate, file = path.split("/")[1], parsed(path)
    if unit.tree is None:
        return []
    if path.endswith(".rt"):
        found = [] if is_law(unit) else short.Short(file, unit, code_facts(crate, below)).make()
    else:
        found = short.ShortTerms(file, unit).make()
    edits = {(start, end, new): Generated(path, unit, operator, start, end, new) for operator, start, end, new in found}
    return list(edits.values())


def donated_of_unit(path, unit, near=None, wanted=None):
    """Yields what puts another expression or statement of the crate in a place of a unit."""
    is_code = path.endswith(".rt")
    if unit.tree is not None and not (is_code and is_law(unit)):
        files = tuple(parsed(it) for it in paths_of(path.split("/")[1], "src" if is_code else "specs"))
        for operator, start, end, new in donors.edits(parsed(path), unit, files, is_code, near, wanted):
            yield Generated(path, unit, operator, start, end, new)


def all_of(crate, below, is_wide=True):
    """Returns the edits of a crate: all, or those of the narrow operators."""
    units = [(path, unit) for path in [*paths_of(crate, "src"), *paths_of(crate, "specs")] for unit in parsed(path).units]
    return [it for path, unit in units for it in of_unit(path, unit, below) if is_wide or it.operator not in WIDE]


class Meanings:
    """Tells those edits that mean what none before them does, and not the same as the text that they change."""

    def __init__(self):
        self.seen = {}

    def is_new(self, edit):
        place = (edit.path, edit.unit.start)
        if place not in self.seen:
            self.seen[place] = {None, form_of(edit.path, edit.unit)}
        form = edit.form()
        if form in self.seen[place]:
            return False
        self.seen[place].add(form)
        return True


def form_of(path, unit):
    return Generated(path, unit, "", unit.start, unit.start, "").form()
