"""The operator over code that makes special cases: a condition, a statement or an early return holds otherwise for one value of what is in scope.

It makes so many edits that they are made one after the other, and only where they are asked for."""
import re

from .code_values import Values
from .facts import INTEGERS, plain
from .spelling import number

OPERATOR = "a special case"
# small numbers, those beside powers of two, the limits of a protocol's numbers, and some that nothing names
NUMBERS = (0, 1, 2, 3, 4, 7, 8, 15, 16, 17, 40, 126, 127, 255, 1000, 1023, 1024, 1439, 1440, 4000, 65_535, 3_600_000, 3_600_001)
GROWING = ("ArrayVec", "Burst", "String", "Vec", "Text", "Spelling", "Ring", "MessageRing")
# methods without arguments that tell a number, besides those that signatures tell
TOLD = {"Address": "get", "Seq": "get"}


def words_of(text):
    """Returns the names and the numbers of a text, without what only joins or asks."""
    found = {number(it) if it[0].isdigit() else it for it in re.findall(r"\w+", text)}
    return found - {"is_empty", "len", "is_some", "is_none", "matches", "0", "1", "get", "self"}


class Special(Values):
    """Makes the special cases of one unit, at the places that overlap a part of the text, or at all."""

    def __init__(self, file, unit, facts, near=None, words=None):
        """`near` is a part of the text, and `words` are those of which alone values may be asked."""
        super().__init__(file, unit, facts)
        self.near, self.words = near, words
        self.cached = None

    def is_near(self, start, end):
        return self.near is None or start <= self.near[1] + 2 and end >= self.near[0] - 2

    def make(self):
        """Yields each edit's operator, its place and its text."""
        tree = self.unit.tree
        if tree.kind == "block":
            yield from self.returns(tree)
        for node in tree.walk():
            if not self.is_near(node.start, node.end):
                continue
            if node.kind == "block":
                yield from self.statements(node)
                yield from self.done_too(node)
            if node.kind in ("path", "call", "method", "binary", "field", "group"):
                yield from self.chosen_values(node)
            if node.kind in ("if", "while") and node.condition.kind != "if-let":
                yield from self.conditions(node.condition)
            if node.kind == "if" and node.condition.kind == "if-let":
                yield from self.matched(node.condition)
            if node.kind == "arm":
                yield from self.guards(node)
            if node.kind == "binary" and node.sign.text in ("&&", "||"):
                yield from ((operator, start, end, f"({new})") for part in node.parts for operator, start, end, new in self.conditions(part))
        yield from self.values_of(tree)

    def values_of(self, tree):
        """A value that is true or false: what a function answers, and what is set or handed on."""
        if plain(self.unit.returns) == "bool":
            found = [tree.tail] if tree.kind == "block" and tree.tail is not None else []
            found += [it.inner for it in tree.walk() if it.kind == "leave" and it.word == "return" and it.inner is not None]
            found += [it.value for it in tree.walk() if it.kind == "arm"]
        else:
            found = [it.right for it in tree.walk() if it.kind == "assign" and self.type_of(it.left) == "bool"]
        found += [one for it in tree.walk() if it.kind in ("call", "method") for one in it.arguments if self.type_of(one) == "bool"]
        found += [it.value for it in tree.walk() if it.kind == "let" and it.value is not None and self.type_of(it.value) == "bool"]
        for it in found:
            if it.kind not in ("if", "match", "block") and self.is_near(it.start, it.end):
                yield from self.conditions(it)

    def conditions(self, node):
        said = self.said(node)
        if not self.is_near(node.start, node.end):
            return
        left = f"({said})" if node.kind in ("binary", "range", "closure") else said
        for atom in self.atoms():
            yield OPERATOR, node.start, node.end, f"{left} && {atom}"
            yield OPERATOR, node.start, node.end, f"{left} || {atom}"
            yield OPERATOR, node.start, node.end, atom

    def matched(self, node):
        """A pattern that is passed over for one value."""
        for atom in self.atoms():
            new = f"let ({self.said(node.pattern)}, true) = ({self.said(node.value)}, {atom})"
            yield OPERATOR, node.start, node.end, new

    def guards(self, arm):
        if arm.guard is None and self.said(arm.pattern) != "_":
            for atom in self.atoms():
                yield OPERATOR, arm.pattern.end, arm.pattern.end, f" if {atom}"

    def statements(self, node):
        """A statement that is done for one value alone, or before or after which one leaves for it."""
        leaves = ["return;", "continue;", "break;", *(f"return {it};" for it in self.simple(plain(self.unit.returns), 1))]
        for it in node.parts:
            if not self.is_near(it.start, it.end):
                continue
            said = self.said(it)
            if it.kind in ("statement", "let"):
                for atom in self.atoms():
                    yield from ((OPERATOR, place, place, f" if {atom} {{ {leave} }} ") for place in (it.start, it.end) for leave in leaves)
            if it.kind == "statement":
                said = said if said.endswith(";") or it.inner.kind in ("if", "match", "for", "while", "loop", "block") else said + ";"
                yield from ((OPERATOR, it.start, it.end, f"if {atom} {{ {said} }}") for atom in self.atoms())

    def done_too(self, node):
        """A call more that changes what is in scope, or a field of it set, before or after each statement and before the answer."""
        places = [place for it in node.parts if it.kind in ("statement", "let") for place in (it.start, it.end)] + ([node.tail.start] if node.tail is not None else [node.end - 1])
        near = [it for it in dict.fromkeys(places) if self.is_near(it, it)]
        if near:
            yield from ((OPERATOR, place, place, f" {text} ") for text in self.changing() for place in near)

    def changing(self):
        """The statements that change what is in scope: calls of methods that do, and fields that are set."""
        for path, kind in [("self", self.unit.owner), *self.paths()]:
            struct = kind.partition("<")[0]
            found = [f"{path}.clear();", f"let _ = {path}.pop();"] if struct in GROWING else []
            for name, signatures in self.facts.methods.items():
                for it in signatures:
                    if it.owner == struct and "mut" in it.takes_self.split(" ") and name != self.unit.name:
                        found += [f"{mark}{path}.{name}({', '.join(given)});" for given in self.arguments(it) for mark in ("", "let _ = ")]
            for name, held in self.facts.fields.get(struct, {}).items():
                found += [f"{path}.{name} = {value};" for value in [*self.simple(plain(held), 1), *(["&[]"] if plain(held).startswith("[") else [])]]
            yield from (it for it in found if self.words is None or words_of(it) <= self.words)

    def arguments(self, signature):
        """What a method may be given: plain values, and what is in scope."""
        found = [[]]
        for kind in signature.params.values():
            values = self.simple(plain(kind), 1) + [name for name, held in self.locals.items() if held == plain(kind)]
            found = [[*one, value] for one in found for value in values]
        return found[:24]

    def chosen_values(self, node):
        """Another value for one value of what is in scope."""
        kind = self.type_of(node)
        values = [*self.simple(kind, 1), *(str(it) for it in NUMBERS[:6]), "u64::MAX"] if kind in INTEGERS or not kind else self.simple(kind, 1)
        for atom in self.atoms():
            yield from ((OPERATOR, node.start, node.end, f"if {atom} {{ {value} }} else {{ {self.said(node)} }}") for value in values)

    def returns(self, tree):
        """An answer at the head for one value."""
        kind = plain(self.unit.returns)
        at = tree.start + 1
        if not self.is_near(at, at):
            return
        for value in [f" {it}" for it in self.simple(kind, 1)] if kind else [""]:
            for atom in self.atoms():
                yield OPERATOR, at, at, f" if {atom} {{ return{value}; }}"

    # ---- what is in scope

    def atoms(self):
        if self.cached is None:
            found = [it for path, kind in self.paths() for it in self.tests(path, kind)]
            found = dict.fromkeys(it for it in found if self.words is None or words_of(it) <= self.words)
            self.cached = list(found)
        return self.cached

    def paths(self):
        """Yields what is in scope with its type: parameters, locals, fields, and what methods without arguments tell."""
        first = [(name, kind) for name, kind in self.locals.items() if name.isidentifier()]
        if getattr(self.unit, "takes_self", ""):
            first.append(("self", self.unit.owner))
        first += [(name, kind) for name, kind in self.facts.own_constants.items() if name in self.text]
        yield from ((it, "?") for it in self.standing())
        for name, kind in first:
            if name != "self":
                yield name, kind
            yield from self.inner(name, kind, 2)

    def standing(self):
        """The values that stand in the body, and whose type no signature tells."""
        called = [it.callee for it in self.unit.tree.walk() if it.kind == "call"]
        found = [self.said(it) for it in self.unit.tree.walk() if it.kind in ("path", "field") and it not in called or it.kind == "method" and not it.arguments]
        return dict.fromkeys(it for it in found if len(it) < 60 and it[:1].islower())

    def inner(self, path, kind, depth):
        struct = kind.partition("<")[0]
        if struct in TOLD:
            yield f"{path}.{TOLD[struct]}()", "u8"
        if depth == 0 or not struct or struct in INTEGERS:
            return
        for name, held in self.facts.fields.get(struct, {}).items():
            yield f"{path}.{name}", plain(held)
            yield from self.inner(f"{path}.{name}", plain(held), depth - 1)
        for name, found in self.facts.methods.items():
            for it in found:
                if it.owner == struct and it.takes_self and "mut" not in it.takes_self and not it.params and it.returns and name != self.unit.name:
                    told = plain(it.returns)
                    if told in INTEGERS or told == "bool" or told.startswith(("Option", "[")) or told in TOLD or told in self.facts.variants:
                        yield f"{path}.{name}()", told
                        yield from self.inner(f"{path}.{name}()", told, 0)

    def tests(self, path, kind):
        """What is asked of a value."""
        if kind == "?":
            yield from (path, f"!{path}", f"{path}.is_empty()", f"!{path}.is_empty()", f"{path}.is_some()", f"{path}.is_none()")
            for it in NUMBERS:
                yield from (f"{one} {sign} {it}" for one in (path, f"*{path}", f"{path}.len()", f"{path}.get()", f"{path}.size()") for sign in ("==", "!=", "<", ">"))
            return
        read = f"*{path}" if path in self.unit.params and self.unit.params[path].startswith("&") else path
        if kind in INTEGERS:
            for it in NUMBERS:
                yield from (f"{read} {sign} {it}" for sign in ("==", "!=", "<", ">"))
        elif kind == "bool":
            yield from (read, f"!{read}")
        elif kind.startswith("Option"):
            yield from (f"{path}.is_some()", f"{path}.is_none()")
        elif kind.startswith("[") or kind == "str" or kind.partition("<")[0] in GROWING:
            yield from (f"{path}.is_empty()", f"!{path}.is_empty()")
            for it in NUMBERS:
                yield from (f"{path}.len() {sign} {it}" for sign in ("==", "<", ">"))
        for it in self.facts.unit_variants(kind):
            yield from (f"matches!({path}, {kind}::{it})", f"!matches!({path}, {kind}::{it})")
