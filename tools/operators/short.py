"""The operators over code that put another expression of the same function in the place of one, and that tell a case apart: in short lists.

A value becomes another of its type that stands in the function, or the plainest one. A condition holds too, or no more, where another value of the function is
0, is empty, isn't there or is false. A statement is done in such a case alone, is done twice, or is another statement of the function."""
from .code_special import GROWING
from .code_values import Values
from .definition_operators import NOTHING
from .facts import INTEGERS, plain

OPERATOR, OTHER, STATEMENT = "a case told apart", "another expression of the function", "another statement of the function"
VALUES = ("call", "method", "path", "field", "literal", "struct", "macro", "binary", "unary", "index", "tuple", "array", "cast", "matches", "if")
LONGEST = 100
# so many terms of a clause that are written alike may stand in place of each other
MOST = 10
# what may stand in place of a value whose type isn't known
PLAIN = ("0", '""', "&[]")


class Short(Values):
    """Makes the edits of one function."""

    def make(self):
        """Yields each edit's operator, its place and its text."""
        tree = self.unit.tree
        nodes = [it for it in tree.walk()]
        places = self.value_places(tree)
        donors = self.donors(places)
        for it in places:
            yield from self.others(it, donors)
        for it in self.condition_places(nodes):
            yield from self.conditions(it)
        blocks = [it for it in nodes if it.kind == "block"]
        told = {self.said(it): it for block in blocks for it in block.parts if it.kind == "statement" and it.end - it.start <= LONGEST}
        for block in blocks:
            for it in block.parts:
                if it.kind == "statement":
                    yield from self.statements(it, told)

    # ---- values

    def value_places(self, tree):
        """The places where a value is handed on: what is answered, given, set, compared."""
        found = []

        def add(node):
            if node is not None and node.kind in VALUES:
                found.append(node)

        def go(node):
            kind = node.kind
            if kind in ("call", "method", "macro"):
                for it in getattr(node, "arguments", ()):
                    add(it)
            elif kind == "binary":
                add(node.left)
                add(node.right)
            elif kind == "assign":
                add(node.right)
            elif kind in ("let", "arm", "named", "if-let"):
                add(getattr(node, "value", None))
            elif kind == "leave":
                add(node.inner)
            elif kind == "block":
                add(node.tail)
            elif kind in ("if", "while"):
                add(node.condition)
            elif kind in ("tuple", "array") and len(node.parts) <= 16:
                for it in node.parts:
                    add(it)
            for it in node.parts:
                go(it)

        if tree.kind != "block":
            add(tree)
        go(tree)
        return list({(it.start, it.end): it for it in found}.values())

    def donors(self, places):
        found = {}
        for it in places:
            text = self.said(it)
            if it.kind != "if" and it.end - it.start <= LONGEST and "\n" not in text:
                found.setdefault(text, (self.type_of(it), it))
        for name, kind in self.locals.items():
            if name.isidentifier():
                found.setdefault(name, (kind, None))
        return found

    def others(self, node, donors):
        own, kind = self.said(node), self.type_of(node)
        for text, (of, other) in donors.items():
            if text != own and (is_like(kind, of) if kind and of else self.is_sister(node, other)):
                yield OTHER, node.start, node.end, text
        if not kind and node.kind in ("path", "field", "method") and not own[:1].isupper():
            yield from ((OTHER, node.start, node.end, it) for it in PLAIN)

    def is_sister(self, node, other):
        """Whether two expressions whose types aren't both known are written alike."""
        if other is None or node.kind != other.kind:
            return other is None and node.kind == "path" or other is not None and {node.kind, other.kind} <= {"path", "field"}
        if node.kind == "method":
            return self.said(node.receiver) == self.said(other.receiver) or node.name.text == other.name.text
        return node.kind in ("path", "field", "literal") or node.kind == "call" and self.said(node.callee) == self.said(other.callee)

    # ---- cases

    def condition_places(self, nodes):
        found = [it.condition for it in nodes if it.kind in ("if", "while") and it.condition.kind != "if-let"]
        found += [it for one in nodes if one.kind == "binary" and one.sign.text in ("&&", "||") for it in one.parts]
        tree = self.unit.tree
        if plain(self.unit.returns) == "bool" and tree.kind == "block":
            found += [it for it in [tree.tail, *(one.inner for one in nodes if one.kind == "leave" and one.word == "return")] if it is not None]
        found += [it for one in nodes if one.kind in ("call", "method") for it in one.arguments if self.type_of(it) == "bool"]
        return list({(it.start, it.end): it for it in found if it.kind not in ("if", "match", "block", "literal")}.values())

    def conditions(self, node):
        said = self.said(node)
        left = f"({said})" if node.kind in ("binary", "range", "closure") else said
        for atom in self.atoms():
            yield OPERATOR, node.start, node.end, f"({left} && {atom})"
            yield OPERATOR, node.start, node.end, f"({left} || {atom})"

    def atoms(self):
        if not hasattr(self, "told"):
            found = []
            for path, kind in self.standing().items():
                found += list(tests(path, kind))
            self.told = list(dict.fromkeys(found))
        return self.told

    def standing(self):
        """What stands in the function and may be asked: parameters, and paths, fields and calls without arguments."""
        found = {name: kind for name, kind in self.locals.items() if name.isidentifier()}
        called = [it.callee for it in self.unit.tree.walk() if it.kind == "call"]
        for it in self.unit.tree.walk():
            text = self.said(it)
            is_asked = it.kind == "field" or it.kind == "method" and not it.arguments and self.facts_reads(it)
            if is_asked and it not in called and len(text) < 50 and text[:1].islower():
                found.setdefault(text, self.type_of(it))
        return found

    def facts_reads(self, node):
        one = self.facts.method(node.name.text, self.type_of(node.receiver))
        return one is not None and "mut" not in one.takes_self.split(" ") and one.takes_self not in ("self", "mut self") or node.name.text in ("len", "get", "size")

    # ---- statements

    def statements(self, node, told):
        said = self.said(node)
        said = said if said.endswith(";") or node.inner.kind in ("if", "match", "for", "while", "loop", "block") else said + ";"
        if node.inner.kind not in ("if", "match", "for", "while", "loop", "block", "leave"):
            yield from ((OPERATOR, node.start, node.end, f"if {atom} {{ {said} }}") for atom in self.atoms())
        for text, other in told.items():
            if other is not node and other.inner.kind != "leave":
                yield STATEMENT, node.start, node.end, text


def is_like(one, other):
    """Whether a value of a type may stand in place of one of the other."""
    if one == other or "int" in (one, other) and (one in INTEGERS or other in INTEGERS):
        return True
    return one.partition("<")[0] == other.partition("<")[0] and "<" in one + other


def tests(path, kind):
    """What is asked of a value: few questions, by its type."""
    if kind in INTEGERS:
        yield from (f"{path} == 0", f"{path} > 0", f"{path} > 1")
    elif kind == "bool":
        yield from (path, f"!{path}")
    elif kind.startswith("Option"):
        yield from (f"{path}.is_some()", f"{path}.is_none()")
    elif kind.startswith("[") or kind == "str" or kind.partition("<")[0] in GROWING:
        yield from (f"{path}.is_empty()", f"!{path}.is_empty()", f"{path}.len() > 1")


# ---- definitions

PARTS = ("apply", "binary", "name", "project", "group", "literal", "record", "lambda")
TERM = "another term of the definition"


class ShortTerms:
    """Makes for one clause or field what another place of the same definition says, and the plainest term."""

    def __init__(self, file, unit):
        self.file, self.unit, self.text = file, unit, file.text

    def said(self, node):
        return self.text[node.start:node.end]

    def make(self):
        """Yields each edit's operator, its place and its text."""
        donors = {}
        for it in self.unit.tree.walk():
            if it.kind in PARTS and it.end - it.start <= LONGEST:
                donors.setdefault(self.said(it), sort_of(it))
        for it in [one.text for one in self.unit.patterns if one.kind == "name" and one.text[:1].islower()] if self.unit.kind == "clause" else ():
            donors.setdefault(it, "name")
        for node in self.unit.tree.walk():
            if node.kind in PARTS:
                yield from self.at(node, donors)
        if self.unit.kind == "field":
            name = self.unit.name.partition(".")[0]
            yield from self.sides([it for it in self.file.units if it is not self.unit and it.name.partition(".")[0] == name and it.tree is not None])

    def at(self, node, donors):
        own, sort = self.said(node), sort_of(node)
        texts = [text for text, of in donors.items() if of == sort and text != own]
        texts = texts if len(texts) <= MOST else []
        if sort == "statement":
            texts += ["⊥", NOTHING]
        elif sort == "name" and not own.rpartition(".")[2][:1].isupper():
            texts += ["0", f"{own} + 1", f"{own} - 1", f"take 1 {own}"]
        elif sort in ("apply", "++", "∷"):
            texts += ["[]"]
        elif sort in ("not", "==", "&&", "||"):
            texts += ["true", "false"]
        yield from ((TERM, node.start, node.end, f"({it})" if " " in it and not is_grouped(it) else it) for it in texts)

    def sides(self, others):
        """In a record of statements, what another field says that something is."""
        node = self.unit.tree
        own = sort_of(node)
        for it in others:
            # a whole statement, where both say a thing of the same sort
            if own == "statement" and sort_of(it.tree) == own and node.kind == it.tree.kind == "apply":
                yield TERM, node.start, node.end, self.said(it.tree)
            if all(one.kind == "binary" and one.sign.text in ("≡", "≤") for one in (node, it.tree)) and self.said(it.tree.right) != self.said(node.right):
                yield TERM, node.right.start, node.right.end, self.said(it.tree.right)


def sort_of(node):
    """Whether a term is a statement, a name, or how else it is written."""
    while node.kind == "group":
        node = node.parts[0]
    if node.kind == "binary":
        return "statement" if node.sign.text in ("≡", "≢", "≤", "<", "→", "×", "⊎", "↔") else node.sign.text
    if node.kind == "apply" and node.head.kind == "name":
        last = node.head.text.rpartition(".")[2]
        return "not" if last == "not" else "statement" if last[:1].isupper() and last not in ("Some", "Ok", "Err") else "apply"
    return "name" if node.kind in ("project", "literal") else node.kind


def is_grouped(text):
    """Whether brackets stand around the whole of a text."""
    depth = 0
    for i, it in enumerate(text):
        depth += (it == "(") - (it == ")")
        if depth == 0:
            return text[:1] == "(" and i == len(text) - 1
    return False
