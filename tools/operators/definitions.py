"""Reads files of definitions: their clauses and fields, each as a tree of terms."""
import re

from .tokens import DEFINITION, tokens

# how tightly signs between two operands bind, the loosest first
BINDS = [("→",), ("↔",), ("≡", "≢", "≤", "<", "≥", ">"), ("⊎",), ("×",), ("||",), ("&&",), ("==",), ("++", "∷"), ("+", "-"), ("*", "/", "%"), ("^",)]
RIGHT = ("→", "×", "⊎", "++", "∷", "||", "&&")
STOPS = {")", "}", ";", "then", "else", "in", "=", ",", "]", "|", "↦", "as", "where", ""}
CLOSE = {"(": ")", "{": "}", "[": "]"}


class Unread(Exception):
    """The text isn't such a term."""


class Term:
    def __init__(self, kind, start, end, parts=(), **more):
        self.kind, self.start, self.end, self.parts = kind, start, end, list(parts)
        self.__dict__.update(more)

    def walk(self):
        yield self
        for it in self.parts:
            yield from it.walk()


class Reader:
    def __init__(self, text, start, end):
        self.all, self.at, self.last_end = tokens(text, DEFINITION, start, end), 0, start

    def peek(self, ahead=0):
        return self.all[self.at + ahead].text if self.at + ahead < len(self.all) else ""

    def kind(self, ahead=0):
        return self.all[self.at + ahead].kind if self.at + ahead < len(self.all) else ""

    def start(self):
        return self.all[self.at].start if self.at < len(self.all) else self.last_end

    def take(self, wanted=None):
        if self.at >= len(self.all) or wanted is not None and self.peek() != wanted:
            raise Unread(f"{wanted!r} at {self.start()}: {self.peek()!r}")
        it = self.all[self.at]
        self.at += 1
        self.last_end = it.end
        return it

    def skip_group(self):
        close = CLOSE[self.take().text]
        while self.peek() != close:
            self.skip_group() if self.peek() in CLOSE else self.take()
        self.take()

    def term(self, level=0):
        if level >= len(BINDS):
            return self.application()
        start = self.start()
        left = self.term(level + 1)
        while self.peek() in BINDS[level]:
            sign = self.take()
            right = self.term(level if sign.text in RIGHT else level + 1)
            left = Term("binary", start, self.last_end, [left, right], left=left, right=right, sign=sign)
        return left

    def application(self):
        start = self.start()
        word = self.peek()
        if word == "λ":
            self.take()
            names = []
            while self.peek() != ".":
                names.append(self.take().text)
            self.take(".")
            inner = self.term()
            return Term("lambda", start, self.last_end, [inner], inner=inner)
        if word == "let":
            return self.let(start)
        if word == "if":
            self.take()
            condition = self.term()
            self.take("then")
            then = self.term()
            self.take("else")
            other = self.term()
            return Term("if", start, self.last_end, [condition, then, other], condition=condition, then=then, other=other)
        if word == "elim":
            raise Unread("elim")
        parts = [self.atom()]
        while self.peek() not in STOPS and not any(self.peek() in signs for signs in BINDS) and self.peek() not in ("λ", "let", "if"):
            parts.append(self.atom())
        if self.peek() in ("λ", "if", "let"):
            parts.append(self.application())
        return parts[0] if len(parts) == 1 else Term("apply", start, self.last_end, parts, head=parts[0], arguments=parts[1:])

    def let(self, start):
        self.take()
        self.take()
        if self.peek() == ":":
            while self.peek() != "=":
                self.skip_group() if self.peek() in CLOSE else self.take()
        self.take("=")
        value = self.term()
        self.take("in")
        inner = self.term()
        return Term("let", start, self.last_end, [value, inner], value=value, inner=inner)

    def atom(self):
        start, word = self.start(), self.peek()
        if word == "(":
            one = self.binder() or self.group()
        elif word == "{":
            one = self.binder()
            if one is None:
                self.skip_group()
                one = Term("implicit", start, self.last_end)
        elif word == "record":
            one = self.record()
        elif self.kind() in ("name", "number", "text") or word in ("[]", "⊥", "⊤", "¬", "_", "?"):
            self.take()
            one = Term("literal" if self.all[self.at - 1].kind == "number" else "name", start, self.last_end, text=word)
        else:
            raise Unread(f"{word!r} at {start}")
        while self.kind() == "projected" and self.start() == self.last_end:
            name = self.take()
            one = Term("project", start, self.last_end, [one], inner=one, name=name)
        return one

    def group(self):
        start = self.start()
        self.take("(")
        parts = [self.term()]
        while self.peek() == ",":
            self.take()
            parts.append(self.term())
        self.take(")")
        return Term("group" if len(parts) == 1 else "tuple", start, self.last_end, parts)

    def binder(self):
        """Reads `(x y : A)` or `{x : A}`, or None where it is none."""
        place, ahead = self.at, 1
        while self.kind(ahead) == "name" or self.peek(ahead) == "_":
            ahead += 1
        if ahead == 1 or self.peek(ahead) != ":":
            return None
        start = self.start()
        names = [it.text for it in self.all[place + 1:place + ahead]]
        self.at += ahead + 1
        at = self.start()
        inner = self.term()
        if self.peek() not in (")", "}"):
            raise Unread(f"a binder's end at {self.start()}")
        self.take()
        return Term("binder", start, self.last_end, [], names=names, type=(at, inner.end), inner=inner)

    def record(self):
        start = self.start()
        self.take()
        base = None
        if self.peek() != "{":
            base = self.atom()
        self.take("{")
        fields = []
        while self.peek() != "}":
            at = self.start()
            name = self.take()
            self.take("=")
            value = self.term()
            fields.append(Term("named", at, self.last_end, [value], name=name.text, value=value))
            if self.peek() == ";":
                self.take()
                fields[-1].whole = self.last_end
            else:
                fields[-1].whole = self.last_end
        self.take("}")
        return Term("record", start, self.last_end, ([base] if base else []) + fields, base=base, fields=fields)


class Unit:
    """A clause of a definition or a field of a record: its term, its patterns, and the types that its signature gives."""

    def __init__(self, name, kind, tree, start, end, **more):
        self.name, self.kind, self.tree, self.start, self.end = name, kind, tree, start, end
        self.__dict__.update(more)


class Module:
    """A module within a file, and the types of what it takes, but for what isn't named where it is used."""

    def __init__(self, indent, text):
        self.indent, self.params, self.takes = indent, params_of(text), taken_by(text)


# a type that a definition without arguments stands for
ALIAS = re.compile(r"(?:ℕ|Bool|List|Option)\b[^→×≡:]*")
HEAD = re.compile(r"^(\s*)(?:(?:abbrev |unfoldable |opaque )?(?:pub )?)?(\S+)")
SIGNED = re.compile(r"^(\s*)(?:abbrev |unfoldable )?(?:pub )?([^\s:({]+) : (.*)$", re.S)


class File:
    """What stands in a file of definitions."""

    def __init__(self, text):
        self.text, self.units, self.unread = text, [], []
        self.types, self.fields, self.constructors = {}, {}, {}
        self.record_params, self.module_params = {}, {}
        self.record_types, self.aliases, self.within, self.open = {}, {}, {}, ()
        self.record = None
        for start, end in self.entries():
            self.entry(start, end)

    def entries(self):
        """Returns the places of the entries: each begins a line, and goes on by lines that are set further in."""
        found, names = [], {}
        for it in re.finditer(r"^[^\n]*\n?", self.text, re.M):
            line = it[0].rstrip("\n")
            if not line.strip() or line.lstrip().startswith("--"):
                continue
            indent = len(line) - len(line.lstrip())
            words = line.split()
            declares = words[0] in ("use", "module", "abbrev", "unfoldable", "pub", "data", "open", "unfolding") or words[0] == "record" and "where" in words
            is_case = self.is_case(line, found, names, indent)
            if declares or is_case or not found:
                found.append([it.start(), it.end()])
                signed = SIGNED.match(line)
                if signed and words[0] in ("abbrev", "unfoldable"):
                    names[signed[2]] = indent
            else:
                found[-1][1] = it.end()
        return found

    def is_case(self, line, found, names, indent):
        word = re.match(r"\s*([^\s(]+)", line)
        return bool(word) and names.get(word[1]) == indent and depth_of(self.text, found) == 0

    def entry(self, start, end):
        text = self.text[start:end]
        words, indent = text.split(), len(text) - len(text.lstrip())
        self.open = tuple(it for it in self.open if it.indent < indent)
        if words[0] == "module":
            self.module_params.update(params_of(text))
            self.open += (Module(indent, text),) if "where" in words else ()
        if words[0] in ("use", "module", "open", "unfolding"):
            return
        if "data" in words[:2]:
            self.data(text)
            return
        if words[0] in ("abbrev", "unfoldable"):
            signed = SIGNED.match(text)
            if signed:
                self.types[signed[2]] = " ".join(plain_words(signed[3]))
                self.within[signed[2]] = self.open
            return
        if words[:2] == ["pub", "record"] or words[0] == "record" and "where" in words:
            self.record = words[words.index("record") + 1]
            self.fields.setdefault(self.record, {})
            self.record_params[self.record] = params_of(text)
            if kind := re.search(r": (Type \d)\s+where", text):
                self.record_types[self.record] = taking(text, kind[1])
                self.within[self.record] = self.open
            return
        colon = re.match(r"(\s*)pub (\S+)((?: \S+)*?) : ", text)
        if colon and self.record:
            self.fields[self.record][colon[2]] = " ".join(plain_words(text[colon.end():]))
            self.unit(f"{self.record}.{colon[2]}", "field", start + colon.end(), end, [], "Type 0")
            return
        self.clause(text, start, end)

    def data(self, text):
        name = text.split()[text.split().index("data") + 1]
        found = {}
        for line in text.split("\n")[1:]:
            one = re.match(r"\s+(?:pub )?(\S+) : (.*)$", line)
            if one:
                found[one[1]] = one[2]
        self.constructors[name] = found

    def clause(self, text, start, end):
        all_tokens = tokens(self.text, DEFINITION, start, end)
        depth = 0
        for i, it in enumerate(all_tokens):
            depth += (it.text in CLOSE) - (it.text in CLOSE.values())
            if it.text == "=" and depth == 0:
                name = all_tokens[0].text
                self.unit(name, "clause", it.end, end, all_tokens[1:i], "")
                value = " ".join(plain_words(self.text[it.end:end]))
                if i == 1 and not self.open and self.types.get(name) == "Type 0" and ALIAS.fullmatch(value):
                    self.aliases[name] = value
                return

    def unit(self, name, kind, start, end, patterns, returns):
        whole = tokens(self.text, DEFINITION, start, end)
        if not whole:
            return
        start, end = whole[0].start, whole[-1].end
        try:
            reader = Reader(self.text, start, end)
            tree = reader.term()
            if reader.at != len(reader.all):
                raise Unread(f"more at {reader.start()}: {reader.peek()}")
        except (Unread, KeyError, RecursionError) as why:
            self.unread.append((name, str(why)))
            tree = None
        self.units.append(Unit(name, kind, tree, start, end, patterns=patterns, returns=returns, within=self.open))

    def seen(self, name, within=()):
        """Returns the type of a definition or a record as it is seen within these modules: from without, what its own modules take stands before."""
        kind = self.types.get(name) or self.record_types.get(name, "")
        return " → ".join([*(it for module in self.within.get(name, ()) if module not in within for it in module.takes), kind]) if kind else ""


def depth_of(text, found):
    """How many brackets are open at the end of the last entry."""
    if not found:
        return 0
    part = re.sub(r"--[^\n]*", "", text[found[-1][0]:found[-1][1]])
    return sum(part.count(it) for it in "({") - sum(part.count(it) for it in ")}")


def params_of(text):
    """Returns the parameters of the head of a record or a module, with their types."""
    found = {}
    for names, kind in re.findall(r"[({]([^(){}:]+) : ((?:[^(){}]|\([^()]*\))+)[)}]", text.partition(" where")[0]):
        found.update({it: " ".join(kind.split()) for it in names.split()})
    return found


def taken_by(text):
    """Returns the types of what the head of a record or a module takes, but for what isn't named where it is used."""
    found = []
    for names, kind in re.findall(r"\(([^(){}:]+) : ((?:[^(){}]|\([^()]*\))+)\)", text.partition(" where")[0]):
        kind = " ".join(kind.split())
        found += [f"({kind})" if "→" in kind else kind] * len(names.split())
    return found


def taking(text, kind):
    return " → ".join([*taken_by(text), kind])


def plain_words(text):
    return re.sub(r"--[^\n]*", "", text).split()
