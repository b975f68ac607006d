"""Tells edits that nothing can read: of code a name of another case, of definitions also a term of another type than its place has.

It says so only where what is declared shows it, so what it leaves may still have no type. No definition of the tree is told so (tests/edits.py)."""
import functools
import re

from . import generated
from .definition_operators import NUMERIC, Maker, groups, split_arrows
from .definitions import Reader, Unit, Unread
from .facts import plain
from .tokens import DEFINITION, tokens

NUMBERS = re.compile(r"[ui](?:8|16|32|64|size)")
STATEMENT, PAIR, FUNCTION = "Type 0", "a pair", "a function"
SOLID = ("ℕ", "Bool", "List", "Option", "Result", STATEMENT, PAIR, FUNCTION)
GIVEN = ("Self", "Vec", "String", "Box", "Option", "Result")
WORDS = {"true": "Bool", "false": "Bool", "[]": "List", "None": "Option", "⊥": STATEMENT, "⊤": STATEMENT, "Unit": STATEMENT, "Type": STATEMENT, "tt": "", "¬": ""}


class Untyped(Exception):
    """Why a definition can't be read."""


@functools.cache
def owners(crate, below):
    """Returns the fields of each struct and record, and the cases of each enum, whose name is declared once and that definitions see as they are declared."""
    fields, cases, seen_otherwise = {}, {}, set()
    for path in [it for name in (crate, *below) for part in ("src", "specs") for it in generated.paths_of(name, part)]:
        file, is_code = generated.parsed(path), path.endswith(".rt")
        seen_otherwise |= set(re.findall(r"^impl(?:<[^\n]*?>)? Model for (\w+)", file.text, re.M)) if is_code else set()
        for name, found in file.fields.items():
            fields.setdefault(name, []).append({it: of_code(kind) if is_code else kind for it, kind in found.items()})
        for name, found in (file.variants if is_code else file.constructors).items():
            cases.setdefault(name, []).append(found)
    names = {it for it in {*fields, *cases} - seen_otherwise if len(fields.get(it, ())) + len(cases.get(it, ())) == 1}
    return {it: found[0] for it, found in fields.items() if it in names}, {it: found[0] for it, found in cases.items() if it in names}


def of_code(kind):
    """Returns the type that a definition sees of a type of code, or nothing where that isn't told so simply."""
    kind = plain(kind)
    if NUMBERS.fullmatch(kind):
        return "ℕ"
    if kind == "bool":
        return "Bool"
    if kind.startswith("Option<"):
        return f"Option {of_code(kind[7:-1]) or '_'}"
    return kind if re.fullmatch(r"[A-Z]\w*", kind) else ""


def bare(kind):
    """Returns a type without brackets around it."""
    kind = kind.strip()
    while kind.startswith("(") and closes(kind) == len(kind) - 1:
        kind = kind[1:-1].strip()
    return kind


def bracketed(kinds):
    """Returns the types that are named where something is used, each in brackets where it is a function's, and what is answered."""
    kinds = [it for it in kinds if not it.startswith("{")]
    return [*(f"({it})" if "→" in it and bare(it) == it else it for it in kinds[:-1]), *kinds[-1:]]


def inner(kind):
    """Returns the type of what an `Option` or a list holds."""
    return bare(bare(kind).partition(" ")[2])


def outer(kind):
    """Returns the outermost word of a type."""
    kind, parts, depth = bare(kind), [], 0
    for word in kind.replace("(", " ( ").replace(")", " ) ").split():
        depth += (word == "(") - (word == ")")
        if depth == 0:
            parts.append(word)
    if "→" in parts or "λ" in parts:
        return FUNCTION
    if "×" in parts:
        return PAIR
    return STATEMENT if kind in (STATEMENT, "Type") else parts[0] if parts else ""


def closes(text):
    depth = 0
    for i, it in enumerate(text):
        depth += (it == "(") - (it == ")")
        if depth == 0:
            return i
    return -1


class Typing(Maker):
    """Looks through one clause or field as an edit makes it."""

    def __init__(self, edit, below):
        self.edited, file = edit.body(), generated.parsed(edit.path)
        crate = edit.path.split("/")[1]
        old = edit.unit
        reader = Reader(self.edited, 0, len(self.edited))
        tree = reader.term()
        if reader.at != len(reader.all):
            raise Unread("more")
        unit = Unit(old.name, old.kind, tree, 0, len(self.edited), patterns=old.patterns, returns=old.returns, within=old.within)
        super().__init__(self.edited, unit, file, generated.definition_facts(crate, below), {})
        self.owned, self.cases = owners(crate, below)
        self.head_line = edit.text()
        # a pattern without names binds none
        self.kinds = {name: kind for name, kind in self.kinds.items() if name not in WORDS}
        # two modules of a file may take the same name
        for name, kind in [it for module in old.within for it in module.params.items()]:
            if self.kinds.get(name) == file.module_params.get(name):
                self.kinds[name] = kind
        self.patterned()

    # ---- names

    def patterned(self):
        """Gives the names within a pattern the types that its constructor says."""
        if self.unit.kind != "clause":
            return
        for pattern, kind in zip(groups(self.unit.patterns), self.explicit_types()):
            if len(pattern) < 4 or pattern[0] != "(" or "(" in pattern[1:] or "{" in pattern:
                self.kinds.update({it: "" for it in pattern if len(pattern) > 1})
                continue
            held = [kind.strip("()").partition(" ")[2].strip()] if pattern[1] == "Some" and outer(kind) == "Option" else self.taking(pattern[1])
            names = pattern[2:-1]
            self.kinds.update(zip(names, held if len(held) == len(names) else [""] * len(names)))

    def taking(self, name):
        """Returns the types that a constructor or a definition takes."""
        return [it for it in split_arrows(self.declared(name)) if not it.startswith("{")][:-1]

    def bound(self):
        """Returns the names that the clause binds itself."""
        found = {it.text for it in self.unit.patterns} | {*self.kinds}
        words = tokens(self.edited, DEFINITION)
        for i, it in enumerate(words):
            if it.text in ("λ", "let", "(", "{"):
                at = i + 1
                while at < len(words) and (words[at].kind == "name" or words[at].text in ("_", "(", "{")):
                    at += 1
                if it.text in ("λ", "let") or at < len(words) and words[at].text == ":":
                    found |= {one.text for one in words[i + 1:at]}
        record = self.unit.name.partition(".")[0]
        return found | {*self.facts.fields.get(record, ())} | {*self.file.record_params.get(record, ())}

    def given(self):
        """Returns the names that the file declares or takes from others."""
        found = {*self.file.types, *self.file.fields, *self.file.constructors, *self.file.module_params, *WORDS}
        found |= {name for it in self.file.constructors.values() for name in it}
        for names, other in re.findall(r"^ *(?:pub )?use (?:\w+\.)*(?:\w+)(?:\.\{([^}]*)\}| as (\w+))?", self.head_line, re.M):
            found |= {other} if other else {it.split(" as ")[-1].strip() for it in names.split(",")}
        return found | set(re.findall(r"^ *(?:pub )?(?:open |module |use )(?:[\w.]*\.)?(\w+)", self.head_line, re.M))

    def declared(self, name):
        """Returns the type of a name as its module declares it, or nothing where that isn't sure."""
        prefix, _, last = name.rpartition(".")
        if not prefix and (last in self.file.types or last in self.file.record_types):
            return self.file.seen(last, self.unit.within)
        if not prefix and (own := [it for it in self.file.constructors.values() if last in it]):
            return own[0][last]
        modules = self.taken().get(prefix or last, ())
        found = [it for it in (self.in_module(module, last) for module in modules) if it]
        return found[0] if len(found) == 1 else ""

    def in_module(self, module, name):
        crate, _, inside = module.removeprefix("Rattle.").partition(".specs.")
        words = inside.split(".")
        if words[-1] == "TheVariants" and words[-2] in self.cases:
            held = self.cases[words[-2]].get(name)
            if held is None or held.startswith("{"):
                return ""
            payload = self.facts.code.payload(words[-2], name)
            return " → ".join([*(of_code(it) or "_" for it in payload), words[-2]])
        file = self.facts.modules.get(module)
        if file is None or file.seen(name):
            return file.seen(name) if file else ""
        return next((it[name] for it in file.constructors.values() if name in it), "") if not file.module_params else ""

    def unaliased(self, kind):
        """Returns the type for which a definition without arguments stands."""
        word = bare(kind)
        if not re.fullmatch(r"[A-Z]\w*", word):
            return kind
        files = [self.file] if word in self.file.types else [self.facts.modules.get(it) for it in self.taken().get(word, ())]
        found = [it.aliases[word] for it in files if it and word in it.aliases]
        return found[0] if len(found) == 1 else kind

    # ---- types

    def field_of(self, kind, name):
        return self.owned.get(outer(kind), {}).get(name, "")

    def kind_of(self, node):
        return getattr(self, "kind_of_" + node.kind, lambda _: "")(node)

    def kind_of_name(self, node):
        first, *rest = node.text.split(".")
        if first in self.kinds:
            kind = self.kinds[first]
            for it in rest:
                kind = self.field_of(kind, it)
            return kind
        # what the clause binds itself is another thing than what is declared
        if first in self.local:
            return ""
        return WORDS.get(node.text) or " → ".join(bracketed(split_arrows(self.declared(node.text))))

    def kind_of_literal(self, node):
        return "ℕ"

    def kind_of_project(self, node):
        return self.field_of(self.kind_of(node.inner), node.name.text[1:])

    def kind_of_group(self, node):
        return self.kind_of(node.parts[0])

    def kind_of_tuple(self, node):
        return "_ × _"

    def kind_of_lambda(self, node):
        return "_ → _"

    def kind_of_let(self, node):
        return self.kind_of(node.inner)

    def kind_of_if(self, node):
        return self.kind_of(node.then) or self.kind_of(node.other)

    def kind_of_record(self, node):
        return self.kind_of(node.base) if node.base is not None else ""

    def kind_of_binary(self, node):
        sign = node.sign.text
        if sign in NUMERIC:
            return "ℕ"
        return "Bool" if sign in ("&&", "||", "==") else "List" if sign in ("++", "∷") else STATEMENT

    def kind_of_apply(self, node):
        if node.head.kind == "name" and node.head.text in ("Some", "Ok", "Err", "not", "length", "suc", "codes", "IsTrue", "Unit"):
            return {"Some": "Option", "not": "Bool", "length": "ℕ", "suc": "ℕ", "codes": "List", "IsTrue": STATEMENT, "Unit": STATEMENT}.get(node.head.text, "Result")
        kinds = [it for it in split_arrows(self.kind_of(node.head)) if not it.startswith("{")]
        explicit = [it for it in node.arguments if it.kind != "implicit"]
        if len(explicit) == len(kinds) - 1:
            return kinds[-1]
        return "_ → _" if len(explicit) < len(kinds) - 1 else ""

    def is_solid(self, kind):
        kind = self.unaliased(kind)
        return outer(kind) in SOLID or outer(kind) in self.owned or outer(kind) in self.cases

    def differ(self, kind, wanted):
        """Whether two types are known not to be one."""
        if not self.is_solid(kind) or not self.is_solid(wanted):
            return False
        kind, wanted = self.unaliased(kind), self.unaliased(wanted)
        if outer(kind) != outer(wanted):
            return True
        if outer(kind) == FUNCTION:
            ours, theirs = ([one for one in split_arrows(bare(it)) if not one.startswith("{")] for it in (kind, wanted))
            return len(ours) == len(theirs) and any(self.differ(*it) for it in zip(ours, theirs))
        return outer(kind) in ("Option", "List") and self.differ(inner(kind), inner(wanted))

    def look(self, node, wanted):
        """Looks through a term that stands where such a type is wanted."""
        # a comparison binds tighter than this reading of terms has it
        is_loose = node.kind == "binary" and node.sign.text in ("→", "×", "⊎", "↔") and outer(wanted) != STATEMENT
        kind = "" if is_loose else self.kind_of(node)
        if self.differ(kind, wanted):
            raise Untyped(f"`{self.said(node)}` is {bare(kind)}, and {bare(wanted)} is wanted")
        if node.kind == "name" and node.text[:1] not in '"◌_?' and node.text.partition(".")[0] not in self.names:
            raise Untyped(f"`{node.text}` is not in scope")
        for part, its in self.wanting(node, wanted):
            self.look(part, its)

    def wanting(self, node, wanted):
        """Yields the parts of a term with the types that they must have, where these are told."""
        how = getattr(self, "wanting_" + node.kind, None)
        yield from how(node, wanted) if how else ((it, wanted if node.kind == "group" else "") for it in node.parts)

    def wanting_binary(self, node, wanted):
        sign, both = node.sign.text, ""
        if sign in ("&&", "||"):
            both = "Bool"
        elif sign in NUMERIC or sign in ("≤", "<", "≥", ">", "=="):
            both = "ℕ"
        elif sign == "++":
            both = "List"
        elif sign in ("≡", "≢"):
            kinds = [it for it in (self.kind_of(node.left), self.kind_of(node.right)) if self.is_solid(it)]
            both = kinds[0] if kinds else ""
        elif sign in ("→", "×", "⊎", "↔") and outer(wanted) == STATEMENT:
            both = STATEMENT
        yield node.left, "" if sign == "∷" or self.binds(node.left) else both
        yield node.right, "List" if sign == "∷" else both

    def binds(self, node):
        return node.kind == "binder" or node.kind == "apply" and any(it.kind == "binder" for it in node.parts)

    def wanting_if(self, node, wanted):
        yield from ((node.condition, "Bool"), (node.then, wanted), (node.other, wanted))

    def wanting_let(self, node, wanted):
        yield from ((node.value, ""), (node.inner, wanted))

    def wanting_record(self, node, wanted):
        owner = wanted or self.kind_of_record(node)
        for it in node.parts:
            yield (it.value, self.field_of(owner, it.name)) if it.kind == "named" else (it, "")

    def wanting_apply(self, node, wanted):
        yield node.head, ""
        kinds = [it for it in split_arrows(self.kind_of(node.head)) if not it.startswith("{")]
        explicit = [it for it in node.arguments if it.kind != "implicit"]
        if node.head.kind == "name" and node.head.text in ("not", "IsTrue"):
            kinds = ["Bool", ""]
        elif node.head.kind == "name" and node.head.text in ("suc", "length"):
            kinds = ["ℕ" if node.head.text == "suc" else "List", ""]
        for i, it in enumerate(explicit):
            yield it, kinds[i] if i < len(kinds) - 1 and not self.binds(it) else ""

    def wanting_binder(self, node, wanted):
        return ()

    def wanting_lambda(self, node, wanted):
        yield node.inner, ""

    def whole(self):
        self.local = self.bound()
        self.names = self.local | self.given()
        returns = self.unit.returns if self.unit.kind == "field" else self.returns
        self.look(self.unit.tree, "" if "→" in returns else returns)


def names_of(pattern, text):
    """Returns the names that a pattern of code binds."""
    return {it for it in re.findall(r"(?<![\w:.])[a-z_]\w*(?!\w*(?:::|!|\s*\())", text[pattern.start:pattern.end]) if it not in ("ref", "mut", "_")}


def out_of_scope(edit):
    """Returns a name that an edit of code takes, and that another case of a `match` alone binds, or a type that its file doesn't name; or nothing."""
    text, unit = generated.read(edit.path), edit.unit
    for it in re.findall(r"(?<![\w:])([A-Z]\w*)::", edit.new):
        if it not in GIVEN and not re.search(rf"\b{it}\b", text):
            return it
    arms = [it for it in unit.tree.walk() if it.kind == "arm"]
    if any(it.pattern.start < edit.end and edit.start < it.pattern.end for it in arms):
        return ""
    here = {name for it in arms if it.pattern.end <= edit.start and edit.end <= it.end for name in names_of(it.pattern, text)}
    others = {name for it in arms for name in names_of(it.pattern, text)} - here - {*unit.params}
    body = text[unit.start:unit.end]
    for it in re.findall(r"(?<![\w.:])[a-z_]\w*(?!\w*(?:::|!|\s*[(:]))", edit.new):
        # what is bound in another way, or by a case that the edit makes, may be in scope
        if it in others and not re.search(rf"\b{it}\b[^=]*=>", edit.new) and not re.search(rf"\b(?:let|for)\b[^=;{{]*\b{it}\b|\|[^|\n]*\b{it}\b[^|\n]*\|", body):
            return it
    return ""


def why_untyped(edit, below):
    """Returns why an edit can't be read, or nothing where nothing shows it."""
    if not edit.is_definition():
        name = out_of_scope(edit)
        return f"`{name}` is not in scope" if name else ""
    try:
        Typing(edit, below).whole()
    except Untyped as why:
        return str(why)
    except (Unread, KeyError, RecursionError):
        return ""
    return ""
