"""The operators over definitions: each makes of one place of a clause or of a field another text, which means something else."""
import re
from collections import Counter

from .code_texts import other_numbers
from .definition_more import More

OTHER_SIGNS = {
    "≡": ("≤", "≢"), "≢": ("≡",), "≤": ("<", "≡"), "<": ("≤", "≡"), "×": ("⊎",), "⊎": ("×",), "&&": ("||",), "||": ("&&",),
    "+": ("-",), "-": ("+",), "*": ("+", "/"), "/": ("*", "%"), "%": ("/",), "==": ("<",), "^": ("*",), "↔": ("→",),
}
NUMERIC = ("+", "-", "*", "/", "%", "^")
RELATIONS = ("≡", "≢", "≤", "<", "≥", ">")
NOTHING = "Unit {0}"
# what words of the library take
LIBRARY = {"length": ["List"], "take": ["ℕ", "List"], "drop": ["ℕ", "List"], "suc": ["ℕ"], "min": ["ℕ", "ℕ"], "max": ["ℕ", "ℕ"], "IsTrue": ["Bool"], "not": ["Bool"], "map": ["", "List"]}
# other words of the library that take the same
OTHER_WORDS = [("min", "max"), ("take", "drop"), ("All", "Any"), ("nat_lt", "nat_le"), ("nat_eq", "nat_le"), ("bit_xor", "bit_or"), ("bit_and", "bit_or"), ("true", "false"), ("is_some", "is_none"), ("IsOk", "IsErr"), ("head", "last")]


class Facts:
    """What the definitions of a crate, and of those below it, declare."""

    def __init__(self, files, code=None, modules=()):
        self.modules = dict(modules)
        self.types, self.fields, self.constructors, self.code, self.files = {}, {}, {}, code, files
        for it in files:
            for name, kind in it.types.items():
                self.types.setdefault(name, kind)
            for name, found in it.fields.items():
                self.fields.setdefault(name, found)
            for name, found in it.constructors.items():
                self.constructors.setdefault(name, found)
        self.sister_fields, self.sister_cases, self.by_type = {}, {}, {}
        for found in [*self.fields.values(), *(code.fields.values() if code else ())]:
            for name, kind in found.items():
                others = [it for it, held in found.items() if it != name and held == kind]
                self.sister_fields.setdefault(name, []).extend(others)
        for found in [*self.constructors.values(), *(code.variants.values() if code else ())]:
            for name, kind in found.items():
                others = [it for it, held in found.items() if it != name and held == kind]
                self.sister_cases.setdefault(name, []).extend(others)

    def types_beside(self, name):
        """Returns what the file declares that declares this name."""
        return next((it.types for it in self.files if name in it.types), {})

    def like(self, name, own):
        """Returns the other definitions of the crate with this one's signature."""
        kind = self.types.get(name.rpartition(".")[2])
        if not kind or kind == "Type 0":
            return []
        return [it for it, held in own.items() if held == kind and it != name]


class Maker(More):
    def __init__(self, text, unit, file, facts, own):
        self.text, self.unit, self.file, self.facts, self.own = text, unit, file, facts, own
        self.found = []
        self.kinds = self.parameters()
        self.returns = unit.returns
        if unit.kind == "clause" and (explicit := self.explicit_types()):
            self.patterns = groups(unit.patterns)
            for pattern, kind in zip(self.patterns, explicit):
                if len(pattern) == 1:
                    self.kinds[pattern[0]] = kind.strip("()")
            self.returns = " → ".join(explicit[len(self.patterns):])
        for it in unit.tree.walk():
            if it.kind == "binder":
                self.kinds.update({name: text[it.type[0]:it.type[1]] for name in it.names})
        self.binders(unit.tree)
        self.variables = [it.text for it in unit.patterns if unit.kind == "clause" and it.kind == "name" and it.text[:1].islower()]

    def explicit_types(self):
        """Returns the types of the clause's patterns, then those of what it gives, where a type of the file's own that is cited last is written out."""
        found = [it for it in split_arrows(self.file.types.get(self.unit.name, "")) if not it.startswith("{")]
        for one in self.file.units if found and len(groups(self.unit.patterns)) >= len(found) else ():
            if one.kind == "clause" and one.name == found[-1] and not one.patterns:
                return [*found[:-1], *split_arrows(self.file.text[one.tree.start:one.tree.end])]
        return found

    def binders(self, node):
        for it in node.walk():
            if it.kind == "apply" or it.kind == "binary":
                for one in it.parts:
                    if one.kind == "binder":
                        self.kinds.update({name: self.text[one.type[0]:one.type[1]] for name in one.names})

    def said(self, node):
        return self.text[node.start:node.end]

    def operand(self, node):
        return f"({self.said(node)})" if node.kind in ("binary", "apply", "lambda", "let", "if", "record") else self.said(node)

    def put(self, operator, start, end, new):
        if new != self.text[start:end]:
            self.found.append((operator, start, end, new))

    def replace(self, operator, node, new):
        self.put(operator, node.start, node.end, new)

    def is_statement(self):
        return self.returns.strip().endswith("Type 0")

    def make(self):
        tree = self.unit.tree
        if self.is_statement():
            self.statement(tree)
        elif self.unit.kind == "clause":
            self.whole(tree)
        self.visit(tree, self.returns, None)
        return self.found

    # ---- statements

    def statement(self, node):
        """A premise that is false at each place, each premise and each part of a conclusion left out."""
        self.put("a false premise", node.start, node.start, "⊥ → ")
        self.parts(node)
        if self.unit.kind == "clause":
            self.replace("a conclusion dropped", node, NOTHING)
            self.replace("a false statement", node, "⊥")
            self.others(node)
        self.one_value(node)

    def parts(self, node):
        if node.kind == "group":
            self.parts(node.parts[0])
        elif node.kind == "let":
            self.parts(node.inner)
        elif node.kind == "lambda":
            self.parts(node.inner)
        elif node.kind == "binary" and node.sign.text == "→":
            self.arrow(node)
            self.parts(node.right)
        elif node.kind == "binary" and node.sign.text in ("×", "⊎", "↔"):
            self.joined(node)
            for it in (node.left, node.right):
                if it.kind not in ("binder", "apply") or node.sign.text != "×":
                    self.parts(it)
        elif node.kind == "apply" and node.arguments and node.arguments[-1].kind in ("group", "lambda"):
            self.parts(node.arguments[-1])

    def arrow(self, node):
        left, right = node.left, node.right
        self.put("a false premise", right.start, right.start, "⊥ → ")
        if all(it.kind != "binder" for it in spine(left)):
            self.replace("a premise left out", left, NOTHING)
            self.replace("a false premise", left, "⊥")
        if right.kind != "binary" or right.sign.text != "→":
            self.replace("a conclusion dropped", right, NOTHING)

    def joined(self, node):
        left, right = node.left, node.right
        if node.sign.text == "×" and any(it.kind == "binder" for it in spine(left)):
            self.put("an exists freed", node.sign.start, node.sign.end, "→")
            self.replace("an exists freed", right, NOTHING)
            return
        for one, other in ((left, right), (right, left)):
            self.replace("a conclusion dropped", node, self.said(other))
            if node.sign.text == "×":
                self.replace("a conclusion dropped", one, NOTHING)
            elif node.sign.text == "⊎":
                self.replace("a case left out", one, "⊥")
        if node.sign.text == "↔":
            self.replace("a direction dropped", node, f"{self.operand(left)} → {self.operand(right)}")
            self.replace("a direction dropped", node, f"{self.operand(right)} → {self.operand(left)}")

    # ---- values

    def others(self, tree):
        """What the other clauses of the definition say."""
        for it in self.file.units:
            if it is not self.unit and it.name == self.unit.name and it.tree is not None:
                self.replace("a case's value", tree, self.text[it.start:it.end])

    def whole(self, tree):
        self.others(tree)
        for operator, new in self.values(tree, self.returns):
            self.replace(operator, tree, new)

    def values(self, node, kind):
        kind = (kind or "").strip()
        said = self.operand(node)
        if kind == "Bool":
            yield from (("a condition", "true"), ("a condition", "false"), ("a sign", f"not {said}"))
        elif kind == "ℕ":
            yield from self.numbers(node)
        elif kind.startswith("Option"):
            yield "a case's value", "None"
        elif kind.startswith("List"):
            yield from (("a case's value", "[]"), ("a constant", f"drop 1 {said}"), ("a constant", f"take 1 {said}"))
        for name, held in self.facts.fields.get(kind.split(" ")[0], {}).items():
            yield from (("a field left as it was", f"record {said} {{ {name} = {it} }}") for it in self.kept_fields(node, kind, name, held))
        names = [it for it, held in self.kinds.items() if held == kind and it != self.said(node)] if kind else []
        yield from (("a name", it) for it in names)
        for it in self.facts.constructors.get(kind, {}):
            if self.facts.constructors[kind][it] == kind:
                yield "a case's value", it

    def kept_fields(self, node, kind, name, held):
        """What a field may be besides what it is made: that of another such value in scope, or nothing."""
        others = [it for it, one in self.kinds.items() if one == kind and it != self.said(node)]
        nothing = {"Bool": ["true", "false"], "ℕ": ["0"]}.get(held, ["[]"] if held.startswith("List") else ["None"] if held.startswith("Option") else [])
        for it, one in self.kinds.items():
            others += [f"{it}.{inner}" for inner, of in self.facts.fields.get(one.split(" ")[0], {}).items() if of == kind]
        found = [it for it, one in self.in_scope() if one == held and it != f"{self.said(node)}.{name}"]
        return [f"{it}.{name}" for it in others if it != self.said(node)] + nothing + found

    def numbers(self, node):
        if node.kind == "literal":
            value = int(node.text, 0)
            others = [int(it.text, 0) for it in self.unit.tree.walk() if it.kind == "literal"]
            yield from (("a constant", str(it)) for it in dict.fromkeys(others) if it != value)
            yield from (("a bound" if abs(it - value) == 1 else "a constant", str(it)) for it in dict.fromkeys((value + 1, value - 1, 0, value * 2)) if 0 <= it != value)
            yield from (("another number", it) for it in other_numbers(node.text))
            return
        said = self.operand(node)
        yield from (("a bound", f"suc {said}"), ("a bound", f"({self.said(node)} - 1)"), ("a constant", "0"), ("a constant", "1"))

    def visit(self, node, kind, above):
        how = getattr(self, "at_" + node.kind, None)
        kind = kind or self.type_of(node)
        if how:
            how(node, kind)
        if above is not None and node.kind in ("apply", "binary", "name", "project", "group", "literal", "if", "record"):
            for operator, new in self.values(node, kind):
                wraps = above.kind == "apply" and " " in new and not new.startswith("(")
                self.replace(operator, node, f"({new})" if wraps else new)
        self.twice(node, kind)
        wanted = getattr(self, "wanted_" + node.kind, None)
        for it in node.parts:
            self.visit(it, wanted(node, it, kind) if wanted else "", node)

    def wanted_binary(self, node, part, kind):
        sign = node.sign.text
        if sign in ("&&", "||"):
            return "Bool"
        if sign in NUMERIC or sign in ("≤", "<"):
            return "ℕ"
        if sign == "++":
            return kind or "List"
        if sign == "∷":
            return (kind or "List") if part is node.right else ""
        if sign in ("≡", "==", "≢"):
            return self.type_of(node.left) or self.type_of(node.right)
        return kind if sign in ("→", "×", "⊎") else ""

    def wanted_group(self, node, part, kind):
        return kind

    def wanted_let(self, node, part, kind):
        return kind if part is node.inner else ""

    def wanted_if(self, node, part, kind):
        return "Bool" if part is node.condition else kind

    def wanted_named(self, node, part, kind):
        return kind or self.field_type(node.name)

    def wanted_record(self, node, part, kind):
        owner = kind or (self.type_of(node.base) if node.base is not None else "")
        return self.facts.fields.get(owner.split(" ")[0], {}).get(part.name, "") if part.kind == "named" else kind

    def wanted_apply(self, node, part, kind):
        head = node.head.text if node.head.kind == "name" else ""
        kinds = [it for it in split_arrows(self.type_named(head)) if not it.startswith("{")]
        explicit = [it for it in node.arguments if it.kind != "implicit"]
        if part not in explicit:
            return ""
        place = explicit.index(part)
        if place < len(kinds) - 1:
            return kinds[place].strip("()")
        library = LIBRARY.get(head, ())
        return library[place] if place < len(library) else ""

    def field_type(self, name):
        """The type of a field: where several records have such a field, the one that most have."""
        kinds = Counter(found[name] for found in self.facts.fields.values() if name in found and not any(it in found[name] for it in ("≡", "→", "×")))
        return kinds.most_common(1)[0][0] if kinds else ""

    def type_of(self, node):
        if node.kind == "name":
            if "." in node.text and node.text not in self.kinds:
                return self.field_type(node.text.rpartition(".")[2])
            kind = self.facts.types.get(node.text, "")
            return self.kinds.get(node.text) or ("" if "→" in kind else kind) or ("Bool" if node.text in ("true", "false") else "List" if node.text == "[]" else "Option" if node.text == "None" else "")
        if node.kind == "literal":
            return "ℕ"
        if node.kind == "project":
            return self.field_type(node.name.text[1:])
        if node.kind == "group":
            return self.type_of(node.parts[0])
        if node.kind == "binary":
            return "ℕ" if node.sign.text in NUMERIC else "Bool" if node.sign.text in ("&&", "||", "==") else "List" if node.sign.text in ("++", "∷") else ""
        if node.kind == "apply" and node.head.kind == "name":
            if node.head.text in ("length", "suc", "min", "max", "sum"):
                return "ℕ"
            kinds = split_arrows(self.type_named(node.head.text))
            return kinds[-1] if kinds else ""
        return ""

    # ---- edits by the kind of term

    def at_binary(self, node, kind):
        sign = node.sign
        for other in OTHER_SIGNS.get(sign.text, ()):
            self.put("a comparison" if sign.text in RELATIONS else "a sign", sign.start, sign.end, other)
        if sign.text in ("++", "&&", "||", "==", "⊎", "∷") + NUMERIC:
            for one in (node.left, node.right) if sign.text != "∷" else (node.right,):
                self.replace("an operand left out", node, self.said(one))
        if sign.text == "∷":
            self.replace("an operand left out", node, "[]")
            if self.said(node.right) == "[]":
                self.replace("an operand twice", node, f"{self.said(node.left)} ∷ {self.said(node)}")
        if sign.text in ("++", "-", "/", "%", "^", "≤", "<", "==") or sign.text == "∷" and self.said(node.right) != "[]":
            self.put("two operands turned", node.left.start, node.right.end, self.said(node.right) + self.text[node.left.end:node.right.start] + self.said(node.left))
        if sign.text in RELATIONS:
            for one in (node.left, node.right):
                if self.type_of(node.left) in ("ℕ", "") and self.type_of(node.right) in ("ℕ", "") and one.kind != "literal":
                    self.replace("a bound", one, f"suc {self.operand(one)}")
                    self.replace("a bound", one, f"{self.operand(one)} + 1")
            self.replace("a conclusion dropped", node, NOTHING)
            self.replace("a false statement", node, "⊥")
        if sign.text == "×" and node.left.kind == "binder":
            self.replace("an exists freed", node.right, NOTHING)

    def at_if(self, node, kind):
        for one in (node.then, node.other):
            self.replace("a condition", node, self.operand(one))
        self.put("two cases turned", node.then.start, node.other.end, self.said(node.other) + self.text[node.then.end:node.other.start] + self.said(node.then))
        for operator, new in self.values(node.condition, "Bool"):
            self.replace(operator, node.condition, new)
        for one, other in ((node.then, node.other), (node.other, node.then)):
            self.replace("a case's value", one, self.said(other))

    def at_apply(self, node, kind):
        explicit = [it for it in node.arguments if it.kind != "implicit"]
        if node.head.kind == "name" and node.head.text in ("Some", "Ok"):
            self.replace("a case's value", node, "None")
        for it in explicit[-1:] if len(explicit) == 1 else explicit:
            self.replace("a call left out", node, self.said(it))
        if node.head.kind == "name" and node.head.text in ("bit_xor", "bit_or") and len(explicit) == 2:
            self.replace("a sign", node, f"({self.said(explicit[0])} + {self.said(explicit[1])})")
        for it in explicit:
            for name, held in self.facts.fields.get(kind.split(" ")[0], {}).items() if kind and self.type_of(it) == kind else ():
                for new in self.kept_fields(node, kind, name, held):
                    self.replace("a field left as it was", node, f"record {self.operand(it)} {{ {name} = {new} }}")
        self.elements(node)
        self.nested(node)
        for i, one in enumerate(explicit):
            for other in explicit[i + 1:]:
                self.put("two arguments turned", one.start, other.end, self.said(other) + self.text[one.end:other.start] + self.said(one))
        for it in explicit:
            for name, held in self.kinds.items():
                if it.kind == "name" and self.kinds.get(it.text) == held and name != it.text:
                    self.replace("a name", it, name)
        last = node.head.text.rpartition(".")[2] if node.head.kind == "name" else ""
        if last.startswith(("Is", "Are", "Has")) or self.is_statement() and last[:1].isupper():
            self.replace("a conclusion dropped", node, NOTHING)
            self.replace("a false statement", node, "⊥")
            if len(explicit) >= 2:
                self.replace("a comparison", node, f"({self.operand(explicit[-2])} ≡ {self.operand(explicit[-1])})")
                if self.type_of(explicit[-2]).startswith("List"):
                    self.replace("a comparison", node, f"({self.operand(explicit[-2])} ≡ [])")
        if node.head.kind == "name" and node.head.text == "codes" and explicit[0].kind == "name":
            for it in dict.fromkeys(one.text for one in self.unit.tree.walk() if one.kind == "name" and one.text.startswith('"')):
                self.replace("a constant", explicit[0], it)
            text = explicit[0].text[1:-1]
            for it in ("", text + "\\n", text.rstrip(" "), text.removesuffix("\\n"), text.replace("\\n", "\\r"), " " if text in (":", ";") else text):
                self.replace("a constant", explicit[0], f'"{it}"')

    def at_name(self, node, kind):
        prefix, point, last = node.text.rpartition(".")
        for it in dict.fromkeys(self.facts.sister_cases.get(last, [])):
            self.replace("a case", node, prefix + point + it)
        if last[:1].islower() and prefix:
            for it in dict.fromkeys(self.facts.sister_fields.get(last, [])):
                self.replace("a name", node, prefix + point + it)
            if prefix and prefix[:1].islower():
                kind = self.field_type(last)
                self.projected(node, prefix, kind)
        for it in self.facts.like(last, self.own if last in self.own else self.facts.types_beside(last)):
            self.replace("a name", node, prefix + point + it)
        for family in OTHER_WORDS:
            if last in family:
                for it in family:
                    self.replace("a name", node, prefix + point + it)

    def projected(self, node, prefix, kind):
        for name, held in self.kinds.items():
            if kind and held == kind:
                self.replace("a name", node, name)

    def at_project(self, node, kind):
        name = node.name
        for it in dict.fromkeys(self.facts.sister_fields.get(name.text[1:], [])):
            self.put("a name", name.start, name.end, f".{it}")

    def at_literal(self, node, kind):
        for operator, new in self.numbers(node):
            self.replace(operator, node, new)

    def at_record(self, node, kind):
        self.field_more(node)
        if node.base is not None:
            self.replace("a statement left out", node, self.said(node.base))
            for it in node.fields:
                if len(node.fields) > 1:
                    self.put("a statement left out", it.start, it.whole, "")
                self.replace("a statement left out", it.value, f"{self.said(node.base)}.{it.name}" if node.base.kind in ("name", "project") else f"{self.operand(node.base)}.{it.name}")
        for it in node.fields:
            for other in node.fields:
                if other is not it and self.field_type(it.name) == self.field_type(other.name) != "":
                    self.replace("a constant", it.value, self.said(other.value))
            for new in self.facts.sister_fields.get(it.name, []) if len(node.fields) == 1 else ():
                self.put("a name", it.start, it.start + len(it.name), new)

    def at_lambda(self, node, kind):
        pass


def spine(node):
    """The binders and terms that stand side by side before an arrow."""
    return [node, *node.parts] if node.kind == "apply" else [node]


def split_arrows(kind):
    """Cuts a type at its arrows."""
    found, depth, one = [], 0, []
    for word in (kind or "").replace("(", " ( ").replace(")", " ) ").replace("{", " { ").replace("}", " } ").split():
        depth += (word in "({") - (word in ")}")
        if word == "→" and depth == 0:
            found.append(tidy(one))
            one = []
        else:
            one.append(word)
    found += [tidy(one)] if one else []
    # several names of one type are several arguments
    return [kind for it in found for kind in (re.sub(r"^\((?:[^\W\d][\w']* )+: (.*)\)$", r"\1", it),) * (len(it.partition(" : ")[0].split()) if re.match(r"\((?:[^\W\d][\w']* )+: ", it) else 1)]


def tidy(words):
    text = " ".join(words).replace("( ", "(").replace(" )", ")").replace("{ ", "{").replace(" }", "}")
    return text


def groups(patterns):
    """The patterns of a clause, each the texts of its tokens."""
    found, depth = [], 0
    for it in patterns:
        if depth:
            found[-1].append(it.text)
        else:
            found.append([it.text])
        depth += (it.text in ("(", "{")) - (it.text in (")", "}"))
    return [it for it in found if it[0] != "{"]
