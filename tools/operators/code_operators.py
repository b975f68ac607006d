"""The operators over code: each makes of one place of a body another text, which means something else."""
import re

from .code import Node
from .code_statements import Statements
from .code_texts import Texts
from .code_values import ARITHMETIC, COMPARISONS
from .facts import INTEGERS, plain
from .tokens import tokens

OTHER_SIGNS = {
    "<": ("<=", ">=", ">"), "<=": ("<", ">", ">="), ">": (">=", "<=", "<"), ">=": (">", "<", "<="), "==": ("!=", "<=", ">=", "<", ">"), "!=": ("==", "<", ">"),
    "+": ("-",), "-": ("+",), "*": ("/", "+"), "/": ("*", "%"), "%": ("/",), "&": ("|", "^"), "|": ("&", "^", "+"), "^": ("|", "&"), "<<": (">>",), ">>": ("<<",),
    "&&": ("||",), "||": ("&&",), "+=": ("-=", "="), "-=": ("+=", "="), "*=": ("=",), "|=": ("&=", "="), "&=": ("|=", "="), "^=": ("|=",), "..": ("..=",), "..=": ("..",),
}
OTHER_METHODS = [
    ("saturating_add", "wrapping_add", "saturating_sub"), ("saturating_sub", "wrapping_sub", "saturating_add"), ("wrapping_add", "wrapping_sub"), ("wrapping_add", "saturating_add"), ("min", "max"), ("first", "last"),
    ("is_some", "is_none"), ("is_ok", "is_err"), ("any", "all"), ("to_le_bytes", "to_be_bytes"), ("from_le_bytes", "from_be_bytes"),
    ("split_first", "split_last"), ("starts_with", "ends_with"), ("checked_add", "checked_sub"), ("take", "skip"), ("iter", "iter_rev"),
    ("pop_front", "pop_back"), ("push_front", "push_back"), ("to_ascii_uppercase", "to_ascii_lowercase"), ("wrapping_neg", "reverse_bits"), ("strip_prefix", "strip_suffix"),
]

# characters that part others
SEPARATORS = ("' '", r"'\t'", "':'", "';'", r"'\n'", r"'\r'")
# what has no other value, but its parts may have
WITHOUT_VALUES = ("block", "if", "match", "statement", "let", "ghost", "arm", "named", "rest", "pattern", "if-let", "assign", "leave", "range", "closure", "for", "while", "loop")


class Maker(Statements, Texts):
    """Makes the edits of one unit: for each its operator, the places that it replaces, and the text there."""

    # ---- each kind of place

    def make(self):
        tree, unit = self.unit.tree, self.unit
        self.more = self.more_statements()
        self.visit(tree, plain(unit.returns), None)
        if tree.kind == "block":
            self.bodies(tree)
        return self.found

    def visit(self, node, kind, above):
        """Makes the edits at a node, of which a type is wanted, and of its parts."""
        own = self.type_of(node)
        kind = own if own not in ("", "int") and node.kind in ("path", "field") else kind or own
        if above is not None and above.kind == "array" and len(above.parts) > 16 and node not in (above.parts[0], above.parts[1], above.parts[-1]):
            return
        how = getattr(self, "at_" + node.kind.replace("-", "_"), None)
        is_lent = above is not None and above.kind == "unary" and above.sign.text in ("*", "&", "&mut")
        is_set = above is not None and above.kind == "assign" and node is above.left
        if node.kind not in WITHOUT_VALUES and not is_lent and not is_set:
            for operator, new in self.values(node, kind):
                if not (node.kind == "binary" and node.sign.text in ARITHMETIC and new in ("0", "1")):
                    self.replace(operator, node, new)
            self.otherwise(node, kind)
        if how:
            how(node, kind)
        wanted = getattr(self, "wanted_" + node.kind.replace("-", "_"), None)
        for it in node.parts:
            if isinstance(it, tuple):
                continue
            self.visit(it, wanted(node, it, kind) if wanted else "", node)

    def wanted_block(self, node, part, kind):
        return kind if part is node.tail else ""

    def wanted_if(self, node, part, kind):
        return "bool" if part is node.condition else kind

    def wanted_while(self, node, part, kind):
        return "bool" if part is node.condition else ""

    def wanted_match(self, node, part, kind):
        return kind

    def wanted_arm(self, node, part, kind):
        return "bool" if part is node.guard else kind

    def wanted_binary(self, node, part, kind):
        if node.sign.text in ("&&", "||"):
            return "bool"
        return self.type_of(node.left) or self.type_of(node.right) or kind if node.sign.text in ARITHMETIC + COMPARISONS else ""

    def wanted_group(self, node, part, kind):
        return kind

    def wanted_unary(self, node, part, kind):
        return "bool" if node.sign.text == "!" and kind == "bool" else kind

    def wanted_let(self, node, part, kind):
        return plain(node.type) if part is node.value else ""

    def wanted_leave(self, node, part, kind):
        return plain(self.unit.returns) if node.word == "return" else ""

    def wanted_assign(self, node, part, kind):
        return self.type_of(node.left) if part is node.right else ""

    def wanted_named(self, node, part, kind):
        return kind

    def wanted_struct(self, node, part, kind):
        return self.facts.field_type(self.type_of_struct(node), part.name)

    def wanted_call(self, node, part, kind):
        one = self.facts.call(node.callee.text, self.file) if node.callee.kind == "path" else None
        if one and part in node.arguments:
            kinds = list(one.params.values())
            place = node.arguments.index(part) - (len(node.arguments) - len(kinds))
            return plain(kinds[place]) if 0 <= place < len(kinds) else ""
        if node.callee.kind != "path" or part not in node.arguments:
            return ""
        if node.callee.text == "Some" and kind.startswith("Option<"):
            return kind[len("Option<"):-1]
        if node.callee.text in ("Ok", "Err") and kind.startswith("Result<"):
            taken, _, fault = kind[len("Result<"):-1].rpartition(",")
            return taken if node.callee.text == "Ok" else fault
        enum, _, case = node.callee.text.rpartition("::")
        held = self.facts.payload(enum.split("::")[-1] if enum != "Self" else self.unit.owner, case)
        place = node.arguments.index(part)
        return held[place] if place < len(held) else ""

    def wanted_method(self, node, part, kind):
        one = self.facts.method(node.name.text, self.type_of(node.receiver))
        if node.name.text == "unwrap_or" and part in node.arguments:
            return kind or self.type_of(node.receiver).removeprefix("Option<").removesuffix(">")
        if one and part in node.arguments:
            kinds = list(one.params.values())
            place = node.arguments.index(part)
            return plain(kinds[place]) if place < len(kinds) else ""
        return ""

    # ---- edits by the kind of node

    def at_binary(self, node, kind):
        sign = node.sign
        for other in OTHER_SIGNS.get(sign.text, ()):
            self.put("a comparison" if sign.text in COMPARISONS else "a sign", sign.start, sign.end, other)
        if sign.text == "==" and node.right.kind == "literal" and node.right.text == "0":
            self.replace("a bound", node, f"{self.said(node.left)} < 2")
        if sign.text in COMPARISONS:
            return
        self.replace("an operand left out", node, self.said(node.left))
        self.replace("an operand left out", node, self.said(node.right))
        if sign.text in ("-", "/", "%", "<<", ">>", "*", "+"):
            self.exchange("two operands turned", node.left, node.right)

    def at_assign(self, node, kind):
        for other in OTHER_SIGNS.get(node.sign.text, ()):
            self.put("a sign", node.sign.start, node.sign.end, other)
        if node.sign.text != "=":
            return
        kind = self.type_of(node.left)
        for operator, new in self.values(node.right, kind):
            self.replace(operator, node.right, new)
        for other, sign in (("bool", "|="), ("bool", "&="), ("u8", "|="), ("u16", "+="), ("u32", "+="), ("u64", "+="), ("usize", "+=")):
            if kind == other:
                self.put("a sign", node.sign.start, node.sign.end, sign)
        if kind in INTEGERS:
            self.replace("a bound", node.right, f"{self.operand(node.left)}.max({self.said(node.right)})")
            self.replace("a bound", node.right, f"{self.operand(node.left)}.min({self.said(node.right)})")
        for other, sign in (("bool", "||"), ("bool", "&&")):
            if kind == other:
                self.replace("a sign", node.right, f"{self.operand(node.right)} {sign} {self.said(node.left)}")

    def at_unary(self, node, kind):
        if node.sign.text in ("!", "-"):
            self.replace("a sign", node, self.said(node.inner))
        if node.sign.text == "&":
            self.slices(node)

    def slices(self, node):
        inner = node.inner
        if inner.kind == "index" and inner.index.kind == "range":
            self.replace("a bound", node, f"&{self.said(inner.receiver)}")
            self.replace("a constant", node, "&[]")

    def at_range(self, node, kind):
        low, high = node.low, node.high
        for other in OTHER_SIGNS[node.sign.text]:
            self.put("a bound", node.sign.start, node.sign.end, other)
        if low:
            self.replace("a bound", low, f"{self.operand(low)} + 1" if low.kind == "literal" else f"{self.operand(low)}.saturating_add(1)")
            self.put("a bound", low.start, low.end, "0" if high else "0")
            if not high:
                self.replace("a bound", node, f"..{self.said(low)}")
        if high:
            self.replace("a bound", high, f"{self.operand(high)} - 1" if high.kind == "literal" else f"{self.operand(high)}.saturating_sub(1)")
            self.replace("a constant", high, "0")
            self.replace("a constant", high, f"{self.operand(high)} / 2")
            if not low:
                self.replace("a bound", node, f"{self.said(high)}..")
                self.replace("a bound", high, f"{self.operand(high)} + 1" if high.kind == "literal" else f"{self.operand(high)}.saturating_add(1)")

    def at_index(self, node, kind):
        if node.index.kind != "range":
            ends = [f"{self.said(node.receiver)}.len() - 1"]
            for new in [f"{self.operand(node.index)}.saturating_add(1)", f"{self.operand(node.index)}.saturating_sub(1)", "0", f"{self.operand(node.index)} ^ 1", *ends] if node.index.kind != "literal" else ends:
                self.replace("a bound", node.index, new)

    def at_literal(self, node, kind):
        self.other_literals(node)
        if node.is_number and kind not in INTEGERS and kind != "int":
            for operator, new in self.numbers(node, node.text):
                self.replace(operator, node, new)
        if node.text.lstrip("b") in SEPARATORS:
            for it in SEPARATORS:
                self.replace("a constant", node, "b" * node.text.startswith("b") + it)
        if node.is_number:
            for it in self.beside(node):
                self.replace("a constant", node, it)
        if node.text.startswith(('"', 'b"')):
            self.replace("a constant", node, '""' if node.text[0] == '"' else 'b""')
            names = list(re.finditer(r"\{[^{}]*\}", node.text))
            for one, other in zip(names, names[1:]):
                turned = node.text[:one.start()] + other[0] + node.text[one.end():other.start()] + one[0] + node.text[other.end():]
                self.replace("two arguments turned", node, turned)
            mark, text = node.text.partition('"')[0], node.text.partition('"')[2][:-1]
            for other in (text.lower(), text.upper(), text.rstrip(" "), text.removesuffix("\\n"), text + "\\n", text.lstrip(" ")):
                if "{" not in text or other.strip() == text.strip():
                    self.replace("a constant", node, f'{mark}"{other}"')

    def beside(self, node):
        """The other numbers of the body, and those that the file's other bodies set or answer."""
        own = [it.text for it in self.unit.tree.walk() if it.kind == "literal" and it.is_number]
        others = [it.right.text for unit in self.file.units if unit.tree is not None for it in unit.tree.walk() if it.kind == "assign" and it.right.kind == "literal" and it.right.is_number]
        return [it for it in dict.fromkeys([*own[:12], *others[:12]]) if it != node.text]

    def at_path(self, node, kind):
        parts = node.text.split("::")
        if len(parts) > 1 and parts[-1][:1].isupper():
            for it in self.facts.other_variants(parts[-2] if parts[-2] != "Self" else self.unit.owner, parts[-1]):
                self.replace("a case", node, "::".join([*parts[:-1], it]))

    def at_field(self, node, kind):
        for it in self.facts.sisters(self.type_of(node.receiver), node.name.text):
            self.put("a name", node.name.start, node.name.end, it)

    def at_method(self, node, kind):
        name = node.name
        for family in OTHER_METHODS:
            if name.text in family:
                for it in family:
                    self.put("a name", name.start, name.end, it)
        self.replace("a call left out", node, self.said(node.receiver))
        self.mapped(node, kind)
        if name.text == "is_empty":
            self.replace("a bound", node, f"{self.said(node.receiver)}.len() < 2")
        found = self.facts.methods.get(name.text, [])
        for it in dict.fromkeys(other for one in found for other in self.facts.like(one)):
            self.put("a name", name.start, name.end, it)
        self.turned(node.arguments)

    def at_call(self, node, kind):
        text = node.callee.text if node.callee.kind == "path" else ""
        if text:
            last = text.rpartition("::")[2]
            for it in dict.fromkeys(name for one in self.facts.calls(text) for name in self.facts.like(one)):
                self.put("a name", node.callee.end - len(last), node.callee.end, it)
        for it in node.arguments:
            if len(node.arguments) == 1 or self.type_of(it) == (kind or self.type_of(node)) != "":
                self.replace("a call left out", node, self.said(it))
        self.mapped(node, kind)
        if text == "Some":
            self.replace("a case's value", node, "None")
        if text.endswith(("::read_u16", "::read_u32")):
            self.replace("a sign", node, f"{self.said(node)}.swap_bytes()")
        self.turned(node.arguments)

    def mapped(self, node, kind):
        """Another value within an answer, or another fault."""
        kind = self.type_of(node) or kind
        if kind.startswith("Option<"):
            for value in self.simple(kind[len("Option<"):-1], 1):
                self.replace("a case's value", node, f"{self.said(node)}.map(|_| {value})")
            self.replace("a case's value", node, f"{self.said(node)}.filter(|_| false)")
        if kind.startswith("Result<"):
            fault = kind[:-1].rpartition(",")[2]
            for value in self.facts.unit_variants(fault):
                self.replace("a case's value", node, f"{self.said(node)}.map_err(|_| {fault}::{value})")

    def at_macro(self, node, kind):
        self.turned(node.arguments)
        words = [it for it in tokens(self.text, at=node.start, end=node.end) if it.kind == "name"][1:]
        for one, other in zip(words, words[1:]):
            if self.text[one.end:other.start].strip() in ("", ","):
                self.put("two arguments turned", one.start, other.end, other.text + self.text[one.end:other.start] + one.text)
        for one in words:
            for it in dict.fromkeys(name for found in self.facts.calls(one.text) for name in self.facts.like(found)):
                self.put("a name", one.start, one.end, it)
            for it in self.facts.sisters("", one.text) if not node.arguments else ():
                self.put("a name", one.start, one.end, it)

    def at_tuple(self, node, kind):
        self.turned(node.parts)

    def at_array(self, node, kind):
        if not node.repeats:
            self.turned(node.parts[:6])
        said = self.said(node)
        if said.startswith("[") and len(node.parts) < 9 and all(it.kind in ("path", "field", "literal", "index") for it in node.parts):
            for i, it in enumerate(node.parts):
                self.replace("a constant", it, "0")
                for other in node.parts:
                    if other is not it and self.said(it) != self.said(other):
                        self.replace("a constant", it, self.said(other))

    def turned(self, arguments):
        """Each two arguments turned, and one in place of another."""
        for one in arguments[:6]:
            for other in arguments[:6]:
                if one is not other and one.kind == other.kind == "path":
                    self.replace("a constant", one, self.said(other))
        for i, one in enumerate(arguments[:8]):
            for other in arguments[i + 1:8]:
                self.exchange("two arguments turned", one, other)

    def exchange(self, operator, one, other):
        between = self.text[one.end:other.start]
        self.put(operator, one.start, other.end, self.said(other) + between + self.said(one))

    def at_struct(self, node, kind):
        short = [it for it in node.fields if it.value is None and it.kind == "named"]
        for one, other in zip(short, short[1:]):
            self.put("two arguments turned", one.start, other.end, f"{one.name}: {other.name}{self.text[one.end:other.start]}{other.name}: {one.name}")
        for it in node.fields:
            wanted = self.facts.field_type(self.type_of_struct(node), it.name)
            if it.value is None and it.kind == "named":
                whole = Node("path", it.start, it.end, text=it.name)
                for operator, new in self.values(whole, wanted):
                    self.put(operator, it.start, it.end, f"{it.name}: {new}")
            others = [one for one in node.fields if one is not it and self.facts.field_type(self.type_of_struct(node), one.name) == wanted != ""]
            for one in others:
                if it.value is not None:
                    self.replace("a constant", it.value, self.said(one.value) if one.value is not None else one.name)
                elif it.kind == "named":
                    self.put("a constant", it.start, it.end, f"{it.name}: {self.said(one.value) if one.value is not None else one.name}")

    def at_block(self, node, kind):
        self.too_much(node)
        steps = [it for it in node.parts if it.kind == "statement"]
        for one, other in zip(steps, steps[1:]):
            if not self.text[one.end:other.start].strip():
                self.exchange("two statements turned", one, other)
        for it in node.parts:
            if it.kind == "statement":
                inner = it.inner
                if inner.kind != "leave":
                    self.replace("a statement left out", it, "")
                if inner.kind in ("method", "call", "try", "macro"):
                    for lost in self.lost(inner):
                        self.put("what is written is lost", it.end, it.end, f" {lost}")
                        self.replace("what is written is lost", it, lost)
            if it.kind == "let" and it.names == ["_"]:
                self.replace("a statement twice", it, f"{self.said(it)} {self.said(it)}")
            if it.kind == "statement":
                if inner.kind in ("method", "call", "assign", "try", "macro"):
                    self.replace("a statement twice", it, f"{self.said(it)} {self.said(it)}" if self.said(it).endswith(";") else self.said(it))
                if inner.kind == "leave" and inner.word != "return":
                    self.replace("a statement left out", it, "")
            elif it is node.tail and it.kind in ("method", "call", "assign", "if", "match", "for", "while") and not kind:
                self.replace("a statement left out", it, "")

    def at_if(self, node, kind):
        if node.other is not None and node.other.kind == "block":
            self.exchange("two cases turned", node.then, node.other)
        if node.condition.kind == "if-let":
            return
        said = self.said(node.condition)
        self.replace("a sign", node.condition, f"!({said})")

    def at_if_let(self, node, kind):
        self.patterns(node.pattern, [])

    def at_matches(self, node, kind):
        self.patterns(node.pattern, [])

    def at_match(self, node, kind):
        for i, arm in enumerate(node.arms):
            others = [it for it in node.arms if it is not arm]
            for it in others:
                if self.said(it.value) != self.said(arm.value):
                    # a block needs no comma after it, and what takes its place does
                    comma = "," if it.value.kind != "block" and not self.said(arm).endswith(",") else ""
                    self.replace("a case's value", arm.value, self.said(it.value) + comma)
            for lost in self.lost(arm.value) if not kind else ():
                self.replace("what is written is lost", arm.value, lost.rstrip(";"))
            if not kind and self.said(arm.value) != "{}":
                self.replace("a statement left out", arm.value, "{}")
            self.patterns(arm.pattern, [it.pattern for it in node.arms[i + 1:]])
            if arm.guard is not None:
                self.put("a condition", arm.pattern.end, arm.guard.end, "")
            for it in node.arms:
                if it is not arm:
                    self.moved(arm, it)
            if len(arm.pattern.alternatives) == 1:
                self.replace("a case left out", arm, "")
            else:
                self.apart(arm, list(dict.fromkeys([*(self.said(one.value) for one in others), *(new for _, new in self.values(arm.value, kind)), *([] if kind else ["{}"])])))
            if "(" in self.said(arm.pattern) and len(arm.pattern.alternatives) == 1 and kind:
                for new in self.simple(kind) or (["0"] if kind in INTEGERS else []):
                    self.put("a case's value", arm.start, arm.end, re.sub(r"\b[a-z]\w*\b(?!\s*[:(])", "_", self.said(arm.pattern)) + f" => {new},")

    def apart(self, arm, values):
        """One of several cases, with another value."""
        for i, (start, end) in enumerate(arm.pattern.alternatives):
            rest = [self.text[one:to] for j, (one, to) in enumerate(arm.pattern.alternatives) if j != i]
            for new in values:
                self.put("a case's value", arm.start, arm.end, f"{self.text[start:end]} => {new}, {' | '.join(rest)}{self.text[arm.pattern.end:arm.end]}")

    def moved(self, arm, other):
        """A case that is handled as another is."""
        first, last = (arm, other) if arm.start < other.start else (other, arm)
        for i, (start, end) in enumerate(arm.pattern.alternatives):
            if self.text[start:end] == "_" or binds(self.text[start:end]) or binds(self.said(other.pattern)):
                continue
            rest = [self.text[one:to] for j, (one, to) in enumerate(arm.pattern.alternatives) if j != i]
            left = " | ".join(rest) + self.text[arm.pattern.end:arm.end] if rest else ""
            more = self.said(other.pattern) + (" | " + self.text[start:end]) + self.text[other.pattern.end:other.end]
            texts = (left, more) if arm is first else (more, left)
            self.put("a case moved", first.start, last.end, texts[0] + self.text[first.end:last.start] + texts[1])

    def patterns(self, pattern, others):
        """Alternatives left out, and those of later cases taken along."""
        found = pattern.alternatives
        texts = [self.text[one:end] for one, end in found]
        if len(texts) > 1:
            for i in range(len(texts)):
                self.replace("a case left out", pattern, " | ".join(texts[:i] + texts[i + 1:]))
        for it in others:
            for one, end in it.alternatives:
                if self.text[one:end] != "_" and not binds(self.text[one:end]) and not binds(self.said(pattern)):
                    self.replace("a case more", pattern, " | ".join([*texts, self.text[one:end]]))
        self.cases(pattern, texts)
        for (start, end), text in zip(found, texts):
            if text.startswith("[") and text.endswith("]") and ".." not in text and len(text) > 2:
                self.put("a case more", start, end, text[:-1] + ", ..]")

    def cases(self, pattern, texts):
        """Another case of the enum in a pattern, and one more."""
        for (start, end), text in zip(pattern.alternatives, texts):
            enum, _, case = text.partition("(")[0].partition("{")[0].strip().rpartition("::")
            enum = enum.split("::")[-1] if enum != "Self" else self.unit.owner
            for it in self.facts.other_variants(enum, case):
                other = text.replace(f"::{case}", f"::{it}", 1)
                self.put("a case", start, end, other)
                if "(" not in text and "{" not in text:
                    self.replace("a case more", pattern, " | ".join([*texts, other]))
            if text.isdigit() or text.startswith("0x") and text[2:].isalnum():
                value = int(text, 0)
                for it in (value + 1, value - 1):
                    if it >= 0:
                        one = f"0x{it:02x}" if "x" in text else str(it)
                        self.put("a constant", start, end, one)
                        if one not in texts:
                            self.replace("a case more", pattern, " | ".join([*texts, one]))

    def at_let(self, node, kind):
        if node.value is not None and node.value.kind in ("method", "call") and len([it for it in node.names if it.isidentifier()]) == 1:
            for value in self.simple(self.type_of(node.value), 1):
                self.put("a result passed over", node.start, node.end, f"let _ = {self.said(node.value)}; {self.text[node.start:node.value.start]}{value}{self.text[node.value.end:node.end]}")
        names = [it for it in tokens(self.text, at=node.start, end=node.parts[0].end) if it.kind == "name" and it.text not in ("let", "mut")]
        for one, other in zip(names, names[1:]) if node.names[:1] in (["("], ["["]) else ():
            self.put("two names turned", one.start, other.end, other.text + self.text[one.end:other.start] + one.text)

    def at_while(self, node, kind):
        self.put("a loop left", node.body.end - 1, node.body.end - 1, "break; ")

    def at_for(self, node, kind):
        self.put("a loop left", node.body.end - 1, node.body.end - 1, "break; ")
        if node.over.kind in ("path", "field"):
            self.replace("a bound", node.over, f"&{self.said(node.over)}[1..]")
            self.replace("a bound", node.over, f"&{self.said(node.over)}[..1]")

    def at_leave(self, node, kind):
        if node.word == "return" and node.inner is not None and self.unit.tree.kind == "block" and self.unit.tree.tail is not None:
            self.replace("a case's value", node.inner, self.said(self.unit.tree.tail))
        if node.word == "return" and node.inner is not None:
            for operator, new in self.values(node.inner, plain(self.unit.returns)):
                self.replace(operator, node.inner, new)


def binds(pattern):
    """Whether a pattern binds names: then it has no alternatives that don't."""
    return any(it not in ("ref", "mut", "true", "false", "crate", "super", "_") for it in re.findall(r"(?<![:\w$])[a-z]\w*\b(?!\s*(?:::|\(|:))", re.sub(r"b?['\"][^'\"]*['\"]|0x\w+", "", pattern)))
