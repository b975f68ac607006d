"""Brings bodies and terms that mean the same, and differ in how they are written alone, to one form: so an edit is known again."""
import re
from collections import Counter

from . import code, definitions
from .tokens import CODE, DEFINITION, tokens

UNIT = "{}"
TURNED = {">": "<", ">=": "<="}
CONTRARY = {"==": "!=", "!=": "==", "<": ">=", ">=": "<", ">": "<=", "<=": ">"}
# methods that only read
READS = ("len", "is_empty", "records", "entries", "as_slice", "bytes", "get", "failed", "is_silent", "is_closed", "iter", "is_some", "is_none", "is_ok", "is_err", "first", "last")
WIDTH = re.compile(r"(?<=[0-9a-fA-F])(?:[ui](?:8|16|32|64)|[ui]size)$")
NAME = re.compile(r"[\w.*&()\[\] ]+")


def number(text):
    try:
        return str(int(WIDTH.sub("", text.replace("_", "")), 0))
    except ValueError:
        return text


class Form:
    """Writes the tree of a body in its one form."""

    def __init__(self, text, pattern):
        self.text, self.pattern = text, pattern

    def of(self, node):
        how = getattr(self, "of_" + node.kind.replace("-", "_"), None)
        return how(node) if how else self.plain(node)

    def plain(self, node):
        """The tokens of a node, its parts in their forms."""
        found, at = [], node.start
        for it in sorted((one for one in node.parts if not isinstance(one, tuple)), key=lambda one: one.start):
            found += self.words(at, it.start)
            found.append(self.of(it))
            at = it.end
        found += self.words(at, node.end)
        return " ".join(it for it in found if it)

    def words(self, start, end):
        return [self.word(it) for it in tokens(self.text, self.pattern, start, end)]

    def word(self, it):
        if it.kind == "number":
            return number(it.text)
        if re.fullmatch(r"b'.'", it.text):
            return str(ord(it.text[2]))
        return it.text


class CodeForm(Form):
    # constants by their values, and the functions and methods that change nothing
    known, reads = {}, frozenset()

    def of_block(self, node):
        found = self.flat(node)
        return found[0] if len(found) == 1 and node.tail is not None and node.tail.kind not in ("leave",) else "{ " + " ; ".join(found) + " }" if found else UNIT

    def flat(self, node):
        """What a block does, in order, without what does nothing."""
        found = []
        for it in node.parts:
            found += self.steps(it)
        if found and found[-1].startswith("return ") and node.start == getattr(self, "root", -1):
            found[-1] = found[-1].removeprefix("return ")
        return found

    def steps(self, it):
        if it.kind == "statement":
            it = it.inner
        if it.kind == "block":
            return self.flat(it)
        if it.kind == "let" and it.names == ["_"] and self.is_pure(it.value):
            return []
        if it.kind == "call" and self.text[it.callee.start:it.callee.end] == "drop":
            return []
        if it.kind == "if" and self.of(it.condition) in ("true", "false"):
            chosen = it.then if self.of(it.condition) == "true" else it.other
            return [] if chosen is None else self.flat(chosen) if chosen.kind == "block" else self.steps(chosen)
        one = self.of(it)
        return [one] if one and one != UNIT else []

    def is_pure(self, node):
        return node is not None and all(self.only_reads(it) for it in node.walk())

    def only_reads(self, node):
        if node.kind == "method":
            return node.name.text in READS + ("unwrap",) and not node.arguments or node.name.text in self.reads
        if node.kind == "call":
            name = self.text[node.callee.start:node.callee.end]
            return name.endswith("::new") or name.rpartition("::")[2] in self.reads
        return node.kind in ("path", "field", "tuple", "group", "literal", "index", "range", "binary", "cast", "matches", "pattern") or node.kind == "unary" and node.sign.text != "&mut"

    def of_let(self, node):
        said = self.plain(node).removesuffix(" ;")
        return re.sub(r"^(let (?:mut )?\w+) : [^=]*= ", r"\1 = ", said)

    def of_assign(self, node):
        left, right = self.of(node.left), self.of(node.right)
        if node.sign.text == "=" and left == right or node.sign.text in ("+=", "-=", "|=", "^=") and right == "0":
            return ""
        for sign in ("+", "-", "|", "&", "^", "||", "&&"):
            if node.sign.text == "=" and right.startswith(f"{left} {sign} ") and right.count(f" {sign} ") == 1:
                return f"{left} {sign[0]}= {right[len(left) + len(sign) + 2:]}"
            if node.sign.text == "=" and right.endswith(f" {sign} {left}") and sign in ("+", "|", "||", "&&", "&", "^") and right.count(f" {sign} ") == 1:
                return f"{left} {sign[0]}= {right[:-len(left) - len(sign) - 2]}"
        return f"{left} {node.sign.text} {right}"

    def of_group(self, node):
        inner = self.of(node.parts[0])
        return inner if node.parts[0].kind not in ("binary", "cast", "unary", "range", "closure") else f"( {inner} )"

    def bare(self, node):
        while node.kind == "group" or node.kind == "block" and len(node.parts) == 1 and node.tail is not None:
            node = node.parts[0] if node.kind == "group" else node.tail
        return node

    def of_tuple(self, node):
        return UNIT if not node.parts else "( " + " , ".join(self.open(it) for it in node.parts) + " )"

    def open(self, node):
        return self.of(self.bare(node))

    def of_binary(self, node):
        sign = node.sign.text
        left, right = self.side(node.left, sign), self.side(node.right, sign, True)
        if sign in TURNED:
            left, right, sign = right, left, TURNED[sign]
        if sign in ("&&", "||"):
            none, all_of = ("true", "false") if sign == "&&" else ("false", "true")
            if all_of in (left, right):
                return all_of
            if none in (left, right):
                return right if left == none else left
            found = self.operands(node.left, sign) + self.operands(node.right, sign)
            return f" {sign} ".join(sorted(found) if self.is_pure(node) else found)
        if sign in ("<", "<=") and left == right:
            return "true" if sign == "<=" else "false"
        if sign in ("<", "<=", "==", "!=") and left.isdigit() and right.isdigit():
            one, other = int(left), int(right)
            return "true" if {"<": one < other, "<=": one <= other, "==": one == other, "!=": one != other}[sign] else "false"
        if sign in ("-", "^") and left == right:
            return "0"
        if sign in ("+", "-", "*") and left.isdigit() and right.isdigit() and (sign != "-" or int(left) >= int(right)):
            return str({"+": int(left) + int(right), "-": int(left) - int(right), "*": int(left) * int(right)}[sign])
        if sign in ("+", "-", "|", "^", "<<", ">>") and right == "0":
            return left
        if sign in ("+", "|", "^") and left == "0":
            return right
        if sign == "<=" and right.isdigit():
            sign, right = "<", str(int(right) + 1)
        if sign == "<=" and left.isdigit() and left != "0":
            sign, left = "<", str(int(left) - 1)
        if sign == "<" and right == "1" or sign == "!=" and right == "0":
            sign = "==" if sign == "<" else sign
            right = "0"
        if sign == "<" and left == "0":
            left, sign, right = right, "!=", "0"
        if sign in ("==", "!=") and left > right:
            left, right = right, left
        return f"{left} {sign} {right}"

    def operands(self, node, sign):
        """What a chain of one sign joins, in which the order doesn't tell."""
        bare = self.bare(node)
        if bare.kind == "binary" and bare.sign.text == sign:
            return self.operands(bare.left, sign) + self.operands(bare.right, sign)
        return [self.side(node, sign)]

    def side(self, node, sign, is_right=False):
        """A side of a sign, in brackets where they say something."""
        bare = self.bare(node)
        one = self.of(bare)
        if bare.kind == "binary":
            level = code.LEVEL[bare.sign.text]
            if level < code.LEVEL[sign] or level == code.LEVEL[sign] and is_right and sign not in ("&&", "||", "+"):
                return f"( {one} )"
        return f"( {one} )" if bare.kind in ("range", "closure") else one

    def of_unary(self, node):
        inner = self.bare(node.inner)
        sign = node.sign.text
        if sign == "!":
            if inner.kind == "unary" and inner.sign.text == "!":
                return self.open(inner.inner)
            one = self.of(inner)
            if one in ("true", "false"):
                return "false" if one == "true" else "true"
            if inner.kind == "binary" and inner.sign.text in CONTRARY:
                turned = code.Node("binary", inner.start, inner.end, inner.parts, left=inner.left, right=inner.right, sign=inner.sign._replace(text=CONTRARY[inner.sign.text]))
                return self.of(turned)
            if one.endswith(" . len ( ) == 0"):
                return one.replace(" == 0", " != 0")
            return f"! {one}" if inner.kind != "binary" else f"! ( {one} )"
        if sign in ("&", "&mut") and inner.kind == "index" and inner.index.kind == "range" and inner.index.high is not None and self.of(inner.index.high) == "0":
            return "& [ ]"
        if sign == "&" and inner.kind == "unary" and inner.sign.text == "*":
            return self.of(inner.inner)
        one = self.of(inner)
        return f"{sign} ( {one} )" if inner.kind in ("binary", "range") else f"{sign} {one}"

    def of_range(self, node):
        low = self.open(node.low) if node.low is not None else ""
        low = "" if low == "0" else low
        return f"{low} {node.sign.text} {self.open(node.high) if node.high is not None else ''}".strip()

    def of_cast(self, node):
        inner = self.bare(node.inner)
        kind = self.text[node.type_at:node.end]
        return self.of(inner) if inner.kind == "literal" else f"{kind} :: from ( {self.of(inner)} )"

    def of_path(self, node):
        if node.text in self.known:
            return str(self.known[node.text])
        parts = [it for it in node.text.split("::") if it not in ("crate", "super")]
        return " :: ".join(parts[-2:]) if parts[-1][:1].isupper() or len(parts) > 1 and parts[-2][:1].isupper() else parts[-1] if node.text.startswith(("crate", "super")) else " :: ".join(parts[-2:])

    def of_literal(self, node):
        if node.text == 'b""':
            return "& [ ]"
        return number(node.text) if node.is_number else str(ord(node.text[2])) if re.fullmatch(r"b'.'", node.text) else node.text

    def of_method(self, node):
        bare = self.bare(node.receiver)
        one = self.of(bare)
        if bare.kind in ("binary", "unary", "range", "closure", "cast") and not one.startswith(("usize :: from", "u")):
            one = f"( {one} )"
        if node.name.text == "is_empty":
            return f"{one} . len ( ) == 0"
        if node.name.text in ("saturating_sub", "saturating_add") and len(node.arguments) == 1 and self.of(node.arguments[0]) == "1":
            step = -1 if node.name.text == "saturating_sub" else 1
            return str(max(0, int(one) + step)) if one.isdigit() else f"{one} {'-' if step < 0 else '+'} 1"
        said = " , ".join(self.open(it) for it in node.arguments)
        if node.name.text in ("min", "max") and len(node.arguments) == 1 and said < one:
            one, said = said, one
        return f"{one} . {node.name.text} ( {said} )".replace("(  )", "( )")

    def of_call(self, node):
        said = " , ".join(self.open(it) for it in node.arguments)
        return f"{self.of(node.callee)} ( {said} )".replace("(  )", "( )")

    def of_array(self, node):
        return self.plain(node).replace(", ]", "]")

    def of_if(self, node):
        condition = self.open(node.condition) if node.condition.kind != "if-let" else self.of(node.condition)
        if condition in ("true", "false"):
            chosen = node.then if condition == "true" else node.other
            return UNIT if chosen is None else self.of(chosen)
        then, other = self.of(node.then), self.of(node.other) if node.other is not None else UNIT
        if other == UNIT and then == UNIT:
            return UNIT
        if then == "true" and other == "false":
            return condition
        return f"if {condition} then {then}" + (f" else {other}" if other != UNIT else "")

    def of_match(self, node):
        arms = [one for it in node.arms for one in self.of_each_case(it)]
        # cases that exclude each other may stand in any order, but for one that takes all others
        last = [arms.pop()] if arms and re.match(r"[a-z_]\w* (=>|if)", arms[-1]) else []
        heads = [re.match(r"[A-Z$]\w*(?: :: \w+)*|\d+(?= =>)|\"[^\"]*\"(?= =>)", it) for it in arms]
        if all(heads) and len({it[0] for it in heads}) == len(arms) and not any(" if " in it.partition(" => ")[0] for it in arms):
            arms.sort()
        arms += last
        return f"match {self.open(node.value)} {{ {' '.join(arms)} }}"

    def of_each_case(self, node):
        """A case of several alternatives as so many cases."""
        guard = f" if {self.open(node.guard)}" if node.guard is not None and self.open(node.guard) != "true" else ""
        value = self.arm_value(node.value)
        used = set((guard + " " + value).split(" "))
        return [f"{self.without_unused(it, used)}{guard} => {value} ," for it in self.of_pattern(node.pattern).split(" | ")]

    def without_unused(self, pattern, used):
        """A pattern in which names that the case doesn't use don't tell."""
        words = pattern.split(" ")
        for i, it in enumerate(words):
            after = words[i + 1] if i + 1 < len(words) else ""
            if re.fullmatch(r"[a-z]\w*", it) and it not in used and len(words) > 1 and after not in ("(", "::", ":", "{") and it not in ("true", "false", "mut", "ref"):
                words[i] = "_"
        return " ".join(words)

    def arm_value(self, node):
        return self.open(node) or UNIT

    def of_pattern(self, node):
        texts = [" ".join(self.words(one, end)) for one, end in node.alternatives]
        texts = [re.sub(r"\b\w+ :: (?=\w+ :: )", "", it) for it in texts]
        return " | ".join(sorted(texts))

    def of_struct(self, node):
        fields = sorted(f"{it.name} : {self.open(it.value) if it.value is not None else it.name}" for it in node.fields)
        return f"{self.of_path(node)} {{ {' , '.join(fields)} }}"

    def of_leave(self, node):
        return f"{node.word} {self.open(node.inner)}" if node.inner is not None else " ".join(self.words(node.start, node.end))


def code_form(text, unit, known=(), reads=frozenset()):
    """Returns the form of a unit's body."""
    reader = code.Reader(text, 0, len(text))
    tree = reader.block() if unit.kind in ("fn", "macro") else reader.expression()
    if reader.at != len(reader.all):
        raise code.Unread("more")
    form = CodeForm(text, CODE)
    form.root, form.known, form.reads = tree.start, dict(known), reads
    return without_unused(form.of(tree), set(unit.params))


def without_unused(form, known):
    """Names that are bound and never used don't tell."""
    words = form.split(" ")
    counts = Counter(words)

    def is_unused(i):
        it = words[i]
        if counts[it] != 1 or it in known or not re.fullmatch(r"[a-z]\w*", it) or it in ("self", "true", "false", "mut", "ref"):
            return False
        before, after = words[i - 1] if i else "", words[i + 1] if i + 1 < len(words) else ""
        return before in ("(", ",", "|", "ref", "mut", "&") and after in (")", ",", "|")

    return " ".join("_" if is_unused(i) else it for i, it in enumerate(words))


class TermForm(Form):
    """Writes a term of a definition in its one form."""

    def of_group(self, node):
        return self.of(node.parts[0])

    def bare(self, node):
        while node.kind == "group":
            node = node.parts[0]
        return node

    def inner(self, node):
        bare = self.bare(node)
        one = self.of(bare)
        return f"( {one} )" if bare.kind in ("binary", "apply", "lambda", "let", "if", "record") and " " in one and not one.startswith("( ") or self.is_open(one) else one

    def is_open(self, one):
        depth, words = 0, one.split(" ")
        for i, it in enumerate(words):
            depth += (it in "({") - (it in ")}") if len(it) == 1 else 0
            if depth == 0 and i < len(words) - 1:
                return True
        return False

    def of_binary(self, node):
        sign = node.sign.text
        left, right = self.inner(node.left) if self.bare(node.left).kind != "binder" else self.of(node.left), self.inner(node.right)
        nothing = "( Unit {0} )"
        if sign in ("≡", "≤") and left == right:
            return nothing
        if sign == "→" and left == nothing:
            return self.of(self.bare(node.right))
        if sign == "×" and "⊥" in (left, right):
            return "⊥"
        if sign == "×" and nothing in (left, right):
            return self.of(self.bare(node.right if left == nothing else node.left))
        if sign == "+" and "0" in (left, right) or sign == "-" and right == "0":
            return right if left == "0" else left
        if sign == "+" and right == "1":
            return f"suc {left}"
        if sign == "++" and "[]" in (left, right):
            return right if left == "[]" else left
        if sign in ("++", "×", "⊎") and (chain := self.chain(node, sign)):
            return f" {sign} ".join(chain if sign == "++" else sorted(chain))
        if sign in ("&&", "||"):
            none, all_of = ("true", "false") if sign == "&&" else ("false", "true")
            if all_of in (left, right):
                return all_of
            if none in (left, right):
                return right if left == none else left
        if sign == "++" and left.startswith("( ") and left.endswith(" ∷ [] )"):
            return f"{left[2:-len(' [] )')]} {right}"
        if sign == "<" and right.startswith("( suc "):
            return f"{left} ≤ {right[len('( suc '):-2]}"
        if sign in ("≡", "≢") and left > right:
            left, right = right, left
        return f"{left} {sign} {right}"

    def chain(self, node, sign):
        """What a chain of one sign joins, if none of it is named for what follows."""
        node = self.bare(node)
        if node.kind != "binary" or node.sign.text != sign:
            return [self.inner(node)] if not any(it.kind == "binder" for it in (node, *node.parts)) else []
        left, right = self.chain(node.left, sign), self.chain(node.right, sign)
        return left + right if left and right else []

    def of_apply(self, node):
        parts = [self.inner(it) for it in node.parts]
        if parts[0] == "Unit":
            return "( Unit {0} )"
        if parts[0] in ("take", "drop") and len(parts) == 3 and parts[1] == "0":
            return "[]" if parts[0] == "take" else parts[2]
        if parts[0] == "suc" and len(parts) == 2 and parts[1].isdigit():
            return str(int(parts[1]) + 1)
        return " ".join(parts)

    def of_implicit(self, node):
        return "".join(self.words(node.start, node.end))

    def of_literal(self, node):
        return number(node.text)

    def of_name(self, node):
        text = node.text.removeprefix("Rattle.std.specs.Prelude.")
        return {"zero": "0"}.get(text, text)

    def of_lambda(self, node):
        return self.plain(node)

    def of_if(self, node):
        condition = self.of(node.condition)
        if condition in ("true", "false"):
            return self.of(self.bare(node.then if condition == "true" else node.other))
        return f"if {condition} then {self.of(node.then)} else {self.of(node.other)}"

    def of_record(self, node):
        base = self.inner(node.base) if node.base is not None else ""
        fields = sorted(f"{it.name} = {self.of(it.value)} ;" for it in node.fields)
        within = self.bare(node.base) if node.base is not None else None
        if within is not None and within.kind == "record" and within.base is not None:
            # what a record has otherwise, and then otherwise once more
            own = {it.name for it in node.fields}
            fields = sorted(fields + [f"{it.name} = {self.of(it.value)} ;" for it in within.fields if it.name not in own])
            base = self.inner(within.base)
        fields = [it for it in fields if it != f"{it.split(' ')[0]} = {base}.{it.split(' ')[0]} ;"]
        if base and not fields:
            return base
        return f"record {base} {{ {' '.join(fields)} }}"


def term_form(text):
    reader = definitions.Reader(text, 0, len(text))
    tree = reader.term()
    if reader.at != len(reader.all):
        raise definitions.Unread("more")
    return TermForm(text, DEFINITION).of(tree)
