"""What may stand in place of an expression of code: its type, as far as signatures tell it, and other values of that type."""
from .facts import INTEGERS, plain

COMPARISONS = ("<", "<=", ">", ">=", "==", "!=")
ARITHMETIC = ("+", "-", "*", "/", "%", "&", "|", "^", "<<", ">>")
COMPOUND = ("binary", "range", "cast", "unary", "assign", "closure", "if", "match", "leave")


class Values:
    """Types and values within one unit."""

    def __init__(self, file, unit, facts):
        self.file, self.text, self.unit, self.facts = file, file.text, unit, facts
        self.found = []
        self.locals = {name: plain(kind) for name, kind in unit.params.items()}
        for it in unit.tree.walk():
            if it.kind == "let" and len(it.names) == 1:
                self.locals.setdefault(it.names[0], plain(it.type) or self.type_of(it.value))

    def said(self, node):
        return self.text[node.start:node.end]

    def put(self, operator, start, end, new):
        if new != self.text[start:end]:
            self.found.append((operator, start, end, new))

    def replace(self, operator, node, new):
        self.put(operator, node.start, node.end, new)

    def operand(self, node):
        """How a node is written where it stands beside a sign or before a point."""
        return f"({self.said(node)})" if node.kind in COMPOUND else self.said(node)

    # ---- types

    def type_of(self, node):
        if node is None:
            return ""
        how = getattr(self, "type_of_" + node.kind.replace("-", "_"), None)
        return how(node) if how else ""

    def type_of_literal(self, node):
        return "int" if node.is_number else "str" if node.text.startswith('"') else "[u8]" if node.text.startswith('b"') else "u8"

    def type_of_path(self, node):
        text = node.text
        if text in ("true", "false"):
            return "bool"
        if text in ("self", "Self"):
            return self.unit.owner
        if text in self.locals:
            return self.locals[text]
        last = text.split("::")
        if last[-1] in self.facts.constants:
            return self.facts.constants[last[-1]]
        return last[-2] if len(last) > 1 and last[-1][:1].isupper() else ""

    def type_of_field(self, node):
        return self.facts.field_type(self.type_of(node.receiver), node.name.text)

    def type_of_method(self, node):
        one = self.facts.method(node.name.text, self.type_of(node.receiver))
        if node.name.text in ("len", "count"):
            return "usize"
        if node.name.text in ("is_some", "is_none", "is_empty", "is_ok", "is_err"):
            return "bool"
        return plain(one.returns) if one else ""

    def type_of_call(self, node):
        text = node.callee.text if node.callee.kind == "path" else ""
        one = self.facts.call(text, self.file)
        if one:
            return self.unit.owner if one.returns == "Self" else plain(one.returns)
        if text in ("Some", "Ok", "Err"):
            return "Option" if text == "Some" else "Result"
        if text.endswith("::from"):
            return text.split("::")[-2]
        return text.split("::")[-2] if "::" in text and text.split("::")[-1][:1].isupper() else ""

    def type_of_matches(self, node):
        return "bool"

    def type_of_binary(self, node):
        return "bool" if node.sign.text in COMPARISONS + ("&&", "||") else self.type_of(node.left) or self.type_of(node.right)

    def type_of_unary(self, node):
        return self.type_of(node.inner)

    def type_of_cast(self, node):
        return self.text[node.type_at:node.end]

    def type_of_group(self, node):
        return self.type_of(node.parts[0])

    def type_of_try(self, node):
        kind = self.type_of(node.inner)
        if kind.startswith("Option<"):
            return kind[len("Option<"):-1]
        return kind[len("Result<"):-1].rpartition(",")[0] if kind.startswith("Result<") else ""

    def type_of_struct(self, node):
        return self.unit.owner if node.text == "Self" else node.text

    # ---- values

    def values(self, node, kind):
        """Yields for an expression of a type other values of that type, each with the operator."""
        said = self.operand(node)
        if kind == "bool":
            yield from (("a condition", "true"), ("a condition", "false"), ("a sign", f"!{said}"))
        elif kind in INTEGERS or kind == "int":
            yield from self.numbers(node, said)
        elif kind.startswith("[") and ";" not in kind:
            yield from (("a constant", "&[]"), ("a bound", f"&{said}[1..]"), ("a constant", f"&{said}[..1]"), ("a constant", f"&{said}[{said}.len() / 2..]"), ("a constant", f"&{said}[..{said}.len() / 2]"), ("a bound", f"&{said}[..{said}.len().saturating_sub(1)]"))
        elif kind == "str":
            yield from (("a constant", '""'), ("a constant", f"&{said}[..0]"))
        yield from (("a case's value", it) for it in self.simple(kind))
        if node.kind == "path" and node.text in self.unit.params and self.unit.params[node.text].startswith("&"):
            yield from (("a case's value", f"&{it}") for it in self.simple(kind))
            if kind.startswith("[") and "mut" in self.unit.params[node.text]:
                yield "a constant", "&mut []"
        yield from (("a constant", it) for it in self.in_scope(node, kind))

    def simple(self, kind, depth=0):
        """The plainest values of a type: no value, each case without data, what is made without anything."""
        if kind == "bool" and depth:
            return ["true", "false"]
        if kind in INTEGERS and depth:
            return ["0", "1"]
        if kind.startswith("Option<"):
            return ["None", *(f"Some({it})" for it in self.simple(kind[len("Option<"):-1], depth + 1))]
        if kind.startswith("Result<"):
            taken, _, fault = kind[len("Result<"):-1].rpartition(",")
            good = ["()"] if taken == "()" else self.simple(taken, depth + 1)
            return [f"Ok({it})" for it in good] + [f"Err({fault}::{it})" for it in self.facts.unit_variants(fault)]
        if kind == "Option" or kind == "None":
            return ["None"]
        if kind.partition("<")[0] in ("ArrayVec", "Vec"):
            return ["ArrayVec::new()"]
        return [f"{kind}::{it}" for it in self.facts.unit_variants(kind)] + [f"{kind}::{it}()" for it in self.facts.makers(kind)]

    def numbers(self, node, said):
        if node.kind == "literal":
            base = node.text.replace("_", "").rstrip("uisze") if "x" not in node.text else node.text.replace("_", "")
            try:
                value = int(base.split("u")[0], 0)
            except ValueError:
                return
            wanted = (value + 1, value - 1, 0, 1, value * 2, value // 2)
            yield from (("a bound" if abs(it - value) == 1 else "a constant", f"0x{it:02x}" if "x" in node.text else str(it)) for it in dict.fromkeys(wanted) if 0 <= it != value)
            return
        yield from (("a bound", f"{said}.saturating_add(1)"), ("a bound", f"{said}.saturating_sub(1)"), ("a constant", "0"), ("a constant", "1"), ("a constant", f"{said} / 2"), ("a constant", f"{said}.min(1)"), ("a constant", f"{said} * 2"), ("a sign", f"{said} ^ 1"))
        if self.said(node) == "code":
            # those of POLL and ACK
            yield from (("a constant", "0x60"), ("a constant", "0x40"))

    def in_scope(self, node, kind):
        """Names of other values of this type: parameters, locals, fields of `self`, constants."""
        if not kind or kind == "int":
            return []
        said = self.said(node).lstrip("&*").removeprefix("mut ")
        sign = self.said(node)[:len(self.said(node)) - len(said)] if node.kind == "unary" else ""
        found = [it for it, held in self.locals.items() if held == kind]
        if getattr(self.unit, "takes_self", ""):
            struct = self.unit.owner.partition("<")[0]
            found += [f"self.{it}" for it, held in self.facts.fields.get(struct, {}).items() if plain(held) == kind]
        found += [it for it, held in self.facts.own_constants.items() if held == kind]
        return [sign + it for it in dict.fromkeys(found) if it != said]
