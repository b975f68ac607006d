"""The operators over whole bodies and their statements: what is left out, returned early, lost or done too much."""
import re

from .code_values import Values
from .facts import INTEGERS, plain


class Statements(Values):
    """Edits of the statements of one unit."""

    def bodies(self, tree):
        kind = plain(self.unit.returns)
        if not kind and tree.parts:
            self.replace("a body left out", tree, "{}")
            self.put("an early return", tree.start, tree.start + 1, "{ return;")
        for name, given in self.unit.params.items():
            if given.startswith("& mut") or re.match(r"& '\w+ mut", given):
                lost = f"*{name} = None;" if plain(given).startswith("Option") else f"{name}.clear();" if plain(given).partition("<")[0] in ("ArrayVec", "Burst", "String", "Vec") else ""
                at = tree.tail.start if tree.tail is not None and kind else tree.end - 1
                sign = "; " if tree.tail is not None and not kind else ""
                if lost:
                    self.put("what is written is lost", tree.tail.end if sign else at, tree.tail.end if sign else at, f"{sign}{lost} ")
        empties = [name for name, given in self.unit.params.items() if plain(given).startswith("[") or plain(given) == "str"]
        if getattr(self.unit, "takes_self", ""):
            empties += [f"self.{name}" for name, given in self.facts.fields.get(self.unit.owner.partition("<")[0], {}).items() if plain(given).startswith("[") or plain(given) == "str"]
        for name in empties:
            for value in self.simple(kind, 1) if kind else [""]:
                self.put("an early return", tree.start, tree.start + 1, f"{{ if {name}.is_empty() {{ return {value}; }}".replace("return ;", "return;"))
        if tree.tail is not None and kind and tree.tail.kind in ("method", "call"):
            for value in self.simple(kind, 1):
                self.replace("a result passed over", tree.tail, f"let _ = {self.said(tree.tail)}; {value}")
        if tree.tail is None or len(tree.parts) < 2:
            return
        for value in [it for _, it in self.values(tree.tail, kind) if it in ("true", "false", "0", "None", "Ok(())", "&[]") or it.startswith("Err(")]:
            self.put("an early return", tree.start, tree.start + 1, f"{{ return {value};")

    def more_statements(self):
        """What may be done too much: the methods that change `self` or a field of it, and a field set to nothing."""
        found = []
        for name, kind in self.unit.params.items():
            if "mut" in kind.split(" ")[:3]:
                found += [f"*{name} = None;"] if plain(kind).startswith("Option") else [f"{name}.clear();"] if plain(kind).partition("<")[0] in ("ArrayVec", "Burst", "String", "Vec", "Text") else []
        if "mut" not in getattr(self.unit, "takes_self", ""):
            return found
        struct = self.unit.owner.partition("<")[0]
        found += [f"self.{it}();" for it in self.facts.changes(struct) if it != self.unit.name]
        for name, kind in self.facts.fields.get(struct, {}).items():
            kind = plain(kind)
            found += [f"self.{name}.{it}();" for it in self.facts.changes(kind)]
            found += [f"self.{name}.clear();"] if kind.partition("<")[0] in ("ArrayVec", "Burst", "String", "Vec", "CircularBuffer") else []
            nothing = ["None"] if kind.startswith("Option") else ["true", "false"] if kind == "bool" else ["0", "1"] if kind in INTEGERS else []
            found += [f"self.{name} = {it};" for it in nothing]
        return found

    def lost(self, node):
        """What sets to nothing a place that a call writes."""
        found = []
        for it in node.walk():
            if it.kind == "unary" and it.sign.text == "&mut" and it.inner.kind in ("path", "field"):
                found += [f"{self.said(it.inner)} = None;", f"{self.said(it.inner)}.clear();"]
            if it.kind == "path" and "mut" in self.unit.params.get(it.text, ""):
                found += [f"*{it.text} = None;", f"{it.text}.clear();"]
                found += [f"{it.text}.{name}.clear();" for name, kind in self.facts.fields.get(self.locals[it.text], {}).items() if plain(kind).partition("<")[0] in ("ArrayVec", "Burst")]
        return list(dict.fromkeys(found))

    def too_much(self, node):
        places = [node.start + 1, *(it.end for it in node.parts if it.kind in ("statement", "let"))]
        for it in self.more:
            for place in dict.fromkeys(places):
                self.put("a statement more", place, place, f" {it}")
