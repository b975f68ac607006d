"""More operators over definitions, which make very many edits: what is said twice, of one value alone, of one element or field more."""

import re


def empty_of(kind):
    """Returns the values of a type that hold nothing, or are the least."""
    if kind == "Bool":
        return ["true", "false"]
    if kind == "ℕ":
        return ["0"]
    return ["[]"] if kind.startswith("List") else ["None"] if kind.startswith("Option") else []


class More:
    """Edits of the terms of one unit."""

    def parameters(self):
        """The names that a record or a module has in scope, with their types."""
        found = dict(self.file.module_params)
        record = self.unit.name.partition(".")[0]
        if self.unit.kind == "field":
            found.update(self.file.record_params.get(record, {}))
            found.update({name: kind for name, kind in self.facts.fields.get(record, {}).items() if "→" not in kind})
        return found

    def type_named(self, text):
        """The type of a name: as the module has it of which the file takes it, or one that is declared anywhere."""
        prefix, _, name = text.rpartition(".")
        if name in self.file.types and not prefix:
            return self.file.types[name]
        for module in self.taken().get(prefix or name, ()):
            found = self.facts.modules.get(module)
            if found is None:
                continue
            for kinds in (found.types, *found.constructors.values()):
                if name in kinds:
                    return kinds[name]
        return self.facts.types.get(name) or next((it[name] for it in self.facts.constructors.values() if name in it), "")

    def taken(self):
        """Returns for each name that the file takes, and for each of its names of modules, the modules."""
        if not hasattr(self.file, "taken"):
            self.file.taken = {}
            for module, names, other in re.findall(r"^ *use (Rattle\.[\w.]+?)(?:\.TheConstructors)?(?:\.\{([^}]*)\}| as (\w+))", self.file.text, re.M):
                for it in [other] if other else re.findall(r"[^\s,]+", names):
                    self.file.taken.setdefault(it, []).append(module)
        return self.file.taken

    def in_scope(self):
        """Yields names with their types, and the fields of these."""
        for name, kind in self.kinds.items():
            yield name, kind
            for field, held in self.facts.fields.get(kind.split(" ")[0], {}).items():
                yield f"{name}.{field}", held
                for inner, of in self.facts.fields.get(held.split(" ")[0], {}).items():
                    yield f"{name}.{field}.{inner}", of
                    for last, kept in self.facts.fields.get(of.split(" ")[0], {}).items():
                        yield f"{name}.{field}.{inner}.{last}", kept

    def one_value(self, node):
        """A statement that holds of one value alone, or asks nothing else."""
        said = f"({self.said(node)})"
        for name, kind in self.in_scope():
            for value in empty_of(kind):
                self.replace("a special case", node, f"({name} ≡ {value}) × {said}")
                self.replace("a special case", node, f"{name} ≡ {value}")
                self.replace("a special case", node, f"({name} ≡ {value}) → {said}")
                self.replace("a special case", node, f"({name} ≡ {value}) ⊎ {said}")

    def twice(self, node, kind):
        """A list twice, and a call of what a call answers."""
        if kind.startswith("List") and node.kind in ("apply", "name", "project", "group"):
            self.replace("an operand twice", node, f"({self.operand(node)} ++ {self.operand(node)})")
        if node.kind != "apply":
            return
        for it in node.arguments:
            if it.kind != "implicit" and kind and self.type_of(it) == kind:
                self.put("a call twice", it.start, it.end, f"({self.said(node)})")

    def elements(self, node):
        """An element more in a list: one that stands beside it."""
        explicit = [it for it in node.arguments if it.kind != "implicit"]
        for it in explicit:
            for one in explicit:
                if one is not it and one.kind == "name" and it.kind in ("name", "project", "group"):
                    self.replace("an element more", it, f"({self.said(one)} ∷ {self.operand(it)})")

    def nested(self, node):
        """Two calls of one name turned, of which one is asked within the other."""
        inner = node.arguments[-1]
        inner = inner.parts[0] if inner.kind == "group" else inner
        if inner.kind == "apply" and self.said(inner.head) == self.said(node.head) and len(inner.arguments) == len(node.arguments) > 1:
            own = self.text[node.arguments[0].start:node.arguments[-2].end]
            other = self.text[inner.arguments[0].start:inner.arguments[-2].end]
            self.replace("two calls turned", node, f"{self.said(node.head)} {other} ({self.said(node.head)} {own} {self.said(inner.arguments[-1])})")

    def field_more(self, node):
        """A field more in what a record has otherwise: nothing, one more, or what another such value has."""
        if node.base is None or not node.fields:
            return
        own = [it.name for it in node.fields]
        found = [held for held in self.facts.fields.values() if all(it in held for it in own)]
        for name, kind in found[0].items() if found else ():
            if name in own:
                continue
            base = self.operand(node.base)
            values = empty_of(kind) + ([f"{base}.{name} + 1"] if kind == "ℕ" else []) + ([f"drop 1 {base}.{name}"] if kind.startswith("List") else [])
            last = node.fields[-1]
            for value in values:
                self.put("a field more", last.whole, last.whole, f"{'' if self.text[last.whole - 1] == ';' else ';'} {name} = {value}")
