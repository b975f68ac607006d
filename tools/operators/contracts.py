"""What a law says in its own contract, otherwise: each clause by the operators over definitions. A law that says too much has no proof, so it must be refused."""
import re
from types import SimpleNamespace

from . import definition_operators, definitions, generated
from .pinned import group_end
from .spelling import term_form


class Contracted(generated.Generated):
    """A law that says something else."""

    def is_definition(self):
        return True

    def text(self):
        text = generated.read(self.path)
        text = text[:self.start] + self.new + text[self.end:]
        # a contract brings in names as a file of definitions does
        return re.sub(r"^use (?=Rattle\.)", "ghost use ", generated.bring_in(re.sub(r"^ghost use ", "use ", text, flags=re.M), self.new), flags=re.M)

    def form(self):
        return formed(self.body())


def formed(text):
    try:
        return term_form(text)
    except (definitions.Unread, KeyError, RecursionError):
        return None


def clauses(text, file):
    """Returns the clauses of what the laws of a file ensure, each a unit with its law's name."""
    found = []
    for law in file.units:
        if not generated.is_law(law):
            continue
        for it in re.finditer(r"\bensures(?: (\w+))?\s*\{", text[law.head:law.start]):
            opened = law.head + it.end() - 1
            inner = text[opened + 1:group_end(text, opened) - 1]
            start = opened + 1 + len(inner) - len(inner.lstrip())
            end = start + len(inner.strip())
            try:
                reader = definitions.Reader(text, start, end)
                tree = reader.term()
                tree = tree if reader.at == len(reader.all) else None
            except (definitions.Unread, KeyError, RecursionError):
                tree = None
            name = law.name + (f".{it[1]}" if it[1] else "")
            found.append(SimpleNamespace(name=name, law=law.name, kind="clause", tree=tree, start=start, end=end, head=start, patterns=[], returns="Type 0"))
    return found


def of_clause(path, unit, below):
    """Returns the edits of one clause of a law's contract."""
    if unit.tree is None:
        return []
    text = generated.read(path)
    file = SimpleNamespace(types={}, module_params={}, record_params={}, units=[], text=re.sub(r"^ghost use ", "use ", text, flags=re.M))
    found = definition_operators.Maker(text, unit, file, generated.definition_facts(path.split("/")[1], below), {}).make()
    edits = {(start, end, new): Contracted(path, unit, operator, start, end, new) for operator, start, end, new in reversed(found)}
    return sorted(edits.values(), key=lambda it: (it.start, it.end, it.new))


def of_crate(crate, below):
    for path in generated.paths_of(crate, "src"):
        for unit in clauses(generated.read(path), generated.parsed(path)):
            yield from of_clause(path, unit, below)


def kept_as(path, new, other):
    """Returns the clause of a law that a kept edit changes, alone, with its text then, or None."""
    text = generated.read(path)
    before, after = clauses(text, generated.parsed(path)), clauses(new, other)
    if len(before) != len(after) or outside(text, before) != outside(new, after):
        return None
    changed = [(one, new[two.start:two.end]) for one, two in zip(before, after) if text[one.start:one.end] != new[two.start:two.end]]
    return changed[0] if len(changed) == 1 else None


def outside(text, units):
    """What stands beside the clauses, without what is brought in and comments."""
    for it in sorted(units, key=lambda one: -one.start):
        text = text[:it.start] + text[it.end:]
    return re.sub(r"\s+", "", re.sub(r"^(?:ghost )?use [^;]*;|//[^\n]*", "", text, flags=re.M))


def made(path, new, other, below):
    """Returns the edit that makes of a law's contract what a kept one does, or None."""
    kept = kept_as(path, new, other)
    if not kept or (wanted := formed(kept[1])) is None:
        return None
    return next((it for it in of_clause(path, kept[0], below) if it.form() == wanted), None)
