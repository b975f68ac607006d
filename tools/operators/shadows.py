"""A definition that laws take from a crate below, otherwise for the laws alone: a field of what it says is nothing, one more, or what an argument has,
always or in one case that another definition of its module tells. The code below isn't asked, so a law must refuse."""
import functools
import re
from types import SimpleNamespace

from . import definitions, generated
from .definition_more import empty_of
from .definition_operators import groups, split_arrows
from .spelling import TermForm
from .tokens import DEFINITION

OPERATOR = "a definition taken otherwise"


class Shadow:
    """A definition of another crate as a file of laws has it then: which, in which case, and the fields that are otherwise."""

    def __init__(self, path, name, case, fields):
        self.path, self.name_of, self.case, self.fields, self.operator = path, name, case, tuple(sorted(fields)), OPERATOR
        self.unit = SimpleNamespace(name=name)

    def key(self):
        return self.path, self.name_of, self.case, self.fields

    def crate(self):
        return self.path.split("/")[1]

    def is_definition(self):
        return True

    def lines(self):
        return self.name_of, self.name()

    def texts(self):
        """Returns the text of its file with it: the definition stands after what the file takes, and has the taken one under its module's name."""
        text = generated.read(self.path)
        _, crate, module = next(taken for it, taken in brought(self.path) if it == self.name_of)
        path = f"crates/{crate}/specs/{module.replace('.', '/')}.antt"
        heads, kind = head_of(generated.read(path), self.name_of)
        unit = next(it for it in generated.parsed(path).units if it.name == self.name_of)
        arguments = " ".join(it[0] for it in groups(unit.patterns))
        given = " ".join([*explicit(heads), arguments])
        lines, pad = [f"{'  ' * i}{it}" for i, it in enumerate(heads)], "  " * len(heads)
        body = f"let o = otherwise.{self.name_of} {given} in {self.changed()}"
        words = f"{' '.join(heads)} {kind} {body}"
        if self.case:
            classed, of = case_of(generated.parsed(path), self.case, kind, generated.definition_facts(crate, ()))
            parts = [it for it in split_arrows(kind) if not it.startswith("{")]
            lines += [f"{pad}abbrev pub wrong : {' → '.join([of, *parts, parts[-1]])}", f"{pad}wrong {self.case} {arguments} o = {self.changed()}", f"{pad}wrong _ {arguments} o = o", ""]
            more = " ".join([*explicit(head_of(generated.read(path), classed)[0]), arguments])
            body = f"wrong (otherwise.{classed} {more}) {arguments} (otherwise.{self.name_of} {given})"
            words += f" {of} {self.case}"
        lines += [f"{pad}abbrev pub {self.name_of} : {kind}", f"{pad}{self.name_of} {arguments} = {body}"]
        text = generated.bring_in(text, words)
        line = next(it[0] for it in re.finditer(rf"^ *use Rattle\.{crate}\.specs\.{re.escape(module)}\.\{{([^}}]*)\}}", text, re.M) if self.name_of in re.findall(r"[^\s,]+", it[1]))
        kept = re.sub(rf"(?<=[{{ ]){re.escape(self.name_of)}(?:, |(?=\}}))", "", line, count=1).replace(", }", "}")
        text = text.replace(line + "\n", "" if kept.endswith("{}") else kept + "\n", 1)
        uses = [f"use Rattle.{crate}.specs.{module} as otherwise", *more_uses(text, path, f"Rattle.{crate}.specs.{module}", words.replace(self.name_of, ""))]
        at = max(it.end() for it in re.finditer(r"^use [^\n]*\n", text, re.M))
        return {self.path: text[:at] + "\n".join([*uses, "", *lines, ""]) + "\n" + text[at:]}

    def changed(self):
        """Says what the definition says, with its fields otherwise."""
        found = "o"
        for field, value in self.fields:
            *outer, last = field.split(".")
            new = f"record {found if not outer else '.'.join(['o', *outer])} {{ {last} = {value.replace('#', 'o')} }}"
            for i in range(len(outer), 0, -1):
                new = f"record {'.'.join(['o', *outer[:i - 1]])} {{ {outer[i - 1]} = {new} }}"
            found = new
        return found

    def name(self):
        told = "; ".join(f"{field} = {value}" for field, value in self.fields)
        return f"{self.path.split('/', 2)[2]} {self.name_of}{' in case ' + self.case if self.case else ''}: {told} ({OPERATOR})"


def head_of(text, name):
    """Returns the modules within which a definition stands, each by its head, and its type."""
    heads = []
    for line in text.split("\n"):
        indent = len(line) - len(line.lstrip())
        if line.strip():
            heads = [it for it in heads if it[0] < indent]
        if line.lstrip().startswith("module _"):
            heads.append((indent, line.strip()))
        signed = re.match(rf"\s*(?:abbrev|unfoldable) (?:pub )?{re.escape(name)} : (.*)$", line)
        if signed:
            return [it for _, it in heads], signed[1]
    raise KeyError(name)


def explicit(heads):
    """Returns the names that modules are given."""
    return [name for head in heads for names in re.findall(r"\(([^():{}]+) :", head) for name in names.split()]


def case_of(file, case, kind, facts):
    """Returns the definition of the module that tells a case of the same values, and its type."""
    kinds = [it for it in split_arrows(kind) if not it.startswith("{")]
    for name, of in file.types.items():
        parts = [it for it in split_arrows(of) if not it.startswith("{")]
        if len(parts) > 1 and parts[:-1] == kinds[:-1] and case in facts.constructors.get(parts[-1], facts.code.variants.get(parts[-1], {})):
            return name, parts[-1]
    raise KeyError(case)


def more_uses(text, path, module, words):
    """Returns the lines that take those words which the text doesn't have, as the definition's own module takes or declares them."""
    taken = " ".join(re.findall(r"^ *use [^\n]*", text, re.M))
    wanted = dict.fromkeys(it for it in re.findall(r"[^\W\d][\w']*", words) if not re.search(rf"(?<![\w.]){it}(?![\w.])", taken))
    found = []
    for line in re.finditer(r"^ *use (Rattle\.[\w.]+)\.\{([^}]*)\}", generated.read(path), re.M):
        found += [f"use {line[1]}.{{{it}}}" for it in re.findall(r"[^\s,]+", line[2]) if it in wanted]
    return found + [f"use {module}.{{{it}}}" for it in wanted if it in generated.parsed(path).types or it in generated.parsed(path).fields]


# ---- what a kept edit makes

def term(text):
    reader = definitions.Reader(text, 0, len(text))
    return reader.term()


def fields_of(text, node, base):
    """Returns the fields that a record has otherwise, each by its path, or None where it isn't such a record."""
    while node.kind == "group":
        node = node.parts[0]
    if node.kind != "record" or node.base is None or text[node.base.start:node.base.end].strip("()") != base:
        return None
    found = []
    for it in node.fields:
        inner = fields_of(text, it.value, f"{base}.{it.name}")
        if inner is None:
            found.append((it.name, TermForm(text, DEFINITION).of(it.value)))
        else:
            found += [(f"{it.name}.{path}", value) for path, value in inner]
    return found


def added(path, new):
    """Returns the clauses that a file of laws has more, or None where it lacks one."""
    text, file = generated.read(path), generated.parsed(path)
    other = definitions.File(new)
    known = {(it.name, "".join(one.text for one in it.patterns), text[it.start:it.end]) for it in file.units}
    units = [(it, (it.name, "".join(one.text for one in it.patterns), new[it.start:it.end])) for it in other.units]
    if not known <= {key for _, key in units}:
        return None
    return [it for it, key in units if key not in known]


def kept_as(path, new):
    """Returns the shadow that a kept edit puts into a file, or None."""
    found = added(path, new)
    taken = {name: module for name, module in brought(path)}
    own = [it for it in found or () if it.name in taken]
    main = [it for it in own if not is_copy(it, new, taken[it.name])]
    if len(main) != 1 or len(own) != 1 or main[0].tree is None:
        return None
    unit, tree = main[0], main[0].tree
    helpers = [it for it in found if it not in own]
    if not helpers and tree.kind == "let":
        name = new[tree.start:tree.value.start].split()[1]
        return shadow(path, unit.name, "", fields_of(new, tree.inner, name), name)
    if len(helpers) == 2 and tree.kind == "apply" and new[tree.head.start:tree.head.end] == helpers[0].name == helpers[1].name and helpers[0].tree is not None:
        patterns = groups(helpers[0].patterns)
        return shadow(path, unit.name, patterns[0][0], fields_of(new, helpers[0].tree, patterns[-1][0]), patterns[-1][0])
    return None


def shadow(path, name, case, fields, result):
    if not fields:
        return None
    return Shadow(path, name, case, [(field, re.sub(rf"(?<![\w.]){result}(?=[.\s]|$)", "#", value)) for field, value in fields])


def is_copy(unit, text, module):
    """Whether a clause is the one that its module has."""
    path = f"crates/{module[1]}/specs/{module[2].replace('.', '/')}.antt"
    own = generated.read(path)
    return any(it.name == unit.name and generated.squeezed(own[it.start:it.end]) == generated.squeezed(text[unit.start:unit.end]) for it in generated.parsed(path).units)


@functools.cache
def brought(path):
    """Returns the names that a file of definitions takes from other crates, each with its module."""
    found = []
    for line in re.finditer(r"^ *use Rattle\.(osdp_\w+)\.specs\.((?!declared)[\w.]+?)\.\{([^}]*)\}", generated.read(path), re.M):
        if line[1] != path.split("/")[1]:
            found += [(it, (line[0], line[1], line[2])) for it in re.findall(r"[^\s,]+", line[3])]
    return tuple(found)


# ---- what the operator makes

def of_file(path, below):
    """Yields the definitions that a file of a crate of laws takes, each otherwise."""
    facts = generated.definition_facts(path.split("/")[1], below)
    for name, (_, crate, module) in brought(path):
        file = facts.modules.get(f"Rattle.{crate}.specs.{module}")
        unit = next((it for it in file.units if it.name == name), None) if file is not None else None
        if unit is None or name[:1].isupper() or name not in file.types:
            continue
        kinds = [it for it in split_arrows(file.types[name]) if not it.startswith("{")]
        names = [it[0] for it in groups(unit.patterns)]
        given = {it: kind for it, kind in zip(names, kinds) if re.fullmatch(r"[^\W\d][\w']*", it) and it[:1].islower()}
        if len(given) != len(kinds) - 1 or kinds[-1].split(" ")[0] not in facts.fields:
            continue
        cases = ["", *cases_of(file, facts, kinds[:-1])]
        for field, kind in fields_in(facts, kinds[-1], 3):
            for value in values(facts, field, kind, given):
                yield from (Shadow(path, name, case, [(field, value)]) for case in cases)


def cases_of(file, facts, kinds):
    """The cases of what another definition of the module tells of the same values."""
    for name, kind in file.types.items():
        parts = [it for it in split_arrows(kind) if not it.startswith("{")]
        if len(parts) > 1 and parts[:-1] == kinds:
            yield from facts.constructors.get(parts[-1], facts.code.variants.get(parts[-1], {}))


def fields_in(facts, kind, depth):
    """Yields the fields of a record, and of those within it, each by its path and with its type."""
    own = facts.fields.get(kind.split(" ")[0])
    if own is None:
        own = {name: plain_kind(it) for name, it in facts.code.fields.get(kind.split(" ")[0], {}).items()}
    for name, held in own.items() if depth else ():
        yield name, held
        yield from ((f"{name}.{path}", inner) for path, inner in fields_in(facts, held, depth - 1))


def plain_kind(kind):
    """A type of code as definitions name it."""
    kind = kind.replace(" ", "")
    if re.fullmatch(r"[ui](8|16|32|64|size)|Seq|Address|Entry", kind):
        return "ℕ"
    return {"bool": "Bool"}.get(kind, re.sub(r"^Option<(.*)>$", r"Option \1", kind))


def values(facts, field, kind, given):
    """Yields what a field may be: nothing, one more, less, what an argument has, and with a part of it otherwise; `#` is what the definition says."""
    found = list(empty_of(kind))
    if kind == "ℕ":
        found += ["1", f"suc #.{field}", f"#.{field} - 1"]
    if kind.startswith("List"):
        found.append(f"drop 1 #.{field}")
    held = kind.removeprefix("Option ").strip("()") if kind.startswith("Option ") else ""
    for name, of in [*given.items(), *((f"{name}.{path}", inner) for name, of in given.items() for path, inner in fields_in(facts, of, 3))]:
        if of == kind:
            found += [name, f"drop 1 {name}"] if kind.startswith("List") else [name]
        if held and of == held:
            found.append(f"Some {name}")
    for part, of in fields_in(facts, held, 1) if held else ():
        for value in ["0", "1", "16"] if of == "ℕ" else empty_of(of):
            found += [f"option_map ( λ ( {name} : {held} ) . record {name} {{ {part} = {value} ; }} ) #.{field}" for name in ("p", "q")]
    yield from dict.fromkeys(found)
