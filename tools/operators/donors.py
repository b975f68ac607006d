"""The operator that puts another expression, term or statement of the same crate in the place of one, or a statement beside one.

It makes so many edits that they are made one after the other, and only where they are asked for."""
import functools
import re

OPERATOR, STATEMENT = "another expression", "another statement"
# what may stand in place of any value, if its type allows
PLAIN = ("0", "1", "2", "true", "false", "None", "&[]", '""', "[0, 0]", "&[0, 0]", "[0, 0, 0]", "ArrayVec::new()")
PLAIN_TERMS = ("0", "1", "2", "true", "false", "None", "[]")
CODE = ("call", "method", "path", "field", "literal", "struct", "macro", "binary", "unary", "index", "tuple", "array", "cast", "matches", "if", "match", "try", "range")
TERMS = ("apply", "binary", "name", "project", "group", "literal", "record", "lambda", "if")
LONGEST = 160


def bare(text):
    """A text without what only parts or joins: spaces, brackets around terms, and commas before a bracket."""
    text = text.replace("Rattle.std.specs.Prelude.", "")
    return re.sub(r"[\s()]|,(?=[\s)}\]])|;(?=\s*\})", "", text)


def given(files, kinds):
    """Returns the expressions of files: their texts, each by its bare text."""
    found = {}
    for file in files:
        for node in [it for unit in file.units if unit.tree is not None for it in unit.tree.walk()]:
            if node.kind in kinds and node.end - node.start <= LONGEST:
                text = file.text[node.start:node.end]
                found.setdefault(bare(text), text)
    return found


@functools.cache
def expressions(files, is_code):
    return given(files, CODE if is_code else TERMS)


@functools.cache
def statements(files):
    return given(files, ("statement",))


def edits(file, unit, files, is_code, near=None, wanted=None):
    """Yields the edits of a unit with what stands in files: all, or those near a part of it of which all that they bring stands in a text."""
    kinds = CODE if is_code else TERMS
    brought = [text for key, text in expressions(files, is_code).items() if wanted is None or key in wanted]
    more = [text for key, text in statements(files).items() if wanted is None or key in wanted] if is_code else []
    for node in unit.tree.walk():
        if near is not None and not (node.start <= near[1] + 2 and node.end >= near[0] - 2):
            continue
        own = file.text[node.start:node.end]
        if node.kind in kinds:
            for text in [*brought, *(plain_code(own) if is_code else plain_terms(own))]:
                if text != own:
                    yield OPERATOR, node.start, node.end, text if is_code or " " not in text or text.startswith("(") else f"({text})"
        if is_code:
            yield from in_code(file, node, own, brought, more)
        elif node.kind in ("apply", "binary", "name", "project"):
            for text in brought:
                yield from ((OPERATOR, node.start, node.end, f"({own} {new})") for new in (f"&& {text}", f"|| {text}", f"&& not ({text})", f"|| not ({text})", f"+ {text}", f"- {text}"))


def plain_code(own):
    """A plain value in place of a value, or a part of it."""
    return [*PLAIN, f"!{own}", f"&{own}[1..]", f"&{own}[..{own}.len() - 1]", f"{own} / 1000", f"{own} & 0x7f", f"{own}.saturating_add(1)", f"{own}.max(1)", f"{own}.min(1)", f"{own}.wrapping_add(1)", f"1 - {own}", f"255 - {own}"]


def plain_terms(own):
    inner = f"({own})" if " " in own and not own.startswith("(") else own
    return [*PLAIN_TERMS, f"suc {inner}", f"({inner} - 1)", f"drop 1 {inner}", f"take 1 {inner}", f"not {inner}", f"({inner} ++ {inner})", f"{inner} ∷ []"]


def in_code(file, node, own, brought, more):
    """Another statement in place of one, before it and after it, a condition more, and one of several cases with another value."""
    if node.kind == "statement":
        for text in more:
            yield STATEMENT, node.start, node.end, text
            yield STATEMENT, node.start, node.end, f"{own} {text}"
            yield STATEMENT, node.start, node.end, f"{text} {own}"
    if node.kind == "block" and (node.tail is not None or not node.parts):
        at = node.tail.start if node.tail is not None else node.end - 1
        yield from ((STATEMENT, at, at, f"{text} ") for text in more)
    if node.kind in ("call", "method", "binary", "unary", "matches", "path", "field"):
        for text in brought:
            yield from ((OPERATOR, node.start, node.end, f"({own} {sign} {text})") for sign in ("&&", "||", "&& !", "|| !", "+", "-"))
    if node.kind in ("call", "method", "try", "path"):
        for text in [*brought, "0", "None", "true", "false", "()"]:
            yield OPERATOR, node.start, node.end, f"{{ let _ = {own}; {text} }}"
    if node.kind == "arm" and len(node.pattern.alternatives) > 1:
        for i, (start, end) in enumerate(node.pattern.alternatives):
            rest = " | ".join(file.text[one:to] for j, (one, to) in enumerate(node.pattern.alternatives) if j != i)
            for text in [*brought, "{}", "0", "1", "None", "true", "false"]:
                yield OPERATOR, node.start, node.end, f"{file.text[start:end]} => {text}, {rest}{file.text[node.pattern.end:node.end]}"
