"""More operators over code, which make very many edits: another number, another text, and a field of a value otherwise."""
import functools
import re

from .facts import INTEGERS, plain

# what a number may be besides: its parts and multiples, and numbers that stand at limits
FACTORS = ((3, 2), (5, 2), (1, 4), (9, 8), (10, 1), (1, 10))
STEPS = (4, -3, -5, -8)
FAR = (0, 1, 2, 7, 8, 9, 16, 20, 40, 50, 64, 100, 126, 127, 128, 255, 1000, 1024, 3_600_000)


def other_numbers(text):
    """Returns other numbers, written as a literal is."""
    try:
        value = int(re.sub(r"(?<=[0-9a-fA-F])[ui](?:8|16|32|64|size)$", "", text.replace("_", "")), 0)
    except ValueError:
        return []
    found = [value * times // by for times, by in FACTORS] + [value + it for it in STEPS] + list(FAR)
    return [f"0x{it:02X}" if "x" in text else str(it) for it in dict.fromkeys(found) if it >= 0 and it != value]


@functools.cache
def texts_of(text):
    """Returns the texts and the bytes of a file that stand between quotation marks."""
    return list(dict.fromkeys(re.findall(r'(?<![\w\\])b?"(?:\\.|[^"\\])*"', re.sub(r"^\s*//[^\n]*$", "", text, flags=re.M))))


class Texts:
    """Edits of the literals of one unit, and of values that have fields."""

    def other_literals(self, node):
        if node.is_number:
            for it in other_numbers(node.text):
                self.replace("another number", node, it)
        elif node.text.endswith('"'):
            for it in self.other_texts(node.text):
                self.replace("another text", node, it)
        else:
            for it in ("0", *SIGNS):
                self.replace("another number", node, it if node.text.startswith("b") or it == "0" else it.removeprefix("b"))

    def other_texts(self, text):
        """Another text of the file, a text with a character more or less, and with a word or a form of another text."""
        mark, inner = text.partition('"')[0], text.partition('"')[2][:-1]
        own = [it for it in texts_of(self.file.text) if it != text]
        for it in own:
            if it.partition('"')[0] == mark:
                yield it
        for it in (inner + " ", " " + inner, inner[:-1], inner[1:], inner[1:] + inner[:1], inner.swapcase(), inner.replace("1", "0"), inner.replace(":", " ")):
            yield f'{mark}"{it}"'
        for one in re.findall(r"\{[^{}]*\}", inner):
            name = one[1:-1].partition(":")[0]
            for form in (name, f"{name}:02x", f"{name}:X", f"{name}:02", f"{name}:02X"):
                yield text.replace(one, f"{{{form}}}", 1)
        words = [word for it in own for word in re.findall(r"[a-z][\w-]+", it.partition('"')[2])]
        for one in dict.fromkeys(re.findall(r"[a-z][\w-]+", inner)):
            for word in dict.fromkeys(words):
                if word != one and "{" + one not in inner:
                    yield re.sub(rf"(?<![\w-]){re.escape(one)}(?![\w-])", word, text, count=1)

    def otherwise(self, node, kind):
        """A value with one field otherwise: the contrary, nothing, the least, or what something in scope has."""
        struct = kind.partition("<")[0]
        if node.kind not in ("call", "method", "path", "field", "try") or not struct or struct == self.unit.owner and node.kind == "path":
            return
        for name, held in self.facts.fields.get(struct, {}).items():
            for value in self.of_field(node, name, plain(held)):
                self.replace("a field otherwise", node, f"{struct} {{ {name}: {value}, ..{self.said(node)} }}")

    def of_field(self, node, name, kind):
        found = self.simple(kind, 1)
        if kind == "bool":
            found = [*found, f"!{self.operand(node)}.{name}"]
        if kind in INTEGERS:
            found = ["0", "1", "2", "127"]
        for it, held in self.unit.params.items():
            if self.facts.method(name, plain(held)) is not None:
                found = [*found, f"{it}.{name}()"]
        return found


SIGNS = ("b' '", r"b'\t'", r"b'\n'", "b':'", "b';'", "b'#'", "b'0'", "b'1'")
