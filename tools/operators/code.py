"""Reads code as a tree of expressions: what the operators over code go over.

Each node has a kind, the places at which it begins and ends, and its parts. What can't be read is left as it is: it has no edits."""
from .tokens import tokens

OPENING = {"(": ")", "[": "]", "{": "}"}
# how tightly signs between two operands bind, the loosest first
BINDS = [("=", "+=", "-=", "*=", "/=", "%=", "&=", "|=", "^=", "<<=", ">>="), ("..", "..="), ("||",), ("&&",), ("==", "!=", "<", ">", "<=", ">="), ("|",), ("^",), ("&",), ("<<", ">>"), ("+", "-"), ("*", "/", "%")]
LEVEL = {sign: level for level, signs in enumerate(BINDS) for sign in signs}


class Unread(Exception):
    """The text isn't such an expression."""


class Node:
    def __init__(self, kind, start, end, parts=(), **more):
        self.kind, self.start, self.end, self.parts = kind, start, end, list(parts)
        self.__dict__.update(more)

    def walk(self):
        yield self
        for it in self.parts:
            yield from it.walk()


class Reader:
    """Reads the tokens of one body."""

    def __init__(self, text, start, end):
        self.all, self.at = tokens(text, at=start, end=end), 0
        self.last_end = start

    def peek(self, ahead=0):
        place = self.at + ahead
        return self.all[place].text if place < len(self.all) else ""

    def kind(self, ahead=0):
        place = self.at + ahead
        return self.all[place].kind if place < len(self.all) else ""

    def start(self):
        return self.all[self.at].start if self.at < len(self.all) else self.last_end

    def take(self, wanted=None):
        if self.at >= len(self.all) or wanted is not None and self.peek() != wanted:
            raise Unread(f"{wanted!r} at {self.start()}")
        it = self.all[self.at]
        self.at += 1
        self.last_end = it.end
        return it

    def skip_group(self):
        """Takes a group in brackets whole."""
        close = OPENING[self.take().text]
        while self.peek() != close:
            self.skip_group() if self.peek() in OPENING else self.take()
        self.take()

    def skip_type(self, stops):
        """Takes a type, up to one of these signs at its own depth."""
        depth = 0
        while depth > 0 or self.peek() not in stops:
            if self.peek() in OPENING:
                self.skip_group()
                continue
            depth += {"<": 1, "<<": 2, ">": -1, ">>": -2}.get(self.peek(), 0)
            self.take()

    # ---- statements

    def block(self):
        start = self.start()
        self.take("{")
        parts, tail = [], None
        while self.peek() != "}":
            if self.peek() == ";":
                self.take()
                continue
            one = self.statement()
            if self.peek() == "}" and one.kind not in ("let", "statement", "item", "ghost"):
                tail = one
            elif one.kind not in ("let", "statement", "item", "ghost"):
                one = Node("statement", one.start, one.end, [one], inner=one)
            parts.append(one)
        self.take("}")
        return Node("block", start, self.last_end, parts, tail=tail)

    def statement(self):
        start = self.start()
        while self.peek() == "#":
            self.take()
            self.skip_group()
        word = self.peek()
        if word == "let":
            return self.let(start)
        if word in ("ghost", "prove") or word in ("const", "use", "fn", "struct", "impl", "macro_rules"):
            return self.skipped(start)
        one = self.expression()
        if self.peek() == ";":
            self.take()
            return Node("statement", start, self.last_end, [one], inner=one)
        if self.peek() == "}" or one.kind in ("if", "match", "while", "for", "loop", "block", "unsafe"):
            return one
        raise Unread(f"a statement's end at {self.start()}")

    def skipped(self, start):
        while self.peek() not in (";", "}"):
            is_block = self.peek() == "{"
            self.skip_group() if self.peek() in OPENING else self.take()
            if is_block:
                break
        if self.peek() == ";":
            self.take()
        return Node("ghost", start, self.last_end)

    def let(self, start):
        self.take("let")
        name_at = self.at
        pattern = self.pattern((":", "=", ";"))
        name = [it.text for it in self.all[name_at:self.at] if it.text != "mut"]
        kind = None
        if self.peek() == ":":
            self.take()
            at = self.at
            self.skip_type(("=", ";"))
            kind = " ".join(it.text for it in self.all[at:self.at])
        parts, value = [pattern], None
        if self.peek() == "=":
            self.take()
            value = self.expression()
            parts.append(value)
            if self.peek() == "else":
                self.take()
                parts.append(self.block())
        self.take(";")
        return Node("let", start, self.last_end, parts, value=value, names=name, type=kind)

    def pattern(self, stops):
        """Reads a pattern, with its alternatives, up to one of these at its own depth."""
        start, alternatives = self.start(), []
        one = self.start()
        while self.peek() not in stops and self.peek():
            if self.peek() == "|":
                alternatives.append((one, self.last_end))
                self.take()
                one = self.start()
            elif self.peek() in OPENING:
                self.skip_group()
            else:
                self.take()
        alternatives.append((one, self.last_end))
        return Node("pattern", start, self.last_end, alternatives=alternatives)

    # ---- expressions

    def expression(self, structs=True, level=0):
        if level >= len(BINDS):
            return self.cast(structs)
        start = self.start()
        signs = BINDS[level]
        if level == 1 and self.peek() in signs:
            sign = self.take()
            high = self.expression(structs, 2) if self.begins() and (structs or self.peek() != "{") else None
            return Node("range", start, self.last_end, [high] if high else [], low=None, high=high, sign=sign)
        left = self.expression(structs, level + 1)
        while self.peek() in signs:
            sign = self.take()
            if level == 1:
                high = self.expression(structs, 2) if self.begins() and (structs or self.peek() != "{") else None
                left = Node("range", start, self.last_end, [left] + ([high] if high else []), low=left, high=high, sign=sign)
                continue
            right = self.expression(structs, level if level == 0 else level + 1)
            kind = "assign" if level == 0 else "binary"
            left = Node(kind, start, self.last_end, [left, right], left=left, right=right, sign=sign)
        return left

    def begins(self):
        return self.kind() in ("name", "number", "text") and self.peek() not in ("else",) or self.peek() in ("(", "[", "&", "*", "!", "-", "{")

    def cast(self, structs):
        start = self.start()
        one = self.unary(structs)
        while self.peek() == "as":
            self.take()
            at = self.start()
            if self.peek() == "*":
                self.take()
                self.take()
            self.take()
            while self.peek() == "::":
                self.take()
                self.take()
            if self.peek() == "<" and self.kind(1) == "name" and self.peek(2) in (">", ","):
                self.skip_type((";", ",", ")", "}", "+", "-", "*"))
            one = Node("cast", start, self.last_end, [one], inner=one, type_at=at)
        return one

    def unary(self, structs):
        start = self.start()
        if self.peek() in ("!", "-", "*", "&", "&&"):
            sign = self.take()
            if sign.text in ("&", "&&") and self.peek() == "mut":
                self.take()
                sign = sign._replace(text="&mut")
            inner = self.unary(structs)
            return Node("unary", start, self.last_end, [inner], inner=inner, sign=sign)
        return self.postfix(structs)

    def postfix(self, structs):
        start = self.start()
        one = self.primary(structs)
        while True:
            if self.peek() == "?":
                self.take()
                one = Node("try", start, self.last_end, [one], inner=one)
            elif self.peek() == "." and self.kind(1) in ("name", "number"):
                self.take()
                name = self.take()
                if self.peek() == "::":
                    self.take()
                    self.take("<")
                    depth = 1
                    while depth:
                        depth += {"<": 1, ">": -1, ">>": -2}.get(self.take().text, 0)
                if self.peek() == "(":
                    arguments = self.arguments()
                    one = Node("method", start, self.last_end, [one, *arguments], receiver=one, name=name, arguments=arguments)
                else:
                    one = Node("field", start, self.last_end, [one], receiver=one, name=name)
            elif self.peek() == "(" and one.kind in ("path", "field", "call", "group"):
                arguments = self.arguments()
                one = Node("call", start, self.last_end, [one, *arguments], callee=one, arguments=arguments)
            elif self.peek() == "[" and one.kind not in ("block", "if", "match"):
                self.take()
                index = self.expression()
                self.take("]")
                one = Node("index", start, self.last_end, [one, index], receiver=one, index=index)
            else:
                return one

    def arguments(self, close=")", between=(",", ";")):
        self.take()
        found = []
        while self.peek() != close:
            found.append(self.expression())
            if self.peek() in between:
                self.take()
            elif self.peek() != close:
                raise Unread(f"an argument's end at {self.start()}")
        self.take(close)
        return found

    def primary(self, structs):
        start, word, kind = self.start(), self.peek(), self.kind()
        if kind in ("number", "text"):
            self.take()
            return Node("literal", start, self.last_end, is_number=kind == "number", text=word)
        if word == "(":
            parts = self.arguments()
            return Node("group" if len(parts) == 1 else "tuple", start, self.last_end, parts)
        if word == "[":
            parts = self.arguments("]")
            return Node("array", start, self.last_end, parts, repeats=self.repeats(start))
        if word == "{":
            return self.block()
        if word in ("|", "||", "move"):
            return self.closure()
        if kind == "life":
            self.take()
            self.take(":")
            return self.primary(structs)
        if word in KEYWORDS:
            return KEYWORDS[word](self, start)
        if kind != "name" and word not in ("<", "::"):
            raise Unread(f"{word!r} at {start}")
        return self.path(structs)

    def repeats(self, start):
        opened = next(i for i, it in enumerate(self.all) if it.start == start)
        depth = 0
        for it in self.all[opened:self.at]:
            depth += (it.text in OPENING) - (it.text in OPENING.values())
            if it.text == ";" and depth == 1:
                return True
        return False

    def closure(self):
        start = self.start()
        if self.peek() == "move":
            self.take()
        if self.peek() == "||":
            self.take()
        else:
            self.take("|")
            self.pattern(("|",))
            self.take("|")
        if self.peek() == "->" or self.peek() in ("requires", "ensures"):
            raise Unread("a closure with a contract")
        inner = self.expression()
        return Node("closure", start, self.last_end, [inner], inner=inner)

    def path(self, structs):
        start = self.start()
        if self.peek() == "<":
            self.take()
            depth = 1
            while depth:
                depth += {"<": 1, "<<": 2, ">": -1, ">>": -2}.get(self.take().text, 0)
        else:
            self.take()
        while self.peek() == "::":
            self.take()
            if self.peek() == "<":
                self.take()
                depth = 1
                while depth:
                    depth += {"<": 1, "<<": 2, ">": -1, ">>": -2}.get(self.take().text, 0)
            else:
                self.take()
        end = self.last_end
        text = "".join(it.text for it in self.all if start <= it.start < end)
        if self.peek() == "!" and self.peek(1) in OPENING:
            return self.macro(start, text)
        if structs and self.peek() == "{" and text.split("::")[-1][:1].isupper():
            return self.struct(start, text)
        return Node("path", start, end, text=text)

    def macro(self, start, text):
        self.take("!")
        at = self.at
        if text == "matches":
            self.take("(")
            value = self.expression()
            self.take(",")
            pattern = self.pattern((")", ",", "if"))
            parts = [value, pattern]
            if self.peek() == "if":
                self.take()
                parts.append(self.expression())
            if self.peek() == ",":
                self.take()
            self.take(")")
            return Node("matches", start, self.last_end, parts, pattern=pattern)
        try:
            if self.peek() == "{" or text in ("prove", "vec", "format"):
                raise Unread(text)
            parts = self.arguments(OPENING[self.peek()], (",", ";", "=>", ":"))
        except Unread:
            self.at = at
            self.skip_group()
            parts = []
        return Node("macro", start, self.last_end, parts, name=text, arguments=parts)

    def struct(self, start, text):
        self.take("{")
        fields = []
        while self.peek() != "}":
            at = self.start()
            if self.peek() == "..":
                self.take()
                rest = self.expression()
                fields.append(Node("rest", at, self.last_end, [rest], name="..", value=rest))
            else:
                is_ghost = self.peek() == "ghost"
                if is_ghost:
                    self.take()
                name = self.take().text
                value = None
                if self.peek() in (":", "="):
                    self.take()
                    if is_ghost:
                        self.skip_group()
                    else:
                        value = self.expression()
                if not is_ghost:
                    fields.append(Node("named", at, self.last_end, [value] if value else [], name=name, value=value))
            if self.peek() in (",", ";"):
                self.take()
        self.take("}")
        return Node("struct", start, self.last_end, fields, text=text, fields=fields)

    def condition(self):
        """The condition of an `if` or a `while`; a `let` in it is a pattern and a value."""
        if self.peek() != "let":
            return self.expression(False)
        start = self.start()
        self.take()
        pattern = self.pattern(("=",))
        self.take("=")
        value = self.expression(False, 3)
        return Node("if-let", start, self.last_end, [pattern, value], pattern=pattern, value=value)

    def read_if(self, start):
        self.take("if")
        condition = self.condition()
        then = self.block()
        other = None
        if self.peek() == "else":
            self.take()
            other = self.read_if(self.start()) if self.peek() == "if" else self.block()
        return Node("if", start, self.last_end, [condition, then] + ([other] if other else []), condition=condition, then=then, other=other)

    def read_match(self, start):
        self.take("match")
        value = self.expression(False)
        self.take("{")
        arms = []
        while self.peek() != "}":
            if self.peek() == "$":
                # what a macro repeats
                self.take()
                self.skip_group()
                while self.peek() in (",", "*", "?", "+"):
                    self.take()
                continue
            at = self.start()
            pattern = self.pattern(("=>", "if"))
            guard = None
            if self.peek() == "if":
                self.take()
                guard = self.expression()
            self.take("=>")
            one = self.expression()
            if self.peek() == ",":
                self.take()
            arms.append(Node("arm", at, self.last_end, [pattern] + ([guard] if guard else []) + [one], pattern=pattern, guard=guard, value=one))
        self.take("}")
        return Node("match", start, self.last_end, [value, *arms], value=value, arms=arms)

    def read_while(self, start):
        self.take("while")
        condition = self.condition()
        body = self.block()
        return Node("while", start, self.last_end, [condition, body], condition=condition, body=body)

    def read_for(self, start):
        self.take("for")
        self.pattern(("in",))
        self.take("in")
        over = self.expression(False)
        body = self.block()
        return Node("for", start, self.last_end, [over, body], over=over, body=body)

    def read_loop(self, start):
        self.take()
        body = self.block()
        return Node("loop", start, self.last_end, [body], body=body)

    def read_leave(self, start):
        word = self.take().text
        if self.kind() == "life":
            self.take()
        inner = self.expression() if self.begins() or self.peek() in ("|",) else None
        return Node("leave", start, self.last_end, [inner] if inner else [], word=word, inner=inner)


KEYWORDS = {
    "if": Reader.read_if,
    "match": Reader.read_match,
    "while": Reader.read_while,
    "for": Reader.read_for,
    "loop": Reader.read_loop,
    "unsafe": Reader.read_loop,
    "return": Reader.read_leave,
    "break": Reader.read_leave,
    "continue": Reader.read_leave,
}
