"""Finds the functions, constants and macros of a file of code, and what its types and signatures say."""
from .code import OPENING, Reader, Unread
from .tokens import tokens


class Unit:
    """The body of a function, of a macro's case, or the value of a constant: its tree, where it stands, and what is in scope."""

    def __init__(self, name, kind, tree, **more):
        self.name, self.kind, self.tree = name, kind, tree
        self.params, self.returns, self.owner = {}, "", ""
        self.__dict__.update(more)


class Signature:
    def __init__(self, file, name, owner, takes_self, params, returns):
        self.file, self.name, self.owner, self.takes_self, self.params, self.returns = file, name, owner, takes_self, params, returns

    def shape(self):
        return (self.takes_self, tuple(self.params.values()), self.returns)


class File:
    """What stands in a file of code."""

    def __init__(self, text):
        self.text, self.units, self.unread = text, [], []
        self.fields, self.variants, self.signatures, self.constants, self.aliases = {}, {}, [], {}, {}
        self.all = tokens(text)
        self.at, self.owner = 0, ""
        self.items("")

    def peek(self, ahead=0):
        return self.all[self.at + ahead].text if self.at + ahead < len(self.all) else ""

    def place(self):
        return self.all[self.at].start if self.at < len(self.all) else len(self.text)

    def skip_group(self):
        close = OPENING[self.peek()]
        self.at += 1
        while self.at < len(self.all) and self.peek() != close:
            if self.peek() in OPENING:
                self.skip_group()
            else:
                self.at += 1
        self.at += 1

    def skip_to(self, *stops):
        """Goes on to one of these signs at this depth."""
        while self.at < len(self.all) and self.peek() not in stops:
            if self.peek() in OPENING:
                self.skip_group()
            else:
                self.at += 1

    def said(self, since):
        return " ".join(it.text for it in self.all[since:self.at])

    # ---- items

    def items(self, close):
        is_test = False
        while self.at < len(self.all) and self.peek() != close:
            word = self.peek()
            if word == "#":
                at = self.at
                self.at += 1 + (self.peek(1) == "!")
                self.skip_group()
                is_test = is_test or "test" in self.said(at).split()
                continue
            if word in ("pub", "unsafe", "extern", "const", "async") and not (word == "const" and self.peek(1) != "fn"):
                self.at += 1
                if self.peek() == "(":
                    self.skip_group()
                if word == "extern" and self.all[self.at].kind == "text":
                    self.at += 1
                continue
            self.item(word, is_test)
            is_test = False

    def item(self, word, is_test):
        if word == "fn":
            self.function(is_test)
        elif word in ("const", "static"):
            self.constant(is_test)
        elif word in ("impl", "trait"):
            self.implementation()
        elif word == "mod":
            self.skip_to(";", "{")
            self.skip_group() if self.peek() == "{" else self.step()
        elif word in ("struct", "enum", "union"):
            self.declaration(word)
        elif word == "macro_rules":
            self.rules()
        elif word == "type":
            at = self.at
            self.leave()
            words = self.said(at).split(" ")
            if words[2:3] == ["="]:
                self.aliases[words[1]] = " ".join(words[3:-1])
        elif word in ("ghost", "use"):
            self.leave()
        elif word in OPENING:
            self.skip_group()
        else:
            self.at += 1

    def step(self):
        self.at += 1

    def leave(self):
        """Leaves out an item that ends by `;` or by its last group."""
        self.skip_to(";", "}")
        if self.peek() == ";":
            self.at += 1

    def implementation(self):
        at = self.at
        self.skip_to("{", ";")
        kept, self.owner = self.owner, owner_of(self.said(at).split())
        self.at += 1
        self.items("}")
        self.at += 1
        self.owner = kept

    def declaration(self, word):
        self.at += 1
        name = self.peek()
        self.skip_to("{", ";", "(")
        if self.peek() == ";":
            self.at += 1
            return
        close = OPENING[self.peek()]
        found = self.fields.setdefault(name, {}) if word == "struct" else self.variants.setdefault(name, {})
        if word == "struct" and close == ")":
            self.skip_group()
            return
        self.at += 1
        while self.at < len(self.all) and self.peek() != close:
            self.part(word, found)
        self.at += 1

    def part(self, word, found):
        """A field of a struct, or a variant of an enum."""
        while self.peek() == "#":
            self.at += 1
            self.skip_group()
        if self.peek() == "pub":
            self.at += 1
            if self.peek() == "(":
                self.skip_group()
        is_ghost = self.peek() == "ghost"
        name = self.peek()
        self.at += 1
        at = self.at
        depth = 0
        while self.at < len(self.all) and not (depth <= 0 and self.peek() in (",", "}", ")")):
            if self.peek() in OPENING:
                self.skip_group()
                continue
            depth += {"<": 1, ">": -1, ">>": -2}.get(self.peek(), 0)
            self.at += 1
        if not is_ghost and self.all[at - 1].kind == "name":
            found[name] = self.said(at).removeprefix(": ") if word == "struct" else self.said(at)
        if self.peek() == ",":
            self.at += 1

    def constant(self, is_test):
        start = self.place()
        self.at += 1
        name = self.peek()
        self.at += 1
        at = self.at
        self.skip_to("=", ";")
        kind = self.said(at).removeprefix(": ")
        if name != "_":
            self.constants[name] = kind
        if self.peek() == "=":
            value = self.all[self.at].end
            self.skip_to(";")
            if not is_test and name != "_":
                self.unit(name, "const", value, self.place(), returns=kind, head=start)
        self.at += 1

    def function(self, is_test):
        start = self.place()
        self.at += 1
        name = self.peek()
        self.at += 1
        self.skip_to("(")
        at = self.at
        self.skip_group()
        takes_self, params = self.params_of(at + 1, self.at - 1)
        at = self.at
        returns = ""
        if self.peek() == "->":
            self.at += 1
            while self.peek() not in ("where", "requires", "ensures", "{", ";", "diverges", "ghost", "decreases"):
                self.skip_group() if self.peek() in OPENING else self.step()
            returns = self.said(at + 1)
        if not is_test:
            self.signatures.append(Signature(self, name, self.owner, takes_self, params, returns))
        while self.peek() not in ("{", ";", ""):
            is_clause = self.peek() in ("requires", "ensures", "decreases", "ghost")
            self.at += 1
            if is_clause:
                self.skip_to("{")
                self.skip_group()
        if self.peek() == "{":
            body = self.place()
            self.skip_group()
            end = self.all[self.at - 1].end
            if not is_test:
                more = {"takes_self": takes_self, "params": params, "returns": returns, "head": start}
                self.unit(name, "fn", body, end, **more)
        else:
            self.at += 1

    def params_of(self, at, end):
        takes_self, params, kept = "", {}, self.at
        self.at = at
        while self.at < end:
            first = self.at
            depth = 0
            while self.at < end and not (depth == 0 and self.peek() == ","):
                if self.peek() in OPENING:
                    self.skip_group()
                    continue
                depth += {"<": 1, ">": -1, ">>": -2}.get(self.peek(), 0)
                self.at += 1
            words = [it.text for it in self.all[first:self.at]]
            if "self" in words[:4] and (":" not in words or words.index("self") < words.index(":")):
                takes_self = " ".join(words)
            elif ":" in words:
                place = words.index(":")
                params[words[place - 1]] = " ".join(words[place + 1:])
            self.at += 1
        self.at = kept
        return takes_self, params

    def rules(self):
        """The cases of a macro, whose bodies are blocks."""
        self.at += 2
        name = self.peek()
        self.at += 1
        if self.peek() not in OPENING:
            return
        close = OPENING[self.peek()]
        head = self.place()
        self.at += 1
        while self.at < len(self.all) and self.peek() != close:
            self.skip_to("=>", close)
            if self.peek() != "=>":
                break
            self.at += 1
            start = self.place()
            is_block = self.peek() == "{"
            self.skip_group()
            if is_block:
                self.unit(name, "macro", start, self.all[self.at - 1].end, head=head)
        self.at += 1

    def unit(self, name, kind, start, end, **more):
        try:
            reader = Reader(self.text, start, end)
            tree = reader.block() if kind in ("fn", "macro") else reader.expression()
            if reader.at != len(reader.all):
                raise Unread(f"more at {reader.start()}")
        except (Unread, KeyError, RecursionError) as why:
            if kind == "macro":
                return
            self.unread.append((name, str(why)))
            tree = None
        self.units.append(Unit(name, kind, tree, start=start, end=end, owner=self.owner, **more))


def owner_of(words):
    """Returns the type of an `impl`, or the name of a trait, from the words of its head."""
    depth, rest = 0, []
    for i, word in enumerate(words[1:]):
        depth += {"<": 1, "<<": 2, ">": -1, ">>": -2}.get(word, 0)
        if depth == 0 and word not in (">", ">>"):
            rest.append(word)
        if word == "where" or word == ":" and depth == 0:
            break
    rest = rest[rest.index("for") + 1:] if "for" in rest else rest
    names = [it for it in rest if it[:1].isupper()]
    return names[0] if names else ""
