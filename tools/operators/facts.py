"""What the types and signatures of a crate, and of those below it, say: which values of a type there are to put in place of another."""
import re

# other names of types, as they are declared
ALIASES = {}
INTEGERS = {"u8", "u16", "u32", "u64", "usize", "i32", "i64"}


def plain(kind):
    """Returns a type without references, lifetimes and spaces."""
    kind = re.sub(r"'\w+ ?", "", kind or "")
    kind = re.sub(r"\bcrate :: |\bsuper :: |\b[a-z_]\w* :: ", "", kind)
    kind = re.sub(r"^(& )?(mut )?", "", kind.strip())
    kind = kind.replace(" ", "").removesuffix(",")
    return ALIASES.get(kind, kind)


class Facts:
    def __init__(self, own, others):
        """Of the files of the crate itself, and of those below."""
        files = [*own, *others]
        for it in files:
            ALIASES.update({name: kind.replace(" ", "") for name, kind in it.aliases.items() if name not in ALIASES})
        self.fields, self.variants, self.constants = {}, {}, {}
        self.own_constants = {name: plain(kind) for it in own for name, kind in it.constants.items()}
        self.own_files = {id(it) for it in own}
        self.functions, self.methods = {}, {}
        for it in files:
            for name, found in it.fields.items():
                self.fields.setdefault(name, found)
            for name, found in it.variants.items():
                self.variants.setdefault(name, found)
            for name, kind in it.constants.items():
                self.constants.setdefault(name, plain(kind))
            for one in it.signatures:
                kept = self.methods if one.owner else self.functions
                kept.setdefault(one.name, []).append(one)

    def field_type(self, struct, name):
        return plain(self.fields.get(struct.partition("<")[0], {}).get(name, ""))

    def sisters(self, struct, name):
        """Returns the other fields of the same type, of a struct or of each that has such a field."""
        if struct:
            found = self.fields.get(struct.partition("<")[0])
            owners = [found] if found and name in found else []
        else:
            owners = [it for it in self.fields.values() if name in it]
        return list(dict.fromkeys(other for it in owners for other, kind in it.items() if other != name and plain(kind) == plain(it[name])))

    def other_variants(self, enum, name):
        if enum.startswith("$"):
            return list(dict.fromkeys(it for one, found in self.variants.items() if name in found for it in self.other_variants(one, name)))
        found = self.variants.get(enum, {})
        return [it for it, held in found.items() if it != name and held == found.get(name)]

    def unit_variants(self, enum):
        return [it for it, held in self.variants.get(enum, {}).items() if not held]

    def method(self, name, owner=""):
        """Returns a method's signature: the type's, or one on which all of that name agree."""
        found = self.methods.get(name, [])
        found = [it for it in found if it.owner == owner.partition("<")[0]] or found
        return found[0] if found and all(it.shape() == found[0].shape() for it in found) else None

    def calls(self, text):
        """Returns the signatures of the functions, or of the methods, that are called by this path."""
        owner, _, name = text.rpartition("::")
        if not owner or owner.split("::")[-1][:1].islower():
            return self.functions.get(name, [])
        return [it for it in self.methods.get(name, []) if it.owner == owner.split("::")[-1]]

    def call(self, text, file=None):
        found = self.calls(text)
        beside = [it for it in found if it.file is file] or [it for it in found if id(it.file) in self.own_files]
        return (beside or found)[0] if found else None

    def changes(self, kind):
        """Returns the methods of a type that change it, and take and answer nothing."""
        return [name for name, found in self.methods.items() for it in found if it.owner == kind.partition("<")[0] and "mut" in it.takes_self and not it.params and not it.returns]

    def like(self, one):
        """Returns the names of the other functions, or methods of the type, with the same shape."""
        kept = self.methods if one.owner else self.functions
        return [name for name, found in kept.items() if name != one.name for it in found if it.owner == one.owner and it.file is one.file and it.shape() == one.shape()]

    def makers(self, kind):
        """Returns the functions of a type that make one of nothing."""
        return [name for name, found in self.methods.items() for it in found if it.owner == kind and not it.takes_self and not it.params and it.returns in ("Self", kind)]

    def payload(self, enum, case):
        """Returns the types that a case of an enum holds."""
        held = self.variants.get(enum, {}).get(case, "")
        if not held.startswith("("):
            return []
        found, depth = [""], 0
        for word in held[1:-1].split():
            depth += (word in "(<[") - (word in ")>]") if len(word) == 1 else -2 * (word == ">>")
            if word == "," and depth == 0:
                found.append("")
            else:
                found[-1] += " " + word
        return [plain(it) for it in found]
