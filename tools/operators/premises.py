"""Makes each premise of the theory of calls false, one after the other, and asks the laws that say when it holds.

A law whose premise nothing keeps speaks of nothing, and is proved all the same. So each part of a premise becomes `⊥`: a field of a record, a clause of a
definition, each case that a last clause takes together with others, each case of an optional value, and what a part says once some of the premises hold
that it has itself. A law of the same crate, or of the one that builds upon it, must refuse it."""
import functools
import os
import random
import re

from . import generated, variants
from .chains import Chain
from .definition_operators import groups, split_arrows
from .facts import Facts
from .short import sort_of
from .trial import BY_CODE, NOT_TRIED, REFUSED, SURVIVED

# Of each crate: the crates that are asked, lowest first, the laws in the order in which they are, and the definitions of what is asked of calls and of moves.
ASKED = {
    "osdp_calls": (
        ("osdp_calls", "osdp_premises"),
        (("osdp_premises::premises_are_exact", "osdp_premises::rule_is_exact", "osdp_premises::leaving_is_exact", "osdp_premises::a_long_day_keeps_the_premises"),
         ("osdp_premises::order_spares_others", "osdp_calls::calls_rule_suffices", "osdp_calls::ends_go_by_their_own_calls", "osdp_calls::others_are_passed_over")),
        {"Premises": None, "Programs": ("IsKnown", "PanelKeepsRule", "KeepsRule", "KeepsByRule", "AllKeepRule"), "Ends": ("KeepsPanel", "CanStand"), "OneDevice": ("KeepsHandler",),
         "Restarts": ("KeepsDevice", "IsBeforeAndAfter"), "Undisturbed": ("IsOrdinaryOf", "LeavesCommandsOf")},
    ),
    "osdp_shared_line": (
        ("osdp_shared_line", "osdp_line_ledger", "osdp_calls", "osdp_calls_ledger"),
        (("osdp_shared_line::leaving::leaving_is_exact", "osdp_shared_line::first_rounds::rounds_happen", "osdp_shared_line::nobody_else_hears", "osdp_shared_line::programs::rule_suffices",
          "osdp_shared_line::each_is_a_link"),
         ("osdp_calls::calls_keep_apart", "osdp_calls::calls_rule_suffices"), ("osdp_calls_ledger::one_device_holds_once", "osdp_calls_ledger::ordinary_is_undisturbed")),
        {"Addresses": ("Somewhere", "Sets", "SetsReader", "IsInOrder", "IsNameOf", "AreApart", "IsHeardByNobodyElse", "HasNoOther", "IsFreeFor", "IsSetUp", "NetMoveFits", "NetMovesFit"),
         "Programs": ("IsKnown", "KeepsRule", "KeepRule", "RestFits"), "Views": ("OpensQuietly",),
         "Restarts": ("KeepsDeviceOf", "KeepsReaderOf", "IsOrdinaryOf"), "Progress": ("IsReady", "IsEmpty", "AreRounds")},
    ),
    "osdp_link_laws": (
        ("osdp_link_laws", "osdp_link_ledger", "osdp_shared_line", "osdp_line_ledger"),
        (("osdp_link_laws::asked::fitting_is_exact", "osdp_link_laws::asked::leaving_is_exact", "osdp_link_laws::asked::each_is_asked", "osdp_link_laws::asked::readers_hear_on"),
         ("osdp_shared_line::first_rounds::rounds_happen", "osdp_shared_line::promises::each_refuses_no_number", "osdp_shared_line::each_is_a_link", "osdp_link_laws::refuses_no_number"),
         ("osdp_line_ledger::each_acts_by_one_handler", "osdp_line_ledger::each_ordinary_ends_told", "osdp_shared_line::progress::each_comes_through", "osdp_link_laws::comes_through")),
        {"Beginning": ("MaySubmit", "SaysWhatFits", "SaysWhatFitsIf", "MoveFits", "MovesFit", "Begins"), "Addresses": ("SetsNoOther",), "OneHandler": ("KeepsHandler", "KeepsDevice", "KeepHandler"),
         "Ordinary": ("IsOrdinary", "IsSteady"), "Refusals": ("KeepsReader", "IsNoRefusal"),
         "Progress": ("IsClear", "AreClear", "SetsNoAddress", "NoComset", "HearsOn", "AreDue", "AreLate")},
    ),
    "osdp_calls_instance": (
        ("osdp_calls_instance",),
        (("osdp_calls_instance::laws_speak_of_programs", "osdp_calls_instance::stands_on_calls"), ("osdp_calls_instance::calls_for_c_are_calls", "osdp_calls_instance::lines_are_calls")),
        {"CPrograms": ("c_panel", "c_device"), "LinePrograms": ("PanelLineFits", "DeviceLineFits"), "OwnCalls": ("OwnFits", "FitsAt", "AllFit")},
    ),
    "osdp_entry_numbers": (
        ("osdp_entry_numbers",),
        (("osdp_entry_numbers::entries_stand_in_any_order",), ("osdp_entry_numbers::own_order_holds_once",)),
        {"Numbers": ("AreNumbers", "IsNewPanel", "IsIdle"), "OwnOrder": ("Fits", "LeavesAlone", "IsOwnSetUp", "OwnKeeps", "AllOwnKeep")},
    ),
    "osdp_programs_ledger": (
        ("osdp_programs_ledger", "osdp_program_days"),
        (("osdp_program_days::a_day_in_c_keeps_the_premises", "osdp_program_days::a_day_by_lines_keeps_the_premises", "osdp_program_days::a_day_in_c_has_entries_in_any_order"),
         ("osdp_programs_ledger::c_programs_hold_once", "osdp_programs_ledger::line_programs_hold_once",
          "osdp_programs_ledger::c_programs_hold_once_in_any_order", "osdp_programs_ledger::line_programs_hold_once_in_any_order")),
        {"Programs": ("AreTheirCalls",), "OwnOrder": ("AreOwnCalls",)},
    ),
    "osdp_calls_time_laws": (
        ("osdp_calls_time_laws",),
        (("osdp_calls_time_laws::timely_is_exact", "osdp_calls_time_laws::a_long_day_is_read_in_time", "osdp_calls_time_laws::a_day_in_any_order_is_read_in_time"),
         ("osdp_calls_time_laws::timely_calls_open_quietly", "osdp_calls_time_laws::timely_ledger_holds_once", "osdp_calls_time_laws::own_order_opens_quietly")),
        {"OwnOrder": ("AllOwnTimely", "OwnKeepsElse", "AllOwnKeepElse"), "Moments": ("WaitsTwice", "KeepsClock", "IsTimely", "AllTimely", "KeepsElse", "AllKeepElse", "KeepsRuleElse", "AllKeepRuleElse")},
    ),
}

# how a file of definitions takes names from another, or names it
TAKES = re.compile(r"^ *use (Rattle\.(\w+)\.specs\.([\w.]+?))(?:\.\{([^}]*)\}| as (\w+))$", re.M)


def missing():
    """Yields what is named here and isn't in the tree: a law, or a definition."""
    for crate, (_, stages, modules) in ASKED.items():
        for law in [it for stage in stages for it in stage]:
            *inside, name = law.split("::")
            path = f"crates/{inside[0]}/src/{'/'.join(inside[1:]) or 'lib'}.rt"
            if not os.path.isfile(f"{generated.TOP}/{path}") or not re.search(rf"\bfn {name}\b", generated.read(path)):
                yield law
        for module, names in modules.items():
            path = f"crates/{crate}/specs/{module}.antt"
            held = {it.name.partition(".")[0] for it in generated.parsed(path).units} if os.path.isfile(f"{generated.TOP}/{path}") else set()
            yield from (f"{path} {it}" for it in names or () if it not in held)


class Falsehood:
    """A definition of which one part is `⊥`."""

    operator = "a false premise"

    def __init__(self, path, unit, part, pieces, taken=()):
        """Of pieces of the file, each from where to where and its new text; and of what it takes, each word and how the file names the one that it is taken from."""
        self.path, self.unit, self.part, self.pieces, self.taken = path, unit, part, pieces, taken

    def crate(self):
        return self.path.split("/")[1]

    def is_definition(self):
        return True

    def name(self):
        return f"{self.path.split('/', 2)[2]} {self.part}"

    def lines(self):
        return self.part, generated.squeezed(" ".join(it[2] for it in self.pieces))

    def texts(self):
        text = generated.read(self.path)
        for start, end, new in sorted(self.pieces, reverse=True):
            text = text[:start] + new + text[end:]
        for word, place in self.taken:
            text = taking(text, word, place)
        return {self.path: text}


def taking(text, word, place):
    """Takes a constructor from the file of this name, where the file of definitions takes others of there and not this one."""
    line = re.search(rf"^ *use {re.escape(place)}\.\{{([^}}]*)\}}", text, re.M)
    if not line or word in re.split(r"[\s,]+", line[1]):
        return text
    return text[:line.end(1)] + f", {word}" + text[line.end(1):]


def constructors_beside(path, pattern):
    """Returns how a file names the type's constructors, these with the types of each, and the name of the file that declares them, for a pattern of one of them; or None."""
    named = re.match(r"\(?((?:\w+\.)?)([A-Z]\w*)$", pattern)
    if not named:
        return None
    prefix, name = named[1], named[2]
    for place, types in taken_by(path, prefix[:-1], name):
        for found in types.values():
            if name in found:
                return prefix, found, place
    return None


def taken_by(path, alias, name):
    """Yields the file itself, and each that it has under this alias, or takes this name from: how it names it, and the cases of its types."""
    if not alias:
        yield "", generated.parsed(path).constructors
    for it in TAKES.finditer(generated.read(path)):
        if it[5] == alias if alias else name in re.split(r"[\s,]+", it[4] or ""):
            yield it[1], types_of(it[2], it[3].removesuffix(".TheConstructors"))


def types_of(crate, module):
    """Returns the types of a file of definitions with their cases, or the one type of the code that a name stands for."""
    declared = re.match(r"declared\.([\w.]+)\.(\w+)\.TheVariants$", module)
    path = f"crates/{crate}/src/{declared[1].replace('.', '/')}.rt" if declared else f"crates/{crate}/specs/{module.replace('.', '/')}.antt"
    if not os.path.isfile(f"{generated.TOP}/{path}"):
        return {}
    if not declared:
        return generated.parsed(path).constructors
    facts, kind = Facts([generated.parsed(path)], []), declared[2]
    return {kind: {it: " → ".join([*facts.payload(kind, it), kind]) for it in facts.variants.get(kind, {})}}


def told_apart(path, units):
    """Yields a false clause for each case that the last clause of a definition takes together with others."""
    last, text = units[-1], generated.read(path)
    patterns = [groups(it.patterns) for it in units]
    for i, one in enumerate(patterns[-1]):
        if one != ["_"]:
            continue
        heads = [(it[i][1] if it[i][0] == "(" else it[i][0]) for it in patterns[:-1] if i < len(it)]
        beside = next((found for it in heads if (found := constructors_beside(path, it))), None)
        if not beside:
            continue
        prefix, cases, declared = beside
        for name, kind in cases.items():
            if prefix + name in heads:
                continue
            at = begins(text, last)
            yield Falsehood(path, last, f"{last.name} ({prefix}{name})", [(at, at, clause(text, last, i, given(prefix + name, kind), "⊥") + "\n")], () if prefix else ((name, declared),))


def of_options(path, unit):
    """Yields a false clause for each case of an optional value that a clause is given and doesn't use."""
    text = generated.read(path)
    said = text[unit.start:unit.end]
    for i, one in enumerate(groups(unit.patterns)):
        beside = constructors_beside(path, one[1]) if one[0] == "(" else None
        kinds = [it for it in split_arrows(beside[1][one[1].rpartition(".")[2]]) if not it.startswith("{")][:-1] if beside else []
        if len(one) != len(kinds) + 3:
            continue
        for j, kind in enumerate(kinds, 2):
            if not kind.startswith("Option ") or not re.match(r"[a-z]\w*$", one[j]) or re.search(rf"\b{one[j]}\b", said):
                continue
            for case, other in (("None", "(Some _)"), ("(Some _)", "None")):
                both = [clause(text, unit, i, spelled([*one[:j], it, *one[j + 1:]]), so) for it, so in ((case, "⊥"), (other, said))]
                yield Falsehood(path, unit, f"{unit.name} ({spelled([*one[:j], case, *one[j + 1:]])})", [(begins(text, unit), unit.end, "\n".join(both))])


def of_kind(path, unit):
    """Yields a false case for each call of a kind of program that takes all of its calls."""
    text = generated.read(path)
    said = {name: re.search(rf"\b{name} = (.*);$", text[unit.start:unit.end], re.M) for name in ("Fits", "Own", "Program")}
    if not all(said.values()) or not re.match(r"λ \w+ \w+\. Unit \{0\}$", said["Fits"][1]):
        return
    own, last = said["Own"][1], said["Fits"][1].partition(".")[0].split()[-1]
    at = re.search(rf"^abbrev pub {unit.name} : ", text, re.M).start()
    for name, kind in generated.parsed(path).constructors.get(own, {}).items():
        new = f"abbrev pub {own}Fits : {own} → {said['Program'][1]} → Type 0\n{own}Fits {given(name, kind)} {last} = ⊥\n{own}Fits _ {last} = Unit {{0}}\n\n"
        yield Falsehood(path, unit, f"{unit.name}.Fits ({name})", [(at, at, new), (unit.start + said["Fits"].start(1), unit.start + said["Fits"].end(1), f"{own}Fits")])


def of_premises(path, unit, part):
    """Yields what is false once some of the premises hold that it has itself."""
    text, depth, passed = generated.read(path)[unit.start:unit.end], 0, 0
    if "--" in text or re.match(r"let |λ ", text):
        return
    for i, sign in enumerate(text):
        depth += (sign in "({") - (sign in ")}")
        if sign == "→" and not depth:
            premise = generated.squeezed(text[passed:i])
            passed = i + 1
            # a value by itself asks nothing
            if re.fullmatch(r"(\([^():]+ : ([^()]|\([^()]*\))*\) ?)+", premise):
                continue
            new = text[:i] + "→ ⊥"
            if generated.squeezed(new) != generated.squeezed(text):
                yield Falsehood(path, unit, f"{part}: {premise} → ⊥", [(unit.start, unit.end, new)])


def given(name, kind):
    """A pattern of a case that names nothing of what it holds."""
    count = len([it for it in split_arrows(kind) if not it.startswith("{")]) - 1
    return f"({name}{' _' * count})" if count else name


def begins(text, unit):
    """Where the line of a clause begins."""
    return text.rfind("\n", 0, text.rindex(unit.name, 0, unit.start)) + 1


def clause(text, unit, i, pattern, said):
    """A clause as this one, which is given another pattern and says something else."""
    words = [pattern if j == i else "".join(it) if len(it) == 1 else spelled(it) for j, it in enumerate(groups(unit.patterns))]
    return f"{re.match(r' *', text[begins(text, unit):])[0]}{unit.name} {' '.join(words)} = {said}"


def spelled(words):
    return re.sub(r"\( | (?=\))", lambda it: it[0].strip(), " ".join(words))


@functools.cache
def of_crate(crate):
    """Returns what makes a premise of a crate false, in the order of its files."""
    found = []
    for module, names in ASKED[crate][2].items():
        path = f"crates/{crate}/specs/{module}.antt"
        file = generated.parsed(path)
        by_name = {}
        for it in file.units:
            by_name.setdefault(it.name, []).append(it)
        for name, units in by_name.items():
            own = name.partition(".")[0]
            if names is not None and own not in names or units[0].tree is None:
                continue
            if units[0].kind == "field":
                if sort_of(units[0].tree) == "statement" and not re.match(r"(List|Option) ", generated.read(path)[units[0].start:units[0].end]):
                    found.append(Falsehood(path, units[0], name, [(units[0].start, units[0].end, "⊥")]))
                    found += of_premises(path, units[0], name)
                continue
            if not file.types.get(name, "").endswith("Type 0"):
                found += of_kind(path, units[0])
                continue
            cases = list(told_apart(path, units)) if len(units) > 1 else []
            for i, it in enumerate(units if not cases else units[:-1]):
                part = name + (f" ({' '.join(spelled(one) for one in groups(it.patterns))})" if len(units) > 1 else "")
                found.append(Falsehood(path, it, part, [(it.start, it.end, "⊥")]))
                found += [*of_options(path, it), *of_premises(path, it, part)]
            found += cases
    return [it for it in found if generated.squeezed(it.texts()[it.path]) != generated.squeezed(generated.read(it.path))]


class Asking:
    def __init__(self, tools, crate, budget, log, copies, proved=None):
        """Of a log of a check, which gives the functions of a crate that it has as proved, these aren't proved again without any edit."""
        self.tools, self.crate, self.budget, self.log, self.copies, self.proved = tools, crate, budget, log, copies, proved
        self.crates, self.stages, _ = ASKED[crate]
        self.results = {}

    def run(self, edits):
        waiting = list(edits)
        for i, laws in enumerate(self.stages):
            if waiting and self.budget.left() > 0:
                waiting = self.with_crates(waiting, laws, i == len(self.stages) - 1)

    def with_crates(self, waiting, laws, is_last):
        """Asks these laws, in copies of no more crates than they stand on."""
        asked = {it.partition("::")[0] for it in laws}
        reached = {*asked, *(it for one in asked for it in self.tools.below(one))}
        crates = [it for it in self.crates if it in reached]
        copy = self.tools.Copy(reached)
        try:
            self.chain = Chain(copy, crates, self.budget)
            return self.stage(waiting, laws, is_last) if self.are_proved(laws) else waiting
        finally:
            copy.remove()

    def are_proved(self, laws):
        """Whether what is asked is proved without any edit: stops where it isn't, and says no at the end of the budget."""
        if self.proved and all(rest in self.proved(crate) for crate, _, rest in (it.partition("::") for it in laws)):
            return True
        said = self.chain.ask([None], laws)
        if said is not None and not variants.is_proved(said[0]):
            self.tools.stop(f"{self.crate}: not proved without any edit, so no edit shows anything:\n{said[0][-2000:]}")
        return said is not None

    def stage(self, waiting, laws, is_last):
        left = []
        while waiting and self.budget.left() > 0:
            batch, waiting = waiting[:self.copies], waiting[self.copies:]
            left += self.asked(batch, laws, is_last)
        return left

    def asked(self, batch, laws, is_last):
        """Asks laws of some edits, and returns those that none of them refuses."""
        saids = self.chain.ask(batch, laws)
        if saids is None:
            return []
        if not variants.is_reached(saids[0]) and len(batch) > 1:
            half = len(batch) // 2
            return self.asked(batch[:half], laws, is_last) + self.asked(batch[half:], laws, is_last)
        return [edit for edit, said in zip(batch, saids) if not self.is_judged(edit, said, is_last)]

    def is_judged(self, edit, said, is_last):
        if variants.is_proved(said):
            if is_last:
                self.say(edit, SURVIVED, "")
            return is_last
        try:
            why = self.tools.refusal(said, [edit.path.split("/", 2)[2]])
        except self.tools.Bad as it:
            self.say(edit, NOT_TRIED, str(it))
            return True
        laws = re.findall(r"^fn (\S+): (?:not proved|no proof)", said, re.M)
        laws = [it for it in laws if it in [one for stage in self.stages for one in stage]]
        # a lemma of which these laws need nothing may be needed by those that are asked next
        if not laws and not is_last:
            return False
        self.say(edit, REFUSED if laws else BY_CODE, f"{', '.join(it.rpartition('::')[2] for it in laws)}: {why}")
        return True

    def say(self, edit, result, why):
        self.results[edit.name()] = result
        self.log.add(edit, result, why)
        print(f"{self.crate}: {result}: {edit.name()}: {why[:300]}", flush=True)


def made(texts):
    """Returns what makes a premise false as a kept edit does, or None. A record of which any field is false is false, so a false field more is the same."""
    [(path, new), *others] = texts.items()
    if others or path.split("/")[1] not in ASKED or "/specs/" not in path:
        return None
    more = re.search(r"^ *pub \w+ : ⊥\n", new, re.M)
    for it in of_crate(path.split("/")[1]):
        if it.path != path:
            continue
        if plain(it.texts()[path]) == plain(new):
            return it
        if it.unit.kind == "field" and more and record_at(new, more.start()) == it.unit.name.partition(".")[0] and plain(new[:more.start()] + new[more.end():]) == plain(generated.read(path)):
            return it
    return None


def record_at(text, at):
    heads = [it[1] for it in re.finditer(r"^ *pub record (\S+)", text, re.M) if it.start() < at]
    return heads[-1] if heads else ""


def plain(text):
    """A text without spaces, comments and what it takes, where a clause that is false, or asks nothing, doesn't name what it is given."""
    text = re.sub(r"^ *use [^\n]*\n|--[^\n]*", "", text, flags=re.M)
    text = re.sub(r"^( *\w+ )(.*)( = (?:⊥|Unit \{0\}))$", lambda it: it[1] + re.sub(r"(?<![\w.])[a-z_]\w*(?![\w.])", "_", it[2]) + it[3], text, flags=re.M)
    # a clause of a case may stand before or after that of another
    return "".join(sorted(re.sub(r"\s+", "", it) for it in text.split("\n")))


def drawn(wanted, most, seed):
    """Returns one of these crates, each as likely as it has premises, and so many of them, as the seed has it."""
    order = random.Random(seed)
    [crate] = order.choices(sorted(wanted), [len(wanted[it]) for it in sorted(wanted)])
    return {crate: order.sample(wanted[crate], min(most, len(wanted[crate])))}


def main(tools, words, budget, log, copies, most=None, seed="0", proved=None):
    """Tries the premises of these crates, or those that a word names, or all, or so many of one of the crates; prints what came of each, and how many of each result there were."""
    is_list = "--list" in words
    named = [it.partition("/")[::2] for it in words if it.partition("/")[0] in ASKED] or [(it, "") for it in ASKED]
    wanted = {crate: [it for it in of_crate(crate) if any(of == crate and it.part.startswith(part) for of, part in named)] for crate in dict.fromkeys(it for it, _ in named)}
    failed = 0
    for crate, edits in (drawn(wanted, most, seed) if most else wanted).items():
        for it in edits if is_list else ():
            print(it.name())
        if not is_list:
            left = [it for it in edits if log.key(it) not in log.results]
            asking = Asking(tools, crate, budget, log, copies or 8, proved)
            if left:
                asking.run(left)
        counts = [log.results.get(log.key(it), "not asked") for it in edits]
        told = {it: counts.count(it) for it in dict.fromkeys(counts)}
        print(f"{crate}: {len(edits)} premises made false" + ("" if is_list else ": " + ", ".join(f"{n} {it}" for it, n in told.items())), flush=True)
        failed += told.get(SURVIVED, 0) + told.get(BY_CODE, 0) if not is_list else 0
    return 1 if failed else 0
