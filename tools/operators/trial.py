"""What comes of the edits of one crate: how they are put together in runs, and what the proofs say to each.

Edits of the code of different functions are tried in one variant of the crate: a function that is still proved lets its edit through, as all
others know its contract alone. Of an edit of a definition, a constant or a macro, which has a variant for itself, the functions are asked first
that refused others of the same place, or that cite it; where these are proved, all. What doesn't compile, or is refused only since a proof names
something that is gone, counts as not tried."""
import functools
import os
import re
from collections import Counter

from . import chains, generated, pairs, runs, shadows, variants

ERROR = re.compile(r"^(?:\./)?(src/\S+?|specs/\S+?):(\d+):\d+: error(?:\[[\w-]+\])?: (.*)$", re.M)
# why an edit is no text that compiles
UNREAD = re.compile(r"it can't be read|the edited text cannot be read|it did not reach the prover")
REFUSED, EQUAL, SURVIVED, NOT_TRIED, BY_CODE = "refused", "equal", "survived", "not tried", "refused by code alone"
# variants that are read together before any proof
READ = 24
# functions that are asked at most where the crate wasn't proved here
MOST_ASKED = 40
# crates from that of an edit up to one that is asked of it
MOST_BETWEEN = 4


def key_of(edit):
    old, new = edit.lines()
    return f"{edit.path.split('/', 2)[2]} {edit.unit.name}", old, new


def shown(edit):
    place, old, new = key_of(edit)
    return f"in: {place}\nold: {old}\nnew: {new}\n# {edit.operator}"


@functools.cache
def texts_of(crate):
    return [generated.read(it) for part in ("src", "specs") for it in generated.paths_of(crate, part)]


@functools.cache
def citing(crate):
    """Returns what each definition and each contract of a crate cites: of definitions their names, of functions their files, units and words."""
    definitions, functions = {}, []
    for path in generated.paths_of(crate, "specs"):
        text = generated.read(path)
        for unit in generated.parsed(path).units:
            words = set(re.findall(r"[^\W\d][\w'-]*", text[unit.start:unit.end]))
            definitions.setdefault(unit.name.partition(".")[0], set()).update(words)
        # a record is cited by what takes or gives one, also where the clauses don't name it
        for name, types in re.findall(r"^ *(?:abbrev |unfoldable )?pub ([^\W\d][\w'-]*) : (.*)$", text, re.M):
            definitions.setdefault(name, set()).update(re.findall(r"[^\W\d][\w'-]*", types))
    kept = invariants(crate)
    for path in generated.paths_of(crate, "src"):
        text = generated.read(path)
        for unit in generated.parsed(path).units:
            if unit.kind == "fn":
                contract = set(re.findall(r"[^\W\d][\w'-]*", text[unit.head:unit.start])) | kept.get(unit.owner, set())
                functions.append((path, unit, contract, set(re.findall(r"\w+", text[unit.start:unit.end]))))
    return definitions, functions


def invariants(crate):
    """Returns the words of the invariant of each type of a crate, which each of its methods takes and keeps."""
    found = {}
    for path in generated.paths_of(crate, "src"):
        for name, body in re.findall(r"^impl(?:<[^{]*?>)? Model for (\w+)[^{]*\{\n(.*?)^\}", generated.read(path), re.M | re.S):
            for said in re.findall(r"ghost invariant = \{(.*?)\};", body, re.S):
                found.setdefault(name, set()).update(re.findall(r"[^\W\d][\w'-]*", said))
    return found


@functools.cache
def names_of_laws(crate):
    """Returns the names that a check gives the laws of a crate."""
    found = []
    for path in generated.paths_of(crate, "src"):
        module = path.split("/src/")[1].removesuffix(".rt").removesuffix("/mod").replace("/", "::")
        inside = "" if module in ("lib", "main") else module + "::"
        found += [inside + it.name for it in generated.parsed(path).units if generated.is_law(it) and not it.owner]
    return found


class Trial:
    def __init__(self, tools, copy, crate, budget, of_crate, told=print, asks_runs=False, log=None):
        self.tools, self.copy, self.crate, self.budget, self.variants = tools, copy, crate, budget, of_crate
        self.told, self.asks_runs, self.log = told, asks_runs, log
        self.results, self.refusers, self.at_once, self.log_of, self.through = {}, {}, 1, None, []

    def say(self, edit, result, why=""):
        # what the proofs let through, or a proof's shape alone stops, is asked of what runs
        if self.asks_runs and (result == SURVIVED or result == NOT_TRIED and not UNREAD.match(why)) and (ran_why := runs.refusing(self.tools, edit)):
            result, why = REFUSED, ran_why
        self.results[edit] = (result, why)
        if self.log:
            self.log.add(edit, result, why)
        if result in (SURVIVED, BY_CODE):
            self.told(f"{self.crate}: {result.upper()}{': ' + why if why else ''}\n{shown(edit)}", flush=True)
        elif os.environ.get("PLANTED_TELLS"):
            self.told(f"{self.crate}: {result}: {edit.name()}: {why[:160]}", flush=True)

    def prove(self, count, edits, is_sample, proved=None):
        """Proves the variants unchanged: whole, or of a crate of laws, for a sample, what the edits ask first alone. Returns what was said where that fails, or None.
        Where it is known which functions are proved, nothing is proved again."""
        asks = None
        if proved:
            self.variants.functions, self.log_of, self.at_once = proved(self.crate), proved, count
            self.variants.make(count)
            return None
        if is_sample and self.is_of_laws():
            self.variants.functions = names_of_laws(self.crate)
            asks = sorted({name for it in edits for name in self.likely(it)})
        why = self.variants.prove(count, asks)
        self.at_once = count
        return why

    def try_all(self, edits):
        if self.log_of:
            self.try_at_once(edits)
            return
        code = [it for it in edits if not it.is_definition()]
        # what is one run anyway isn't read by itself before
        if self.at_once > 1 and len(code) > self.at_once:
            code = self.readable(code)
        alone = self.try_functions([it for it in code if it.unit.kind == "fn"])
        far = [it for it in edits if not hasattr(it, "start") and not self.is_within(it)]
        near = [it for it in edits if it.is_definition() and it not in far]
        self.try_each([it for it in code if it.unit.kind != "fn"] + alone + near)
        for it in far:
            if self.budget.left() > 0:
                self.by_itself(it)

    def try_at_once(self, edits):
        """Tries edits of a crate that wasn't proved here in as few runs as may be: those of functions in a few variants, and each other in one."""
        code = [it for it in edits if not it.is_definition() and it.unit.kind == "fn"]
        for it in [one for one in code if not self.symbols(one)]:
            self.say(it, NOT_TRIED, "the log has no function of this name")
        code = [it for it in code if it not in self.results]
        others = [it for it in edits if it.is_definition() or it.unit.kind != "fn"]
        asks = {it: list(dict.fromkeys([*self.likely(it), *self.likely(it, 1)[:3]])) for it in others}
        loads = [*self.spread(code, len(code))[0], *([it] for it in others if asks[it])]
        unsure = []
        for at in range(0, len(loads), self.at_once):
            found = self.round_of(loads[at:at + self.at_once], asks)
            if found is None:
                return
            unsure += found
        # of what was tried with others and isn't settled its own function is asked once more
        alone = [it for it in unsure if it in code]
        for at in range(0, len(alone), self.at_once):
            batch = alone[at:at + self.at_once]
            for it in self.asked(batch, [self.symbols(it) for it in batch]) or []:
                self.say(it, SURVIVED)
        rest = [it for it in others if it in unsure or not asks[it]]
        for at in range(0, len(rest), self.at_once):
            self.let_through(rest[at:at + self.at_once])
        self.ask_above()

    def round_of(self, loads, asks):
        """Tries loads in one run, and returns the edits of which it shows nothing, or None at the end of the budget."""
        while loads:
            checked = self.variants.check(loads, [[name for it in load for name in asks.get(it) or self.symbols(it)] for load in loads])
            if checked is None:
                return None
            saids, places = checked
            left = self.without_unread(loads, saids, places)
            if left == loads:
                break
            loads = left
        if not loads:
            return []
        if not variants.is_reached(saids[0]) and len(loads) > 1:
            half = len(loads) // 2
            parts = [self.round_of(it, asks) for it in (loads[:half], loads[half:])]
            return None if None in parts else parts[0] + parts[1]
        found = []
        for load, said in zip(loads, saids):
            found += [it for it in load if not (self.is_judged(it, said, not variants.is_proved(said)) if it in asks else self.is_settled(it, said, places[it]))]
        return found

    def is_within(self, edit):
        """Whether the edit changes files of the crate alone."""
        return all(it.startswith(f"crates/{self.crate}/") for it in edit.texts())

    # ---- code

    def spread(self, waiting, most):
        """Lays edits out in so many loads, each with one of each function, and returns these and the rest."""
        loads, rest = [], []
        for it in waiting:
            place = (it.path, it.unit.start)
            free = next((one for one in loads if place not in one), None)
            if free is None and len(loads) < most:
                loads.append(free := {})
            if free is None:
                rest.append(it)
            else:
                free[place] = it
        return [list(it.values()) for it in loads], rest

    def readable(self, edits):
        """Returns the edits that the front end takes: it reads many variants at once, and proves nothing."""
        found, waiting = [], edits
        while waiting and self.budget.left() > 0:
            loads, rest = self.spread(waiting, READ)
            left = self.read(loads)
            if left is None:
                return found
            found += left
            waiting = rest
        return [it for it in edits if it in set(found)]

    def read(self, loads):
        while loads:
            checked = self.variants.check(loads, [[""]] * len(loads))
            if checked is None:
                return None
            saids, places = checked
            left = self.without_unread(loads, saids, places)
            if left == loads:
                return [it for load in loads for it in load] if variants.is_reached(saids[0]) else self.halved(loads, saids, self.read)
            loads = left
        return []

    def halved(self, loads, saids, tried):
        """Tries two halves where it can't be seen which edit spoils the run."""
        all_of = [it for load in loads for it in load]
        if len(all_of) == 1:
            self.say(all_of[0], NOT_TRIED, "it did not reach the prover: " + saids[0][-200:])
            return []
        half, found = len(all_of) // 2, []
        for part in (all_of[:half], all_of[half:]):
            left = tried(self.spread(part, len(part))[0])
            if left is None:
                return None
            found += left
        return found

    def without_unread(self, loads, saids, places):
        """Returns the loads without what can't be read; where an error of a variant stands in the unit of no edit, its load in two halves."""
        found = []
        for load, said in zip(loads, saids):
            whys = {it: why for it in load if (why := self.is_unread(it, said, places[it]))}
            errors = [] if whys or variants.is_reached(said) else ERROR.findall(said)
            if errors and len(load) == 1:
                whys[load[0]] = errors[0][2][:160]
            for it, why in whys.items():
                self.say(it, NOT_TRIED, f"it can't be read: {why}")
            left = [it for it in load if it not in whys]
            parts = [left[:len(left) // 2], left[len(left) // 2:]] if errors and self.at_once > 1 else [left]
            found += [it for it in parts if it]
        return found

    def try_functions(self, waiting):
        """Tries edits of functions, and returns those of which a run with others shows nothing."""
        alone, stood = [], Counter()
        while waiting and self.budget.left() > 0:
            loads, rest = self.spread(waiting, self.at_once)
            left = self.round(loads)
            if left is None:
                break
            # what calls a refused function comes again without it, and last of all by itself
            stood.update(left)
            alone += [it for it in left if stood[it] > 1]
            waiting = [it for it in left if stood[it] < 2] + rest
        return alone

    def round(self, loads):
        """Tries loads of edits of different functions, and returns those of which nothing is known yet, or None at the end of the budget."""
        while loads:
            only = [[name for it in load for name in self.symbols(it)] for load in loads]
            checked = self.variants.check(loads, only if all(only) else None)
            if checked is None:
                return None
            saids, places = checked
            left = self.without_unread(loads, saids, places)
            if left == loads:
                break
            loads = left
        if loads and not variants.is_reached(saids[0]):
            return self.halved(loads, saids, self.round)
        return [it for load, said in zip(loads, saids) for it in load if not self.is_settled(it, said, places[it])] if loads else []

    def is_settled(self, edit, said, place):
        goals = self.tools.own_goals(said, (edit.path, *place, edit.unit.name, edit.unit.owner))
        if goals:
            self.say(edit, REFUSED, ", ".join(goals[:3]))
        elif gone := self.gone(edit, said):
            self.say(edit, NOT_TRIED, f"refused only because a proof names what the edit took away: {gone}")
        elif self.still_proved(edit, said):
            self.say(edit, SURVIVED)
        else:
            return False
        return True

    def is_unread(self, edit, said, place):
        for path, line, why in ERROR.findall(said):
            if edit.path.endswith("/" + path) and place[0] <= int(line) <= place[1] and not re.match(r"`[^`]*`: ", why):
                return why[:160]
        return ""

    def gone(self, edit, said):
        """Returns what the proof of the edit's function says that names something which is gone."""
        module = "|".join(filter(None, [os.path.basename(edit.path).removesuffix(".rt"), edit.unit.owner]))
        place = re.compile(rf"(\./)?proofs/(\S*/)?(?:{module})/(\S*/)?{edit.unit.name}/|(\./)?proofs/{edit.unit.name}/")
        return next((it[:160] for it in said.split("\n") if place.match(it) and self.tools.GONE.match(it)), "")

    def symbol(self, path, unit):
        """A pattern for the names that a check gives a function."""
        module = os.path.basename(path).removesuffix(".rt")
        inside = "" if module in ("lib", "main") else rf"(?:\w+::)*{module}::"
        # a method of a type with arguments has these in its name, as Device+ProgramAnswers::ask
        own = rf"{inside}(?:[\w+]+::)?{unit.name}"
        # and it stands in the module of its type, which may be another
        return rf"(?:{own}|(?:\w+::)*{unit.owner}(?:\+\w+)*::{unit.name})" if unit.owner else own

    def named(self, path, unit, names):
        """Returns those of a check's names that a function has: of several methods of one name the type's own, or those of its traits."""
        whole = re.compile(self.symbol(path, unit))
        found = [it for it in names if whole.fullmatch(it)]
        holders = {it: it.split("::")[-2] if "::" in it else "" for it in found}
        if not unit.owner:
            return [it for it in found if not holders[it][:1].isupper()] or found
        return [it for it in found if holders[it] == unit.owner] or [it for it in found if unit.owner in holders[it]] or found

    def symbols(self, edit):
        return self.named(edit.path, edit.unit, self.variants.functions)

    def still_proved(self, edit, said):
        told = dict(re.findall(rf"^fn {self.crate}::(\S+): (.*)$", said, re.M))
        found = self.symbols(edit) or self.named(edit.path, edit.unit, told)
        return bool(found) and all(told.get(it) == "proved" for it in found)

    # ---- definitions, constants and macros

    def likely(self, edit, step=0):
        """Returns the functions that are asked of an edit, first few and then more: what refused others of its definition, or those whose contracts cite it, the
        shortest proofs first."""
        if hasattr(edit.unit, "law"):
            return [it for it in self.variants.functions if it.rpartition("::")[2] == edit.unit.law] if step == 0 else []
        known = self.refusers.get((edit.path, edit.unit.name))
        if known and step == 0:
            return [max(known, key=lambda it: (known[it], -self.size(it)))]
        definitions, functions = citing(self.crate)
        words, seen = {edit.unit.name.partition(".")[0]}, set()
        while words - seen:
            over = [(path, unit) for path, unit, contract, body in functions if words & contract or not edit.is_definition() and words & body]
            over = [it for it in over if generated.is_law(it[1])] or over
            found = {name for path, unit in over for name in self.named(path, unit, self.variants.functions)}
            if len(found) > 2 * step:
                return sorted(found, key=self.size)[2 * step:2 + 6 * step]
            seen |= words
            words = words | {name for name, cited in definitions.items() if cited & words}
        return []

    def size(self, function):
        folder = f"{self.copy.folder(self.crate)}/proofs/{function.replace('::', '/')}"
        return sum(os.path.getsize(f"{at}/{it}") for at, _, files in os.walk(folder) for it in files)

    def try_each(self, edits):
        """Tries edits one by one, each in its variant: first the functions that are likely to refuse it, then more, then all."""
        waiting = [list(edits), [], []]
        while any(waiting) and self.budget.left() > 0:
            # what is full is tried first, and else what was asked least
            step = next((it for it in (2, 1, 0) if len(waiting[it]) >= self.at_once), None)
            step = next(it for it in range(3) if waiting[it]) if step is None else step
            batch, waiting[step] = waiting[step][:self.at_once], waiting[step][self.at_once:]
            if step < 2:
                only = [self.likely(it, step) for it in batch]
                waiting[step + 1] += [it for it, asks in zip(batch, only) if not asks]
                sure = [(it, asks) for it, asks in zip(batch, only) if asks]
                left = self.asked([it for it, _ in sure], [asks for _, asks in sure]) if sure else []
            else:
                left = self.asked(batch, None)
            if left is None:
                return
            if step < 2:
                waiting[step + 1] += left

    def let_through(self, batch):
        """Asks the functions whose contracts reach each edit, where the crate wasn't proved here, so that a check of all of it would take long: so many of them at most."""
        only = [self.reaching(it) for it in batch]
        left = self.asked([it for it, asks in zip(batch, only) if asks], [it for it in only if it]) if any(only) else []
        self.through += [(it, len(only[batch.index(it)])) for it in [*(left or []), *(it for it, asks in zip(batch, only) if not asks)]]

    def ask_above(self):
        """Asks what the functions of its own crate let through of functions of crates above, in two of these at most that are near."""
        waiting = {edit: [it for it in self.tools.USES if edit.is_definition() and self.above_in(it, edit)] for edit, _ in self.through}
        asked = {edit: f"{count} functions of {self.crate}" for edit, count in self.through}
        for _ in range(2):
            groups = {}
            for edit, over in waiting.items():
                over.sort(key=lambda it: (len(self.between(it)), not it.endswith("_laws")))
                if over and len(self.between(over[0])) <= MOST_BETWEEN:
                    groups.setdefault(over.pop(0), []).append(edit)
            for over, edits in groups.items():
                for at in range(0, len(edits), 4):
                    for edit, count, why, is_nothing in self.asked_above(over, edits[at:at + 4]):
                        asked[edit] += f", {count} of {over}"
                        if is_nothing:
                            self.say(edit, NOT_TRIED, why)
                        elif why:
                            self.refused(edit, f"{over}: {why}")
                        if why:
                            del waiting[edit]
        for edit in waiting:
            self.say(edit, SURVIVED, f"asked: {asked[edit]}; what else would reach it: {', '.join(waiting[edit]) or 'nothing'}")

    def between(self, over):
        """Returns the crates from this one up to one above."""
        return tuple(it for it in self.tools.USES if it in (self.crate, over) or it in self.tools.below(over) and self.crate in self.tools.below(it))

    def above_in(self, over, edit):
        """Returns the functions of a crate above whose contracts, or those of their traits, reach a definition, and its laws that call a law of this crate whose
        contract does; the shortest proofs first."""
        if self.crate not in self.tools.below(over) or over.endswith("_tests") or not (names := self.log_of(over)):
            return []
        words = self.words_over(edit.unit.name.partition(".")[0])
        definitions, functions = citing(over)
        named = re.compile(rf"Rattle\.{self.crate}\.specs\.[\w.]+\.\{{([^}}]*)\}}|\b{self.crate}::([\w:]+(?:\{{[^}}]*\}})?)")
        taken = {word for text in texts_of(over) for it in named.findall(text) for word in re.findall(r"[^\W\d][\w'-]*", " ".join(it))} & words
        laws = {unit.name for _, unit, contract, _ in citing(self.crate)[1] if generated.is_law(unit) and words & contract}
        callers = {name for path, unit, _, body in functions if generated.is_law(unit) and self.crate in body and laws & body for name in self.named(path, unit, names)}
        if not taken and not callers:
            return []
        while more := {name for name, cited in definitions.items() if cited & taken} - taken:
            taken |= more
        found = callers | {name for path, unit, contract, _ in functions if taken & contract for name in self.named(path, unit, names)}
        found |= {name for name in names for it in taken if re.search(rf"\w{it}::\w+$", name)}
        size = {name: sum(os.path.getsize(f"{at}/{it}") for at, _, files in os.walk(f"{generated.TOP}/crates/{over}/proofs/{name.replace('::', '/')}") for it in files) for name in found}
        return sorted(found, key=size.get)[:8]

    def words_over(self, word):
        """Returns a definition's name, with the names of what cites it in its crate: definitions, and traits whose functions' contracts do."""
        definitions, _ = citing(self.crate)
        words = {word}
        while more := {name for name, cited in definitions.items() if cited & words} - words:
            words |= more
        traits = re.compile(r"^pub(?:\([a-z]+\))? trait (\w+)[^\n]*\{\n(.*?)^\}", re.M | re.S)
        return words | {name for path in generated.paths_of(self.crate, "src") for name, held in traits.findall(generated.read(path)) if words & {*re.findall(r"[^\W\d][\w'-]*", held)}}

    def asked_above(self, over, edits):
        """Asks functions of a crate above of each edit, in copies of the crates up to there. Yields each edit with how many were asked, what refused it, and whether that shows nothing."""
        laws = {edit: self.above_in(over, edit) for edit in edits}
        copy = self.tools.Copy({over, *self.tools.below(over)})
        try:
            chain = chains.Chain(copy, self.between(over), self.budget)
            saids = chain.ask(edits, [f"{over}::{it}" for it in dict.fromkeys(it for found in laws.values() for it in found)])
        finally:
            copy.remove()
        for edit, said in zip(edits, saids or [""] * len(edits)):
            told = [it for it in laws[edit] if re.search(rf"^fn {over}::{re.escape(it)}: ", said, re.M)]
            if not variants.is_reached(said) or not told:
                yield edit, 0, "", False
                continue
            refused = [it for it in told if not re.search(rf"^fn {over}::{re.escape(it)}: proved", said, re.M)]
            try:
                yield edit, len(told), self.tools.refusal(said, [edit.path.split("/", 2)[2]]) if refused else "", False
            except self.tools.Bad as it:
                yield edit, len(told), str(it), True

    def reaching(self, edit):
        """Returns the functions whose contracts reach what an edit changes, the shortest proofs first."""
        definitions, functions = citing(self.crate)
        words = {edit.unit.name.partition(".")[0]}
        while more := {name for name, cited in definitions.items() if cited & words} - words:
            words |= more
        over = [(path, unit) for path, unit, contract, body in functions if words & contract or words & body and not edit.is_definition()]
        return sorted({name for path, unit in over for name in self.named(path, unit, self.variants.functions)}, key=self.size)[:MOST_ASKED]

    def asked(self, batch, only):
        """Asks these functions, or all, of each edit; returns the edits of which that shows nothing, or None at the end of the budget."""
        checked = self.variants.check([[it] for it in batch], only)
        if checked is None:
            return None
        saids, places = checked
        if not variants.is_reached(saids[0]):
            left = [it for load in self.without_unread([[it] for it in batch], saids, places) for it in load]
            if left != batch or len(batch) > 1:
                half = len(left) if left != batch else len(left) // 2
                asks = dict(zip(map(id, batch), only)) if only else {}
                parts = [self.asked(left[at:at + half], only and [asks[id(it)] for it in left[at:at + half]]) for at in range(0, len(left), half or 1)]
                return None if None in parts else [it for part in parts for it in part]
        left = []
        for edit, said in zip(batch, saids):
            if not self.is_judged(edit, said, only is None):
                left.append(edit)
        return left

    def is_judged(self, edit, said, is_whole):
        if variants.is_proved(said):
            if is_whole:
                self.above(edit)
            return is_whole
        # where the crate wasn't proved here, no more is asked of what something refuses
        is_whole = is_whole or bool(self.log_of)
        open_now = re.findall(rf"^fn {self.crate}::(\S+): (?:not proved|no proof)", said, re.M)
        try:
            why = self.tools.refusal(said, [edit.path.split("/", 2)[2]])
        except self.tools.Bad as it:
            # another function may refuse it by a goal
            if is_whole or "cannot be read" in str(it) or "did not reach" in str(it):
                self.say(edit, NOT_TRIED, str(it))
                return True
            return False
        if not self.is_by_law(edit, why, open_now) and not is_whole:
            return False
        self.refusers.setdefault((edit.path, edit.unit.name), Counter()).update(open_now)
        self.refused(edit, why, open_now)
        return True

    def refused(self, edit, why, open_now=()):
        if edit.operator == pairs.OPERATOR and "laws" not in why:
            self.say(edit, NOT_TRIED, f"the code isn't what the definition says then: {why}")
        else:
            self.say(edit, REFUSED if self.is_by_law(edit, why, open_now) else BY_CODE, why)

    def is_by_law(self, edit, why, open_now):
        """Whether a law refuses the edit: its own goal, or a lemma that its proof uses."""
        if not edit.is_definition() or self.is_of_laws() or "laws" in why or not os.path.isfile(f"{generated.TOP}/crates/{self.crate}/src/laws.rt"):
            return True
        return bool({*names_of_laws(self.crate)} & {*open_now})

    def by_itself(self, edit):
        """Checks the crate with one edit that changes files of several crates."""
        texts = edit.texts()
        own = {path: text for path, text in texts.items() if os.path.isdir(f"{self.copy.root}/crates/{path.split('/')[1]}")}
        if not os.path.isdir(f"{self.copy.folder(self.crate)}/out"):
            variants.ran(["rt", "check", "--jobs", "1"], self.copy.folder(self.crate), self.budget)
        self.copy.keep(self.crate)
        self.copy.write(own)
        said = variants.ran(["rt", "check", "--jobs", "1"], self.copy.folder(self.crate), self.budget)
        self.copy.restore(own)
        self.copy.put_back(self.crate)
        if said is None:
            return
        if re.search(r"^logic=proved", said, re.M):
            self.above(edit)
            return
        try:
            self.refused(edit, self.tools.refusal(said, [edit.path.split("/", 2)[2]]))
        except self.tools.Bad as it:
            self.say(edit, NOT_TRIED, str(it))

    def is_of_laws(self):
        units = [it for path in generated.paths_of(self.crate, "src") for it in generated.parsed(path).units]
        return all(generated.is_law(it) for it in units if it.kind == "fn")

    def above(self, edit):
        """A definition that its own crate lets through is asked of the crates above that cite it, those of laws first."""
        if not edit.is_definition() or edit.operator == shadows.OPERATOR or hasattr(edit.unit, "law"):
            self.say(edit, SURVIVED)
            return
        module = edit.path.split("/specs/")[1].removesuffix(".antt").replace("/", ".")
        word = edit.unit.name.partition(".")[0]
        cites = re.compile(rf"Rattle\.{self.crate}\.specs\.{module}\b")
        over = [it for it in self.tools.USES if self.crate in self.tools.below(it) and any(cites.search(text) and re.search(rf"\b{word}\b", text) for text in texts_of(it))]
        over.sort(key=lambda it: not it.endswith("_laws"))
        for it in over[:3]:
            why = self.refused_in(it, edit)
            if why is None:
                return
            if why:
                self.say(edit, REFUSED, f"{it}: {why}")
                return
        self.say(edit, SURVIVED, f"also in {', '.join(over[:3])}" if over else "")

    def refused_in(self, over, edit):
        """Returns the goals that refuse a definition in a crate above or on the way there, or nothing, or None at the end of the budget."""
        copy = self.tools.Copy({over, *self.tools.below(over)})
        try:
            copy.write(edit.texts())
            for name in [it for it in self.tools.USES if it in {over, *self.tools.below(over)} and (it == self.crate or self.crate in self.tools.below(it))]:
                said = variants.ran(["rt", "check", "--jobs", "1"], copy.folder(name), self.budget)
                if said is None:
                    return None
                if "logic=proved" not in said:
                    return self.tools.refusal(said, [edit.path.split("/", 2)[2]])
        except self.tools.Bad:
            return ""
        finally:
            copy.remove()
        return ""
