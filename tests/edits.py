"""What operators make of a small function and of a small definition, and what they leave alone."""
import functools
import os
import sys
import types

TOP = os.path.dirname(os.path.dirname(os.path.realpath(__file__)))
sys.dont_write_bytecode = True
sys.path.insert(0, f"{TOP}/tools")
from operators import code_operators, code_special, contracts, definition_operators, definitions, donors, generated, items, lawless, pairs, pinned, premises, shadows, short, spelling, trial, trying, typed, variants, whole  # noqa: E402
from operators.facts import Facts  # noqa: E402

CODE = """/// Whether a < b.
pub fn picks(a: u8, b: u8) -> bool
    requires { a < 7 }
    ensures { result ≡ true }
{
    // here a < 9
    if a < 3 {
        return false;
    }
    b == 4 && a != 2
}

#[test]
fn it_picks() {
    prove!(picks(1, 4));
}
"""
MADE_OF_CODE = {
    ("a comparison", "if a <= 3 {"), ("a comparison", "if a >= 3 {"), ("a bound", "if a < 4 {"), ("a bound", "if a < 2 {"), ("a condition", "if true {"),
    ("a condition", "return true;"), ("a sign", "b == 4 || a != 2"), ("an operand left out", "b == 4"), ("an operand left out", "a != 2"), ("a comparison", "b == 4 && a == 2"),
    ("a constant", "if b < 3 {"), ("a constant", "b == 0 && a != 2"), ("an early return", "{ return true;"),
}
DEFINITION = """use Rattle.std.specs.Prelude.{◌≡◌, ◌≤◌, ℕ}

-- here x < y
abbrev pub Fits : ℕ → ℕ → Type 0
Fits a b = a ≤ b → (c : ℕ) × (c ≡ a)
"""
MADE_OF_DEFINITION = {
    ("a false premise", "Fits a b = ⊥ → a ≤ b → (c : ℕ) × (c ≡ a)"), ("a false premise", "Fits a b = a ≤ b → ⊥ → (c : ℕ) × (c ≡ a)"), ("a false premise", "Fits a b = ⊥ → (c : ℕ) × (c ≡ a)"),
    ("a premise left out", "Fits a b = Unit {0} → (c : ℕ) × (c ≡ a)"), ("a conclusion dropped", "Fits a b = a ≤ b → Unit {0}"), ("an exists freed", "Fits a b = a ≤ b → (c : ℕ) → (c ≡ a)"),
    ("an exists freed", "Fits a b = a ≤ b → (c : ℕ) × Unit {0}"), ("a comparison", "Fits a b = a < b → (c : ℕ) × (c ≡ a)"), ("a comparison", "Fits a b = a ≤ b → (c : ℕ) × (c ≤ a)"),
    ("a bound", "Fits a b = suc a ≤ b → (c : ℕ) × (c ≡ a)"), ("two operands turned", "Fits a b = b ≤ a → (c : ℕ) × (c ≡ a)"),
}
CHANGING = """pub struct Box { left: u8 }
impl Box {
    fn take(&mut self) { self.left = 1; }
    fn step(&mut self) {
        self.left = 2;
    }
}
"""
# what is made one after the other
MADE_ONE_AFTER_THE_OTHER = {
    ("a special case", "if (a < 3) && b == 17 {"), ("a special case", "if (a < 3) || a == 0 {"), ("a special case", "{ if a == 1 { return true; }"), ("a special case", "((b == 4) || b > 7) && a != 2"),
    ("another expression", "if b == 4 {"), ("another expression", "return b == 4 && a != 2;"), ("another expression", "b == 4 && (a != 2 || a < 3)"), ("another statement", "return false; b == 4 && a != 2"),
}
MADE_WIDE = {
    ("another number", "if a < 7 {"), ("a special case", "Fits a b = (b ≡ 0) × (a ≤ b → (c : ℕ) × (c ≡ a))"), ("a special case", "Fits a b = a ≡ 0"),
}
# what short lists have
MADE_SHORTLY = {
    ("a case told apart", "if ((a < 3) && b == 0) {"), ("a case told apart", "((b == 4 && a != 2) || a > 0)"), ("another expression of the function", "if a < b {"), ("another expression of the function", "return b == 4;"),
    ("another term of the definition", "Fits a b = (c ≡ a) → (c : ℕ) × (c ≡ a)"), ("another term of the definition", "Fits a b = 0 ≤ b → (c : ℕ) × (c ≡ a)"), ("another term of the definition", "Fits a b = a ≤ b → (c : ℕ) × (c ≡ b)"),
}
# clauses that give what comes of a function by equations, each with its left side, and clauses that don't
EQUATIONS = {
    "result ≡ f self.old": "result", "f self.old ≡ self.new.items": "self.new.items", "OnOk result (string_bytes text.new ≡ f text.old)": "OnOk: string_bytes text.new",
    "IfOk result (λ made. made.items ≡ f words.now)": "IfOk made: made.items", "IsTrue result ↔ Fits self.now": "result", "(command : Command) → result ≡ f command": "result",
    "result ≤ f self.old": None, "self.old ≡ [] → result ≡ None": None, "IsRead self.old result self.new": None, "result ≡ f self.new": None, "(result ≡ a) ⊎ (result ≡ b)": None,
    "(result ≡ true) ↔ Fits self.now": "result", "SomeIff result (f value < 128) value": "result", "OnOk result (Spells (f packet.now) out.new.items)": "OnOk: out.new.items",
    "IsWritten (f self.old) out.old.items out.new.items": "out.new.items", "IsWritten (f self.new) out.old.items out.new.items": None, "SomeIff result (self.new ≡ []) value": None,
    "IfOk result (λ made. f made ≡ g made)": None, "OnOk result (a ≡ b)": None,
}
GIVEN = """pub fn takes(&mut self, place: &mut Place<'_>) -> Result<u8, Fault>
    requires { a < 7 }
    ensures taken { self.new ≡ f self.old }
    ensures place { OnOk result (place.new.items ≡ f self.old) }
{
    1
}

fn bounds(a: u8) -> u8
    ensures { result ≤ 7 }
{
    a
}

fn by_case(&mut self) -> bool
    requires { IsLine self.old }
    ensures answer { (result ≡ true) ↔ Fits self.old }
    ensures taken { result ≡ true → self.new ≡ f self.old }
    ensures left { result ≡ false → self.new ≡ self.old }
    ensures line { IsLine self.new }
{
    true
}

fn one_case(&mut self) -> bool
    ensures answer { (result ≡ true) ↔ Fits self.old }
    ensures taken { result ≡ true → self.new ≡ f self.old }
{
    true
}
"""
# how much of what comes of a function its contract gives, by its head
WHOLE = {
    "fn f(a: u8) -> bool ensures { IsTrue result ↔ Fits a }": whole.WHOLE,
    "fn f(a: u8) -> [u8; 2] ensures { result ≡ spelled a }": whole.WHOLE,
    "fn f(out: &mut Vec<u8>, a: u8) -> Option<&[u8]> ensures rest { out.new.items ≡ g out.old.items } ensures answer { option_copied result ≡ g a }": whole.WHOLE,
    "fn f(pair: &mut Pair) ensures left { pair.new.left ≡ 1 } ensures right { pair.new.right ≡ 2 }": whole.WHOLE,
    "fn f(pair: &mut Pair) ensures left { pair.new.left ≡ 1 }": whole.VIEW,
    "fn f(pair: &mut Pair) -> Result<(), Fault> ensures answer { result ≡ g pair.old } ensures good { OnOk result (pair.new ≡ g pair.old) } ensures bad { OnErr result (pair.new ≡ pair.old) }": whole.WHOLE,
    "fn f(pair: &mut Pair) -> Result<(), Fault> ensures answer { result ≡ g pair.old } ensures good { OnOk result (pair.new ≡ g pair.old) }": whole.ON_OK,
    "fn f(text: &mut String) -> Result<(), Fault> ensures { OnOk result (string_bytes text.new ≡ g text.old) }": whole.ON_OK,
    "fn f(a: u8) -> Result<u8, Fault> ensures { IfOk result (λ v. v ≡ g a) }": whole.ON_OK,
    "fn f(a: u8) -> u8 ensures { a < 3 → result ≡ 1 }": whole.OPEN,
    "fn f(out: &mut Vec<u8>) ensures { IsWritten 3 out.old.items out.new.items }": whole.OPEN,
    "fn f(list: &mut Ring) ensures { items_of list.new ≡ items_of list.old }": whole.VIEW,
    "fn f(at: *mut u8) -> u8 ensures { result ≡ 1 }": whole.OPEN,
    "fn f(out: Option<&mut u8>) -> u8 ensures { result ≡ 1 }": whole.OPEN,
    "fn f<W: Write>(out: W) -> u8 ensures { result ≡ 1 }": whole.OPEN,
    "fn f(a: u8) ensures { g a ≡ 1 }": whole.OPEN,
}


def lines_of(text, found):
    """Returns each edit's operator and the line that it makes, and fails where one changes what is no code."""
    made = set()
    for operator, start, end, new in found:
        other = text[:start] + new + text[end:]
        begins = text.rfind("\n", 0, start) + 1
        ends = other.find("\n", start + len(new))
        made.add((operator, other[begins:ends].strip()))
    return made


def same(*texts):
    forms = {spelling.code_form("{ " + it + " }", items.File(CODE).units[0]) for it in texts}
    return len(forms) == 1


@functools.cache
def below(crate):
    """Returns the crates of the tree that a crate stands on, those that it names last first."""
    found = []
    for it in variants.uses_of(crate):
        if os.path.isdir(f"{TOP}/crates/{it}"):
            found += [it, *below(it)]
    return tuple(dict.fromkeys(found))


def untyped(path, name, old, new):
    """Tells why an edit has no type that puts another text in a place of a clause or of a function."""
    start = generated.read(path).index(old)
    unit = next(it for it in generated.parsed(path).units if it.name == name and it.start <= start < it.end)
    return typed.why_untyped(generated.Generated(path, unit, "", start, start + len(old), new), below(path.split("/")[1]))


def samples_are_parts():
    """What stands in `EQUAL` was taken from the whole list: so a sample takes the same edit of several that mean the same, whatever is drawn first."""
    def drawn(most, seed, is_left):
        edits, same = trying.chosen("osdp_ring", types.SimpleNamespace(below=below), most, seed, False, is_left)
        return {(it.path, it.start, it.end, it.new) for it in edits + same}
    every, some = drawn(None, 0, False), drawn(100, 0, True)
    more = (some | drawn(100, 0, False)) - every
    assert not more, f"a sample has what the whole list hasn't: {min(more)}"
    assert drawn(80, 0, True) < some, "a larger sample doesn't hold the smaller one"


def types_are_told():
    """What can't be read isn't drawn, and nothing that can be is left out: no definition of the tree is told to have no type."""
    for path in generated.all_paths("specs"):
        for it in generated.parsed(path).units:
            why = it.tree and typed.why_untyped(generated.Generated(path, it, "", it.start, it.start, ""), below(path.split("/")[1]))
            assert not why, f"{path} {it.name} is told to have no type: {why}"
    calls, over, said = "crates/osdp_frame_laws/specs/Calls.antt", "run.ended && total_size run.parts == length run.bytes", 'communication.print(f, "COM")'
    assert untyped(calls, "is_over", over, "run.ended && length run.bytes") == "`length run.bytes` is ℕ, and Bool is wanted", "a number is a truth value"
    assert untyped(calls, "is_over", over, "run.ended && total_size run.ended == length run.bytes") == "`run.ended` is Bool, and List RunItem is wanted", "an argument is of another type"
    assert not untyped(calls, "is_over", over, "false || run.ended"), "what has a type is told to have none"
    assert untyped("crates/osdp_msg/specs/ReplyTable.antt", "reply_spelled", "(0x50, raw_data r)", "(0x54, communication_data elsewhere)") == "`elsewhere` is not in scope", "a name is taken from nowhere"
    reply = "crates/osdp_msg/src/reply.rt"
    assert untyped(reply, "fmt", said, "keypad.print(f)") == "`keypad` is not in scope", "a name of another case is taken"
    assert untyped(reply, "fmt", said, "Elsewhere::print(f)") == "`Elsewhere` is not in scope", "a type is taken from nowhere"
    assert not untyped(reply, "fmt", said, "communication.print(f)"), "a name of its case is told not to be in scope"


def main():
    file = items.File(CODE)
    assert [it.name for it in file.units] == ["picks"], "a test has no edits"
    found = code_operators.Maker(file, file.units[0], Facts([file], [])).make()
    body = CODE.index("{\n    // here")
    assert all(start >= body and "//" not in CODE[start:end] or CODE[start] == "{" for _, start, end, _ in found), "an edit changes what is no code"
    made = lines_of(CODE, found)
    assert MADE_OF_CODE <= made, f"not made: {MADE_OF_CODE - made}"
    again = code_operators.Maker(file, file.units[0], Facts([file], [])).make()
    assert found == again, "another run makes other edits"
    stream = [*code_special.Special(file, file.units[0], Facts([file], [])).make(), *donors.edits(file, file.units[0], (file,), True)]
    assert MADE_ONE_AFTER_THE_OTHER <= (found := lines_of(CODE, stream)), f"not made: {MADE_ONE_AFTER_THE_OTHER - found}"

    file = definitions.File(DEFINITION)
    found = definition_operators.Maker(DEFINITION, file.units[0], file, definition_operators.Facts([file]), file.types).make()
    made = lines_of(DEFINITION, found)
    assert MADE_OF_DEFINITION <= made, f"not made: {MADE_OF_DEFINITION - made}"
    made |= lines_of(CODE, again)
    assert MADE_WIDE <= made, f"not made: {MADE_WIDE - made}"

    made = lines_of(CODE, [*short.Short(items.File(CODE), items.File(CODE).units[0], Facts([items.File(CODE)], [])).make()])
    made |= lines_of(DEFINITION, [*short.ShortTerms(file, file.units[0]).make()])
    assert MADE_SHORTLY <= made, f"not made: {MADE_SHORTLY - made}"

    assert {it: pinned.left_side(it) for it in EQUATIONS} == EQUATIONS, f"left sides: { {it: pinned.left_side(it) for it in EQUATIONS} }"
    given = pinned.functions(GIVEN)
    assert given["takes"].left_sides() == ["self.new", "OnOk: place.new.items"] and given["takes"].results() == ["result", "self.new", "place.new"], "a contract of equations"
    assert given["bounds"].left_sides() is None and given["one_case"].left_sides() is None, "a bound, or a case, leaves values"
    assert given["by_case"].left_sides() == ["result", "either: self.new", "either: self.new"], "two cases give a value"
    answers = pinned.functions(generated.read("crates/osdp_door/src/door.rt"))["answer"]
    assert answers.left_sides() == ["result", "self.new"], "a function of a trait has no contract"

    for head, kind in WHOLE.items():
        text = head + "\n{\n    g()\n}\n"
        found = whole.kind(pinned.functions(text)["f"], items.File(text).units[0], head, {"Pair": {"left": "u8", "right": "u8"}})
        assert found == kind, f"what a contract gives is told as {found}: {head}"

    cites = {"IsLeast": {"IsLess", "n"}, "IsLess": {"m"}, "IsOther": {"IsLess"}}
    assert lawless.reached({"IsLeast", "of"}, cites) == {"IsLeast", "IsLess"}, "what a law reaches is told wrongly"
    taken = "use Rattle.osdp_bus.specs.Machine.{add_refusal, after_add as bus_after_add}\nuse Rattle.osdp_c_values.specs.Panels as panel\n"
    names = lawless.taken(taken)[0]
    assert names == {"add_refusal": ("osdp_bus", "add_refusal"), "bus_after_add": ("osdp_bus", "after_add"), "panel": ("osdp_c_values", "")}, f"taken: {names}"
    told = lawless.named("NewEnds config ∷ panel.NewEnds config ∷ bus_after_add p", "osdp_panel", names)
    assert {("osdp_panel", "NewEnds"), ("osdp_c_values", "NewEnds"), ("osdp_bus", "after_add")} <= told, f"definitions of one name aren't told apart: {told}"
    asked = "fn f(n: u8)\n    requires small { n < (2 : ℕ) → { A } }\n    requires { B }\n    ensures { C }\n"
    assert lawless.words_of(lawless.without_unsaid(asked)) & {"A", "B", "C"} == {"C"}, "what a function requires is told as a statement"
    ring, bus = "crates/osdp_ring/specs/Ring.antt", "crates/osdp_bus/src/deadlines.rt"
    kept = {name: [it for it in generated.parsed(ring).units if it.name.startswith(f"{name}.")] for name in ("Strings", "IsRing")}
    told = {name: lawless.is_of_types(units, generated.read(ring)) for name, units in kept.items()}
    assert told == {"Strings": True, "IsRing": False}, f"which records are of types alone: {told}"
    told = {it.name: lawless.is_promise(it, bus, generated.read(bus)) for it in generated.parsed(bus).units if it.kind == "fn"}
    assert not any(told.values()), f"what osdp_bus keeps to itself is told as a promise: {told}"
    count = next(it for it in generated.parsed("crates/osdp_frame/src/ahead.rt").units if it.name == "deciding_count")
    assert lawless.is_promise(count, "crates/osdp_frame/src/ahead.rt", generated.read("crates/osdp_frame/src/ahead.rt")), "what a crate shows is a promise"
    assert "IsFirstOf" not in lawless.lawless().get("osdp_example_lines", ()), "a statement with a law is told as one without"
    places = lawless.cited()[1]
    stale = [f"{crate} {it}" for crate, excused in lawless.excused().items() for it in excused if crate not in places.get(it, ())]
    assert not stale, f"docs/EDITS.md excuses what is no definition: {stale}"

    file = items.File(CHANGING)
    made = lines_of(CHANGING, [*code_special.Special(file, file.units[1], Facts([file], [])).make()])
    assert {("a special case", "self.left = 2; self.take();"), ("a special case", "if self.left > 7 { return; } self.left = 2;")} <= made, "a call more isn't made"
    found = list(pairs.of_crate("osdp_ring", (), False))
    assert any(all(it.is_definition() for it in one.edits) for one in found), "two clauses of a definition are a pair"
    pair = next(it for it in found if not all(one.is_definition() for one in it.edits))
    assert [it.is_definition() for it in pair.edits] == [True, False] and len(pair.texts()) == 2, "a pair is of a definition and of code"
    path = "crates/osdp_reader_laws/specs/Steps.antt"
    taken = next(it for it in shadows.of_file(path, ("osdp_reader", "osdp_msg", "osdp_frame")) if it.name_of == "hears" and it.case == "Taken")
    assert "Table as otherwise\n" in taken.texts()[path] and "wrong Taken r p o = record o {" in taken.texts()[path], "laws take a definition otherwise"

    made = {it.lines()[1]: it for it in contracts.of_crate("osdp_msg_laws", ("osdp_msg",))}
    one = next((it for line, it in made.items() if "HasLongestText ReplyFits reply_text 5730" in line), None)
    assert one and contracts.made(one.path, one.text(), items.File(one.text()), ("osdp_msg",)) is not None, "a law's contract isn't changed"

    assert "IsRing" in trial.invariants("osdp_ring")["Ring"], "what a type's invariant says reaches none of its methods"
    assert not list(premises.missing()), f"premises.py names what isn't there: {list(premises.missing())}"
    found = {it.name(): it for it in premises.of_crate("osdp_calls")}
    told = found["specs/Premises.antt InRange (SetHandler)"].texts()["crates/osdp_calls/specs/Premises.antt"]
    assert "    InRange (SetHandler _ _) l = ⊥\n    InRange _ l = Unit {0}\n" in told and ", SetHandler}" in told, "a case of a premise isn't made false"
    told = found["specs/Premises.antt IsSetUp.read"].texts()["crates/osdp_calls/specs/Premises.antt"]
    assert "pub read : ⊥\n" in told and len(found) == len(premises.of_crate("osdp_calls")), "a field of a premise isn't made false"
    assert not any(name.startswith("specs/Premises.antt IsSetUp.others") for name in found), "what is no statement is made false"
    more = generated.read("crates/osdp_calls/specs/Premises.antt").replace("    pub openings : l.openings ≡ []\n", "    pub openings : l.openings ≡ []\n    pub none : ⊥\n")
    assert premises.made({"crates/osdp_calls/specs/Premises.antt": more}).part.startswith("IsSetUp."), "a false field more is another premise"
    told = found["specs/Premises.antt IsSetUp.devices: site_at k l.stations ≡ Some t → ⊥"].texts()["crates/osdp_calls/specs/Premises.antt"]
    assert "pub devices : (k : ℕ) (t : Station H) → site_at k l.stations ≡ Some t → ⊥\n" in told, "what a premise says under one of its own isn't made false"
    parts = {it.part: it for crate in ("osdp_shared_line", "osdp_link_laws", "osdp_calls_instance") for it in premises.of_crate(crate)}
    assert "KeepsRule (ToPanel)" in parts and "KeepsRule (ToController)" not in parts, "the cases are of another type with the same names"
    assert "IsNoRefusal (report.Opened _) = ⊥\n" in parts["IsNoRefusal (report.Opened)"].texts()["crates/osdp_link_laws/specs/Refusals.antt"], "the cases of a type of the code aren't told apart"
    told = parts["PanelLineFits ((SaysToPanel (Some _)))"].texts()["crates/osdp_calls_instance/specs/LinePrograms.antt"]
    assert "PanelLineFits (SaysToPanel (Some _)) s = ⊥\nPanelLineFits (SaysToPanel None) s = Unit {0}\n" in told, "a case of an optional value isn't made false"
    told = parts["c_device.Fits (TakesBytes)"].texts()["crates/osdp_calls_instance/specs/CPrograms.antt"]
    assert "DeviceCallFits (TakesBytes _ _) d = ⊥\nDeviceCallFits _ d = Unit {0}\n\nabbrev pub c_device" in told and "  Fits = DeviceCallFits;\n" in told, "a kind's call isn't made false"

    assert same("a < 1", "a == 0", "(a) <= 0") and same("let _ = a; f(b)", "f((b))") and same("!(a == b)", "b != a"), "one meaning has two forms"
    assert same("a < 1 && b == 2", "b == 2 && a == 0") and not same("f(a) && g(b)", "g(b) && f(a)"), "the order tells where something is done, and there alone"
    samples_are_parts()
    types_are_told()
    assert not same("a < 1", "a < 2") and not same("f(a, b)", "f(b, a)") and not same("if a { f(); }", "f();"), "two meanings have one form"
    return 0


if __name__ == "__main__":
    sys.exit(main())
