"""How edits are laid out in variants of a crate, and how what a check says is told apart by them."""
import os
import sys
from types import SimpleNamespace

TOP = os.path.dirname(os.path.dirname(os.path.realpath(__file__)))
sys.dont_write_bytecode = True
sys.path.insert(0, f"{TOP}/tools")
from operators import chains, generated, trial, variants  # noqa: E402

SAID = """checked low_v1::reader::takes, 1 of 3
../low_v1/specs/Table.antt:7:3: error: expected `ℕ`
  the type of `takes` in low_v2 says more
note: ../low_v2/src/reader.rt:9:5: it is not proved that what the function ensures holds (`returns-clause-1`)
fn low_v1::reader::takes: not proved
fn low_v2::reader::takes: no proof: `search` did not prove `returns-clause-1`
fn low_v3::reader::takes: proved
only=3 proved=1"""


def of(*names):
    made = variants.Variants(None, "low", None)
    made.names = list(names)
    return made


def main():
    one, two, three = of("low_v1", "low_v2", "low_v3").split(SAID, ["low_v1", "low_v2", "low_v3"])
    assert "\nspecs/Table.antt:7:3: error: expected `ℕ`\n  the type of" in one and "returns-clause" not in one, "a variant lacks what was said of it"
    assert two.startswith("note: src/reader.rt:9:5: it is not proved") and "fn low::reader::takes: no proof" in two, "a variant's name isn't the crate's"
    assert all(it.endswith("only=3 proved=1") for it in (one, two, three)), "what is said of all isn't said of each"
    assert [variants.is_proved(it) for it in (one, two, three)] == [False, False, True], "what is proved is told wrongly"
    assert not variants.is_proved(three + "\nproofs/Table.antt:1:1: error: `lemma`: refused"), "a refused lemma counts as proved"
    assert not variants.is_proved("only=1 proved=1") and not variants.is_proved("fn low::takes: proved"), "nothing said counts as proved"
    assert of("low").split(SAID, ["low"]) == [SAID], "a crate under its own name is changed"

    chain = chains.Chain.__new__(chains.Chain)
    chain.crates = ("low", "high")
    told = SAID.replace("low_v1::reader::takes: not proved", "high_v1::laws::holds: not proved")
    assert "fn high::laws::holds: not proved" in chain.said_of(told, "_v1") and "low::reader::takes: proved" not in chain.said_of(told, "_v1"), "a copy of a chain has another's"
    assert "fn low::reader::takes: proved" in chain.said_of(told, "_v3") and "high" not in chain.said_of(told, "_v3"), "a copy of a chain lacks what was said of it"

    edits = [SimpleNamespace(path="a", unit=SimpleNamespace(start=it)) for it in (1, 1, 2)]
    loads, rest = trial.Trial.spread(None, edits, 1)
    assert [len(it) for it in loads] == [2] and rest == [edits[1]], "two edits of one function are in one variant"
    loads, rest = trial.Trial.spread(None, edits, 2)
    assert [len(it) for it in loads] == [2, 1] and not rest, "an edit has no variant"

    names = ["reply::Nak::parse", "reply::NakDebug::fmt", "reply::PdId::parse", "reply::parse", "line::Line::order", "bus::Bus::order", "main", "of"]
    one = trial.Trial.__new__(trial.Trial)
    for path, owner, name, wanted in (
        ("src/reply.rt", "Nak", "parse", ["reply::Nak::parse"]), ("src/reply.rt", "", "parse", ["reply::parse"]), ("src/reply.rt", "Nak", "fmt", ["reply::NakDebug::fmt"]),
        ("src/calls.rt", "Line", "order", ["line::Line::order"]), ("src/main.rt", "", "main", ["main"]), ("src/lib.rt", "", "of", ["of"]), ("src/calls.rt", "Other", "order", []),
    ):
        found = one.named(path, SimpleNamespace(name=name, owner=owner), names)
        assert found == wanted, f"{path} {owner} {name} is told as {found}"

    made = [it for it in generated.all_of("osdp_ring", (), False) if it.path.endswith("ring.rt") and it.unit.kind == "fn"]
    first, last = made[0], next(it for it in reversed(made) if it.new.count("\n") == 0)
    texts, places = variants.with_edits([first, last])
    line = texts[last.path].split("\n")[places[last][0] - 1]
    assert f"fn {last.unit.name}" in line, f"an edit's function stands elsewhere: {line}"
    assert len(texts[last.path]) == len(generated.read(last.path)) + sum(len(it.new) - (it.end - it.start) for it in (first, last)), "an edit is lost"
    return 0


if __name__ == "__main__":
    sys.exit(main())
