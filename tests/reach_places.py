#!/usr/bin/env python3
"""Tries each place that `tools/retarget` changes by itself: the line of the proved module on 64-bit x86, and what stands for it on each target, over the same
memory. Both must leave the same. Places that differ only in the names of their values are one call.

Of an address both must tell the one that C tells, and of a block that was given the one that the heap gave. Of a pointer the bits that the target has are
compared. Another layout of a pair must be seen. What asks to grow a block is not tried: an archive
that reached it would be refused by the name that it asks for."""
import re
import sys
import tempfile
from concurrent.futures import ThreadPoolExecutor
from pathlib import Path

import reach
from reach import REACH, TARGETS, clang, compiles, kept, run

sys.path.insert(0, str(Path(__file__).resolve().parent.parent / "tools/retargeting"))
import lowering  # noqa: E402
from targets import machine  # noqa: E402


def renamed(line, names):
    """A line with other names for its values."""
    return re.sub(r'%[\w]+|@"[^"]+"|@[\w.]+|\bnull\b', lambda found: names.get(found[0], found[0]), line)


def of_load(found):
    """What a load of a pair is tried with: the names of its values, what comes before, and what is left in memory."""
    name, first, second, at, _ = found.groups()
    return {name: "%r", at: "%from"}, [], kept_part(first, second, "%r", 0) + kept_part(first, second, "%r", 1)


def kept_part(first, second, pair, which):
    """Writes a part of a pair to memory, as a number of 64 bits of which a pointer has 32."""
    kind, name = (first, second)[which], f"%part.{which}"
    lines = [f"  {name} = extractvalue {{ {first}, {second} }} {pair}, {which}"]
    if kind == "ptr":
        lines += [f"  {name}.all = ptrtoint ptr {name} to i64", f"  {name}.wide = and i64 {name}.all, 4294967295"]
    else:
        lines += [f"  {name}.wide = " + (f"zext {kind} {name} to i64" if kind != "i64" else f"add i64 {name}, 0")]
    return [*lines, f"  {name}.at = getelementptr i8, ptr %to, i64 {8 * which}", f"  store i64 {name}.wide, ptr {name}.at, align 1"]


def of_store(found):
    first, second, value, at, _ = found.groups()
    pair = f"{{ {first}, {second} }}"
    before = [
        f"  %one = load {first}, ptr %from, align 1", "  %from.other = getelementptr i8, ptr %from, i64 8", f"  %other = load {second}, ptr %from.other, align 1",
        f"  %half = insertvalue {pair} poison, {first} %one, 0", f"  %value = insertvalue {pair} %half, {second} %other, 1",
    ]
    return {value: "%value", at: "%to"}, before, []


def of_address(found):
    name, at = found.groups()
    after = ["  %plain = ptrtoint ptr %from to i64", "  %same = icmp eq i64 %r, %plain", "  %wide = zext i1 %same to i64", "  store i64 %wide, ptr %to, align 1"]
    return {name: "%r", at: "%from"}, [], after


def of_move(found):
    _, to, at, length = found.groups()
    return {at: "%from", to: "%to", length: "%count"}, [], []


def of_fill(found):
    at, value, length = found.groups()
    return {at: "%to", length: "%count", value: "%byte"}, ["  %byte = trunc i64 %count to i8"], []


def of_division(found):
    name, _, value, by = found.groups()
    before = [
        "  %value = load i64, ptr %from, align 1", "  %from.other = getelementptr i8, ptr %from, i64 8",
        "  %loaded = load i64, ptr %from.other, align 1", "  %by = or i64 %loaded, 1",
    ]
    return {name: "%r", value: "%value", by: "%by"}, before, ["  store i64 %r, ptr %to, align 1"]


def of_block(found):
    name, _, arguments = found.groups()
    *kept, size, align = re.findall(r"i64 (\S+?)(?:,|$)", arguments)
    at = re.findall(r"ptr (?:\w+ )*(\S+?),", arguments)
    before = ["  %size = and i64 %count, 1023", "  %align = and i64 %count, 7"]
    after = [
        "  %ok = extractvalue { i64, i64 } %r, 0", "  %bit = and i64 %ok, 255", "  store i64 %bit, ptr %to, align 1",
        "  %block = extractvalue { i64, i64 } %r, 1", "  %last = call i64 @last_block()", "  %same = icmp eq i64 %block, %last",
        "  %wide = zext i1 %same to i64", "  %both = and i64 %wide, %bit", "  %to.other = getelementptr i8, ptr %to, i64 8",
        "  store i64 %both, ptr %to.other, align 1",
    ]
    return {name: "%r", **dict.fromkeys(at, "%from"), **dict.fromkeys(kept, "%size"), size: "%size", align: "%align"}, before, after


KINDS = {
    "load of a pair": (lowering.LOAD, of_load), "store of a pair": (lowering.STORE, of_store), "address": (lowering.ADDRESS, of_address),
    "move": (lowering.MOVE, of_move), "fill": (lowering.SET, of_fill), "division": (lowering.DIVISION, of_division), "block": (lowering.BLOCK, of_block),
}


def call(place):
    """How a place is tried: the lines before it, its own, those that stand for it, and the lines after it."""
    pattern, of = KINDS[place.kind]
    names, before, after = of(pattern.fullmatch(place.text))
    names = {old: new for old, new in names.items() if old[0] in "%@" or old == "null"} | {f"%stored.{place.number}": "%stored"}
    numbered = [re.sub(rf"%(stored|bytes)\.{place.number}\b", r"%\1", line) for line in place.lines]
    return tuple(before), renamed(place.text, names), tuple(renamed(line, names) for line in numbered), tuple(after)


def calls(places):
    """Each way in which places are tried, once, in the order of the first of each."""
    return list(dict.fromkeys(call(place) for place in places))


def module(found, lines_of, head, tail):
    """A module with a function for each call."""
    functions = []
    for number, one in enumerate(found):
        body = [*one[0], *lines_of(one), *one[3], "  ret void"]
        functions += [f"define void @tried_{number}(ptr %to, ptr %from, i64 %count) {{", *body, "}"]
    return "\n".join([*head, "declare i64 @last_block()", *functions, *tail]) + "\n"


def table(found):
    """The calls as C has them."""
    names = [f"tried_{number}" for number in range(len(found))]
    declared = [f"void {name}(uint8_t *to, uint8_t *from, uint64_t count);" for name in names]
    listed = ["typedef void tried(uint8_t *, uint8_t *, uint64_t);", "extern tried *const calls[];", "extern const uint32_t calls_count;"]
    return "\n".join(["#include <stdint.h>", *declared, *listed, f"tried *const calls[] = {{ {', '.join(names)} }};", f"const uint32_t calls_count = {len(names)};"]) + "\n"


def native(kit, found, text, work):
    """What the lines of the proved module leave on 64-bit x86."""
    head = [line for line in text.splitlines() if line.startswith("target ")]
    (work / "x86.ll").write_text(module(found, lambda one: [one[1]], [*head, "declare { i64, i64 } @rattle_alloc(i64, i64)", "declare { i64, i64 } @rattle_realloc(ptr, i64, i64, i64)"], []))
    run([*clang(kit), "--target=x86_64-unknown-linux-gnu", "-O1", "-fPIC", "-c", "-x", "ir", work / "x86.ll", "-o", work / "x86.o"])
    run(["cc", *reach.C[:5], "-o", work / "x86", REACH / "places.c", REACH / "host.c", work / "calls.c", work / "x86.o"])
    return run([work / "x86"]).splitlines()


def tried(kit, name, text, work):
    """Tries each place of a target, and gives how many places and calls there are, and those whose calls leave something else."""
    target = TARGETS[name]
    to = machine(kit, target)
    places = [one for one in lowering.lower(text, to)[1]]
    found, own = calls(places), work / name
    own.mkdir()
    (own / "calls.c").write_text(table(found))
    (own / "places.ll").write_text(module(found, lambda one: one[2], to.said, lowering.added(to, places)))
    for source, words in (("places.ll", ["-x", "ir"]), ("calls.c", reach.C), (kept.TOP / "tools/retargeting/block.c", reach.C)):
        run([*compiles(kit, target), *words, "-c", own / source, "-o", own / f"{Path(source).stem}.o"])
    program = reach.link(kit, name, [own / "places.o", own / "calls.o", own / "block.o"], own, "places.c", heap=())
    left, wanted = reach.emulated(name, program).splitlines(), native(kit, found, text, own)
    faults = [one for one, here, there in zip(found, left, wanted) if here != there]
    return name, len(places), len(found), faults if len(left) == len(wanted) == len(found) else found


def is_seen(kit, text, work):
    """Whether another layout of a pair is seen: the second part right after the first."""
    layout, lowering.second_byte = lowering.second_byte, lambda first, _: lowering.SIZES[first]
    try:
        return any("i8, ptr" in line for _, line, _, _ in tried(kit, "i686", text, work)[3])
    finally:
        lowering.second_byte = layout


def main():
    kit = kept.kit()
    text, status = kept.text(kit, kept.module()), 0
    with tempfile.TemporaryDirectory() as folder, ThreadPoolExecutor(2) as pool:
        for name, places, found, faults in pool.map(lambda name: tried(kit, name, text, Path(folder)), reach.RUNS):
            print(f"{name}: {places} places, {found} calls that differ, {len(faults)} leave something else")
            for _, line, lines, _ in faults[:3]:
                print(f"  {line.strip()}: {' / '.join(each.strip() for each in lines)}")
                status = 1
    with tempfile.TemporaryDirectory() as folder:
        if not is_seen(kit, text, Path(folder)):
            sys.exit("reach_places: another layout of a pair is not seen")
    print("another layout of a pair is seen")
    return status


if __name__ == "__main__":
    sys.exit(main())
