"""Lowers the text of the proved module, which is of a machine of 64 bits, to another machine.

Memory keeps the proved layout: each field stays at its byte, and a pointer of 32 bits stands in the first four of its eight bytes. So only what asks the target
for a layout or for the width of an address is changed:

- a pair that is loaded or stored as a whole: each part at its byte of the proved layout;
- an address as a number, and how many bytes are moved or set: on a machine of 32 bits in 32 bits;
- a division of 64 bits, where the machine has none: a function of the module;
- the blocks of the heap, which come as a pair from outside: by a call that returns one number, and a pointer in a place;
- what the module says of its machine.

Every other line must be of a kind that is known to mean the same on each machine. One that isn't known is refused by its number and text (`Unknown`)."""
import re
from dataclasses import dataclass

# The bytes of each type in the proved layout; each stands at a multiple of its size.
SIZES = {"i8": 1, "i16": 2, "i32": 4, "i64": 8, "ptr": 8}
SCALAR = r"(?:i1|i8|i16|i32|i64|ptr)"
PAIR = r"\{ (i8|i16|i32|i64|ptr), (i8|i16|i32|i64|ptr) \}"
VECTOR = r"<(?:16|64) x i8>"
NAME = r'%[\w.]+'
NUMBER = r"(?:-?\d+|%[\w.]+|true|false)"
VALUE = r'(?:-?\d+|%[\w.]+|@[\w.]+|@"[^"]+"|null|true|false|poison|undef)'
AFTER = r"(?:, ![a-z]+ !\d+)*"
FUNCTION = r'@(?:[\w.]+|"[^"]+")'
TYPE = rf"(?:void|{SCALAR}|\{{ {SCALAR}, {SCALAR} \}})"
ARGUMENT = rf"{SCALAR}(?: noundef| zeroext)* {VALUE}"
PARAMETER = rf"{SCALAR}(?: noundef| zeroext)*(?: %\w+)?"

# Lines that mean the same on each machine whose bytes stand lowest first.
KEPT = {
    "a remark": r";.*|",
    "the module's name": r'source_filename = ".*"',
    "a constant of bytes": r"@[\w.]+ = private unnamed_addr constant \[\d+ x i8\] .*, align \d+",
    "a function's head": rf"define (?:internal )?(?:noundef )?(?:zeroext )?{TYPE} {FUNCTION}\((?:{PARAMETER}(?:, {PARAMETER})*)?\) (?:#\d+ )?\{{",
    "a function's end": r"\}",
    "a label": r"[\w.]+:\s*(?:;.*)?",
    "metadata": r"!.*",
    "a place": rf"  {NAME} = alloca (?:{SCALAR}|\[\d+ x i8\]|{VECTOR})(?:, align \d+)?",
    "a load": rf"  {NAME} = load (?:{SCALAR}|{VECTOR}), ptr {VALUE}, align \d+{AFTER}",
    "a store": rf"  store (?:{SCALAR} {VALUE}|{VECTOR} {VALUE}), ptr {VALUE}, align \d+{AFTER}",
    "a place's byte": rf"  {NAME} = getelementptr (?:inbounds )?(?:nuw )?i8, ptr {VALUE}, i64 {NUMBER}",
    "a calculation": rf"  {NAME} = (?:add|sub|mul|and|or|xor|shl|lshr|ashr)(?: nuw| nsw| exact| disjoint)* i(?:1|8|16|32|64) {NUMBER}, {NUMBER}",
    "a division": rf"  {NAME} = (?:udiv|urem|sdiv|srem)(?: exact)? i(?:8|16|32|64) {NUMBER}, {NUMBER}",
    "a width": rf"  {NAME} = (?:zext|sext|trunc)(?: nneg| nuw| nsw)* i(?:1|8|16|32|64) {VALUE} to i(?:1|8|16|32|64)",
    "a comparison": rf"  {NAME} = icmp(?: samesign)? \w+ {SCALAR} {VALUE}, {VALUE}",
    "a choice": rf"  {NAME} = select i1 {VALUE}, {SCALAR} {VALUE}, {SCALAR} {VALUE}",
    "a join": rf"  {NAME} = phi {SCALAR} \[.*\]",
    "a part of a pair": rf"  {NAME} = extractvalue {PAIR} {VALUE}, [01]",
    "a pair": rf"  {NAME} = insertvalue {PAIR} {VALUE}, {SCALAR} {VALUE}, [01]",
    "a branch": r"  br (?:label %[\w.]+|i1 \S+, label %[\w.]+, label %[\w.]+)(?:, !\w+ !\d+)?",
    "a choice of branches": rf"  switch i\d+ {VALUE}, label %[\w.]+ \[|    i\d+ -?\d+, label %[\w.]+|  \]",
    "a return": rf"  ret (?:void|{SCALAR} {VALUE}|{PAIR} {VALUE})",
    "what is never reached": r"  unreachable",
    "a call": rf"  (?:{NAME} = )?call (?:noundef )?(?:zeroext )?{TYPE} (?!@rattle_|@llvm\.){FUNCTION}\((?:{ARGUMENT}(?:, {ARGUMENT})*)?\)(?: #\d+)?",
    "an intrinsic": r"  call void @llvm\.trap\(\)|  %[\w.]+ = call i64 @llvm\.cttz\.i64\(i64 %[\w.]+, i1 false\)",
    "a block given back": rf"  call void @rattle_dealloc\(ptr {VALUE}\)",
    "a comparison of many bytes": rf"  {NAME} = icmp (?:eq|ne|slt) {VECTOR} {VALUE}, (?:{VALUE}|zeroinitializer)",
    "sixteen bits": rf"  {NAME} = bitcast <16 x i1> {VALUE} to i16",
    "bytes of bits": rf"  {NAME} = sext <(?:16|64) x i1> {VALUE} to {VECTOR}",
    "sixteen of many bytes": rf"  {NAME} = shufflevector {VECTOR} {VALUE}, {VECTOR} (?:{VALUE}|zeroinitializer), <16 x i32> <[i0-9, ]+>",
    "what stands outside": r"declare (?:void @rattle_dealloc\(ptr noundef\)|void @llvm\.trap\(\)|i64 @llvm\.cttz\.i64\(i64, i1 immarg\)) #\d+",
}
IS_KEPT = re.compile("|".join(f"(?:{each})" for each in KEPT.values()))

LOAD = re.compile(rf"  ({NAME}) = load {PAIR}, ptr ({VALUE}), align (\d+){AFTER}")
STORE = re.compile(rf"  store {PAIR} ({VALUE}), ptr ({VALUE}), align (\d+){AFTER}")
ADDRESS = re.compile(rf"  ({NAME}) = (?:ptrtoaddr|ptrtoint) ptr ({VALUE}) to i64")
MOVE = re.compile(rf"  call void @llvm\.(memmove|memcpy)\.p0\.p0\.i64\(ptr ({VALUE}), ptr ({VALUE}), i64 ({NUMBER}), i1 false\)")
SET = re.compile(rf"  call void @llvm\.memset\.p0\.i64\(ptr ({VALUE}), i8 ({NUMBER}), i64 ({NUMBER}), i1 false\)")
DIVISION = re.compile(rf"  ({NAME}) = (udiv|urem) i64 ({NUMBER}), ({NUMBER})")
BLOCK = re.compile(rf"  ({NAME}) = call \{{ i64, i64 \}} @(rattle_alloc|rattle_realloc)\((.*)\)")
INTRINSIC = re.compile(r"declare void @llvm\.(?:memset\.p0|memmove\.p0\.p0|memcpy\.p0\.p0)\.i64\(.*\) #\d+")
OUTSIDE = re.compile(r"declare \{ i64, i64 \} @(rattle_alloc|rattle_realloc)\(.*\) #\d+")
MACHINE = re.compile(r'target (?:datalayout|triple) = ".*"')
BOXES = re.compile(r'(define internal .*@"std_alloc::boxed::Box::new::[^"]*"\(.*\)) (#\d+) \{')
ATTRIBUTES = re.compile(r"attributes (#\d+) = \{ (.*) \}")
KNOWN_ATTRIBUTES = re.compile(
    r'alwaysinline|cold|inlinehint|nobuiltin|nocallback|nofree|noinline|noreturn|nosync|nounwind|optsize|speculatable|willreturn|memory\([\w: ]+\)|'
    r'"probe-stack"="inline-asm"|"stack-probe-size"="\d+"|"target-cpu"="[\w-]+"'
)


class Unknown(Exception):
    """A line of the module that isn't known: nothing is made of it."""

    def __init__(self, number, line):
        super().__init__(f"line {number} of the module is of no kind that is known: {line.strip()}")


@dataclass(frozen=True)
class Machine:
    """What the lowering asks of a machine: the bits of an address, what clang says of it in the head of each module, whether it divides 64 bits by itself, and
    whether its stack has a guard to be touched."""

    bits: int
    said: tuple = ()
    divides: bool = False
    probes: bool = False


@dataclass(frozen=True)
class Place:
    """A place of the module that was changed: its line, of which kind it is, its text, and the lines that stand for it."""

    number: int
    kind: str
    text: str
    lines: tuple


def second_byte(first, second):
    """Where the second part of a pair stands in the proved layout."""
    return -(-SIZES[first] // SIZES[second]) * SIZES[second]


def load_pair(found, _):
    name, first, second, at, align = found.groups()
    byte, pair = second_byte(first, second), f"{{ {first}, {second} }}"
    return [
        f"  {name}.first = load {first}, ptr {at}, align {align}",
        f"  {name}.byte = getelementptr i8, ptr {at}, i64 {byte}",
        f"  {name}.second = load {second}, ptr {name}.byte, align {min(int(align), SIZES[second])}",
        f"  {name}.half = insertvalue {pair} poison, {first} {name}.first, 0",
        f"  {name} = insertvalue {pair} {name}.half, {second} {name}.second, 1",
    ]


def store_pair(found, number):
    first, second, value, at, align = found.groups()
    byte, pair, name = second_byte(first, second), f"{{ {first}, {second} }}", f"%stored.{number}"
    return [
        f"  {name}.first = extractvalue {pair} {value}, 0",
        f"  store {first} {name}.first, ptr {at}, align {align}",
        f"  {name}.byte = getelementptr i8, ptr {at}, i64 {byte}",
        f"  {name}.second = extractvalue {pair} {value}, 1",
        f"  store {second} {name}.second, ptr {name}.byte, align {min(int(align), SIZES[second])}",
    ]


def address(found, _):
    name, at = found.groups()
    return [f"  {name}.narrow = ptrtoaddr ptr {at} to i32", f"  {name} = zext i32 {name}.narrow to i64"]


def narrow(length, number):
    """How many bytes there are in 32 bits: the lines before it, and its word."""
    if not length.startswith("%"):
        return [], length
    return [f"  %bytes.{number} = trunc i64 {length} to i32"], f"%bytes.{number}"


def move(found, number):
    how, to, at, length = found.groups()
    before, length = narrow(length, number)
    return [*before, f"  call void @llvm.{how}.p0.p0.i32(ptr {to}, ptr {at}, i32 {length}, i1 false)"]


def fill(found, number):
    at, value, length = found.groups()
    before, length = narrow(length, number)
    return [*before, f"  call void @llvm.memset.p0.i32(ptr {at}, i8 {value}, i32 {length}, i1 false)"]


def divide(found, _):
    name, how, value, by = found.groups()
    called = {"udiv": "@narrow_quotient", "urem": "@narrow_remainder"}[how]
    return [f"  {name} = call i64 {called}(i64 {value}, i64 {by})"]


def block(found, _):
    name, how, arguments = found.groups()
    return [f"  {name} = call {{ i64, i64 }} @narrow_{how}({arguments})"]


def is_power(word):
    """Whether a division by this word is a shift."""
    return word.isdigit() and int(word) > 0 and int(word) & (int(word) - 1) == 0


def changed(line, machine, number):
    """The kind of a line that is to be changed, and the lines that stand for it; or None."""
    kinds = [("load of a pair", LOAD, load_pair), ("store of a pair", STORE, store_pair), ("block", BLOCK, block)]
    if machine.bits == 32:
        kinds += [("address", ADDRESS, address), ("move", MOVE, move), ("fill", SET, fill)]
    for kind, pattern, lowers in kinds:
        found = pattern.fullmatch(line)
        if found:
            return kind, lowers(found, number)
    found = DIVISION.fullmatch(line)
    if found and not machine.divides and not is_power(found[4]):
        return "division", divide(found, number)
    return None


def attributes(line, number, machine):
    """The attributes without those of the proved machine; an attribute that isn't known is refused."""
    name, words = ATTRIBUTES.fullmatch(line).groups()
    if KNOWN_ATTRIBUTES.sub("", words).strip():
        raise Unknown(number, line)
    kept = [it for it in re.findall(KNOWN_ATTRIBUTES, words) if "target-cpu" not in it and (machine.probes or "probe" not in it)]
    return f"attributes {name} = {{ {' '.join(kept)} }}"


def is_wide(line):
    """Whether a line is known on a machine of 64 bits alone."""
    return any(it.fullmatch(line) for it in (ADDRESS, MOVE, SET, INTRINSIC))


def lower(text, machine, leave=None):
    """The module for another machine, and the places that were changed. What puts a value on the heap is inlined, so that the value is made there: else clang
    copies it over the stack three times where a pointer has 32 bits. The pair in memory that is counted `leave`, from 0 on, is left as it was."""
    lines, places = [], []
    for number, line in enumerate(text.splitlines(), 1):
        found = changed(line, machine, number)
        if found and leave is not None and "pair" in found[0] and sum("pair" in it.kind for it in places) == leave:
            leave = None
            lines.append(line)
        elif found:
            places.append(Place(number, found[0], line, tuple(found[1])))
            lines += found[1]
        elif ATTRIBUTES.fullmatch(line):
            lines.append(attributes(line, number, machine))
        elif BOXES.fullmatch(line) and IS_KEPT.fullmatch(line):
            lines.append(BOXES.sub(r"\1 \2 alwaysinline {", line))
        elif IS_KEPT.fullmatch(line) or (machine.bits == 64 and is_wide(line)):
            lines.append(line)
        elif MACHINE.fullmatch(line):
            lines += machine.said if "datalayout" in line else ()
        elif not (OUTSIDE.fullmatch(line) or INTRINSIC.fullmatch(line)):
            raise Unknown(number, line)
    return "\n".join([*lines, *added(machine, places)]) + "\n", places


def added(machine, places):
    """The functions that stand for what the machine lacks."""
    said = " ".join(line for place in places for line in place.lines)
    names = [("rattle_alloc", HEAP), ("rattle_realloc", REALLOC), ("quotient", QUOTIENT), ("remainder", REMAINDER)]
    parts = [text for name, text in names if f"@narrow_{name}(" in said]
    return "".join(parts).replace("WIDE", f"i{machine.bits}").splitlines()


# A block comes from outside as the number of its address, or 0: so nothing is asked of how a target's C returns a struct. It comes as a number, as the proved
# module has it. A heap returns, and reads and writes what is its own alone: without that said clang makes copies of what is put into a block, and
# `osdp_device_new` takes three times the stack. Where there is no block its address isn't 0 either, as in the module.
HEAP = """
declare i64 @osdp_take_block(i64, i64) nobuiltin nounwind willreturn memory(inaccessiblemem: readwrite)
define internal { i64, i64 } @narrow_rattle_alloc(i64 %size, i64 %align) nounwind {
  %number = call i64 @osdp_take_block(i64 %size, i64 %align)
  %ok = icmp ne i64 %number, 0
  %some = select i1 %ok, i64 %number, i64 16
  %wide = zext i1 %ok to i64
  %half = insertvalue { i64, i64 } poison, i64 %wide, 0
  %whole = insertvalue { i64, i64 } %half, i64 %some, 1
  ret { i64, i64 } %whole
}
"""
# A block that grows, in the same words.
REALLOC = """
declare i64 @osdp_grow_block(i64, i64, i64, i64) nounwind
define internal { i64, i64 } @narrow_rattle_realloc(ptr %block, i64 %kept, i64 %size, i64 %align) nounwind {
  %from = ptrtoint ptr %block to i64
  %number = call i64 @osdp_grow_block(i64 %from, i64 %kept, i64 %size, i64 %align)
  %ok = icmp ne i64 %number, 0
  %some = select i1 %ok, i64 %number, i64 16
  %wide = zext i1 %ok to i64
  %half = insertvalue { i64, i64 } poison, i64 %wide, 0
  %whole = insertvalue { i64, i64 } %half, i64 %some, 1
  ret { i64, i64 } %whole
}
"""
DIVIDES = """
define internal i64 @narrow_NAME(i64 %value, i64 %by) noinline nounwind {
start:
  br label %each
each:
  %count = phi i32 [ 0, %start ], [ %next, %each ]
  %quotient = phi i64 [ 0, %start ], [ %grown, %each ]
  %rest = phi i64 [ 0, %start ], [ %left, %each ]
  %bits = phi i64 [ %value, %start ], [ %later, %each ]
  %top = lshr i64 %bits, 63
  %over = icmp slt i64 %rest, 0
  %doubled = shl i64 %rest, 1
  %tried = or i64 %doubled, %top
  %above = icmp uge i64 %tried, %by
  %fits = or i1 %over, %above
  %less = sub i64 %tried, %by
  %left = select i1 %fits, i64 %less, i64 %tried
  %twice = shl i64 %quotient, 1
  %one = zext i1 %fits to i64
  %grown = or i64 %twice, %one
  %later = shl i64 %bits, 1
  %next = add i32 %count, 1
  %done = icmp eq i32 %next, 64
  br i1 %done, label %end, label %each
end:
  ret i64 %RESULT
}
"""
QUOTIENT = DIVIDES.replace("NAME", "quotient").replace("RESULT", "grown")
REMAINDER = DIVIDES.replace("NAME", "remainder").replace("RESULT", "left")

LEFT = {
    "a pair in memory": r"\bload \{|\bstore \{|alloca \{|getelementptr [^%@]*\{",
    "what is said of the proved machine": r'p270:32:32-p271:32:32-p272:64:64-i64:64-i128:128-f80|"target-cpu"|x86_64',
    "a pair of the heap from outside": r"call \{ i64, i64 \} @rattle_(?:re)?alloc",
}
LEFT_NARROW = {
    "an address of 64 bits": r"ptrtoaddr ptr \S+ to i64",
    "a length of 64 bits": r"@llvm\.mem\w+\.p0(?:\.p0)?\.i64",
    "bytes of a pointer that its place has not": r"\bload i128|\bstore i128",
}


def left(text, machine):
    """What should have been changed and wasn't: looked for once more, by other patterns than those that change."""
    wanted = {**LEFT, **(LEFT_NARROW if machine.bits == 32 else {})}
    return [f"{what}: {line.strip()}" for line in text.splitlines() for what, pattern in wanted.items() if re.search(pattern, line)]
