"""The targets: what each is to clang, and what its archive may ask for from outside."""
import subprocess
from dataclasses import dataclass

from lowering import Machine


@dataclass(frozen=True)
class Target:
    """A target's triple, the words that clang is told beside it, and what the lowering asks of it."""

    triple: str
    words: tuple = ()
    bits: int = 32
    divides: bool = False
    probes: bool = False
    # what the archive may ask for beside a heap and three calls of C: helpers that each compiler or linker of the target brings along
    helpers: tuple = ()


TARGETS = {
    "thumbv7em": Target("thumbv7em-none-eabi", ("-mcpu=cortex-m4", "-mfloat-abi=soft", "-meabi", "gnu")),
    "thumbv6m": Target(
        "thumbv6m-none-eabi",
        ("-mcpu=cortex-m0", "-mfloat-abi=soft", "-meabi", "gnu"),
        helpers=("__aeabi_lmul", "__aeabi_uidivmod"),
    ),
    "riscv32": Target("riscv32-none-elf", ("-march=rv32imac", "-mabi=ilp32")),
    "aarch64": Target("aarch64-none-elf", bits=64, divides=True),
    "i686": Target("i686-unknown-linux-gnu", ("-march=i686", "-mno-sse", "-mno-mmx"), probes=True, helpers=("_GLOBAL_OFFSET_TABLE_",)),
    "wasm32": Target("wasm32-unknown-unknown", divides=True, helpers=("__stack_pointer", "__indirect_function_table")),
}
# How all are compiled: as small as can be, each function by itself, so that a linker leaves out what isn't called.
WORDS = ("-Os", "-ffreestanding", "-ffunction-sections", "-fdata-sections", "-fno-crash-diagnostics", "--no-default-config")


def clang(kit, name="clang"):
    """The words that call the kit's clang under one of its names."""
    return ["bash", "-c", f'exec -a {name} "{kit}/toolchain/bin/clang" "$@"', name]


def compiles(kit, target):
    """The words that compile for a target."""
    return [*clang(kit), f"--target={target.triple}", *target.words, *WORDS]


def machine(kit, target):
    """What the lowering asks of a target; clang itself says the layout."""
    words = [*compiles(kit, target), "-S", "-emit-llvm", "-x", "c", "/dev/null", "-o", "-"]
    text = subprocess.run(words, check=True, capture_output=True, text=True).stdout
    said = tuple(line for line in text.splitlines() if line.startswith("target "))
    return Machine(target.bits, said, target.divides, target.probes)
