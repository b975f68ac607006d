"""Asks what runs unproved whether it refuses an edit that the proofs let through: tests, programs with their own input, and rows of the program `osdp`."""
import functools
import glob
import os
import re

from . import generated


@functools.cache
def tests_in(crate):
    """Whether functions of a crate are tests."""
    return any("#[test]" in generated.read(os.path.relpath(it, generated.TOP)) for it in glob.glob(f"{generated.TOP}/crates/{crate}/src/**/*.rt", recursive=True))


def is_program(crate):
    return all(os.path.isfile(f"{generated.TOP}/crates/{crate}/{it}") for it in ("stdin", "stdout"))


def asked(tools, crate):
    """Returns what runs with a crate: of each its crate, its kind and its files, the quick ones first. The rows of all files take one run."""
    over = [it for it in tools.USES if it == crate or crate in tools.below(it)]
    found = [(it, "program", ()) for it in over if is_program(it)]
    if "osdp" in over:
        found.append(("osdp", "row", tuple(sorted(os.path.relpath(it, generated.TOP) for it in glob.glob(f"{generated.TOP}/tests/rows/*.txt")))))
    return found + [(it, "test", ()) for it in over if tests_in(it)]


def refusing(tools, edit):
    """Returns what refuses an edit as it runs, or nothing."""
    texts = edit.texts()
    for crate, kind, paths in asked(tools, edit.crate()):
        copy = tools.Copy({crate, *tools.below(crate)}, False)
        try:
            copy.write({it: text for it, text in texts.items() if os.path.isdir(f"{copy.root}/crates/{it.split('/')[1]}")})
            found = refusals(tools, copy, crate, kind, paths)
        finally:
            copy.remove()
        # what fails without any edit shows nothing
        if found and (new := [it for it in found if it not in fails_unedited(tools, crate, kind, paths)]):
            return new[0]
    return ""


@functools.cache
def fails_unedited(tools, crate, kind, paths):
    """Returns what a run tells as failed where nothing is edited."""
    copy = tools.Copy({crate, *tools.below(crate)}, False)
    try:
        return tuple(refusals(tools, copy, crate, kind, paths))
    finally:
        copy.remove()


def refusals(tools, copy, crate, kind, paths):
    """Returns the tests that fail, or the rows or the program that come out otherwise."""
    if kind == "test":
        _, text = tools.ran(["rt", "try", "--test"], copy.folder(crate))
        return [f"test `{crate}::{it}`" for it in re.findall(r"^test (\S+) \.\.\. FAILED", text, re.M)]
    try:
        return [tools.failing_program(copy, crate)] if kind == "program" else tools.failing_rows(copy, *paths)
    except tools.Bad:
        return []
