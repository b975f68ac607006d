"""What operators make in so great a number that it is made one after the other: listed whole, and tried as a sample."""
import random

from . import contracts, generated, pairs, shadows

KINDS = ("--contracts", "--laws", "--pairs", "--short", "--special")
# of which there are so many that a sample alone is tried
LONG = ("--laws", "--pairs", "--special")


def all_of(kind, crate, below, is_wide):
    """Yields the edits of one of these kinds, of a crate."""
    if kind == "--pairs":
        yield from pairs.of_crate(crate, below, is_wide)
        return
    if kind == "--contracts":
        yield from contracts.of_crate(crate, below)
        return
    if kind == "--laws":
        for path in generated.paths_of(crate, "specs") if crate.endswith("_laws") else ():
            yield from shadows.of_file(path, below)
        return
    for path in [*generated.paths_of(crate, "src"), *generated.paths_of(crate, "specs")]:
        for unit in generated.parsed(path).units:
            if kind == "--short":
                yield from generated.short_of_unit(path, unit, below)
                continue
            yield from generated.special_of_unit(path, unit, below)
            yield from generated.donated_of_unit(path, unit)


def some_of(edits, most, seed):
    """Takes so many of them, each as likely as each other, or all."""
    if most is None:
        return list(edits)
    order, taken = random.Random(seed), []
    for i, it in enumerate(edits):
        if len(taken) < most:
            taken.append(it)
        elif (place := order.randrange(i + 1)) < most:
            taken[place] = it
    return taken
