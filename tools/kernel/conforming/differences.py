"""The differences that docs/KERNEL.md announces, each by its name, with the rule that recognises it in a line."""
import collections
import re

from conforming.rules import LIVEPATCH

# What both sides say of a line: klpsim's answer and the kernel's in the console's words, what the rules say beside it,
# and whether callbacks ran in another order.
Sides = collections.namedtuple("Sides", "line rules kernel rule catalog is_order")
# A difference that is announced: whether it is one in this line, and whether the kernel may be elsewhere from then on.
Announced = collections.namedtuple("Announced", "name is_it is_apart")

# Files of the directory of a patch, and of an object, that newer kernels have.
NEWER = {"replace", "stack_order", "patched"}


def is_load_order(it):
    causes = ("error 22 Incompatible", "error 22 NoSymbol")
    return it.line.startswith("load ") and it.rules == ["error 16 Busy"] and it.kernel[0] in causes


def is_pinned(it):
    """Whether a load is refused since the module of a patch that was forced is still there. It may be Busy before."""
    is_refused = it.rules[0] in ("error 22 Pinned", "error 16 Busy")
    return is_refused and it.kernel[0].endswith("(its module can't be removed)")


def is_coming_symbol(it):
    """Whether callbacks ran, and were undone, before a module was refused."""
    return it.rules[0] == "error 22 NoSymbol" and it.line.startswith("insmod ") and it.kernel[0].startswith("error ")


def is_status_above(it):
    """Whether a load came to a pre-patch callback of a status above 0, which insmod takes for success."""
    found = re.match(r"prefailed \S+ \S+ [1-9]", it.rules[0]) if it.rules else None
    return it.line.startswith(("load ", "insmod ")) and found is not None and not it.kernel[0].startswith("prefailed")


def is_missing_file(it):
    return it.line.startswith("echo ") and it.rules == ["error 22 BadValue"] and it.kernel == ["error 2"]


def is_number(it):
    both = {("insmod", "error 22 AlreadyThere"): "error 17", ("rmmod", "error 16 InUse"): "error 11",
            ("load", "error 22 AlreadyThere"): "error 17"}
    return both.get((it.line.split()[0], *it.rules[:1])) == it.kernel[0]


def is_listing(it, more):
    """Whether the kernel lists these too, and nothing else differs."""
    return it.line.startswith(f"ls {LIVEPATCH}/") and set(it.kernel) - set(it.rules) <= more(it) \
        and set(it.rules) <= set(it.kernel)


def newer_files(_it):
    return NEWER


def nops(it):
    """What the directory of a cumulative patch may list beside its own: the objects, or the functions, of others."""
    parts = it.line.split()[1][len(LIVEPATCH) + 1:].split("/")
    patch = it.catalog.patches.get(parts[0])
    if not patch or not patch.is_cumulative:
        return set()
    if len(parts) == 1:
        return set(it.catalog.symbols) | NEWER
    return {f"{name},{k}" for name in it.catalog.symbols.get(parts[1], []) for k in range(1, 9)} | NEWER


def is_older_reversed(it):
    return it.rule.is_older and it.line == "poll" and it.kernel[0].split()[0] in ("pending", "completed", "others")


def is_absent_function(it):
    return it.line.startswith("task sleep") and it.kernel[0].startswith("noframe")


def is_state_zero(it):
    """Whether an installed patch may hide states behind one with the id 0."""
    return it.line.startswith("load ") and it.rules == ["error 22 Incompatible"] and any(
        identifier == "0" for patch in it.catalog.patches.values() for identifier, _ in patch.states)


ANNOUNCED = (
    Announced("the order of refusals of a load", is_load_order, False),
    Announced("a pinned patch, after a force", is_pinned, False),
    Announced("a module is loaded without a symbol that an installed patch needs", is_coming_symbol, True),
    Announced("a pre-patch callback returns a status above 0", is_status_above, False),
    Announced("a value other than 0 and 1 for a missing `enabled` file", is_missing_file, False),
    Announced("`insmod` of a loaded module; `rmmod` of a module in use", is_number, False),
    Announced("files of newer kernels", lambda it: is_listing(it, newer_files), False),
    Announced("the directory of a cumulative patch in transition", lambda it: is_listing(it, nops), False),
    Announced("the disabling of a patch that isn't the newest is reversed", is_older_reversed, True),
    Announced("the id of a system state", is_state_zero, True),
    Announced("a task falls asleep inside of a function whose module isn't loaded", is_absent_function, True),
)


def announced(sides):
    """The difference that this one is, or None where it isn't announced."""
    if sides.is_order:
        return next((it for it in ANNOUNCED if it.is_it is is_coming_symbol and it.is_it(sides)), None)
    return next((it for it in ANNOUNCED if it.is_it(sides)), None)
