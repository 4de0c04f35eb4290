"""The comparer of tools/kernel/conform, over what one boot of a kernel answered, as it was and edited by the rules of
wrong kernels. No kernel is booted."""
import copy
import functools
import os
import re
import sys
import tempfile

from testing.run import TOP, built_program, finish, start

sys.path.insert(0, f"{TOP}/tools/kernel")

from conforming import measured, scripts, wrong
from conforming.comparing import all_compared, compared, first_unannounced, tally
from conforming.kernels import Unusable
from conforming.lab import Lab
from conforming.machine import Machine
from conforming.operations import play_of
from conforming.rules import Rules

# The scripts of a boot of Debian's 6.1, and what it printed: those of conforming/directed.py, and two random ones.
RECORDED = f"{TOP}/tools/kernel/conforming/recorded.json"
# Wrong kernels that so few scripts show.
SHOWN = ("a reversal keeps the target", "a blocked version holds nobody", "a force doesn't switch",
         "a function stack is upside down", "an entry site keeps its call", "callbacks run in the reverse order",
         "a post-patch callback is counted twice")


@functools.lru_cache(None)
def recorded():
    """The recorded scripts, what the rules say of them now, and what the kernel answered."""
    os.environ["KLPSIM"] = built_program()
    with tempfile.TemporaryDirectory(prefix="conform-") as room:
        _, cases, log = wrong.recorded(RECORDED)
        rules = Rules(room)
        return cases, [rules.of(it) for it in cases], log


def right():
    """The kernel differs in what is announced, and in nothing else."""
    cases, rules, log = recorded()
    rows = [compared(case, number, own, log) for number, (case, own) in enumerate(zip(cases, rules))]
    lines, names = tally(rows)
    wrong_rows = [it for it in map(first_unannounced, rows) if it]
    if wrong_rows or lines["same"] < 300:
        return f"{lines}, {wrong_rows[:2]}"
    return None if len(names) >= 6 else f"announced are only {names}"


def warned(place, is_announced):
    """A warning at this place, in place of that of a duplicate of a shadow variable, is one of a duplicate, or a difference."""
    cases, rules, log = recorded()
    log = copy.deepcopy(log)
    seen = [it for own in log.values() for it in own.values() if any("shadow.c:" in row for row in it.log)]
    for it in seen:
        it.log[:] = [re.sub(r"\bat kernel/livepatch/shadow.c:\d+ ", f"at {place} ", row) for row in it.log]
    rows = [compared(case, number, own, log) for number, (case, own) in enumerate(zip(cases, rules))]
    wrong_rows = [it for it in map(first_unannounced, rows) if it]
    return None if seen and bool(wrong_rows) != is_announced else f"{len(seen)} warnings, {wrong_rows[:2]}"


def unanswered():
    """What a kernel didn't answer is never the same."""
    cases, rules, _ = recorded()
    rows = [compared(case, number, own, {}) for number, (case, own) in enumerate(zip(cases, rules))]
    return None if set(tally(rows)[0]) == {"left"} else f"{tally(rows)[0]}"


def doctored(name):
    """A wrong kernel is noticed."""
    cases, rules, log = recorded()
    return None if wrong.noticed(cases, rules, log, name) else "it isn't noticed"


def same_scripts():
    """A seed makes the same script each time, and a script has the same operations."""
    os.environ["KLPSIM"] = built_program()
    with tempfile.TemporaryDirectory(prefix="conform-") as room:
        rules = Rules(room)
        first, again = (scripts.random_case(rules, 5, 20) for _ in range(2))
        own = rules.of(first)
    if (first.text, first.lines) != (again.text, again.lines):
        return "a seed makes two scripts"
    return None if sum(it.startswith("Q ") for it in play_of(first, 0, own)) > 20 else "few lines are played"


def table():
    """KERNEL has the table of what was measured."""
    with open(f"{TOP}/docs/KERNEL.md", encoding="utf-8") as it:
        text = it.read()
    if measured.table() not in text:
        return "write what tools/kernel/conform --table prints into docs/KERNEL.md"
    missing = [it.name for it in measured.ANNOUNCED if it.name not in text.replace(measured.table(), "")]
    return f"KERNEL doesn't announce {missing}" if missing else None


def ended(told, *lines):
    """Why a machine ended, by the last lines of its console."""
    machine = Machine.__new__(Machine)
    machine.lines = list(lines)
    return None if told in machine.why_it_ended() else f"it is told so: {machine.why_it_ended()}"


def not_survived():
    """Nothing counts of a script that a kernel doesn't survive, and those behind it are played."""
    cases, rules, _ = recorded()

    class Dying(Lab):
        def console(self, rows):
            names = [it for it in rows if it.startswith("S ")]
            if "S 1" not in names:
                return [names[0], "Q end"]
            why = Unusable("it panics")
            why.printed = ["S 0", "Q end", "S 1", "Q 0", "A errno 0"]
            raise why

    lab = Dying(None, None, None)
    printed, ended = lab.survived([[f"S {number}", "Q end x"] for number in range(3)], 0)
    played = [bool(it) for it in all_compared(cases[:3], rules[:3], printed)]
    return None if (played, [it[:2] for it in ended]) == ([True, False, True], [(1, "0")]) else f"{played}, {ended}"


def refused(words, status, told):
    came = finish(start([f"{TOP}/tools/kernel/conform", *words], TOP))
    both = came[1].decode() + came[2]
    return None if came[0] == status and told in both else f"status {came[0]}: {both[-300:]}"


def cases():
    own = [("conform: a duplicate by its function", lambda: warned("__klp_shadow_get_or_alloc+0x19d/0x210", True)),
           ("conform: another warning", lambda: warned("kernel/livepatch/core.c:9", False)), ("conform: a right kernel", right), ("conform: no answers", unanswered), ("conform: a seed", same_scripts),
           ("conform: the table", table), ("conform: another word", lambda: refused(("--no-such-word",), 2, "usage: ")),
           ("conform: a script that isn't survived", not_survived),
           ("conform: no livepatch", lambda: ended("LACKS livepatch", "BEGUN", "LACKS livepatch (there is none)")),
           ("conform: no symbol", lambda: ended("klp_stepper lacks klp_mutex", "D klp_stepper lacks klp_mutex")),
           ("conform: a panic", lambda: ended("it panics: Kernel panic - x; the console ends: S 1 /", "S 1",
                                              "Kernel panic - x")),
           ("conform: an early end", lambda: ended("before all was played; the console ends: Q 7", "Q 7"))]
    return own + [(f"conform: {it}", functools.partial(doctored, it)) for it in SHOWN]
