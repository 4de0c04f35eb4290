"""Whether the stored examples catch wrong bodies: `tools/hostile plant [CRATE ..]`.

The wrong bodies of tools/plants, or those of these crates, are put into a copy of the sources, each behind a number.
The copy is compiled once, unproved. Then each wrong body runs over the stored examples of the programs that have it:
klpwatch, klppage, klplint and klpsee. It is caught by an example that comes to something else than what is stored. One
that a clause refuses, or that is allowed with a reason, needs no example: it runs over twenty of them at most. It prints
for each crate how many were tried, how many a clause refuses, how many are caught, and each that is neither. Of one that
is allowed it tells where an example catches it.

An example that a wrong body names is tried first. With NOTE=1 in the environment each gets the name of the one that
caught it.
"""
import functools
import os
import shutil
import subprocess
import sys
import tempfile
import threading
import time
from collections import Counter, defaultdict
from concurrent.futures import ThreadPoolExecutor

sys.dont_write_bytecode = True
sys.path.insert(0, os.path.dirname(os.path.dirname(os.path.abspath(__file__))))

from testing import examples, logs, stories
from testing.run import EXAMPLES, PROGRAMS, TOP, finish, start
from testing.woven import CHOSEN, Faulty, is_given, noted, read_plants, selector, woven

PLANTS = f"{TOP}/tools/plants"
# The variable by which the compiled copy knows which wrong body it has.
VARIABLE = "PLANT"
# How many examples are tried of a wrong body that needs none.
FEW = 20
# Where the logs stand whose answers are stored.
STORED = ("captures/", "logs/")


def all_plants(crates):
    """The plants of these crates, or of all, with their numbers from 1."""
    found = []
    for crate in sorted(os.listdir(PLANTS)):
        with open(f"{PLANTS}/{crate}", encoding="utf-8") as it:
            found += read_plants(crate, it.read())
    return [(number, it) for number, it in enumerate(found, 1) if not crates or it.crate in crates]


def copied(room):
    """A copy of what the program is compiled from."""
    for name in ("crates", "tools"):
        shutil.copytree(f"{TOP}/{name}", f"{room}/{name}", ignore=shutil.ignore_patterns("out", "must-fail", "data"))
    for name in ("crates.txt", "HANDLES", *PROGRAMS):
        shutil.copy(f"{TOP}/{name}", f"{room}/{name}", follow_symlinks=False)


def plant_all(room, plants):
    """Puts the plants into the copy."""
    for crate in {it.crate for _, it in plants}:
        own = [(number, it) for number, it in plants if it.crate == crate]
        for file in {file for _, it in own for file, _ in it.edits}:
            path = f"{room}/crates/{crate}/src/{file}"
            with open(path, encoding="utf-8") as it:
                text = it.read()
            with open(path, "w", encoding="utf-8") as it:
                it.write(woven(text, file, own))
    os.makedirs(f"{room}/crates/{CHOSEN}/src")
    with open(f"{room}/crates/{CHOSEN}/src/lib.rt", "w", encoding="utf-8") as it:
        it.write(selector(VARIABLE))
    name_selector(f"{room}/crates.txt", {it.crate for _, it in plants})


def name_selector(path, crates):
    """Has these crates depend on the one that knows what is chosen."""
    with open(path, encoding="utf-8") as it:
        lines = it.read().splitlines()
    lines = [f"{line} {CHOSEN}" if line.partition(":")[0] in crates else line for line in lines]
    with open(path, "w", encoding="utf-8") as it:
        it.write("\n".join([f"{CHOSEN}:", *lines, ""]))


def compiled(room):
    """The program of the copy."""
    ran = subprocess.run([f"{room}/klplint", "--help"], stdout=subprocess.DEVNULL, stderr=subprocess.PIPE, check=False)
    program = f"{room}/out/unproved/klpsim"
    if not os.path.exists(program):
        sys.exit(f"plant: the copy isn't compiled:\n{ran.stderr.decode(errors='replace')}")
    return program


def programs_of():
    """For each crate the programs that have it."""
    with open(f"{TOP}/crates.txt", encoding="utf-8") as it:
        rows = [line.partition(":") for line in it if ":" in line and not line.startswith("#")]
    below = {name: rest.split() for name, _, rest in rows}

    def reached(crate):
        found = {crate}
        for it in below.get(crate, ()):
            found |= reached(it)
        return found

    reached = functools.lru_cache(None)(reached)
    return {crate: [it for it in PROGRAMS if crate in reached(it)] for crate in below}


class Chosen(threading.local):
    """The plant that a thread tries."""
    number = 0


class Runner:
    """Runs the compiled copy in place of what tests run, with the plant that the thread has chosen."""

    def __init__(self, program):
        self.program = program
        self.chosen = Chosen()

    def __call__(self, words, given=b"", seconds=20):
        how = {"executable": self.program, "env": {VARIABLE: str(self.chosen.number)}}
        return finish(start(words, **how), given, seconds)


def stored_cases():
    """The stored examples of each program, the small ones first."""
    made = {
        "klpwatch": [*examples.traces(), *examples.long_traces()],
        "klppage": [*examples.pages(), *stories.cases()],
        "klplint": [(it, call) for it, call in examples.lints() if it.startswith(("lint/", "docs/"))],
        "klpsee": [it for it in logs.cases() if it[0].startswith(STORED) and it[0].endswith((".log", "--json"))],
    }
    return {program: sorted(cases, key=size_of) for program, cases in made.items()}


def size_of(case):
    """How large an example is, by its file. One without a file stands behind all others."""
    path = f"{EXAMPLES}/{case[0].partition(',')[0]}"
    return os.path.getsize(path) if os.path.exists(path) else sys.maxsize


def catching(runner, cases, number):
    """The first example that catches this plant, or None."""
    runner.chosen.number = number
    for name, call in cases:
        try:
            wrong = call()
        except (subprocess.TimeoutExpired, ValueError, KeyError) as error:
            wrong = repr(error)
        if wrong:
            return name, wrong
    return None


def needs_none(it):
    """Whether no example has to catch this plant."""
    return bool(it.allowed) or has_clause(it)


def judged(plants, runner):
    """For each plant the example that catches it. The one that it names is tried first, and then those that caught others of
    its crate."""
    cases, programs, catches = stored_cases(), programs_of(), defaultdict(Counter)

    def stored(case):
        wrong = catching(runner, [case], 0)
        if wrong:
            sys.exit(f"plant: without a wrong body a program comes to something else than what is stored: {wrong}")

    def attempt(row):
        number, it = row
        own = [case for name in cases if name in programs[it.crate] for case in cases[name]]
        own.sort(key=lambda case: (case[0] != it.by, -catches[it.crate][case[0]]))
        example = catching(runner, own[:FEW] if needs_none(it) else own, number)
        if example:
            catches[it.crate][example[0]] += 1
        return example

    with ThreadPoolExecutor(os.cpu_count()) as pool:
        list(pool.map(stored, [case for own in cases.values() for case in own]))
        return list(pool.map(attempt, plants))


def has_clause(it):
    """Whether a clause gives what each function returns that a plant changes, so that a proof refuses it."""
    texts = []
    for file in {file for file, _ in it.edits}:
        with open(f"{TOP}/crates/{it.crate}/src/{file}", encoding="utf-8") as source:
            texts.append(is_given(source.read(), file, it))
    return all(texts)


def left(it, example):
    """What is to be said of a plant: no example catches it, or one does that needn't."""
    if example:
        return f"allowed, but {example[0]} catches it" if it.allowed else None
    if needs_none(it):
        return None
    return f"no example catches it: {it.why}"


def told(plants, caught):
    """Prints what came of the plants, and returns whether each is caught, refused by a clause, or allowed."""
    tried, given, held, allowed, is_well = Counter(), Counter(), Counter(), Counter(), True
    for (_, it), example in zip(plants, caught):
        tried[it.crate] += 1
        given[it.crate] += has_clause(it)
        held[it.crate] += bool(example)
        allowed[it.crate] += bool(it.allowed)
        if os.environ.get("VERBOSE"):
            print(f"{it.crate}/{it.name}: {example}")
        if left(it, example):
            is_well = is_well and bool(example)
            print(f"{it.crate}/{it.name}: {left(it, example)}")
    for crate, count in [*tried.items(), ("all", sum(tried.values()))]:
        sums = [sum(it.values()) if crate == "all" else it[crate] for it in (given, held, allowed)]
        print("{}: {} tried, {} with a clause, {} caught, {} allowed".format(crate, count, *sums))
    return is_well


def note_all(by):
    """Has each plant name the example that caught it, by crate and name."""
    for crate in {crate for crate, _ in by}:
        with open(f"{PLANTS}/{crate}", encoding="utf-8") as it:
            text = it.read()
        with open(f"{PLANTS}/{crate}", "w", encoding="utf-8") as it:
            it.write(noted(crate, text, by))


def main(crates):
    plants = all_plants(crates)
    with tempfile.TemporaryDirectory(prefix="plants-") as room:
        copied(room)
        try:
            plant_all(room, plants)
        except Faulty as error:
            sys.exit(f"plant: {error}")
        runner = Runner(compiled(room))
        examples.run = logs.run = stories.run = runner
        begun = time.monotonic()
        caught = judged(plants, runner)
        is_well = told(plants, caught)
        if os.environ.get("NOTE"):
            note_all({(it.crate, it.name): example[0] for (_, it), example in zip(plants, caught) if example})
        print(f"plants: {time.monotonic() - begun:.0f} s besides the compile")
    return 0 if is_well else 1


if __name__ == "__main__":
    sys.exit(main(sys.argv[1:]))
