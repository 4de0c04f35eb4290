"""Whether klpsim answers as a plain machine does: `tools/hostile console [COUNT [SEED]]`.

The machine of testing/plain.py and testing/lines.py is written from the documents, and knows nothing of the sources.
100,000 random scripts, or so many, are answered by both, each over a catalog of examples/. A script has 20 to 80 lines
of all forms, some of them misspelled, and at its end asks for all that the console shows. What differs is printed with
the script's seed, and the line. The journal and the room for variables never get full: the machine counts neither
records nor what callbacks add.
"""
import os
import random
import sys
from concurrent.futures import ProcessPoolExecutor

sys.dont_write_bytecode = True
sys.path.insert(0, os.path.dirname(os.path.dirname(os.path.abspath(__file__))))

from testing.lines import Console
from testing.plain import P
from testing.run import read, run_itself

CATALOGS = (
    "k", "fix", "callbacks", "counted", "edits", "enabling", "handover", "k1", "kernel_callbacks", "last_object_fails",
    "module", "module_of_two_patches", "nop_over_two", "order", "positions", "reach_up", "refusals", "states", "values",
    "versions")
COUNT, SEED, SHOWN = 100_000, 1, 20
# How many scripts a process answers before it is asked for more.
BATCH = 50


# Which lines about a task are accepted, by where it is.
VERBS = {"user": ("enter", "enter", "end"), "kernel": ("sleep", "sleep", "sleep", "exit", "fork"), "asleep": ("wake",)}


class Writer:
    """Writes random lines about a machine's catalog. Most of them are accepted in the machine's state."""

    def __init__(self, machine, draw):
        self.machine, self.catalog, self.draw = machine, machine.catalog, draw
        catalog = self.catalog
        self.patches, self.objects = list(catalog.patches), list(catalog.objects)
        self.sites = [(it, place) for it, rows in catalog.objects.items() for place in range(len(rows))]
        callbacks = [kinds for patch in catalog.patches.values() for kinds in patch["targets"].values()]
        edits = [edit for kinds in callbacks for _, edits in kinds.values() for edit in edits]
        self.keys = [(int(it[1]), int(it[2])) for it in edits if it[0] in ("alloc", "free")] or [(1, 9)]

    def task(self):
        return self.draw.choice((0, 1, 1, 2, 2, 3, 63) if self.draw.random() < 0.98 else (64, 65535, 65536))

    def patch(self):
        return self.draw.choice(self.patches) if self.patches and self.draw.random() < 0.97 else "nobody"

    def object(self):
        return self.draw.choice(self.objects) if self.draw.random() < 0.97 else "nothing"

    def symbol(self):
        if not self.sites or self.draw.random() < 0.04:
            return ".klp.sym.vmlinux.nothing,0"
        found = self.catalog.spelled(self.draw.choice(self.sites))
        return found if self.draw.random() < 0.8 else f"{found.rpartition(',')[0]},0"

    def frame(self):
        return self.symbol() if self.draw.random() < 0.6 else f"{self.patch()}:{self.draw.choice((0, 0, 0, 1, 2, 9))}"

    def key(self):
        obj, number = self.draw.choice(self.keys)
        return f"{obj} {number}" if self.draw.random() < 0.8 else f"{self.draw.randrange(3)} {number}"

    def fitting_patch(self):
        """A line about patches that fits the state, but for callbacks and system states."""
        state, draw = self.machine.state, self.draw
        if state.moving:
            name, target = state.moving
            turns = (f"echo {1 - target} > {P}/{name}/enabled",)
            return draw.choice(("poll",) * 6 + turns * 2 + (f"echo 1 > {P}/{name}/force",))
        absent = [it for it in self.patches if it not in state.installed]
        lines = [f"load {it}" for it in absent] * 2 + [f"echo 0 > {P}/{it}/enabled" for it in state.installed]
        lines += [f"{'rmmod' if it in state.loaded else 'insmod'} {it}" for it in self.objects[1:]]
        return draw.choice(lines or ["poll"])

    def of_patches(self):
        if self.draw.random() < 0.7:
            return self.fitting_patch()
        draw, name = self.draw, self.patch()
        return draw.choice((
            f"load {name}", f"load {name}", "poll", "poll", f"echo {draw.randrange(2)} > {P}/{name}/enabled",
            f"echo {draw.choice('0111')} > {P}/{name}/force", f"insmod {self.object()}", f"rmmod {self.object()}"))

    def fitting_task(self):
        """A word and a task that fit the state."""
        tasks = self.machine.state.tasks
        if len(tasks) < 3 and self.draw.random() < 0.4:
            return "new", self.task()
        if not tasks:
            return "new", 1
        task = self.draw.choice(sorted(tasks))
        return self.draw.choice(VERBS[tasks[task]["mode"]]), task

    def of_tasks(self):
        word, task = self.fitting_task()
        if self.draw.random() < 0.2:
            word, task = self.draw.choice(("new", "enter", "exit", "sleep", "wake", "end", "fork")), self.task()
        if word == "fork":
            return f"task fork {task} {self.task()}"
        frames = [self.frame() for _ in range(self.draw.choice((0, 1, 1, 2)))] if word == "sleep" else []
        return " ".join([f"task {word} {task}", *frames])

    def of_variables(self):
        value = self.draw.choice(("5", "0", "18446744073709551615", "x0a0B", "x", "x0102030405060708"))
        return self.draw.choice((
            f"shadow alloc {self.key()} {value}", f"shadow getalloc {self.key()} {value}", f"shadow free {self.key()}",
            f"shadow freeall {self.draw.choice(self.keys)[1]}", f"shadow get {self.key()}"))

    def of_journal(self, most):
        back = f"rewind {self.draw.randrange(most + 2)}"
        return self.draw.choice(("mark", back, back, "seal"))

    def of_looks(self):
        name, owner, task = self.patch(), self.object(), self.task()
        return self.draw.choice((
            f"cat {P}/{name}/enabled", f"cat {P}/{name}/transition", f"cat /proc/{task}/patch_state", f"ls {P}",
            f"ls {P}/{name}", f"ls {P}/{name}/{owner}", f"text {owner}", f"stack {self.symbol()}",
            f"pick {task} {self.symbol()}", f"runs {name} {owner}"))

    def misspelled(self, line):
        """A line with a word more or less, or another letter."""
        words, kind = line.split(" "), self.draw.randrange(4)
        if kind == 0:
            del words[self.draw.randrange(len(words))]
        elif kind == 1:
            words.insert(self.draw.randrange(len(words) + 1), self.draw.choice(("", "x", "1", "/", "2")))
        else:
            at = self.draw.randrange(len(words))
            place = self.draw.randrange(len(words[at]) + 1)
            words[at] = words[at][:place] + self.draw.choice("x0:/.,-# \t") + words[at][place + (kind == 2):]
        return " ".join(words)

    def line(self, most):
        forms = (self.of_patches, self.of_tasks, self.of_variables, lambda: self.of_journal(most), self.of_looks)
        line = self.draw.choices(forms, (40, 34, 8, 4, 14))[0]()
        return self.misspelled(line) if self.draw.random() < 0.03 else line

    def all_looks(self):
        """Lines that ask for all that there is."""
        symbols = [self.catalog.spelled(it) for it in self.sites]
        yield from ("mark", f"ls {P}", *(f"text {it}" for it in self.objects), *(f"stack {it}" for it in symbols))
        for name, patch in self.catalog.patches.items():
            yield from (f"cat {P}/{name}/enabled", f"cat {P}/{name}/transition")
            yield from (f"runs {name} {it}" for it in patch["targets"])
        yield from (f"shadow get {obj} {number}" for obj, number in sorted(set(self.keys)))
        for task in sorted(self.machine.state.tasks):
            yield from (f"cat /proc/{task}/patch_state", *(f"pick {task} {it}" for it in symbols))

    def script(self):
        """The lines of a script, each with the machine's answer."""
        for place in range(self.draw.randrange(20, 80)):
            line = self.line(place)
            yield line, self.machine.answer(line)
        for line in list(self.all_looks()):
            yield line, self.machine.answer(line)


def differing(seed):
    """The first line of the script of this seed that is answered otherwise than by the plain machine, or None."""
    draw = random.Random(seed)
    name = draw.choice(CATALOGS)
    script = list(Writer(Console(read(f"{name}.catalog").decode()), draw).script())
    text = "".join(f"{line}\n" for line, _ in script)
    status, out, err = run_itself(["klpsim", "console", f"{name}.catalog"], text.encode())
    said = out.decode()
    if (status, said, err) == (0, "".join(answer for _, answer in script), ""):
        return None
    for number, (line, answer) in enumerate(script, 1):
        if not said.startswith(answer):
            place = f"seed {seed}, {name}.catalog, line {number}: {line}"
            return f"{place}: {said[:200]!r}, where the machine has {answer!r}"
        said = said[len(answer):]
    return f"seed {seed}, {name}.catalog: status {status}, {said[:200]!r}, {err}"


def main(given):
    count, seed = [*map(int, given), *(COUNT, SEED)[len(given):]]
    wrong = 0
    with ProcessPoolExecutor(os.cpu_count()) as pool:
        for found in filter(None, pool.map(differing, range(seed, seed + count), chunksize=BATCH)):
            wrong += 1
            if wrong <= SHOWN:
                print(found, flush=True)
    print(f"console: {count} scripts, {wrong} answered otherwise")
    return 1 if wrong else 0


if __name__ == "__main__":
    sys.exit(main(sys.argv[1:]))
