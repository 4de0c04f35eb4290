"""Random catalogs and scripts. klpsim is asked as a script grows, so that its events are those that may come next."""
import random

from conforming.catalogs import Catalog
from conforming.rules import LIVEPATCH, Case

OBJECTS = {"vmlinux": ["f", "h", "d", "d"], "m": ["g", "i"], "n": ["k"]}
PATCHES = "pqrst"
TASKS = (1, 2, 3, 4)
SITES = [f".klp.sym.{name}.{symbol},{symbols[:k + 1].count(symbol)}" for name, symbols in OBJECTS.items()
         for k, symbol in enumerate(symbols)]


def random_catalog(rng):
    """The text of a catalog with five patches."""
    rows, address = ["handler ffffffff81000000"], 0xffffffff81001000
    for name, symbols in OBJECTS.items():
        rows.append(f"object {name}")
        for it in symbols:
            rows.append(f"symbol {it} {address:016x} e800000000c3")
            address += 0x1000
    for number, name in enumerate(PATCHES):
        rows += random_patch(rng, name, 0xffffffffc0001000 + number * 0x10000)
    return "\n".join(rows) + "\n"


def random_patch(rng, name, address):
    rows = [f"patch {name}" + (" replace" if rng.random() < 0.35 else "")]
    states = [it for it in (1, 2) if rng.random() < 0.4]
    rows += [f"state {it} {rng.choice((1, 1, 2))}" for it in states]
    targets = [it for it in OBJECTS if rng.random() < 0.7] or ["vmlinux"]
    rng.shuffle(targets)
    for it in targets:
        rows.append(f"target {it}")
        if it != "vmlinux" or rng.random() >= 0.15:
            rows += random_functions(rng, name, it, address + 0x1000 * targets.index(it))
        for kind in ("pre", "post", "preun", "postun"):
            if rng.random() < 0.6:
                rows.append(random_callback(rng, kind, states if it == "vmlinux" else []))
    return rows


def random_functions(rng, patch, name, address):
    rows = []
    for k, symbol in enumerate(OBJECTS[name]):
        if rng.random() < 0.55:
            is_alone = OBJECTS[name].count(symbol) == 1
            position = rng.choice((0, 1)) if is_alone else OBJECTS[name][:k + 1].count(symbol)
            rows.append(f"func .klp.sym.{name}.{symbol},{position} {patch}_{symbol}{k} {address + 0x100 * k:x}")
    if name == "vmlinux" and rng.random() < 0.04:
        rows.append(f"func .klp.sym.vmlinux.missing,0 {patch}_missing {address + 0x800:x}")
    return rows


def random_callback(rng, kind, states):
    if kind == "pre" and rng.random() < 0.1:
        return f"pre -{rng.choice((12, 16, 19))}"
    edits = []
    if states and rng.random() < 0.6:
        state = rng.choice(states + [1, 2])
        edits.append(rng.choice((f"set:{state}:{rng.randint(1, 99)}", f"takeprev:{state}")))
    for _ in range(rng.choice((0, 0, 1, 1, 2))):
        key = f"{rng.randint(1, 2)}:{rng.randint(1, 2)}"
        edits.append(rng.choice((f"alloc:{key}:{rng.randint(1, 99)}", f"free:{key}", f"freeall:{rng.randint(1, 2)}")))
    return " ".join([kind, "0", *edits])


class Growing:
    """A script that grows, beside the console that answers it."""

    def __init__(self, rng, text, console):
        self.rng, self.console, self.catalog = rng, console, Catalog(text)
        self.lines, self.modes, self.loaded = [], {}, ["vmlinux"]

    def do(self, line):
        """Adds a line. Returns its answer's first line."""
        self.lines.append(line)
        return (self.console.answer(line) or [""])[0]

    def shown(self):
        """The installed patches, the one in transition, and its target."""
        files = [f"cat {LIVEPATCH}/{it}/{file}" for file in ("transition", "enabled") for it in PATCHES]
        installed, *shown = self.console.answers([f"ls {LIVEPATCH}", *files])
        for name, is_moving, target in zip(PATCHES, shown, shown[len(PATCHES):]):
            if is_moving == ["1"]:
                return installed, name, int(target[0])
        return installed, None, None

    def in_mode(self, mode):
        return [task for task, it in self.modes.items() if it == mode]

    def free(self):
        return [it for it in TASKS if it not in self.modes]

    def weights(self, installed, moving):
        """The kinds of events that may come next, and how often each is to come."""
        kinds = {"load": 3 if moving else 16, "module": 9, "shadow": 2}
        if moving:
            kinds["poll"] = 11
        if installed:
            kinds["enabled"] = 9 if moving else 7
            kinds["force"] = 1.2 if moving else 0.3
        if self.free():
            kinds["new"] = 8 if len(self.free()) > 2 else 1
        if self.in_mode("user"):
            kinds["enter"] = 9
        if self.in_mode("kernel"):
            kinds.update(exit=6, sleep=9, end=0.7)
            if self.free():
                kinds["fork"] = 2
        if self.in_mode("asleep"):
            kinds["wake"] = 6
        return kinds

    def event(self):
        """Adds a random event."""
        installed, moving, target = self.shown()
        kinds = self.weights(installed, moving)
        kind = self.rng.choices(list(kinds), list(kinds.values()))[0]
        if kind in ("load", "poll", "enabled", "force"):
            self.patch_event(kind, installed, moving, target)
        elif kind == "module":
            self.module_event()
        elif kind == "shadow":
            key = f"{self.rng.randint(1, 2)} {self.rng.randint(1, 2)}"
            value = self.rng.randint(1, 99)
            self.do("shadow " + self.rng.choice((f"alloc {key} {value}", f"free {key}", f"getalloc {key} {value}")))
        else:
            self.task_event(kind)

    def patch_event(self, kind, installed, moving, target):
        if kind == "load":
            self.do(f"load {self.rng.choice(PATCHES)}")
        elif kind == "poll":
            self.do("poll")
        elif kind == "force":
            self.do(f"echo 1 > {LIVEPATCH}/{moving or self.rng.choice(installed)}/force")
        else:
            name, value = self.rng.choice(installed), self.rng.choice((0, 0, 1))
            if moving and self.rng.random() < 0.75:
                name = moving
            if name == moving and self.rng.random() < 0.8:
                value = 1 - target
            self.do(f"echo {value} > {LIVEPATCH}/{name}/enabled")

    def module_event(self):
        name = self.rng.choice("mn")
        is_loaded = (name in self.loaded) != (self.rng.random() < 0.1)
        if self.do(("rmmod " if is_loaded else "insmod ") + name) == "ok":
            (self.loaded.remove if is_loaded else self.loaded.append)(name)

    def task_event(self, kind):
        if kind == "new":
            task = self.free()[0]
            self.do(f"task new {task}")
            self.modes[task] = "user"
            return
        task = self.rng.choice(self.in_mode({"enter": "user", "wake": "asleep"}.get(kind, "kernel")))
        if kind == "fork":
            child = self.free()[0]
            self.do(f"task fork {task} {child}")
            self.modes[child] = "kernel"
            return
        frames = self.frames(task) if kind == "sleep" else []
        self.do(" ".join([f"task {kind} {task}", *frames]))
        self.modes[task] = {"enter": "kernel", "exit": "user", "sleep": "asleep", "wake": "kernel", "end": None}[kind]
        if kind == "end":
            del self.modes[task]

    def frames(self, task):
        """Functions that the task could be inside of: of some sites the version that it would be given now."""
        sites = self.rng.sample(SITES, self.rng.choice((0, 1, 1, 2, 3)))
        sites = [it for it in sites if it.split(".")[3] in self.loaded]
        found = []
        for site, answer in zip(sites, self.console.answers([f"pick {task} {it}" for it in sites]) if sites else []):
            words = answer[0].split()
            is_original = words[0] not in self.catalog.patches
            found.append(site if is_original else f"{words[0]}:{self.number(*words[:2])}")
        return found

    def number(self, patch, name):
        return self.catalog.patches[patch].functions.index(name)

    def look(self):
        """Adds a random question."""
        rng, patch, installed = self.rng, self.rng.choice(PATCHES), self.console.answer(f"ls {LIVEPATCH}")
        tasks = list(self.modes)
        looks = [lambda: f"text {rng.choice(list(OBJECTS))}", lambda: f"stack {rng.choice(SITES)}",
                 lambda: f"runs {patch} {rng.choice(list(self.catalog.patches[patch].targets))}",
                 lambda: f"cat {LIVEPATCH}/{patch}/{rng.choice(('enabled', 'transition'))}",
                 lambda: f"ls {LIVEPATCH}", lambda: f"shadow get {rng.randint(1, 2)} {rng.randint(1, 2)}",
                 lambda: f"state {rng.choice(installed or [patch])} {rng.randint(1, 2)}",
                 lambda: f"ls {LIVEPATCH}/{rng.choice(installed or [patch])}"]
        if tasks:
            looks += 2 * [lambda: f"pick {rng.choice(tasks)} {rng.choice(SITES)}",
                          lambda: f"cat /proc/{rng.choice(tasks)}/patch_state"]
        self.ask(rng.choice(looks)())

    def ask(self, line):
        """Adds a question, of which the console needn't know."""
        self.lines.append(line)

    def all_looks(self):
        """Adds every question."""
        installed = self.console.answer(f"ls {LIVEPATCH}")
        self.ask(f"ls {LIVEPATCH}")
        for name in OBJECTS:
            self.ask(f"text {name}")
        for site in SITES:
            self.ask(f"stack {site}")
            for task in list(self.modes)[:2]:
                self.ask(f"pick {task} {site}")
        for name, patch in self.catalog.patches.items():
            for it in patch.targets:
                self.ask(f"runs {name} {it}")
        for name in installed:
            self.ask(f"ls {LIVEPATCH}/{name}")
            for it in (1, 2):
                self.ask(f"state {name} {it}")
        for task in self.modes:
            self.ask(f"cat /proc/{task}/patch_state")
        for key in ("1 1", "1 2", "2 1", "2 2"):
            self.ask(f"shadow get {key}")


def random_case(rules, seed, events):
    """The script of a seed, with so many events."""
    rng = random.Random(seed)
    text = random_catalog(rng)
    console = rules.start(text)
    growing = Growing(rng, text, console)
    for number in range(events):
        growing.event()
        for _ in range(rng.choice((0, 1, 1, 2))):
            growing.look()
        if number == events // 2:
            growing.all_looks()
    growing.all_looks()
    console.end()
    return Case(f"random-{seed}", text, growing.lines)
