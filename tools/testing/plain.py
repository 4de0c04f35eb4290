"""A plain machine for lines of the console, written from docs/CONSOLE.md, CATALOG.md, CONSISTENCY.md and KERNEL.md.

It stores what it is told and nothing that follows from it: entries, texts and versions are looked up in the installed
patches. A rewind takes a copy of the whole state that was made before the event.
"""
import copy
import re

P = "/sys/kernel/livepatch"
NOP, NONE = bytes.fromhex("0f1f440000"), None
ENDBR64 = bytes.fromhex("f30f1efa")
MOST_TASKS, MOST_NUMBER, MOST_VARIABLES = 64, 65536, 512
KINDS = ("pre", "post", "preun", "postun")
SYMBOL = re.compile(r"\.klp\.sym\.([A-Za-z0-9_-]{1,55})\.([A-Za-z0-9_.$]{1,127}),(\d+)\Z", re.A)
# The number of each error.
NUMBERS = {
    2: ("NoPatch", "NoModule", "NoTask", "NotFound"), 12: ("Full",), 16: ("Busy", "InUse"),
    22: ("BadLine", "BadValue", "BadMark", "AlreadyThere", "Pinned", "Incompatible", "NoSymbol", "TaskThere",
         "WrongMode", "BadFrame", "NotMoving", "Exists", "SameValue"),
}
CODES = {name: number for number, names in NUMBERS.items() for name in names}


class Refused(Exception):
    """A line that is refused, by its name."""


def number_of(word, below=2**64):
    """The number that a word spells, or BadLine."""
    if not re.fullmatch(r"[0-9]+", word, re.A) or int(word) >= below:
        raise Refused("BadLine")
    return int(word)


def value_of(word):
    """The bytes of a shadow variable's value."""
    if word.startswith("x"):
        if not re.fullmatch(r"x(?:[0-9a-fA-F]{2}){0,64}", word, re.A):
            raise Refused("BadLine")
        return bytes.fromhex(word[1:])
    return number_of(word).to_bytes(8, "little")


def spelled(value):
    """A value as an answer shows it."""
    return str(int.from_bytes(value, "little")) if len(value) == 8 else f"x{value.hex()}"


class Catalog:
    """What a catalog's text says, which has no fault."""

    def __init__(self, text):
        self.objects, self.patches, target = {}, {}, None
        for line in text.splitlines():
            word, *words = line.split() or ["#"]
            if word == "handler":
                self.handler = int(words[0], 16)
            elif word == "object":
                self.objects[words[0]] = []
            elif word == "symbol":
                list(self.objects.values())[-1].append((words[0], int(words[1], 16), bytes.fromhex(words[2])))
            elif word == "patch":
                patch = {"replace": len(words) > 1, "states": {}, "targets": {}, "functions": []}
                self.patches[words[0]] = patch
            elif word == "target":
                target = words[0]
                patch["targets"][target] = {}
            elif word == "func":
                owner, name, position = SYMBOL.match(words[0]).groups()
                site = self.site(owner, name, int(position))
                listed = self.spelled(site).split(".", 4)[4] if site else f"{name},{max(1, int(position))}"
                patch["functions"].append((target, site, words[1], int(words[2], 16), listed))
            elif word == "state":
                patch["states"][int(words[0])] = int(words[1])
            elif word in KINDS:
                patch["targets"][target][word] = (int(words[0]), [it.split(":") for it in words[1:]])

    def site(self, owner, name, position):
        """The site of a symbol, its object and place, or None."""
        found = [place for place, symbol in enumerate(self.objects[owner]) if symbol[0] == name]
        if position == 0:
            return (owner, found[0]) if len(found) == 1 else None
        return (owner, found[position - 1]) if position <= len(found) else None

    def entry_site(self, site):
        """How many bytes of a function's body stand before its entry site: a leading endbr64."""
        body = self.objects[site[0]][site[1]][2]
        return len(ENDBR64) if body.startswith(ENDBR64) else 0

    def spelled(self, site):
        """A site as an answer shows it."""
        owner, place = site
        name = self.objects[owner][place][0]
        position = sum(symbol[0] == name for symbol in self.objects[owner][:place + 1])
        return f".klp.sym.{owner}.{name},{position}"


class State:
    """What a rewind restores."""

    def __init__(self):
        self.loaded, self.installed, self.moving, self.pinned = {"vmlinux"}, [], None, set()
        self.tasks, self.variables, self.values, self.entered = {}, {}, {}, {}


class Machine:
    """Answers lines."""

    def __init__(self, text):
        self.catalog, self.state, self.journal, self.runs = Catalog(text), State(), [], {}

    # Entries, texts and versions.

    def entries(self, site):
        """The entries at a site, newest first: each a patch with the number of its function, or None for a nop."""
        found = []
        for place, name in enumerate(self.state.installed):
            own = self.function_at(name, site)
            older = any(self.function_at(it, site) is not None for it in self.state.installed[:place])
            if own is not None or (self.catalog.patches[name]["replace"] and older):
                found.insert(0, (name, own))
        return found if site[0] in self.state.loaded else []

    def function_at(self, name, site):
        """The number of a patch's function for a site, or None."""
        functions = self.catalog.patches[name]["functions"]
        return next((number for number, it in enumerate(functions) if it[1] == site), None)

    @staticmethod
    def version(site, entry):
        """The version that an entry stands for."""
        return site if entry is None or entry[1] is None else entry

    def picked(self, task, site):
        """The version that a task runs."""
        found = self.entries(site)
        if found and self.state.moving and found[0][0] == self.state.moving[0] and task["state"] == 0:
            found = found[1:]
        return self.version(site, found[0] if found else None)

    def blocked(self):
        """The versions inside of which a sleeper isn't switched."""
        name, target = self.state.moving
        for owner in self.catalog.objects:
            for place in range(len(self.catalog.objects[owner])):
                found = self.entries((owner, place))
                own = next((at for at, it in enumerate(found) if it[0] == name), None)
                if own is not None:
                    at = own + target
                    yield self.version((owner, place), found[at] if at < len(found) else None)

    def owner_of(self, version):
        """The object of a version."""
        if version[0] in self.catalog.objects and isinstance(version[1], int) and version not in self.new_versions():
            return version[0]
        return self.catalog.patches[version[0]]["functions"][version[1]][0]

    def new_versions(self):
        return {(name, number) for name, it in self.catalog.patches.items() for number in range(len(it["functions"]))}

    def frame(self, version):
        """A version as an answer shows it."""
        return f"{version[0]}:{version[1]}" if version in self.new_versions() else self.catalog.spelled(version)

    # Callbacks.

    def call(self, name, owner, kind):
        """Runs a callback, and returns its status."""
        callback = self.catalog.patches[name]["targets"][owner].get(kind)
        if callback is None:
            return 0
        self.runs[name, owner, kind] = self.runs.get((name, owner, kind), 0) + 1
        status, edits = callback
        for word, *words in edits:
            self.edit(name, word, words)
        return status

    def edit(self, name, word, words):
        """Does one edit of a callback of this patch."""
        variables, values = self.state.variables, self.state.values.get(name, {})
        if word == "alloc":
            variables.setdefault((int(words[0]), int(words[1])), value_of(words[2]))
        elif word == "free":
            variables.pop((int(words[0]), int(words[1])), None)
        elif word == "freeall":
            for key in [it for it in variables if it[1] == int(words[0])]:
                del variables[key]
        elif int(words[0]) in values and word == "set":
            values[int(words[0])] = int(words[1])
        elif int(words[0]) in values and word == "takeprev":
            older = self.state.installed[:self.state.installed.index(name)]
            having = [it for it in older if int(words[0]) in self.state.values[it]]
            if having:
                values[int(words[0])] = self.state.values[having[-1]][int(words[0])]

    def targets(self, name):
        """The loaded objects of a patch."""
        return [it for it in self.catalog.patches[name]["targets"] if it in self.state.loaded]

    # Events of patches.

    def load(self, name):
        state, patch = self.state, self.catalog.patches[name]
        if name in state.installed:
            raise Refused("AlreadyThere")
        if state.moving:
            raise Refused("Busy")
        if name in state.pinned:
            raise Refused("Pinned")
        for older in state.installed:
            for number, version in self.catalog.patches[older]["states"].items():
                if number not in patch["states"] and patch["replace"] or patch["states"].get(number, version) < version:
                    raise Refused("Incompatible")
        if any(it[1] is None for it in patch["functions"] if it[0] in state.loaded):
            raise Refused("NoSymbol")
        return self.enable(name)

    def enable(self, name):
        """Enables a patch that nothing refuses."""
        state, done = self.state, []
        state.installed.append(name)
        state.values[name] = dict.fromkeys(self.catalog.patches[name]["states"], 0)
        for owner in self.targets(name):
            status = self.call(name, owner, "pre")
            if status:
                for it in done:
                    self.call(name, it, "postun")
                self.remove(name)
                return f"prefailed {name} {owner} {status}"
            done.append(owner)
        self.move(name, 1)
        return "started"

    def move(self, name, target):
        """Begins a transition."""
        self.state.moving = (name, target)
        for task in self.state.tasks.values():
            task["state"] = 1 - target

    def remove(self, name):
        self.state.installed.remove(name)
        self.state.values.pop(name)

    def set_enabled(self, name, word):
        state = self.state
        if name not in state.installed:
            raise Refused("NotFound")
        moving = state.moving
        if self.enabled(name) == (word == "1"):
            raise Refused("SameValue")
        if moving and moving[0] == name:
            state.moving = (name, 1 - moving[1])
            return "reversed"
        if moving:
            raise Refused("Busy")
        for owner in self.targets(name):
            self.call(name, owner, "preun")
        self.move(name, 0)
        return "started"

    def enabled(self, name):
        return self.state.moving != (name, 0)

    def force(self, name):
        state = self.state
        if name not in state.installed:
            raise Refused("NotFound")
        if not state.moving or state.moving[0] != name:
            raise Refused("NotMoving")
        target = state.moving[1]
        for task in state.tasks.values():
            task["state"] = target
        if target == 0:
            state.pinned.add(name)
        elif self.catalog.patches[name]["replace"]:
            state.pinned.update(it for it in state.installed if it != name)
        return "ok"

    def poll(self):
        state = self.state
        if not state.moving:
            raise Refused("NotMoving")
        name, target = state.moving
        blocked = set(self.blocked())
        for task in state.tasks.values():
            if task["mode"] == "asleep" and not blocked & set(task["frames"]):
                task["state"] = target
        pending = sum(task["state"] != target for task in state.tasks.values())
        if pending:
            return f"pending {pending}"
        self.complete(name, target)
        return f"completed {target}"

    def complete(self, name, target):
        """Ends a transition whose tasks are all at the target."""
        state = self.state
        for owner in self.targets(name):
            self.call(name, owner, "post" if target else "postun")
        if target and self.catalog.patches[name]["replace"]:
            for it in state.installed[:state.installed.index(name)]:
                self.remove(it)
        if not target:
            self.remove(name)
        state.moving = None
        for task in state.tasks.values():
            task["state"] = -1

    # Events of modules.

    def insmod(self, owner):
        state = self.state
        if owner == "vmlinux":
            raise Refused("NoModule")
        if owner in state.loaded:
            raise Refused("AlreadyThere")
        having = [it for it in state.installed if owner in self.catalog.patches[it]["targets"]]
        if any(it[1] is None for name in having for it in self.catalog.patches[name]["functions"] if it[0] == owner):
            raise Refused("NoSymbol")
        state.loaded.add(owner)
        for place, name in enumerate(having):
            status = self.call(name, owner, "pre")
            if status:
                self.leave(owner, having[:place])
                return f"prefailed {name} {owner} {status}"
            if not self.is_moving(name):
                self.call(name, owner, "post")
        return "ok"

    def is_moving(self, name):
        return bool(self.state.moving) and self.state.moving[0] == name

    def leave(self, owner, having):
        """Undoes these patches of a module that goes."""
        for name in having:
            if not self.is_moving(name):
                self.call(name, owner, "preun")
            self.call(name, owner, "postun")
        self.state.loaded.discard(owner)

    def rmmod(self, owner):
        state = self.state
        if owner == "vmlinux" or owner not in state.loaded:
            raise Refused("NoModule")
        for task in state.tasks.values():
            if any(self.owner_of(it) == owner for it in task["frames"]):
                raise Refused("InUse")
        self.leave(owner, [it for it in state.installed if owner in self.catalog.patches[it]["targets"]])
        return "ok"

    # Events of tasks.

    def task_in(self, number, *modes):
        """The task of this number, which has to be in one of these modes."""
        task = self.state.tasks.get(number)
        if task is None:
            raise Refused("NoTask")
        if task["mode"] not in modes:
            raise Refused("WrongMode")
        return task

    def task(self, word, numbers, frames):
        tasks, moving, number = self.state.tasks, self.state.moving, numbers[0]
        if word == "new":
            if number in tasks:
                raise Refused("TaskThere")
            tasks[number] = {"mode": "user", "state": moving[1] if moving else -1, "frames": []}
        elif word == "fork":
            if number not in tasks:
                raise Refused("NoTask")
            if numbers[1] in tasks:
                raise Refused("TaskThere")
            parent = self.task_in(number, "kernel")
            tasks[numbers[1]] = {"mode": "kernel", "state": parent["state"], "frames": []}
        elif word == "end":
            self.task_in(number, "user", "kernel")
            del tasks[number]
        elif word == "enter":
            self.task_in(number, "user")["mode"] = "kernel"
        elif word == "exit":
            task = self.task_in(number, "kernel")
            task["mode"], task["state"] = "user", moving[1] if moving else -1
        elif word == "sleep":
            task = self.task_in(number, "kernel")
            if any(it is NONE for it in frames):
                raise Refused("BadFrame")
            task["mode"], task["frames"] = "asleep", frames
        else:
            task = self.task_in(number, "asleep")
            woken, task["mode"], task["frames"] = task["frames"], "kernel", []
            return " ".join(["woken", *map(self.frame, woken)])
        return "ok"

    # Events of variables.

    def shadow(self, word, key, value):
        variables = self.state.variables
        if word == "alloc" and key in variables:
            raise Refused("Exists")
        if value is not None and key not in variables and len(variables) >= MOST_VARIABLES:
            raise Refused("Full")
        if word == "alloc":
            variables[key] = value
            return "ok"
        if word == "getalloc":
            return f"value {spelled(variables.setdefault(key, value))}"
        gone = [it for it in variables if it == key or (key[0] is None and it[1] == key[1])]
        for it in gone:
            del variables[it]
        return f"freed {len(gone)}"

    def event(self, call, *given):
        """Does an event. One that is refused changes nothing, and one that is accepted is in the journal."""
        before, runs = copy.deepcopy(self.state), dict(self.runs)
        try:
            answer = call(*given)
        except Refused:
            self.state, self.runs = before, runs
            raise
        self.journal.append(before)
        return answer

    def rewind(self, count):
        if count > len(self.journal):
            raise Refused("BadMark")
        if count < len(self.journal):
            self.state = self.journal[count]
            del self.journal[count:]
        return "ok"
