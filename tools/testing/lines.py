"""Lines of the console as the plain machine reads them, in the order of docs/CONSOLE.md: the form, the value, names,
and then what the machine refuses.
"""
import re

from testing.plain import CODES, KINDS, MOST_NUMBER, MOST_TASKS, NOP, P, SYMBOL
from testing.plain import Machine, Refused, number_of, value_of

NAME = r"([^/:]+)"
FILE = re.compile(rf"{P}/{NAME}/(enabled|force|transition)\Z")
FOLDER = re.compile(rf"{P}(?:/{NAME}(?:/{NAME})?)?\Z")
FRAME = re.compile(r"([^/:]+):([0-9]+)\Z", re.A)
MOST_FRAMES = 32


class Console(Machine):
    """Answers lines of the console."""

    def answer(self, line):
        """The answer to a line, with its line feed. A line without words has none."""
        words = line.split(" ")
        words = [it for it in words if it]
        if not words:
            return ""
        try:
            said = self.said(words)
        except Refused as refused:
            said = f"error {CODES[refused.args[0]]} {refused.args[0]}"
        return said if said.endswith("\n") or not said else f"{said}\n"

    def said(self, words):
        """What a line comes to."""
        call = getattr(self, f"line_{words[0]}", None)
        if call is None:
            raise Refused("BadLine")
        try:
            return call(*words[1:])
        except TypeError as error:
            if "positional argument" not in str(error):
                raise
            raise Refused("BadLine") from error

    # Names.

    def patch(self, name):
        if name not in self.catalog.patches:
            raise Refused("NoPatch")
        return name

    def object(self, name):
        if name not in self.catalog.objects:
            raise Refused("NoModule")
        return name

    @staticmethod
    def plain(name):
        """A name of a patch or an object as a line spells it."""
        if "/" in name or ":" in name:
            raise Refused("BadLine")
        return name

    @staticmethod
    def number(word):
        """The number of a task as a line spells it."""
        return number_of(word, MOST_NUMBER)

    @staticmethod
    def there(number):
        if number >= MOST_TASKS:
            raise Refused("NoTask")
        return number

    @staticmethod
    def symbol(word):
        """The parts of a symbol as a line spells it."""
        found = SYMBOL.match(word)
        if not found or int(found[3]) >= 2**32:
            raise Refused("BadLine")
        return found[1], found[2], int(found[3])

    def site(self, parts):
        owner, name, position = parts
        found = self.catalog.site(self.object(owner), name, position)
        if found is None:
            raise Refused("NoSymbol")
        return found

    def frame_parts(self, word):
        found = FRAME.match(word)
        if found:
            return found[1], number_of(found[2], MOST_NUMBER)
        return self.symbol(word)

    def frame_of(self, parts):
        """The version that a frame names, or None."""
        if len(parts) == 3:
            return self.site(parts)
        name, number = parts
        functions = self.catalog.patches[self.patch(name)]["functions"]
        return (name, number) if number < len(functions) else None

    # Lines.

    def line_load(self, name):
        return self.event(self.load, self.patch(self.plain(name)))

    def line_insmod(self, name):
        return self.event(self.insmod, self.object(self.plain(name)))

    def line_rmmod(self, name):
        return self.event(self.rmmod, self.object(self.plain(name)))

    def line_poll(self):
        return self.event(self.poll)

    def line_echo(self, word, arrow, path):
        found = FILE.match(path)
        if arrow != ">" or not found or found[2] == "transition":
            raise Refused("BadLine")
        if word not in ("0", "1"):
            raise Refused("BadValue")
        name = self.patch(found[1])
        if found[2] == "enabled":
            return self.event(self.set_enabled, name, word)
        if word == "1":
            return self.event(self.force, name)
        if name not in self.state.installed:
            raise Refused("NotFound")
        return "ok"

    def line_task(self, word, *words):
        counts = {"new": 1, "end": 1, "enter": 1, "exit": 1, "wake": 1, "fork": 2}
        if word == "sleep":
            if not words or len(words) > MOST_FRAMES + 1:
                raise Refused("BadLine")
            number, parts = self.number(words[0]), [self.frame_parts(it) for it in words[1:]]
            self.there(number)
            return self.event(self.task, word, [number], [self.frame_of(it) for it in parts])
        if counts.get(word) != len(words):
            raise Refused("BadLine")
        numbers = [self.number(it) for it in words]
        return self.event(self.task, word, [self.there(it) for it in numbers], [])

    def line_shadow(self, word, *words):
        counts = {"alloc": 3, "getalloc": 3, "free": 2, "freeall": 1, "get": 2}
        if counts.get(word) != len(words):
            raise Refused("BadLine")
        key = (None, number_of(words[0])) if word == "freeall" else (number_of(words[0]), number_of(words[1]))
        value = value_of(words[2]) if len(words) == 3 else None
        if word != "get":
            return self.event(self.shadow, word, key, value)
        return self.shadow("getalloc", key, None) if key in self.state.variables else "none"

    def line_mark(self):
        return str(len(self.journal))

    def line_rewind(self, word):
        return self.rewind(number_of(word, 2**32))

    def line_seal(self):
        self.journal.clear()
        return "ok"

    def line_cat(self, path):
        found = re.fullmatch(r"/proc/([^/]*)/patch_state", path)
        if found:
            number = self.there(self.number(found[1]))
            if number not in self.state.tasks:
                raise Refused("NoTask")
            return str(self.state.tasks[number]["state"])
        found = FILE.match(path)
        if not found or found[2] == "force":
            raise Refused("BadLine")
        name = self.installed(found[1])
        return str(int(self.enabled(name) if found[2] == "enabled" else self.is_moving(name)))

    def installed(self, name):
        if self.patch(name) not in self.state.installed:
            raise Refused("NotFound")
        return name

    def line_ls(self, path):
        found = FOLDER.match(path)
        if not found:
            raise Refused("BadLine")
        name, owner = found.groups()
        if name is None:
            return "".join(f"{it}\n" for it in self.state.installed)
        self.patch(name)
        if owner is not None:
            self.object(owner)
        self.installed(name)
        targets = self.catalog.patches[name]["targets"]
        if owner is None:
            return "".join(f"{it}\n" for it in ("enabled", "force", "transition", *targets))
        if owner not in targets:
            raise Refused("NotFound")
        return "".join(f"{it[4]}\n" for it in self.catalog.patches[name]["functions"] if it[0] == owner)

    def line_text(self, name):
        if self.object(self.plain(name)) not in self.state.loaded:
            raise Refused("NoModule")
        return "".join(self.row(name, place) for place in range(len(self.catalog.objects[name])))

    def row(self, owner, place):
        """The line of a symbol's text."""
        name, address, body = self.catalog.objects[owner][place]
        at = self.catalog.entry_site((owner, place))
        entry = NOP
        if self.entries((owner, place)):
            distance = (self.catalog.handler - (address + at + len(NOP))) % 2**32
            entry = b"\xe8" + distance.to_bytes(4, "little")
        return f"{name} {address:016x} {(body[:at] + entry + body[at + len(NOP):]).hex()}\n"

    def line_stack(self, word):
        entries = self.entries(self.site(self.symbol(word)))
        return "".join(f"{self.entry(it)}\n" for it in entries) or "empty"

    def entry(self, entry):
        name, number = entry
        if number is None:
            return f"{name} nop"
        _, _, new, address, _ = self.catalog.patches[name]["functions"][number]
        return f"{name} {new} {address:016x}"

    def line_pick(self, word, symbol):
        number, parts = self.number(word), self.symbol(symbol)
        self.there(number)
        site = self.site(parts)
        if number not in self.state.tasks:
            raise Refused("NoTask")
        if site[0] not in self.state.loaded:
            raise Refused("NoModule")
        version = self.picked(self.state.tasks[number], site)
        if version == site:
            # the original goes on behind its entry site
            behind = self.catalog.objects[site[0]][site[1]][1] + self.catalog.entry_site(site) + len(NOP)
            return f"original {behind:016x}"
        return self.entry(version)

    def line_runs(self, name, owner):
        self.patch(self.plain(name))
        self.object(self.plain(owner))
        having = self.catalog.patches[name]["targets"].get(owner)
        if having is None:
            raise Refused("NotFound")
        counts = (str(self.runs.get((name, owner, it), 0)) if it in having else "-" for it in KINDS)
        return " ".join(["runs", *counts])
