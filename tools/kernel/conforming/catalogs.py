"""A catalog as the player of a kernel needs it, and what it calls the catalog's modules there."""
import re

SYMBOL = re.compile(r"^\.klp\.sym\.([^.]+)\.(.+),(\d+)$")
KINDS = ("pre", "post", "preun", "postun")
# What the stepper has room for (guest/stepper.h); the target that it adds to each patch is counted.
PATCHES, TARGETS, FUNCTIONS, SYMBOLS, STATES = 16, 8, 16, 8, 16
# The kernel's greatest length of a module's name.
NAME = 55


class Patch:
    """A patch: its targets in their order, and its functions, across all of them."""

    def __init__(self, name, is_cumulative):
        self.name, self.is_cumulative = name, is_cumulative
        self.states, self.targets, self.functions, self.objects = [], {}, [], []


class Target:
    """A patch's functions in an object, as (symbol, number in the patch), and its callbacks, as (status, edits)."""

    def __init__(self):
        self.functions, self.callbacks = [], {}


class Catalog:
    """The text of a catalog, read. `prefix` keeps the module names of one script apart from those of another."""

    def __init__(self, text, prefix="c_"):
        self.text, self.prefix = text, prefix
        self.symbols, self.patches = {}, {}
        for line in text.splitlines():
            words = line.split()
            if words and not line.startswith("#"):
                self._add(words)

    def _add(self, words):
        kind, *rest = words
        if kind == "object":
            self.symbols[rest[0]] = []
        elif kind == "symbol":
            list(self.symbols.values())[-1].append(rest[0])
        elif kind == "patch":
            self.patches[rest[0]] = Patch(rest[0], len(rest) > 1)
        elif kind == "state":
            self._last().states.append((rest[0], rest[1]))
        elif kind == "target":
            self._last().targets[rest[0]] = Target()
        elif kind == "func":
            list(self._last().targets.values())[-1].functions.append((rest[0], len(self._last().functions)))
            self._last().functions.append(rest[1])
            self._last().objects.append(list(self._last().targets)[-1])
        elif kind in KINDS:
            list(self._last().targets.values())[-1].callbacks[kind] = (rest[0], " ".join(rest[1:]))

    def _last(self):
        return list(self.patches.values())[-1]

    def too_much(self):
        """What of the catalog the stepper has no room for, or None."""
        if len(self.patches) > PATCHES:
            return f"more than {PATCHES} patches"
        for name, symbols in self.symbols.items():
            if len(symbols) > SYMBOLS:
                return f"more than {SYMBOLS} symbols in {name}"
        for it in self.patches.values():
            for what, count, most in (("targets", it.targets, TARGETS), ("functions", it.functions, FUNCTIONS),
                                      ("system states", it.states, STATES)):
                if len(count) > most:
                    return f"more than {most} {what} in {it.name}"
        return None

    def module(self, name):
        """The name of the module that is this object or patch. A module that is always there is vmlinux."""
        name = "vm" if name == "vmlinux" else name
        return self.prefix + name if len(self.prefix + name) <= NAME else name

    def target(self, patch, name):
        """The name of an object as a target of this patch: the kernel's own vmlinux if no function of it is changed."""
        if name == "vmlinux" and not self.patches[patch].targets[name].functions:
            return "vmlinux"
        return self.module(name)

    def called(self, module):
        """The name in the catalog of the patch or object that this module is."""
        for it in (*self.patches, *self.symbols):
            if self.module(it) == module:
                return it
        return module

    def is_patch(self, module):
        return any(self.module(it) == module for it in self.patches)

    def place(self, spelling):
        """The object and the number of the symbol that is spelled so, or None."""
        found = SYMBOL.match(spelling)
        if not found or found.group(1) not in self.symbols:
            return None
        name, symbol, position = found.group(1), found.group(2), int(found.group(3))
        places = [k for k, it in enumerate(self.symbols[name]) if it == symbol]
        if position == 0:
            return (name, places[0]) if len(places) == 1 else None
        return (name, places[position - 1]) if position <= len(places) else None

    def callbacks(self):
        """All callbacks, as (patch, object, kind)."""
        return [(patch.name, name, kind) for patch in self.patches.values()
                for name, target in patch.targets.items() for kind in KINDS if kind in target.callbacks]

    def status(self, callback):
        """The status that a callback returns."""
        patch, name, kind = callback
        return int(self.patches[patch].targets[name].callbacks[kind][0])

    def edits(self, callback):
        """The edits that a callback makes."""
        patch, name, kind = callback
        return self.patches[patch].targets[name].callbacks[kind][1].split()

    def spec(self, name):
        """What the generic livepatch is told of a patch."""
        patch = self.patches[name]
        rows = [f"park {list(self.patches).index(name)}", *(["replace"] if patch.is_cumulative else [])]
        rows += [f"state {identifier} {version}" for identifier, version in patch.states]
        for target, it in patch.targets.items():
            own = self.target(name, target)
            rows.append("object " + ("-" if own == "vmlinux" else own))
            for symbol, number in it.functions:
                found = SYMBOL.match(symbol)
                rows.append(f"func {found.group(2)} {found.group(3)} {number}")
            for kind, (status, edits) in sorted(it.callbacks.items(), key=lambda row: KINDS.index(row[0])):
                rows.append(f"cb {KINDS.index(kind)} {status} {edits}".rstrip())
        return ";".join(rows)
