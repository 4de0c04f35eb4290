"""What the player does on a kernel for the lines of a script."""
import re

from conforming.catalogs import Catalog
from conforming.rules import LIVEPATCH

FILE = re.compile(rf"{LIVEPATCH}/([^/]+)/(enabled|force|transition)$")
STATE = re.compile(r"/proc/(\d+)/patch_state$")


class Operations:
    """The operations of a script's lines, over its catalog."""

    def __init__(self, catalog):
        self.catalog = catalog

    def of(self, line, answer):
        """The operations of a line that klpsim answers so, and of a line that no kernel can be asked, None."""
        if answer == ["error 22 BadLine"]:
            return None
        words = line.split()
        return getattr(self, f"_{words[0]}", lambda *_: None)(words, answer)

    def _load(self, words, _answer):
        return [f"load {self.catalog.module(words[1])}"] if words[1] in self.catalog.patches else None

    def _insmod(self, words, _answer):
        if words[1] not in self.catalog.symbols or words[1] == "vmlinux":
            return None
        return [f"insert {self.catalog.module(words[1])} {','.join(self.catalog.symbols[words[1]]) or 'none'}"]

    def _rmmod(self, words, _answer):
        if words[1] not in self.catalog.symbols or words[1] == "vmlinux":
            return None
        return [f"remove {self.catalog.module(words[1])}"]

    def _poll(self, _words, _answer):
        return ["K poll"]

    def _echo(self, words, answer):
        found = FILE.match(words[3])
        if not found:
            return None
        path = f"{LIVEPATCH}/{self.catalog.module(found.group(1))}/{found.group(2)}"
        is_forced = found.group(2) == "force" and words[1] == "1" and answer == ["ok"]
        return [f"write {path} {words[1]}", *(["K repark"] if is_forced else [])]

    def _cat(self, words, _answer):
        task, file = STATE.match(words[1]), FILE.match(words[1])
        if task:
            return [f"state {task.group(1)}"]
        return [f"cat {LIVEPATCH}/{self.catalog.module(file.group(1))}/{file.group(2)}"] if file else None

    def _ls(self, words, _answer):
        parts = words[1][len(LIVEPATCH):].strip("/").split("/")
        if parts == [""]:
            return ["K patches"]
        path = f"{LIVEPATCH}/{self.catalog.module(parts[0])}"
        if len(parts) > 1:
            targets = self.catalog.patches[parts[0]].targets if parts[0] in self.catalog.patches else {}
            path += "/" + (self.catalog.target(parts[0], parts[1]) if parts[1] in targets else parts[1])
        return [f"ls {path}"]

    def _task(self, words, answer):
        if answer[0].startswith("error"):
            return None
        kind, task = words[1], words[2]
        if kind in ("new", "end"):
            return [f"{kind} {task}"]
        if kind == "fork":
            return [f"K fork {task} {words[3]}"]
        if kind in ("exit", "wake"):
            return [f"K {kind} {task}"]
        if kind == "sleep":
            return [" ".join([f"K sleep {task}", *map(self._frame, words[3:])])]
        return None

    def _frame(self, spelling):
        place = self.catalog.place(spelling)
        if place:
            return f"o:{self.catalog.module(place[0])}:{place[1]}"
        patch, number = spelling.split(":")
        name = self.catalog.patches[patch].objects[int(number)]
        return f"n:{self.catalog.module(name)}/{self.catalog.module(patch)}:{number}"

    def _shadow(self, words, _answer):
        return ["K " + " ".join(words)]

    def _text(self, words, _answer):
        if words[1] not in self.catalog.symbols:
            return None
        return [f"K text {self.catalog.module(words[1])} {len(self.catalog.symbols[words[1]])}"]

    def _site(self, command, spelling):
        place = self.catalog.place(spelling)
        return [f"K {command} {self.catalog.module(place[0])} {place[1]}"] if place else None

    def _stack(self, words, _answer):
        return self._site("stack", words[1])

    def _pick(self, words, _answer):
        return self._site(f"pick {words[1]}", words[2])

    def _runs(self, words, _answer):
        targets = list(self.catalog.patches[words[1]].targets) if words[1] in self.catalog.patches else []
        return [f"K runs {self.catalog.module(words[1])} {targets.index(words[2])}"] if words[2] in targets else None

    def _state(self, words, _answer):
        return [f"K state {self.catalog.module(words[1])} {words[2]}"]


def ids_of(case):
    """The ids of shadow variables that a script may leave behind."""
    both = case.text + "\n" + "\n".join(case.lines)
    return sorted(set(re.findall(r"(?:(?:alloc|free):\d+:|freeall:|shadow freeall |shadow [a-z]+ \d+ )(\d+)", both)))


def play_of(case, number, rules):
    """The player's rows for a case: `rules` is what klpsim says of each line."""
    catalog = Catalog(case.text, f"s{number}_")
    operations = Operations(catalog)
    rows = [f"S {number}", f"K begin {len(catalog.patches)}"]
    rows += [f"K spec {catalog.module(it)} {catalog.spec(it)}" for it in catalog.patches]
    rows.append(f"insert {catalog.module('vmlinux')} {','.join(catalog.symbols['vmlinux']) or 'none'}")
    rows += [f"K shadow freeall {it}" for it in ids_of(case)]
    for k, (line, rule) in enumerate(zip(case.lines, rules)):
        own = operations.of(line, rule.answer)
        if own is not None:
            rows += [f"Q {k}", *own]
    return rows + ["Q end x"]
