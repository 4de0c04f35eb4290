"""What a kernel answered, in the console's words."""
import collections
import re

from conforming.catalogs import Catalog
from conforming.rules import LIVEPATCH

# What the player prints for a line: answers, the callbacks that ran (None where it didn't ask), and the kernel's log.
Seen = collections.namedtuple("Seen", "answers ran log")
# What the log says where the kernel refuses a patch, and the refusal that it is.
CAUSES = (("not compatible", "Incompatible"), ("not found in symbol table", "NoSymbol"),
          ("unresolvable ambiguity", "NoSymbol"), ("symbol position", "NoSymbol"))
NUMBER = re.compile(r"(pinned )?errno (\d+)( moving)?$")


def read_log(lines):
    """What the console has of each script and line: by the script's number and the line's. Of a script that begins with
    patches of the one before there is nothing."""
    found, script, line, is_dirty = {}, None, None, False
    for row in lines:
        kind, _, rest = row.partition(" ")
        if kind == "DIRTY":
            is_dirty = True
        elif kind == "S" and rest.isdigit():
            script, line = None if is_dirty else int(rest), None
            found[int(rest)], is_dirty = {}, False
        elif kind == "Q" and script is not None:
            line = rest.split()[0]
            found[script][line] = Seen([], [], [])
        elif script is not None and line is not None:
            if kind == "A":
                found[script][line].answers.append(rest)
            elif kind == "C":
                found[script][line].ran.append(rest)
            elif kind == "D":
                found[script][line].log.append(rest)
    return found


class Answers:
    """The answers of a kernel to a script, whose number the prefix of its modules is made of."""

    def __init__(self, text, number):
        self.catalog = Catalog(text, f"s{number}_")

    def of(self, line, seen):
        """The kernel's answer to a line. Refusals are `error NUMBER`, with a name where the kernel's log tells it."""
        words = line.split()
        first = seen.answers[0].strip() if seen.answers else ""
        if words[0] in ("load", "insmod", "rmmod", "echo"):
            return self._event(words, first, seen)
        return getattr(self, f"_{words[0]}", lambda _, it: [it])(words, first)

    def _event(self, words, first, seen):
        found = NUMBER.match(first)
        if not found:
            return [first]
        is_pinned, number, was_moving = found.group(1), int(found.group(2)), found.group(3)
        if is_pinned:
            return [f"error {number} (its module can't be removed)"]
        if not number:
            if words[0] == "load" or words[0] == "echo" and words[3].endswith("enabled"):
                return ["reversed" if was_moving else "started"]
            return ["ok"]
        failed = [it for it in (seen.ran or [""])[0].split() if it.endswith(".pre!")]
        if failed:
            patch, name, _ = self.callback(failed[0][:-1])
            return [f"prefailed {patch} {name} -{number}"]
        causes = [name for text, name in CAUSES if any(text in it for it in seen.log)]
        return [" ".join([f"error {number}", *causes[:1]])]

    def callback(self, word):
        """A callback of the player's log, MODULE.TARGET.KIND, as (patch, object, kind)."""
        module, target, kind = word.rsplit(".", 2)
        patch = self.catalog.called(module)
        return patch, list(self.catalog.patches[patch].targets)[int(target)], kind

    def callbacks(self, seen):
        """The callbacks that ran in a line and returned 0, in their order; None where the player didn't ask."""
        if not seen.ran:
            return None
        return [self.callback(it) for it in seen.ran[0].split() if not it.endswith("!")]

    def _poll(self, _words, first):
        return ["error 22" if first == "notmoving" else first]

    def _cat(self, _words, first):
        if first == "NoTask":
            return ["error 2"]
        found = NUMBER.match(first)
        return [f"error {found.group(2)}" if found else first]

    def _ls(self, words, first):
        found = NUMBER.match(first)
        if found:
            return [f"error {found.group(2)}"]
        parts = words[1][len(LIVEPATCH):].strip("/").split("/")
        if parts == [""]:
            return [self.catalog.called(it) for it in first.split(" | ") if it]
        names = [it for it in first.split()[1:] if it != "klp_stepper"]
        if len(parts) == 1:
            names = [self.catalog.called(it) if it not in ("enabled", "force", "transition") else it for it in names]
        return sorted(names)

    def _shadow(self, _words, first):
        return ["error 22" if first == "NULL" else first]

    def _text(self, words, first):
        if first == "NoModule":
            return ["error 2"]
        return [f"{name} {it.split()[0]}" for name, it in zip(self.catalog.symbols[words[1]], first.split(" | "))]

    def _version(self, word):
        """A version, spelled MODULE:NUMBER, as the console has it but for the address."""
        module, _, number = word.rpartition(":")
        if self.catalog.is_patch(module):
            name = self.catalog.called(module)
            functions = self.catalog.patches[name].functions
            return f"{name} {functions[int(number)] if int(number) < len(functions) else number}"
        return "original" if module else word

    def _stack(self, _words, first):
        if first == "empty":
            return [first]
        rows = []
        for row in first.split(" | "):
            owner, version = row.split(" ", 1)
            rows.append(f"{self.catalog.called(owner)} nop" if version == "nop" else self._version(version))
        return rows

    def _pick(self, _words, first):
        return ["error 2" if first.startswith("No") else self._version(first)]

    def _runs(self, words, first):
        callbacks = self.catalog.patches[words[1]].targets[words[2]].callbacks
        kinds = ("pre", "post", "preun", "postun")
        return ["runs " + " ".join(it if kind in callbacks else "-" for kind, it in zip(kinds, first.split()))]


def of_rules(line, answer):
    """klpsim's answer as a kernel can be held against it: no addresses, and of bytes only whether a call is there."""
    kind = line.split()[0]
    if answer[:1] and answer[0].startswith("error"):
        return answer
    if kind == "text":
        return [f"{name} {'plain' if is_plain(body) else 'hooked'}" for name, _, body in map(str.split, answer)]
    if kind in ("stack", "pick"):
        return [re.sub(r" [0-9a-f]{16}$", "", it) for it in answer]
    if kind == "ls" and line.split()[1] != LIVEPATCH:
        return sorted(answer)
    if kind == "task":
        return ["ok"]
    return answer


def is_plain(body):
    """Whether a body begins with the NOP, behind an endbr64 if there is one."""
    return re.match(r"(f30f1efa)?0f1f440000", body) is not None
