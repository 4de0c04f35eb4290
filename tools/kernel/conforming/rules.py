"""What the rules say of a script: klpsim's answers, in which order callbacks run, and values of system states."""
import collections
import html
import os
import re
import subprocess

from conforming.catalogs import Catalog

TOP = os.path.dirname(os.path.dirname(os.path.dirname(os.path.dirname(os.path.abspath(__file__)))))
LIVEPATCH = "/sys/kernel/livepatch"
# A line that is always refused, and by no other line's answer: it ends the answer of the line before.
END, ENDED = "rewind 4294967295", "error 22 BadMark"
# The lines that may run a callback.
RUNNING = ("load", "poll", "insmod", "rmmod", "echo")
# How many edits a callback has at most, and how many are added to all of them in one run, so variables have room.
EDITS, ADDED = 16, 400

# What the rules say of a line: the answer's lines, the callbacks that ran in their order, values of system states that
# changed, and whether it is a try of a patch that isn't the newest and is being enabled again.
Rule = collections.namedtuple("Rule", "answer ran states is_older")


class Refused(Exception):
    """Why a script can't be played."""


class Case:
    """A script over a catalog."""

    def __init__(self, name, text, lines):
        self.name, self.text, self.lines = name, text, lines

    def asked(self):
        """The lines as the console takes them: it has no question for the value of a system state."""
        return ["mark" if it.startswith("state ") else it for it in self.lines]


def find_program():
    """The program of the checkout: the proved one, else that which ./klpsim has compiled."""
    if os.environ.get("KLPSIM"):
        return os.environ["KLPSIM"]
    for it in (f"{TOP}/crates/klpsim/out/klpsim", f"{TOP}/out/unproved/klpsim"):
        if os.access(it, os.X_OK):
            return it
    subprocess.run([f"{TOP}/klpsim", "console"], stdin=subprocess.DEVNULL, stdout=subprocess.DEVNULL, check=True)
    return f"{TOP}/out/unproved/klpsim"


class Rules:
    """klpsim. `room` is a folder for its inputs."""

    def __init__(self, room):
        self.room, self.program = room, find_program()

    def _catalog(self, text):
        path = os.path.join(self.room, f"rules-{os.getpid()}.catalog")
        with open(path, "w", encoding="ascii") as it:
            it.write(text)
        return path

    def is_faultless(self, text):
        """Whether klpsim takes this catalog."""
        ran = subprocess.run([self.program, "console", self._catalog(text)], stdin=subprocess.DEVNULL,
                             stdout=subprocess.DEVNULL, stderr=subprocess.DEVNULL, check=False)
        return ran.returncode == 0

    def start(self, text):
        """A klpsim that answers line by line."""
        return Console(subprocess.Popen([self.program, "console", self._catalog(text)], stdin=subprocess.PIPE,
                                        stdout=subprocess.PIPE, text=True))

    def answers(self, text, lines):
        """The answers of klpsim to these lines, each a list of lines."""
        given = "".join(f"{line}\n{END}\n" for line in lines)
        ran = subprocess.run([self.program, "console", self._catalog(text)], input=given, stdout=subprocess.PIPE,
                             stderr=subprocess.PIPE, text=True, check=False)
        if ran.returncode:
            raise Refused(f"klpsim ends with status {ran.returncode}: {ran.stderr.strip()[-300:]}")
        found = ran.stdout.split(ENDED + "\n")
        return [it.splitlines() for it in found[:-1]]

    def page(self, text, lines):
        """The page of a script, which klppage makes."""
        script = os.path.join(self.room, f"rules-{os.getpid()}.script")
        with open(script, "w", encoding="ascii") as it:
            it.write("".join(f"{line}\n" for line in lines))
        return subprocess.run(["klppage", self._catalog(text), script], executable=self.program,
                              stdout=subprocess.PIPE, stderr=subprocess.DEVNULL, text=True, check=True).stdout

    def of(self, case, is_ordered=True):
        """What the rules say of each line of a case. The order of callbacks takes the most time: it may be left out."""
        answers = self.answers(case.text, case.asked())
        states = self.states(case)
        older = older_lines(case.lines, self.installed(case))
        order = self.order(case, answers) if is_ordered else [None] * len(answers)
        return [Rule(*row) for row in zip(states_answered(case, answers, states), order, states, older)]

    def installed(self, case):
        """The installed patches behind each line, oldest first, and which of them is in transition to be enabled."""
        catalog, asked = Catalog(case.text), case.asked()
        looks = [f"ls {LIVEPATCH}"]
        for name in catalog.patches:
            looks += [f"cat {LIVEPATCH}/{name}/{file}" for file in ("transition", "enabled")]
        found = self.answers(case.text, [look for line in asked for look in (line, *looks)])
        rows = []
        for k in range(len(asked)):
            installed, *files = found[k * (len(looks) + 1) + 1:(k + 1) * (len(looks) + 1)]
            enabling = [name for number, name in enumerate(catalog.patches)
                        if files[2 * number] == ["1"] and files[2 * number + 1] == ["1"]]
            rows.append((installed, enabling))
        return rows

    def order(self, case, answers):
        """The callbacks that each line ran, in their order. klpsim tells only counts, so callbacks are given edits that
        leave a trace: of two, the variable of the pair has the value of the one that ran first."""
        catalog = Catalog(case.text)
        callbacks = [it for it in catalog.callbacks() if not catalog.status(it)]
        first = [{} for _ in case.lines]
        ran = [[] for _ in case.lines]
        for pairs in rounds_of(len(callbacks), edits_left(catalog, callbacks)):
            for k, (now, firsts) in enumerate(self._traced(case, callbacks, pairs, answers)):
                ran[k] = now
                first[k].update(firsts)
        return [in_order(*row) for row in zip(ran, first)]

    def _traced(self, case, callbacks, pairs, answers):
        """Of each line which callbacks ran, and of the pairs that ran which one was first."""
        numbers = map(int, re.findall(r"\d+", case.text + " ".join(case.lines)))
        own = 1 + max((it for it in numbers if it < 2 ** 63), default=0)
        targets = list(dict.fromkeys((patch, name) for patch, name, _ in callbacks))
        looks = [f"runs {patch} {name}" for patch, name in targets]
        looks += [f"shadow get {number} {own}" for number in range(len(pairs))] + [f"shadow freeall {own}"]
        lines = [[line, *(looks if line.split()[0] in RUNNING else [])] for line in case.asked()]
        found = iter(self.answers(with_edits(case.text, callbacks, pairs, own), sum(lines, [])))
        before = {}
        for k, part in enumerate(lines):
            answer, *shown = [next(found) for _ in part]
            if answer != answers[k] and part[0] != "mark":
                raise Refused(f"{case.name}: line {k + 1} has another answer where callbacks leave traces")
            counts = counted(targets, shown) if shown else before
            ran = [it for it in callbacks if counts.get(it, 0) > before.get(it, 0)]
            before = counts
            yield ran, firsts_of(callbacks, pairs, ran, shown[len(targets):])

    def states(self, case):
        """The values of system states behind each line: of those of installed patches, by (patch, id)."""
        catalog, lines = Catalog(case.text), case.asked()
        if not any(patch.states for patch in catalog.patches.values()):
            return [{} for _ in lines]
        rows = re.split(r'<details class="?[^>]*id=line-(\d+)', self.page(case.text, lines))
        changes = {int(number): state_changes(row) for number, row in zip(rows[1::2], rows[2::2])}
        answers = self.answers(case.text, [it for line in lines for it in (line, f"ls {LIVEPATCH}")])
        values, found = {}, []
        for k in range(len(lines)):
            installed = answers[2 * k + 1]
            values = {(name, int(identifier)): values.get((name, int(identifier)), 0) for name in installed
                      for identifier, _ in catalog.patches[name].states}
            values.update({key: value for key, value in changes.get(k + 1, {}).items() if key in values})
            found.append(values)
        return found


class Console:
    """A klpsim that answers line by line."""

    def __init__(self, process):
        self.process = process

    def answer(self, line):
        return self.answers([line])[0]

    def answers(self, lines):
        """The answers to these lines, each a list of lines."""
        self.process.stdin.write("".join(f"{line}\n{END}\n" for line in lines))
        self.process.stdin.flush()
        found = [[]]
        for it in self.process.stdout:
            if it.rstrip("\n") != ENDED:
                found[-1].append(it.rstrip("\n"))
            elif len(found) == len(lines):
                return found
            else:
                found.append([])
        raise Refused(f"klpsim ended at {lines[len(found) - 1]!r}")

    def end(self):
        self.process.stdin.close()
        self.process.wait()


def edits_left(catalog, callbacks):
    """How many edits each callback may be given."""
    most = max((len(catalog.edits(it)) for it in callbacks), default=0)
    left = min(EDITS - most, ADDED // max(1, len(callbacks)))
    if left < 1:
        raise Refused(f"a callback has {most} edits, which leaves none to tell the order of callbacks by")
    return left


def rounds_of(count, most):
    """All pairs of so many, in lists in which each of them is in at most `most`. One empty list if there is no pair."""
    seats = list(range(count + count % 2))
    rounds = []
    for _ in range(len(seats) - 1):
        half = len(seats) // 2
        rounds.append([(a, b) for a, b in zip(seats[:half], reversed(seats[half:])) if max(a, b) < count])
        seats = seats[:1] + seats[-1:] + seats[1:-1]
    return [sum(rounds[k:k + most], []) for k in range(0, len(rounds), most)] or [[]]


def with_edits(text, callbacks, pairs, own):
    """The catalog, with an edit of a callback for each pair that it is in: `own` is the id of the pairs' variables."""
    edits = collections.defaultdict(str)
    for number, pair in enumerate(pairs):
        for it in pair:
            edits[callbacks[it]] += f" alloc:{number}:{own}:{it}"
    rows, patch, target = [], None, None
    for line in text.splitlines():
        words = line.split() or [""]
        if words[0] == "patch":
            patch = words[1]
        elif words[0] == "target":
            target = words[1]
        rows.append(line + edits.get((patch, target, words[0]), ""))
    return "\n".join(rows) + "\n"


def in_order(ran, firsts):
    """The callbacks that ran, in their order: the more others come first, the later one runs."""
    return sorted(ran, key=lambda it: sum(1 for pair, first in firsts.items() if it in pair and first != it))


def firsts_of(callbacks, pairs, ran, values):
    """Of the pairs of which both ran, which one was first, by the answers that have the values of their variables."""
    return {(callbacks[a], callbacks[b]): callbacks[int(value[0].split()[1])] for (a, b), value in zip(pairs, values)
            if value[0] != "none" and callbacks[a] in ran and callbacks[b] in ran}


def counted(targets, answers):
    """How often each callback ran, of answers `runs PRE POST PREUN POSTUN`. A refused question has no counts."""
    counts = {}
    for (patch, name), answer in zip(targets, answers):
        for kind, count in zip(("pre", "post", "preun", "postun"), answer[0].split()[1:]):
            if count.isdigit() and answer[0].startswith("runs"):
                counts[(patch, name, kind)] = int(count)
    return counts


def state_changes(row):
    """The values that a row of a page says system states came to."""
    text = html.unescape(re.sub(r"<wbr>|<span[^>]*>|</span>", "", row))
    return {(patch, int(identifier)): int(value)
            for identifier, patch, value in re.findall(r"<li>state (\d+) of '([^']+)': \S+ → (\d+)", text)}


def states_answered(case, answers, states):
    """The answers, with those to `state PATCH ID`, which the console hasn't."""
    for line, answer, values in zip(case.lines, answers, states):
        if line.startswith("state "):
            _, patch, identifier = line.split()
            value = values.get((patch, int(identifier)))
            answer = ["none" if value is None else f"value {value}"]
        yield answer


def older_lines(lines, installed):
    """Of each line, whether it tries a patch that isn't the newest and is being enabled."""
    before = ([], [])
    for line, now in zip(lines, installed):
        patches, enabling = before
        yield line == "poll" and bool(enabling) and patches[-1:] != enabling
        before = now
