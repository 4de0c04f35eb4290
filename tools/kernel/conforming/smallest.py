"""Shrinks the script and the catalog of a difference: parts of it are left out, each in a script of its own."""
from conforming.comparing import first_unannounced
from conforming.rules import Case

# How many parts a script is cut into at first, and how many candidates are played at a time.
PARTS, AT_A_TIME = 8, 40
LOOKS = ("cat", "ls", "text", "stack", "pick", "runs", "state", "mark")


def is_look(line):
    """Whether a line only asks."""
    return line.split()[0] in LOOKS or line.startswith("shadow get")


def kind_of(row):
    """What two differences have to share, to be taken for one: the form of the line, and whether callbacks differ."""
    words = row.line.split()
    form = words[:2] if words[0] in ("task", "shadow") else [words[0]]
    if words[0] in ("cat", "echo"):
        form.append(words[-1].rsplit("/", 1)[-1])
    return form, any(it.startswith("callbacks: ") for it in row.rules)


class Shrinking:
    """A case whose difference is kept while its lines go."""

    def __init__(self, lab, case, row):
        self.lab, self.rules, self.kind = lab, lab.rules, kind_of(row)
        self.case = Case(case.name, case.text, case.lines[:row.number])

    def differing(self, cases):
        """Of these cases the ones that show the difference still, cut off behind it."""
        kept = [it for it in cases if it.lines and self.rules.is_faultless(it.text)]
        found = []
        for at in range(0, len(kept), AT_A_TIME):
            part = kept[at:at + AT_A_TIME]
            for case, own in zip(part, self.lab.played(part, is_ordered=self.kind[1])):
                first = next((it for it in own if it.what == "unannounced" and kind_of(it) == self.kind), None)
                if first:
                    found.append(Case(case.name, case.text, case.lines[:first.number]))
        return found

    def keyed(self, cases):
        """Of cases by a key, those that show the difference, cut off behind it."""
        found = {it.name: it for it in self.differing([Case(str(key), it.text, it.lines) for key, it in cases.items()])}
        return {key: Case(self.case.name, found[str(key)].text, found[str(key)].lines)
                for key in cases if str(key) in found}

    def leave_out(self, count, without):
        """Leaves out as many of so many pieces as the difference lets go. `without` makes the case that lacks some.
        Returns whether any is left out."""
        alone = self.keyed({k: without([k]) for k in range(count)})
        needless = sorted(alone)
        if not needless:
            return False
        together = {part: without(needless[:len(needless) * part // 4]) for part in (1, 2, 3, 4)}
        shorter = self.keyed({part: it for part, it in together.items() if len(needless) * part // 4 > 1})
        self.case = shorter[max(shorter)] if shorter else alone[needless[0]]
        return True

    def shrink_lines(self):
        """Leaves out what only asks, then ever smaller parts of the script, but never its last line."""
        base = self.case
        looks = Case(base.name, base.text, [it for it in base.lines[:-1] if not is_look(it)] + base.lines[-1:])
        self.case = (self.differing([looks]) or [base])[0]
        size, is_shorter = max(1, len(self.case.lines) // PARTS), True
        while size > 1 or is_shorter:
            pieces = [range(at, at + size) for at in range(0, len(self.case.lines) - 1, size)]
            is_shorter = self.leave_out(len(pieces), lines_without(self.case, pieces))
            size = max(1, size // 3)

    def shrink_catalog(self):
        """Leaves out patches, targets and lines of the catalog."""
        for level in ("patch", "target", "line"):
            pieces = catalog_pieces(self.case.text.splitlines(), level)
            self.leave_out(len(pieces), catalog_without(self.case, pieces))

    def smallest(self):
        """The case, shrunk."""
        self.shrink_lines()
        self.shrink_catalog()
        accepted = [line for line, rule in zip(self.case.lines, self.rules.of(self.case))
                    if not rule.answer[:1] or rule.answer[0] not in ("error 2 NoTask", "error 22 WrongMode")]
        if accepted != self.case.lines:
            self.case = (self.differing([Case(self.case.name, self.case.text, accepted)]) or [self.case])[0]
        return self.case


def lines_without(case, pieces):
    """Makes the case that lacks the lines of some pieces, but not the last one."""
    def made(gone):
        numbers = {k for it in gone for k in pieces[it] if k != len(case.lines) - 1}
        return Case(case.name, case.text, [line for k, line in enumerate(case.lines) if k not in numbers])
    return made


def catalog_without(case, pieces):
    """Makes the case that lacks the rows of some pieces of its catalog."""
    def made(gone):
        numbers = {k for it in gone for k in pieces[it]}
        rows = [row for k, row in enumerate(case.text.splitlines()) if k not in numbers]
        return Case(case.name, "\n".join(rows) + "\n", case.lines)
    return made


def catalog_pieces(rows, level):
    """The numbers of the rows that go together: those of each patch, of each target, or each other row of a patch."""
    words = [row.split()[0] for row in rows]
    if level == "line":
        return [[k] for k, word in enumerate(words) if word in ("func", "state", "pre", "post", "preun", "postun")]
    pieces, is_open = [], False
    for k, word in enumerate(words):
        if word in ("patch", level) or is_open and level == "target" and word == "state":
            is_open = word == level
            pieces += [[]] if is_open else []
        if is_open:
            pieces[-1].append(k)
    return pieces


def after_each_event(case):
    """The script with the question at its end asked after each line, which shows the event that made the difference."""
    *lines, last = case.lines
    return Case(case.name, case.text, [it for line in lines for it in (line, last)])


def breaking_event(case, rows):
    """The number in `case` of the event that made the difference, by the rows of after_each_event(case)."""
    row = first_unannounced(rows)
    return (row.number + 1) // 2 if row else len(case.lines)
