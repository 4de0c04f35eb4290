"""Holds what a kernel answered against what the rules say, line by line."""
import collections
import re

from conforming.answers import Answers, of_rules, read_log
from conforming.differences import Sides, announced

# What became of a line: `same`, `announced` with the difference's name, `unannounced`, `set` if it only brings a task
# to its place, `left` if no kernel was asked, or `apart` behind a difference that may have led the kernel elsewhere.
Line = collections.namedtuple("Line", "number line what name rules kernel log")
# Commands that bring the stepper's tasks to their place: what they answer is the stepper's, not the kernel's.
PLACED = ("task",)
ALARMS = ("WARNING", "BUG", "Oops")
# klp_shadow_alloc() warns of a duplicate. A kernel without CONFIG_DEBUG_BUGVERBOSE names the function in place of the file.
OF_DUPLICATE = re.compile(r"\bat (\S*shadow\.c:|__klp_shadow_get_or_alloc\+)")


def same(rules, kernel):
    """Whether an answer is klpsim's. A refusal is, if its number is, and its name if the kernel's log tells a name."""
    if rules[:1] and rules[0].startswith("error "):
        own = kernel[0].split() if kernel else []
        return own[:2] == rules[0].split()[:2] and (len(own) == 2 or own[2:] == rules[0].split()[2:])
    return rules == kernel


def spelled_order(ran):
    return ", ".join(".".join(it) for it in ran) or "none"


def judged(answers, number, line, rule, seen):
    """What became of a line that the kernel answered."""
    rules, kernel = of_rules(line, rule.answer) or [""], answers.of(line, seen) or [""]
    alarms = [it for it in seen.log if any(word in it for word in ALARMS)]
    if rules == ["error 22 Exists"]:
        alarms = [it for it in alarms if not OF_DUPLICATE.search(it)]
    ran = answers.callbacks(seen)
    is_same = same(rules, kernel)
    is_order = is_same and None not in (ran, rule.ran) and ran != rule.ran
    if is_order:
        rules, kernel = [*rules, f"callbacks: {spelled_order(rule.ran)}"], [*kernel, f"callbacks: {spelled_order(ran)}"]
    if alarms:
        return Line(number, line, "unannounced", None, rules, [*kernel, alarms[0]], seen.log), False
    if is_same and not is_order:
        what = "set" if line.split()[0] in PLACED else "same"
        return Line(number, line, what, None, rules, kernel, seen.log), False
    found = announced(Sides(line, rules, kernel, rule, answers.catalog, is_order))
    what, name = ("announced", found.name) if found else ("unannounced", None)
    return Line(number, line, what, name, rules, kernel, seen.log), bool(found and found.is_apart)


def compared(case, number, rules, log):
    """What became of each line of a case, whose number it has in the kernel's log."""
    answers, seen, rows, is_apart = Answers(case.text, number), log.get(number, {}), [], False
    for k, (line, rule) in enumerate(zip(case.lines, rules)):
        own = seen.get(str(k))
        if own is None or is_apart:
            rows.append(Line(k + 1, line, "apart" if own is not None else "left", None, rule.answer, [], []))
            continue
        row, is_apart = judged(answers, k + 1, line, rule, own)
        rows.append(row)
    return rows


def all_compared(cases, rules, console, first=0):
    """The lines of all cases, by the console of the machine that played them. They are numbered from `first`. Of a case
    that wasn't played to its end nothing counts."""
    log = read_log(console)
    return [compared(case, number, own, log) if "end" in log.get(number, {}) else []
            for number, (case, own) in enumerate(zip(cases, rules), first)]


def first_unannounced(rows):
    return next((it for it in rows if it.what == "unannounced"), None)


def tally(all_rows):
    """How many lines came to what, and how many are which announced difference."""
    lines = collections.Counter(it.what for rows in all_rows for it in rows)
    names = collections.Counter(it.name for rows in all_rows for it in rows if it.name)
    return lines, names
