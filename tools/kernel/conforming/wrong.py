"""Wrong kernels: rules by which the recorded answers of a right one are edited, and whether conform notices each."""
import json
import re

from conforming.answers import NUMBER, Seen, read_log
from conforming.comparing import compared, first_unannounced
from conforming.rules import Case

# Within how many scripts each is to be noticed.
SCRIPTS = 40


class Course:
    """What a kernel's own answers tell of a script's course: the transition, and what tasks did in it."""

    def __init__(self):
        self.moving, self.target, self.is_reversed, self.installed = None, None, False, []
        self.children, self.left, self.forced, self.asleep = set(), set(), set(), set()
        self.tasks = set()

    def begin(self, patch, target):
        self.moving, self.target, self.is_reversed = patch, target, False
        self.children, self.left, self.forced = set(), set(), set()

    def take(self, words, seen):
        """Takes a line with the kernel's answer."""
        found = NUMBER.match(seen.answers[0].strip()) if seen.answers else None
        is_done = found is not None and found.group(2) == "0"
        if words[0] == "load" and is_done:
            self.begin(words[1], "1")
            self.installed.append(words[1])
        elif words[0] == "echo" and is_done and words[3].endswith("/enabled"):
            was_reversed = found.group(3) is not None
            self.target = words[1]
            if not was_reversed:
                self.begin(words[3].split("/")[-2], words[1])
            self.is_reversed = was_reversed
        elif words[0] == "echo" and is_done and words[1] == "1":
            self.forced = set(self.tasks)
        elif words[0] == "poll" and seen.answers[0].startswith("completed"):
            if seen.answers[0] == "completed 0" and self.moving in self.installed:
                self.installed.remove(self.moving)
            self.begin(None, None)
        elif words[0] == "task":
            self.task(words)

    def task(self, words):
        kind, task = words[1], words[2]
        self.asleep.discard(task)
        if kind == "new":
            self.tasks.add(task)
        elif kind == "fork":
            self.tasks.add(words[3])
            self.children.add(words[3])
        elif kind == "exit":
            self.left.add(task)
        elif kind == "sleep":
            self.asleep.add(task)


def other(state):
    return {"0": "1", "1": "0"}.get(state, state)


def state_of(tasks):
    """A wrong kernel in which these tasks of a course aren't at the target."""
    def edit(words, seen, course):
        if words[1].startswith("/proc/") and course.target and words[1].split("/")[2] in getattr(course, tasks):
            return [other(course.target)]
        return None
    return "cat", edit


def replaced(kind, pattern, by):
    """A wrong kernel whose answer to lines of a kind has `by` in place of the pattern."""
    def edit(_words, seen, _course):
        return [re.sub(pattern, by, it) for it in seen.answers]
    return kind, edit


def accepted(kind, number, is_it=lambda words, seen: True):
    """A wrong kernel that accepts what it has to refuse with this number."""
    def edit(words, seen, _course):
        if re.match(rf"errno {number}\b", seen.answers[0]) and is_it(words, seen):
            return ["errno 0"]
        return None
    return kind, edit


def logs(text):
    return lambda _words, seen: any(text in it for it in seen.log)


def reversed_target(_words, seen, course):
    found = re.match(r"completed (\d)", seen.answers[0])
    return [f"completed {other(found.group(1))}"] if found and course.is_reversed else None


def never_held(_words, seen, course):
    return [f"completed {course.target}"] if seen.answers[0].startswith("pending") else None


def never_switched(_words, seen, course):
    return ["pending 1"] if seen.answers[0].startswith("completed") and course.asleep else None


def upside_down(_words, seen, _course):
    return [" | ".join(reversed(it.split(" | "))) for it in seen.answers]


def without_nops(_words, seen, _course):
    return [" | ".join(row for row in it.split(" | ") if not row.endswith(" nop")) or "empty" for it in seen.answers]


def always_original(_words, seen, course):
    return [re.sub(r"^(s\d+_)[pqrst]:", r"\1vm:", it) for it in seen.answers] if course.target else None


def never_taken_over(_words, seen, _course):
    return ["value 0" if it.startswith("value") else it for it in seen.answers]


def all_installed(words, seen, course):
    prefix = seen.answers[0].split("_")[0]
    is_list = words[1].endswith("livepatch") and seen.answers[0]
    return [" | ".join(f"{prefix}_{it}" for it in course.installed)] if is_list else None


def one_more(_words, seen, _course):
    counts = seen.answers[0].split()
    return [" ".join([counts[0], str(int(counts[1]) + (counts[1] != "0")), *counts[2:]])] if len(counts) == 4 else None


# What is wrong with a kernel, and the edit of its answers to lines of a kind.
ANSWERS = {
    "a reversal keeps the target": ("poll", reversed_target),
    "a forked task isn't given its parent's patch state": state_of("children"),
    "a task isn't switched where it goes back to user space": state_of("left"),
    "a force doesn't switch": state_of("forced"),
    "a blocked version holds nobody": ("poll", never_held),
    "a sleeper is never switched": ("poll", never_switched),
    "a patch is enabled while another one is in transition": accepted("load", 16),
    "a patch that doesn't support a system state is enabled": accepted("load", 22, logs("not compatible")),
    "a patch whose symbol is missing is enabled": accepted("load", 22, logs("not found")),
    "a failing pre-patch callback is ignored": accepted("load", r"\d+", lambda _, seen: "pre!" in "".join(seen.ran)),
    "a patch is disabled while another one is in transition": accepted("echo", 16),
    "a value that a file has already is accepted": accepted("echo", 22),
    "a loaded module is loaded again": accepted("insmod", 17),
    "a module that a sleeper is inside of is unloaded": accepted("rmmod", 11),
    "a function stack is upside down": ("stack", upside_down),
    "a cumulative patch has no nops": ("stack", without_nops),
    "a call runs the original during a transition": ("pick", always_original),
    "an entry site keeps its call": replaced("text", "plain", "hooked"),
    "a cumulative patch leaves older ones installed": ("ls", all_installed),
    "a post-patch callback is counted twice": ("runs", one_more),
    "the value of a system state is lost": ("state", never_taken_over),
    "a shadow variable is added twice": replaced("shadow", "^NULL$", "ok"),
    "a shadow variable isn't removed": replaced("shadow", "^freed 1$", "freed 0"),
    "a transition isn't shown": replaced("cat", "^1$", "0"),
}

def without(kind, is_it=lambda ran: True):
    """Leaves out the callbacks of a kind."""
    return lambda ran: [it for it in ran if not it.endswith(f".{kind}")] if is_it(ran) else ran


# What is wrong with a kernel, and the edit of the callbacks that ran in lines of a kind.
CALLBACKS = {
    "callbacks run in the reverse order": ("", lambda ran: ran[::-1]),
    "a coming module's post-patch callbacks don't run": ("insmod", without("post")),
    "a going module's pre-unpatch callbacks don't run": ("rmmod", without("preun")),
    "a failed load runs no post-unpatch callback": (
        "load", without("postun", lambda ran: any("!" in it for it in ran))),
    "a completed transition runs no post-patch callback": ("poll", without("post")),
}


def doctored(case, seen, name):
    """The answers to a case as this wrong kernel gives them."""
    course, found = Course(), {}
    for k, line in enumerate(case.lines):
        own, words = seen.get(str(k)), line.split()
        if own is None:
            if words[0] == "task":
                course.take(words, Seen([], [], []))
            continue
        found[str(k)] = own
        if name in ANSWERS and words[0] == ANSWERS[name][0] and own.answers:
            found[str(k)] = Seen(ANSWERS[name][1](words, own, course) or own.answers, own.ran, own.log)
        elif name in CALLBACKS and words[0].startswith(CALLBACKS[name][0]) and own.ran:
            found[str(k)] = Seen(own.answers, [" ".join(CALLBACKS[name][1](it.split())) for it in own.ran], own.log)
        course.take(words, own)
    return found


def noticed(cases, rules, log, name):
    """By what a wrong kernel is noticed first: the script, how many were needed, and the line; or None."""
    for number, (case, own) in enumerate(zip(cases, rules)):
        row = first_unannounced(compared(case, number, own, {number: doctored(case, log.get(number, {}), name)}))
        if row:
            return case.name, number + 1, row
    return None


def record(path, release, cases, console):
    """Keeps the scripts of a kernel, and what the machine printed where it played them."""
    with open(path, "w", encoding="utf-8") as it:
        json.dump({"kernel": release, "cases": [[case.name, case.text, case.lines] for case in cases],
                   "console": [row for row in console if re.match(r"[SQAD] |C( |$)", row)]}, it, indent=0)


def recorded(path):
    """The kernel's release, the scripts and the answers of a recorded run."""
    with open(path, encoding="utf-8") as it:
        found = json.load(it)
    return found["kernel"], [Case(*it) for it in found["cases"]], read_log(found["console"])


def power(rules, path):
    """Shows by which line each wrong kernel is noticed. Returns 1 where one isn't within 40 scripts."""
    release, cases, log = recorded(path)
    cases = cases[:SCRIPTS]
    own = [rules.of(it) for it in cases]
    right = [compared(case, number, it, log) for number, (case, it) in enumerate(zip(cases, own))]
    found = {name: noticed(cases, own, log, name) for name in (*ANSWERS, *CALLBACKS)}
    differing = sum(1 for it in right if first_unannounced(it))
    print(f"{release}: {sum(map(bool, found.values()))} of {len(found)} wrong kernels are noticed within {len(cases)}",
          f"scripts, of which {differing} show an unannounced difference of the right kernel\n")
    print("| What is wrong | Scripts | By the line |\n|---|---|---|")
    for name, it in found.items():
        print(f"| {name} | {it[1]} | {spelled(*it)} |" if it else f"| {name} | not noticed | |")
    return 0 if all(found.values()) and not differing else 1


def spelled(script, _, row):
    return f"{script}, {row.number}: `{row.line}`: {' / '.join(row.kernel)}, not {' / '.join(row.rules)}"
