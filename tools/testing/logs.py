"""klpsee over logs of klpcap: the real ones of examples/captures, and others that no klpcap writes.

What klpsee says of a real log is stored, and is held against what the kernel's own log says in the same file. A true log is
true with some of its samples, too: then no sample may be called broken, and a run is to be found for nearly each. And logs that
no kernel could have written are found out.
"""
import email.utils
import functools
import json
import os
import random
import re
import stat
import tempfile

import testing.run
from testing import thinned
from testing.run import EXAMPLES, TOP, built_program, fault, finish, read, run, start

# What klpsee ends with, and klpwatch where a trace isn't as the rules say.
EXPLAINED, FAULTY, BROKEN, NOT_EXPLAINED, NOT_SEEN = 0, 1, 3, 4, 5
DISHONEST = 3
# The logs of examples/captures in which something was changed, so that no kernel can have done it. All others are real ones.
CHANGED = ("refused",)
VERDICTS = {EXPLAINED: "explained", BROKEN: "broken", NOT_EXPLAINED: "not_explained", NOT_SEEN: "not_seen"}
# The kernel names a task that it couldn't switch, with the old name of the function.
SLEEPS = re.compile(r"^log ([\d.]+) livepatch: klp_try_switch_task: .*:(\d+) is sleeping on function (\S+)$", re.M)
SAMPLE = re.compile(r"^sample ([\d.]+) ([\d.]+) ", re.M)
# A time, with the time of day if the log has that.
TIME = r"(?:\S+ GMT \()?([\d.]+) s\)?"
HELD = re.compile(rf"^  .*\[(\d+)\].* held it up, asleep in (\S+), (?:from|at) {TIME}(?: to {TIME}| \(seen once\))$", re.M)
# How the answers end that have nothing to refuse: by status.
WHOLE = {
    EXPLAINED: re.compile(rb"^(?:explained: the livepatch rules allow what each of \d+ samples shows(?:; .*)?|as far as was seen, no "
                          rb"task ran code that was gone, as the consistency model promises|so far no task runs code that is gone, as "
                          rb"the consistency model promises; a force would end this promise|.* would hold it up(?:, and \d+ more may)?"
                          rb"\nthe log was cut off: what is told is as of its last whole sample)\n\Z", re.M),
    NOT_SEEN: re.compile(rb"^so it isn't known who holds a transition up, or would: record again\n\Z", re.M),
    NOT_EXPLAINED: re.compile(rb"^  the log may lack the kernel's line of a force, which would explain it\nthis accuses nobody:", re.M),
}
# Threads of one process that sleep in one function share a line.
GROUP = re.compile(r"^  .*\[(\d+)\]: (\d+) threads h(?:old|eld) it up", re.M)
HOLDS = re.compile(rf"^  .*\[(\d+)\].* holds it up: asleep \([^)]*\) in (\S+) since {TIME} or before(?:, for ([\d.]+) s| \(seen once\))(?:; .*)?$", re.M)


def holders(said):
    """For each task that holds the transition up, or did: in which function, and from when to when."""
    held = {task: (function, float(first), float(last or first)) for task, function, first, last in HELD.findall(said)}
    for task, function, first, length in HOLDS.findall(said):
        held[task] = function, float(first), float(first) + float(length or 0)
    return held


def held_by(report):
    """The same, as it is told for programs: in microseconds, and of the threads of one process each."""
    all_stays = [it for transition in report["transitions"] for it in transition["holders"]]
    return {it["task"]["thread"]: (it["function"], it["from_us"], it["to_us"]) for it in all_stays}


def differs_from_kernel(log, report):
    """What klpsee says of the holders, and the kernel's own log doesn't. A stay ends between two samples."""
    told = {task: (function, first / 1e6, last / 1e6) for task, (function, first, last) in held_by(report).items()}
    named = {int(task): (float(at), old) for at, task, old in SLEEPS.findall(log)}
    for holder in report["kernel_holders"]:
        named.pop(holder["thread"])
    if " is sleeping on function " not in log:
        return None
    if set(named) != set(told):
        return f"{sorted(told)} held it up, and the kernel names {sorted(named)}"
    for task, (function, first, last) in told.items():
        end = min((float(to) for begun, to in SAMPLE.findall(log) if float(begun) > last + 0.005), default=last + 1)
        at, old = named[task]
        if not first <= at <= end or not function.endswith(old):
            return f"task {task} is in {function} from {first} to {last}, and the kernel has it in {old} at {at}"
    return None


def for_programs(name):
    """What klpsee says of a log, for programs, with its status and its standard error."""
    status, text, err = run(["klpsee", "--json", f"captures/{name}.log"])
    return json.loads(text), status, err


def judged_anew(room, status):
    """What klpsee wrote is for its owner alone, and klpwatch says the same of it."""
    paths = [f"{room}/{it}" for it in ("run.catalog", "run.trace", "run.names", "run.html")]
    modes = [stat.S_IMODE(os.stat(it).st_mode) for it in paths]
    if modes != [0o600] * 4:
        return f"modes {modes}"
    own, out, err = run(["klpwatch", *paths[:2]])
    is_same = own == status and out.startswith(b"honest " if own == 0 else b"line ")
    return unnamed(*paths[1:3]) if is_same else f"klpwatch: {own}, {out} and {err}"


def unnamed(trace, names):
    """The tasks of a trace that have no name in the file beside it."""
    with open(trace, encoding="utf-8") as run_of, open(names, encoding="utf-8") as named_in:
        tasks, named = (set(re.findall(form, it.read(), re.M)) for form, it in ((r"\btask new (\d+)$", run_of), (r"^task (\d+) .", named_in)))
    return f"tasks {sorted(tasks - named)} have no name" if tasks - named else None


def captured(name):
    log, stored = read(f"captures/{name}.log").decode(), read(f"captures/{name}.output")
    status = BROKEN if name in CHANGED else EXPLAINED
    with tempfile.TemporaryDirectory(prefix="run-") as room:
        wrong = fault(run(["klpsee", f"captures/{name}.log", "-o", room]), (status, stored, ""))
        if wrong or name == "preflight":
            return wrong
        wrong = None if status else differs_from_kernel(log, for_programs(name)[0])
        return wrong or judged_anew(room, DISHONEST if status else 0)


def worked_out(name, status):
    """The answer to a small log was worked out by hand, and its status. Of a faulty log it is what is told on standard error.
    A catalog of its name has what it doesn't show."""
    stored = read(f"logs/{name}.output")
    known = ["--catalog", f"logs/{name}.catalog"] if os.path.exists(f"{EXAMPLES}/logs/{name}.catalog") else []
    wanted = (FAULTY, b"", stored.decode()) if int(status) == FAULTY else (int(status), stored, "")
    return fault(run(["klpsee", *known, f"logs/{name}.log"]), wanted)


def counted(name):
    """Each sample of a small log is shown, torn, or not reached."""
    status, out, err = run(["klpsee", "--json", f"logs/{name}.log"])
    counts = json.loads(out)["samples"]
    count = len(SAMPLE.findall(read(f"logs/{name}.log").decode()))
    is_well = (status, err, sum(counts.values())) == (0, "", count)
    return None if is_well else f"status {status}, {counts} of {count} samples, {err}"


def broken(text, words):
    """No kernel can have done what this log says, and klpsee names what."""
    status, out, err = seen(text)
    unless = "unless a transition was forced before it" if " sleeps in " in words else "whatever came before it"
    is_well = (status, err) == (BROKEN, "") and words in out.decode() and f" s shows, {unless}\n" in out.decode()
    return None if is_well else f"{status}, {out.decode()} and {err}"


def forced_before():
    """A force that the kernel's log has from before the capture is none of this transition."""
    log, said = read("captures/enable.log").decode(), read("captures/enable.output")
    older = "log 3.000000 livepatch: forcing remaining tasks to the patched state\n"
    return fault(seen(log.replace("log ", f"{older}log ", 1)), (0, said, ""))


def stopped(name, sample, said):
    """A log that was stopped behind this sample."""
    before, line, after = read(f"captures/{name}.log").decode().partition(f"\nsample {sample} ")
    rest = "".join(re.findall(r"^(?:symbol|module) .*\n", after, re.M))
    status, out, err = seen(f"{before}{line}{after.partition(chr(10))[0]}\n{rest}end stopped\n")
    return None if (status, err) == (0, "") and said.encode() in out else f"{status}, {out} and {err}"


def documented():
    """docs/CAPTURE.md has what klpsee says of two logs."""
    with open(f"{TOP}/docs/CAPTURE.md", encoding="utf-8") as it:
        page = it.read()
    lost = [name for name in ("stalled", "preflight") if read(f"captures/{name}.output").decode() not in page]
    return f"what klpsee says of {lost} isn't there" if lost else None


def seen(text):
    """The status and both outputs of klpsee over a log of this text."""
    with tempfile.TemporaryDirectory(prefix="log-") as room:
        with open(f"{room}/a.log", "wb") as it:
            it.write(text if isinstance(text, bytes) else text.encode())
        return finish(start(["klpsee", "a.log"], room, executable=built_program()))


def headed():
    """The page of a log says of which machine and kernel it is, and by which time of day the kernel's clock is read."""
    text = read("captures/stalled.log").decode().replace("\npatches\n", "\nhost <db7>\nclock 1796040181 8.05\npatches\n", 1)
    date = email.utils.formatdate(1796040181, usegmt=True)
    with tempfile.TemporaryDirectory(prefix="log-") as room:
        with open(f"{room}/a.log", "w", encoding="utf-8") as it:
            it.write(text)
        status, out, err = finish(start(["klpsee", "-o", room, "a.log"], room, executable=built_program()))
        with open(f"{room}/run.html", encoding="utf-8") as it:
            page = it.read()
    head = f"a.log: kernel 6.1.0-56-amd64 x86_64 on &lt;db7&gt;, begun 8.05 s after boot, on {date}"
    return None if (status, err) == (EXPLAINED, "") and head in page else f"{status}, {out} and {err}, {page[:2000]}"


def preflight_page():
    """The page of a log that was made before a patch is loaded shows who sleeps in the functions that were asked for: by the
    log, both tasks in eventfd_read, and nobody in cmdline_proc_show."""
    with tempfile.TemporaryDirectory(prefix="log-") as room:
        status, _, err = finish(start(["klpsee", "-o", room, f"{EXAMPLES}/captures/preflight.log"], executable=built_program()))
        with open(f"{room}/run.html", encoding="utf-8") as it:
            page = it.read()
    sleeps = r"<bdi class=m>{}\[\d+\]</bdi></b> sleeps in<ul class=m><li>\.klp\.<wbr>sym\.<wbr>vmlinux\.<wbr>eventfd_<wbr>read,1</ul>"
    missing = [it for it in ("billing", "indexer") if not re.search(sleeps.format(it), page)]
    is_well = (status, err) == (EXPLAINED, "") and not missing and "cmdline_<wbr>proc_<wbr>show,1</ul>" not in page
    return None if is_well else f"{status}, {err}, and {missing} of {page[-3000:]}"


def cut_off(name):
    """A log is cut off behind each byte. It is read up to its last whole sample, so nothing in it is at fault. It may not be
    explained: symbols and the kernel's line of a force stand at a log's end."""
    text = read(f"captures/{name}.log")
    for end in range(len(b"klpcap 1\n"), len(text), 1 if testing.run.IS_BUILT else 13):
        status, out, err = seen(text[:end])
        if err or status not in WHOLE or not WHOLE[status].search(out):
            return f"cut off at {end}: status {status}, {out} and {err}"
    return None


TASK_FORM = "task TID PID START STATE PATCH_STATE RUNS STABLE KTHREAD NAME"
SAMPLE_FORM = "sample FROM TO TASKS RUNNING SLEEPING TORN INSIDE"
PATCH_FORM = "patch NAME ENABLED TRANSITION [REPLACE STACK_ORDER]"
LATE_SAMPLE = "wanted is a sample that ends after it began, and begins after the one before it"
# Lines that are faulty between the samples of a log, and what is said of the last of them.
FAULTY_LINES = (
    ("nonsense", "'nonsense': no line of a log begins so"), ("", "'': no line of a log begins so"),
    ("kernel", "'kernel': wanted is kernel RELEASE MACHINE"), ("find", "'find': wanted is find FUNC"),
    ("host", "'host': wanted is host NAME"), ("clock 5", "'clock 5': wanted is clock EPOCH UPTIME"),
    ("process x n", "'process x n': wanted is process PID NAME"), ("left", "'left': wanted is left TID"),
    ("patches now", "'patches now': wanted is patches"), ("frame", "'frame': wanted is frame FUNC+OFFSET/SIZE [MODULE]"),
    ("frame a b", "'frame a b': wanted is frame FUNC+OFFSET/SIZE [MODULE]"), ("task 1 2", f"'task 1 2': wanted is {TASK_FORM}"),
    ("task a 90 401 S 0 1 1 0 n", f"'task a 90 401 S 0 1 1 0 n': wanted is {TASK_FORM}"),
    ("task 90 x 401 S 0 1 1 0 n", f"'task 90 x 401 S 0 1 1 0 n': wanted is {TASK_FORM}"),
    ("task 90 90 401 S 2 1 1 0 n", f"'task 90 90 401 S 2 1 1 0 n': wanted is {TASK_FORM}"),
    ("task 90 90 401 SS 0 1 1 0 n", f"'task 90 90 401 SS 0 1 1 0 n': wanted is {TASK_FORM}"),
    ("gone x", "'gone x': wanted is gone TID"), ("sample 9 9", f"'sample 9 9': wanted is {SAMPLE_FORM}"),
    ("sample x 9 0 0 0 0", f"'sample x 9 0 0 0 0': wanted is {SAMPLE_FORM}"),
    ("sample 9.2 9.2 0 0 0 2", f"'sample 9.2 9.2 0 0 0 2': wanted is {SAMPLE_FORM}"),
    ("log x y", "'log x y': wanted is log TIME TEXT"), ("symbol xyz t n", "'symbol xyz t n': wanted is symbol ADDRESS TYPE NAME [MODULE]"),
    ("symbol 99 t n m", "'symbol 99 t n m': wanted is symbol ADDRESS TYPE NAME [MODULE]"),
    ("patch x 1 1", "'patch': wanted before it is a line `patches` of the same sample"),
    *((f"patch x {words}", f"'patch x {words}': wanted is {PATCH_FORM}") for words in (
        "1", "1 2", "1 1 1", "1 1 2 1", "1 1 1 0", "1 1 1 x", "1 1 1 4294967296", "1 1 x -", "1 1 - -1", "1 1 - - -",
    )),
    ("patch x 1 1 - 1", "'patch': wanted before it is a line `patches` of the same sample"),
    ("object x 1", "'object': wanted before it is a line `patch` of the same sample"),
    ("loaded x", "'loaded': wanted before it is a line `object` of the same sample"),
    ("function f,1", "'function': wanted before it is a line `object` of the same sample"),
    ("function f", "'function f': wanted is function NAME,POSITION"), ("function ,1", "'function ,1': wanted is function NAME,POSITION"),
    ("frame f+0x1/0x2", "'frame': wanted before it is a line `task` of the same sample"),
    ("frames =", "'frames': wanted before it is an earlier line `task` of the same thread"),
    ("sample 9.00 9.10 51 0 0 0", f"'sample 9.00 9.10 51 0 0 0': {LATE_SAMPLE}"),
    ("sample 9.20 9.10 51 0 0 0", f"'sample 9.20 9.10 51 0 0 0': {LATE_SAMPLE}"),
    ("patches\nobject x 1", "'object': wanted before it is a line `patch` of the same sample"),
    ("patches\npatch x 1 1\nloaded x", "'loaded': wanted before it is a line `object` of the same sample"),
    ("task 7 7 1 S 0 1 1 0 n\nframes =", "'frames': wanted before it is an earlier line `task` of the same thread"),
    ("klpcap 1", "'klpcap': wanted before it is no line: it is the first of a log"),
    ("end over\nmodule x", "'module': wanted before it is no line `end`, which is the last of a log"),
)


def faulty(lines, said):
    """Lines the last of which is faulty stand between two samples."""
    before, after = read("captures/enable.log").decode().split("sample 9.22", 1)
    number = before.count("\n") + lines.count("\n") + 1
    return fault(seen(f"{before}{lines}\nsample 9.22{after}"), (FAULTY, b"", f"klpsee: a.log: line {number}: {said}\n"))


def no_log(text, said):
    return fault(seen(text), (FAULTY, b"", f"klpsee: a.log: line 1: {said}\n"))


def swapped():
    """Two samples stand in the wrong order."""
    text = re.sub(r"(sample 9\.22 .*\n)(sample 9\.49 .*\n)", r"\2\1", read("captures/enable.log").decode())
    number = text[: text.index("sample 9.22 ")].count("\n") + 1
    line = re.search(r"^sample 9\.22 .*", text, re.M)[0]
    return fault(seen(text), (FAULTY, b"", f"klpsee: a.log: line {number}: '{line}': {LATE_SAMPLE}\n"))


def named(name):
    """A task may be called anything."""
    log, stored = read("captures/enable.log").decode(), read("captures/enable.output").decode()
    return fault(seen(log.replace("billing", name)), (0, stored.replace("billing", name).encode(), ""))


IS_NO_LOG = "this is no log of klpcap, which begins with `klpcap 2`"
NO_LOGS = (
    ("", "the file is empty: wanted is `klpcap 2`, the first line of a log"), ("\nklpcap 1\n", f"'': {IS_NO_LOG}"),
    ("klpcap 3\n", "'klpcap 3': a newer klpcap wrote this log: read it with the klpsee that came with it"),
    ("klpcap 0\n", f"'klpcap': {IS_NO_LOG}"), ("object vmlinux\n", f"'object': {IS_NO_LOG}"),
    ("@1.0 load p\n", f"'@1.0': {IS_NO_LOG}"),
)
CUT = ("disable", "reverse", "preflight", "busy", "force", "replace", "begun_replace")
NAMES = ("two words", ") 5 5", "<script>", "task 90 1", "# a", "'", "a" * 99)
HEAD = read("captures/enable.log").decode().split("task 90 ", 1)[0]
FRAME = "frame eventfd_read+0x13a/0x300\n"
SYMBOLS = "".join(re.findall(r"^(?:symbol|module) .*\n", read("captures/enable.log").decode(), re.M))


def many_tasks(count):
    """So many tasks sleep in a patched function, of which the run has 63, and 16 get a line."""
    tasks = "".join(f"task {number} {number} 7 S 0 1 1 0 worker\n{FRAME}" for number in range(1000, 1000 + count))
    status, out, err = seen(f"{HEAD}{tasks}sample 8.56 8.72 552 0 0 0\n{SYMBOLS}end stopped\n")
    told = out.count(b" holds it up: asleep (S: a signal may free it) in eventfd_read ")
    out_of_run = max(0, count - 63)
    left = b" named by the log and not judged: only 63 can be" in out
    more = f"  and {min(count, 63) - 16} more hold it up".encode() in out
    is_well = (status, err, told, left, more) == (0, "", min(count, 16), out_of_run > 0, count > 16)
    return None if is_well else f"{status}, {told} are told, {out[-300:]} {err}"


def one_process(count):
    """So many threads of one process sleep in a patched function, and a kernel thread does. Each group gets one line."""
    tasks = "".join(f"process 500 nginx\ntask {number} 500 7 S 0 1 1 0 worker\n{FRAME}" for number in range(501, 501 + count))
    tasks += f"task 12 12 3 D 0 1 1 1 kworker/0:1\n{FRAME}"
    status, out, err = seen(f"{HEAD}{tasks}sample 8.56 8.72 552 0 0 0\n{SYMBOLS}end stopped\n")
    lines = (f"  nginx[500]: {count} threads hold it up: asleep (S: a signal may free it) in eventfd_read, the first since 8.56 s",
             "  kworker/0:1[12], a kernel thread, holds it up: asleep (D: kill does nothing to it) in eventfd_read since 8.56 s")
    is_well = (status, err) == (0, "") and all(it.encode() in out for it in lines)
    return None if is_well else f"{status}, {out} and {err}"


def not_followed():
    """A task that is switched is followed no longer, and goes on as it likes: a later transition finds it anywhere."""
    task = "task 90 90 401 S {} 1 1 0 billing\n"
    text = f"{HEAD}{task.format(0)}{FRAME}sample 8.56 8.72 51 0 0 0 0\n"
    text += f"{task.format(1).replace(' 1 1 0 b', ' 2 1 0 b')}sample 9.00 9.10 51 0 0 0 0\nleft 90\nsample 9.40 9.50 51 0 0 0 0\n"
    status, out, err = seen(f"{text}{SYMBOLS}end stopped\n")
    return None if (status, err) == (0, "") and b"billing[90] lags" not in out else f"{status}, {out} and {err}"


def named_and(word, runs):
    """A sample names a task that is switched, and says behind it that the task is gone or left. Then the transition ends. The
    task had run since the sample before, or was switched while it slept. Five more held it up that the log only counts."""
    task, frames = "task 90 90 401 S {} {} 1 0 billing\n", "frame do_sys_poll+0x1/0x2\n"
    text = f"{HEAD}{task.format(0, 1)}{frames}sample 8.56 8.72 51 0 0 0 5\n{task.format(1, runs)}"
    text += f"{'frames =' if runs == 1 else frames.strip()}\n{word} 90\nsample 9.00 9.10 51 0 0 0 0\n{patches('1 0')}"
    text += "sample 9.40 9.50 0 0 0 0 0\nsample 9.60 9.70 0 0 0 0 0\n"
    status, out, err = seen(f"{text}{SYMBOLS}end over\n")
    is_well = (status, err) == (0, "") and b"\nexplained: the livepatch rules allow what each of " in out and b"\n  up to 5 more were unswitched inside of patched " in out
    return None if is_well else f"{status}, {out} and {err}"


def begun_reversed():
    """A log begins while a cumulative patch goes back to the patch that it was to replace. So it was never complete."""
    log = thinned.parse(read("captures/replace_reversed.log").decode())
    kept = [number for number, it in enumerate(log.samples) if "patch nap_fix 0 1" in it.patches]
    status, out, err = seen(thinned.text(log, kept))
    words = f"explained: the livepatch rules allow what each of {len(kept)} samples shows\n"
    return None if (status, err) == (0, "") and words in out.decode() else f"{status}, {out.decode()} and {err}"


def said_for_programs(name):
    """--json says what the words say. Of threads of one process that sleep in one function, the words say how many they are."""
    status, words, err = run(["klpsee", f"captures/{name}.log"])
    report, *other = for_programs(name)
    if other != [status, err]:
        return f"status and standard error {other}, in words {[status, err]}"
    groups = [(it["process"], it["threads"]) for moved in report["transitions"] for it in moved["groups"] if it["threads"] > 1]
    grouped = {it["task"]["thread"] for moved in report["transitions"] for it in moved["holders"]
               if it["task"]["process"] in dict(groups)}
    found = {task: (function, first // 10_000, last // 10_000)
             for task, (function, first, last) in held_by(report).items() if task not in grouped}
    told = {int(task): (function, round(first * 100), round(last * 100))
            for task, (function, first, last) in holders(words.decode()).items()}
    told_groups = [(int(process), int(threads)) for process, threads in GROUP.findall(words.decode())]
    is_same = (found, groups, report["verdict"]) == (told, told_groups, VERDICTS[status])
    return None if is_same else f"{found}, {groups}, {report['verdict']}, in words {told}, {told_groups}, {status}"


def long_name(length):
    """A function of this length: the catalog that klpsee makes has room for 127 bytes of it."""
    text = read("captures/enable.log").decode().replace("eventfd_read", "f" * length)
    status, out, err = seen(text)
    is_well = (status, err) == (0, "") and b" held it up, asleep in fff" in out
    return None if is_well else f"{status}, {out} and {err}"


def many_functions(count):
    """A patch of so many functions: the catalog that klpsee makes has room for 64."""
    rows = "".join(f"function f{number},1\n" for number in range(count))
    text = read("captures/enable.log").decode().replace("function eventfd_read,1\n", f"function eventfd_read,1\n{rows}")
    status, out, err = seen(text)
    is_well = (status, err) == (0, "") and b" held it up, asleep in eventfd_read" in out
    return None if is_well else f"{status}, {out} and {err}"


def many_samples():
    """A sleeper for forty minutes; every other sample another task has run."""
    count = 10_000 if testing.run.IS_BUILT else 1_000
    both = (90, "billing"), (91, "indexer")
    sleepers = "".join(f"task {task} {task} 401 S 0 1 1 0 {name}\n{FRAME}" for task, name in both)
    log = f"{HEAD}{sleepers}sample 8.56 8.72 51 0 0 0\n"
    for number in range(1, count):
        log += f"task 90 90 401 S 0 {number} 1 0 billing\n{FRAME}" if number % 2 else ""
        log += f"sample {9 + number / 4:.2f} {9.1 + number / 4:.2f} 51 0 0 0\n"
    status, out, err = seen(f"{log}{SYMBOLS}end stopped\n")
    told = b"  indexer[91] holds it up: asleep (S: a signal may free it) in eventfd_read since 8.56 s or before, for " in out
    is_whole = f"explained: the livepatch rules allow what each of {count + 6} samples shows\n".encode() in out
    is_well = (status, err, told, is_whole) == (0, "", True, True)
    return None if is_well else f"{status}, {out[-600:]} and {err}"


def many_sleeps():
    """63 tasks sleep again and again: each stretch counts, and the answer doesn't take longer than the search."""
    count, threads = 600 if testing.run.IS_BUILT else 40, range(200, 263)
    log = HEAD
    for number in range(count):
        log += "".join(f"task {it} {it} 401 S 0 {number + 1} 1 0 worker\n{FRAME}" for it in threads if number == 0 or (it + number) % 2)
        log += f"sample {8.56 + number / 4:.2f} {8.66 + number / 4:.2f} 551 0 0 0\n"
    with tempfile.TemporaryDirectory(prefix="log-") as room:
        with open(f"{room}/a.log", "w", encoding="utf-8") as it:
            it.write(f"{log}{SYMBOLS}end stopped\n")
        status, out, err = finish(start(["klpsee", "a.log"], room, executable=built_program()), seconds=60)
    is_well = (status, err) == (0, "") and f"\nexplained: the livepatch rules allow what each of {count + 6} samples shows\n" in out.decode()
    return None if is_well else f"{status}, {out[-600:]} and {err}"


def subsets(name):
    """Of a true log with some of its samples no sample is broken, and nearly each is explained. Tried are so many subsets, drawn
    at random, with one sample or two among them."""
    log, draw = thinned.parse(read(f"captures/{name}.log").decode()), random.Random(name)
    numbers = range(len(log.samples))
    missed = []
    for number in range(SUBSETS):
        chance = draw.random()
        kept = draw.sample(numbers, number % 2 + 1) if number < SUBSETS // 4 else [it for it in numbers if draw.random() < chance]
        text = thinned.text(log, sorted(kept))
        status, out, err = seen(text)
        # What a force did before the first sample isn't in the rules, and then a run needn't be found.
        if err or status == BROKEN or (status == NOT_EXPLAINED and name != "force"):
            missed.append(f"samples {sorted(kept)}: status {status}, {out.decode()} and {err}")
    return "; ".join(missed) or None


SUBSETS = 24
ROWS = "object vmlinux 1\nloaded vmlinux\nfunction cmdline_proc_show,1\nfunction eventfd_read,1\n"
STALLED = read("captures/stalled.log").decode()
INDEXER = "task 91 91 401 S 0 1 1 0 indexer\n"


def inserted(lines, before="sample 15.36 "):
    """The log of a stalled transition with these lines before a sample."""
    return STALLED.replace(f"\n{before}", f"\n{lines}{before}", 1)


def patches(files, rows=ROWS):
    return f"patches\npatch eventfd_fix {files}\n{rows}"


# What no kernel can have done, and the words that name it.
LIES = {
    "a patch that is half there under a sleeper": (inserted(patches("0 0")), "has a patch_state other than -1, and no patch is in transition"),
    "a transition that completes under a sleeper": (inserted(patches("1 0")), "has a patch_state other than -1, and no patch is in transition"),
    "an object that isn't patched": (inserted(patches("1 1", ROWS.replace("vmlinux 1", "vmlinux 0"))),
                                     "eventfd_fix is enabled, and its functions of the kernel aren't patched"),
    "a function that is gone": (inserted(patches("1 1", ROWS.replace("function eventfd_read,1\n", ""))),
                                "eventfd_fix changes other functions than in the sample before"),
    "two patches in transition": (inserted(patches("1 1") + "patch other 1 1\nobject vmlinux 1\nloaded vmlinux\nfunction f,1\n"),
                                  "eventfd_fix and other are both in transition, and only one patch can be"),
    "fewer runs": (inserted(INDEXER.replace(" 1 1 0 ", " 0 1 0 ") + FRAME),
                   "indexer[91] had got a processor more often at 8.56 s than it has now"),
    "other frames without a run": (inserted(INDEXER + "frame vfs_read+0x1/0x2\n"),
                                   "indexer[91] hasn't run since 8.56 s, and is inside of other functions than then"),
    "a zombie that hasn't run": (inserted(INDEXER.replace(" S 0 ", " Z 0 ")),
                                 "indexer[91] hasn't run since 8.56 s, and has ended though it slept then"),
    "a zombie that lives on": (inserted(INDEXER.replace(" S 0 1 ", " Z 0 2 ")).replace("\nsample 15.65 ", f"\n{INDEXER.replace(' 0 1 ', ' 0 3 ')}{FRAME}sample 15.65 ", 1),
                               "indexer[91] had ended at 15.36 s, and is alive now"),
    "a task that is switched in the old function": (inserted(INDEXER.replace(" S 0 ", " S 1 ") + "frames =\n"),
                                                    "indexer[91] sleeps in eventfd_read, and by its patch_state 1 it runs livepatch_eventfd_read of eventfd_fix"),
    "a task that runs the new function too early": (inserted(INDEXER.replace(" 1 1 0 ", " 2 1 0 ") + "frame livepatch_eventfd_read+0x1/0x2 [eventfd_fix]\n"),
                                                    "indexer[91] sleeps in livepatch_eventfd_read of eventfd_fix, and by its patch_state 0 it runs eventfd_read"),
    "a task in the old function of a patch that is complete": (
        inserted(patches("1 0") + "task 91 91 401 S -1 1 1 0 indexer\nframes =\ntask 90 90 401 S -1 9 1 0 billing\n"),
        "indexer[91] sleeps in eventfd_read, and each task runs livepatch_eventfd_read of eventfd_fix"),
    "a task in a function whose patch isn't there": (
        inserted("patches\n" + INDEXER.replace(" S 0 1 ", " S -1 2 ") + "frame livepatch_eventfd_read+0x1/0x2 [eventfd_fix]\ntask 90 90 401 S -1 9 1 0 billing\n"),
        "indexer[91] sleeps in livepatch_eventfd_read, and its patch eventfd_fix isn't there"),
    "no patch state in a transition": (inserted(INDEXER.replace(" S 0 ", " S -1 ") + "frames =\n"),
                                       "indexer[91] has patch_state -1, and eventfd_fix is in transition"),
}


def unseen(text, words):
    """What a verdict needs couldn't be read: that is said, and nothing about holders or premises."""
    status, out, err = seen(text)
    calm = [it for it in (b"promises", b"hold it up\n", b"holds it up", b"0 tasks") if it in out]
    is_well = (status, err, calm) == (NOT_SEEN, "", []) and words in out.decode()
    return None if is_well else f"{status}, {out.decode()} and {err}"


PREFLIGHT = read("captures/preflight.log").decode()
UNSEEN = {
    "a log without root": (STALLED.replace("patches\n", "missing stack\nmissing patch_state\npatches\n", 1),
                           "the kernel doesn't show stack: is this root, and is it configured?"),
    "a function that the kernel doesn't have": (PREFLIGHT.replace("find eventfd_read", "find eventfd_raed"),
                                                "the kernel has no function eventfd_raed: "),
    "a log without a sample": ("klpcap 2\nkernel 6.1.0 x86_64\nend stopped\n", "the log has no sample to explain"),
}


def kernel_says_otherwise():
    """The kernel's own log says that the transition is complete, and later samples show it."""
    line = "log 12.500000 livepatch: 'eventfd_fix': patching complete\n"
    status, out, err = seen(STALLED.replace("symbol ", f"{line}symbol ", 1))
    words = b"not explained: by the kernel's log the transition of eventfd_fix was complete at 12.50 s, and in the sample at "
    return None if (status, err) == (NOT_EXPLAINED, "") and words in out else f"{status}, {out} and {err}"


def unplaced():
    """Sleepers in a function of the patch's module, of which the log doesn't show which it replaces."""
    status, out, err = seen(read("captures/disable.log").decode().replace("livepatch_eventfd_read", "fixed_eventfd_read"))
    words = b"  billing[90] may have held it up: asleep from 34.44 s to 36.04 s in fixed_eventfd_read of a patch's module, which the log can't place\n"
    return None if (status, err) == (0, "") and words in out else f"{status}, {out} and {err}"


def idle():
    """A transition goes on, and no task lags that the log names or counts."""
    text = re.sub(r"^task 9[01] .*\n(?:frames? .*\n)*", "", STALLED, flags=re.M)
    status, out, err = seen(text)
    words = b"  no task that the log names or counts lags: an idle task may hold it up, which /proc doesn't show\n"
    return None if (status, err) == (0, "") and words in out else f"{status}, {out} and {err}"


CALM = b"no task that the log names or counts lags"


def not_calm(end):
    """In the last sample a task is read before the kernel's try switches it, and another one behind that. The log ends with that
    sample, whole or cut off. Nobody is told to be calm: not in words, not for programs, not for many machines."""
    text = read("logs/tried_meanwhile.log").decode()
    text = text[: text.index("\n", text.index("sample 3.00 ")) + 1] + end
    with tempfile.TemporaryDirectory(prefix="log-") as room:
        with open(f"{room}/a.log", "w", encoding="utf-8") as it:
            it.write(text)
        words, report, metrics = (finish(start(["klpsee", *option, "a.log"], room, executable=built_program()))
                                  for option in ([], ["--json"], ["--metrics"]))
    lagging = [it["task"]["thread"] for it in json.loads(report[1])["transitions"][-1]["lagging"]]
    is_well = [it[0] for it in (words, report, metrics)] == [0, 0, 0] and CALM not in words[1] and b"\n  w8[8] lags, asleep in " in words[1]
    is_well = is_well and lagging == [8] and not json.loads(report[1])["nobody_lags"] and b'klp_lagging{host="a.log"} 1\n' in metrics[1]
    return None if is_well else f"{words}, {lagging}, {metrics}"


def cases():
    logs = sorted(it for it in os.listdir(f"{EXAMPLES}/captures") if it.endswith(".log"))
    names = [it.removesuffix(".log") for it in logs]
    made = [(f"captures/{it}.log", functools.partial(captured, it)) for it in names]
    rows = [it.split() for it in read("logs/index").decode().splitlines() if not it.startswith("#")]
    made += [(f"logs/{row[0]}.log", functools.partial(worked_out, *row)) for row in rows]
    made += [(f"logs/{name}.log, --json", functools.partial(counted, name)) for name in ("torn", "forced")]
    made += [(f"captures/{it}.log, --json", functools.partial(said_for_programs, it)) for it in names]
    made += [(f"captures/{it}.log, cut off", functools.partial(cut_off, it)) for it in CUT]
    made += [(f"captures/{it}.log, some samples", functools.partial(subsets, it)) for it in names if it not in ("refused", "preflight")]
    made += [(it, functools.partial(broken, *LIES[it])) for it in LIES]
    made += [(it, functools.partial(unseen, *UNSEEN[it])) for it in UNSEEN]
    made += [(f"a log with {lines!r}", functools.partial(faulty, lines, said)) for lines, said in FAULTY_LINES]
    made += [(f"a log that begins with {it!r}", functools.partial(no_log, it, said)) for it, said in NO_LOGS]
    made += [(f"a task called {it!r}", functools.partial(named, it)) for it in NAMES]
    made += [(f"{it} tasks", functools.partial(many_tasks, it)) for it in (1, 64, 65)]
    made += [(f"a function of {it} bytes", functools.partial(long_name, it)) for it in (127, 128, 511)]
    made += [(f"a patch of {it} functions", functools.partial(many_functions, it)) for it in (62, 600)]
    made += [("samples in the wrong order", swapped), ("many samples", many_samples), ("many sleeps", many_sleeps)]
    made += [("62 threads of one process", functools.partial(one_process, 62)), ("a task that isn't followed any longer", not_followed)]
    made += [("a log that begins with a reversed cumulative patch", begun_reversed)]
    made += [("the kernel's log against the samples", kernel_says_otherwise), ("a function that can't be placed", unplaced)]
    made += [(f"a task that is named, and {word} with {runs} runs", functools.partial(named_and, word, runs)) for word in ("left", "gone") for runs in (1, 2)]
    made += [(f"a log that ends with {it!r} before a try", functools.partial(not_calm, it)) for it in ("", "end stopped\n")]
    made += [("an idle task", idle), ("a log with an older force", forced_before), ("a page's head", headed), ("the page of a pre-flight", preflight_page)]
    made += [("nothing in transition", functools.partial(stopped, "enable", "8.05", "no patch was in transition\n"))]
    switched = "  billing[90] held it up, asleep in livepatch_eventfd_read, from 56.44 s to 59.20 s\n"
    made += [("a cumulative patch that isn't complete", functools.partial(stopped, "replace", "59.98", switched))]
    return [*made, ("docs/CAPTURE.md, what klpsee says", documented)]
