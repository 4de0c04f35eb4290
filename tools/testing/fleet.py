"""klpsee over a log that grows, and over the logs of many machines.

What a follower tells of a real log is held against what klpsee says of the whole log: who holds from when to when. A log that is
cut anywhere is followed up to there, its last whole line included. Numbers are read back by the text format's own rules.
"""
import functools
import json
import os
import re
import shutil
import subprocess
import tempfile
import threading
import time

from testing.logs import FRAME, HEAD, SYMBOLS
from testing.run import EXAMPLES, TOP, built_program, finish, read, run_itself, start

EXPLAINED, FAULTY, USAGE, BROKEN = 0, 1, 2, 3
# A line of a follower: when, and what.
TOLD = re.compile(r"^(?:\S+ GMT \()?([\d.]+) s\)?: (.*)$")
# What the text format takes as a sample: a name, labels with escaped values, a number.
NUMBER = re.compile(r'^(klp_[a-z_]+)(?:\{((?:[a-z_]+="(?:[^"\\\n]|\\["\\n])*",?)*)\})? (-?\d+)$')
LABEL = re.compile(r'([a-z_]+)="((?:[^"\\\n]|\\["\\n])*)"')
# Worked out by hand from the samples of the log, which names both tasks with their first lines, and billing's next ones at
# 12.39 s, awake: it had got a processor.
STALLED = ["8.56 s: eventfd_fix is being enabled, since this sample or before",
           "8.56 s:   billing[90] holds it up, asleep (S) in eventfd_read",
           "8.56 s:   indexer[91] holds it up, asleep (S) in eventfd_read"]


def log_of(name):
    return read(f"captures/{name}.log")


def see(*words, given=b""):
    return run_itself(["klpsee", *words], given)


def fault(what, is_now, wanted):
    return f"{what}: {str(is_now)[:600]}, where {str(wanted)[:600]} is wanted"


def followed(name):
    """What a follower tells of a whole log, line by line."""
    status, out, err = see("--follow", f"{EXAMPLES}/captures/{name}.log")
    return status, out.decode().splitlines(), err


def stalled():
    status, lines, err = followed("stalled")
    if (status, err) != (EXPLAINED, "") or lines[:3] != STALLED:
        return fault("what is told", (status, lines[:4], err), (EXPLAINED, STALLED, ""))
    if not lines[-1].endswith(" s: the log ends"):
        return fault("the last line", lines[-1], "that the log ends")
    gone = [it for it in lines if "billing[90] holds it up no more" in it]
    if len(gone) != 1 or any("indexer[91] holds it up no more" in it for it in lines):
        return fault("who ceased to hold", lines, "billing alone")
    return None


def as_the_whole(name):
    """Who begins to hold at some time is told by the whole log with a sleep from then on, and nobody else is."""
    status, lines, err = followed(name)
    _, out, _ = see("--json", f"{EXAMPLES}/captures/{name}.log")
    report = json.loads(out)
    begun = {(group["process"], transition["holders"][group["first_holder"]]["function"])
             for transition in report["transitions"] for group in transition["groups"]}
    told = [it for it in lines if " it up, asleep (" in it]
    if (len(told) == 0) != (len(begun) == 0):
        return fault("who holds", told, begun)
    ended = [TOLD.match(it)[2] for it in lines if "is enabled: the transition" in it or "was reversed" in it or "is disabled" in it]
    ends = [it["end"]["how"] for it in report["transitions"] if it["end"]]
    if bool(ended) != bool([it for it in ends if it != "forced"]):
        return fault("how it ended", ended, ends)
    return None if not err else fault("standard error", err, "nothing")


def cut_anywhere(step):
    """A log that ends within a line is followed to the line before it, by a pipe."""
    log = log_of("nap")
    whole = followed("nap")[1]
    for end in range(40, len(log), step):
        status, out, err = see("--follow", "-", given=log[:end])
        lines = out.decode().splitlines()
        if err or status not in (0, 4, 5) or lines[:-1] != whole[:len(lines) - 1] or "cut off" not in lines[-1]:
            return fault(f"of {end} bytes", (status, lines[-3:], err), whole[:3])
    return None


def grows():
    """A file is read on as it grows, and the last line of the log ends it."""
    log = log_of("stalled")
    with tempfile.TemporaryDirectory() as folder:
        path = f"{folder}/growing.log"
        with open(path, "wb") as file:
            file.write(log[:len(log) // 3])
        with start(["klpsee", "--follow", path], executable=built_program()) as job:
            def go_on():
                for part in (log[len(log) // 3:len(log) // 2], log[len(log) // 2:]):
                    time.sleep(0.3)
                    with open(path, "ab") as file:
                        file.write(part)
            other = threading.Thread(target=go_on)
            other.start()
            status, out, err = finish(job)
            other.join()
    wanted = followed("stalled")[1]
    return None if (status, out.decode().splitlines(), err) == (EXPLAINED, wanted, "") else fault("what is told", out, wanted)


def faulty_line():
    """A faulty line ends it, with its number and word."""
    log = log_of("stalled")
    at = log.index(b"sample ", log.index(b"sample ") + 1)
    number = log[:at].count(b"\n") + 1
    status, out, err = see("--follow", "-", given=log[:at] + b"sampel 1 2 3\n" + log[at:])
    return None if status == FAULTY and f"line {number}: " in err and "sampel" in err else fault("the fault", (status, err), number)


def numbers_of(*names, logs=()):
    """The numbers of these logs: the status, and each number by its name and labels."""
    status, out, err = see("--metrics", *[f"{EXAMPLES}/captures/{it}.log" for it in names], *logs)
    numbers, meant = {}, set()
    for line in out.decode().splitlines():
        if line.startswith("# "):
            meant.add(line.split(" ")[2])
            continue
        found = NUMBER.match(line)
        if not found or found[1] not in meant:
            return status, {"a line that is none": line}, err
        labels = tuple(LABEL.findall(found[2] or ""))
        if (found[1], labels) in numbers:
            return status, {"a number that is there twice": line}, err
        numbers[found[1], labels] = int(found[3])
    return status, numbers, err


def metrics():
    status, numbers, err = numbers_of("stalled")
    host = ("host", f"{EXAMPLES}/captures/stalled.log")
    wanted = {("klp_transition", (host, ("patch", "eventfd_fix"), ("becomes", "enabled"))): 1,
              ("klp_transition_seconds", (host,)): 15,
              ("klp_holders", (host, ("process", "indexer"), ("kind", "signal"))): 1,
              ("klp_forced", (host,)): 0,
              **{("klp_verdict", (host, ("verdict", it))): int(it == "explained") for it in ("explained", "broken", "not_explained", "not_seen")}}
    missing = {it: value for it, value in wanted.items() if numbers.get(it) != value}
    return None if (status, err) == (EXPLAINED, "") and not missing else fault("the numbers", (status, numbers, err), missing)


def hostile_names():
    """Names that would break the format are told with escapes, and read back as they are."""
    name = 'a"b\\c},x="1"'
    log = HEAD + f"process 90 {name}\ntask 90 90 401 S 0 1 1 0 {name}\n{FRAME}sample 8.56 8.72 51 0 0 0\n{SYMBOLS}end stopped\n"
    with tempfile.TemporaryDirectory() as folder:
        path = f"{folder}/web.log"
        with open(path, "w") as file:
            file.write(log)
        status, numbers, err = numbers_of(logs=[path])
    held = [labels for (number, labels) in numbers if number == "klp_holders"]
    read_back = [dict(it)["process"].replace('\\"', '"').replace("\\\\", "\\") for it in held]
    return None if read_back == [name] else fault("the process", (status, numbers, err), name)


def worst_first():
    names = ["enable", "stalled", "refused", "force"]
    status, out, err = see(*[f"{EXAMPLES}/captures/{it}.log" for it in names])
    order = [os.path.basename(it.split(": ")[0]).removesuffix(".log") for it in out.decode().splitlines()]
    wanted = ["refused", "force", "stalled", "enable"]
    return None if (status, order, err) == (BROKEN, wanted, "") else fault("the machines", (status, out, err), wanted)


def one_is_missing():
    """A log that can't be read costs the status, and no other machine its line."""
    status, out, err = see(f"{EXAMPLES}/captures/stalled.log", "/nowhere/at.log")
    return None if status == FAULTY and out.count(b"\n") == 1 and "/nowhere/at.log" in err else fault("the answer", (status, out, err), "one line, and a fault")


def unwritten(words):
    """An answer that can't be written costs the status, and is told."""
    with open("/dev/full", "wb") as full:
        status, _, err = finish(start(["klpsee", *words], executable=built_program(), stdout=full))
    is_well = status == FAULTY and err.count("\n") == 1 and err.startswith("klpsee: standard output: ")
    return None if is_well else fault("the answer", (status, err), "that standard output can't be written")


def refused(words):
    status, out, err = see(*words)
    return None if status == USAGE and not out and "usage" in err.lower() else fault("the answer", (status, out, err), "usage")


def alarms():
    """The alarms are those that the rules' own test wants, where promtool is there."""
    if not shutil.which("promtool"):
        return None
    done = subprocess.run(["promtool", "test", "rules", "alerts_test.yml"], cwd=f"{TOP}/tools/fleet", capture_output=True)
    return None if done.returncode == 0 else fault("promtool", done.stdout + done.stderr, "SUCCESS")


def queries_in(part):
    """The queries of a dashboard."""
    if isinstance(part, dict):
        own = [part["expr"]] if "expr" in part else []
        return own + [it for value in part.values() for it in queries_in(value)]
    return [it for value in part for it in queries_in(value)] if isinstance(part, list) else []


def dashboard():
    """Each number that the dashboard asks for is one that klpsee prints, with the labels that the query names."""
    labels = {}
    for name, pairs in numbers_of("crowd")[1]:
        labels.setdefault(name, set()).update(key for key, _ in pairs)
    with open(f"{TOP}/tools/fleet/dashboard.json", encoding="utf-8") as file:
        queries = queries_in(json.load(file))
    asked = [(name, set(re.findall(r'(\w+)=~?"', query))) for query in queries for name in re.findall(r"\bklp_\w+", query)]
    unknown = [it for it in asked if it[0] not in labels or not it[1] <= labels[it[0]]]
    return fault("the queries", unknown or queries, "numbers of klpsee") if unknown or not asked else None


def thousand():
    """1,000 logs are answered for, each with its line."""
    status, out, err = see(*[f"{EXAMPLES}/captures/disable.log"] * 1000)
    return None if out.count(b"\n") == 1000 and not err else fault("the lines", (status, out.count(b"\n"), err[:200]), 1000)


def cases():
    log = f"{EXAMPLES}/captures/stalled.log"
    made = [("--follow, a stalled log", stalled), ("--follow, a log that grows", grows), ("--follow, a faulty line", faulty_line)]
    made += [("--follow, cut anywhere", functools.partial(cut_anywhere, 997))]
    made += [(f"--follow, captures/{it}.log", functools.partial(as_the_whole, it)) for it in ("enable", "disable", "reverse", "crowd", "replace_reversed")]
    made += [("--metrics", metrics), ("--metrics, names that break the format", hostile_names), ("alarms", alarms),
             ("the dashboard", dashboard)]
    made += [("many logs, worst first", worst_first), ("many logs, one is missing", one_is_missing), ("1,000 logs", thousand)]
    made += [(f"klpsee {' '.join(it)}", functools.partial(refused, [*it, log])) for it in (["--follow", log], ["--follow", "--json"], ["--follow", "--metrics"],
                                                                                       ["--json", log], ["--metrics", "-o", "x"])]
    made += [(f"klpsee {' '.join(it)}, standard output full", functools.partial(unwritten, [*it, log]))
             for it in ([], ["--json"], ["--follow"], ["--metrics"], [log])]
    return made
