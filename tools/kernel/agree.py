"""agree.py FOLDER: holds each capture of the folder (NAME.log) against the kernel's own log of that time (NAME.dmesg).

At each try the kernel logs which task sleeps on which patched function. The samples nearest to that moment are to show
that task inside of the function, or of the patch's new one, or to count it there if klpcap follows as many as it can.
klpsee is to say that the capture is explained. It is to have that task as a holder at that moment, and no holder that
the kernel doesn't name. The exit status is 1 where one shows something else.
"""
import collections
import glob
import json
import os
import re
import subprocess
import sys

KLPSEE = os.environ.get("KLPSEE", os.path.join(os.path.dirname(os.path.abspath(__file__)), "..", "..", "klpsee"))

TRY = re.compile(r"\[ *([\d.]+)\] livepatch: klp_try_switch_task: .*?:(\d+) is sleeping on function (\S+)")
# How far a sample may be from a try that it is held against, in seconds.
NEAR = 0.6
# How far the clock of the kernel's log may be from that of /proc/uptime, and how long the tries of all tasks take.
APART = 0.1

# A sample: from when to when it was taken, for each thread that it follows the functions that it was inside of, and how
# many it only counts there.
Sample = collections.namedtuple("Sample", "first last inside counted")


def samples(path):
    """The samples of a log."""
    inside, kept, lost, found = {}, [], [], []
    with open(path, encoding="utf-8") as log:
        for line in log:
            word, *rest = line.split()
            if word == "task":
                thread = int(rest[0])
                kept = inside.get(thread, [])
                inside[thread] = []
            elif word == "frame":
                inside[thread].append(rest[0].split("+")[0])
            elif word == "frames":
                inside[thread] = kept
            elif word in ("gone", "left"):
                lost.append(int(rest[0]))
            elif word == "sample":
                found.append(Sample(float(rest[0]), float(rest[1]), inside, int(rest[6])))
                inside = {thread: functions for thread, functions in inside.items() if thread not in lost}
                lost = []
    return found


def tries_of(path):
    """When the kernel couldn't switch a task, which one, and the function that it slept on."""
    if not os.path.exists(path):
        return []
    with open(path, encoding="utf-8") as log:
        return [(float(time), int(thread), function) for time, thread, function in TRY.findall(log.read())]


def judged(taken, tries, time, thread, function):
    """What the samples near to a try show of its task: that it is `shown` inside of the function, or `counted` with all
    others that the kernel names then and no such sample follows; that it isn't followed `yet`; something `else`."""
    near = [it for it in taken if it.first - NEAR <= time <= it.last + NEAR]
    shown = [it.inside[thread] for it in near if thread in it.inside]
    if shown:
        return "shown" if any({function, f"livepatch_{function}"} & set(it) for it in shown) else "else"
    others = {it[1] for it in tries if abs(it[0] - time) < APART and not any(it[1] in own.inside for own in near)}
    if any(it.counted == len(others) for it in near):
        return "counted"
    return "yet" if any(thread in it.inside for it in taken if it.first > time) else "else"


def is_of(stay, time, thread, function):
    """Whether this stay is what the kernel found at a try."""
    task, version, begun, ended = stay
    return task == thread and version in (function, f"livepatch_{function}") and begun <= time <= ended


def widened(taken, begun, ended):
    """A stay is told by samples: it may have begun after the sample before its first one, and end before the one after
    its last."""
    before = max((it.first for it in taken if it.first < begun - 0.005), default=begun)
    after = min((it.last for it in taken if it.first > ended + 0.005), default=ended + 1)
    return before - APART, after + APART


def differing(taken, tries, stays, report):
    """Where klpsee and the kernel differ. Whom klpsee names only by the kernel's log is to be without a line in the
    capture, or one of those that it says a run has no number for."""
    by_log = {it["thread"] for it in report["kernel_holders"]}
    by_log -= {thread for it in taken for thread in it.inside}
    lacking = [it for it in tries if it[1] not in by_log and not any(is_of(stay, *it) for stay in stays)]
    if len({it[1] for it in lacking}) <= report["others"]["left_out"]:
        lacking = []
    lost = [it for it in stays if not any(is_of(it, *what) for what in tries)]
    return [f"klpsee lacks {it}" for it in lacking] + [f"the kernel lacks {it}" for it in lost]


def agrees(path):
    """Whether a capture agrees with the kernel. Says what was found."""
    taken, tries = samples(path), tries_of(path.replace(".log", ".dmesg"))
    tries = [it for it in tries if it[0] <= taken[-1].last]
    found = collections.Counter(judged(taken, tries, *it) for it in tries)
    ran = subprocess.run([KLPSEE, "--json", path], stdout=subprocess.PIPE, stderr=subprocess.DEVNULL, check=False)
    report = json.loads(ran.stdout)
    holders = [it for moved in report["transitions"] for it in moved["holders"]]
    stays = [(it["task"]["thread"], it["function"], *widened(taken, it["from_us"] / 1e6, it["to_us"] / 1e6))
             for it in holders]
    wrong = differing(taken, tries, stays, report)
    print(f"{os.path.basename(path)}: {report['verdict']} ({ran.returncode}), {report['samples']['shown']} of",
          f"{len(taken)} samples; {len(tries)} tries, {found['shown']} as captured, {found['counted']} counted,",
          f"{found['yet']} before the task was followed, {found['else']} otherwise; {len(stays)} stays told by klpsee")
    for line in wrong:
        print(f"  {line}")
    return not (ran.returncode or found["else"] or wrong)


def main(folder):
    all_agree = [agrees(path) for path in sorted(glob.glob(f"{folder}/*.log"))]
    return 0 if all(all_agree) else 1


if __name__ == "__main__":
    sys.exit(main(sys.argv[1]))
