"""klpcap, over a stored machine (tools/testing/machine) in place of a running kernel, by each shell that is there."""
import contextlib
import functools
import glob
import os
import pty
import re
import shutil
import signal
import subprocess
import tempfile
import termios
import time

from testing.run import EXAMPLES, SECONDS, TOP, fault, finish, start

MACHINE = f"{TOP}/tools/testing/machine"
# What klpcap needs is in POSIX, so that each of these runs it. busybox is on few machines where this is built.
SHELLS = (("dash",), ("bash", "--posix"), ("busybox", "sh"))
PATCHES = """patches
patch eventfd_fix 1 1
object vmlinux 1
loaded vmlinux
function cmdline_proc_show,1
function eventfd_read,1
"""
# A name may have blanks and brackets. The task sleeps in a function that the patch changes; the other two have switched.
HOLDER = """task 91 91 100 S 0 7 1 0 bill) ing
frame eventfd_read+0x13a/0x300
frame vfs_read+0x23c/0x310
"""
IN_NEW = """task 92 92 100 S 1 9 1 0 indexer
frame livepatch_eventfd_read+0x13a/0x300 [eventfd_fix]
frame vfs_read+0x23c/0x310
"""
# The machine doesn't change, so the second sample has no line but its own.
SAMPLE = "sample 12.34 12.34 3 0 0 0 0\n"
LOG = "log 12.100000 livepatch: 'eventfd_fix': starting patching transition\n"
SYMBOLS = """symbol ffffffff8b93ffe0 t klp_ftrace_handler
symbol ffffffff8bdcbfa0 t eventfd_read
symbol ffffffff8be105a0 t cmdline_proc_show
symbol ffffffffc04a8030 t livepatch_cmdline_proc_show [eventfd_fix]
symbol ffffffffc04a8050 t livepatch_eventfd_read [eventfd_fix]
"""
# _text is at 8b800000, and at 81000000 where it isn't moved: 0a800000 less. The lowest function of a module is at c0000000.
MOVED = """symbol ffffffff8113ffe0 t klp_ftrace_handler
symbol ffffffff815cbfa0 t eventfd_read
symbol ffffffff816105a0 t cmdline_proc_show
symbol ffffffffc0000000 t livepatch_cmdline_proc_show [eventfd_fix]
symbol ffffffffc0000020 t livepatch_eventfd_read [eventfd_fix]
"""
KERNEL = "klpcap 2\nkernel 6.1.0-56-amd64 x86_64\n"
END = "module eventfd_fix\nend count\n"
RUNS = (
    (("-c", "2", "-i", "0.01"), KERNEL + PATCHES + HOLDER + SAMPLE + SAMPLE + LOG + SYMBOLS + END),
    (("--once", "--zero"), KERNEL + PATCHES + HOLDER + SAMPLE + LOG + MOVED + END),
    (("-f", "eventfd_read"), KERNEL + "find eventfd_read\n" + PATCHES + HOLDER + IN_NEW + SAMPLE + LOG + SYMBOLS + END),
)
REFUSED = (
    ("-x",), ("-c", "0"), ("-c", "two"), ("-i", "1.2.3"), ("-i", "0"), ("-i", "."), ("-i", "0.0"), ("-i", ""), ("-i", "1s"), ("-c",), ("-f", ","),
    ("one", "two"),
)
MOST = 64
READ = ("eventfd_read+0x13a/0x300", "vfs_read+0x23c/0x310")
SHOW = ("cmdline_proc_show+0x10/0x20", "seq_read+0x1/0x2")
NEW_READ = ("livepatch_eventfd_read+0x13a/0x300 [eventfd_fix]", "vfs_read+0x23c/0x310")
ELSEWHERE = ("do_sys_poll+0x1/0x2",)


def captured(shell):
    """Each run gives this log, and words that aren't understood are refused, and nothing is written."""
    wrong = [fault(finish(start([*shell, f"{TOP}/klpcap", "--root", MACHINE, *words])), (0, log.encode(), "")) for words, log in RUNS]
    for words in REFUSED:
        status, out, err = finish(start([*shell, f"{TOP}/klpcap", *words]))
        wrong.append(None if (status, out) == (2, b"") and err.startswith("usage: klpcap ") else f"{words}: {status} {out} {err}")
    return "; ".join(filter(None, wrong)) or None


def named(shell):
    """A name is told on one line, without control characters: here line feeds, an escape, a backslash, a state's words."""
    with tempfile.TemporaryDirectory(prefix="machine-") as room:
        shutil.copytree(MACHINE, f"{room}/machine")
        stat = f"{room}/machine/proc/91/task/91/stat"
        with open(stat, encoding="utf-8") as it:
            fields = it.read().rpartition(") ")[2]
        with open(stat, "w", encoding="utf-8") as it:
            it.write(f"91 (a) R 1\n\\n\x1b[2J\n) {fields}")
        told = HOLDER.replace("bill) ing", "a) R 1?\\n?[2J?")
        log = KERNEL + PATCHES + told + SAMPLE + LOG + SYMBOLS + END
        return fault(finish(start([*shell, f"{TOP}/klpcap", "--root", f"{room}/machine", "--once"])), (0, log.encode(), ""))


def harmless(shell):
    """What is named like a command, or has one where a number belongs, is passed over, and no command runs."""
    with tempfile.TemporaryDirectory(prefix="machine-") as room:
        root = f"{room}/a $(touch made) machine"
        shutil.copytree(MACHINE, root)
        command = "1:-$(touch made)}"
        for process, thread in (("91", command), (command, "91"), (command, command), ("91", "93")):
            shutil.copytree(f"{MACHINE}/proc/91/task/91", f"{root}/proc/{process}/task/{thread}")
        stat = f"{root}/proc/91/task/93/stat"
        with open(stat, encoding="utf-8") as it:
            head, _, tail = it.read().rpartition(") ")
        fields = tail.split(" ")
        with open(stat, "w", encoding="utf-8") as it:
            it.write(f"{head}) {' '.join([*fields[:6], 'a[$(touch${IFS}made)]', *fields[7:]])}")
        sample = SAMPLE.replace(" 3 0 0 0 0", " 4 0 0 0 0")
        log = KERNEL + PATCHES + HOLDER + sample + sample + LOG + SYMBOLS + END
        came = finish(start([*shell, f"{TOP}/klpcap", "--root", root, "-c", "2", "-i", "0.01"], room))
        return fault(came, (0, log.encode(), "")) or ("a command ran" if os.path.exists(f"{room}/made") else None)


def zeroed(shell):
    """A frame that has no name is a bare address, which --zero doesn't write."""
    with tempfile.TemporaryDirectory(prefix="machine-") as room:
        shutil.copytree(MACHINE, f"{room}/machine")
        with open(f"{room}/machine/proc/91/task/91/stack", "a", encoding="utf-8") as it:
            it.write("[<0>] 0xffffffffc04a9123\n")
        wrong = []
        for words, frame, symbols in ((("--once",), "0xffffffffc04a9123", SYMBOLS), (("--once", "--zero"), "0x0", MOVED)):
            log = KERNEL + PATCHES + HOLDER + f"frame {frame}\n" + SAMPLE + LOG + symbols + END
            wrong.append(fault(finish(start([*shell, f"{TOP}/klpcap", "--root", f"{room}/machine", *words])), (0, log.encode(), "")))
        return "; ".join(filter(None, wrong)) or None


def logged(shell):
    """A log replaces a file of its name, and only its owner may read it, whoever could before."""
    with tempfile.TemporaryDirectory(prefix="machine-") as room:
        log = f"{room}/a log"
        with open(log, "w", encoding="utf-8") as it:
            it.write("older\n" * 1000)
        os.chmod(log, 0o644)
        wrong = fault(finish(start([*shell, f"{TOP}/klpcap", "--root", MACHINE, "-c", "2", "-i", "0.01", log])), (0, b"", ""))
        with open(log, encoding="utf-8") as it:
            is_whole = it.read() == RUNS[0][1]
        return wrong or (None if is_whole and os.stat(log).st_mode & 0o777 == 0o600 else f"mode {os.stat(log).st_mode:o}")


def ended(shell):
    """Once the transition has ended, so does the capture, by itself."""
    with tempfile.TemporaryDirectory(prefix="machine-") as room:
        shutil.copytree(MACHINE, f"{room}/machine")
        capture = start([*shell, f"{TOP}/klpcap", "--root", f"{room}/machine", "-i", "0.1"])
        while not capture.stdout.readline().startswith(b"sample "):
            pass
        with open(f"{room}/machine/sys/kernel/livepatch/eventfd_fix/transition", "w", encoding="utf-8") as it:
            it.write("0\n")
        status, out, err = finish(capture)
        is_well = (status, err) == (0, "") and out.endswith(b"end over\n") and b"\npatch eventfd_fix 1 0\n" in out
        return None if is_well else f"status {status}: {out[-200:]} {err}"


def put(path, text):
    """Writes a file, and makes its folders."""
    os.makedirs(os.path.dirname(path), exist_ok=True)
    with open(path, "w", encoding="utf-8") as it:
        it.write(text)


class Machine:
    """A copy of the stored machine that a test changes, beside an empty folder for temporary files."""

    def __init__(self, room):
        self.root, self.temporary = f"{room}/machine", f"{room}/temporary"
        os.mkdir(self.temporary)
        shutil.copytree(MACHINE, self.root)
        shutil.rmtree(f"{self.root}/proc/91")
        shutil.rmtree(f"{self.root}/proc/92")

    def put(self, name, text):
        put(f"{self.root}/{name}", text)

    def task(self, thread, process=None, state=0, frames=READ, letter="S", name="billing", runs=7, begun=100):
        """Puts a task there, or changes it. A process has the name of its first thread."""
        folder = f"proc/{process or thread}/task/{thread}"
        stat = f"{thread} ({name}) {letter} 1 1 1 0 -1 4194304 0 0 0 0 0 0 0 0 20 0 1 0 {begun}\n"
        self.put(f"{folder}/patch_state", f"{state}\n")
        self.put(f"{folder}/stack", "".join(f"[<0>] {it}\n" for it in frames))
        self.put(f"{folder}/schedstat", f"1000 0 {runs}\n")
        self.put(f"{folder}/stat", stat)
        if process in (None, thread):
            self.put(f"proc/{thread}/stat", stat)

    def end(self, process, thread=None):
        """Ends a process, or a thread of it."""
        shutil.rmtree(f"{self.root}/proc/{process}" + (f"/task/{thread}" if thread else ""))

    def symbols(self, *names):
        """Puts symbols into the kernel's table, each with its type."""
        with open(f"{self.root}/proc/kallsyms", "a", encoding="utf-8") as table:
            table.write("".join(f"ffffffff8c0000{at:02x} {name}\n" for at, name in enumerate(names)))

    def turn(self, transition, enabled=1):
        """Puts the patch into this transition, or out of it."""
        self.put("sys/kernel/livepatch/eventfd_fix/enabled", f"{enabled}\n")
        self.put("sys/kernel/livepatch/eventfd_fix/transition", f"{transition}\n")

    def begin(self, shell, *words, **how):
        """Starts klpcap over the machine."""
        return start([*shell, f"{TOP}/klpcap", "--root", self.root, *words], env={**os.environ, "TMPDIR": self.temporary}, **how)

    @contextlib.contextmanager
    def session(self, shell, *words, **how):
        """The same in a process group of its own, all of which is ended at the end, if it is still there."""
        process = self.begin(shell, *words, start_new_session=True, **how)
        try:
            yield process
        finally:
            if process.poll() is None:
                os.killpg(process.pid, signal.SIGKILL)
                process.communicate()

    def left_behind(self):
        """What klpcap left of its temporary files."""
        return [f"left {it}" for it in os.listdir(self.temporary)]


@contextlib.contextmanager
def machine():
    """A machine for one test."""
    with tempfile.TemporaryDirectory(prefix="machine-") as room:
        yield Machine(room)


# How long klpcap waits for the next sample, in seconds, where a test ends each wait itself.
WAIT = "3600"


def until(is_so, wrong):
    """Waits until this is so, and returns what it is."""
    end, found = time.monotonic() + SECONDS, is_so()
    while not found:
        if time.monotonic() > end:
            raise TimeoutError(wrong)
        time.sleep(0.01)
        found = is_so()
    return found


def sleep_of(process):
    """The process by which klpcap waits for its next sample, if it does: a `sleep` of its own."""
    for folder in glob.glob("/proc/[0-9]*"):
        with contextlib.suppress(OSError), open(f"{folder}/stat", encoding="utf-8", errors="replace") as it:
            name, _, rest = it.read().partition("(")[2].rpartition(")")
            if name == "sleep" and int(rest.split(" ")[2]) == process.pid:
                return int(folder.rpartition("/")[2])
    return None


def waits_in(process):
    """The same, once it is there, which is soon after a sample."""
    return until(lambda: sleep_of(process), "klpcap doesn't wait for its next sample")


def samples(shell, it, changes, *words, **how):
    """The lines of each sample, where the machine changes between them: while klpcap waits for the next sample, the change is
    made, and then the wait is ended. No shell tells of a child that a pipe's signal ended."""
    process, found = it.begin(shell, "-c", str(len(changes) + 1), "-i", WAIT, *words, **how), [[]]
    for line in process.stdout:
        found[-1].append(line.decode().removesuffix("\n"))
        if line.startswith(b"sample "):
            if len(found) <= len(changes):
                sleeper = waits_in(process)
                changes[len(found) - 1]()
                os.kill(sleeper, signal.SIGPIPE)
            found.append([])
    err = process.communicate(timeout=SECONDS)[1]
    assert (process.returncode, err or b"") == (0, b""), (process.returncode, err)
    return found[:-1]


def of(lines, *words):
    """Those of the lines that begin with one of the words."""
    return [it for it in lines if it.split(" ")[0] in words]


def numbers(lines, word="task"):
    """The threads that lines of this word name."""
    return [int(it.split(" ")[1]) for it in of(lines, word)]


def counts(sample):
    """RUNNING, SLEEPING and INSIDE of a sample."""
    words = sample[-1].split(" ")
    return [int(words[at]) for at in (4, 5, 7)] if len(words) == 8 else sample[-1]


def differs(*pairs):
    """What differs, of pairs of what came and what is wanted."""
    return "; ".join(f"{str(came)[:300]}, where {str(wanted)[:300]} is wanted" for came, wanted in pairs if came != wanted) or None


def headed(shell):
    """The log names the machine, and has both clocks: of the machine made up where it says them, and of this one."""
    with machine() as it:
        it.put("proc/sys/kernel/hostname", "web\x1b[1m\x7f 7\n")
        it.put("proc/epoch", "1764500000\n")
        came = finish(it.begin(shell, "--once"))[1].decode().splitlines()[:5]
        it.put("proc/epoch", "1$(touch made)\n")
        it.put("proc/sys/kernel/hostname", "\n")
        without = finish(it.begin(shell, "--once"))[1].decode().splitlines()[:3]
        kernel = KERNEL.splitlines()
        before = int(time.time())
        own = finish(start([*shell, f"{TOP}/klpcap", "--once"]))[1].decode().splitlines()[:4]
        clock = re.fullmatch(r"clock (\d+) (\d+\.\d\d)", own[3])
        with open("/proc/uptime", encoding="utf-8") as up:
            uptime = float(up.read().split(" ")[0])
        is_now = clock and before <= int(clock[1]) <= time.time() and uptime - (time.time() - before) - 1 <= float(clock[2]) <= uptime
        system = os.uname()
        return differs(
            (came, [*kernel, "host web?[1m? 7", "clock 1764500000 12.34", "patches"]), (without, [*kernel, "patches"]),
            (own[:3], ["klpcap 2", f"kernel {system.release} {system.machine}", f"host {system.nodename}"]), (is_now or own[3], True),
        )


def processes(shell):
    """A thread that isn't its process's first has the process's name in front, once while there is the process. Where all of its
    numbers are given again between two samples, all is told anew."""
    with machine() as it:
        def threads(first, **how):
            for thread in (first, first + 1, first + 2):
                it.task(thread, first, name="po\x1bol" if thread == first else "worker", **how)

        def again():
            it.end(500)
            threads(500, begun=900)
        threads(500)
        threads(600)
        it.end(600, 600)
        it.task(700)
        one, two, three, four = samples(shell, it, (lambda: it.task(504, 500, name="late"), again, lambda: threads(500, begun=900, runs=8)))

        def line(thread, process, begun=100, runs=7):
            return f"task {thread} {process} {begun} S 0 {runs} 1 0 {'po?ol' if thread == process else 'worker'}"
        wanted = [line(500, 500), "process 600 po?ol", line(601, 600), "task 700 700 100 S 0 7 1 0 billing"]
        wanted += ["process 500 po?ol", line(501, 500), line(502, 500), line(602, 600)]
        return differs(
            (of(one, "process", "task"), wanted), (of(two, "process", "task"), ["task 504 500 100 S 0 7 1 0 late"]),
            (of(three, "gone"), ["gone 504"]),
            (of(three, "process", "task"), [
                "task 500 500 900 S 0 7 0 0 po?ol", "process 500 po?ol", "task 501 500 900 S 0 7 0 0 worker", "task 502 500 900 S 0 7 0 0 worker",
            ]), (of(three, "frame", "frames"), [f"frame {it}" for it in READ] * 3), (of(four, "process"), []), (numbers(four), [500, 501, 502]),
        )


def processes_again(shell):
    """The number of a process that has ended may be given again, and so the name is told again."""
    with machine() as it:
        it.task(500, state=1, frames=ELSEWHERE, name="first")
        it.task(501, 500)

        def another():
            it.task(500, state=1, frames=ELSEWHERE, name="second", begun=900)
            it.task(502, 500, begun=900)
        found = samples(shell, it, (lambda: it.end(500), another))
        told = [of(lines, "process", "gone", "task") for lines in found]
        return differs((told, [
            ["process 500 first", "task 501 500 100 S 0 7 1 0 billing"], ["gone 501"], ["process 500 second", "task 502 500 900 S 0 7 1 0 billing"],
        ]))


def chosen(shell):
    """Of more tasks than get lines of their own, one of each process and function does, and the others are counted."""
    with machine() as it:
        for thread in range(100, 170):
            it.task(thread, 100)
        it.task(170, 100, frames=SHOW)
        it.task(900)
        for thread in range(901, 904):
            it.task(thread, 900, frames=ELSEWHERE)
        it.task(904, 900, frames=ELSEWHERE, letter="R")
        it.task(905, 900, frames=ELSEWHERE, letter="D")
        it.task(906, 900, state=1, frames=NEW_READ)
        one, two = samples(shell, it, (lambda: None,))
        told = numbers(one)
        kinds = {(170 in told), (900 in told), bool(set(told) & set(range(100, 170)))}
        return differs(
            (len(told), MOST), (len(set(told)), MOST), (kinds, {True}), (set(told) <= {*range(100, 171), 900}, True), (counts(one), [1, 4, 8]),
            (numbers(two), []), (counts(two), [1, 4, 8]), (of(one, "left", "gone"), []),
        )


def preferred(shell):
    """Those inside come before those that merely lag, though these are there first; and these need two samples."""
    with machine() as it:
        for thread in range(10, 20):
            it.task(thread, frames=ELSEWHERE, letter="R" if thread == 10 else "S")

        def enter():
            for thread in range(300, 360):
                it.task(thread, 300)
        one, two, three = samples(shell, it, (enter, lambda: it.end(11)))
        told = numbers(two)
        lagging = {it for it in told if it < 20}
        left_out = set(range(10, 20)) - lagging
        wanted = [int(10 in left_out), len(left_out - {10}), 0]
        later = len(left_out - {11}) - (1 if 11 in lagging else 0)
        return differs(
            (numbers(one), []), (counts(one), [1, 9, 0]), (len(told), MOST), ({it for it in told if it > 20}, set(range(300, 360))),
            (counts(two), wanted), (sum(counts(three)), later),
        )


def left(shell):
    """A slot is given up by who is switched and inside of nothing patched, and goes to who waits for one."""
    with machine() as it:
        for thread in range(100, 100 + MOST):
            it.task(thread)
        it.task(900, frames=SHOW)

        def switch():
            it.task(100, state=1, frames=NEW_READ, runs=8)  # inside of the patch's own code
            it.task(101, state=1, frames=READ)  # forced
            it.task(102, state=0, frames=ELSEWHERE, runs=8)  # lags
            it.task(103, state=1, frames=ELSEWHERE, runs=8)
            it.end(104)

        def back():
            it.task(103, state=0, frames=READ, runs=9)
            it.task(100, state=1, frames=ELSEWHERE, runs=9)
        one, two, three, four = samples(shell, it, (switch, lambda: None, back))
        return differs(
            (sorted(numbers(one)), list(range(100, 100 + MOST))), (counts(one), [0, 0, 1]), (sorted(of(two, "left", "gone")), ["gone 104", "left 103"]),
            (sorted(set(numbers(two)) - {900}), [100, 101, 102, 103]), (900 in numbers(two) + numbers(three), True), (counts(three), [0, 0, 0]),
            (of(three, "left", "gone"), []), (of(four, "left", "gone"), ["left 100"]), ("task 103 103 100 S 0 9 1 0 billing" in four, True),
        )


def kernels_log(shell):
    """Of the kernel's log it has the lines on livepatching, also where a kernel names there who called. Without a time it has none."""
    with machine() as it:
        it.put("dmesg", "[    8.10][    T1] livepatch: one\n[    8.20] [   C11] livepatch: two\n[   10.30] livepatch: [ T1] three\n[10.4] other\nlivepatch: four\n")
        lines = finish(it.begin(shell, "--once"))[1].decode().splitlines()
        return differs((of(lines, "log"), ["log 8.10 livepatch: one", "log 8.20 livepatch: two", "log 10.30 livepatch: [ T1] three"]))


def left_at_end(shell):
    """Where no transition is under way, nobody is followed any longer, be it inside; in the next one, all is told anew."""
    with machine() as it:
        it.task(91)
        it.task(92)
        it.task(93)

        def over():
            it.task(91, state=-1, frames=NEW_READ, runs=8)
            it.task(92, state=-1, frames=NEW_READ)
            it.end(93)
            it.turn(0)

        def again():
            it.turn(1, 0)
            it.task(91, state=1, frames=NEW_READ, runs=8)
            it.task(92, state=1, frames=NEW_READ)
        one, two, three = samples(shell, it, (over, again))
        frames = [f"frame {it}" for it in NEW_READ]
        return differs(
            (numbers(one), [91, 92, 93]), (of(two, "task", "gone"), [f"task {it} {it} 100 S -1 {runs} 1 0 billing" for it, runs in ((91, 8), (92, 7))] + ["gone 93"]),
            (of(two, "left"), ["left 91", "left 92"]), (counts(two), [0, 0, 0]), (of(three, "left", "gone"), []),
            (of(three, "task", "frame", "frames"), ["task 91 91 100 S 1 8 1 0 billing", *frames, "task 92 92 100 S 1 7 1 0 billing", *frames]),
        )


def left_asked(shell):
    """Behind -f it is left who is inside of nothing that is asked for, and those without a slot are counted as inside."""
    with machine() as it:
        it.turn(0)
        it.symbols("t vfs_write")
        for thread in range(200, 200 + MOST + 2):
            it.task(thread, 200, state=-1, frames=("vfs_write+0x1/0x2",))
        one, two = samples(shell, it, (lambda: it.task(200, 200, state=-1, frames=ELSEWHERE, runs=8),), "-f", "vfs_write")
        return differs(
            (len(numbers(one)), MOST), (counts(one), [0, 0, 2]), (of(two, "left", "gone"), ["left 200"]), (len(set(numbers(two)) - {200}), 1),
            (counts(two), [0, 0, 1]), ("find vfs_write" in one, True),
        )


def without_livepatch(shell):
    """Behind -f, a kernel without livepatch shows who is inside too. No task of it is in transition: its state is -1."""
    with machine() as it:
        shutil.rmtree(f"{it.root}/sys/kernel/livepatch")
        it.task(91)
        it.task(92, frames=ELSEWHERE)
        for name in ("91/task/91", "92/task/92", "2/task/2", "self"):
            os.remove(f"{it.root}/proc/{name}/patch_state")
        status, out, _ = finish(it.begin(shell, "-f", "eventfd_read"))
        lines = out.decode().splitlines()
        return differs(
            (status, 0), (of(lines, "task"), ["task 91 91 100 S -1 7 1 0 billing"]), (of(lines, "frame"), [f"frame {it}" for it in READ]),
            (of(lines, "missing"), ["missing livepatch", "missing patch_state"]), (of(lines, "sample"), [SAMPLE.rstrip()]),
        )


def newer(shell):
    """What newer kernels show of each patch beside, on its line: of a kernel that has both files, one, or neither. A word that is
    none of theirs stands for no file, and so does the place of a patch whose folder is just being made or taken away."""
    with machine() as it:
        def show(name, enabled, transition, replace=None, order=None):
            folder = f"sys/kernel/livepatch/{name}"
            for file, text in (("enabled", enabled), ("transition", transition), ("replace", replace), ("stack_order", order)):
                if text is None:
                    with contextlib.suppress(FileNotFoundError):
                        os.remove(f"{it.root}/{folder}/{file}")
                else:
                    it.put(f"{folder}/{file}", f"{text}\n")

        def change(*patches):
            return lambda: [show(*patch) for patch in patches]

        show("eventfd_fix", 1, 1, 1, 2)
        show("other", 1, 0, 0, 1)
        changes = (
            change(("other", 0, 1, 0, 1)), change(("other", 0, 0, 0, 1), ("eventfd_fix", 1, 1, 1, 1)), lambda: shutil.rmtree(f"{it.root}/sys/kernel/livepatch/other"),
            change(("eventfd_fix", 1, 0, 1)), change(("eventfd_fix", 0, 1, None, 10)), change(("eventfd_fix", 1, 1, 2, 0)),
            change(("eventfd_fix", 1, 0, "$(touch made)", "a[$(touch${IFS}made)]")), change(("eventfd_fix", 1, 1)),
        )
        told = [of(sample, "patch") for sample in samples(shell, it, changes)]
        made = [name for _, _, names in os.walk(it.root) for name in names if name == "made"]
        return differs((made, []), (told, [
            ["patch eventfd_fix 1 1 1 2", "patch other 1 0 0 1"], ["patch eventfd_fix 1 1 1 2", "patch other 0 1 0 1"],
            ["patch eventfd_fix 1 1 1 1", "patch other 0 0 0 -"], ["patch eventfd_fix 1 1 1 1"],
            ["patch eventfd_fix 1 0 1 -"], ["patch eventfd_fix 0 1 - 10"], ["patch eventfd_fix 1 1"], ["patch eventfd_fix 1 0"], ["patch eventfd_fix 1 1"],
        ]))


def goes_while_read(shell):
    """A patch goes while a sample is taken: here its files are pipes, and the test puts into one that it isn't there any more."""
    with machine() as it:
        it.put("sys/kernel/livepatch/eventfd_fix/replace", "1\n")
        pipe = f"{it.root}/sys/kernel/livepatch/eventfd_fix/stack_order"
        os.mkfifo(pipe)
        process = it.begin(shell, "-c", "1")
        with open(pipe, "w", encoding="utf-8"):  # klpcap has come to it
            shutil.rmtree(f"{it.root}/sys/kernel/livepatch/eventfd_fix")
        status, out, err = finish(process)
        lines = out.decode().splitlines()
        return differs(
            ((status, err), (0, "")), (of(lines, "patch", "object", "function"), ["patch eventfd_fix 1 1 1 -"]), (lines[-1], "end count"),
            ([line.split(" ")[6] for line in of(lines, "sample")], ["1"]),
        )


def kept_through_patches(shell):
    """Whether a task is inside is judged anew where patches change: it hasn't run, and is in what the next patch changes."""
    with machine() as it:
        it.task(91, frames=("vfs_write+0x1/0x2",))

        def next_patch():
            it.put("sys/kernel/livepatch/other/vmlinux/vfs_write,1/.keep", "")
            it.put("sys/kernel/livepatch/other/vmlinux/patched", "1\n")
            it.put("sys/kernel/livepatch/other/enabled", "1\n")
            it.put("sys/kernel/livepatch/other/transition", "1\n")
            it.turn(0)
        found = samples(shell, it, (lambda: None, next_patch, lambda: it.task(91, state=1, frames=("vfs_write+0x1/0x2",))))
        return differs(([numbers(lines) for lines in found], [[], [91], [], [91]]), ([of(lines, "left") for lines in found], [[]] * 4))


def unwritten(shell):
    """It stops where it can't write, says so, and leaves nothing behind."""
    with machine() as it:
        it.task(91)
        wrong = []
        full = finish(it.begin(shell, "-i", "0.1", "/dev/full"))
        nowhere = finish(it.begin(shell, "-i", "0.1", f"{it.root}/no/where"))
        process = it.begin(shell, "-i", "0.1")
        heard = [process.stdout.readline() for _ in range(3)]
        process.stdout.close()
        err = process.stderr.read().decode()
        process.stdin.close()
        closed = (process.wait(SECONDS), b"", err)
        with open("/dev/full", "wb") as device:
            output = it.begin(shell, "-i", "0.1", stdout=device)
            output.stdin.close()
            full_output = (output.wait(SECONDS), b"", output.stderr.read().decode())
        for came, words in ((full, "klpcap: /dev/full can't be written"), (nowhere, "no/where"), (closed, "klpcap: standard output"), (full_output, "klpcap: standard")):
            if came[:2] != (1, b"") or words not in came[2] or came[2].count("\n") != 1:
                wrong.append(f"{came}, where {words} is wanted")
        return "; ".join([*wrong, *it.left_behind()]) or differs((heard[0], b"klpcap 2\n"))


def with_own(it, shell, name, script):
    """The shell, which finds this script in place of a program. None where it runs a program of this name that is its own, as
    busybox may be built to do."""
    put(f"{it.root}/bin/{name}", f"#!/bin/sh\n: >{it.root}/ran\n{script}")
    os.chmod(f"{it.root}/bin/{name}", 0o755)
    shell = ["env", f"PATH={it.root}/bin:{os.environ['PATH']}", *shell]
    subprocess.run([*shell, "-c", f"{name} 0"], stdin=subprocess.DEVNULL, stdout=subprocess.DEVNULL, stderr=subprocess.DEVNULL, check=False)
    return shell if os.path.exists(f"{it.root}/ran") else None


def sleepless(shell):
    """It says so where this machine's sleep can't wait so long, and doesn't take samples without end."""
    with machine() as it:
        shell = with_own(it, shell, "sleep", "echo sleep: no fractions >&2; exit 1\n")
        if not shell:
            return None
        status, out, err = finish(it.begin(shell, "-i", "0.5"))
        return differs(((status, err, len(of(out.decode().splitlines(), "sample"))), (1, "klpcap: sleep can't wait 0.5 s: try -i 1\n", 1)))


def stopped(shell):
    """HUP, INT and TERM end it with the lines of an end, and nothing is left behind."""
    with machine() as it:
        wrong = []
        for number in ENDING:
            process = it.begin(shell, "-i", "0.1")
            while not process.stdout.readline().startswith(b"sample "):
                pass
            process.send_signal(number)
            status, out, err = finish(process)
            if (status, err) != (0, "") or not out.decode().endswith(f"{LOG}{SYMBOLS}module eventfd_fix\nend stopped\n"):
                wrong.append(f"{number}: {status} {out[-200:]} {err}")
        return "; ".join([*wrong, *it.left_behind()]) or None


class Held:
    """A file of the machine at which its first reader is held up, until it is let go."""

    def __init__(self, it, name):
        self.path = os.path.realpath(f"{it.root}/{name}")
        os.rename(self.path, f"{self.path}.kept")
        os.mkfifo(self.path)
        self.end = os.open(self.path, os.O_RDWR)  # a shell may give up opening what nobody writes, once a child of it has ended

    def reached(self, process):
        """Waits until the process, or one that it has started, reads. Whoever comes next reads the file as it was."""
        until(lambda: any(self.path in opened for opened in files_of(process)), f"nobody reads {self.path}")
        os.rename(f"{self.path}.kept", self.path)

    def let_go(self, text=""):
        """Lets the reader go, which has read this text, if it is still there."""
        os.write(self.end, text.encode())
        os.close(self.end)


def files_of(leader):
    """Of each process of this one's group the files that it has open."""
    for folder in glob.glob("/proc/[0-9]*"):
        with contextlib.suppress(OSError):
            if os.getpgid(int(folder.rpartition("/")[2])) == leader.pid:
                yield [os.readlink(it) for it in glob.glob(f"{folder}/fd/*")]


# The signals that end a log.
ENDING = (signal.SIGHUP, signal.SIGINT, signal.SIGTERM)


def of_whom():
    """Each of them, to klpcap alone and, as Ctrl-C at a terminal does, to all that it has started."""
    return [(number, send) for number in ENDING for send in (os.kill, os.killpg)]


def torn(shell):
    """A sample is torn if a signal came while klpcap read a task for it, or while it asked who is inside for its words. Nothing is
    said of such a sample, and the log ends with it."""
    with machine() as it:
        wrong = []
        for number, send in of_whom():
            for name, words in (("proc/91/task/91/stack", []), ("proc/91/stat", [f"klpcap: {STARTS}"])):
                it.task(91)
                held = Held(it, name)
                with terminal() as (device, said), it.session(shell, "-i", WAIT, stderr=device) as process:
                    held.reached(process)
                    send(process.pid, number)
                    held.let_go()
                    lines = process.communicate(timeout=SECONDS)[0].decode().splitlines()
                    found = [line.split(" ")[6] for line in of(lines, "sample")]
                    came = (process.returncode, found, lines[-1:], said())
                    wrong.append(differs(((number, send, name, came), (number, send, name, (0, ["1"], ["end stopped"], [*words, READS])))))
        return "; ".join([*filter(None, wrong), *it.left_behind()]) or None


def torn_again(shell):
    """Ctrl-C ends the wait for a sample. The one that is taken then is whole, unless there is one more signal."""
    with machine() as it:
        wrong = []
        for number in ENDING:
            for again in (False, True):
                it.task(91)
                with it.session(shell, "-i", WAIT) as process:
                    waits_in(process)
                    held = Held(it, "proc/91/task/91/patch_state")
                    os.killpg(process.pid, number)
                    held.reached(process)
                    if again:
                        os.killpg(process.pid, number)
                    held.let_go("0\n")
                    status, out, err = finish(process)
                found = [line.split(" ")[6] for line in of(out.decode().splitlines(), "sample")]
                came = (status, err, found, out.endswith(b"\nend stopped\n"))
                wrong.append(differs(((number, again, came), (number, again, (0, "", ["0", str(int(again))], True)))))
        return "; ".join([*filter(None, wrong), *it.left_behind()]) or None


def ends_whole(shell):
    """Signals at its end, to all that it has started, cut nothing off: neither the kernel's log nor the symbols of a patch."""
    with machine() as it:
        wrong = []
        for number in ENDING:
            for name, words, end in (("dmesg", ("--once",), "count"), ("proc/kallsyms", ("-i", WAIT), "stopped")):
                it.task(91)
                text, held = read_whole(f"{it.root}/{name}").decode(), Held(it, name)
                with it.session(shell, *words) as process:
                    held.reached(process)
                    if end == "stopped":
                        waits_in(process)
                    os.killpg(process.pid, number)
                    time.sleep(0.1)  # what the signal ends is gone then
                    held.let_go(text)
                    status, out, err = finish(process)
                is_whole = out.decode().endswith(f"{LOG}{SYMBOLS}module eventfd_fix\nend {end}\n")
                wrong.append(differs(((number, name, status, err, is_whole or out[-300:]), (number, name, 0, "", True))))
        return "; ".join([*filter(None, wrong), *it.left_behind()]) or None


def asked(shell):
    """Names stand between blanks, and behind commas, unless a position does. The kernel may lack them."""
    names = {
        ("f",): "f", ("f,1",): "f", ("f.isra.0",): "f.isra.0", ("f,g",): "f g", ("f,1,g",): "f g", ("f g",): "f g", ("f,2 g,1,h",): "f g h",
        ("f", "g,1"): "f g", ("f.cold,3,g.part.0",): "f.cold g.part.0", ("f,1", "f,2"): "f", ("f\tg\nh",): "f g h", ("*",): "*", ("f,,g,",): "f g",
    }
    with machine() as it:
        it.turn(0)
        it.symbols("t f", "t g", "t h", "t *", "t f.isra.0", "t f.cold", "t g.part.0")
        wrong = []
        for words, found in names.items():
            status, out, err = finish(it.begin(shell, *[part for word in words for part in ("-f", word)]))
            told = [line.removeprefix("find ") for line in of(out.decode().splitlines(), "find")]
            wrong.append(differs(((words, told, status, err), (words, found.split(" "), 0, ""))))
        return "; ".join(filter(None, wrong)) or None


def interrupted(shell):
    """A write that the end of a child interrupts is begun again: here the first one of all, to a pipe that is full."""
    with machine() as it:
        whole = finish(it.begin(shell, "--once"))[1]
        reading, writing = os.pipe()
        os.set_blocking(writing, False)
        full = 0
        with contextlib.suppress(BlockingIOError):
            while True:
                full += os.write(writing, bytes(1))
        os.set_blocking(writing, True)
        process = it.begin(shell, "--once", stdout=writing)
        os.close(writing)
        until(lambda: "pipe_write" in read_whole(f"/proc/{process.pid}/wchan").decode(), "klpcap doesn't wait for the pipe")
        process.send_signal(signal.SIGCHLD)
        until(lambda: b"\nShdPnd:\t0000000000000000\n" in read_whole(f"/proc/{process.pid}/status"), "the signal isn't taken")
        with open(reading, "rb") as log:
            came = log.read()[full:]
        return differs((process.wait(SECONDS), 0), (came, whole))


def looked_up_again(shell):
    """Where the look for a patch's symbols is ended by a signal, klpcap looks again."""
    with machine() as it:
        it.task(91)
        whole = finish(it.begin(shell, "--once"))
        shell = with_own(it, shell, "grep", f'mkdir {it.root}/tried 2>/dev/null && kill -9 $$\nexec {shutil.which("grep")} "$@"\n')
        if not shell:
            return None
        os.rmdir(f"{it.root}/tried")
        return differs((finish(it.begin(shell, "--once")), whole), (os.path.exists(f"{it.root}/tried"), True))


def lacking(shell):
    """A name that the kernel lacks is told, with the first three that begin with it and a dot. Data isn't a function."""
    with machine() as it:
        it.symbols("t few.isra.0", "t few.isra.0", "t fewer.cold", "T many.isra.0", "t many.part.1", "W many.cold", "t many.constprop.0")
        it.symbols("d data", "w weak", "t of_module\t[m]")
        out, err = finish(it.begin(shell, "-f", "eventfd_raed,few,many,1", "-f", "1 data,1", "-f", "weak of_module few.isra.0 eventfd_read"))[1:]
        lines = ("eventfd_raed", "few; it has few.isra.0", "many; it has many.isra.0, many.part.1, many.cold", "1", "data")
        wanted = "".join(f"klpcap: the kernel has no function {line}\n" for line in lines)
        return differs((err, wanted), ("find eventfd_raed" in out.decode().splitlines(), True))


@contextlib.contextmanager
def terminal():
    """A terminal of 60 columns, and a call that returns what was said there, with TIME for each time of the day, once nothing has
    it open any longer."""
    master, slave = pty.openpty()
    termios.tcsetwinsize(slave, (24, 60))

    def said():
        os.close(slave)
        text = b""
        with contextlib.suppress(OSError):  # all that was said is read
            while True:
                text += os.read(master, 1000)
        return re.sub(r"\b\d\d:\d\d:\d\d\b", "TIME", text.decode()).replace("\r\n", "\n").splitlines()
    try:
        yield slave, said
    finally:
        os.close(master)


def at_terminal(shell):
    """At a terminal it says what is in transition, who is inside, and where the log is; elsewhere, and where standard error is
    closed, it doesn't. The log is the same."""
    with machine() as it:
        it.task(91)
        log = f"{it.root}/log"
        closed = ["sh", "-c", 'exec "$@" 2>&-', "sh", *shell]

        def recorded(kind, *words):
            came = finish(it.begin(kind, "--once", *words, log))
            with open(log, encoding="utf-8") as file:
                return came, file.read()
        unheard = recorded(shell)
        without = recorded(closed)
        full = finish(it.begin(closed, "-i", "0.1", "/dev/full"))
        with terminal() as (device, said):
            process = it.begin(shell, "--once", log, stderr=device)
            process.communicate(timeout=SECONDS)
            heard = said()
        place = f"klpcap: the log is in {log}; read it with: klpsee {log}"
        return differs(
            (process.returncode, 0), (unheard[0], (0, b"", "")), (unheard[1].endswith("end count\n"), True), (without, unheard),
            (full, (1, b"", "")), (heard, [f"klpcap: {STARTS}", f"klpcap: at TIME billing[91] {ASLEEP}", READS, place]),
        )


def stopped_at_terminal(shell):
    """Ctrl-C at a terminal ends the log, and where it is is said."""
    with machine() as it, terminal() as (device, said):
        it.turn(0)
        log = f"{it.root}/log"
        process = it.begin(shell, "-i", "0.1", log, stderr=device)
        while not os.path.exists(log) or b"\nsample " not in read_whole(log):
            time.sleep(0.01)
        process.send_signal(signal.SIGINT)
        process.communicate(timeout=SECONDS)
        return differs(
            (said(), ["klpcap: waits for a transition; Ctrl-C ends it", READS, f"klpcap: the log is in {log}; read it with: klpsee {log}"]),
            (read_whole(log).endswith(b"\nend stopped\n"), True),
        )


def unnamed(shell):
    """Where standard output is a terminal, too, no log is written unless a file is named, which is said. Where it goes to a file,
    that one is named, and where to a pipe, none."""
    with machine() as it:
        it.task(91)
        log, spoken = f"{it.root}/log", [f"klpcap: {STARTS}", f"klpcap: at TIME billing[91] {ASLEEP}"]
        place = f"klpcap: the log is in {log}; read it with: klpsee {log}"
        none = "klpcap: no log is written to a terminal: name a file for it, or ask: klpcap --once | klpsee -"

        def told(*words, **how):
            with terminal() as (device, said):
                streams = {name: device if to is None else to for name, to in how.items()}
                status = it.begin(shell, "--once", *words, **streams).wait(SECONDS)
                return status, said()
        with open(log, "wb") as file:
            redirected = told(stdout=file, stderr=None)
        kept = read_whole(log)
        return differs(
            (told(stdout=None, stderr=None), (0, [none, *spoken])), (told(log, stdout=None, stderr=None), (0, [*spoken, READS, place])),
            (read_whole(log), kept), (redirected, (0, [*spoken, READS, place])), (kept.endswith(b"\nend count\n"), True),
            (told(stdout=subprocess.DEVNULL, stderr=None), (0, [*spoken, READS])),
            (told(stdout=None, stderr=subprocess.DEVNULL), (0, kept.decode().splitlines())),
        )


def timed(shell):
    """The time of the day that it says is the one at which it looked, and what it saw first stays so."""
    with machine() as it:
        it.task(91)
        master, slave = pty.openpty()
        with open(master, "rb", buffering=0) as heard:
            before = int(time.time())
            status = it.begin(shell, "--once", stderr=slave).wait(SECONDS)
            after = time.time()
            times = re.findall(rb"\b\d\d:\d\d:\d\d\b", heard.read(1000))
        os.close(slave)
        possible = {time.strftime("%H:%M:%S", time.localtime(at)).encode() for at in range(before, int(after) + 1)}
        return differs((status, 0), (len(times), 2), (set(times) <= possible, True))


def read_whole(path):
    """The bytes of a file."""
    with open(path, "rb") as it:
        return it.read()


def crowd(it, process, many, name="nginx", **how):
    """Puts a process with so many threads there."""
    for thread in range(process, process + many):
        it.task(thread, process, name=name, **how)


def named_groups(it):
    """Ten processes, of one to ten threads, in one function."""
    for many in range(1, 11):
        crowd(it, 100 * many, many, f"p{many}")


def next_patch(it):
    """Another patch is in transition in place of the first."""
    it.put("sys/kernel/livepatch/other/vmlinux/eventfd_read,1/.keep", "")
    it.put("sys/kernel/livepatch/other/vmlinux/patched", "1\n")
    it.put("sys/kernel/livepatch/other/enabled", "1\n")
    it.put("sys/kernel/livepatch/other/transition", "1\n")
    it.turn(0)


def two_processes(it):
    """Threads of one process asleep, another task asleep for good, one that lags elsewhere, and one that is switched."""
    crowd(it, 500, 3)
    it.task(91, letter="D", name="indexer")
    it.task(92, frames=ELSEWHERE)
    it.task(93, state=1)


def fewer(it):
    """Of those one thread is left inside, that isn't its process's first."""
    it.end(91)
    it.task(92, state=1)
    it.task(500, name="nginx", state=1, frames=(), runs=9)
    it.end(500, 501)


def logged_lines(lines, it):
    """The kernel's log has these lines."""
    it.put("dmesg", "".join(f"[    {line}\n" for line in lines))


def unlink(*names):
    """Takes files of the machine away."""
    return lambda it: [os.remove(f"{it.root}/proc/self/{name}") for name in names]


def both(*acts):
    """All of these changes."""
    return lambda it: [act(it) for act in acts]


ASLEEP = "asleep (S) in eventfd_read"
READS = "klpcap: reads the functions' addresses for the log"
STARTS, STARTED = (f"eventfd_fix is in transition: enabling since TIME{it}" for it in (" or before", ""))
HELD = f"nginx[500], 3 threads {ASLEEP}; indexer[91] asleep (D) in eventfd_read; 1 lag elsewhere"
# What is said at a terminal: the name of the test, the options, what the machine is at first, the time of each further sample
# and what has changed until then, and what is said of them all.
SPOKEN = (
    ("who is inside", (), two_processes, ((13.05, fewer),), (STARTS, f"at TIME {HELD}", f"at TIME nginx[500], thread 502 {ASLEEP}")),
    (
        "a line a second", (), lambda it: it.task(91), ((10.95, lambda it: it.task(92)), (11.00, lambda it: it.task(94))),
        (STARTS, f"at TIME billing[91] {ASLEEP}", f"at TIME billing[91] {ASLEEP}; billing[92] {ASLEEP}; billing[94] {ASLEEP}"),
    ),
    ("nothing new", (), lambda it: it.task(91), ((12.0, lambda it: it.task(93, state=1)), (14.0, lambda it: None)), (STARTS, f"at TIME billing[91] {ASLEEP}")),
    (
        "a start", (), both(lambda it: it.turn(0), lambda it: it.task(91)), ((20.0, lambda it: it.turn(1)), (25.0, lambda it: it.task(91, letter="D")), (26.0, lambda it: it.turn(0))),
        (STARTED, f"at TIME billing[91] {ASLEEP}", "at TIME billing[91] asleep (D) in eventfd_read", "at TIME eventfd_fix is no longer in transition"),
    ),
    (
        "a reversal", (), lambda it: it.task(91), ((22.0, both(lambda it: it.turn(1, 0), lambda it: it.task(91, state=1))), (24.0, lambda it: it.task(92, state=1))),
        (
            STARTS, f"at TIME billing[91] {ASLEEP}", "eventfd_fix is in transition: disabling since TIME", f"at TIME billing[91] {ASLEEP}; 1 lag elsewhere",
            f"at TIME billing[91] {ASLEEP}; billing[92] {ASLEEP}; 1 lag elsewhere",
        ),
    ),
    (
        "another patch", (), lambda it: it.task(91), ((22.0, next_patch),),
        (STARTS, f"at TIME billing[91] {ASLEEP}", "other is in transition: enabling since TIME", f"at TIME billing[91] {ASLEEP}"),
    ),
    *(
        (f"a start by the kernel's log, {name}", (), both(lambda it: it.task(91), functools.partial(logged_lines, lines)), (), (STARTS + since, f"at TIME billing[91] {ASLEEP}"))
        for name, lines, since in (
            ("seven seconds ago", ("3.50] livepatch: 'eventfd_fix': starting patching transition",), "; by the kernel's log for some 7 s"),
            ("and its reversal", ("1.50][    T7] livepatch: 'eventfd_fix': starting unpatching transition", "7.25] livepatch: 'eventfd_fix': reversing transition from unpatching to patching"), "; by the kernel's log for some 3 s"),
            ("just now", ("9.99] livepatch: 'eventfd_fix': starting patching transition",), ""),
            ("of another patch", ("3.50] livepatch: 'eventfd_fix2': starting patching transition",), ""),
            ("which is complete", ("3.50] livepatch: 'eventfd_fix': starting patching transition", "4.50] livepatch: 'eventfd_fix': completing patching transition"), ""),
        )
    ),
    ("nobody", (), lambda it: it.task(91, state=1), (), (STARTS, "at TIME no task that it can see lags")),
    ("one that runs", (), lambda it: it.task(91, letter="R"), (), (STARTS, "at TIME billing[91] runs in eventfd_read")),
    (
        "one that may have run", (), both(lambda it: it.task(91), lambda it: os.remove(f"{it.root}/proc/91/task/91/schedstat")), (),
        (STARTS, "at TIME billing[91] seen in eventfd_read"),
    ),
    (
        "more groups than it names", (), named_groups, (),
        (STARTS, f"at TIME {'; '.join(f'p{many}[{100 * many}], {many} threads {ASLEEP}' for many in range(10, 2, -1))}; 3 more inside of patched functions"),
    ),
    (
        "more tasks than slots", (), both(lambda it: crowd(it, 100, 70), lambda it: crowd(it, 900, 2, frames=ELSEWHERE)), (),
        (STARTS, f"at TIME nginx[100], 64 threads {ASLEEP}; 6 more inside of patched functions; 2 lag elsewhere"),
    ),
    (
        "behind -f", ("-f", "eventfd_read"), both(lambda it: crowd(it, 100, 70), lambda it: crowd(it, 100, 3, state=1)), (),
        (STARTS, f"at TIME nginx[100], 61 threads {ASLEEP}; 6 more inside of patched functions or those asked for"),
    ),
    (
        "behind -f, before a patch", ("-f", "eventfd_read"), both(lambda it: it.turn(0), lambda it: it.task(91, state=-1), lambda it: it.task(92, state=-1, frames=ELSEWHERE)),
        ((12.0, lambda it: it.end(91)),), (f"at TIME billing[91] {ASLEEP}", "at TIME no task that it can see is inside"),
    ),
    ("a name", (), lambda it: it.task(91, name="\x9b2J\x1b[2J\u202e"), (), (STARTS, f"at TIME ??2J?[2J???[91] {ASLEEP}")),
    (
        "nothing readable", (), both(lambda it: it.task(91), unlink("stack")), (),
        ("ROOT/proc/self/stack isn't there: the kernel needs CONFIG_STACKTRACE", STARTS, "at TIME who is inside could not be read"),
    ),
    (
        "a kernel without livepatch, behind -f", ("-f", "eventfd_read"),
        both(lambda it: it.task(91, state=-1), unlink("patch_state"), lambda it: shutil.rmtree(f"{it.root}/sys/kernel/livepatch")), (), (
            "ROOT/sys/kernel/livepatch isn't there: the kernel needs CONFIG_LIVEPATCH",
            "ROOT/proc/self/patch_state isn't there: the kernel needs CONFIG_LIVEPATCH", f"at TIME billing[91] {ASLEEP}",
        ),
    ),
    (
        "a command for a time", (), both(lambda it: it.task(91), lambda it: it.put("proc/uptime", "a[$(touch${IFS}made)] 1\n")), (),
        (STARTS, f"at TIME billing[91] {ASLEEP}"),
    ),
)


def spoken(options, first, changes, lines, shell):
    """At a terminal it says these lines, whole, however many columns there are, and no command runs."""
    def change(seconds, act):
        it.put("proc/uptime", f"{seconds:.2f} 1.00\n")
        act(it)
    with machine() as it, terminal() as (device, said):
        change(10.10, first)
        samples(shell, it, [functools.partial(change, *step) for step in changes], *options, stderr=device)
        made = [path for path, _, names in os.walk(it.root) for name in names if name == "made"]
        wanted = [f"klpcap: {line.replace('ROOT', it.root)}" for line in lines]
        return differs((said(), [*wanted, READS]), (made + [name for name in os.listdir(EXAMPLES) if name == "made"], []))


def waiting(shell):
    """At a terminal it says that it waits, once, then that a transition starts, and that it is over, and ends with it."""
    with machine() as it, terminal() as (device, said):
        it.turn(0)
        process = it.begin(shell, "-i", WAIT, stderr=device)
        for turn in (None, 1, 0, None):  # one sample more shows what the transition left
            line = b""
            while not line.startswith(b"sample "):
                line = process.stdout.readline()
            sleeper = waits_in(process)
            if turn is not None:
                it.turn(turn)
            os.kill(sleeper, signal.SIGPIPE)
        out = process.communicate(timeout=SECONDS)[0]
        wanted = ("waits for a transition; Ctrl-C ends it", STARTED, "at TIME no task that it can see lags", "at TIME eventfd_fix is no longer in transition")
        return differs((said(), [*(f"klpcap: {line}" for line in wanted), READS]), (out.endswith(b"\nend over\n"), True))


def unreadable(shell):
    """What it can't read is told always, and what to do: livepatch, what only root may read, and what the kernel doesn't have."""
    with machine() as it:
        shutil.rmtree(f"{it.root}/sys/kernel/livepatch")
        it.put("proc/self/stack", "")  # root may open any file, so an empty one stands for one that can't be read
        os.remove(f"{it.root}/proc/self/schedstat")
        status, out, err = finish(it.begin(shell, "--once"))
        lines = (
            "sys/kernel/livepatch isn't there: the kernel needs CONFIG_LIVEPATCH", "proc/self/stack can't be read: are you root?",
            "proc/self/schedstat isn't there: the kernel needs CONFIG_SCHEDSTATS",
        )
        return differs(
            (status, 0), (err, "".join(f"klpcap: {it.root}/{line}\n" for line in lines)),
            (of(out.decode().splitlines(), "missing"), ["missing livepatch", "missing stack", "missing schedstat"]),
        )


def helped(shell):
    """Help and version go to standard output, and other words are refused."""
    with machine() as it:
        help_, version, refused, odd = (finish(it.begin(shell, word)) for word in ("--help", "--version", "-x", "-c0"))
        with open(f"{TOP}/VERSION", encoding="utf-8") as file:
            wanted = f"klpcap {file.read().strip()} (a script, of which nothing is proved)\n"
        first = help_[1].decode().partition("\n")[0]
        is_whole = all(f"\n{word}" in help_[1].decode() for word in ("  -i SECONDS ", "Exit status: ", "Example: "))
        return differs(
            (help_[::2], (0, "")), (is_whole, True), (version, (0, wanted.encode(), "")), (refused, (2, b"", f"usage: {first}\n")),
            (odd[:2], (2, b"")), (max(map(len, help_[1].decode().splitlines())) <= 84, True),
        )


def linted():
    """shellcheck has nothing to say."""
    came = subprocess.run(["shellcheck", f"{TOP}/klpcap"], capture_output=True, text=True, check=False)
    return came.stdout + came.stderr or None


RUN = (
    ("", captured), (", names with line feeds", named), (", commands for names", harmless), (", a bare address", zeroed), (", into a file", logged),
    (", to the end", ended), (", its head", headed), (", names of processes", processes), (", a process's number again", processes_again),
    (", more tasks than slots", chosen), (", those that merely lag", preferred), (", slots given up", left), (", no transition any more", left_at_end),
    (", slots behind -f", left_asked), (", no livepatch", without_livepatch), (", files of newer kernels", newer), (", a patch that goes meanwhile", goes_while_read), (", one patch behind another", kept_through_patches), (", what can't be written", unwritten),
    (", the kernel's log", kernels_log), (", a sleep that takes no fractions", sleepless), (", signals", stopped), (", signals in a sample", torn), (", signals between samples", torn_again), (", signals at the end", ends_whole), (", names behind -f", asked), (", names that the kernel lacks", lacking), (", a write that a signal interrupts", interrupted), (", a look for symbols that a signal ends", looked_up_again), (", at a terminal", at_terminal), (", waits at a terminal", waiting),
    (", Ctrl-C at a terminal", stopped_at_terminal), (", no file named at a terminal", unnamed), (", the time of the day", timed), *((f", at a terminal: {name}", functools.partial(spoken, *scene)) for name, *scene in SPOKEN),
    (", what can't be read", unreadable), (", help and version", helped),
)


def cases():
    there = [shell for shell in SHELLS if shutil.which(shell[0])]
    lint = [("klpcap, by shellcheck", linted)] if shutil.which("shellcheck") else []
    return [(f"klpcap under {shell[0]}{what}", functools.partial(run, shell)) for shell in there for what, run in RUN] + lint
