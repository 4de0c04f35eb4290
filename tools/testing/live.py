"""Want of memory in starts of task threads: each allocation of klp_live_tests' tests of the book is refused in its turn."""
import collections
import os
import shutil
import subprocess
import tempfile

import testing.run
from testing.run import SECONDS, TOP

PROGRAM = f"{TOP}/crates/klp_live_tests/out/klp_live_tests"
# What is printed where a start, or a pass that submits an event, gets no memory.
WANTS = ("no start", "NoMemory")
# Words of lines that are printed where a refusal left something behind, or where another cause is told than want of memory.
WRONG = ("another", "not as before", "taken back: false", "no end", "NoPlace")
# How a boot that gets no memory ends.
BOOTLESS = (b"NoMemory", b"AllocError", b"OutOfMemory")


def tried(room, number):
    """What the program gives where this allocation is refused, and how many it asks for. None is refused for 0."""
    memory = {"LD_PRELOAD": f"{room}/refused.so", "FAIL_AT": str(number), "FAIL_SAYS": f"{room}/says"}
    came = subprocess.run([PROGRAM, "book"], env={**os.environ, **memory}, capture_output=True, timeout=SECONDS, check=False)
    with open(f"{room}/says", encoding="utf-8") as says:
        return came.returncode, came.stdout, came.stderr, int(says.read())


def outcome(came, whole):
    """In a word what became of a run, beside the output of the one with memory."""
    status, out, err, _ = came
    lines = out.decode().splitlines()
    if any(word in line for line in lines for word in WRONG):
        return f"wrong: {lines}"
    if (status, out, err) == (0, whole, b""):
        return "same"
    if status == 1 and whole.startswith(out) and any(word in err for word in BOOTLESS):
        return "no boot"
    return next((word for word in WANTS if status == 0 and word in lines), f"wrong: {status} {lines} {err}")


def refused():
    """A start is never said to lack a place for a reader where it lacks memory, and each refused call changes nothing."""
    with tempfile.TemporaryDirectory(prefix="refused-") as room:
        made = subprocess.run(["cc", "-O1", "-shared", "-fPIC", "-o", f"{room}/refused.so", f"{TOP}/tools/testing/refused.c", "-ldl"],
                              capture_output=True, text=True, check=False)
        if made.returncode:
            return made.stderr
        status, whole, err, count = tried(room, 0)
        with open(f"{TOP}/crates/klp_live_tests/stdout", "rb") as stored:
            is_stored = whole and stored.read().startswith(whole)
        if (status, err) != (0, b"") or not is_stored:
            return f"with memory: {status} {whole} {err}"
        came = collections.Counter(outcome(tried(room, number), whole) for number in range(1, count + 1))
        wrong = [word for word in came if word.startswith("wrong")]
        return wrong or [f"{word} never comes" for word in ("same", "no boot", *WANTS) if not came[word]]


def cases():
    if not testing.run.IS_BUILT or not shutil.which("cc"):
        print("live: not tried, since it takes the built tests of threads, and a compiler of C", flush=True)
        return []
    return [("a start without memory", refused)]
