"""How a test runs a program, and what it holds the run against."""
import os
import subprocess

TOP = os.path.dirname(os.path.dirname(os.path.dirname(os.path.abspath(__file__))))
EXAMPLES = f"{TOP}/examples"
PROGRAMS = ("klpsim", "klpwatch", "klppage", "klplint", "klpsee", "klpko")
# What ./klpsim says on standard error of a program that isn't proved, beside what the program says itself.
DOOR = (": what follows isn't proved;", ": it is compiled first,", ": it is still being compiled,")
# Whether the program is the one that the gate has built.
IS_BUILT = False
# How long a run may take, and one that compiles first, on a machine that does much else.
SECONDS, COMPILE_SECONDS = 300, 3600


def own(err):
    """What the program itself wrote to standard error."""
    return "".join(line for line in err.splitlines(keepends=True) if not any(it in line for it in DOOR))


def finish(process, given=b"", seconds=SECONDS):
    """The status, the output and the standard error of a process over this input. Where it isn't done in time it is told to
    stop, so that it can end what it started."""
    try:
        out, err = process.communicate(given, timeout=seconds)
    except subprocess.TimeoutExpired:
        process.terminate()
        process.communicate()
        raise
    return process.returncode, out, err.decode(errors="replace")


def start(words, where=EXAMPLES, **how):
    """Starts a process with pipes for its streams."""
    pipes = {"stdin": subprocess.PIPE, "stdout": subprocess.PIPE, "stderr": subprocess.PIPE}
    return subprocess.Popen(words, cwd=where, **{**pipes, **how})


def run(words, given=b"", seconds=SECONDS):
    """The status and the output of the program that the first word names, and what it wrote to standard error itself."""
    status, out, err = finish(start([f"{TOP}/{words[0]}", *words[1:]]), given, seconds)
    return status, out, own(err)


def built_program():
    """The one program that all six are, each where it is called so."""
    return f"{TOP}/crates/klpsim/out/klpsim" if IS_BUILT else f"{TOP}/out/unproved/klpsim"


def run_itself(words, given=b"", seconds=SECONDS):
    """The same of the program that its script has built or compiled: what is called a thousand times takes no script."""
    return finish(start(words, executable=built_program()), given, seconds)


def fault(came, wanted):
    """What is wrong with a run that came to this status, output and standard error, or None."""
    for part, is_now, was in zip(("status", "output", "standard error"), came, wanted):
        if is_now != was:
            return f"{part} {str(is_now)[:300]}, where {str(was)[:300]} is wanted"
    return None


def read(name):
    """The bytes of a file of the examples."""
    with open(f"{EXAMPLES}/{name}", "rb") as it:
        return it.read()
