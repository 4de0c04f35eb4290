"""klpsee --catalog: what a log doesn't show of its patches is taken from a catalog.

The log is a real one, in which the new function has another name than klpsee would know by itself.
"""
import os
import tempfile

from testing.capture import differs
from testing.run import built_program, finish, read, start

# In the log the new function is fixed_eventfd_read, which isn't eventfd_read behind one of the prefixes that klpsee knows.
LOG = read("captures/disable.log").replace(b"livepatch_eventfd_read", b"fixed_eventfd_read")
TOLD = read("captures/disable.output").replace(b"livepatch_eventfd_read", b"fixed_eventfd_read")
# Of a patch with these lines behind its name.
CATALOG = """handler ffffffff81000000
object vmlinux
symbol cmdline_proc_show ffffffff81001000 0f1f440000
symbol eventfd_read ffffffff81002000 0f1f440000
patch eventfd_fix{}
target vmlinux
func .klp.sym.vmlinux.cmdline_proc_show,0 livepatch_cmdline_proc_show ffffffffc0001000
func .klp.sym.vmlinux.eventfd_read,0 fixed_eventfd_read ffffffffc0002000
"""
KNOWN = CATALOG.format("")
BY = (b"by my.catalog: the names of new functions, system states and callbacks, and which patches are cumulative if the log "
      b"doesn't say so\n")
HELD = b"held it up, asleep in fixed_eventfd_read"
NEVER_BY_NAME = b"may have held it up: asleep"
BEHIND = "state 7 2\ntarget vmlinux\n"
CALLBACKS = "pre 0 alloc:1:9:5\n#? guessed klp_shadow_get_or_alloc with constant words\npost 0\n#? unknown it calls kmalloc\n"


def seen(*words, catalog=KNOWN, log=LOG, files=()):
    """The status, both outputs, and what these files of the run have, of klpsee with these words over the log."""
    with tempfile.TemporaryDirectory(prefix="known-") as room:
        for name, text in (("a.log", log), ("my.catalog", catalog.encode())):
            with open(f"{room}/{name}", "wb") as it:
                it.write(text)
        came = finish(start(["klpsee", *words], room, executable=built_program()))
        return (*came, *(read_whole(f"{room}/{name}") for name in files))


def read_whole(path):
    """The text of a file, or no text if it isn't there."""
    if not os.path.exists(path):
        return ""
    with open(path, encoding="utf-8") as it:
        return it.read()


def unknown():
    """Without a catalog, the function isn't placed: nobody is said to hold the transition up."""
    status, out, err = seen("a.log")
    return differs((status, 0), (err, ""), (HELD in out, False), (out.count(NEVER_BY_NAME), 2))


def known():
    """With one, the answer is that of the log in which klpsee knows the name, and says what it took."""
    status, out, err = seen("--catalog", "my.catalog", "a.log")
    lines = TOLD.splitlines(keepends=True)
    return differs((status, 0), (err, ""), (out, b"".join([*lines[:3], BY, *lines[3:]])))


def cut_off():
    """A log that was cut off before its symbols: the catalog has the names."""
    log = LOG[:LOG.index(b"symbol ")]
    without, with_one = seen("a.log", log=log), seen("a.log", "--catalog", "my.catalog", log=log)
    return differs((HELD in without[1], False), (with_one[0], 0), (with_one[1].count(HELD), 2))


def followed():
    """A log that is followed has no symbols until it ends."""
    without, with_one = seen("--follow", "a.log"), seen("--follow", "a.log", "--catalog", "my.catalog")
    return differs((b"holds it up" in without[1], False), (with_one[0], 0), (with_one[1].count(b" holds it up, asleep (S) in fixed_eventfd_read\n"), 2))


def json():
    """For programs, the answer names the catalog."""
    out = seen("--json", "--catalog", "my.catalog", "a.log")[1]
    return differs((b'"catalog": "my.catalog"' in out, True), (b'"catalog": null' in seen("--json", "a.log")[1], True))


def written(lines, wanted, absent=()):
    """The run's catalog has these lines, and not those."""
    def test():
        status, _, err, text = seen("-o", ".", "a.log", "--catalog", "my.catalog", catalog=lines, files=("run.catalog",))
        missing = [it for it in wanted if it not in text]
        return differs((status, 0), (err, ""), (missing, []), ([it for it in absent if it in text], []))
    return test


def other_patch():
    """A patch of the log that the catalog doesn't have is named, and the log speaks for itself."""
    status, out, err = seen("a.log", "--catalog", "my.catalog", catalog=KNOWN.replace("eventfd_fix", "other_fix"))
    return differs((status, 0), (err, "klpsee: my.catalog: it has no patch eventfd_fix, which is in the log\n"), (out.count(NEVER_BY_NAME), 2))


def faulty():
    """A faulty line of the catalog is told as for other programs."""
    status, out, err = seen("a.log", "--catalog", "my.catalog", catalog=KNOWN.replace("func .klp.sym.vmlinux.eventfd", "fun .klp.sym.vmlinux.eventfd"))
    return differs((status, 1), (out, b""), (err.startswith("klpsee: my.catalog: line 8: "), True))


def lacking():
    """A catalog that isn't there is named."""
    status, out, err = seen("a.log", "--catalog", "none.catalog")
    return differs((status, 1), (out, b""), (err.startswith("klpsee: none.catalog: "), True))


def twice_standard_input():
    """Log and catalog can't both be standard input."""
    status, out, _ = seen("-", "--catalog", "-")
    return differs((status, 1), (out, b""))


def cases():
    marked = CATALOG.format("\n#? unknown its code sets whether it replaces patches")
    return [
        ("klpsee: a new function of another name", unknown), ("klpsee --catalog: names", known), ("klpsee --catalog: a log that was cut off", cut_off),
        ("klpsee --catalog: a log that is followed", followed), ("klpsee --catalog: for programs", json),
        ("klpsee --catalog: states and callbacks", written(KNOWN.replace("target vmlinux\n", BEHIND) + CALLBACKS, ("\npatch eventfd_fix\nstate 7 2\ntarget vmlinux\nfunc ", f"\n{CALLBACKS}"))),
        ("klpsee --catalog: a cumulative patch", written(CATALOG.format(" replace"), ("\npatch eventfd_fix replace\n",))),
        ("klpsee --catalog: one of which it isn't known", written(marked.replace("eventfd_fix\n", "eventfd_fix replace\n"), ("\npatch eventfd_fix\n",), ("replace",))),
        ("klpsee --catalog: another patch", other_patch), ("klpsee --catalog: a faulty line", faulty), ("klpsee --catalog: no such file", lacking),
        ("klpsee --catalog: standard input twice", twice_standard_input),
    ]
