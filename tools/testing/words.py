"""The words behind a program's name: which are refused, which ask for help, and which mean the same."""
import functools
import os
import re
import tempfile

from testing.run import TOP, built_program, fault, finish, read, run, start

# How the programs are called. The synopsis of each man page says the same.
USAGE = {
    "klpwatch": "klpwatch CATALOG TRACE",
    "klppage": "klppage CATALOG SCRIPT|--trace TRACE [NAMES]",
    "klplint": "klplint [--json] CATALOG [SCRIPT]",
    "klpsee": "klpsee [-o FOLDER] [--json|--follow] [--catalog FILE] LOG|[--metrics] LOG..",
    "klpko": "klpko [--btf FILE] [--kernel IMAGE|[--symbols FILE] [--traceable FILE]] [--module FILE].. [--cut] PATCH..|--list|--matrix [--json] PATCH..",
}
REFUSED = {
    "klpsim": [
        ("-h",), ("--help",), ("help",), ("-V",), ("--version",), ("",), ("con",), ("k.catalog",), ("--help", "console"), ("console", "--help"),
        ("console", "k.catalog", "-x"), ("console", "k.catalog", "k1.catalog"), ("live",), ("live", "k1.catalog"),
        ("live", "k1.catalog", "live_two_versions.steps", "x"), ("live", "-h", "x"), (b"\xff",),
    ],
    "klpwatch": [(), ("x",), ("x", "y", "z"), ("x", "-y"), ("-x", "y"), ("x", "y", "-v"), ("--", "x"), (b"\xff", "y")],
    "klppage": [
        (), ("x",), ("x", "y", "z", "w"), ("x", "-y"), ("x", "--trace"), ("--trace", "y"), ("x", "--trace", "-y"), ("x", "--trace", "y", "z", "w"),
        ("x", "--trace", "y", "--trace", "y"), ("x", b"\xff"),
    ],
    "klplint": [(), ("--json",), ("x", "y", "z"), ("x", "-y"), ("--json", "--json", "x"), ("--json=x", "x"), ("x", "-o", "y"), (b"\xff",)],
    "klpsee": [
        (), ("x", "-o"), ("x", "-o", "-y"), ("x", "-y"), ("-o", "y"), ("x", "-o", "y", "-o", "z"), ("x", "--json", "--json"),
        ("x", "-o", "y", "z"), ("x", "y", "--json"), ("x", "y", "--follow"), ("x", "--follow", "--json"), ("x", "--follow", "-o", "y"),
        ("x", "--follow", "--metrics"), ("x", "--metrics", "--json"), ("x", "--metrics", "-o", "y"), ("--metrics",), (b"\xff",),
        ("x", "--catalog"), ("--catalog", "y"), ("x", "--catalog", "y", "--catalog", "y"), ("x", "--follow", "--json", "--catalog", "y"),
    ],
    "klpko": [
        (), ("--list",), ("--matrix", "--json"), ("x", "--json"), ("--list", "--matrix", "x"), ("--list", "--list", "x"), ("--list=x", "x"),
        ("--list", "x", "-o", "y"), ("--list", b"\xff"), ("--symbols", "x"), ("x", "--symbols"), ("--symbols", "y", "--list", "x"),
        ("--matrix", "x", "--symbols", "y"), ("--symbols", "y", "--json", "x"), ("--symbols", "y", "--symbols", "y", "x"),
        ("--module", "y", "--list", "x"), ("--matrix", "x", "--traceable", "y"), ("--module", "y"), ("x", "--module"), ("x", "--traceable"),
        ("--traceable", "y", "--traceable", "y", "x"), ("--module", "y", "--json", "x"), ("--cut",), ("--cut", "--list", "x"),
        ("--matrix", "--cut", "x"), ("--cut", "--json", "x"), ("--cut", "x", "--cut"), ("--btf", "x"), ("x", "--btf"), ("--list", "--btf", "y"),
        ("--btf", "y", "--btf", "y", "x"), ("--kernel", "y"), ("x", "--kernel"),
        ("--kernel", "y", "--symbols", "z", "x"), ("--kernel", "y", "x", "--traceable", "z"), ("--kernel", "y", "--list", "x"),
        ("--matrix", "x", "--kernel", "y"), ("--kernel", "y", "--json", "x"), ("--kernel", "y", "--kernel", "y", "x"),
    ],
}
# Words that mean the same, in each line those in front.
ALIKE = {
    "klpwatch": [(("k.catalog", "watched.trace"), ("--", "k.catalog", "watched.trace"))],
    "klppage": [
        (("pages/capture.catalog", "pages/capture.script", "pages/capture.names"), ("--", "pages/capture.catalog", "pages/capture.script", "pages/capture.names")),
        (
            ("pages/kernel.catalog", "--trace", "pages/kernel.trace", "pages/kernel.names"),
            ("--trace", "pages/kernel.trace", "pages/kernel.catalog", "pages/kernel.names"),
            ("pages/kernel.catalog", "pages/kernel.names", "--trace=pages/kernel.trace"),
        ),
        (("pages/kernel.catalog", "--trace", "pages/kernel.trace"), ("--trace", "pages/kernel.trace", "pages/kernel.catalog")),
    ],
    "klplint": [
        (("--json", "lint/clean.catalog"), ("lint/clean.catalog", "--json")),
        (("--json", "lint/trace.catalog", "lint/trace.script"), ("lint/trace.catalog", "--json", "lint/trace.script")),
    ],
    "klpsee": [
        (("captures/enable.log", "--json"), ("--json", "captures/enable.log")),
        (("--catalog", "k.catalog", "captures/enable.log"), ("captures/enable.log", "--catalog", "k.catalog"), ("--catalog=k.catalog", "captures/enable.log")),
    ],
    "klpko": [(
        ("--matrix", "--json", "modules/two_objects.ko", "modules/cumulative.ko"), ("modules/two_objects.ko", "--json", "modules/cumulative.ko", "--matrix"),
        ("--json", "--matrix", "--", "modules/two_objects.ko", "modules/cumulative.ko"),
    )],
}
# By which path one program is which.
CALLED = {
    "klpsim": ("klpsim", "/usr/bin/klpsim", "program", "", "an_klpsee", "klpsee/", "klpsee.old", "klpse"),
    "klpwatch": ("klpwatch", "./klpwatch", "/a folder/klpwatch"),
    "klppage": ("klppage", "/klppage"),
    "klplint": ("klplint", "klpsee/klplint"),
    "klpsee": ("klpsee", "../klpsee"),
    "klpko": ("klpko", "a.ko/klpko"),
}


@functools.lru_cache(maxsize=None)
def klpsim_usage():
    """What stands behind `klpsim: usage`: how it is called, as its man page says, its exit statuses, an example and its version."""
    err = finish(start(["klpsim", "-x"], executable=built_program()))[2]
    first, _, rest = err.partition("\n")
    assert first == "klpsim: usage" and f"Usage: klpsim [console [CATALOG]]\n{7 * ' '}klpsim live CATALOG STEPS\n" in rest, err
    assert all(it in rest for it in ("\nExit status:\n  0  ", "\nExample:\n  printf ", f"\nklpsim {version()} (")), err
    return rest


def version():
    with open(f"{TOP}/VERSION", encoding="utf-8") as it:
        return it.read().strip()


def said(name):
    """What a program says on standard error of words that it refuses."""
    return f"{name}: usage: {USAGE[name]} (man {name})\n" if name in USAGE else f"{name}: usage\n{klpsim_usage()}"


def refused(name, words):
    return fault(run([name, *words]), (2, b"", said(name)))


def helped(name, words):
    """Help is on standard output, and has the usage, the exit statuses of the man page, an example that works, and no long line."""
    status, out, err = run([name, *words])
    out = out.decode()
    usage = re.search(r"^Usage: (.*)$", out, re.M)
    statuses = re.findall(r"^  (\d)  ", out.partition("\nExit status:\n")[2], re.M)
    long = [line for line in out.splitlines() if len(line) > 80]
    return fault((status, usage and usage[1], err, statuses, long), (0, USAGE[name], "", statuses_of(name), []))


def statuses_of(name):
    """The exit statuses that a man page lists."""
    with open(f"{TOP}/man/{name}.1", encoding="utf-8") as it:
        return re.findall(r"^\.B (\d)$", re.search(r"^\.SH EXIT STATUS\n(.*?)^\.SH", it.read(), re.M | re.S)[1], re.M)


def example(name):
    """The example of a program's help answers, where the repository is."""
    command = re.search(r"\nExamples?:\n  (.*)\n", run([name, "--help"])[1].decode())[1]
    if name == "klpsee":
        return None if command == "klpcap --once | klpsee -" else command
    status, out, err = finish(start(["bash", "-c", command.replace(name, f"./{name}").replace(">page.html", "")], TOP))
    return None if status in (0, 3) and out else f"{command}: {status} {err}"


def versioned(name, word):
    """The version is on standard output: of the program itself, and of a checkout with the revision, the kit and whether it is proved."""
    own = finish(start([name, word], executable=built_program()))
    of_checkout = run([name, word])
    form = rf"{name} {re.escape(version())} \(revision [0-9a-f-]{{11}}[0-9a-f+-], rattle-kit-\w+, logic [0-9a-f]{{16}}, (not )?proved\)\n"
    wrong = own[0] != 0 or not own[1].decode().startswith(f"{name} {version()} (") or own[2]
    return f"{own}" if wrong else None if re.fullmatch(form, of_checkout[1].decode()) and of_checkout[::2] == (0, "") else f"{of_checkout}"


def alike(name, first, *others):
    """What the first words come to, all others come to as well."""
    wanted = run([name, *first])
    wrong = [fault(run([name, *words]), wanted) for words in others]
    return "; ".join(filter(None, wrong)) or (f"status {wanted[0]}" if wanted[0] not in (0, 3) else None)


def from_input(name, words, at):
    """A file that is read from standard input comes to the same, but for its name."""
    path = words[at]
    given = [*words[:at], "-", *words[at + 1 :]]
    status, out, err = run([name, *words])
    base = os.path.basename(path).encode()
    wanted = (status, out.replace(path.encode(), b"-") if name == "klplint" else out.replace(base, b"standard input"), err)
    return fault(run([name, *given], read(path)), wanted) or (f"status {status}" if status not in (0, 3) else None)


def twice(name, *words):
    """Only one file can be standard input: the second one would be empty."""
    return fault(run([name, *words], b"poll\n"), (1, b"", f"{name}: -: only one file can be standard input\n"))


def in_folder(*words):
    """The files of a log go to the folder that is named, wherever that is."""
    with tempfile.TemporaryDirectory(prefix="words-") as room:
        came = run(["klpsee", *(room if it == "FOLDER" else it for it in words)])
        with open(f"{room}/run.trace", "rb") as it:
            return fault(came, (0, read("captures/enable.output"), "")) or (None if it.read() else "no trace")


def escaped(name, *words):
    """A path can't control a terminal."""
    status, out, err = run([name, *words])
    is_well = (status, out) == (1, b"") and "\x1b" not in err and "\\u{1b}" in err
    return None if is_well else f"{status}, {out} and {err!r}"


def called(name, path):
    """The one program is the one that it is called as."""
    return fault(finish(start([path, "-x"], executable=built_program())), (2, b"", said(name)))


def synopsis(name):
    """The synopsis of a man page, as a terminal shows it."""
    with open(f"{TOP}/man/{name}.1", encoding="utf-8") as it:
        lines = re.search(r"^\.SH SYNOPSIS\n(.*?)^\.SH", it.read(), re.M | re.S)[1].splitlines()
    words = []
    for line in lines:
        macro, _, rest = line.partition(" ")
        rest = re.sub(r"\\f.", "", rest).replace("\\-", "-")
        words.append("".join(rest.split()) if len(macro) == 3 else rest)
    return " ".join(words)


def documented(name):
    return fault((synopsis(name),), (USAGE[name],))


def cases():
    made = {f"{name}, the words {words}": (refused, name, words) for name, lists in REFUSED.items() for words in lists}
    for name in USAGE:
        made.update({f"{name}, help by {words}": (helped, name, words) for words in (("--help",), ("-h",), ("x", "--help"), ("--help", "x", "y"))})
        made[f"{name}, the synopsis"] = (documented, name)
        made[f"{name}, the example of the help"] = (example, name)
        made.update({f"{name}, the version by {word}": (versioned, name, word) for word in ("--version", "-V")})
    made.update({f"{name}, the words {words[1:]}": (alike, name, *words) for name, lists in ALIKE.items() for words in lists})
    made.update({f"a program called {path!r}": (called, name, path) for name, paths in CALLED.items() for path in paths})
    log = "captures/enable.log"
    made.update({f"klpsee, the words {words}": (in_folder, *words) for words in ((log, "-o", "FOLDER"), ("-o", "FOLDER", log))})
    inputs = [
        ("klpwatch", ("k.catalog", "watched.trace"), (0, 1)), ("klppage", ("pages/sleeper.catalog", "pages/sleeper.script"), (0, 1)),
        ("klppage", ("pages/kernel.catalog", "--trace", "pages/kernel.trace", "pages/kernel.names"), (0, 2, 3)),
        ("klplint", ("lint/trace.catalog", "lint/trace.script"), (0, 1)), ("klpsee", ("captures/enable.log",), (0,)),
        ("klpko", ("modules/two_objects.ko", "--list"), (0,)), ("klpko", ("modules/two_objects.ko", "--matrix", "modules/cumulative.ko"), (0, 2)),
    ]
    made.update({f"{name}, {words[at]} from standard input": (from_input, name, words, at) for name, words, places in inputs for at in places})
    made.update({f"{words[0]}, twice standard input, {words[1:]}": (twice, *words) for words in (
        ("klpwatch", "-", "-"), ("klplint", "-", "-"), ("klppage", "-", "-"), ("klppage", "-", "x", "-"), ("klppage", "x", "-", "-"), ("klppage", "-", "--trace", "-"), ("klpko", "--list", "-", "x", "-"),
        ("klpko", "--symbols", "-", "-"), ("klpko", "--module", "-", "--module", "-", "x"), ("klpko", "--traceable", "-", "--symbols", "-", "x"), ("klpko", "--btf", "-", "--list", "-"),
        ("klpko", "--kernel", "-", "-"),
    )})
    odd = "\x1b[2J"
    paths = (("klpwatch", odd, "x"), ("klpwatch", "k.catalog", odd), ("klppage", odd, "x"), ("klplint", odd), ("klplint", "k.catalog", odd), ("klpsee", odd), ("klpko", "--list", odd))
    made.update({f"{words[0]}, a path that would control a terminal, {words[1:]!r}": (escaped, *words) for words in paths})
    return [(name, functools.partial(*call)) for name, call in made.items()]
