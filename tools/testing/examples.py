"""The examples: each script, trace, file of steps and page comes to what is stored, and what is refused is refused so.

Each function gives the cases of one kind: a name, and a call that returns what is wrong, or None.
"""
import functools
import html
import json
import os
import re
import tempfile
import unicodedata

import testing.run
from testing.run import EXAMPLES, TOP, fault, read, run, run_itself

# What klpwatch ends with where a trace isn't honest, and klplint where there are findings.
DISHONEST, FINDINGS = 3, 3


def index(name):
    """The rows of a list of examples: the name of each and of its catalog, which may be the same."""
    rows = [it.split() for it in read(name).decode().splitlines() if it and not it.startswith("#")]
    return [(row[0], row[-1]) for row in rows]


def script(name, catalog):
    words = [] if catalog == "-" else [f"{catalog}.catalog"]
    return fault(run(["klpsim", "console", *words], read(f"{name}.script")), (0, read(f"{name}.output"), ""))


def scripts():
    return [(f"{name}.script", functools.partial(script, name, catalog)) for name, catalog in index("index")]


def trace(name, catalog):
    """What klpwatch answers is stored, and behind it what it tells on standard error. The status is that of the answer."""
    stored = read(f"{name}.output").decode()
    status, out, err = run(["klpwatch", f"{catalog}.catalog", f"{name}.trace"])
    wanted = 1 if not out else 0 if out.startswith(b"honest ") else DISHONEST
    return fault((status, out.decode(errors="replace") + err, ""), (wanted, stored, ""))


def traces():
    return [(f"{name}.trace", functools.partial(trace, name, catalog)) for name, catalog in index("traces")]


# A life of task 1: it calls a function, and returns. 1,024 lives are as many accepted events as a journal has room for.
LIFE = "task new 1\ntask enter 1\ncall 1 .klp.sym.vmlinux.f,0\nreturn 1\ntask exit 1\ntask end 1\n"
# It leaves the kernel inside of the function.
LEAVES = "task new 1\ntask enter 1\ncall 1 .klp.sym.vmlinux.f,0\ntask exit 1\n"


def long_trace(text, said, status, told=""):
    with tempfile.NamedTemporaryFile("w", suffix=".trace") as it:
        it.write(text)
        it.flush()
        told = told and f"klpwatch: {it.name}: {told}\n"
        return fault(run(["klpwatch", "k.catalog", it.name]), (status, said, told))


def long_traces():
    """Traces that are too long to be kept."""
    honest = [(f"{count} lives", LIFE * count, f"honest {4 * count} {count} {count}\n".encode(), 0) for count in (1024, 1025, 5000)]
    said = "line 30004: FramesLeft"
    told = f"{said}: task 1 leaves the kernel inside of .klp.sym.vmlinux.f,0"
    name = "5000 lives, and a task that leaves inside of a function"
    leaves = (name, LIFE * 5000 + LEAVES, f"{said}\n".encode(), DISHONEST, told)
    return [(f"a trace of {name}", functools.partial(long_trace, *case)) for name, *case in [*honest, leaves]]


def cut_off(name, catalog):
    """A trace is cut off behind each byte. All its lines are items, so only the last one can be at fault."""
    text = read(f"{name}.trace")
    for end in range(0, len(text), 1 if testing.run.IS_BUILT else 13):
        with tempfile.NamedTemporaryFile(suffix=".trace") as it:
            it.write(text[:end])
            it.flush()
            status, out, err = run_itself(["klpwatch", f"{EXAMPLES}/{catalog}.catalog", it.name])
        last = text[:end].count(b"\n") + 1
        faulty = (status, out) == (1, b"") and f": line {last}" in err and ": BadItem: " in err
        said = out.decode()
        if not (faulty or (status == 0 and said.startswith("honest ")) or (status == DISHONEST and said.startswith(f"line {last}: "))):
            return f"cut off at {end}: status {status}, {out} and {err}, where line {last} alone may be at fault"
    return None


def cut_traces():
    return [(f"{name}.trace, cut off", functools.partial(cut_off, name, "eventfd")) for name in ("watched_kernel", "watched_mixed")]


def steps(name, catalog):
    stored = read(f"{name}.output")
    wanted = (1, b"", stored.decode()) if stored.startswith(b"klpsim: ") else (0, stored, "")
    return fault(run(["klpsim", "live", f"{catalog}.catalog", f"{name}.steps"]), wanted)


def lives():
    return [(f"{name}.steps", functools.partial(steps, name, catalog)) for name, catalog in index("lives")]


def page(name, *words):
    """A page of a script or a trace, with names if there are some. What is hinted at isn't compared: a script may have a line that is refused
    on purpose."""
    names = [f"{name}.names"] if os.path.exists(f"{EXAMPLES}/{name}.names") else []
    status, out, err = run(["klppage", f"{name}.catalog", *words, *names])
    told = [line for line in err.splitlines() if ": hint: " not in line]
    return fault((status, out, "".join(told)), (0, read(f"{name}.html"), ""))


def pages():
    made = []
    for name, ending in sorted(map(os.path.splitext, os.listdir(f"{EXAMPLES}/pages"))):
        words = {".script": (), ".trace": ("--trace",)}.get(ending)
        if words is not None:
            file = f"pages/{name}"
            made.append((f"{file}.html", functools.partial(page, file, *words, f"{file}{ending}")))
    return made


# Bytes that a page mustn't have as they are: control bytes, what is no UTF-8, and characters that act on what is around them. Each has
# the number of characters that a page shows in its place.
ODD = {
    b"\x00": 1, b"\x01": 1, b"\t": 1, b"\r": 1, b"\x1b": 1, b"\x7f": 1, b"\xff": 1, b"\xc0\xaf": 2, b"\xc3": 1, b"\xe2\x82": 2, b"\xed\xa0\x80": 3,
    b"\xf4\x90\x80\x80": 4, b"\x80": 1, b"\xc2\x85": 2, b"\xd8\x9c": 2, b"\xe2\x80\xae": 3, b"\xe2\x80\xa8": 3, b"\xe2\x81\xa6": 3, b"\xe2\x80\x8f": 3,
}
# Text that a page shows as it is.
PLAIN = ("é", "ß", "€", "日本", "…", "\u0700", "\ud7ff", "\ue000", "\U0001f427", "\U0010ffff", "‐", "‧", " ", "a<b>&\"c'")


def odd_bytes():
    """No byte of a script or of a name acts on what is around it in a page, and all other text stands there as it is."""
    with tempfile.TemporaryDirectory(prefix="odd-") as room:
        lines = [b"x" + odd + b"y" for odd in ODD] + [b"x" + it.encode() + b"y" for it in PLAIN]
        with open(f"{room}/a.script", "wb") as it:
            it.write(b"\n".join(lines) + b"\n")
        with open(f"{room}/a.names", "wb") as it:
            it.write(b"task 1 evil\xe2\x80\xaename\ntask 2 bad\xff\n")
        status, out, _ = run(["klppage", "k.catalog", f"{room}/a.script", f"{room}/a.names"])
    if status:
        return f"status {status}"
    try:
        page = html.unescape(out.decode())
    except UnicodeDecodeError as error:
        return f"{error}"
    acts = {it for it in out.decode() if it != "\n" and (unicodedata.category(it) in ("Cc", "Zl", "Zp") or unicodedata.bidirectional(it) in
            ("LRE", "RLE", "LRO", "RLO", "PDF", "LRI", "RLI", "FSI", "PDI") or it in "\u061c\u200e\u200f")}
    lost = [it for it in PLAIN if f"x{it}y" not in page]
    lost += [odd for odd, count in ODD.items() if not re.search(f"x[\u2400-\u2421\ufffd]{{{count}}}y", page)]
    return f"acts: {acts}; lost: {lost}" if acts or lost else None


def odd_pages():
    return [("a page of odd bytes", odd_bytes)]


def lint_words(name):
    """How klplint is called for a catalog, behind a script where there is one."""
    words = [f"lint/{name}.catalog", f"lint/{name}.script"]
    return words if os.path.exists(f"{EXAMPLES}/{words[1]}") else words[:1]


def lint_objects(out):
    """What klplint tells for programs."""
    return [json.loads(line) for line in out.decode().splitlines()]


def in_words(told):
    """The line of words for an object that klplint tells."""
    word = "finding" if told["finding"] else "remark"
    place = f": line {told['line']}: {told['patch']}" if "patch" in told else ""
    return f"{word}: {told['catalog']}{place}: {told['sentence']}\n"


def unsaid(told):
    """What an object has that its sentence doesn't say."""
    about = [*told.get("others", ()), str(told.get("state", "")), " ".join(map(str, told.get("key", ())))]
    # what does nothing is a state's change, wherever it stands
    objects = [told["object"]] if "object" in told and told["kind"] != "idle" else []
    unnamed = [it for it in objects if not re.search(rf"\b{re.escape(it)}\b", told["sentence"])]
    return [*(it for it in about if it not in told["sentence"]), *unnamed]


# What stands before the other patches in the sentences of these kinds.
BEFORE_OTHERS = {
    "alike": "is just like ", "not-over": "can't be loaded over ", "same-function": ", as ", "takes-out": "takes out ",
    "takes-over": " of ", "forgets-state": " of ", "loses-functions": "takes out ", "leaves-variable": "takes out ",
    "loses-variable": "takes out ", "not-again": "takes out ",
}
# How a sentence says in which world it holds.
WORLDS = {
    "without-modules": re.compile(r"^without modules: |, while .* (?:isn't|aren't) loaded$"),
    "with-modules": re.compile(r"^with [^:]*: \d|, while .* (?:is|are) loaded$"),
}


def untold(told):
    """What a sentence says of other patches and of the world, and its object doesn't have."""
    sentence, others = told["sentence"], told.get("others", ())
    listed = " and ".join(filter(None, (", ".join(others[:-1]), *others[-1:])))
    before = BEFORE_OTHERS.get(told["kind"])
    world = next((it for it, form in WORLDS.items() if form.search(sentence)), None)
    return [it for it, is_told in ((f"others {others}", before is None or (others and f"{before}{listed}" in sentence)),
                                   (f"world {told.get('world')}", world == told.get("world"))) if not is_told]


def lint_table():
    """For each catalog of examples/lint the status, and the kinds of its findings."""
    rows = [it.split() for it in read("lint/index").decode().splitlines() if not it.startswith("#")]
    return {name: (int(status), kinds) for name, status, *kinds in rows}


def lint(name):
    """What klplint finds in a catalog, in words and for programs. What counts as a finding is written in a table."""
    words, stored = lint_words(name), read(f"lint/{name}.output")
    wanted, kinds = lint_table()[name]
    status, out, err = run(["klplint", "--json", *words])
    told = lint_objects(out)
    spelled = "".join(map(in_words, told)).encode()
    found = list(dict.fromkeys(it["kind"] for it in told if it["finding"]))
    wrong = [f"{it} unsaid" for own in told for it in unsaid(own)]
    wrong += [f"{own}: {it} differ" for own in told for it in untold(own)]
    alike = fault((status, spelled, err), (wanted, stored, "")) or "; ".join(wrong)
    if not alike and found != kinds:
        alike = f"findings of the kinds {found}, where {kinds} are wanted"
    return fault(run(["klplint", *words]), (wanted, stored, "")) or alike or None


def lint_names():
    return sorted(it for it, ending in map(os.path.splitext, os.listdir(f"{EXAMPLES}/lint")) if ending == ".catalog")


def lint_listed():
    """The table has each catalog, and no other."""
    return None if sorted(lint_table()) == lint_names() else f"{set(lint_table()) ^ set(lint_names())}"


def lint_full_journal():
    """Behind a script that has filled the journal, which has 4,096 events, klplint tries what it tries without one."""
    with tempfile.NamedTemporaryFile("w", suffix=".script") as it:
        it.write("task new 1\ntask end 1\n" * 2048)
        it.flush()
        wanted = read("lint/left.output").replace(b"with vmlinux alone", b"which the script left")
        return fault(run(["klplint", "lint/left.catalog", it.name]), (0, wanted, ""))


def lint_no_room():
    """Behind a script that has added the 512 variables that there may be, a patch that adds one can't be loaded."""
    said = (b"remark: lint/left.catalog: line 5: one: leaves no trace, in any world without its variables\n"
            b"remark: lint/left.catalog: line 10: two: leaves no trace, in any world without its variables\n"
            b"finding: lint/left.catalog: line 5: one: can't be loaded: there is no room for the variables of its callbacks\n"
            b"remark: lint/left.catalog: 1 of 2 patches are loaded alone, 0 of 1 over another one\n"
            b"remark: lint/left.catalog: judged: 2 patches in one world, which the script left\n")
    with tempfile.NamedTemporaryFile("w", suffix=".script") as it:
        it.write("".join(f"shadow alloc {number} 8 1\n" for number in range(512)))
        it.flush()
        return fault(run(["klplint", "lint/left.catalog", it.name]), (FINDINGS, said, ""))


def lint_kinds():
    """Each kind that the man page has is told of an example, and no other."""
    told = {it["kind"] for name in lint_names() for it in lint_objects(run(["klplint", "--json", *lint_words(name)])[1])}
    with open(f"{TOP}/man/klplint.1", encoding="utf-8") as it:
        kinds = re.search(r"The kinds are (.*?)\.\n", it.read().replace("\\-", "-"), re.S)[1]
    documented = set(re.findall(r"[\w-]+", kinds)) - {"and"}
    return None if told == documented else f"{sorted(told ^ documented)}"


def lint_escapes():
    """The name of a catalog comes whole out of an object, whatever it has in it."""
    with tempfile.TemporaryDirectory(prefix="lint-") as room:
        path = f'{room}/a "b" \\ \t\u00e9.catalog'
        with open(path, "wb") as it:
            it.write(read("lint/clean.catalog"))
        told = lint_objects(run(["klplint", "--json", path])[1])
        return None if [it["catalog"] for it in told] == [path, path] else f"{told}"


def lint_page_blocks():
    """The examples of docs/LINT.md: a catalog, which stands behind the page's first one, a script where there is one, and the
    lines that klplint says then."""
    with open(f"{TOP}/docs/LINT.md", encoding="utf-8") as it:
        (_, head), *blocks = re.findall(r"^```(text|console)\n(.*?)^```\n", it.read(), re.M | re.S)
    while blocks:
        (_, catalog), (kind, script), *blocks = blocks
        if kind == "text":
            yield head + catalog, None, script
        else:
            (_, answer), *blocks = blocks
            yield head + catalog, script, answer


def lint_page(catalog, script, answer):
    """An example of docs/LINT.md: klplint says its lines of its catalog."""
    with tempfile.TemporaryDirectory(prefix="lint-") as room:
        words = [f"{room}/page.catalog"] if script is None else [f"{room}/page.catalog", f"{room}/page.script"]
        for path, text in zip(words, (catalog, script)):
            with open(path, "w", encoding="ascii") as it:
                it.write(text)
        lines = run(["klplint", *words])[1].decode().replace(f" {words[0]}:", "").replace(f"{room}/", "")
        unsaid_lines = [it for it in answer.splitlines() if it not in lines.splitlines()]
        return f"{unsaid_lines} not said, but {lines}" if unsaid_lines else None


def lint_pages():
    cases = list(lint_page_blocks())
    return [(f"docs/LINT.md: {answer.strip()[:70]}", functools.partial(lint_page, catalog, script, answer)) for catalog, script, answer in cases]


def lints():
    cases = [(f"lint/{name}.catalog", functools.partial(lint, name)) for name in lint_names()]
    made = [("lint/left.catalog, behind a full journal", lint_full_journal), ("lint/left.catalog, without room", lint_no_room)]
    made += [("lint, the table", lint_listed)]
    made += [("lint, each kind", lint_kinds), ("lint, a name that is escaped", lint_escapes)]
    return [*cases, *lint_pages(), *made]


def refused(catalog, said, run=run):
    """A catalog is refused before anything is answered."""
    with tempfile.NamedTemporaryFile(suffix=".catalog") as it:
        it.write(catalog)
        it.flush()
        return fault(run(["klpsim", "console", it.name], b"text vmlinux\n"), (1, b"", f"{said}\n"))


def refused_catalogs():
    parts = [it.partition(b"\n") for it in read("refused.catalogs").split(b"\n=== ")[1:]]
    cases = [(said.decode(), catalog) for said, _, catalog in parts]
    return [(f"refused.catalogs, {said}", functools.partial(refused, catalog, said)) for said, catalog in cases]


# The greatest length of a catalog's line.
MAX_LINE = 4096
# The forms in which each faulty line is refused: how long it is at least, its end, and its fault where that isn't its own. It
# is refused as well where it is as long as a line may be, and two faults come before all others.
FORMS = (0, b"", None), (MAX_LINE, b"\r\n", None), (MAX_LINE + 1, b"", "LineTooLong"), (0, b"\x80", "NotAscii"), (MAX_LINE + 1, b"\x80", "NotAscii")


def faulty_line(start, kind, line):
    for length, end, other in FORMS:
        said = f"klpsim: line {len(start.splitlines()) + 1}: {other or kind}"
        wrong = refused(start.encode() + line.encode().ljust(length) + end, said, run_itself)
        if wrong:
            return wrong
    return None


def faulty_lines():
    cases = []
    for block in read("faulty.lines").decode().split("=== ")[1:]:
        start, _, rows = block.partition("---\n")
        start = start.partition("\n")[2]
        for row in rows.splitlines():
            kind, _, line = row.partition(" ")
            if not row.startswith("#"):
                cases.append((f"faulty.lines, {row}", functools.partial(faulty_line, start, kind, line)))
    return cases


def unreadable(path):
    return fault(run(["klpsim", "console", path]), (1, b"", "klpsim: CannotRead\n"))


def unreadable_paths():
    paths = read("unreadable.paths").decode().splitlines()
    return [(f"unreadable.paths, {it}", functools.partial(unreadable, it)) for it in paths]


def cases():
    kinds = (scripts, traces, long_traces, cut_traces, lives, pages, odd_pages, lints, refused_catalogs, faulty_lines, unreadable_paths)
    return [case for kind in kinds for case in kind()]
