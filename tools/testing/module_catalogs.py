"""klpko's catalogs of livepatch modules. They are read here by a reader of catalogs of its own, and held against what the sources
of the examples, or the livepatches that testing/elf.py writes, say. testing/modules.py calls this.
"""
import dataclasses
import functools
import re
import tempfile

from testing import elf
from testing.elf import CALLBACKS, Function, Livepatch, Object
from testing.run import fault, read, run

FOLDER = "modules"
CLEAN, FAULTY, FINDINGS = 0, 1, 3
NOP = "0f1f440000"
WORDS = dict(zip(("pre", "post", "preun", "postun"), CALLBACKS))
FUNCTIONS_LETTERS = "tTwW"
# The handler where no kernel is known, and where made-up symbols and new functions are.
HANDLER = 0xFFFFFFFF81000000
UNKNOWN_CODE = "unknown its code isn't read"
UNKNOWN_REPLACE = "unknown its code sets whether it replaces others"
NOT_GIVEN = "assumed no symbols of it are given"


@dataclasses.dataclass
class Read:
    """A catalog, as its lines say it: each line that isn't a mark, with the marks right behind it."""

    handler: int = 0
    objects: list = dataclasses.field(default_factory=list)
    patches: list = dataclasses.field(default_factory=list)


def marked_lines(text):
    """The lines of a catalog, each as its words and its marks."""
    found = []
    for line in text.splitlines():
        if line.startswith("#? "):
            found[-1][1].append(line[3:])
        else:
            found.append((line.split(), []))
    return found


def read_catalog(text):
    """Reads a catalog by the forms of its lines."""
    came = Read()
    for words, marks in marked_lines(text):
        match words:
            case ["handler", address]:
                came.handler = int(address, 16)
            case ["object", name]:
                came.objects.append({"name": name, "marks": marks, "symbols": []})
            case ["symbol", name, address, body]:
                came.objects[-1]["symbols"].append((name, int(address, 16), body, marks))
            case ["patch", name, *replace]:
                came.patches.append({"patch": name, "replaces": replace == ["replace"], "marks": marks, "states": [], "objects": []})
            case ["state", number, version]:
                came.patches[-1]["states"].append({"id": int(number), "version": int(version)})
            case ["target", name]:
                came.patches[-1]["objects"].append({"name": name, "callbacks": [], "functions": []})
            case ["func", symbol, new_name, address]:
                target = came.patches[-1]["objects"][-1]
                name, position = re.fullmatch(rf"\.klp\.sym\.{target['name']}\.(.*),(\d+)", symbol).groups()
                target["functions"].append({"name": name, "position": int(position), "new_name": new_name})
                int(address, 16)
            case [word, "0"] if word in WORDS:
                came.patches[-1]["objects"][-1]["callbacks"].append((WORDS[word], marks))
            case _:
                raise ValueError(f"no line of a catalog: {words}")
    return came


def spelled(name):
    """The name of a new function, as a catalog can have it."""
    return re.sub(r"[^A-Za-z0-9_-]", "-", name)[:55] or "-"


def wanted_patch(patch):
    """What a catalog has to say of a patch, by what its source says."""
    marks = [UNKNOWN_REPLACE] if patch["replaces"] == "unknown" else []
    marks += [patch["left_out"]] if "left_out" in patch else []
    return {
        "patch": patch["patch"], "replaces": patch["replaces"] == "yes", "marks": marks, "states": patch["states"],
        "objects": [{
            "name": it["name"], "callbacks": [(name, [UNKNOWN_CODE]) for name in it["callbacks"]],
            "functions": [{**row, "new_name": spelled(row["new_name"])} for row in it["functions"]],
        } for it in patch["objects"]],
    }


def wanted_names(patches):
    """The objects that patches change, the kernel's image first, each with the names there and the highest position of each."""
    names = {"vmlinux": {}}
    for patch in patches:
        for it in patch["objects"]:
            for row in it["functions"]:
                of = names.setdefault(it["name"], {})
                of[row["name"]] = max(of.get(row["name"], 1), row["position"])
            names.setdefault(it["name"], {})
    return names


def wanted_symbols(name, names, kernel):
    """The symbols of an object, without their addresses where these are made up, and the marks of the object."""
    own = [row for row in kernel or () if row[3] == name]
    if own:
        return [(it, row[0], NOP, [] if row[1] in FUNCTIONS_LETTERS else ["data"]) for it in names for row in own if row[2] == it], []
    marks = [NOT_GIVEN] if names else []
    return [(it, None, NOP, []) for it, count in names.items() for _ in range(count)], marks


def wrong_addresses(came):
    """What is wrong with made-up addresses: a call has to reach the handler from each, and no two entry sites may overlap."""
    symbols = sorted(it[1] for of in came.objects for it in of["symbols"])
    if any(abs(it + 5 - came.handler) >= 1 << 31 for it in symbols):
        return "a symbol is out of the handler's reach"
    return "two symbols overlap" if any(two - one < 9 for one, two in zip(symbols, symbols[1:])) else None


def wrong_catalog(text, patches, kernel):
    """What is wrong with a catalog of these patches over the rows of a kernel's symbols, or None."""
    came = read_catalog(text)
    handlers = [row[0] for row in kernel or () if row[2] == "ftrace_caller"]
    if came.handler != (handlers or [HANDLER])[0]:
        return f"the handler is {came.handler:x}"
    names = wanted_names(patches)
    if [it["name"] for it in came.objects] != list(names):
        return f"the objects are {[it['name'] for it in came.objects]}"
    for it in came.objects:
        symbols, marks = wanted_symbols(it["name"], names[it["name"]], kernel)
        has_addresses = any(row[3] == it["name"] and row[0] for row in kernel or ())
        own = it["symbols"] if has_addresses else [(row[0], None, *row[2:]) for row in it["symbols"]]
        if (own, it["marks"]) != (symbols, marks):
            return f"{it['name']}: {own}, {it['marks']}, where {symbols}, {marks} are wanted"
    wanted = [wanted_patch(it) for it in patches]
    if came.patches != wanted:
        return f"{came.patches}, where {wanted} is wanted"
    return wrong_addresses(came)


def told_marks(patches, kernel):
    """What standard error says of what is marked, and the status."""
    callbacks = sum(len(it["callbacks"]) for patch in patches for it in patch["objects"])
    replacing = sum(it["replaces"] == "unknown" for it in patches)
    known = {row[3] for row in kernel or ()}
    objects = sum(bool(names) and name not in known for name, names in wanted_names(patches).items())
    told = {
        "callbacks whose code isn't read": callbacks, "objects with made-up symbols": objects,
        "patches whose code sets whether they replace others": replacing,
        "patches of which something is left out": sum("left_out" in it for it in patches),
    }
    told = "".join(f"klpko: marked in the catalog: {what}: {count}\n" for what, count in told.items() if count)
    return (FINDINGS if told else CLEAN), told


def rows_text(kernel):
    """A kernel's symbols, as /proc/kallsyms lists them, with an empty line behind them."""
    return "".join(f"{address:016x} {letter} {name}" + ("\n" if object == "vmlinux" else f"\t[{object}]\n") for address, letter, name, object in kernel) + "\n"


def catalog(kernel, *patches, options=()):
    """A catalog of these patches says what their sources say, and each program takes it."""
    with tempfile.TemporaryDirectory(prefix="catalogs-") as room:
        words = [*options]
        if kernel:
            words += ["--symbols", f"{room}/symbols"]
            with open(words[-1], "w") as it:
                it.write(rows_text(kernel))
        status, out, err = run(["klpko", *words, *(it["file"] for it in patches)])
        wrong = fault((status, err), told_marks(patches, kernel)) or wrong_catalog(out.decode(), patches, kernel)
        if wrong:
            return wrong
        with open(f"{room}/a.catalog", "wb") as it:
            it.write(out)
        # a judge that finds the catalog faulty has the status 1
        status, _, err = run(["klplint", f"{room}/a.catalog"])
        return None if status in (CLEAN, FINDINGS) and not err else f"klplint: status {status}, {err}"


def parts(patch, left_out, kept):
    """What a cut leaves of a patch: its objects by name, each with the numbers of the functions that stay."""
    of = {it["name"]: it for it in patch["objects"]}
    objects = [{**of[name], "functions": [of[name]["functions"][at] for at in numbers]} for name, numbers in kept.items()]
    return {**patch, "objects": objects, "left_out": left_out}


def cut(cuts, *patches):
    """With --cut, a catalog of these patches says what is left of them, and how much isn't. `cuts` has the mark and the parts that stay
    of each patch that is cut, by its number."""
    return catalog(None, *(parts(it, *cuts[at]) if at in cuts else it for at, it in enumerate(patches)), options=["--cut"])


# A module that isn't loaded, as its file has it, each symbol with its kind and section, and whether a kernel lists it: one that is
# undefined, absolute, of the module's init, or in a section that isn't loaded isn't listed.
TARGET = [
    (b"f", elf.CODE, ".init.text", False), (b"f", elf.CODE, ".text", True), (b"", 3, ".text", False), (b"f", elf.VARIABLE, ".data", True),
    (b"f", elf.NO_KIND, 0, False), (b"g", elf.CODE, ".text", True), (b"f", elf.NO_KIND, 0xFFF1, False), (b"f", elf.VARIABLE, ".comment", False),
    (b"f", elf.CODE, ".text", True), (b"f", elf.CODE, 0xFF20, False),
]


def over_target(name, kernel, *patches):
    """A catalog has the symbols of a module's file, in its order, if the kernel has none of the module. Of a second file of it, and of
    one of which the kernel has symbols, none are taken, and that is told."""
    known = any(row[3] == name for row in kernel)
    rows = [*kernel, *((None, "t" if kind == elf.CODE else "d", it.decode(), name) for it, kind, _, listed in TARGET if listed and not known)]
    with tempfile.TemporaryDirectory(prefix="catalogs-") as room:
        with open(f"{room}/symbols", "w") as it:
            it.write(rows_text(kernel))
        for file in ("one.ko", "two.ko"):
            with open(f"{room}/{file}", "wb") as it:
                it.write(elf.target(name.encode(), [it[:3] for it in TARGET]))
        words = ["--symbols", f"{room}/symbols", "--module", f"{room}/one.ko", "--module", f"{room}/two.ko"]
        status, out, err = run(["klpko", *words, *(it["file"] for it in patches)])
        twice = f"klpko: the symbols of {name} are there already, so its file isn't used\n" * (2 if known else 1)
        code, told = told_marks(patches, rows)
        return fault((status, err), (code, twice + told)) or wrong_catalog(out.decode(), patches, rows)


def refused_target(data, wanted, *patches):
    """A module's file is refused, and no catalog is made."""
    with tempfile.TemporaryDirectory(prefix="catalogs-") as room:
        with open(f"{room}/m.ko", "wb") as it:
            it.write(data)
        came = run(["klpko", "--module", f"{room}/m.ko", *(it["file"] for it in patches)])
        return fault(came, (FAULTY, b"", f"klpko: {room}/m.ko: {wanted}\n"))


def traceable(text, wanted, *patches):
    """What stands against patches, by the list of functions that a kernel can trace. `wanted` has a line for each, in which `f0` stands
    for the first patch's file, and `l` for the list."""
    with tempfile.TemporaryDirectory(prefix="catalogs-") as room:
        with open(f"{room}/list", "w") as it:
            it.write(text)
        files = {f"f{number}": it["file"] for number, it in enumerate(patches)}
        status, _, err = run(["klpko", "--traceable", f"{room}/list", *files.values()])
        _, told = told_marks(patches, None)
        said = "".join(f"klpko: {it.format(l=f'{room}/list', **files)}\n" for it in wanted)
        return fault((status, err), (FINDINGS, told + said))


def over_variables(wanted, *patches):
    """What stands against patches whose positions are those of variables, by the kernel's symbols. `wanted` has a line for each, in which
    `f0` stands for the first patch's file."""
    kernel = [*KERNEL, (0xFFFFFFFF81006000, "d", "v", "vmlinux")]
    with tempfile.TemporaryDirectory(prefix="catalogs-") as room:
        with open(f"{room}/symbols", "w") as it:
            it.write(rows_text(kernel))
        files = {f"f{number}": it["file"] for number, it in enumerate(patches)}
        status, out, err = run(["klpko", "--symbols", f"{room}/symbols", *files.values()])
        code, told = told_marks(patches, kernel)
        said = "".join(f"klpko: {it.format(**files)} is a variable\n" for it in wanted)
        return fault((status, err), (FINDINGS if wanted else code, told + said)) or wrong_catalog(out.decode(), patches, kernel)


def bad_list(text, wanted, *patches):
    """A list of functions is refused, and no catalog is made."""
    with tempfile.TemporaryDirectory(prefix="catalogs-") as room:
        with open(f"{room}/list", "w") as it:
            it.write(text)
        came = run(["klpko", "--traceable", f"{room}/list", *(it["file"] for it in patches)])
        return fault(came, (FAULTY, b"", f"klpko: {room}/list: {wanted}\n"))


def refused_catalog(wanted, symbols, *patches, options=()):
    """No catalog is made, for this reason."""
    with tempfile.TemporaryDirectory(prefix="catalogs-") as room:
        with open(f"{room}/symbols", "w") as it:
            it.write(symbols)
        files = [it["file"] for it in patches]
        came = run(["klpko", *options, "--symbols", f"{room}/symbols", *files])
        return fault(came, (FAULTY, b"", f"klpko: {wanted.format(*files, s=f'{room}/symbols')}\n"))


def of_example():
    """The catalog of docs/MODULES.md over a kernel's symbols, and klplint's answer to it."""
    words = ["--symbols", f"{FOLDER}/two_objects.symbols", f"{FOLDER}/two_objects.ko", f"{FOLDER}/cumulative.ko"]
    status, out, _ = run(["klpko", *words])
    wrong = fault((status, out), (FINDINGS, read(f"{FOLDER}/two_objects.catalog")))
    return wrong or fault(run(["klplint", f"{FOLDER}/two_objects.catalog"]), (FINDINGS, read(f"{FOLDER}/two_objects.lint"), ""))


# The kernel of the tests: positions that count data, a module that is loaded, and one that isn't.
KERNEL = [
    (0xFFFFFFFF81000100, "T", "ftrace_caller", "vmlinux"), (0xFFFFFFFF81002000, "t", "f", "vmlinux"), (0xFFFFFFFF81003000, "d", "f", "vmlinux"),
    (0xFFFFFFFF81004000, "W", "f", "vmlinux"), (0xFFFFFFFF81005000, "t", "g", "vmlinux"), (0xFFFFFFFFC0001000, "t", "f", "m"),
    (0xFFFFFFFFC0000800, "t", "f", "m"), (0xFFFFFFFFC0002000, "t", "other", "m"),
]
# Livepatches that no example has.
MADE = {
    "positions": [Livepatch(b"a", [Object(b"m", [Function(b"f", b"f_one", 1), Function(b"f", b"f_two", 2)]), Object(None, [Function(b"f", b"f_three", 3)])])],
    "an object without symbols": [Livepatch(b"a", [Object(b"n", [Function(b"f", b"new_f", 2)]), Object(None, [Function(b"g", b"new_g")])], replaces=True)],
    "callbacks alone": [Livepatch(b"a", [Object(b"m", None, CALLBACKS), Object(None, [], CALLBACKS[1:3])], states=[(1, 2), (2**64 - 1, 2**32 - 1)])],
    "two patches": [Livepatch(b"a", [Object(None, [Function(b"g", b"g_a")])]), Livepatch(b"b", [Object(None, [Function(b"g", b"g_b")])], replaces=True)],
    "replace set by code": [Livepatch(b"a", [Object(None, [Function(b"g", b"g_a")])], sets_replace=True)],
    "a new function with a point, and one of 70 bytes": [Livepatch(b"a", [Object(None, [Function(b"f", b"f.isra.0", 1), Function(b"g", b"g" * 70)])])],
    "no object": [Livepatch(b"a", [])],
    "16 patches of 16 functions": [Livepatch(b"p%d" % it, [Object(None, [Function(b"f%d" % at, b"new") for at in range(16)])]) for it in range(16)],
}
FUNCTIONS = [Function(b"f%d" % it, b"new") for it in range(300)]
# Patches of a module whose file is given, and of one of which the kernel has symbols.
OVER_TARGET = [Livepatch(b"a", [Object(b"n", [Function(b"f", b"new_f", 3), Function(b"g", b"new_g")]), Object(b"m", [Function(b"f", b"new_m", 2)])])]
# Lists of functions that a kernel can trace, each with what stands against the patches then.
TRACED = [
    Livepatch(b"a", [Object(None, [Function(b"f", b"g"), Function(b"h", b"g", 2)]), Object(b"m", [Function(b"f", b"g")])]),
    Livepatch(b"b", [Object(b"m", [], CALLBACKS[:1]), Object(None, [Function(b"h", b"g")])]),
]
REFUSES = "the kernel refuses the patch: {l} doesn't list"
UNLISTED = "so it isn't known which of them the kernel can patch"
LISTS = {
    "all functions": ("f\nh\nh\nf [m]\n", []),
    "all but one": ("f\n\nf [m]\n", [f"{{f0}}: {REFUSES} h of vmlinux, so it can't be patched", f"{{f1}}: {REFUSES} h of vmlinux, so it can't be patched"]),
    "a name of a module alone": ("f\nh [m]\n", [
        f"{{f0}}: {REFUSES} h of vmlinux, so it can't be patched", f"{{f0}}: {REFUSES} f of m, so it can't be patched",
        f"{{f1}}: {REFUSES} h of vmlinux, so it can't be patched"]),
    "no module": ("f\nh\n", [f"{{f0}}: {{l}} lists no function of m, {UNLISTED}"]),
    "nothing": ("", [f"{{f0}}: {{l}} lists no function of vmlinux, {UNLISTED}", f"{{f0}}: {{l}} lists no function of m, {UNLISTED}",
                     f"{{f1}}: {{l}} lists no function of vmlinux, {UNLISTED}"]),
}
# Patches at positions of variables, each with what stands against them.
VARIABLES = {
    "a position among functions": (["{f0}: the kernel refuses the patch: f,2 of vmlinux"], [Livepatch(b"a", [Object(None, [Function(b"f", b"g", 2)])])]),
    "a name without a position": (["{f0}: the kernel refuses the patch: v of vmlinux"], [Livepatch(b"a", [Object(None, [Function(b"v", b"g")])])]),
    "the second patch, and the second function of the third": (
        ["{f1}: the kernel refuses the patch: v,1 of vmlinux", "{f2}: the kernel refuses the patch: f,2 of vmlinux"],
        [Livepatch(b"a", [Object(None, [Function(b"f", b"g", 1)])]), Livepatch(b"b", [Object(None, [Function(b"v", b"g", 1)])]),
         Livepatch(b"c", [Object(None, [Function(b"f", b"g", 3), Function(b"f", b"g", 2)])])]),
    "none, though one counts": ([], [Livepatch(b"a", [Object(None, [Function(b"f", b"g", 3)])])]),
    "none, where it isn't said which": ([], [Livepatch(b"a", [Object(None, [Function(b"f", b"g")])])]),
    "none, where there are fewer": ([], [Livepatch(b"a", [Object(None, [Function(b"v", b"g", 2)])])]),
    "none of a module": ([], [Livepatch(b"a", [Object(b"m", [Function(b"f", b"g", 2)])])]),
}
NO_FUNCTION = "it isn't one of available_filter_functions: wanted is NAME [MODULE]"
WHOLE, FEWER = "--list and --matrix take it whole", "give fewer patches; --matrix takes all"
OR_CUT = "--cut leaves out the rest, and --list and --matrix take it whole"
FEWER_OR_CUT = "give fewer patches, or --cut, which leaves out the rest; --matrix takes all"
NAME, SYMBOL = "1 to 55 letters, digits, _ and -", "1 to 127 letters, digits, _, . and $"


def of_patch(name, number, reason, advice=WHOLE):
    """A refusal that is about one patch: it names the file, the patch and what to do."""
    return f"{{{number}}}: patch {name}: {reason}: {advice}"


def too_many(count, what, most):
    return f"it has {count} {what}, and a catalog has room for {most} of a patch"


def no_name(part, wanted):
    return f"{part}a catalog can't have this name: wanted are {wanted}"


# Livepatches of which no catalog is made, each with the reason. The number in braces stands for the file of that patch.
TOO_MANY = {
    "17 patches": (f"17 patches are given, and a catalog has room for 16: {FEWER}", [Livepatch(b"p%d" % it, []) for it in range(17)]),
    "65 functions": (of_patch("a", 0, too_many(65, "functions", 64), OR_CUT), [Livepatch(b"a", [Object(None, FUNCTIONS[:65])])]),
    "65 functions of two objects, in the second patch": (of_patch("b", 1, too_many(65, "functions", 64), OR_CUT), [
        Livepatch(b"a", [Object(None, FUNCTIONS[:64])]), Livepatch(b"b", [Object(None, FUNCTIONS[:64]), Object(b"m", FUNCTIONS[:1])])]),
    "9 objects": (of_patch("a", 0, too_many(9, "objects", 8), OR_CUT), [Livepatch(b"a", [Object(b"m%d" % it, []) for it in range(9)])]),
    "17 states": (of_patch("a", 0, too_many(17, "system states", 16)), [Livepatch(b"a", [], states=[(it, 1) for it in range(1, 18)])]),
    "18 objects in all": (f"the patches change more than 17 objects with vmlinux, and a catalog has room for so many: {FEWER_OR_CUT}", [
        Livepatch(b"p%d" % it, [Object(b"m%d_%d" % (it, at), []) for at in range(count)]) for it, count in enumerate((6, 6, 5))]),
    "257 symbols": (f"there are more than 256 symbols that the patches name, and a catalog has room for so many: {FEWER_OR_CUT}", [
        Livepatch(b"p%d" % it, [Object(b"n", FUNCTIONS[64 * it : min(64 * it + 64, 257)])]) for it in range(5)]),
    "a position without end": (of_patch("a", 0, "function f of n: its position is above 256, and a catalog has room for so many symbols"), [
        Livepatch(b"a", [Object(b"n", [Function(b"f", b"g", 2**64 - 1)])])]),
    "the position 257": (of_patch("a", 0, "function f of vmlinux: its position is above 256, and a catalog has room for so many symbols"), [
        Livepatch(b"a", [Object(None, [Function(b"g", b"g"), Function(b"f", b"g", 257)])])]),
}
# Livepatches that are cut down for a catalog, each with what is left of those that are cut: the mark, and the parts.
def modules_of(count, callbacks=()):
    """So many modules without functions, of which these have callbacks."""
    return [Object(b"m%d" % it, [], CALLBACKS[:1] if it in callbacks else ()) for it in range(count)]


def no_functions(*names):
    return {name: () for name in names}


CUT = {
    "65 functions": ({0: ("left out 1 functions, 0 targets", {"vmlinux": range(64)})}, TOO_MANY["65 functions"][1]),
    "65 functions of two objects": ({1: ("left out 1 functions, 0 targets", {"vmlinux": range(64), "m": ()})},
                                    TOO_MANY["65 functions of two objects, in the second patch"][1]),
    "9 objects": ({0: ("left out 0 functions, 1 targets", no_functions(*(f"m{it}" for it in range(8))))}, TOO_MANY["9 objects"][1]),
    "9 objects, the last with a callback": ({0: ("left out 0 functions, 1 targets", no_functions(*(f"m{it}" for it in (0, 1, 2, 3, 4, 5, 6, 8))))},
                                            [Livepatch(b"a", modules_of(9, [8]))]),
    "9 objects, the last with a function that another patch changes": (
        {0: ("left out 0 functions, 1 targets", {**no_functions(*(f"m{it}" for it in range(7))), "n": [0]})},
        [Livepatch(b"a", [*modules_of(8), Object(b"n", [Function(b"f", b"g")])]), Livepatch(b"b", [Object(b"n", [Function(b"f", b"h", 1)])])]),
    "70 functions, of which another patch changes one": ({0: ("left out 6 functions, 0 targets", {"vmlinux": [*range(63), 68]})}, [
        Livepatch(b"a", [Object(None, FUNCTIONS[:70])]), Livepatch(b"b", [Object(None, FUNCTIONS[68:69])])]),
    "257 symbols": ({it: ("left out 32 functions, 0 targets", {"n": range(32)}) for it in range(4)}, TOO_MANY["257 symbols"][1]),
    "18 objects in all": ({it: ("left out 0 functions, 1 targets", no_functions(*(f"m{it}_{at}" for at in range(5)))) for it in range(2)},
                          TOO_MANY["18 objects in all"][1]),
    "what fits, and has room for all": ({}, [Livepatch(b"a", [Object(None, FUNCTIONS[:64], CALLBACKS), *modules_of(7)], states=[(7, 1)], replaces=True)]),
    "replace set by code, and 65 functions": ({0: ("left out 1 functions, 0 targets", {"vmlinux": range(64)})},
                                              [Livepatch(b"a", [Object(None, FUNCTIONS[:65])], sets_replace=True)]),
}
# Livepatches of which too much must stay.
UNCUT = {
    "9 objects with callbacks": (of_patch("a", 0, too_many(9, "objects", 8)), [Livepatch(b"a", modules_of(9, range(9)))]),
    "65 functions that other patches change": (of_patch("a", 0, too_many(66, "functions", 64)), [
        Livepatch(b"a", [Object(None, FUNCTIONS[:66])]), Livepatch(b"b", [Object(None, FUNCTIONS[:40])]),
        Livepatch(b"c", [Object(None, [Function(it.name, b"new", 1) for it in FUNCTIONS[40:65]])])]),
    "17 states": TOO_MANY["17 states"], "17 patches": TOO_MANY["17 patches"],
}
# Names that no catalog can have, and symbols that aren't a kernel's, each with the reason. `s` stands for the file of symbols.
NO_ROW = "it isn't one of /proc/kallsyms: wanted is ADDRESS LETTER NAME [MODULE]"
ODD = {
    "a name with a point": (of_patch("a.b", 0, no_name("", NAME)), "", [Livepatch(b"a.b", [Object(None, [Function(b"g", b"g")])])]),
    "a name of 56 letters, behind another patch": (of_patch("a" * 56, 1, no_name("", NAME)), "", [Livepatch(b"b", []), Livepatch(b"a" * 56, [])]),
    "an object with a slash": (of_patch("a", 0, no_name("object m/n: ", NAME)), "", [Livepatch(b"a", [Object(None, []), Object(b"m/n", [])])]),
    "a function with an at": (of_patch("a", 0, no_name("function f@1 of m: ", SYMBOL)), "", [Livepatch(b"a", [Object(b"m", [Function(b"f@1", b"g")])])]),
    "a function without a name": (of_patch("a", 0, no_name("function  of m: ", SYMBOL)), "", [Livepatch(b"a", [Object(b"m", [Function(b"", b"g")])])]),
    "a function of 128 letters": (of_patch("a", 0, no_name(f"function {'f' * 128} of m: ", SYMBOL)), "", [
        Livepatch(b"a", [Object(b"m", [Function(b"f" * 128, b"g")])])]),
    "two tables for an object": (of_patch("a", 0, "object vmlinux: it has two tables, and a catalog has room for one"), "", [
        Livepatch(b"a", [Object(None, [Function(b"g", b"g")]), Object(b"m", []), Object(None, [])])]),
    "a state twice": (of_patch("a", 0, "state 7: it is there twice, and a catalog has room for one"), "", [Livepatch(b"a", [], states=[(7, 1), (8, 1), (7, 2)])]),
    "a line of symbols without a name": (f"{{s}}: line 2: {NO_ROW}", "ffffffff81000100 T ftrace_caller\nffffffff81000200 t\n", [Livepatch(b"a", [])]),
    "a faulty line behind an empty one": (f"{{s}}: line 3: {NO_ROW}", "ffffffff81000200 t f\n\nx t f\n", [Livepatch(b"a", [])]),
    "a module without brackets": (f"{{s}}: line 1: {NO_ROW}", "ffffffff81000100 T f m\n", [Livepatch(b"a", [])]),
    "an address of 17 digits": (f"{{s}}: line 1: {NO_ROW}", "0ffffffff81000100 T f\n", [Livepatch(b"a", [])]),
    "addresses of 0": ("{s}: all addresses are 0: only root reads them in /proc/kallsyms",
                       "0000000000000000 T f\n0000000000000000 t g\n", [Livepatch(b"a", [Object(None, [Function(b"g", b"g")])])]),
}


def cases(source_of, names, written):
    """The tests, for testing/modules.py: by name, what to call with what. `written` calls with livepatches in files."""
    examples = [source_of(it) for it in names]
    made = {f"the catalog of {it['patch']}": (catalog, None, it) for it in examples}
    made["the catalog of all examples"] = (catalog, None, *examples)
    made["the catalog of all examples over a kernel"] = (catalog, KERNEL, *examples)
    made["the catalog of the document"] = (of_example,)
    for name, patches in MADE.items():
        made[f"the catalog of {name}"] = (written, functools.partial(catalog, None), *patches)
        made[f"the catalog of {name}, over a kernel"] = (written, functools.partial(catalog, KERNEL), *patches)
    for name, (reason, patches) in TOO_MANY.items():
        made[f"no catalog of {name}"] = (written, functools.partial(refused_catalog, reason, ""), *patches)
    for name, (cuts, patches) in CUT.items():
        made[f"the catalog, cut down, of {name}"] = (written, functools.partial(cut, cuts), *patches)
    for name, (reason, patches) in UNCUT.items():
        made[f"no catalog, cut down, of {name}"] = (written, functools.partial(refused_catalog, reason, "", options=["--cut"]), *patches)
    for name, (reason, symbols, patches) in ODD.items():
        made[f"no catalog of {name}"] = (written, functools.partial(refused_catalog, reason, symbols), *patches)
    made["the catalog over a module's file"] = (written, functools.partial(over_target, "n", KERNEL), *OVER_TARGET)
    made["the catalog over a module's file, which is loaded"] = (written, functools.partial(over_target, "m", KERNEL), *OVER_TARGET)
    made["no catalog over a module without a name"] = (
        written, functools.partial(refused_target, elf.target(None, []), "its name is wanted in its section .modinfo: name="), *OVER_TARGET)
    made["no catalog over a module that is none"] = (
        written, functools.partial(refused_target, b"x", "it isn't an ELF file: wanted is a module, .ko"), *OVER_TARGET)
    for name, (text, wanted) in LISTS.items():
        made[f"functions that can be traced, {name}"] = (written, functools.partial(traceable, text, wanted), *TRACED)
    for name, (wanted, patches) in VARIABLES.items():
        made[f"positions of variables, {name}"] = (written, functools.partial(over_variables, wanted), *patches)
    made["no list of functions"] = (written, functools.partial(bad_list, "f\n\nf m\n", f"line 3: {NO_FUNCTION}"), *TRACED)
    return made
