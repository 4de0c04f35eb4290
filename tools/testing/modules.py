"""klpko over livepatch modules: the real ones of examples/modules, what their sources say, and files that no compiler makes.

What is wanted of a real module comes from its source, which is read here by rules of C, and what is wanted of two patches from
the kernel's rule for system states, written here a second time. Files that no compiler makes are written by testing/elf.py.
"""
import functools
import glob
import json
import os
import re
import tempfile

from testing import elf, images, module_catalogs
from testing.elf import Function, Livepatch, Object
from testing.run import EXAMPLES, fault, read, run

FOLDER = "modules"
RELEASE = "6.1.0-57-amd64"
CLEAN, FAULTY, REFUSED, FINDINGS = 0, 1, 2, 3
CALLBACKS = ("pre_patch", "post_patch", "pre_unpatch", "post_unpatch")
# How many functions are named in a line.
NAMED = 5
NO_LIVEPATCH = "it isn't a livepatch: livepatch=Y is wanted in its section .modinfo"
NO_PATCH = ("a struct klp_patch is wanted: no variable of its size begins with a pointer to the module, and there is no section .kpatch.funcs or "
            ".init.klp_objects")
SEVERAL = "one struct klp_patch is wanted: several variables of its size begin with a pointer to the module"
SETS = "its code sets whether it replaces"
REPLACES = {"no": "replaces no other patch", "yes": "replaces all patches before it",
            "unknown": f"{SETS} those before it, so that isn't known"}


# What a source says.

def tokens_of(text):
    """The tokens of a source without its comments, with its macros for numbers replaced."""
    text = re.sub(r"/\*.*?\*/|//[^\n]*", " ", text, flags=re.S)
    macros = dict(re.findall(r"^#define\s+(\w+)\s+(\d+)\s*$", text, re.M))
    text = re.sub(r"^#.*$", " ", text, flags=re.M)
    return [macros.get(it, it) for it in re.findall(r'"[^"]*"|[A-Za-z_]\w*|0x[0-9a-f]+|\d+|[^\s]', text)]


def initializer(tokens, at):
    """The value of an initializer: a list of rows, each a field's name, or its number, and its value. And what is behind it."""
    if tokens[at] != "{":
        return tokens[at], at + 1
    rows, at = [], at + 1
    while tokens[at] != "}":
        name = len(rows)
        if tokens[at] == ".":
            name, at = tokens[at + 1], at + 3
        value, at = initializer(tokens, at)
        rows.append((name, value))
        at += tokens[at] == ","
    return rows, at + 1


def variables(tokens, kind):
    """The initialized variables of a struct, by name."""
    found = {}
    for at in range(len(tokens) - 3):
        if tokens[at : at + 2] == ["struct", kind] and re.match(r"\w+$", tokens[at + 2]):
            behind = at + 3 + (2 if tokens[at + 3 : at + 5] == ["[", "]"] else 0)
            if tokens[behind : behind + 2] == ["=", "{"]:
                found[tokens[at + 2]] = initializer(tokens, behind + 1)[0]
    return found


def callbacks_of(rows):
    names = dict(enumerate(CALLBACKS))
    return [it for it in CALLBACKS if it in {names.get(name, name) for name, _ in rows}]


def function_of(row):
    row = dict(row)
    return {"name": row["old_name"].strip('"'), "position": int(row.get("old_sympos", "0"), 0), "new_name": row["new_func"]}


@functools.lru_cache(None)
def source_of(name):
    """What the source of a module says, as klpko tells it to programs."""
    tokens = tokens_of(read(f"{FOLDER}/{name}.c").decode())
    tables, objects, states = (variables(tokens, it) for it in ("klp_func", "klp_object", "klp_state"))
    patch = dict(variables(tokens, "klp_patch")["patch"])
    is_set = any(tokens[at : at + 4] == ["patch", ".", "replace", "="] for at in range(len(tokens)))
    listed = [dict(row) for _, row in objects[patch["objs"]] if row]
    return {
        "patch": name.replace("-", "_"), "file": f"{FOLDER}/{name}.ko", "release": RELEASE,
        "replaces": "unknown" if is_set else "yes" if patch.get("replace") == "true" else "no",
        "states": [{"id": int(dict(it)["id"], 0), "version": int(dict(it)["version"], 0)} for _, it in states.get(patch.get("states"), []) if it],
        "objects": [{
            "name": it.get("name", "NULL").strip('"') if it.get("name", "NULL") != "NULL" else "vmlinux",
            "callbacks": callbacks_of(it.get("callbacks", [])),
            "functions": [function_of(row) for _, row in tables[it["funcs"]] if row],
        } for it in listed],
    }


NAMES = sorted(os.path.basename(it)[:-2] for it in glob.glob(f"{EXAMPLES}/{FOLDER}/*.c"))
LIVEPATCHES = [it for it in NAMES if it != "not_a_livepatch"]


# What klpko says of it.

def listed(patch):
    """A patch in words."""
    yield f"patch {patch['patch']}, for {patch['release']}: {REPLACES[patch['replaces']]}"
    yield from (f"  state {it['id']}, version {it['version']}" for it in patch["states"])
    for it in patch["objects"]:
        yield f"  object {it['name']}" + (": callbacks " if it["callbacks"] else "") + ", ".join(it["callbacks"])
        for function in it["functions"]:
            position = f",{function['position']}" if function["position"] else ""
            yield f"    {function['name']}{position} -> {function['new_name']}"


def changed(patch):
    return [(it["name"], row["name"], max(row["position"], 1)) for it in patch["objects"] for row in it["functions"]]


def spelled(function):
    return f"{function[0]}:{function[1]}" + (f",{function[2]}" if function[2] > 1 else "")


def some(functions):
    more = len(functions) - NAMED
    return ", ".join(functions[:NAMED]) + (f" and {more} more (--json names them)" if more > 0 else "")


def refusal(older, newer, replaces):
    """The kernel's rule: no state gets older, and a patch that replaces others has all states of theirs."""
    own = {it["id"]: it["version"] for it in newer["states"]}
    for state in older["states"]:
        if own.get(state["id"], -1 if replaces else state["version"]) < state["version"]:
            return {"state": state["id"], "version_of_older": state["version"], "version_of_newer": own.get(state["id"])}
    return None


def outcome(older, newer, replaces):
    """What becomes of the older patch, as klpko tells it to programs."""
    said = {"older": older["patch"], "newer": newer["patch"], "functions": [], "unrun": []}
    name, refused = older["patch"], refusal(older, newer, replaces)
    if refused:
        state, other, own = refused.values()
        lacks = f"it replaces {name}, and lacks its state {state}"
        why = lacks if own is None else f"its state {state} has version {own}, and that of {name} {other}"
        return {**said, "finding": True, "outcome": "refused", "refusal": refused, "sentence": f"is refused: {why}"}
    mine = set(changed(newer))
    if replaces:
        said["functions"] = [spelled(it) for it in changed(older) if it not in mine]
        said["unrun"] = [it["name"] for it in older["objects"] if {"pre_unpatch", "post_unpatch"} & set(it["callbacks"])]
        sentence = f"takes out {name}" + (f"; the original runs again of {some(said['functions'])}" if said["functions"] else "")
        if said["unrun"]:
            sentence += f"; never run are its callbacks pre_unpatch and post_unpatch for {', '.join(said['unrun'])}"
    else:
        said["functions"] = [spelled(it) for it in changed(older) if it in mine]
        both = f"; both change {some(said['functions'])}, so tasks run the newer version" if said["functions"] else ""
        sentence = f"stands beside {name}{both}"
    return {**said, "finding": bool(said["functions"]), "outcome": "taken-out" if replaces else "beside", "sentence": sentence}


def judged(older, newer):
    """All outcomes of a pair."""
    if newer["replaces"] != "unknown":
        return [outcome(older, newer, newer["replaces"] == "yes")]
    return [{**outcome(older, newer, it), "finding": True, "if_it_replaces": it} for it in (True, False)]


def pairs(patches):
    return [judged(older, newer) for older in patches for newer in patches if older is not newer]


def in_words(outcomes):
    """A pair as a line of words."""
    first, word = outcomes[0], "finding" if any(it["finding"] for it in outcomes) else "remark"
    sentence = first["sentence"]
    if len(outcomes) == 2:
        sentence = f"{SETS} patches: if so, it {sentence}; else it {outcomes[1]['sentence']}"
    return f"{word}: {first['newer']} over {first['older']}: {sentence}"


def lines(made):
    return "".join(f"{it}\n" for it in made).encode()


def objects_in(came):
    """The status, the objects and the standard error of a run that answers for programs."""
    return came[0], [json.loads(it) for it in came[1].splitlines()], came[2]


def status_of(is_clean):
    return CLEAN if is_clean else FINDINGS


def tables(name, *patches):
    """The tables of modules, in words and for programs. `name` is that of an example, if no patches are given."""
    patches = patches or (source_of(name),)
    status = status_of(not any(it["replaces"] == "unknown" for it in patches))
    files = [it["file"] for it in patches]
    said = lines(row for it in patches for row in listed(it))
    return (fault(run(["klpko", "--list", *files]), (status, said, ""))
            or fault(objects_in(run(["klpko", "--list", "--json", *files])), (status, list(patches), "")))


def matrix(*patches):
    """What becomes of each patch under each other one, in words and for programs."""
    made = pairs(patches)
    status = status_of(not any(it["finding"] for pair in made for it in pair))
    files = [it["file"] for it in patches]
    return (fault(run(["klpko", "--matrix", *files]), (status, lines(in_words(it) for it in made), ""))
            or fault(objects_in(run(["klpko", "--json", "--matrix", *files])), (status, [it for pair in made for it in pair], "")))


def sourced(*names):
    return matrix(*(source_of(it) for it in names))


# Files that are made here.

def made_in(room, patches):
    """Writes livepatches to files, and returns what klpko tells of them."""
    said = []
    for number, patch in enumerate(patches):
        path = f"{room}/{number}.ko"
        with open(path, "wb") as it:
            it.write(patch.module())
        said.append({**patch.said(), "file": path})
    return said


def written(check, *patches):
    """Livepatches that are written here are read, and judged."""
    with tempfile.TemporaryDirectory(prefix="modules-") as room:
        return check(*made_in(room, patches))


def list_written(*patches):
    return tables(None, *patches)


def refused(data, wanted):
    """A file is refused with this reason, by either question."""
    with tempfile.TemporaryDirectory(prefix="modules-") as room:
        path = f"{room}/a.ko"
        with open(path, "wb") as it:
            it.write(data)
        said = (FAULTY, b"", f"klpko: {path}: {wanted}\n")
        return fault(run(["klpko", "--list", path]), said) or fault(run(["klpko", "--matrix", path]), said)


def beside_faulty():
    """The patches of the other files are listed, but not compared."""
    good, bad = f"{FOLDER}/cumulative.ko", f"{FOLDER}/not_a_livepatch.ko"
    said, patch = f"klpko: {bad}: {NO_LIVEPATCH}\n", source_of("cumulative")
    return (fault(run(["klpko", "--list", bad, good]), (FAULTY, lines(listed(patch)), said))
            or fault(run(["klpko", "--matrix", bad, good]), (FAULTY, b"", said)))


def twice():
    """A patch is loaded once."""
    path = f"{FOLDER}/cumulative.ko"
    said = f"klpko: {path}: it is the patch cumulative, as {path} is\n"
    return fault(run(["klpko", "--matrix", path, path]), (FAULTY, b"", said))


def too_many_files():
    paths = 65 * [f"{FOLDER}/cumulative.ko"]
    return fault(run(["klpko", "--list", *paths]), (FAULTY, b"", "klpko: 65 files are given, and 64 are the most\n"))


def cut_off(name):
    """A file that is cut off anywhere is refused, for one reason."""
    data = read(f"{FOLDER}/{name}.ko")
    with tempfile.TemporaryDirectory(prefix="modules-") as room:
        path = f"{room}/a.ko"
        for length in (*range(0, 70, 7), *range(100, len(data), 401), len(data) - 1):
            with open(path, "wb") as it:
                it.write(data[:length])
            reason = "it isn't an ELF file: wanted is a module, .ko" if length < 64 else (
                f"its section headers end behind the file, which has {length} bytes: it is cut off")
            wrong = fault(run(["klpko", "--list", path]), (FAULTY, b"", f"klpko: {path}: {reason}\n"))
            if wrong:
                return f"{length} bytes: {wrong}"
    return None


def sample(**how):
    """A livepatch of two functions and a state."""
    functions = [Function(b"one", b"new_one"), Function(b"two", b"new_two", 2)]
    return Livepatch(b"sample", [Object(None, functions)], states=[(7, 3)], **how)


def faults():
    """Files that are refused, each by what is wrong with it, and the reason that is told."""
    good = sample()
    data = good.module()
    yield "nothing", b"", "it isn't an ELF file: wanted is a module, .ko"
    yield "a compressed module, xz", b"\xfd7zXZ\x00" + data, "it is compressed: unpack it by xz -dk"
    yield "a compressed module, zstd", b"\x28\xb5\x2f\xfd" + data, "it is compressed: unpack it by zstd -d"
    yield "a compressed module, gzip", b"\x1f\x8b\x08" + data, "it is compressed: unpack it by gzip -dk"
    yield "an image", b"MZ" + bytes(0x200) + b"HdrS" + bytes(64), "it is a kernel's image: wanted is a module, .ko"
    yield "32 bits", elf.with_bytes(data, 4, b"\x01"), "it isn't a 64-bit little-endian ELF file"
    yield "big-endian", elf.with_bytes(data, 5, b"\x02"), "it isn't a 64-bit little-endian ELF file"
    yield "for ARM", elf.with_bytes(data, 18, (183).to_bytes(2, "little")), "it isn't for x86-64"
    yield "a program", elf.with_bytes(data, 16, (2).to_bytes(2, "little")), "it isn't relocatable, as a module is"
    yield "a section behind the file", good.module(section_behind=".modinfo"), (
        f"section {good.number('.modinfo')} ends behind the file, which has {len(data)} bytes: it is cut off")
    yield "no livepatch", sample(is_livepatch=False).module(), NO_LIVEPATCH
    yield "no name", sample(is_named=False).module(), "its name is wanted in its section .modinfo: name="
    yield "no symbols", good.module(without_symbols=True), "it has no symbols, so no kernel loads it"
    yield "no struct klp_patch", good.module(patch_size=192), NO_PATCH
    yield "two structs klp_patch", good.module(patches=2), SEVERAL
    at = good.place
    pointer = "a pointer is wanted, and "
    yield "two relocations of one place", good.module(doubled=at("objs", 8)), f"{at('objs', 8)}: {pointer}several relocations are there"
    yield "a relocation of four bytes", good.module(short=at("objs", 8)), f"{at('objs', 8)}: {pointer}the relocation makes none"
    yield "a number for a pointer", good.module(numbers={at("objs", 0): 5}), f"{at('objs', 0)}: {pointer}a number is there"
    yield "no objects", good.module(dropped=at("patch", 8)), f"{at('patch', 8)}: a pointer to a table of the module is wanted"
    yield "states elsewhere", good.module(outside=at("patch", 16)), f"{at('patch', 16)}: a pointer to a table of the module is wanted"
    yield "functions elsewhere", good.module(outside=at("objs", 8)), f"{at('objs', 8)}: a pointer to a table of the module is wanted"
    yield "no old name", good.module(dropped=at("funcs0", 152)), f"{at('funcs0', 152)}: a pointer to a name is wanted"
    yield "no new function", good.module(dropped=at("funcs0", 160)), f"{at('funcs0', 160)}: a pointer to a function of the module is wanted"
    yield "a callback that is a number", good.module(numbers={at("objs", 40): 9}), f"{at('objs', 40)}: {pointer}a number is there"
    yield "a name without an end", good.module(endless=True), f"{good.place('names', good.last_name)}: a name's end is wanted, a 0"
    layout = "by the layout of Linux 5.5 to 7.3: --btf gives another one"
    yield "a smaller row of functions", good.module(sizes={"funcs0": 448}), f"{at('funcs0', 0)}: funcs0 has 448 bytes, and its rows have 456 bytes {layout}"
    yield "a smaller row of objects", good.module(sizes={"objs": 320}), f"{at('objs', 0)}: objs has 320 bytes, and its rows have 336 bytes {layout}"
    yield "a smaller row of states", good.module(sizes={"states": 32}), f"{at('states', 0)}: states has 32 bytes, and its rows have 48 bytes {layout}"
    many = [Function(b"f%d" % it, b"new") for it in range(4097)]
    yield "4,097 functions", Livepatch(b"a", [Object(None, many[:9]), Object(b"m", many[9:])]).module(), "it has over 4096 functions"
    yield "257 objects", Livepatch(b"a", [Object(b"m%d" % it, []) for it in range(257)]).module(), "it has over 256 objects"
    yield "65 states", Livepatch(b"a", [], states=[(it, 1) for it in range(1, 66)]).module(), "it has over 64 states"


# Livepatches, or lists of them, that no example has.
WRITTEN = {
    "no object": [Livepatch(b"a", [])],
    "an object without functions": [Livepatch(b"a", [Object(b"m", None, CALLBACKS[1:2])])],
    "positions": [Livepatch(b"a", [Object(b"m", [Function(b"f", b"f_one", 1), Function(b"f", b"f_two", 2)])], replaces=True)],
    "the first position and none": [
        Livepatch(b"a", [Object(None, [Function(b"f", b"new_f")])]), Livepatch(b"b", [Object(None, [Function(b"f", b"new_f", 1)])]),
    ],
    "one name in two objects": [
        Livepatch(b"a", [Object(b"m", [Function(b"f", b"new_f")])]), Livepatch(b"b", [Object(None, [Function(b"f", b"new_f")])], replaces=True),
    ],
    "more functions than a line names": [
        Livepatch(b"a", [Object(None, [Function(b"f%d" % it, b"new_f") for it in range(9)])]), Livepatch(b"b", [], replaces=True),
    ],
    "a state that gets older": [Livepatch(b"a", [], states=[(1, 2), (2, 2)]), Livepatch(b"b", [], states=[(2, 1), (1, 2)])],
    "a state that one lacks": [Livepatch(b"a", [], states=[(1, 0)]), Livepatch(b"b", [], replaces=True), Livepatch(b"c", [])],
    "the largest numbers": [Livepatch(b"a", [Object(None, [Function(b"f", b"g", 2**64 - 1)])], states=[(2**64 - 1, 2**32 - 1)])],
    "names that would control a terminal": [Livepatch(b"a\x1b[2J", [Object(b"m\x07", [Function(b"f\xff", b"g\n")])], release=b"\x1b")],
    "4,096 functions": [Livepatch(b"a", [Object(None, [Function(b"f%d" % it, b"new_f") for it in range(4096)])])],
    "256 objects and 64 states": [Livepatch(b"a", [Object(b"m%d" % it, []) for it in range(256)], states=[(it, 1) for it in range(1, 65)])],
    "replace set by code": [Livepatch(b"a", [], sets_replace=True), Livepatch(b"b", [Object(None, [Function(b"f", b"g")], CALLBACKS[3:])])],
    "64 patches": [Livepatch(b"p%d" % it, [], replaces=it % 2) for it in range(64)],
}


def cases():
    made = {f"the tables of {it}": (tables, it) for it in LIVEPATCHES}
    made["all tables"] = (tables, None, *(source_of(it) for it in LIVEPATCHES))
    made["all pairs"] = (sourced, *LIVEPATCHES)
    made.update({f"{newer} and {older}": (sourced, older, newer) for newer in LIVEPATCHES for older in LIVEPATCHES if older < newer})
    made.update({f"a file with {name}": (refused, data, wanted) for name, data, wanted in faults()})
    made.update({f"the tables of {name}": (written, list_written, *patches) for name, patches in WRITTEN.items()})
    made.update({f"the pairs of {name}": (written, matrix, *patches) for name, patches in WRITTEN.items()})
    made.update(module_catalogs.cases(source_of, LIVEPATCHES, written))
    made.update(images.cases(written))
    made["a faulty file and another"] = (beside_faulty,)
    made["a file twice"] = (twice,)
    made["65 files"] = (too_many_files,)
    made.update({f"{it}, cut off": (cut_off, it) for it in ("two_objects", "test_klp_state2")})
    return [(f"modules, {name}", functools.partial(*call)) for name, call in made.items()]
