"""klpko over livepatch modules in the forms of kpatch-build and klp-build, and over layouts of the kernel's structs (BTF).

What is wanted of the two modules that the tools made is worked out by hand from their sources and fixes, and from the bytes of
their sections where these count positions. Modules that no tool makes, and BTF, are written here.
"""
import dataclasses
import functools
import struct
import tempfile

from testing import elf, modules
from testing.elf import ADDRESS, ALLOC, BYTES, CALLBACKS, CODE, EXECUTE, INFO, NO_KIND, RELOCATIONS, STRINGS, SYMBOLS, Function, Livepatch, Object, Strings
from testing.run import fault, read, run

NAMES = ".rodata.str1.1"
FUNCTIONS, OBJECTS = ".kpatch.funcs", ".init.klp_objects"
SECTION_SYMBOL = 3


def said_of(patch, release, objects, file=None):
    """What klpko tells of a patch of a tool to programs: its objects are names with callbacks and functions."""
    return {
        "patch": patch, **({"file": file} if file else {}), "release": release, "replaces": "unknown", "states": [],
        "objects": [{
            "name": name, "callbacks": callbacks,
            "functions": [{"name": old, "position": position, "new_name": new} for old, position, new in functions],
        } for name, callbacks, functions in objects],
    }


# kpatch-build gives a new function the name of the old one. It counts positions of local symbols from 1, by their addresses, which in
# this module of Debian's are all 0: so `both` has the position 2, though its symbol is the first of this name.
FIXES = said_of("livepatch_fixes", "6.1.0-57-amd64", [
    ("vmlinux", ["pre_patch"], [("cmdline_proc_show", 1, "cmdline_proc_show")]),
    ("twins", ["post_unpatch"], [("both", 2, "both"), ("twice", 2, "twice")]),
], "modules/livepatch_fixes.ko")
# objtool counts positions in a module by the order of its symbols, and only where there are several. gcc 14 has made a version of each of
# these functions for its only call, and the `twice` of twins_warm.c is the second symbol `twice.isra.0`.
BUILT = said_of("livepatch_built", "7.2.12+deb13-amd64", [
    ("vmlinux", ["pre_patch"], [("cmdline_proc_show", 0, "cmdline_proc_show")]),
    ("twins", ["post_unpatch"], [("both.isra.0", 0, "both.isra.0"), ("twice.isra.0", 2, "twice.isra.0")]),
], "modules/livepatch_built.ko")


@dataclasses.dataclass(frozen=True)
class ToolModule:
    """A livepatch of a tool: its name and its tables. A table is a section by its name, with its bytes and the pointers in them, each by
    its offset: to a name, to a function, or to a place of another table."""

    name: bytes
    tables: dict
    objects: list
    is_endless: bool = False

    def said(self):
        objects = [("vmlinux" if it.name is None else it.name.decode(), [name for name in CALLBACKS if name in it.callbacks],
                    [(row.name.decode(), row.position, row.new_name.decode()) for row in it.functions]) for it in self.objects]
        return said_of(self.name.decode(), "6.1.0-57-amd64", objects)

    def sections(self):
        made = {"": (0, 0), ".text": (BYTES, ALLOC | EXECUTE)}
        for name in self.tables:
            made.update({name: (BYTES, ALLOC), f".rela{name}": (RELOCATIONS, INFO)})
        return {**made, NAMES: (BYTES, ALLOC), ".modinfo": (BYTES, ALLOC), ".symtab": (SYMBOLS, 0), ".strtab": (STRINGS, 0), ".shstrtab": (STRINGS, 0)}

    def place(self, section, offset):
        """A place of the module, as klpko names it."""
        return f"section {list(self.sections()).index(section)} ({section}), offset {offset}"

    def module(self):
        """The bytes of the module."""
        sections, strings, names, functions = self.sections(), Strings(b"\0"), Strings(), {}
        numbers = {it: number for number, it in enumerate(sections)}
        homes = [NAMES, *self.tables]
        symbols = [(0, NO_KIND, 0, 0, 0)] + [(0, SECTION_SYMBOL, numbers[it], 0, 0) for it in homes] + [(strings.add(b"printk"), NO_KIND, 0, 0, 0)]
        outside, parts = len(symbols) - 1, dict.fromkeys(sections, b"")
        for section, (data, pointers) in self.tables.items():
            rows = b""
            for at, (kind, *to) in sorted(pointers.items()):
                symbol, addend = outside, 0
                if kind == "name":
                    symbol, addend = 1, names.add(to[0])
                elif kind == "place":
                    symbol, addend = 1 + homes.index(to[0]), to[1]
                elif kind == "function":
                    if to[0] not in functions:
                        functions[to[0]] = len(symbols)
                        symbols.append((strings.add(to[0]), CODE, numbers[".text"], 16 * len(functions) - 16, 16))
                    symbol = functions[to[0]]
                rows += struct.pack("<QQQ", at, symbol << 32 | ADDRESS, addend)
            parts.update({section: bytes(data), f".rela{section}": rows})
        info = (b"livepatch=Y", b"name=" + self.name, b"vermagic=6.1.0-57-amd64 SMP ")
        parts.update({
            ".text": bytes(16 * len(functions)), NAMES: names.data[: -1 if self.is_endless else None], ".modinfo": b"".join(it + b"\0" for it in info),
            ".strtab": strings.data, ".symtab": b"".join(struct.pack("<IBBHQQ", name, kind, 0, home, value, size) for name, kind, home, value, size in symbols),
        })
        return elf.written(parts, None, False, ".data", sections)


def kpatch(rows, callbacks=(), *, padding=bytes(8), wanted=None, **how):
    """A livepatch as kpatch-build makes it. A row is an object's name with a function, and callbacks are names of objects by their kind."""
    data, pointers, found = bytearray(56 * len(rows)), {}, {}
    for at, (owner, function) in enumerate(rows):
        pointers.update({56 * at: ("function", function.new_name), 56 * at + 40: ("name", function.name), 56 * at + 48: ("name", owner)})
        struct.pack_into("<Q", data, 56 * at + 32, function.position)
        found.setdefault(owner, ([], []))[0].append(function)
    tables = {FUNCTIONS: (data, pointers)}
    for kind, owners in dict(callbacks).items():
        place = {16 * at + by: it for at, owner in enumerate(owners) for by, it in ((0, ("function", b"callback")), (8, ("name", owner)))}
        tables[f".kpatch.callbacks.{kind}"] = (bytes(16 * len(owners)) + padding, place)
        for owner in owners:
            found.setdefault(owner, ([], []))[1].append(kind)
    objects = [Object(None if name == b"vmlinux" else name, functions, tuple(kinds)) for name, (functions, kinds) in found.items()]
    return ToolModule(b"patched", tables, objects if wanted is None else wanted, **how)


def built(objects, **how):
    """A livepatch as klp-build makes it."""
    data, pointers, rows, places = bytearray(64 * len(objects)), {}, bytearray(), {}
    for at, it in enumerate(objects):
        if it.name is not None:
            pointers[64 * at] = ("name", it.name)
        if it.functions:
            pointers[64 * at + 8] = ("place", ".init.klp_funcs", len(rows))
        pointers.update({64 * at + 16 + 8 * k: ("function", b"callback") for k, kind in enumerate(CALLBACKS) if kind in it.callbacks})
        struct.pack_into("<I", data, 64 * at + 56, len(it.functions))
        for function in it.functions:
            places.update({len(rows): ("name", function.name), len(rows) + 8: ("function", function.new_name)})
            rows += struct.pack("<QQQ", 0, 0, function.position)
    return ToolModule(b"built", {".init.klp_funcs": (rows, places), OBJECTS: (data, pointers)}, objects, **how)


def edited(module, section, *, size=None, dropped=None, numbers=(), to=()):
    """A module with another size of a section, without a pointer, with numbers of four bytes, or with pointers to something else."""
    data, pointers = module.tables[section]
    data = bytearray(data) if size is None else bytearray(data).ljust(size, b"\0")[:size]
    for at, number in dict(numbers).items():
        struct.pack_into("<I", data, at, number)
    pointers = {**{at: it for at, it in pointers.items() if at != dropped}, **dict(to)}
    return dataclasses.replace(module, tables={**module.tables, section: (data, pointers)})


ONE, TWO = Function(b"one", b"one"), Function(b"two", b"two", 2)
# Livepatches that no example has.
WRITTEN = {
    "kpatch-build, without a row": kpatch([]),
    "kpatch-build, without sections of callbacks": kpatch([(b"vmlinux", ONE)]),
    "kpatch-build, callbacks without zeros behind them": kpatch([(b"m", ONE)], {"pre_patch": [b"m"]}, padding=b""),
    "kpatch-build, objects between each other": kpatch([(b"m", ONE), (b"vmlinux", TWO), (b"m", TWO), (b"n", ONE), (b"vmlinux", ONE)]),
    "kpatch-build, objects with callbacks alone": kpatch([(b"m", ONE)], {"post_patch": [b"n", b"vmlinux"], "pre_unpatch": [b"o", b"n"]}),
    "kpatch-build, all callbacks": kpatch([(b"m", ONE)], {it: [b"m", b"vmlinux"] for it in CALLBACKS}),
    "kpatch-build, 4,096 functions": kpatch([(b"m", Function(b"f%d" % it, b"g")) for it in range(4096)]),
    "kpatch-build, 256 objects": kpatch([(b"m%d" % it, ONE) for it in range(255)], {"pre_patch": [b"last"]}),
    "klp-build, without an object": built([]),
    "klp-build, the image": built([Object(None, [ONE, TWO])]),
    "klp-build, objects": built([Object(b"m", [TWO], CALLBACKS[1:3]), Object(None, [ONE, TWO], CALLBACKS[:1]), Object(b"n", [ONE])]),
    "klp-build, an object without functions": built([Object(b"m", [], CALLBACKS), Object(None, [ONE])]),
    "klp-build, 4,096 functions": built([Object(b"m", [Function(b"f%d" % it, b"g") for it in range(4000)]), Object(None, [ONE] * 96)]),
    "klp-build, 256 objects": built([Object(b"m%d" % it, [ONE]) for it in range(256)]),
}


def faults():
    """Files that are refused, each by what is wrong with it, and the reason that is told."""
    pointer = "a pointer is wanted, and a number is there"
    good = kpatch([(b"vmlinux", ONE), (b"m", TWO)], {"pre_patch": [b"m", b"vmlinux"]})
    at, pre = good.place, ".kpatch.callbacks.pre_patch"
    yield "kpatch-build, half a row", edited(good, FUNCTIONS, size=140), f"{at(FUNCTIONS, 0)}: rows of 56 bytes are wanted, and the section has 140 bytes"
    yield "kpatch-build, half a callback", edited(good, pre, size=36), f"{at(pre, 0)}: rows of 16 bytes are wanted, and the section has 36 bytes"
    yield "kpatch-build, a row without an object", edited(good, FUNCTIONS, dropped=104), f"{at(FUNCTIONS, 104)}: a pointer to a name is wanted"
    yield "kpatch-build, a row without a name", edited(good, FUNCTIONS, dropped=40), f"{at(FUNCTIONS, 40)}: a pointer to a name is wanted"
    yield "kpatch-build, a row without a function", edited(good, FUNCTIONS, dropped=56), f"{at(FUNCTIONS, 56)}: a pointer to a function of the module is wanted"
    yield "kpatch-build, a number for an object", edited(good, FUNCTIONS, dropped=48, numbers={48: 7}), f"{at(FUNCTIONS, 48)}: {pointer}"
    yield "kpatch-build, a name elsewhere", edited(good, FUNCTIONS, to={40: ("outside",)}), f"{at(FUNCTIONS, 40)}: a pointer to a name is wanted"
    yield "kpatch-build, a callback without a function", edited(good, pre, dropped=16), f"{at(pre, 16)}: a pointer to a function of the module is wanted"
    yield "kpatch-build, a callback without an object", edited(good, pre, dropped=8), f"{at(pre, 8)}: a pointer to a name is wanted"
    twice = kpatch([(b"m", ONE)], {"pre_patch": [b"n", b"m", b"n"]})
    yield "kpatch-build, a second callback", twice, f"{twice.place(pre, 32)}: its object has a callback of this kind already"
    yield "kpatch-build, 4,097 functions", kpatch([(b"m", ONE)] * 4097), "it has over 4096 functions"
    yield "kpatch-build, 257 objects", kpatch([(b"m%d" % it, ONE) for it in range(257)]), "it has over 256 objects"
    yield "kpatch-build, 257 callbacks", kpatch([], {"pre_patch": [b"m%d" % it for it in range(257)]}), "it has over 256 callbacks of a kind"
    good = built([Object(b"m", [ONE, TWO]), Object(None, [ONE])])
    at, rows = good.place, ".init.klp_funcs"
    yield "klp-build, half a row", edited(good, OBJECTS, size=96), f"{at(OBJECTS, 0)}: rows of 64 bytes are wanted, and the section has 96 bytes"
    yield "klp-build, functions nowhere", edited(good, OBJECTS, dropped=8), f"{at(OBJECTS, 8)}: a pointer to a table of the module is wanted"
    yield "klp-build, functions elsewhere", edited(good, OBJECTS, to={8: ("outside",)}), f"{at(OBJECTS, 8)}: a pointer to a table of the module is wanted"
    yield "klp-build, a name elsewhere", edited(good, OBJECTS, to={0: ("outside",)}), f"{at(OBJECTS, 0)}: a pointer to a name is wanted"
    yield "klp-build, a number for a callback", edited(good, OBJECTS, numbers={80: 7}), f"{at(OBJECTS, 80)}: {pointer}"
    yield "klp-build, too few functions", edited(good, OBJECTS, numbers={120: 2}), f"{at(rows, 72)}: the section ends within the row"
    yield "klp-build, a row without a name", edited(good, rows, dropped=24), f"{at(rows, 24)}: a pointer to a name is wanted"
    yield "klp-build, a row without a function", edited(good, rows, dropped=32), f"{at(rows, 32)}: a pointer to a function of the module is wanted"
    yield "klp-build, 4,097 functions", built([Object(b"m", [ONE] * 4096), Object(None, [ONE])]), "it has over 4096 functions"
    yield "klp-build, a large number of functions", edited(good, OBJECTS, numbers={56: 2**32 - 1}), "it has over 4096 functions"
    yield "klp-build, 257 objects", built([Object(b"m%d" % it, [ONE]) for it in range(257)]), "it has over 256 objects"
    endless = built([Object(None, [ONE])], is_endless=True)
    yield "klp-build, a name without an end", endless, f"{endless.place(NAMES, 0)}: a name's end is wanted, a 0"


def listed(*patches):
    return modules.tables(None, *patches)


def over_target():
    """By the symbols of its module, the second `both` that kpatch-build has counted is the variable."""
    symbols = [(b"twice", CODE, ".text"), (b"both", CODE, ".text"), (b"twice", CODE, ".text"), (b"both", elf.VARIABLE, ".data")]
    with tempfile.TemporaryDirectory(prefix="tools-") as room:
        with open(f"{room}/twins.ko", "wb") as it:
            it.write(elf.target(b"twins", symbols))
        file = FIXES["file"]
        status, _, err = run(["klpko", "--module", f"{room}/twins.ko", file])
        wanted = f"klpko: {file}: the kernel refuses the patch: both,2 of twins is a variable"
        return None if status == 3 and wanted in err.splitlines() else f"status {status} and {err!r}, where 3 and a line {wanted!r} are wanted"


# BTF.

# The structs by their bytes and fields, in Linux 5.5 to 7.3 on x86-64. A field is its name with where it begins.
STRUCTS = {
    "klp_callbacks": (40, [("pre_patch", 0), ("post_patch", 8), ("pre_unpatch", 16), ("post_unpatch", 24), ("post_unpatch_enabled", 32)]),
    "klp_func": (152, [("old_name", 0), ("new_func", 8), ("old_sympos", 16), ("old_func", 24), ("kobj", 32)]),
    "klp_object": (168, [("name", 0), ("funcs", 8), ("callbacks", 16), ("kobj", 56)]),
    "klp_state": (24, [("id", 0), ("version", 8), ("data", 16)]),
    "klp_patch": (200, [("mod", 0), ("objs", 8), ("states", 16), ("replace", 24), ("list", 32)]),
}
# One type of each other kind: the kind, how many rows it has, and the bytes behind its first twelve.
OTHERS = [(1, 0, 4), (2, 0, 0), (3, 0, 12), (5, 1, 12), (6, 2, 16), (7, 0, 0), (8, 0, 0), (9, 0, 0), (10, 0, 0), (11, 0, 0), (12, 0, 0), (13, 1, 8),
          (14, 0, 4), (15, 1, 12), (16, 0, 0), (17, 0, 4), (18, 0, 0), (19, 2, 24)]


def btf(structs, *, others=OTHERS, has_widths=False, bits=0, version=1):
    """The bytes of BTF with these structs behind one type of each other kind. Behind them, each name is there once more."""
    names, types = Strings(b"\0"), b""
    for kind, rows, size in others:
        types += struct.pack("<III", names.add(b"other"), kind << 24 | rows, 8) + bytes(size)
    again = {name: (8, []) for name in structs}
    for name, (size, fields) in [*structs.items(), *again.items()]:
        types += struct.pack("<III", names.add(name.encode()), has_widths << 31 | 4 << 24 | len(fields), size)
        for field, at in fields:
            types += struct.pack("<III", names.add(field.encode()), 1, 8 * at + bits + (has_widths and 8 << 24))
    return struct.pack("<HBBIIIII", 0xEB9F, version, 0, 24, 0, len(types), len(types), len(names.data)) + types + names.data


def without(name, field=None):
    return {it: (size, [row for row in fields if (it, row[0]) != (name, field)]) for it, (size, fields) in STRUCTS.items() if field or it != name}


def larger(by):
    """The structs of a kernel built for debugging, whose internal fields have so many bytes more."""
    sizes = {"klp_patch": 2 * by, "klp_object": by, "klp_func": by}
    return {name: (size + sizes.get(name, 0), fields) for name, (size, fields) in STRUCTS.items()}


def shifted():
    """The same structs with their fields elsewhere."""
    return {name: (size + 8, [(field, at + 8) for field, at in fields]) for name, (size, fields) in STRUCTS.items()}


def with_layout(data, check):
    """Calls a check with the file of a layout."""
    with tempfile.TemporaryDirectory(prefix="layouts-") as room:
        with open(f"{room}/vmlinux", "wb") as it:
            it.write(data)
        return check(f"{room}/vmlinux")


def read_by(data, *patches):
    """Modules are read by a layout, and told as without it."""
    def check(layout):
        files = [it["file"] for it in patches]
        status = modules.status_of(not any(it["replaces"] == "unknown" for it in patches))
        said = modules.lines(row for it in patches for row in modules.listed(it))
        return fault(run(["klpko", "--btf", layout, "--list", *files]), (status, said, ""))
    return with_layout(data, check)


def refused_by(data, wanted, *patches):
    """A module is refused by a layout, for this reason."""
    def check(layout):
        (file,) = [it["file"] for it in patches]
        return fault(run(["klpko", "--list", "--btf", layout, file]), (modules.FAULTY, b"", f"klpko: {file}: {wanted.format(layout=layout)}\n"))
    return with_layout(data, check)


def bad_layout(data, wanted):
    """A layout is refused, and nothing is read."""
    def check(layout):
        came = run(["klpko", "--matrix", "--btf", layout, "modules/cumulative.ko", "modules/two_objects.ko"])
        return fault(came, (modules.FAULTY, b"", f"klpko: {layout}: {wanted}\n"))
    return with_layout(data, check)


def bad_layouts():
    """Layouts that are refused, each by what is wrong with it, and the reason that is told."""
    good, begin = btf(STRUCTS), 24
    yield "nothing", b"", "it isn't BTF: wanted is what /sys/kernel/btf/vmlinux has"
    yield "a module", read("modules/cumulative.ko"), "it isn't BTF: wanted is what /sys/kernel/btf/vmlinux has"
    yield "another version", btf(STRUCTS, version=2), "it is BTF of version 2: version 1 is wanted"
    yield "types behind the file", good[:100], "its types end behind the file: it is cut off"
    yield "names behind the file", good[:-1], "its names end behind the file: it is cut off"
    yield "a type cut off", btf({}, others=[(2, 0, 0), (4, 2, 12)]), f"offset {begin + 12}: a whole type is wanted"
    yield "some bytes of a type", elf.with_bytes(btf({}, others=[(2, 0, 0), (2, 0, 0)]), 12, (20).to_bytes(4, "little")), f"offset {begin + 12}: a whole type is wanted"
    yield "an unknown kind", btf({}, others=[(2, 0, 0), (20, 0, 0)]), f"offset {begin + 12}: a type is of kind 20: kinds 1 to 19 are wanted"
    yield "no kind", btf({}, others=[(0, 0, 0)]), f"offset {begin}: a type is of kind 0: kinds 1 to 19 are wanted"
    yield "no structs", btf({}), "it has no struct klp_patch"
    for name in ("klp_callbacks", "klp_func", "klp_object", "klp_state"):
        yield f"no struct {name}", btf(without(name)), f"it has no struct {name}"
    for name, field in (("klp_patch", "states"), ("klp_object", "callbacks"), ("klp_callbacks", "pre_unpatch"), ("klp_func", "old_sympos"), ("klp_state", "version")):
        yield f"no field {field}", btf(without(name, field)), f"it has no field {field} of struct {name}: wanted are the structs of Linux 5.5 or later"
    yield "fields of bits", btf(STRUCTS, bits=3), "the field mod of struct klp_patch doesn't begin with a byte"
    yield "a large struct", btf({**STRUCTS, "klp_func": (65536, STRUCTS["klp_func"][1])}), "its struct klp_func has over 65535 bytes"
    far = {**STRUCTS, "klp_object": (168, [("name", 0), ("funcs", 65536), ("callbacks", 16)])}
    yield "a field far away", btf(far), "its struct klp_object has over 65535 bytes"
    yield "callbacks far away", btf({**STRUCTS, "klp_object": (168, [("name", 0), ("funcs", 8), ("callbacks", 65530)])}), "its struct klp_object has over 65535 bytes"


def sample(**how):
    return Livepatch(b"sample", [Object(None, [ONE, TWO]), Object(b"m", [ONE], CALLBACKS[2:])], states=[(7, 3)], replaces=True, **how)


def cases():
    written, known = modules.written, [modules.source_of(it) for it in modules.LIVEPATCHES]
    made = {
        "kpatch-build, a file of its own": (listed, FIXES), "klp-build, a file of its own": (listed, BUILT),
        "both tools' files and others, in pairs": (modules.matrix, FIXES, known[0], BUILT, modules.source_of("two_objects")),
        "a file of kpatch-build over its module": (over_target,),
    }
    made.update({f"the tables of {name}": (written, listed, patch) for name, patch in WRITTEN.items()})
    made.update({f"a file of {name}": (modules.refused, patch.module(), wanted) for name, patch, wanted in faults()})
    made["the known layout"] = (read_by, btf(STRUCTS), *known, FIXES, BUILT)
    made["the known layout, with widths"] = (read_by, btf(STRUCTS, has_widths=True), *known)
    sizes = tuple(larger(48)[it][0] for it in ("klp_patch", "klp_object", "klp_func", "klp_state"))
    made["a larger layout"] = (written, functools.partial(read_by, btf(larger(48))), sample(struct_sizes=sizes))
    made["a larger layout, of the tools' files"] = (read_by, btf(larger(48)), FIXES, BUILT)
    alone = Livepatch(b"alone", [Object(None, [ONE])])
    functions = {**STRUCTS, "klp_func": (160, STRUCTS["klp_func"][1])}
    wanted = f"{alone.place('funcs0', 0)}: funcs0 has 304 bytes, and its rows have 320 bytes by the layout of {{layout}}"
    made["a larger function"] = (written, functools.partial(refused_by, btf(functions), wanted), alone)
    made["another layout"] = (written, functools.partial(refused_by, btf(larger(48)), modules.NO_PATCH), sample())
    made["fields elsewhere"] = (written, functools.partial(refused_by, btf(shifted()), modules.NO_PATCH), sample())
    made.update({f"a layout with {name}": (bad_layout, data, wanted) for name, data, wanted in bad_layouts()})
    return [(f"tool_modules, {name}", functools.partial(*call)) for name, call in made.items()]
