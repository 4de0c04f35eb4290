"""Writes livepatch modules that no compiler makes: with any tables, and with faults."""
import dataclasses
import struct

# The sizes of the structs, in Linux 5.5 to 7.3 on x86-64.
PATCH, OBJECT, FUNCTION, STATE, MODULE = 200, 168, 152, 24, 896
HEADER, SECTION = 64, 64
# Kinds of relocations, symbols and sections, and flags of sections.
ADDRESS, DISTANCE, SHORT_ADDRESS = 1, 2, 11
NO_KIND, VARIABLE, CODE = 0, 1, 2
BYTES, SYMBOLS, STRINGS, RELOCATIONS = 1, 2, 3, 4
WRITE, ALLOC, EXECUTE, INFO = 1, 2, 4, 64
# The sections, each with its kind, its flags and what it is linked to.
SECTIONS = {
    "": (0, 0), ".text": (BYTES, ALLOC | EXECUTE), ".rela.text": (RELOCATIONS, INFO), ".data": (BYTES, ALLOC | WRITE), ".rela.data": (RELOCATIONS, INFO),
    ".rodata.str1.1": (BYTES, ALLOC), ".modinfo": (BYTES, ALLOC), ".gnu.linkonce.this_module": (BYTES, ALLOC | WRITE), ".symtab": (SYMBOLS, 0),
    ".strtab": (STRINGS, 0), ".shstrtab": (STRINGS, 0),
}
NUMBERS = {name: number for number, name in enumerate(SECTIONS)}
NAMES, OWN = ".rodata.str1.1", ".gnu.linkonce.this_module"
CALLBACKS = ("pre_patch", "post_patch", "pre_unpatch", "post_unpatch")


@dataclasses.dataclass(frozen=True)
class Function:
    name: bytes
    new_name: bytes
    position: int = 0


@dataclasses.dataclass(frozen=True)
class Object:
    """An object by its name, which the kernel's image doesn't have. It may have no table of functions."""

    name: bytes
    functions: list
    callbacks: tuple = ()


class Place(str):
    """A place of a module, as klpko names it."""

    offset = 0


def place(section, offset):
    it = Place(f"section {NUMBERS[section]} ({section}), offset {offset}")
    it.offset = offset
    return it


def escaped(name):
    """Bytes as programs show them."""
    return "".join("\\n" if it == 10 else f"\\x{it:02x}" if it > 126 else f"\\u{{{it:x}}}" if it < 32 else chr(it) for it in name)


def with_bytes(data, at, new):
    return data[:at] + new + data[at + len(new) :]


class Strings:
    """Strings behind each other, each ended by a 0."""

    def __init__(self, first=b""):
        self.data, self.places = first, {}

    def add(self, text):
        if text not in self.places:
            self.places[text] = len(self.data)
            self.data += text + b"\0"
        return self.places[text]


@dataclasses.dataclass(frozen=True)
class Livepatch:
    """A livepatch, as its tables have it."""

    name: bytes
    objects: list
    states: tuple = ()
    replaces: bool = False
    release: bytes = b"6.1.0-57-amd64"
    sets_replace: bool = False
    is_livepatch: bool = True
    is_named: bool = True
    # The bytes of the structs klp_patch, klp_object, klp_func and klp_state.
    struct_sizes: tuple = (PATCH, OBJECT, FUNCTION, STATE)

    def said(self):
        """What klpko tells of it to programs, but for the file."""
        return {
            "patch": escaped(self.name), "release": escaped(self.release), "replaces": "unknown" if self.sets_replace else "yes" if self.replaces else "no",
            "states": [{"id": id, "version": version} for id, version in self.states],
            "objects": [{
                "name": "vmlinux" if it.name is None else escaped(it.name), "callbacks": [name for name in CALLBACKS if name in it.callbacks],
                "functions": [{"name": escaped(row.name), "position": row.position, "new_name": escaped(row.new_name)} for row in it.functions or []],
            } for it in self.objects],
        }

    def tables(self):
        """Where each table begins in .data, and its bytes."""
        patch, row, function, state = self.struct_sizes
        made = {"patch": (0, patch), "states": (patch, state * (len(self.states) + 1))}
        made["objs"] = (sum(made["states"]), row * (len(self.objects) + 1))
        end = sum(made["objs"])
        for number, it in enumerate(self.objects):
            if it.functions is not None:
                made[f"funcs{number}"] = (end, function * (len(it.functions) + 1))
                end = sum(made[f"funcs{number}"])
        return made

    def place(self, table, offset):
        """A place behind the beginning of a table, or of the names."""
        return place(NAMES, offset) if table == "names" else place(".data", self.tables()[table][0] + offset)

    @property
    def last_name(self):
        return max(self.write_tables()[2].places.values())

    @staticmethod
    def number(section):
        return NUMBERS[section]

    def write_tables(self):
        """The bytes of .data, its pointers by their places, and the names."""
        _, object_size, function_size, state_size = self.struct_sizes
        at, names = {name: begin for name, (begin, _) in self.tables().items()}, Strings()
        data, pointers = bytearray(max(sum(it) for it in self.tables().values())), {0: (OWN, 0), 8: (".data", at["objs"])}
        data[24] = self.replaces
        if self.states:
            pointers[16] = (".data", at["states"])
        for number, state in enumerate(self.states):
            struct.pack_into("<QI", data, at["states"] + state_size * number, *state)
        for number, it in enumerate(self.objects):
            row = at["objs"] + object_size * number
            if it.name is not None:
                pointers[row] = (NAMES, names.add(it.name))
            if it.functions is not None:
                pointers[row + 8] = (".data", at[f"funcs{number}"])
            pointers.update({row + 16 + 8 * k: ("function", b"callback") for k, name in enumerate(CALLBACKS) if name in it.callbacks})
            for k, function in enumerate(it.functions or []):
                row = at[f"funcs{number}"] + function_size * k
                pointers.update({row: (NAMES, names.add(function.name)), row + 8: ("function", function.new_name)})
                struct.pack_into("<Q", data, row + 16, function.position)
        return data, pointers, names

    def module(self, *, section_behind=None, without_symbols=False, patch_size=None, patches=1, doubled=None, short=None, numbers=(), dropped=None,
               outside=None, endless=False, sizes=(), data_name=".data"):
        """The bytes of the module, with these faults."""
        data, pointers, names = self.write_tables()
        strings, symbols, functions = Strings(b"\0"), [(0, NO_KIND, 0, 0, 0)], {}
        symbols += [(0, 3, NUMBERS[it], 0, 0) for it in (".data", NAMES, OWN)] + [(strings.add(b"printk"), NO_KIND, 0, 0, 0)]
        by_section = {".data": 1, NAMES: 2, OWN: 3, "outside": 4}
        symbols.append((strings.add(b"__this_module"), VARIABLE, NUMBERS[OWN], 0, MODULE))
        by_section["patch"] = len(symbols)
        for name, (begin, size) in self.tables().items():
            size = patch_size or size if name == "patch" else dict(sizes).get(name, size)
            symbols.append((strings.add(name.encode()), VARIABLE, NUMBERS[".data"], begin, size))
        for number in range(1, patches):
            pointers[len(data)] = (OWN, 0)
            symbols.append((strings.add(b"patch%d" % number), VARIABLE, NUMBERS[".data"], len(data), self.struct_sizes[0]))
            data += bytes(self.struct_sizes[0])
        for name in [it[1] for it in pointers.values() if it[0] == "function"] + [b"init_module"]:
            if name not in functions:
                functions[name] = len(symbols)
                symbols.append((strings.add(name), CODE, NUMBERS[".text"], 16 * len(functions) - 16, 16))
        for at, number in dict(numbers).items():
            pointers.pop(at.offset, None)
            struct.pack_into("<Q", data, at.offset, number)
        rows = []
        for at, (to, addend) in sorted(pointers.items()):
            kind = SHORT_ADDRESS if short is not None and at == short.offset else ADDRESS
            symbol, addend = (functions[addend], 0) if to == "function" else (by_section[to], addend)
            if outside is not None and at == outside.offset:
                symbol = by_section["outside"]
            if dropped is None or at != dropped.offset:
                rows.append((at, symbol << 32 | kind, addend))
            if doubled is not None and at == doubled.offset:
                rows.append((at, symbol << 32 | kind, addend))
        if outside is not None and outside.offset not in pointers:
            rows.append((outside.offset, by_section["outside"] << 32 | ADDRESS, 0))
        code = [(3, by_section["patch"] << 32 | SHORT_ADDRESS, 0), (9, by_section["outside"] << 32 | DISTANCE, -4 % 2**64)]
        if self.sets_replace:
            code.append((2, by_section["patch"] << 32 | DISTANCE, 20))
        info = [b"license=GPL"] + [b"livepatch=Y"] * self.is_livepatch + [b"name=" + self.name] * self.is_named + [b"vermagic=" + self.release + b" SMP "]
        parts = dict.fromkeys(SECTIONS, b"")
        parts.update({
            ".text": bytes(16 * len(functions)), ".rela.text": b"".join(struct.pack("<QQQ", *it) for it in code), ".data": bytes(data),
            ".rela.data": b"".join(struct.pack("<QQQ", *it) for it in rows), NAMES: names.data[: -1 if endless else None],
            ".modinfo": b"".join(it + b"\0" for it in info), OWN: bytes(MODULE), ".strtab": strings.data,
            ".symtab": b"".join(struct.pack("<IBBHQQ", name, kind, 0, section, value, size) for name, kind, section, value, size in symbols),
        })
        return written(parts, section_behind, without_symbols, data_name)


# The sections of a module that a livepatch may change.
TARGET_SECTIONS = {
    "": (0, 0), ".text": (BYTES, ALLOC | EXECUTE), ".data": (BYTES, ALLOC | WRITE), ".init.text": (BYTES, ALLOC | EXECUTE), ".comment": (BYTES, 0),
    ".modinfo": (BYTES, ALLOC), ".symtab": (SYMBOLS, 0), ".strtab": (STRINGS, 0), ".shstrtab": (STRINGS, 0),
}


def target(name, symbols):
    """The bytes of a module with these symbols, each a name, a kind and the section (or its number) in which it is. It has a name or
    none."""
    strings, rows, numbers = Strings(b"\0"), [(0, NO_KIND, 0, 0, 0)], {it: number for number, it in enumerate(TARGET_SECTIONS)}
    rows += [(strings.add(it) if it else 0, kind, numbers.get(section, section), 16 * at, 16) for at, (it, kind, section) in enumerate(symbols)]
    parts = dict.fromkeys(TARGET_SECTIONS, bytes(16 * len(symbols)))
    parts.update({
        "": b"", ".modinfo": b"license=GPL\0" + (b"name=" + name + b"\0" if name else b""), ".strtab": strings.data,
        ".symtab": b"".join(struct.pack("<IBBHQQ", at, kind, 0, section, value, size) for at, kind, section, value, size in rows),
    })
    return written(parts, None, False, ".data", TARGET_SECTIONS)


def written(parts, section_behind, without_symbols, data_name, sections=None):
    """An ELF file of these sections, of which .data may have another name."""
    sections = sections or SECTIONS
    names, numbers = Strings(), {it: number for number, it in enumerate(sections)}
    at = {it: names.add((data_name if it == ".data" else it).encode()) for it in parts}
    parts[".shstrtab"] = names.data
    body, headers = b"", b""
    for name, (kind, flags) in sections.items():
        size = len(parts[name]) + (2**40 if name == section_behind else 0)
        link = numbers[".symtab"] if kind == RELOCATIONS else numbers[".strtab"] if kind == SYMBOLS else 0
        info = numbers[name.removeprefix(".rela")] if kind == RELOCATIONS else 0
        kind = BYTES if without_symbols and kind == SYMBOLS else kind
        offset = HEADER + len(body) if kind else 0
        headers += struct.pack("<IIQQQQIIQQ", at[name], kind, flags, 0, offset, size, link, info, 8, 24 if kind in (SYMBOLS, RELOCATIONS) else 0)
        body += parts[name] + bytes(-len(parts[name]) % 8)
    ident = b"\x7fELF\x02\x01\x01".ljust(16, b"\0")
    header = ident + struct.pack("<HHIQQQIHHHHHH", 1, 62, 1, 0, 0, HEADER + len(body), 0, HEADER, 0, 0, SECTION, len(sections), numbers[".shstrtab"])
    return header + body + headers
