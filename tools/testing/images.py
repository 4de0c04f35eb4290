"""klpko over a kernel's image. The images are written here byte by byte, in each order and form of the kernel's tables that
Linux has had since 6.1, so that what is wanted of them is known. testing/modules.py calls this.
"""
import functools
import struct
import tempfile

from testing import elf
from testing.elf import Function, Livepatch, Object
from testing.module_catalogs import CLEAN, FAULTY, FINDINGS, KERNEL, told_marks, wrong_catalog
from testing.run import fault, run

RELEASE = "6.1.0-57-amd64"
BANNER = b"Linux version " + RELEASE.encode() + b" (who@where) (gcc 12) #1 SMP\n\0"
# Where the image is loaded, where it begins in the file, and where its banner, its entry sites and its tables are behind that.
BASE, BEGIN, BANNER_AT, SITES_AT, TABLES_AT = 0xFFFFFFFF81000000, 0x1000, 0x100, 0x400, 0x4000
# Tokens of several bytes, by their numbers. All others are those of the byte with their number, or empty.
PIECES = {1: b"linux_", 2: b"_mcount_loc", 3: b"ftrace_", 4: b"init", 200: b"zz"}
DIGITS = b"".join(b"%d\0" % it for it in range(10))
# The orders of the tables, and the forms of the addresses that come in each.
ORDERS = {"6.1": ("base", "itself"), "6.2": ("base", "itself"), "6.4": ("base", "itself"), "7.2": ("place",)}


def aligned(data, width=8):
    return data + bytes(-len(data) % width)


def token(number):
    return PIECES.get(number, bytes([number]) if 33 <= number < 127 else b"")


def packed(text):
    """A name with its letter: its length, in two bytes if it has over 127 tokens, and the numbers of its tokens."""
    codes = b""
    while text:
        number = next((it for it, piece in PIECES.items() if text.startswith(piece)), text[0])
        codes, text = codes + bytes([number]), text[len(token(number)):]
    length = [len(codes)] if len(codes) < 128 else [len(codes) & 127 | 128, len(codes) >> 7]
    return bytes(length) + codes


def number_of(address, form, place):
    """What a symbol's number is, whose place has this address."""
    if form == "base":
        return address - BASE
    if form == "place":
        return (address - place) % 2**32
    return address if address < 2**31 else 0xFFFFFFFF - (address - BASE)


class Tables:
    """The tables of a kernel's symbols."""

    def __init__(self, symbols, order, form):
        places, text = [], b""
        for number, (_, letter, name) in enumerate(symbols):
            if number % 256 == 0:
                places.append(len(text))
            text += packed(letter.encode() + name.encode())
        # Without a base each table begins at a multiple of 4.
        self.width = 4 if order == "7.2" else 8
        self.count = aligned(struct.pack("<I", len(symbols)), self.width)
        self.names = aligned(text, self.width)
        self.markers = aligned(b"".join(struct.pack("<I", it) for it in places), self.width)
        self.by_name = aligned(bytes(3 * len(symbols)), self.width)
        tokens, index = b"", b""
        for it in range(256):
            index += struct.pack("<H", len(tokens))
            tokens += token(it) + b"\0"
        self.tokens, self.index = aligned(tokens, self.width), index
        self.base = struct.pack("<Q", BASE)
        self.symbols, self.order, self.form = symbols, order, form

    def numbers(self, at):
        """The numbers, which begin at this address."""
        return aligned(b"".join(struct.pack("<I", number_of(row[0], self.form, at + 4 * it)) for it, row in enumerate(self.symbols)), self.width)

    def written(self, at):
        """The tables, which begin at this address, and how far behind that the tokens do."""
        before = {"6.1": self.numbers(at) + self.base, "6.2": self.numbers(at) + self.base}.get(self.order, b"")
        before += self.count + self.names + self.markers + (self.by_name if self.order == "6.2" else b"")
        data = before + self.tokens + self.index
        if self.order in ("6.4", "7.2"):
            data += self.numbers(at + len(data)) + (self.base if self.order == "6.4" else b"") + self.by_name
        return data, len(before)


def image(rows, sites, order="6.4", form="base", banner=BANNER):
    """The bytes of an image with these symbols and entry sites, and where its tokens begin in the file."""
    body = bytearray(TABLES_AT)
    body[BANNER_AT : BANNER_AT + len(banner)] = banner
    for number, site in enumerate(sites):
        struct.pack_into("<Q", body, SITES_AT + 8 * number, site)
    written, tokens = Tables(rows, order, form).written(BASE + TABLES_AT)
    body += written
    ident = b"\x7fELF\x02\x01\x01".ljust(16, b"\0")
    header = ident + struct.pack("<HHIQQQIHHHHHH", 2, 62, 1, 0, 64, 0, 0, 64, 56, 2, 0, 0, 0)
    header += struct.pack("<IIQQQQQQ", 4, 0, 0, 0, 0, 0, 0, 0)
    header += struct.pack("<IIQQQQQQ", 1, 5, BEGIN, BASE, BASE, len(body), len(body), 4096)
    return header.ljust(BEGIN, b"\0") + bytes(body), BEGIN + TABLES_AT + tokens


def symbols_of(sites, more=()):
    """The symbols of an image with these entry sites: those that say where things are, those of the tests, and more."""
    own = [(BASE + BANNER_AT, "R", "linux_banner"), (BASE + SITES_AT, "d", "__start_mcount_loc"), (BASE + SITES_AT + 8 * len(sites), "d", "__stop_mcount_loc"),
           (BASE + 0x8000, "T", "_sinittext"), (BASE + 0x9000, "T", "_einittext")]
    return [*more, *own, *(row[:3] for row in KERNEL if row[3] == "vmlinux")]


# The entry sites: that of f at its first position, that of g behind an endbr64, one in the functions for the boot, and one that the
# linker has dropped.
F, G = 0xFFFFFFFF81002000, 0xFFFFFFFF81005000
SITES = [BASE + 0x8010, F, 0, G + 4]
# More symbols: variables of each processor, one of the longest names, one of 300 tokens, and more than 512 of them.
PER_CPU = [(0, "A", "__per_cpu_start"), (0x1000, "D", "per_cpu_value")]
MANY = [(BASE + 16 * it, "t", f"s{it}.zz") for it in range(600)]
LONG = [(BASE + 0x20, "t", "q" * 511), (BASE + 0x30, "t", "r" * 300)]
PATCHES = [Livepatch(b"a", [Object(None, [Function(b"f", b"new_f", 1), Function(b"g", b"new_g")])])]
BOOT = [Livepatch(b"a", [Object(None, [Function(b"f", b"new_f", 3), Function(b"h", b"new_h")])])]


def kernel_of(rows):
    return [(*row, "vmlinux") for row in rows]


def over(order, form, more, patches, wanted, release=RELEASE):
    """A catalog over an image has its symbols, and what stands against the patches is told. `wanted` has a line for each, in which
    `f0` stands for the first patch's file, and `i` for the image."""
    rows = symbols_of(SITES, more)
    banner = BANNER.replace(RELEASE.encode(), release.encode())
    with tempfile.TemporaryDirectory(prefix="images-") as room:
        with open(f"{room}/vmlinux", "wb") as it:
            it.write(image(rows, SITES, order, form, banner)[0])
        files = {f"f{number}": it["file"] for number, it in enumerate(patches)}
        status, out, err = run(["klpko", "--kernel", f"{room}/vmlinux", *files.values()])
        code, told = told_marks(patches, kernel_of(rows))
        told += "".join(f"klpko: {it.format(i=f'{room}/vmlinux', **files)}\n" for it in wanted)
        return fault((status, err), (FINDINGS if wanted else code, told)) or wrong_catalog(out.decode(), patches, kernel_of(rows))


def refused(data, wanted, *patches):
    """An image is refused with this reason, and no catalog is made."""
    with tempfile.TemporaryDirectory(prefix="images-") as room:
        with open(f"{room}/vmlinux", "wb") as it:
            it.write(data)
        came = run(["klpko", "--kernel", f"{room}/vmlinux", *(it["file"] for it in patches)])
        return fault(came, (FAULTY, b"", f"klpko: {room}/vmlinux: {wanted}\n"))


def cut_off(*patches):
    """An image that is cut off anywhere is refused."""
    data, _ = image(symbols_of(SITES), SITES)
    for length in (*range(0, 200, 23), *range(200, len(data), 997), len(data) - 1):
        what = "it isn't an ELF file: wanted is a kernel's image, unpacked: vmlinux"
        if 64 <= length < 120:
            what = "program header 0 ends behind the file: it is cut off"
        elif 120 <= length < 176:
            what = "program header 1 ends behind the file: it is cut off"
        elif 176 <= length:
            what = "what program header 1 loads ends behind the file: it is cut off"
        wrong = refused(data[:length], what, *patches)
        if wrong:
            return f"{length} bytes: {wrong}"
    return None


def without(name):
    return [row for row in symbols_of(SITES) if row[2] != name]


def faults():
    """Images that are refused, each by what is wrong with it, and the reason that is told."""
    rows = symbols_of(SITES)
    data, tokens = image(rows, SITES)
    packed_by = "it is compressed: unpack it by extract-vmlinux, which is among the scripts of the kernel's source"
    no_elf = "it isn't an ELF file: wanted is a kernel's image, unpacked: vmlinux"
    wanted_symbol = "it has no symbol {}, which each kernel has that can be patched"
    yield "nothing", b"", no_elf
    yield "an image that boots", b"MZ" + bytes(0x200) + b"HdrS" + bytes(64), packed_by
    for name, begin in (("gzip", b"\x1f\x8b\x08"), ("xz", b"\xfd7zXZ\0"), ("zstd", b"\x28\xb5\x2f\xfd"), ("lz4", b"\x02\x21\x4c\x18"),
                        ("bzip2", b"BZh9"), ("lzma", b"\x5d\0\0\x80"), ("lzo", b"\x89LZO\0")):
        yield f"an image, by {name}", begin + bytes(100), packed_by
    yield "32 bits", elf.with_bytes(data, 4, b"\x01"), "it isn't a 64-bit little-endian ELF file"
    yield "for ARM", elf.with_bytes(data, 18, (183).to_bytes(2, "little")), "it isn't for x86-64"
    yield "a module", PATCHES[0].module(), "it isn't linked, as a kernel's image is: wanted is vmlinux"
    yield "no tokens", data.replace(DIGITS, b"x" * len(DIGITS)), (
        "it has no names of symbols: wanted is the kernel's table of tokens, in which those of the ten digits stand in a row")
    # The index says that the token of `a`, 97, is elsewhere.
    index = data.index(struct.pack("<HHH", *(sum(len(token(it)) + 1 for it in range(end)) for end in (96, 97, 98))))
    yield "another index", elf.with_bytes(data, index + 2, b"\0\0"), (
        "it has no names of symbols: wanted is the kernel's table of tokens, in which those of the ten digits stand in a row")
    names = f"offset {tokens}: before this table of tokens the names of symbols are wanted, with their number and the place of each 256th one"
    yield "another number of names", data.replace(struct.pack("<Q", len(rows)), struct.pack("<Q", len(rows) + 1)), names
    many, at = image(symbols_of(SITES, MANY), SITES)
    marker = struct.pack("<I", len(b"".join(packed(row[1].encode() + row[2].encode()) for row in symbols_of(SITES, MANY)[:256])))
    yield "another marker", many.replace(marker, struct.pack("<I", 7)), names.replace(str(tokens), str(at))
    long = [(BASE, "t", "q" * 512)]
    yield "a name of 512 bytes", image(symbols_of(SITES, long), SITES)[0], "symbol 0: its name has over 511 bytes"
    yield "a name that is a letter alone", image(symbols_of(SITES, [(BASE, "t", "")]), SITES)[0], "symbol 0: a letter and a name are wanted"
    yield "no banner", image(without("linux_banner"), SITES)[0], wanted_symbol.format("linux_banner")
    for name in ("__start_mcount_loc", "__stop_mcount_loc"):
        yield f"no {name}", image(without(name), SITES)[0], wanted_symbol.format(name)
    yield "another banner", image(rows, SITES, banner=b"Windows version 6.1")[0], (
        f"offset {tokens}: beside this table of tokens the symbols' addresses are wanted, in a form by which linux_banner is at 'Linux version'")
    stop = BASE + 0x7000000
    outside = [(stop if row[2] == "__stop_mcount_loc" else row[0], *row[1:]) for row in rows]
    yield "entry sites elsewhere", image(outside, SITES)[0], f"the list of entry sites, from {BASE + SITES_AT:x} to {stop:x}, isn't all in it"


def cases(written):
    """The tests, each by its name. `written` has livepatches written to files, and calls a check with what klpko tells of them."""
    refuses = "{f0}: the kernel refuses the patch: {i} has no entry site of"
    made = {}
    for order, forms in ORDERS.items():
        for form in forms:
            more = [*(PER_CPU if form == "itself" else []), *MANY, *LONG]
            made[f"an image as of {order}, its addresses by {form}"] = (
                lambda order, form, more, *patches: over(order, form, more, patches, []), order, form, more), PATCHES
    made["an image of few symbols"] = (lambda *patches: over("6.4", "base", (), patches, []),), PATCHES
    made["an image of another release"] = (lambda *patches: over(
        "6.4", "base", (), patches, ["{f0}: it is built for 6.1.0-57-amd64, and {i} is 6.1.0-58-amd64"], "6.1.0-58-amd64"),), PATCHES
    boot = [(BASE + 0x8010, "t", "h")]
    made["functions without an entry site"] = (lambda *patches: over(
        "6.1", "itself", boot, patches, [f"{refuses} h of vmlinux, so it can't be patched"]),), BOOT
    module = [Livepatch(b"a", [Object(b"m", [Function(b"f", b"new_f")])])]
    made["an image and a module"] = (lambda *patches: over("6.4", "base", (), patches, [
        "{f0}: {i} has nothing of m, so it isn't known which of its functions the kernel can patch"]),), module
    made.update({f"an image with {name}": ((functools.partial(refused, data, wanted),), PATCHES) for name, data, wanted in faults()})
    made["an image, cut off"] = (cut_off,), PATCHES
    return {name: (written, functools.partial(*call), *patches) for name, (call, patches) in made.items()}
