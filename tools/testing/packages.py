"""The packages: made of the program at hand, twice with the same bytes; installed, used, upgraded and removed in an empty tree, in
which nothing is left. dpkg runs there without changing its root, so this machine's C library and shell stand in for the tree's.
"""
import atexit
import functools
import hashlib
import os
import shutil
import subprocess
import tarfile
import tempfile

from testing.run import TOP, built_program, fault, finish, read, start

# What each package has, beside folders, documents and examples.
RECORDER = {
    "usr/bin/klpcap", "usr/share/man/man1/klpcap.1.gz", "usr/share/bash-completion/completions/klpcap", "usr/lib/systemd/system/klpcap.service",
    "usr/share/doc/klpcap/changelog.gz",
}
NAMES = ("klpsim", "klpwatch", "klppage", "klplint", "klpsee", "klpko")
OWN = {f"{folder}/{name}{ending}" for name in NAMES for folder, ending in
       (("usr/bin", ""), ("usr/share/man/man1", ".1.gz"), ("usr/share/bash-completion/completions", ""))}
DOCUMENTS = "usr/share/doc/cihapuro/"


@functools.lru_cache(maxsize=None)
def made_once():
    """The packages' paths, made once for all tests."""
    room = tempfile.mkdtemp(prefix="packages-")
    atexit.register(shutil.rmtree, room)
    return made(room)


def made(folder):
    """The packages' paths: the archive, klpcap's and the programs'."""
    status, out, err = finish(start([f"{TOP}/tools/package", "--program", built_program(), folder]))
    assert status == 0, err
    return out.decode().split()


def bytes_of(paths):
    return [hashlib.sha256(open(it, "rb").read()).hexdigest() for it in paths]


def reproducible():
    """Twice the same bytes, in folders of other names, and at another time of day."""
    with tempfile.TemporaryDirectory(prefix="second-") as room:
        first, second = made_once(), made(f"{room}/below")
        return fault((bytes_of(first), [os.path.basename(it) for it in first]), (bytes_of(second), [os.path.basename(it) for it in second]))


class Tree:
    """An empty tree, with a dpkg that knows no package."""

    def __init__(self, room):
        self.room = room
        for folder in ("var/lib/dpkg/info", "var/lib/dpkg/updates", "var/log"):
            os.makedirs(f"{room}/{folder}")
        open(f"{room}/var/lib/dpkg/status", "w", encoding="utf-8").close()

    def dpkg(self, *words):
        how = ("--force-script-chrootless", "--force-depends", "--force-not-root", "--force-bad-path", "--log=/dev/null")
        came = finish(start(["dpkg", f"--root={self.room}", *how, *words]))
        assert came[0] == 0, came

    def files(self):
        """What is in the tree, but for dpkg's own."""
        found = {os.path.relpath(f"{at}/{name}", self.room) for at, folders, names in os.walk(self.room) for name in [*folders, *names]}
        return {it for it in found if not it.startswith("var/lib/dpkg")}


def contents(tree):
    """The files of the packages are there, and no others."""
    there = {it for it in tree.files() if not os.path.isdir(f"{tree.room}/{it}")}
    documents = {it for it in there if it.startswith(DOCUMENTS)}
    wanted = {f"{DOCUMENTS}{it}" for it in ("README.md", "changelog.gz", "docs/CAPTURE.md", "examples/captures/stalled.log")}
    odd = (there - documents) ^ (RECORDER | OWN)
    return f"odd: {odd}" if odd else None if wanted <= documents else f"lacking: {wanted - documents}"


def used(tree):
    """The programs answer, and say which version they are."""
    log = f"{tree.room}/{DOCUMENTS}examples/captures/enable.log"
    answered = finish(start([f"{tree.room}/usr/bin/klpsee", log], env={}))
    version = finish(start([f"{tree.room}/usr/bin/klplint", "--version"], env={}))
    with open(f"{TOP}/VERSION", encoding="utf-8") as it:
        begin = f"klplint {it.read().strip()} (".encode()
    recorded = finish(start([f"{tree.room}/usr/bin/klpcap", "-i", "0"]))
    wrong = fault(answered, (0, read("captures/enable.output"), "")) or fault((recorded[0],), (2,))
    return wrong or (None if version[0] == 0 and version[1].startswith(begin) and b"not proved" in version[1] else f"{version}")


def whole_life():
    """Installed, used, upgraded, removed and purged, nothing is left. Logs stay until the purge."""
    with tempfile.TemporaryDirectory(prefix="tree-") as room:
        tree = Tree(room)
        before = tree.files()
        _, *packages = made_once()
        tree.dpkg("-i", *packages)
        wrong = contents(tree) or used(tree)
        tree.dpkg("-i", *packages)
        wrong = wrong or contents(tree)
        os.makedirs(f"{room}/var/log/klpcap")
        with open(f"{room}/var/log/klpcap/a.log", "w", encoding="utf-8") as it:
            it.write("klpcap 2\n")
        tree.dpkg("-r", "klpcap", "cihapuro")
        removed = tree.files() - before
        tree.dpkg("-P", "klpcap", "cihapuro")
        left = tree.files() - before
        return wrong or fault((removed, left), ({"var/log/klpcap", "var/log/klpcap/a.log"}, set()))


def archive():
    """The archive has what the packages have, all of root's, and its programs answer."""
    with tempfile.TemporaryDirectory(prefix="archive-") as room:
        path, *_ = made_once()
        with tarfile.open(path) as it:
            members = it.getmembers()
            it.extractall(room, filter="tar") if hasattr(tarfile, "tar_filter") else it.extractall(room)
        top = members[0].name.split("/")[0]
        files = {it.name.removeprefix(f"{top}/") for it in members if not it.isdir() and "/share/doc/" not in it.name}
        owners = {(it.uid, it.gid, it.uname, it.gname) for it in members}
        came = finish(start([f"{room}/{top}/bin/klpwatch", "k.catalog", "watched.trace"], env={}))
        wanted = {it.removeprefix("usr/") for it in RECORDER | OWN if "/doc/" not in it}
        return fault((files, owners), (wanted, {(0, 0, "root", "root")})) or fault(came, (0, b"honest 8 1 1\n", ""))


def refused(*words):
    """Without a proved program, or by other words, nothing is made."""
    with tempfile.TemporaryDirectory(prefix="packages-") as room:
        came = finish(start([f"{TOP}/tools/package", *words], room))
        return None if came[:2] == (2, b"") and "usage" in came[2] and not os.listdir(room) else f"{came}"


def served():
    """systemd takes the service as it stands."""
    came = subprocess.run(["systemd-analyze", "verify", f"{TOP}/tools/packages/klpcap.service"], capture_output=True, text=True, check=False)
    # How the file is kept here isn't how a package keeps it.
    about = [line for line in came.stderr.splitlines() if "klpcap" in line and " is marked " not in line]
    said = [line for line in about if "man klpcap(1)" not in line]
    return "; ".join(said) or None


def cases():
    made_here = [("packages, by these words: -x", functools.partial(refused, "-x")), ("packages, by two folders", functools.partial(refused, "a", "b"))]
    if shutil.which("systemd-analyze"):
        made_here.append(("packages: the service", served))
    if not shutil.which("dpkg-deb") or not shutil.which("objdump"):
        return made_here
    return [*made_here, ("packages: twice the same bytes", reproducible), ("packages: installed, used, upgraded, removed", whole_life), ("packages: the archive", archive)]
