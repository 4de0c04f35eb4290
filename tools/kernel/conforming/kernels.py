"""A kernel: fetched from Debian or taken from a build tree, with the modules that step it."""
import collections
import glob
import os
import re
import subprocess

GUEST = os.path.join(os.path.dirname(os.path.abspath(__file__)), "guest")
SOURCES = ("stepper.c", "gate.c", "versions.c", "shadows.c", "tasks.c", "looks.c", "klp_any_patch.c",
           "klp_any_object.c", "stepper.h", "Makefile", "player.c")


class Unusable(Exception):
    """Why a kernel can't be held against the rules. `printed` is what it printed of the scripts that it was to play."""

    printed = ()


class Kernel:
    """A kernel with its modules built. `name` is its release, and `given` what the caller named it by."""

    def __init__(self, name, given, image, modules):
        self.name, self.given, self.image, self.modules = name, given, image, modules


def run(words, where=None):
    """Runs a program, and returns what it prints. A failed one ends conform."""
    ran = subprocess.run(words, cwd=where, stdout=subprocess.PIPE, stderr=subprocess.STDOUT, text=True, check=False)
    if ran.returncode:
        raise Unusable(f"{' '.join(words[:4])} fails: {' / '.join(ran.stdout.strip().splitlines()[-4:])}")
    return ran.stdout


def depends(package, pattern):
    """The first package of this pattern that a package depends on."""
    found = re.search(rf"Depends: ({pattern})$", run(["apt-cache", "depends", package]), re.M)
    if not found:
        raise Unusable(f"apt knows no package {pattern} that {package} depends on")
    return found.group(1)


def release_of(word):
    """The release that Debian has for a word such as 6.1, 6.12, or a whole release."""
    if re.fullmatch(r"\d+\.\d+", word):
        for package in (f"linux-image-{word}-amd64", "linux-image-amd64"):
            shown = subprocess.run(["apt-cache", "depends", package], stdout=subprocess.PIPE, stderr=subprocess.DEVNULL,
                                   text=True, check=False).stdout
            found = re.search(rf"Depends: linux-image-({re.escape(word)}\.\S+)$", shown, re.M)
            if found:
                return found.group(1)
    return word


# A kernel of Debian below the room: its release, its own folder, the headers to build modules with, and its image.
Tree = collections.namedtuple("Tree", "release own headers image")


def unpacked(word, room):
    """A kernel of Debian, fetched below the room once."""
    release = release_of(word)
    own = os.path.join(room, release)
    tree = os.path.join(own, "tree")
    headers = os.path.join(tree, "usr/src", f"linux-headers-{release}")
    if not os.path.exists(os.path.join(own, "unpacked")):
        fetch(release, own, tree)
        makefile = os.path.join(headers, "Makefile")
        with open(makefile, encoding="utf-8") as it:
            text = it.read().replace("include /usr/src/", f"include {tree}/usr/src/")
        with open(makefile, "w", encoding="utf-8") as it:
            it.write(text)
        open(os.path.join(own, "unpacked"), "w", encoding="utf-8").close()
    return Tree(release, own, headers, os.path.join(tree, f"boot/vmlinuz-{release}"))


def fetched(word, room):
    """A kernel of Debian, fetched below the room once, with its modules built."""
    tree = unpacked(word, room)
    return Kernel(tree.release, word, tree.image, built(tree.headers, tree.own))


def fetch(release, own, tree):
    """Fetches the packages of a release and unpacks them. Nothing of this machine is changed."""
    headers = f"linux-headers-{release}"
    packages = [f"linux-image-{release}", headers, depends(headers, r"linux-headers-\S+-common"),
                depends(headers, r"linux-kbuild-\S+")]
    debs = os.path.join(own, "debs")
    os.makedirs(debs, exist_ok=True)
    for package in packages:
        if not glob.glob(os.path.join(debs, f"{package}_*.deb")):
            run(["apt-get", "download", "-q", "-o", "APT::Sandbox::User=root", package], debs)
    for deb in glob.glob(os.path.join(debs, "*.deb")):
        run(["dpkg-deb", "-x", deb, tree])


def taken(image, tree, room):
    """A kernel of one's own: its image, and the tree that it was built in."""
    for path in (image, os.path.join(tree, "Makefile")):
        if not os.path.exists(path):
            raise Unusable(f"there is no {path}")
    release = os.path.join(tree, "include/config/kernel.release")
    name = os.path.basename(image)
    if os.path.exists(release):
        with open(release, encoding="utf-8") as it:
            name = it.read().strip()
    own = os.path.join(room, f"own-{name}")
    os.makedirs(own, exist_ok=True)
    return Kernel(name, f"{image} {tree}", image, built(os.path.abspath(tree), own))


def lacking(tree):
    """The options that the kernel of a tree lacks."""
    config = os.path.join(tree, ".config")
    if not os.path.exists(config):
        return []
    with open(config, encoding="utf-8") as it:
        text = it.read()
    return [option for option in ("LIVEPATCH", "DYNAMIC_FTRACE", "KALLSYMS_ALL", "KPROBES", "MODULES")
            if f"CONFIG_{option}=y" not in text]


def built(tree, own):
    """The folder of the modules that step the kernel of this tree, built where a source is newer."""
    missing = lacking(tree)
    if missing:
        raise Unusable(f"the kernel is built without {', '.join(f'CONFIG_{it}' for it in missing)}")
    modules = os.path.join(own, "modules")
    os.makedirs(modules, exist_ok=True)
    done = os.path.join(modules, "built")
    sources = [os.path.join(GUEST, it) for it in SOURCES]
    if os.path.exists(done) and all(os.path.getmtime(it) < os.path.getmtime(done) for it in sources):
        return modules
    run(["cp", *sources, modules])
    run(["make", "-s", "-C", tree, f"M={modules}", "CONFIG_DEBUG_INFO_BTF_MODULES=", "modules"])
    run(["strip", "--strip-debug", *glob.glob(os.path.join(modules, "*.ko"))])
    run(["gcc", "-O1", "-static", "-o", "player", "player.c"], modules)
    open(done, "w", encoding="utf-8").close()
    return modules


