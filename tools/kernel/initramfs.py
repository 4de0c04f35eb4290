"""initramfs.py OUT NAME=FILE ..: writes an initramfs (newc, gzip) with these files and their libraries, busybox as /bin/sh,
and kmod's commands."""
import gzip
import os
import subprocess
import sys

DIRECTORY, PROGRAM, LINK, DEVICE = 0o040755, 0o100755, 0o120777, 0o020600


class Archive:
    """The rows of a cpio archive."""

    def __init__(self):
        self.rows, self.names = [], set()

    def add(self, name, mode, data=b"", device=(0, 0)):
        """Adds an entry, and the folders that it is in."""
        if name in self.names:
            return
        if os.path.dirname(name):
            self.add(os.path.dirname(name), DIRECTORY)
        self.names.add(name)
        spelled = name.encode() + b"\0"
        numbers = (len(self.names), mode, 0, 0, 1, 0, len(data), 0, 0, *device, len(spelled), 0)
        for part in (b"070701" + b"".join(b"%08x" % it for it in numbers) + spelled, data):
            self.rows.append(part + b"\0" * (-len(part) % 4))

    def file(self, name, path):
        with open(path, "rb") as it:
            self.add(name, PROGRAM, it.read())

    def program(self, name, path):
        """A program of this machine, with the libraries that it needs."""
        self.file(name, os.path.realpath(path))
        needed = subprocess.run(["ldd", path], stdout=subprocess.PIPE, stderr=subprocess.DEVNULL, text=True, check=False).stdout
        for word in needed.split():
            if word.startswith("/"):
                self.file(word.lstrip("/"), os.path.realpath(word))

    def write(self, out):
        """Writes the archive, packed."""
        self.add("TRAILER!!!", 0)
        with gzip.open(out, "wb", 1) as it:
            it.write(b"".join(self.rows))


def main(out, *files):
    archive = Archive()
    for name in ("proc", "sys", "dev", "tmp"):
        archive.add(name, DIRECTORY)
    archive.add("dev/console", DEVICE, device=(5, 1))
    for name in ("sh", "mount"):
        archive.add(f"bin/{name}", LINK, b"busybox")
    archive.program("bin/kmod", "/bin/kmod")
    for name in ("insmod", "rmmod"):
        archive.add(f"sbin/{name}", LINK, b"../bin/kmod")
    for file in files:
        name, path = file.split("=", 1)
        archive.program(name, path)
    archive.write(out)


if __name__ == "__main__":
    main(*sys.argv[1:])
