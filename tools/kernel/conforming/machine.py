"""A machine under qemu, which boots a kernel and plays scripts on it."""
import glob
import os
import re
import select
import subprocess
import sys
import time

from conforming.kernels import Unusable
from initramfs import Archive

APPEND = "console=ttyS0 quiet panic=-1 mitigations=off ibt=off audit=0 oops=panic"
# An emulated machine's clock counts its instructions, one each nanosecond, and skips the time in which it idles. So
# what it answers doesn't depend on what else the host does.
KVM, EMULATED = ("-accel", "kvm"), ("-accel", "tcg", "-icount", "shift=0,sleep=off")
# How long the machine may print nothing before it counts as hung: in seconds of the processor that it uses, so that a
# loaded host makes none hang, and on the clock, where it uses none.
SILENT, SILENT_AT_ALL = 120, 900
# How many bytes the player takes at a time (guest/player.c).
BLOCK = 4096


def pack(archive, modules):
    """Writes the first file system of the machine."""
    it = Archive()
    for name in ("proc", "sys", "dev"):
        it.add(name, 0o040755)
    # A kernel without CONFIG_DEVTMPFS makes no files there itself.
    for name, device in (("console", (5, 1)), ("kmsg", (1, 11))):
        it.add(f"dev/{name}", 0o020600, device=device)
    it.file("init", os.path.join(modules, "player"))
    for name in ("klp_stepper", "klp_any_patch", "klp_any_object"):
        it.file(f"{name}.ko", glob.glob(os.path.join(modules, f"{name}*.ko"))[0])
    it.write(archive)


def used(process):
    """How many seconds of the processor a process has used."""
    with open(f"/proc/{process}/stat", encoding="ascii", errors="replace") as it:
        user, system = it.read().rpartition(")")[2].split()[11:13]
    return (int(user) + int(system)) / os.sysconf("SC_CLK_TCK")


class Machine:
    """A booted kernel, whose console is in the room. `skip` names a function that it is to skip, which makes it a wrong
    kernel."""

    def __init__(self, kernel, room, is_kvm=False, skip=None):
        archive = os.path.join(room, f"{kernel.name}.cpio.gz")
        pack(archive, kernel.modules)
        words = ["qemu-system-x86_64", *(KVM if is_kvm else EMULATED), "-cpu", "max", "-smp", "1", "-m", "768",
                 "-display", "none", "-nodefaults", "-monitor", "none", "-no-reboot", "-serial", "stdio", "-kernel",
                 kernel.image, "-initrd", archive, "-append", APPEND + (f" skip={skip}" if skip else "")]
        try:
            self.process = subprocess.Popen(words, stdin=subprocess.PIPE, stdout=subprocess.PIPE,
                                            stderr=subprocess.STDOUT, start_new_session=True)
        except FileNotFoundError:
            sys.exit("conform: qemu-system-x86_64 isn't found: install qemu-system-x86")
        self.rest, self.lines, self.is_ready = b"", [], False
        self.console = open(os.path.join(room, f"{kernel.name}.console"), "ab", buffering=0)

    def until(self, word):
        """The lines up to this one. Raises Unusable where it doesn't come."""
        begin, last_used, last_time = len(self.lines), used(self.process.pid), time.monotonic()
        while word not in self.lines[begin:]:
            if select.select([self.process.stdout], [], [], 1)[0]:
                came = os.read(self.process.stdout.fileno(), 65536)
                if not came:
                    self.process.wait()
                    raise Unusable(self.why_it_ended())
                self.take(came)
                last_used, last_time = used(self.process.pid), time.monotonic()
            elif used(self.process.pid) - last_used > SILENT or time.monotonic() - last_time > SILENT_AT_ALL:
                self.kill()
                raise Unusable(f"it hangs: it printed nothing for {SILENT} s of its processor; {self.end_of_console()}")
        return self.lines[begin:]

    def take(self, came):
        self.console.write(came)
        *lines, self.rest = (self.rest + came).split(b"\n")
        self.lines += [it.decode(errors="replace").rstrip("\r") for it in lines]

    def play(self, rows):
        """Plays these rows. Returns the lines that the machine prints."""
        if not self.is_ready:
            self.until("READY")
            self.is_ready = True
        begin = len(self.lines)
        try:
            self.send("".join(f"{row}\n" for row in rows).encode())
            self.until("READY")
        except Unusable as why:
            why.printed = self.lines[begin:]
            raise
        return self.lines[begin:]

    def send(self, text):
        """Sends a play, block by block."""
        blocks = [text[at:at + BLOCK] for at in range(0, len(text), BLOCK)]
        for it in (f"PLAY {len(text)}\n".encode(), *blocks):
            try:
                self.process.stdin.write(it)
                self.process.stdin.flush()
            except BrokenPipeError as why:
                raise Unusable(self.why_it_ended()) from why
            if it != blocks[-1]:
                self.until("MORE")

    def end_of_console(self):
        return f"the console ends: {' / '.join(it for it in self.lines[-4:] if it.strip())[-600:] or '(nothing)'}"

    def why_it_ended(self):
        """Why the machine ended by itself."""
        lacks = [re.sub(r"^D ", "", it) for it in self.lines if "LACKS" in it or "klp_stepper lacks" in it]
        panic = [it for it in self.lines if "Kernel panic" in it or "BUG:" in it or "Oops" in it]
        if lacks:
            return "; ".join(lacks[:6])
        if panic:
            return f"it panics: {panic[0]}; {self.end_of_console()}"
        return f"it ended before all was played; {self.end_of_console()}"

    def kill(self):
        self.process.kill()
        self.process.wait()

    def end(self):
        """Ends the machine, if it is still there."""
        self.console.close()
        if self.process.poll() is None:
            self.kill()
