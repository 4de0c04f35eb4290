"""A script for each difference that docs/KERNEL.md announces and a kernel can be asked, so every run measures it."""
from conforming.rules import LIVEPATCH as P
from conforming.rules import Case

KERNEL = """handler ffffffff81000000
object vmlinux
symbol f ffffffff81001000 e800000000c3
symbol h ffffffff81002000 e800000000c3
object m
symbol g ffffffff81003000 e800000000c3
object n
symbol k ffffffff81004000 e800000000c3
"""
# The address of the next new function: any number will do.
FIRST = 0xffffffffc0001000
F, H, G = ".klp.sym.vmlinux.f,1", ".klp.sym.vmlinux.h,1", ".klp.sym.m.g,1"


def catalog(*rows):
    """A catalog of these rows. `func SYMBOL NAME` gets an address."""
    return KERNEL + "".join(f"{row} {FIRST + 0x100 * k:x}\n" if row.startswith("func ") else f"{row}\n"
                            for k, row in enumerate(rows))


def patch(name, *rows):
    """A patch that changes f of vmlinux, with these rows in front of its target."""
    return (name, *rows, "target vmlinux", f"func {F} f_{name.split()[1]}")


def asleep(task, *frames):
    return [f"task new {task}", f"task enter {task}", " ".join([f"task sleep {task}", *frames])]


def enabled(name):
    return [f"load {name}", "poll"]


CASES = (
    Case("load-order", catalog(*patch("patch p", "state 1 2"), *patch("patch q", "state 1 1"),
                               "patch r", "target vmlinux", "func .klp.sym.vmlinux.missing,0 none"),
         ["load p", "load q", "load r", "poll", "load q", "load r", f"ls {P}"]),
    Case("pinned", catalog(*patch("patch p")),
         [*enabled("p"), *asleep(1, "p:0"), f"echo 0 > {P}/p/enabled", "poll", f"echo 1 > {P}/p/force", "poll",
          f"ls {P}", "load p", "task wake 1", "load p", f"ls {P}"]),
    Case("coming-symbol", catalog("patch p", "target m", f"func {G} g_p", "pre 0 alloc:1:1:5", "postun 0 free:1:1",
                                  "patch q", "target m", "func .klp.sym.m.missing,0 none"),
         ["load p", "poll", "load q", "poll", "insmod m", "runs p m", "shadow get 1 1", f"ls {P}"]),
    Case("status-above", catalog(*patch("patch p"), "pre 7"), ["load p", f"ls {P}", "runs p vmlinux", "text vmlinux"]),
    Case("missing-file", catalog(*patch("patch p")), [f"echo 7 > {P}/p/enabled", "load p", f"echo 7 > {P}/p/enabled"]),
    Case("numbers", catalog(*patch("patch p")),
         ["insmod m", "insmod m", *asleep(1, G), "rmmod m", "task wake 1", "rmmod m", "rmmod m"]),
    Case("listing", catalog(*patch("patch p"), f"func {H} h_p", "target m", f"func {G} g_p", *patch("patch c replace")),
         [*enabled("p"), f"ls {P}/p", f"ls {P}/p/vmlinux", "load c", f"ls {P}/c", f"ls {P}/c/vmlinux", f"ls {P}/c/m",
          "poll", f"ls {P}/c", f"ls {P}/c/vmlinux", f"ls {P}/c/m"]),
    Case("older-reversed", catalog(*patch("patch p"), *patch("patch q")),
         [*enabled("p"), *asleep(1, "p:0"), *enabled("q"), f"echo 0 > {P}/p/enabled", "poll", "task wake 1",
          f"task sleep 1 {F}", f"echo 1 > {P}/p/enabled", "poll", "task wake 1", "task exit 1", "poll", "poll"]),
    Case("older-reversed-elsewhere", catalog(*patch("patch p"), f"func {H} h_p", *patch("patch q")),
         [*enabled("p"), *enabled("q"), *asleep(1, "p:1"), f"echo 0 > {P}/p/enabled", "poll", f"echo 1 > {P}/p/enabled",
          "poll"]),
    Case("state-zero", catalog(*patch("patch p", "state 0 1", "state 1 2"), *patch("patch q", "state 1 1")),
         [*enabled("p"), "load q", f"ls {P}"]),
    Case("absent-frame", catalog(*patch("patch p")), [*asleep(1, G), "load p", "poll"]),
    Case("reversals", catalog(*patch("patch p")),
         [*asleep(1, F), "load p", "poll", "cat /proc/1/patch_state", f"echo 0 > {P}/p/enabled",
          "cat /proc/1/patch_state", "poll", f"ls {P}", *enabled("p"), "task wake 1", "task exit 1", "poll",
          *asleep(2, "p:0"), f"echo 0 > {P}/p/enabled", "poll", f"echo 1 > {P}/p/enabled", "cat /proc/2/patch_state",
          "poll", f"ls {P}"]),
)
