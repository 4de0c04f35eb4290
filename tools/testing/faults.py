"""What klpwatch and klppage tell on standard error: where a fault is, what is wanted there, and hints.

Each case has its files in a folder of its own, a.catalog beside a.trace or a.script.
"""
import functools
import itertools
import tempfile

from testing.run import TOP, fault, finish, own, start

HANDLER = "handler ffffffff81000000\n"
KERNEL = f"{HANDLER}object vmlinux\nsymbol f ffffffff81001000 e80000000090c3\n"
PATCH = f"{KERNEL}patch p\ntarget vmlinux\n"
# What is wanted, as it is told more than once.
ADDRESS = "wanted is an address, of 1 to 16 hexadecimal digits"
NAME = "wanted is a name, of 1 to 55 letters, digits, _ and -"
SYMBOL = "wanted is a symbol of the target's object, as .klp.sym.OBJECT.SYMBOL,POSITION"
LINE = "wanted is handler, object, symbol, patch, target, func, pre, post, preun, postun or state"
FUNC = "wanted is func .klp.sym.OBJECT.SYMBOL,POSITION NEWNAME ADDRESS"
EDIT = "wanted is alloc:OBJ:ID:VALUE, free:OBJ:ID, freeall:ID, set:STATE:VALUE or takeprev:STATE"
DROPPED = "a carriage return, which is dropped at the end of a line, and else is part of a word"
ITEM = "wanted is call, return, saw, ran, hooked, plain, or a line of the console that asks for an event"
SAW = "wanted is saw TASK STATE, saw PATCH ENABLED TRANSITION, or saw PATCH gone"
OWN_SYMBOL = "wanted is one symbol of the catalog, as .klp.sym.OBJECT.SYMBOL,POSITION"
FRAME = "wanted is .klp.sym.OBJECT.SYMBOL,POSITION or PATCH:INDEX, of the catalog"
FILE = "wanted is /sys/kernel/livepatch/PATCH/enabled or force, of a known patch"
MARK = "wanted is ASCII alone, and no byte-order mark in front"
WIDE = "UTF-16, by its first two bytes: wanted is ASCII or UTF-8"
SCRIPT_LINE = "a line of a script, where a trace is wanted: klppage takes scripts"
TRACE_LINE = "a line of a trace, where a script is wanted: klpwatch takes traces"
ANSWER = "wanted is ?, or an answer as the console writes it, like ok, pending 2 or error 16 Busy"
NO_EVENT = "wanted is a line without =>, behind which an event's answer stands"
LOG = "a log of klpcap, which klpsee takes: klpsee LOG"
NO_CATALOG = "wanted is a catalog, and this is a log of klpcap, which klpsee takes: klpsee LOG"
TIME = "wanted is seconds, with 6 decimals at most, and an item behind a space"
F = ".klp.sym.vmlinux.f,0"
# Lines behind the five of PATCH, and what is told of the last one.
FAULTY = [
    ("bogus x", f"UnknownWord: 'bogus': {LINE}"),
    ("\x1b[31mred", f"UnknownWord: '\\u{{1b}}[31mred': {LINE}"),
    ("patch q replaces", "UnknownWord: 'replaces': wanted is replace, or nothing"),
    ("target", "WrongCount: 'target': wanted is target OBJECT"),
    ("func .klp.sym.vmlinux.f,0 f_p", f"WrongCount: 'func .klp.sym.vmlinux.f,0 f_p': {FUNC}"),
    ("pre -16 free:1:2", "WrongCount: 'pre -16 free:1:2': wanted is a status, and edits behind it where it is 0"),
    ("pre x", "BadNumber: 'x': wanted is a status, a decimal number of 32 bits with a sign"),
    ("state x 1", "BadNumber: 'x': wanted is an id, a decimal number of 64 bits"),
    ("state 1 4294967296", "BadNumber: '4294967296': wanted is a version, a decimal number of 32 bits"),
    ("handler 0x10", f"BadHex: '0x10': {ADDRESS}"),
    ("symbol g 8100100g e8", f"BadHex: '8100100g': {ADDRESS}"),
    ("symbol g 81001000 e80", "BadHex: 'e80': wanted is a body, of pairs of hexadecimal digits"),
    ("func .klp.sym.vmlinux.f,0 f_p x", f"BadHex: 'x': {ADDRESS}"),
    ("object a.b", f"BadName: 'a.b': {NAME}"),
    ("symbol a,b 0 e8", "BadName: 'a,b': wanted is a symbol's name, of 1 to 127 letters, digits, _, . and $"),
    ("func .klp.sym.vmlinux.f,0 a.b 0", f"BadName: 'a.b': {NAME}"),
    ("func f f_p 0", f"BadSymbol: 'f': {SYMBOL}"),
    ("func .klp.sym.m.f,0 f_p 0", f"BadSymbol: '.klp.sym.m.f,0': {SYMBOL}"),
    ("pre 0 alloc:1:2:3 free:1 set:1:2", f"BadEdit: 'free:1': {EDIT}"),
    ("handler 0", "OutOfPlace: 'handler 0': wanted is a handler before the first patch"),
    ("object m", "OutOfPlace: 'object m': wanted is an object before the first patch"),
    ("symbol g 8 e8", "OutOfPlace: 'symbol g 8 e8': wanted is a symbol behind an object and before the first patch"),
    ("patch q\npre 0", "OutOfPlace: 'pre 0': wanted is a callback in a target"),
    ("patch p", "Twice: 'p': wanted is a name that no patch has"),
    ("target vmlinux", "Twice: 'vmlinux': wanted is an object that is no target of the patch yet"),
    ("pre 0\npre 0", "Twice: 'pre': wanted is one callback of each kind in a target"),
    ("state 7 1\n# none\nstate 7 2", "Twice: '7': wanted is an id that the patch doesn't name yet"),
    ("target m", "UnknownObject: 'm': wanted is an object of the lines above"),
    (
        "pre 0" + 17 * " free:1:1",
        f"TooMany: 'pre 0{6 * ' free:1:1'} free'..: wanted are 16 edits of a callback at most",
    ),
    ("state \x80", "NotAscii: 'state \\x80': wanted is ASCII alone"),
    ("patch " + 4091 * "q", f"LineTooLong: 'patch {58 * 'q'}'..: wanted are 4096 bytes at most"),
]
# Whole catalogs, and what is told of them.
CATALOGS = [
    ("", "line 0: Missing: wanted are a handler and an object"),
    (f"\ufeff{KERNEL}", f"line 1: NotAscii: '\\u{{feff}}handler ffffffff81000000': {MARK}"),
    (f"{KERNEL}\ufeffobject m\n", f"line 4: NotAscii: '\\u{{feff}}object m': {MARK}"),
    (b"\xfe\xffx\n", "line 1: NotAscii: '\\xfe\\xffx': wanted is ASCII alone, and this is UTF-16"),
    (b"\xff\xfex\n", "line 1: NotAscii: '\\xff\\xfex': wanted is ASCII alone, and this is UTF-16"),
    ("klpcap 2\nkernel 6.1 x86_64\n", f"line 1: UnknownWord: {NO_CATALOG}"),
    (f"{KERNEL}object vmlinux\n", "line 4: Twice: 'vmlinux': wanted is a name that no object has"),
    (f"{HANDLER}{HANDLER}", "line 2: Twice: 'handler': wanted is one handler"),
    (
        f"{HANDLER}object vmlinux\nsymbol f 0 {257 * '00'}\n",
        f"line 3: TooMany: '{64 * '0'}'..: wanted are 256 bytes of a body at most",
    ),
    (
        f"{HANDLER}object vmlinux\nsymbol f ffffffff81001000 f30f1efae8000000\n",
        "ShortSymbol: symbol f of vmlinux: wanted are 5 bytes for a call, behind an ENDBR64 if it begins with one",
    ),
    (
        "handler ffffffffffffff00\nobject vmlinux\nsymbol f fffffffffffffffb e800000000\n",
        "Overlap: symbol f of vmlinux: wanted is an end before the last address of 64 bits",
    ),
    (
        f"{KERNEL}symbol h ffffffff81000ffc e800000000\n",
        "Overlap: symbol h of vmlinux shares an address with f of vmlinux",
    ),
    (
        f"{PATCH}func .klp.sym.vmlinux.g,0 g_p 0\nfunc .klp.sym.vmlinux.f,1 f_p 0\n"
        "func .klp.sym.vmlinux.g,0 g_q 0\nfunc .klp.sym.vmlinux.f,0 f_q 0\n",
        "line 6: hint: '.klp.sym.vmlinux.g,0': wanted is a symbol of vmlinux, which has no g, but f; "
        "else load p is refused (NoSymbol)\nSameSite: f_p and f_q of patch p are both for f of vmlinux",
    ),
]
# A catalog with two symbols of one name, a module and a patch.
MORE = f"""{KERNEL}symbol d ffffffff81002000 e800000000\nsymbol d ffffffff81003000 e800000000
object m\nsymbol g ffffffffa0000000 e800000000\npatch p\ntarget vmlinux\nfunc {F} f_p ffffffffc0001000
"""
NO_SYMBOL = "wanted is a symbol of vmlinux, which has no"
NO_OBJECT = "wanted is an object of the catalog, which has no"
TWO = "vmlinux has 2 symbols d"
# Lines of a trace over MORE that are no items, and what is told of them.
ITEMS = [
    ("", "wanted is an item on each line"),
    ("call 1", "'call 1': wanted is call TASK SYMBOL"),
    (f"call 1 {F} 2", f"'call 1 {F} 2': wanted is call TASK SYMBOL"),
    (f"call x {F}", "'x': wanted is a task, from 0 to 63"),
    ("call 1 f", f"'f': {OWN_SYMBOL}"),
    ("call 1 .klp.sym.vmlinux.nope,0", f"'.klp.sym.vmlinux.nope,0': {NO_SYMBOL} nope"),
    ("call 1 .klp.sym.m.d,0", "'.klp.sym.m.d,0': wanted is a symbol of m, which has no d, but g"),
    ("call 1 .klp.sym.nope.f,0", f"'.klp.sym.nope.f,0': {NO_OBJECT} nope"),
    ("call 1 .klp.sym.vmlinx.f,0", f"'.klp.sym.vmlinx.f,0': {NO_OBJECT} vmlinx, but vmlinux"),
    ("call 1 .klp.sym.vmlinux.d,0", f"'.klp.sym.vmlinux.d,0': wanted is a position from 1 to 2: {TWO}"),
    ("call 1 .klp.sym.vmlinux.d,3", f"'.klp.sym.vmlinux.d,3': wanted is a position up to 2: {TWO}"),
    ("call 1 .klp.sym.vmlinux.f,2", "'.klp.sym.vmlinux.f,2': wanted is position 0 or 1: vmlinux has one symbol f"),
    ("return", "'return': wanted is return TASK"),
    ("return 64", "'64': wanted is a task, from 0 to 63"),
    ("load z", "'z': wanted is a patch of the catalog"),
    ("load", "'load': wanted is load PATCH"),
    ("load p p", "'load p p': wanted is load PATCH"),
    ("insmod z", "'z': wanted is an object of the catalog"),
    ("rmmod z", "'z': wanted is an object of the catalog"),
    ("poll p", "'poll p': wanted is poll"),
    ("echo 2 > /sys/kernel/livepatch/p/enabled", "'2': wanted is 0 or 1"),
    ("echo 01 > /sys/kernel/livepatch/p/enabled", "'01': wanted is 0 or 1"),
    ("echo 1 >/sys/kernel/livepatch/p/enabled", "'echo 1 >/sys/kernel/livepatch/p/enabled': wanted is echo SWITCH > FILE"),
    ("echo 1 > /sys/kernel/livepatch/z/enabled", f"'/sys/kernel/livepatch/z/enabled': {FILE}"),
    ("echo 1 > /sys/kernel/livepatch/p/transition", f"'/sys/kernel/livepatch/p/transition': {FILE}"),
    ("echo 0 > /sys/kernel/livepatch/p/force", f"'echo 0 > /sys/kernel/livepatch/p/force': {ITEM}"),
    ("task new 64", "'64': wanted is a task, from 0 to 63"),
    ("task fork 1 64", "'64': wanted is a task, from 0 to 63"),
    ("task fork 1", "'task fork 1': wanted is task fork TASK TASK"),
    ("task goes 1", "'goes': wanted is new, end, enter, exit, wake, fork or sleep"),
    ("task sleep", "'task sleep': wanted is task sleep TASK FRAME .."),
    ("task sleep 1 .klp.sym.vmlinux.nope,0", f"'.klp.sym.vmlinux.nope,0': {NO_SYMBOL} nope"),
    ("task sleep 1 p:0 .klp.sym.vmlinux.d,0", f"'.klp.sym.vmlinux.d,0': wanted is a position from 1 to 2: {TWO}"),
    ("task sleep 1 f", f"'f': {FRAME}"),
    ("task sleep 1 .klp.sym.vmlinux.d,2 p:1 z:0", f"'z:0': {FRAME}"),
    ("task sleep 1 p:65536", f"'p:65536': {FRAME}"),
    (f"task sleep 1{33 * ' p:0'}", f"'task sleep 1{13 * ' p:0'}'..: wanted are 32 functions at most"),
    ("shadow put 1 2", f"'shadow put 1 2': {ITEM}"),
    ("saw", f"'saw': {SAW}"),
    ("saw p", f"'saw p': {SAW}"),
    ("saw cve_2024_1086 enabled", f"'saw cve_2024_1086 enabled': {SAW}"),
    ("saw 64 0", "'64': wanted is a task, from 0 to 63"),
    ("saw 1 2", "'2': wanted is -1, 0 or 1"),
    ("saw p 1", f"'saw p 1': {SAW}"),
    ("saw z gone", "'z': wanted is a patch of the catalog"),
    ("saw z 1 0", "'z': wanted is a patch of the catalog"),
    ("saw p 1 2", "'2': wanted is 0 or 1"),
    ("saw p 1 0 1", "'saw p 1 0 1': wanted is saw PATCH ENABLED TRANSITION"),
    ("ran 1", "'ran 1': wanted is ran TASK FRAME"),
    ("ran 1 f", f"'f': {FRAME}"),
    ("ran 1 p:0 p:0", "'ran 1 p:0 p:0': wanted is ran TASK FRAME"),
    ("ran 1 p:1", "'p:1': wanted is a function that the patch has"),
    ("hooked", "'hooked': wanted is hooked SYMBOL"),
    ("plain .klp.sym.vmlinux.nope,0", f"'.klp.sym.vmlinux.nope,0': {NO_SYMBOL} nope"),
    ("poll => pending 02", f"'pending 02': {ANSWER}"),
    ("poll => pending 256", f"'pending 256': {ANSWER}"),
    ("poll =>  ok", f"' ok': {ANSWER}"),
    ("poll => ok ", f"'ok ': {ANSWER}"),
    ("poll => error 17 Busy", f"'error 17 Busy': {ANSWER}"),
    ("poll => woken .klp.sym.vmlinux.f,0", f"'woken .klp.sym.vmlinux.f,0': {ANSWER}"),
    ("load p => prefailed p m 0016", f"'prefailed p m 0016': {ANSWER}"),
    ("shadow getalloc 1 2 3 => value 03", f"'value 03': {ANSWER}"),
    ("poll =>ok", "'poll =>ok': wanted is poll"),
    ("load z => ok", "'z': wanted is a patch of the catalog"),
    (f"call 1 {F} => ok", f"'call 1 {F} => ok': {NO_EVENT}"),
    ("saw 1 0 => ?", f"'saw 1 0 => ?': {NO_EVENT}"),
    ("@ poll", f"'': {TIME}"),
    ("@1.2345678 poll", f"'1.2345678': {TIME}"),
    ("@1s poll", f"'1s': {TIME}"),
    (" @1 poll", f"' @1 poll': {ITEM}"),
]
# Symbols of much the same names, those that are asked for, and the one that is told as near.
ALIKE = ("shop_two", "show_one", "show_two", "stop_one")
NEAR = [
    ("show_tw", "show_two"),
    ("show_ne", "show_one"),
    ("xshow_one", "show_one"),
    ("shoW_one", "show_one"),
    ("shwo_one", "show_one"),
    ("sho_on", "show_one"),
    ("st_one", "stop_one"),
    ("stip_two", "shop_two"),
    ("show", None),
    ("show_three", None),
    ("swoh_one1", None),
]
# Traces over KERNEL, and what is told of their line that is no item.
TRACES = [
    ("task new 1\n\n", "line 2: BadItem: wanted is an item on each line"),
    ("call\r\n", f"line 1: hint: {DROPPED}\nline 1: BadItem: 'call': wanted is call TASK SYMBOL"),
    ("task new 1\ntext vmlinux\n", f"line 2: hint: {SCRIPT_LINE}\nline 2: BadItem: 'text vmlinux': {ITEM}"),
    ("shadow get 1 2\n", f"line 1: hint: {SCRIPT_LINE}\nline 1: BadItem: 'shadow get 1 2': {ITEM}"),
    (b"\xff\xfep\r\n", f"line 1: hint: {WIDE}\nline 1: BadItem: '\\xff\\xfep': {ITEM}"),
    (b"\xfe\xffp\n", f"line 1: hint: {WIDE}\nline 1: BadItem: '\\xfe\\xffp': {ITEM}"),
    ("klpcap 2\nkernel 6.1 x86_64\n", f"line 1: hint: {LOG}\nline 1: BadItem: 'klpcap 2': {ITEM}"),
    (KERNEL, f"line 1: hint: a catalog, where a trace is wanted\nline 1: BadItem: 'handler ffffffff81000000': {ITEM}"),
]
# Traces over MORE, and what is told of their last line, which isn't honest.
IN = "task new 1\ntask enter 1\n"
D, G = ".klp.sym.vmlinux.d,1", ".klp.sym.m.g,0"
OUTSIDE = f"NoCall: task 1 calls {F}, and isn't running in the kernel"
UNLOADED = f"NoCall: task 1 calls {G}, whose object isn't loaded"
SLEEP = "wanted is each function that the task is inside of:"
F1 = ".klp.sym.vmlinux.f,1"
DISHONEST = [
    (f"call 1 {F}", OUTSIDE),
    (f"task new 1\ncall 1 {F}", OUTSIDE),
    (f"{IN}call 1 {F}\ntask sleep 1 {F}\ncall 1 {F}", OUTSIDE),
    (f"{IN}{32 * f'call 1 {F}{chr(10)}'}task sleep 1{32 * f' {F}'}\ncall 1 {F}", OUTSIDE),
    (f"insmod m\ncall 1 {G}", OUTSIDE.replace(F, G)),
    (f"{IN}call 1 {G}", UNLOADED),
    (f"task new 1\ncall 1 {G}", UNLOADED),
    (f"insmod m\nrmmod m\n{IN}call 1 {G}", UNLOADED),
    (f"{IN}call 1 {F}\ntask sleep 1", f"Frames: 'task sleep 1': {SLEEP} {F1}"),
    (f"{IN}task sleep 1 {F}", f"Frames: 'task sleep 1 {F}': {SLEEP} none"),
    (f"{IN}call 1 {F}\nreturn 1\ncall 1 {D}\ncall 1 {F}\ntask sleep 1 {D}", f"Frames: 'task sleep 1 {D}': {SLEEP} {D} {F1}"),
    (f"load p\npoll\n{IN}call 1 {F}\ntask sleep 1 {F}", f"Frames: 'task sleep 1 {F}': {SLEEP} p:0 (f_p)"),
    # one version is older than the patch, and one is the patch's
    (f"{IN}call 1 {F}\nload p\n{IN.replace('1', '2')}call 2 {F}\ntask sleep 2", f"Frames: 'task sleep 2': {SLEEP} p:0 (f_p)"),
    (f"{IN}call 1 {F}\nload p\ntask sleep 1 p:0", f"Frames: 'task sleep 1 p:0': {SLEEP} {F1}"),
    (f"{IN}{4 * f'call 1 {F}{chr(10)}'}task sleep 1", f"Frames: 'task sleep 1': {SLEEP}{4 * f' {F1}'}"),
    (f"{IN}{5 * f'call 1 {F}{chr(10)}'}task sleep 1", f"Frames: 'task sleep 1': {SLEEP}{4 * f' {F1}'} .."),
]
# Traces over MORE, and what is told of their last line, which the rules don't have so.
FILES_0 = "saw p 0 1': the rules have enabled 1, transition 1"
SLEEPS = f"{IN}call 1 {F}\ntask sleep 1 {F}\nload p => started"
DIFFERING = [
    ("load p => completed 1", "Answer: 'load p => completed 1': the rules answer started"),
    ("load p\nload p => started", "Answer: 'load p => started': the rules answer error 22 AlreadyThere"),
    ("task new 1 => error 2 NoTask", "Answer: 'task new 1 => error 2 NoTask': the rules answer ok"),
    ("shadow getalloc 1 2 3 => value 4", "Answer: 'shadow getalloc 1 2 3 => value 4': the rules answer value 3"),
    (f"{SLEEPS}\npoll => pending 2", f"Answer: 'poll => pending 2': the rules answer pending 1: task 1 sleeps in {F1}, which p changes"),
    (f"{SLEEPS}\nsaw p 1 0", f"Files: 'saw p 1 0': the rules have enabled 1, transition 1: task 1 sleeps in {F1}, which p changes"),
    (f"{SLEEPS}\nsaw p 0 1", f"Files: '{FILES_0}"),
    ("saw p 1 0", "Files: 'saw p 1 0': the rules have no /sys/kernel/livepatch/p, since that patch isn't installed"),
    ("load p\npoll\nsaw p gone", "Files: 'saw p gone': the rules have enabled 1, transition 0"),
    ("saw 1 0", "State: 'saw 1 0': the rules have no task 1"),
    ("task new 1\nsaw 1 0", "State: 'saw 1 0': the rules have -1: no patch is in transition"),
    (
        "task new 1\nload p\nsaw 1 1",
        "State: 'saw 1 1': the rules have 0: task 1 is in user space, and is switched when it next leaves the kernel",
    ),
    (f"{IN}load p\nsaw 1 1", "State: 'saw 1 1': the rules have 0: task 1 runs in the kernel, and is switched when it leaves"),
    (
        f"{IN}load p\ntask sleep 1\nsaw 1 1",
        "State: 'saw 1 1': the rules have 0: task 1 sleeps in no function that holds p up, and is switched by the next poll",
    ),
    (f"{IN}load p\ntask exit 1\nsaw 1 0", "State: 'saw 1 0': the rules have 1: that is the target of p's transition"),
    (f"{IN}ran 1 p:0", f"Version: 'ran 1 p:0': the rules pick {F1}: no patch is in transition"),
    (f"ran 1 {F}", f"Version: 'ran 1 {F}': the rules pick nothing: there is no such task"),
    (f"{IN}ran 1 {G}", f"Version: 'ran 1 {G}': the rules pick nothing: the function's object isn't loaded"),
    (f"load p\nplain {F}", f"Text: 'plain {F}': the rules have it hooked, by p"),
    (f"hooked {F}", f"Text: 'hooked {F}': the rules have it plain: no patch that is installed changes it"),
    (f"plain {G}", f"Text: 'plain {G}': the rules have no text of it: m isn't loaded"),
]
# A patch with two targets, the second function of which is in the second one.
TWICE = f"{MORE}target m\nfunc {G} g_p ffffffffc0002000\n"
IN_MODULE = f"insmod m\nload p\npoll\n{IN}call 1 {G}\ntask sleep 1\n"
# Honest traces over KERNEL, and what is told of their refused events.
REFUSED_EVENTS = [
    ("task new 1\n", ""),
    ("task end 5\n", "line 1: hint: 'task end 5': NoTask; 1 of 1 events refused, which is no fault"),
    (
        f"{IN}call 1 {F}\ntask new 1\nreturn 1\npoll\ntask exit 1\n",
        "line 4: hint: 'task new 1': TaskThere; 2 of 5 events refused, which is no fault",
    ),
    ("task end 5 => error 2 NoTask\n", ""),
    ("@1 task end 5 => ?\n", "line 1 (1 s): hint: '@1 task end 5 => ?': NoTask; 1 of 1 events refused, which is no fault"),
]
# A function behind PATCH, or the target that it is in, a trace, and what is told of it. All traces are honest.
NOPE, LATER = ".klp.sym.vmlinux.nope,0", ".klp.sym.vmlinux.f,2"
UNLOADABLE = [
    ("func .klp.sym.vmlinux.d,2 f_p 0", "task new 1\n", ""),
    (f"func {NOPE} f_p 0", "task new 1\n", f"line 11: hint: '{NOPE}': {NO_SYMBOL} nope; else load p is refused (NoSymbol)"),
    (
        f"func {LATER} f_p 0",
        "task new 1\n",
        f"line 11: hint: '{LATER}': wanted is position 0 or 1: vmlinux has one symbol f; else load p is refused (NoSymbol)",
    ),
    (
        "target m\nfunc .klp.sym.m.h,0 f_p 0",
        "task new 1\n",
        "line 12: hint: '.klp.sym.m.h,0': wanted is a symbol of m, which has no h, but g; "
        "else load p or insmod m is refused (NoSymbol)",
    ),
    ("func .klp.sym.vmlinux.d,0 f_p 0", "task new 1\n", ""),
]
AMBIGUOUS = (
    f"line 11: hint: '.klp.sym.vmlinux.d,0': wanted is a position from 1 to 2: {TWO}; else load p is refused (NoSymbol)"
)
LOADED = "line 1: hint: 'load p': NoSymbol; 1 of 1 events refused, which is no fault"
# Scripts over KERNEL, with the status, and what is told of them.
SCRIPTS = [
    (f"mark\n{'x' * 257}\n", 1, f"line 2: LineTooLong: '{64 * 'x'}'..: wanted are 256 bytes at most"),
    (f"{'é' * 129}\n", 1, f"line 1: LineTooLong: '{32 * 'é'}'..: wanted are 256 bytes at most"),
    (f"x{'é' * 128}\n", 1, f"line 1: LineTooLong: 'x{31 * 'é'}'..: wanted are 256 bytes at most"),
    ("\ufeffmark\n", 0, "line 1: hint: a byte-order mark, which is part of the first word"),
    ("mark\nmark\r\n", 0, "line 2: hint: a carriage return, which is part of a word"),
    ("mark\tmark\n\tmark\n", 0, "line 1: hint: a tab, which is part of a word: spaces separate words"),
    ("mark\n# laod p\n#\n\nmark\n", 0, ""),
    ("klpcap 2\nkernel 6.1 x86_64\n", 0, f"line 1: hint: {LOG}\nline 1: hint: 'klpcap 2': wanted is a line of the console"),
    (KERNEL, 0, "line 1: hint: a catalog, where a script is wanted"),
    ("task new 1\nlaod p\nload q\n", 0, "line 2: hint: 'laod p': wanted is a line of the console"),
    ("mark\nshadow alloc 1 2 x\ntask entr 1\n", 0, "line 3: hint: 'entr': wanted is new, end, enter, exit, wake, fork or sleep"),
    ("mark\n\nload z\n", 0, "line 3: hint: 'z': wanted is a patch of the catalog"),
    (f"task new 1\ncall 1 {F}\nreturn 1\n", 0, f"line 2: hint: {TRACE_LINE}"),
    ("return 1\n", 0, f"line 1: hint: {TRACE_LINE}"),
    ("@1 load p\n", 0, f"line 1: hint: {TRACE_LINE}"),
    ("saw 1 0\n", 0, f"line 1: hint: {TRACE_LINE}"),
    ("text vmlinux\nshadow get 1 2\n", 0, ""),
    (b"\xff\xfem\t\r\n# a", 0, f"line 1: hint: {WIDE}"),
    (b"\xfe\xffm\n", 0, f"line 1: hint: {WIDE}"),
]
# Texts of names, and what is told of them.
NAME = "wanted is a name of 1 to 64 bytes without control characters"
SECONDS = "wanted are seconds, with up to six decimals behind a point"
NAMES = [
    ("task 64 x\n", "line 1: BadTask: '64': wanted is a task's number, 0 to 63"),
    ("task 1 a\r\ntask -1 b\n", "line 2: BadTask: '-1': wanted is a task's number, 0 to 63"),
    ("task 1 a\ntask 2 a\ntask 1 b", "line 3: NamedTwice: '1': the task has a name already"),
    ("task 1\n", f"line 1: BadName: '': {NAME}"),
    ("task 1 \n", f"line 1: BadName: '': {NAME}"),
    ("task 1 a\tb\n", f"line 1: BadName: 'a\\tb': {NAME}"),
    (f"task 1 {64 * 'n'}\ntask 2 {65 * 'n'}\n", f"line 2: BadName: '{64 * 'n'}'..: {NAME}"),
    ("line 0 1\n", "line 1: BadLine: '0': wanted is a line's number, from 1 on"),
    ("line 1 1,5\n", f"line 1: BadTime: '1,5': {SECONDS}"),
    ("line 1 1.0000001\n", f"line 1: BadTime: '1.0000001': {SECONDS}"),
    ("line 1 1 \n", f"line 1: BadTime: '1 ': {SECONDS}"),
    ("line 2 1\nline 2 1\n", "line 2: LineFalls: '2': wanted is a later line than the one before"),
    ("line 2 2\nline 3 1.999999\n", "line 2: TimeFalls: '1.999999': wanted is a time that is no earlier than the one before"),
    ("tasks 1 a\n", "line 1: UnknownWord: 'tasks': wanted is 'task' or 'line'"),
    ("task 1 a\n\n", "line 2: UnknownWord: '': wanted is 'task' or 'line'"),
]


def told(program, texts, status, said):
    """The program ends so over these files, and tells this."""
    with tempfile.TemporaryDirectory(prefix="faults-") as room:
        for name, text in texts.items():
            with open(f"{room}/{name}", "wb") as it:
                it.write(text if isinstance(text, bytes) else text.encode("latin-1" if "\x80" in text else "utf-8"))
        came, _, err = finish(start([f"{TOP}/{program}", *texts], room))
        return fault((came, own(err)), (status, said))


def case(program, catalog, second, status, lines, of="catalog"):
    ending = "script" if program == "klppage" else "trace"
    file = "a.catalog" if of == "catalog" else f"a.{ending}"
    said = "".join(f"{program}: {file}: {it}\n" for it in lines.splitlines())
    texts = {"a.catalog": catalog, f"a.{ending}": second}
    return f"{program}, {lines[:60]!r}", functools.partial(told, program, texts, status, said)


def unreadable(program, words, said):
    """A file can't be read, and is named."""
    status, out, err = finish(start([f"{TOP}/{program}", *words], f"{TOP}/examples"))
    return fault((status, out, own(err)), (1, b"", said))


def last_line(trace, status, said):
    """A case of what klpwatch tells of the last line of a trace."""
    number = trace.count("\n") + 1
    return case("klpwatch", MORE, f"{trace}\n", status, f"line {number}: {said}", of="trace")


def near_name(name, near):
    """A case of what klpwatch tells of a symbol that isn't there, where there are some of much the same names."""
    catalog = f"{HANDLER}object vmlinux\n"
    for number, own in enumerate(ALIKE):
        catalog += f"symbol {own} ffffffff8100{number}000 e800000000\n"
    word = f".klp.sym.vmlinux.{name},0"
    said = f"line 1: BadItem: '{word}': {NO_SYMBOL} {name}{f', but {near}' if near else ''}"
    return case("klpwatch", catalog, f"call 1 {word}\n", 1, said, of="trace")


def ambiguous():
    """A function that is for several symbols is told where its patch is loaded."""
    texts = {"a.catalog": f"{MORE}func .klp.sym.vmlinux.d,0 f_p 0\n", "a.trace": "load p\n"}
    return told("klpwatch", texts, 0, f"klpwatch: a.catalog: {AMBIGUOUS}\nklpwatch: a.trace: {LOADED}\n")


def cases():
    made = []
    for line, said in FAULTY:
        number = PATCH.count("\n") + line.count("\n") + 1
        made.append(case("klpwatch", f"{PATCH}{line}\n", "poll\n", 1, f"line {number}: {said}"))
    made += [case("klpwatch", catalog, "poll\n", 1, said) for catalog, said in CATALOGS]
    made += [case("klppage", catalog, "poll\n", 1, said) for catalog, said in CATALOGS]
    made += [case("klpwatch", KERNEL, trace, 1, said, of="trace") for trace, said in TRACES]
    made += [last_line(line, 1, f"BadItem: {said}") for line, said in ITEMS]
    made += [near_name(*row) for row in NEAR]
    made += [last_line(trace, 3, said) for trace, said in [*DISHONEST, *DIFFERING]]
    made.append(case("klpwatch", TWICE, IN_MODULE, 3, f"line 7: Frames: 'task sleep 1': {SLEEP} p:1 (g_p)", of="trace"))
    made += [case("klpwatch", KERNEL, trace, 0, said, of="trace") for trace, said in REFUSED_EVENTS]
    for program, (line, second, said) in itertools.product(("klpwatch", "klppage"), UNLOADABLE):
        made.append(case(program, f"{MORE}{line}\n", second, 0, said))
    made.append(("klpwatch, an ambiguous function", ambiguous))
    made += [case("klppage", KERNEL, script, status, said, of="script") for script, status, said in SCRIPTS]
    for names, said in NAMES:
        texts = {"a.catalog": KERNEL, "a.script": "poll\n", "a.names": names}
        made.append((f"klppage, {names[:60]!r}", functools.partial(told, "klppage", texts, 1, f"klppage: a.names: {said}\n")))
    swapped = "line 1: UnknownWord: wanted is a catalog, which a.script is: are the two swapped?"
    made.append(case("klppage", "load p\n", PATCH, 1, swapped))
    missing = [
        ("klpwatch", ("k.catalog", "missing"), "missing", "No such file or directory (os error 2)"), ("klppage", (".", "k.script"), ".", "Is a directory (os error 21)"),
        ("klplint", ("k.catalog", "missing"), "missing", "No such file or directory (os error 2)"), ("klpsee", ("missing",), "missing", "No such file or directory (os error 2)"),
        ("klpko", ("--list", "missing"), "missing", "No such file or directory (os error 2)"),
    ]
    for program, words, name, reason in missing:
        said = f"{program}: {name}: CannotRead: {reason}\n"
        made.append((f"{program}, {name} can't be read", functools.partial(unreadable, program, words, said)))
    return made
