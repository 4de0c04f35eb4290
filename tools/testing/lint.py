"""Whether what klplint says of random catalogs comes true where klpsim serves them: `tools/hostile lint [COUNT [SEED]]`.

Of a clean patch the dump before it is loaded has to be that after it is disabled. Of a callback that doesn't undo another,
each is run alone, and the variable has to have the values that klplint tells. And what klplint says of each patch has to be
what the premises come to when they are counted out over all variables that there may be.

Each patch is then loaded alone, over each other one, and over each pair that stands, and klpsim has to answer what klplint
tells of that. Each cumulative patch is loaded over each other one that it takes out, and disabled: klpsim shows after each
step which variables are left, and which are lost, and the system states are counted out here. Functions that are lost or
hidden are counted out too. klplint has to tell exactly these.

Without a script klplint has to say of the two worlds what it says of each of them with a script that makes it.

Callbacks, patches and symbols have marks, which klpsim passes over. What they mean is counted out here: which callbacks aren't
judged, or are guessed; which calls fail, since the variable is there that they add; what is said with a perhaps; what was left
out; and that a catalog with something unknown never has the status 0."""
import itertools
import json
import random
import re
import sys
import tempfile
from collections import namedtuple

sys.path.insert(0, __file__.rsplit("/", 2)[0])
from testing.run import run_itself  # noqa: E402

KINDS = ("pre", "post", "preun", "postun")
OBJECTS = ("vmlinux", "m", "n")
PARENTS, IDS, VALUES, STATES, VERSIONS = (0, 1, 2**64 - 1), (1, 2), (1, 2, 3), (7, 8), (1, 2)
KEYS = [(parent, number) for parent in PARENTS for number in IDS]
HEAD = """handler ffffffff81000000
object vmlinux
symbol f ffffffff81001000 e80000000090c3
object m
symbol g ffffffffa0000000 e800000000c3
object n
symbol h ffffffffb0000000 e800000000c3
"""
SYMBOLS = {"vmlinux": "f", "m": "g", "n": "h"}
PLACED = [f"{it}.{symbol}" for it, symbol in SYMBOLS.items()]
PATCHES = "/sys/kernel/livepatch"
DUMP = [f"text {it}" for it in OBJECTS] + [f"stack .klp.sym.{it},0" for it in PLACED] + [f"shadow get {o} {i}" for o, i in KEYS] + [f"ls {PATCHES}"]
# What is said of the round trip.
JUDGED = ("clean", "guessed", "not-undone", "not-apart")
# What isn't said of a world that is judged without a script.
OF_SCRIPTS = ("not-judged", "summary", "together")
# The answer to a line that nobody understands.
NOT_UNDERSTOOD = "error 22 BadLine\n"
# What comes of a patch whose pre-patch fails since it adds a variable that is there, by a mark.
EXISTS = "exists"
NOT_UNDONE = re.compile(
    r"may leave a trace: (\S+) for (\S+) doesn't undo (\S+)(?: of line \d+)?: the variable (\d+) (\d+) is (.*) before, and (.*) behind both")
SHARED = re.compile(r"may leave a trace: the callbacks for (\S+) \(line \d+\) and for (\S+) both touch the variable (\d+) (\d+)")
NAMES = {"pre-patch": "pre", "post-patch": "post", "pre-unpatch": "preun", "post-unpatch": "postun"}
NAMED = {kind: name for name, kind in NAMES.items()}


# A patch: of each of its objects the callbacks by kind, whether it is cumulative, its system states with their versions, what a
# mark says of whether it is cumulative, how many functions and targets were left out, and whether its functions have no symbol.
Patch = namedtuple("Patch", "targets replace states mark left_out missing", defaults=(False, (), None, None, False))
# What a mark says of a callback, and how often one of so many callbacks has it.
MARKS = (None,) * 12 + ("unknown", "guessed", "fails if there", "fails if there")


class Callback:
    """The status and the edits of a callback, and its mark."""

    def __init__(self, status, edits, mark=None):
        self.status, self.edits, self.mark = status, edits, mark

    def spelled(self, kind):
        """The line of the callback, and that of its mark."""
        line = " ".join([kind, str(self.status), *[":".join(map(str, it)) for it in self.edits]])
        return [line, *marked(self.mark)]

    def made(self, variables):
        """The variables after the callback."""
        now = dict(variables)
        for word, *rest in self.edits if self.status == 0 else ():
            if word == "alloc":
                now.setdefault((rest[0], rest[1]), rest[2])
            elif word == "free":
                now.pop((rest[0], rest[1]), None)
            elif word == "freeall":
                now = {key: value for key, value in now.items() if key[1] != rest[0]}
        return now

    def touched(self):
        """The keys, of those that there may be, that the callback touches."""
        return {key for key in KEYS for word, *rest in (self.edits if self.status == 0 else ())
                if (key[1] == rest[0] if word == "freeall" else word in ("alloc", "free") and key == (rest[0], rest[1]))}


NOTHING = Callback(0, [])


def marked(mark):
    """The line of a mark."""
    return [] if mark is None else [f"#? {mark}" if mark == "fails if there" else f"#? {mark} for a reason"]


def edit(draw):
    word = draw.choice(("alloc", "alloc", "free", "free", "freeall"))
    key = draw.choice(KEYS)
    return {"alloc": ("alloc", *key, draw.choice(VALUES)), "free": ("free", *key), "freeall": ("freeall", key[1])}[word]


def undoing(draw, callback):
    """Edits that often undo those of a callback."""
    back = [("free", it[1], it[2]) if it[0] == "alloc" else edit(draw) for it in reversed(callback.edits)]
    return Callback(0, back if draw.random() < 0.9 else back[1:])


def state_edit(draw):
    return draw.choice((("set", draw.choice(STATES), draw.choice(VALUES)), ("takeprev", draw.choice(STATES))))


def target(draw):
    callbacks = {}
    for done, back in (("pre", "postun"), ("post", "preun")):
        if draw.random() < 0.6:
            status = -16 if done == "pre" and draw.random() < 0.1 else 0
            edits = [edit(draw) for _ in range(draw.choice((0, 1, 1, 1, 2)))] + [state_edit(draw)] * (draw.random() < 0.4)
            callbacks[done] = Callback(status, [] if status else edits)
        if draw.random() < 0.6:
            callbacks[back] = undoing(draw, callbacks.get(done, NOTHING))
    for callback in callbacks.values():
        callback.mark = draw.choice(MARKS)
    return callbacks


def catalog(patches, head=HEAD, variable=False):
    """The text of a catalog. If `variable`, each patch of vmlinux changes its variable, too."""
    lines = []
    for number, own in enumerate(patches):
        lines += [f"patch p{number}" + " replace" * own.replace, *marked(own.mark)]
        lines += [f"#? left out {own.left_out[0]} functions, {own.left_out[1]} targets"] if own.left_out else []
        lines += [f"state {state} {version}" for state, version in own.states]
        for place, (name, callbacks) in enumerate(own.targets):
            symbol = "none" if own.missing else SYMBOLS[name]
            lines += [f"target {name}", f"func .klp.sym.{name}.{symbol},0 {symbol}_{number} ffffffffc{number:03x}{place:01x}000"]
            lines += [f"func .klp.sym.vmlinux.d,0 d_{number} ffffffffc{number:03x}{place:01x}800"] * (variable and name == "vmlinux")
            lines += [line for kind in KINDS if kind in callbacks for line in callbacks[kind].spelled(kind)]
    return head + "\n".join(lines) + "\n"


def has_mark(own, loaded, mark):
    """The callbacks of a patch for loaded objects that have this mark: each by its object and its kind, in order."""
    return [(name, kind) for name, callbacks in own.targets if name in loaded for kind in KINDS
            if kind in callbacks and callbacks[kind].mark == mark]


def fails_there(own, loaded, there):
    """The objects whose pre-patch fails since it adds a variable that is there, each with the variable."""
    failing = set()
    for key in KEYS:
        is_there = key in there
        for name, callbacks in own.targets:
            pre = callbacks.get("pre", NOTHING)
            if name not in loaded:
                continue
            is_twice = False
            for word, *rest in pre.edits if pre.status == 0 else ():
                if word == "alloc" and (rest[0], rest[1]) == key:
                    is_twice, is_there = is_twice or is_there, True
                elif (word == "free" and (rest[0], rest[1]) == key) or (word == "freeall" and rest[0] == key[1]):
                    is_there = False
            if is_twice and pre.mark == "fails if there":
                failing.add((name, key))
                break
    return failing


def changes(own):
    """The objects in which a patch changes a function that is there."""
    return set() if own.missing else {name for name, _ in own.targets}


def served(room, text, lines):
    """What klpsim answers to each line. A text takes several lines, so behind each line comes one that nobody understands."""
    with open(f"{room}/served.catalog", "w", encoding="ascii") as it:
        it.write(text)
    given = "".join(f"{line}\n?\n" for line in lines)
    status, out, err = run_itself(["klpsim", "console", f"{room}/served.catalog"], given.encode())
    assert status == 0, (status, err)
    return out.decode().split(NOT_UNDERSTOOD)[:-1]


def dumped(room, text, lines):
    """The dump behind these lines."""
    return served(room, text, [*lines, *DUMP])[len(lines):]


def holds(targets, loaded, variables):
    """Whether the premises hold, counted out over all keys, of the loaded objects before the first that refuses."""
    touched = []
    for name, callbacks in targets:
        if name not in loaded:
            continue
        pre, post, pre_un, post_un = (callbacks.get(kind, NOTHING) for kind in KINDS)
        if pre.status != 0:
            break
        there = pre.made(variables)
        if post_un.made(there) != variables or pre_un.made(post.made(there)) != there:
            return False
        own = set().union(*[it.touched() for it in (pre, post, pre_un, post_un)])
        if any(own & it for it in touched):
            return False
        touched.append(own)
    return True


def check_one(room, patches, loaded, variables, said):
    """What is wrong with what was said of the patches, each by its number; and how many were clean, and how many not."""
    lines = [f"insmod {it}" for it in loaded if it != "vmlinux"] + [f"shadow alloc {o} {i} {v}" for (o, i), v in variables.items()]
    text, wrong, clean, faulty = catalog(patches), [], 0, 0
    for number, patched in enumerate(patches):
        targets = patched.targets
        own = [it for it in said if it.get("patch") == f"p{number}"]
        wrong += check_unjudged(patched, loaded, [it for it in own if it["kind"] == "not-judged"])
        told = [it["sentence"] for it in own if it["kind"] in JUDGED]
        is_kept, unknown = holds(targets, loaded, variables), has_mark(patched, loaded, "unknown")
        if len(told) != (0 if is_kept and unknown else 1):
            wrong.append(f"p{number}: {len(told)} lines")
        if len(told) != 1:
            continue
        is_clean = "leaves no trace" in told[0]
        if is_clean != is_kept:
            wrong.append(f"{told[0]}: the premises say otherwise")
        guessed = has_mark(patched, loaded, "guessed")
        if is_clean and guessed and not told[0].endswith(f"{NAMED[guessed[0][1]]} for {guessed[0][0]}: 'for a reason'"):
            wrong.append(f"{told[0]}: {guessed} are guessed")
        if is_clean and not guessed and "guessed" in told[0]:
            wrong.append(f"{told[0]}: nothing is guessed")
        if is_clean:
            clean += 1
            cycle = [f"load p{number}", "poll", f"echo 0 > {PATCHES}/p{number}/enabled", "poll"]
            if dumped(room, text, lines) != dumped(room, text, [*lines, *cycle]):
                wrong.append(f"{told[0]}: served, it leaves one")
            continue
        faulty += 1
        undone, shared = NOT_UNDONE.search(told[0]), SHARED.search(told[0])
        if undone:
            wrong += check_undone(room, targets, lines, told[0], undone.groups())
        elif shared:
            wrong += check_shared(targets, told[0], shared.groups())
        else:
            wrong.append(f"{told[0]}: not understood")
    return wrong, clean, faulty


def check_unjudged(own, loaded, told):
    """What is wrong with what isn't judged of a patch: objects that aren't loaded, callbacks that aren't understood, and whether
    the patch is cumulative."""
    kinds = {"objects": set(), "callbacks": [], "patch": 0, "functions": 0}
    for it in told:
        unknown = re.match(r"not judged: (\S+) for (\S+) isn't understood: 'for a reason'$", it["sentence"])
        if unknown:
            kinds["callbacks"].append((unknown[2], NAMES[unknown[1]]))
        elif "whether the patch is cumulative" in it["sentence"]:
            kinds["patch"] += 1
        elif "symbols are assumed" in it["sentence"]:
            kinds["functions"] += 1
        else:
            kinds["objects"].add(it["object"])
    wanted = {"objects": {name for name, callbacks in own.targets if callbacks and name not in loaded},
              "callbacks": has_mark(own, loaded, "unknown"), "patch": int(own.mark is not None)}
    return [f"{it}: {kinds[it]} aren't judged, where {wanted[it]} is wanted" for it in wanted if kinds[it] != wanted[it]]


def check_undone(room, targets, lines, told, words):
    """Serves the callbacks that are told of alone, and reads the variable where the first begins and where the second ends."""
    back, name, done, parent, number, before, behind = words
    callbacks = dict(targets)[name]
    kinds = ("pre", "postun") if NAMES[done] == "pre" else ("pre", "post", "preun")
    if (NAMES[done], NAMES[back]) not in (("pre", "postun"), ("post", "preun")):
        return [f"{told}: no such pair"]
    get = f"shadow get {parent} {number}"
    first = ("pre",) if NAMES[done] == "post" else ()
    wrong = []
    for own, cycle, wanted in ((first, ["load p0", "poll"], before), (kinds, ["load p0", "poll", f"echo 0 > {PATCHES}/p0/enabled", "poll"], behind)):
        alone = catalog([Patch([(name, {kind: callbacks[kind] for kind in own if kind in callbacks})])])
        asked = [*lines, *cycle, get]
        answer = served(room, alone, asked)[-1].strip()
        if answer != ("none" if wanted == "not there" else f"value {wanted}"):
            wrong.append(f"{told}: served, it is {answer}")
    return wrong if before != behind else [*wrong, f"{told}: no difference"]


def check_shared(targets, told, words):
    """Whether both objects have a callback that touches the variable."""
    first, second, key = words[0], words[1], (int(words[2]), int(words[3]))
    own = dict(targets)
    both = all(any(key in it.touched() for it in own[name].values()) for name in (first, second))
    return [] if both and first != second else [f"{told}: they don't"]


def combinations(patches):
    """Each patch with those over which it may be loaded: none, one, or two of which the second leaves the first."""
    names = [f"p{it}" for it in range(len(patches))]
    pairs = [it for it in itertools.permutations(names, 2) if not patches[int(it[1][1:])].replace]
    return [(own, below) for own in names for below in [(), *[(it,) for it in names], *pairs] if own not in below]


def fails_now(patches, loaded, own, answer, there):
    """What klpsim answers to the loading of a patch, or `EXISTS` if a mark says that a call of its pre-patch fails."""
    return EXISTS if answer == "started" and fails_there(patches[int(own[1:])], loaded, there) else answer


def loaded_over(room, patches, loaded, lines, combined):
    """What comes of each patch that is loaded over its others, by what klpsim answers and by marks. None where one of these isn't
    loaded or doesn't stand. All of it is taken back each time. Also which variables are there before."""
    text, gets = catalog(patches), [f"shadow get {o} {i}" for o, i in KEYS]
    mark = served(room, text, [*lines, "mark"])[-1].strip()
    asked = [[*[line for it in (*below, own) for line in (*gets, f"load {it}", "poll")], f"rewind {mark}"] for own, below in combined]
    answers, came = iter(served(room, text, [*lines, *itertools.chain(*asked)])[len(lines):]), {}
    for own, below in combined:
        stands, now, there = True, None, set()
        for it in (*below, own):
            there = {key for key in KEYS if next(answers).strip() != "none"}
            now = fails_now(patches, loaded, it, next(answers).strip(), there)
            polled = next(answers).strip()
            stands = stands and (it == own or (now == "started" and polled == "completed 1"))
        next(answers)
        came[own, below] = (now if stands else None, there)
    return came


def expected(told, own, below):
    """The answers that are possible by what klplint told: where it told nothing, those of the patch over less."""
    if (own, below) in told:
        return {told[own, below]}
    if not below:
        return {"started"}
    return set().union(*[expected(told, own, it) for it in itertools.combinations(below, len(below) - 1)])


def answer_told(told):
    """The answer of klpsim that a sentence tells."""
    fails = re.search(r"pre-patch for (\S+) fails with (-?\d+)$", told["sentence"])
    if "key" in told:
        return EXISTS
    return f"prefailed {told['patch']} {fails[1]} {fails[2]}" if fails else "error 22 Incompatible"


def check_together(room, patches, loaded, lines, said):
    """What is wrong with what was said of patches that are loaded over others, and how many combinations were tried."""
    text, combined, wrong = catalog(patches), combinations(patches), []
    loads = {(it["patch"], tuple(it.get("others", ()))): it for it in said if it["kind"] in ("not-started", "not-over")}
    told = {key: answer_told(it) for key, it in loads.items()}
    both = loaded_over(room, patches, loaded, lines, combined)
    came = {key: answer for key, (answer, _) in both.items()}
    for (own, below), it in loads.items():
        failing = fails_there(patches[int(own[1:])], loaded, both[own, below][1])
        if "key" in it and (it["object"], tuple(it["key"])) not in failing:
            wrong.append(f"{own} over {below}: {it['sentence']}, where {sorted(failing)} fail")
    for (own, below), answer in came.items():
        wanted = expected(told, own, below)
        # that a patch starts over others, though not over fewer, isn't told: these have freed what is there
        if answer is not None and answer not in wanted and (answer != "started" or (own, below) in told):
            wrong.append(f"{own} over {below}: {answer}, where {wanted} is told")
        if answer is None and (own, below) in told:
            wrong.append(f"{own} over {below}: told, though these don't stand")
    summary = re.match(r"(\d+) of (\d+) patches are loaded alone, (\d+) of (\d+) over another one(?:, (\d+) of (\d+) over two others)?",
                       next((it["sentence"] for it in said if it["kind"] == "together"), ""))
    for size in range(3) if summary else ():
        answers = [answer for (_, below), answer in came.items() if len(below) == size and answer is not None]
        counted = [answers.count("started"), len(answers)]
        if counted != [int(it or 0) for it in summary.groups()[2 * size:2 * size + 2]]:
            wrong.append(f"{summary[0]}: {counted} over {size}")
    wrong += check_replacing(room, patches, loaded, lines, said, came)
    wrong += check_hiding(patches, said, standing(room, text, lines, came))
    return wrong, sum(it is not None for it in came.values())


def keys_of(room, text, lines, *cycles):
    """Which variables are there behind each of these lists of lines, each behind those before."""
    asked = [*lines, *itertools.chain(*[[*cycle, *[f"shadow get {o} {i}" for o, i in KEYS]] for cycle in cycles])]
    answers, found = iter(served(room, text, asked)[len(lines):]), []
    for cycle in cycles:
        for _ in cycle:
            next(answers)
        found.append({key for key in KEYS if next(answers).strip() != "none"})
    return found


def lost_variables(room, text, lines, own, other):
    """The variables that a patch adds and that are left, and those that it frees and that are lost, once a cumulative one took
    it out and is gone too: at each step from the end of the first transition on."""
    off = f"echo 0 > {PATCHES}/{{}}/enabled"
    before, *behind = keys_of(room, text, lines, [], [f"load {other}", "poll"], [f"load {own}"], ["poll"], [off.format(own)], ["poll"])
    _, alone = keys_of(room, text, lines, [], [f"load {other}", "poll", off.format(other), "poll"])
    left = set.intersection(*behind) - before
    return left, (before - set.union(*behind)) & alone


def edits_of_state(patch, loaded, number):
    """The edits of a system state that a patch's callbacks make while it is applied, in order."""
    made = [callbacks[kind] for kind in ("pre", "post") for name, callbacks in patch.targets if name in loaded and kind in callbacks]
    return [it for callback in made if callback.status == 0 for it in callback.edits if it[0] in ("set", "takeprev") and it[1] == number]


def value_alone(patch, loaded, number):
    """The value of a system state of a patch that is loaded alone: there is nothing to take over."""
    values = [it[2] for it in edits_of_state(patch, loaded, number) if it[0] == "set"]
    return values[-1] if values else 0


def states_lost(patch, other, loaded):
    """The system states of a patch that a cumulative one takes over, and those that it forgets."""
    named = {number for number, _ in patch.states} & {number for number, _ in other.states}
    edits = {number: edits_of_state(patch, loaded, number) for number in named}
    taken = {it for it in named if edits[it] and edits[it][-1][0] == "takeprev"}
    return taken, {it for it in named if not edits[it] and value_alone(other, loaded, it) != 0}


def check_replacing(room, patches, loaded, lines, said, came):
    """What is wrong with what was said of cumulative patches."""
    text, wrong = catalog(patches), []

    def told(kind, own, other, part):
        return {tuple(it[part]) if part == "key" else it[part] for it in said
                if (it["kind"], it.get("patch")) == (kind, own) and other in it["others"]}

    for (own, below), answer in came.items():
        if len(below) != 1 or not patches[int(own[1:])].replace or answer != "started":
            continue
        other, = below
        listed = served(room, text, [*lines, f"load {other}", "poll", f"load {own}", "poll", f"ls {PATCHES}"])[-1].strip()
        if (listed == own) != bool(told("takes-out", own, other, "patch")):
            wrong.append(f"{own} over {other}: served, {listed} is installed")
        if listed != own:
            continue
        left, lost = lost_variables(room, text, lines, own, other)
        taken, forgotten = states_lost(patches[int(own[1:])], patches[int(other[1:])], loaded)
        functions = changes(patches[int(other[1:])]) - changes(patches[int(own[1:])])
        wrong += check_again(room, patches, loaded, lines, said, own, other)
        wrong += check_sure(patches, loaded, said, own, other)
        for kind, part, wanted in (("leaves-variable", "key", left), ("loses-variable", "key", lost), ("takes-over", "state", taken),
                                   ("forgets-state", "state", forgotten), ("loses-functions", "object", functions)):
            if told(kind, own, other, part) != wanted:
                wrong.append(f"{own} over {other}: {kind}: {sorted(wanted)}, where {sorted(told(kind, own, other, part))} is told")
    return wrong


def check_again(room, patches, loaded, lines, said, own, other):
    """Whether klplint tells that a patch which was taken out can't be loaded again, if a mark says that a call of its pre-patch
    fails then."""
    cycle = [f"load {other}", "poll", f"load {own}", "poll", f"echo 0 > {PATCHES}/{own}/enabled", "poll"]
    there, = keys_of(room, catalog(patches), lines, cycle)
    failing = {key for _, key in fails_there(patches[int(other[1:])], loaded, there)}
    told = [tuple(it["key"]) for it in said if (it["kind"], it.get("patch")) == ("not-again", own) and other in it["others"]]
    is_right = len(told) == bool(failing) and set(told) <= failing
    return [] if is_right else [f"{own} over {other}: {told} keep it from being loaded again, where {sorted(failing)} do"]


def check_sure(patches, loaded, said, own, other):
    """Whether klplint says `may` or `perhaps` of what rests on callbacks that aren't understood, and of nothing else."""
    wrong, is_unsure = [], any(has_mark(patches[int(it[1:])], loaded, "unknown") for it in (own, other))
    for it in said:
        words = {"forgets-state": "may forget ", "leaves-variable": "perhaps ", "loses-variable": "perhaps "}.get(it["kind"])
        if words and it["patch"] == own and other in it["others"] and (words in it["sentence"]) != is_unsure:
            wrong.append(f"{own} over {other}: {it['sentence']}")
    return wrong


def check_marked(patches, assumed, variable, said, status):
    """What is wrong with the status of a catalog with something unknown, with what is left out of it, with functions that have no
    symbol, and with patches of a variable."""
    callbacks = [callback for own in patches for _, kinds in own.targets for callback in kinds.values()]
    wrong = []
    if status == 0 and any(it.mark == "unknown" for it in (*patches, *callbacks)):
        wrong.append("status 0, though something is unknown")
    left_out = [sum(own.left_out[place] for own in patches if own.left_out) for place in range(2)]
    counted = re.search(r"; not in the catalog: (\d+) functions? and (\d+) targets?$", said[-1]["sentence"]) if said else None
    if [int(it) for it in counted.groups()] != left_out if counted else left_out != [0, 0]:
        wrong.append(f"{said[-1]['sentence']}: {left_out} are left out")
    for number, own in enumerate(patches):
        kinds = [it["kind"] for it in said if it.get("patch") == f"p{number}" and "has no such symbol" in it["sentence"]]
        wanted = ["not-judged" if assumed else "no-symbol"] * len(own.targets) if own.missing else []
        if kinds != wanted:
            wrong.append(f"p{number}: {kinds}, where {wanted} is wanted")
        told = [it["sentence"] for it in said if it.get("patch") == f"p{number}" and it["kind"] == "no-function"]
        refused = ["can't be enabled while vmlinux is loaded: d of vmlinux is a variable"]
        if told != refused * (variable and "vmlinux" in dict(own.targets)):
            wrong.append(f"p{number}: {told} is told of variables")
    return wrong


def check_hiding(patches, said, stands):
    """What is wrong with what was said of functions that two patches change. Each patch has one function for each target."""
    wrong = []
    for older, newer in itertools.combinations([f"p{it}" for it in range(len(patches))], 2):
        one, other = patches[int(older[1:])], patches[int(newer[1:])]
        wanted = changes(one) & changes(other)
        if one.replace or other.replace or not {(older, newer), (newer, older)} & stands:
            wanted = set()
        told = {it["object"] for it in said if it["kind"] == "same-function" and it["patch"] == newer and older in it["others"]}
        if told != wanted:
            wrong.append(f"{newer} and {older}: both change {sorted(wanted)}, where {sorted(told)} is told")
    return wrong


def standing(room, text, lines, came):
    """The pairs of which the second stays loaded over the first."""
    pairs = [(below[0], own) for (own, below), answer in came.items() if len(below) == 1 and answer == "started"]
    return {(other, own) for other, own in pairs
            if served(room, text, [*lines, f"load {other}", "poll", f"load {own}", "poll"])[-1].strip() == "completed 1"}


def place_of(told):
    """What a finding is about, for two runs to be held against each other."""
    return json.dumps({key: told[key] for key in ("kind", "line", "patch", "object", "key", "state", "others") if key in told})


def check_worlds(room):
    """Whether klplint says without a script what it says behind scripts that make the two worlds."""
    wrong, words = [], ["klplint", "--json", f"{room}/own.catalog"]
    both = [json.loads(line) for line in run_itself(words)[1].decode().splitlines()]
    for lines, world in (("", "without-modules"), ("".join(f"insmod {it}\n" for it in OBJECTS[1:]), "with-modules")):
        with open(f"{room}/world.script", "w", encoding="ascii") as it:
            it.write(lines)
        said = [json.loads(line) for line in run_itself([*words, f"{room}/world.script"])[1].decode().splitlines()]
        wanted = {place_of(it) for it in said if it["kind"] not in OF_SCRIPTS}
        told = {place_of(it) for it in both if it.get("world", world) == world and it["kind"] not in OF_SCRIPTS}
        wrong += [f"{world}: {it} is told in one way alone" for it in sorted(wanted ^ told)]
    return wrong


def patch(draw):
    targets = [(it, target(draw)) for it in draw.sample(OBJECTS, draw.choice((1, 1, 2, 2, 3)))]
    states = [(it, draw.choice(VERSIONS)) for it in STATES if draw.random() < 0.3]
    mark, left_out = draw.choice((None,) * 12 + ("unknown", "guessed")), draw.choice((None, None, None, (3, 1), (1, 0), (0, 2)))
    return Patch(targets, draw.random() < 0.25, states, mark, left_out)


def head(assumed):
    """What every catalog begins with, with a variable that only counts for positions, and perhaps with a symbol that is made up."""
    return HEAD.replace("object m\n", "symbol d ffffffff81003000 e800000000c3\n#? data\nobject m\n") + "#? assumed for a reason\n" * assumed


def check_all(count, seed):
    draw, wrong, clean, faulty, tried = random.Random(seed), 0, 0, 0, 0
    with tempfile.TemporaryDirectory(prefix="lint-") as room:
        for number in range(count):
            patches = [patch(draw) for _ in range(draw.choice((1, 2, 3)))]
            loaded = ["vmlinux", *[it for it in ("m", "n") if draw.random() < 0.7]]
            assumed, variable = draw.random() < 0.3, number % 5 == 0
            if "n" not in loaded and draw.random() < 0.3:
                patches[-1] = Patch([("n", {})], patches[-1].replace, patches[-1].states, missing=True)
            variables = {key: draw.choice(VALUES) for key in KEYS if draw.random() < 0.25}
            lines = [f"insmod {it}" for it in loaded[1:]] + [f"shadow alloc {o} {i} {v}" for (o, i), v in variables.items()]
            with open(f"{room}/own.catalog", "w", encoding="ascii") as it:
                it.write(catalog(patches, head(assumed), variable))
            with open(f"{room}/own.script", "w", encoding="ascii") as it:
                it.write("".join(f"{line}\n" for line in lines))
            status, out, err = run_itself(["klplint", "--json", f"{room}/own.catalog", f"{room}/own.script"])
            said = [json.loads(line) for line in out.decode().splitlines()]
            if err or status != (3 if any(it["finding"] for it in said) else 0):
                faults = [f"status {status}: {err}"]
            else:
                faults, well, ill = check_one(room, patches, loaded, variables, said)
                more, combined = check_together(room, patches, loaded, lines, said)
                faults += more + check_worlds(room) + check_marked(patches, assumed, variable, said, status)
                clean, faulty, tried = clean + well, faulty + ill, tried + combined
            for it in faults:
                wrong += 1
                print(f"catalog {number} of seed {seed}: {it}", flush=True)
    print(f"{count} catalogs: {clean} patches clean, {faulty} not, {tried} loaded alone or over others, {wrong} said wrongly")
    return 1 if wrong else 0


if __name__ == "__main__":
    words = [int(it) for it in sys.argv[1:]]
    sys.exit(check_all(words[0] if words else 2000, words[1] if len(words) > 1 else 1))
