"""The tools, each by what takes a second or two of it, so that none rots."""
import functools
import importlib.machinery
import importlib.util
import os
import re
import tempfile
import threading
import time

from testing.run import TOP, fault, finish, start

OTHER_KIT = '#!/bin/sh\necho "rattle-kit-99z logic 0"\n'
LOG = """gate: must-fail klp_stack/push-drops: refused
cost: klp_stack proof 60.0
cost: klp_stack ground 30.0
cost: klp_stack edit 12.4
cost: klp_types tests 90.0
whole: 120 wall 192 processor
"""
TABLE = """| Crate | Proof | Tests | Ground | Edits | All of them |
|---|---|---|---|---|---|
| `klp_stack` | 60 | - | 30 | 1 | 12 |
| `klp_types` | - | 90 | - | - | - |
| all | 1 min | 2 min | 0 min | 1 | 0 min |

3 minutes of processor time, 2 of wall time
"""


def ran(*words, env=None):
    """The status, output and standard error of a tool."""
    return finish(start([f"{TOP}/{words[0]}", *words[1:]], TOP, env=env))


def said(came, status, word):
    """What is wrong with a run that was to end with this status and say this word, or None."""
    both = came[1].decode(errors="replace") + came[2]
    return None if came[0] == status and word in both else f"status {came[0]}: {both[-300:]}"


def module(name, folder="tools/"):
    """A tool as a module."""
    loader = importlib.machinery.SourceFileLoader(name, f"{TOP}/{folder}{name}")
    it = importlib.util.module_from_spec(importlib.util.spec_from_loader(name, loader))
    loader.exec_module(it)
    return it


def other_kit():
    """A tool stops with a sentence at a kit that it doesn't know."""
    with tempfile.TemporaryDirectory(prefix="kit-") as room:
        with open(f"{room}/rt", "w", encoding="utf-8") as it:
            it.write(OTHER_KIT)
        os.chmod(f"{room}/rt", 0o755)
        env = {**os.environ, "PATH": f"{room}:{os.environ['PATH']}"}
        wrong = [said(ran(it, *words, env=env), 1, "rt is of rattle-kit-99z") for it, *words in
                 (("tools/check", "klp_types"), ("prove",), ("tools/walk", "mark"))]
        return "; ".join(filter(None, wrong)) or None


def helped(name):
    """Help is on standard output, and begins with what the tool does."""
    came = ran(name, "--help")
    return None if (came[0], came[2]) == (0, "") and name in came[1].decode() else f"{came}"


def misled(name):
    """Words that a tool doesn't know are refused on standard error."""
    came = ran(name, "--no-such-word", "x")
    return None if came[:2] == (2, b"") and "usage: " in came[2] else f"{came}"


def stamped():
    """A program is stamped where it has the text of a checkout once, and the new one has room there."""
    it = module("stamp")
    own = it.own_text().encode()
    text = it.text_of(is_proved=True)
    if it.stamped(b"a" + own + b"z", text) != b"a" + text.ljust(len(own)).encode() + b"z":
        return "it is stamped otherwise"
    for program, told in ((b"az", text), (own + own, text), (own, text + len(own) * "x")):
        try:
            return f"stamped: {it.stamped(program, told)}"
        except SystemExit:
            pass
    return None if own.decode().startswith(f"{it.version()} (") else "VERSION and version.rt differ"


def table():
    with tempfile.NamedTemporaryFile("w", prefix="log-", encoding="utf-8") as log:
        log.write(LOG)
        log.flush()
        return fault(ran("tools/gate-times", "--table", log.name), (0, TABLE.encode(), ""))


def walk():
    """The functions at which a walk begins are there, and a walk over the program that was built passes the manager's."""
    it = module("walk")
    if not it.file_of(it.SERVE) or not it.file_of(it.SERVE_LINE):
        return f"{it.SERVE} or {it.SERVE_LINE} isn't there"
    if it.file_of("klp_core::manager::Manager::no_such_call"):
        return "a function is found that isn't there"
    return None


def prove_fits():
    """Proofs that run side by side fit into the memory that there is, each runs once, and behind those that it waits for."""
    lock, running, most, done = threading.Lock(), [], [0], []

    def task(key, waits, need):
        def call(_given, jobs):
            with lock:
                running.append(need * (1 + 0.6 * (jobs - 1)))
                most[0] = max(most[0], sum(running))
                late = [it for it in waits if it not in done]
            time.sleep(0.01)
            with lock:
                running.remove(need * (1 + 0.6 * (jobs - 1)))
                done.append(key)
            return late
        return waits, 100, need, call

    keys = [("klp_types", number) for number in range(12)]
    tasks = {key: task(key, keys[: index // 4], 2 + index % 3) for index, key in enumerate(keys)}
    given = module("prove", "").in_chains(tasks, 6.8)
    if sorted(done) != keys or any(given.values()):
        return f"{sorted(done)} ran, too early {given}"
    return None if most[0] <= 6.8 else f"{most[0]} of 6.8 were used"


def edit_is_whole():
    """Each wrong body turns lines that are there."""
    for folder, _, names in os.walk(f"{TOP}/crates"):
        if os.path.basename(folder) not in ("must-fail", "edits"):
            continue
        for name in (it for it in names if it.endswith(".edit")):
            with open(f"{folder}/{name}", encoding="utf-8") as it:
                edit = it.read()
            for path, turns in re.findall(r"^file: (.*)\n((?:(?:old|new): .*\n?)*)", edit, re.M):
                with open(f"{os.path.dirname(folder)}/{path}", encoding="utf-8") as it:
                    text = it.read()
                for old, new in re.findall(r"^old: (.*)\nnew: (.*)$", turns, re.M):
                    if old not in text:
                        return f"{folder}/{name}: `{old}` isn't in {path}"
                    text = text.replace(old, new)
    return None


def cases():
    return [
        ("tools: another kit", other_kit),
        ("tools/check: no such crate", lambda: said(ran("tools/check", "klp_none"), 1, "there is no crate klp_none")),
        ("tools/edits: no such crate", lambda: said(ran("tools/edits", "klp_none"), 1, "there is no crate klp_none")),
        ("tools/edits: each edit has its lines", edit_is_whole),
        ("tools/gate-times: a table", table),
        ("tools/hostile: an unknown part", lambda: said(ran("tools/hostile", "nothing"), 2, "usage")),
        ("prove: within the memory that there is", prove_fits),
        ("tools/stored: no word", lambda: said(ran("tools/stored"), 2, "usage")),
        *[(f"{it}, --help", functools.partial(helped, it)) for it in ("prove", "tools/costs", "tools/install", "tools/package", "tools/stamp", "tools/tests")],
        *[(f"{it}, another word", functools.partial(misled, it)) for it in ("prove", "tools/costs", "tools/install", "tools/package", "tools/stamp", "tools/tests")],
        ("tools/stamp: a version that is too long", stamped),
        ("tools/walk: where it begins", walk),
        ("tools/words", lambda: said(ran("tools/words"), 0, "")),
    ]
