"""Whether klpko answers modules that were changed at random. `tools/hostile modules [COUNT [SEED]]` calls this.

Of each module of examples/modules, of the two that tools made too, 10,000 mutants are made, or so many: bytes, numbers or whole rows are changed, or its end is
cut off. klpko has to answer each of them within the time of its call: with its tables, or with one line that says what is wrong.
It prints how many were listed and how many weren't, and each call that came to something else.
"""
import os
import random
import re
import sys
import tempfile

sys.dont_write_bytecode = True
sys.path.insert(0, os.path.dirname(os.path.dirname(os.path.abspath(__file__))))

from testing import modules
from testing.run import read, run, run_itself

# How many files a call takes, and the seconds that it has for each file.
FILES, SECONDS = 64, 2
# Numbers that are written over others, by their bytes.
WIDTHS = (1, 2, 4, 8)
ROW = 24
MADE_BY_TOOLS = ("livepatch_built", "livepatch_fixes")


def mutant(data, random_of):
    """A module with some changes."""
    data = bytearray(data)
    for _ in range(random_of.choice((1, 1, 1, 2, 4))):
        at, kind = random_of.randrange(len(data)), random_of.randrange(6)
        if kind == 0:
            data[at] = random_of.randrange(256)
        elif kind == 1:
            data[at] ^= 1 << random_of.randrange(8)
        elif kind == 2:
            width = random_of.choice(WIDTHS)
            numbers = 2 ** (8 * width)
            number = random_of.choice((0, 1, numbers - 1, numbers // 2, len(data) % numbers, random_of.randrange(numbers)))
            data[at : at + width] = number.to_bytes(width, "little")
        elif kind == 3:
            # the headers of sections are at the end
            data[max(0, len(data) - 64 * 40) + at % min(len(data), 64 * 40)] = random_of.randrange(256)
        elif kind == 4:
            other = random_of.randrange(len(data))
            data[at : at + ROW], data[other : other + ROW] = data[other : other + ROW], data[at : at + ROW]
        else:
            # the end is cut off, or a byte is missing
            del data[at : None if at > 64 and random_of.random() < 0.2 else at + 1]
    return bytes(data)


def try_files(paths):
    """How many files were read, and what is wrong with the call, or None."""
    status, out, err = run_itself(["klpko", "--list", *paths], seconds=SECONDS * len(paths))
    listed = len(re.findall(rb"^patch ", out, re.M))
    told = re.findall(r"^klpko: (\S+): [^\n]+$", err, re.M)
    is_well = status in (0, 1, 3) and (status == 1) == bool(told) and listed + len(told) == len(paths) == listed + err.count("\n")
    return listed, None if is_well else f"status {status}, {listed} listed, {len(told)} refused: {err[:300]!r}"


def main(given):
    count, seed = (int(it) for it in (*given, *("10000", "1")[len(given) :]))
    run(["klpko", "--version"])
    tried, was_read, wrong = 0, 0, 0
    for name in (*modules.NAMES, *MADE_BY_TOOLS):
        random_of, data = random.Random(f"{seed} {name}"), read(f"{modules.FOLDER}/{name}.ko")
        with tempfile.TemporaryDirectory(prefix="mutants-") as room:
            paths = [f"{room}/{number}.ko" for number in range(FILES)]
            for first in range(0, count, FILES):
                some = paths[: min(FILES, count - first)]
                for path in some:
                    with open(path, "wb") as it:
                        it.write(mutant(data, random_of))
                listed, fault = try_files(some)
                tried, was_read = tried + len(some), was_read + listed
                if fault:
                    wrong += 1
                    print(f"{name}, seed {seed}, from mutant {first}: {fault}", flush=True)
    print(f"{tried} mutants tried: {was_read} listed, {tried - was_read} refused, or the same patch as one before; {wrong} calls came to something else")
    return 1 if wrong else 0


if __name__ == "__main__":
    sys.exit(main(sys.argv[1:]))
