"""Whether true logs stay true with some of their samples: `tools/hostile samples [COUNT [SEED]]`.

Of each true log in examples/captures these subsets of its samples are made: each single sample, each pair, each k-th sample
from each offset, and 500 random ones, or so many. klpsee may call none of them broken. It prints for each log how many were
explained, and the first few that were not. A log that begins behind a force needs no run, since the rules have no force."""
import itertools
import os
import random
import sys
from collections import Counter
from concurrent.futures import ThreadPoolExecutor

sys.path.insert(0, __file__.rsplit("/", 2)[0])
from testing import thinned  # noqa: E402
from testing.run import EXAMPLES, read, run_itself  # noqa: E402

EXPLAINED, BROKEN, NOT_EXPLAINED, NOT_SEEN = 0, 3, 4, 5
WORDS = {EXPLAINED: "explained", BROKEN: "broken", NOT_EXPLAINED: "not explained", NOT_SEEN: "without a sample to judge"}
# Of logs that aren't true, or aren't of a transition, nothing is claimed.
UNTRUE = ("refused", "preflight")
# So many subsets that weren't explained are shown of each log.
SHOWN = 3


def subsets(count, draw, drawn):
    """The subsets of so many samples, each as the numbers of its samples in order."""
    numbers = range(count)
    yield from ((it,) for it in numbers)
    yield from itertools.combinations(numbers, 2)
    for step in range(2, count + 1):
        yield from (tuple(range(offset, count, step)) for offset in range(step) if offset < count)
    for _ in range(drawn):
        chance = draw.random()
        yield tuple(it for it in numbers if draw.random() < chance)


def judged(log, kept):
    status, out, err = run_itself(["klpsee", "/dev/stdin"], thinned.text(log, kept).encode())
    return kept, status, out.decode(), err


def main(given):
    drawn, seed = [*map(int, given), *(500, 1)[len(given):]]
    names = sorted(it.removesuffix(".log") for it in os.listdir(f"{EXAMPLES}/captures") if it.endswith(".log"))
    total, is_wrong = Counter(), False
    with ThreadPoolExecutor(os.cpu_count()) as pool:
        for name in (it for it in names if it not in UNTRUE):
            log, draw = thinned.parse(read(f"captures/{name}.log").decode()), random.Random(f"{name} {seed}")
            kinds = set(subsets(len(log.samples), draw, drawn))
            counts, shown = Counter(), 0
            for kept, status, out, err in pool.map(lambda it, log=log: judged(log, it), sorted(kinds)):
                counts[WORDS.get(status, f"status {status}")] += 1
                if err or status not in (EXPLAINED, NOT_SEEN):
                    shown += 1
                    if shown <= SHOWN or status == BROKEN:
                        print(f"{name}: samples {list(kept)}: status {status}, {out}{err}", flush=True)
                is_wrong = is_wrong or bool(err) or status not in WORDS or status == BROKEN
            print(f"{name}: {len(kinds)} subsets: " + ", ".join(f"{counts[it]} {it}" for it in counts), flush=True)
            total.update(counts)
    print(f"samples: {sum(total.values())} subsets: " + ", ".join(f"{total[it]} {it}" for it in total))
    return 1 if is_wrong else 0


if __name__ == "__main__":
    sys.exit(main(sys.argv[1:]))
