"""Logs of klpcap with some of their samples: what it would have written had it taken only these. Each sample that is kept is as
in the log, so of a true log they are true logs, too."""
import collections

BODY = ("patch", "object", "loaded", "function")
TAIL = ("log", "symbol", "module", "end")

Log = collections.namedtuple("Log", "head samples tail")
# A sample's line, the lines of all patches, for each thread its line and its frames, the threads among these that aren't
# followed behind the sample, and for each that wasn't once, the word that said so last.
Sample = collections.namedtuple("Sample", "line patches tasks leaving words")


def parse(text):
    """The samples of a log, each with all that it shows: what it doesn't repeat is as in the samples before."""
    head, samples, tail, patches, tasks, last, named, leaving, words = [], [], [], [], {}, None, set(), set(), {}
    for line in text.splitlines():
        word, _, rest = line.partition(" ")
        if tail or word in TAIL:
            tail.append(line)
        elif word == "patches":
            patches = []
        elif word in BODY:
            patches.append(line)
        elif word == "task":
            last = rest.split(" ")[0]
            named.add(last)
            older = tasks.get(last, (None, ()))[1]
            tasks[last] = (line, ())
        elif word == "frame":
            tasks[last] = (tasks[last][0], (*tasks[last][1], line))
        elif word == "frames":
            tasks[last] = (tasks[last][0], older)
        elif word in ("gone", "left"):
            words[rest] = word
            if rest in named:
                leaving.add(rest)
            else:
                tasks.pop(rest, None)
        elif word == "sample":
            samples.append(Sample(line, tuple(patches), dict(tasks), leaving, dict(words)))
            tasks = {thread: seen for thread, seen in tasks.items() if thread not in leaving}
            named, leaving = set(), set()
        else:
            head.append(line)
    return Log(head, samples, tail)


def lines_of(thread, before):
    """The lines of a thread that was seen before as this, or wasn't."""
    line, frames = thread
    if before is None:
        return [line, *frames]
    fields, older = line.split(" "), before[0].split(" ")
    is_same = fields[7] == older[7] == "1" and fields[6] == older[6] and frames == before[1]
    if is_same and line == before[0]:
        return []
    return [line, "frames ="] if is_same else [line, *frames]


def text(log, kept):
    """The log with these samples alone, by their numbers. A thread that isn't followed behind a sample gets a line in it only
    if it was followed before."""
    out, patches, tasks = list(log.head), None, {}
    for number in kept:
        sample = log.samples[number]
        if sample.patches != patches:
            out += ["patches", *sample.patches]
        shown = {thread: seen for thread, seen in sample.tasks.items() if thread in tasks or thread not in sample.leaving}
        for thread, seen in shown.items():
            out += lines_of(seen, tasks.get(thread))
        lost = [thread for thread in (*tasks, *shown) if thread not in shown or thread in sample.leaving]
        out += [f"{sample.words[thread]} {thread}" for thread in dict.fromkeys(lost)]
        patches = sample.patches
        tasks = {thread: seen for thread, seen in shown.items() if thread not in lost}
        out.append(sample.line)
    return "\n".join([*out, *log.tail, ""])
