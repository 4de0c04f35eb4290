"""What holds of the drawing of each page, whatever run it shows.

The drawing is read off the page: places are points from its left end. For small runs NAME.drawn has the bars of each row,
worked out by hand. Where nothing is cut out and all lines have room, each is 40 points wide: there a place is a line.
"""
import html
import re

DRAWING = re.compile(r"<h2>The run.*?(?=<h2>Line by line)", re.S)
LANE = re.compile(r"<tr><th scope=row>(.*?)</th><td><svg[^>]*>(.*?)</svg></td></tr>", re.S)
BAR = re.compile(r'<rect class=(coming|leaving|forced|enabled|gone|old|new|rest) x="(\d+)" y="\d+" width="(\d+)" height="(\d+)"')
STAY = re.compile(r'<title>([^<]*)</title><rect class=clear x="(\d+)" y="\d+" width="(\d+)"')
TEXT = re.compile(r'<text class=(\w+) x="(\d+)" y="\d+">(.*?)</text>', re.S)
IDLE = re.compile(r"<p class=idle>(.*?)</p>", re.S)
# The width of a cut, of a letter, and of a line in a drawing with room for all lines, and the place of the first one.
CUT, LETTER, LINE, LEFT = 12, 7, 40, 6
# How many lines have room beside each other.
FITTING = 19


def bare(marked):
    """Words without tags."""
    return html.unescape(re.sub(r"<[^>]*>", "", marked))


def lanes_of(drawing):
    """The rows of patches and tasks: the name of each, and what is drawn."""
    return [(bare(name), drawn) for name, drawn in LANE.findall(drawing)]


def bars_of(drawn, is_task):
    """The bars of a row: of which kind, from where and to where. Some have a border of one point inside of their place. The
    bar of a task is as high as it is deep in the kernel."""
    found = []
    for kind, *numbers in BAR.findall(drawn):
        x, width, height = map(int, numbers)
        border = 1 if height in (4, 12, 18) else 0
        mode = {6: " user", 14: " asleep", 20: " kernel"}[height + 2 * border] if is_task else ""
        found.append((kind + mode, x - border, x + width + border))
    return found


def stays_of(drawn):
    """The stays of a row: from where and to where, and what is said of them."""
    return [(int(x), int(x) + int(width), html.unescape(words)) for words, x, width in STAY.findall(drawn)]


def texts_of(drawn):
    """The words that are drawn: of which kind, from where and to where."""
    return [(kind, int(x), int(x) + LETTER * len(bare(words))) for kind, x, words in TEXT.findall(drawn)]


def cuts_of(drawing):
    """The left ends of the cuts."""
    return [int(x) for x in re.findall(r'<path class=gap d="M(\d+) ', drawing)]


def overlapping(spans):
    """Those of these spans that begin before the one before them has ended."""
    spans = sorted(spans)
    return [(one, other) for one, other in zip(spans, spans[1:]) if other[0] < one[1]]


def lost_links(page):
    """The links that lead to nothing on the page."""
    there = set(re.findall(r'\bid="?([\w-]+)', page))
    return sorted(set(re.findall(r'href="#([\w-]+)"', page)) - there)


def crossed(cuts, texts):
    """The words that stand on a cut."""
    return [(x, end) for _, x, end in texts for cut in cuts if x < cut + CUT and cut < end]


def marks_of(head):
    """The places of the marks."""
    return [int(x) for x in re.findall(r"M(\d+) 0v26", head.partition("<g id=marks>")[2].partition("</g>")[0])]


def is_by_lines(drawing):
    """Whether lines are drawn side by side, and not at their times."""
    return "Numbers are lines of the file" in drawing


def faults(page, lines):
    """What is wrong with the drawing of a run of so many lines, in words, or None."""
    drawing = DRAWING.search(page)[0]
    head, cuts, wrong = drawing.partition("<tbody>")[0], cuts_of(drawing), []
    wrong += [f"a link leads to {it}, which isn't there" for it in lost_links(page)]
    if cuts and lines <= FITTING and is_by_lines(drawing):
        wrong += [f"cut at {cuts}, though all {lines} lines have room"]
    signs = [span for kind, *span in texts_of(head) if kind == "sign"]
    wrong += [f"the signs at {it} cover each other" for it in overlapping(map(tuple, signs)) if it[0][0] != it[1][0]]
    wrong += [f"the mark at {x} is on a cut" for x in marks_of(head) for cut in cuts if cut <= x < cut + CUT]
    for name, drawn in lanes_of(drawing):
        wrong += [f"{name}: the words at {it} are on a cut" for it in crossed(cuts, texts_of(drawn))]
        wrong += [f"{name}: the stays at {it} overlap" for it in overlapping((x, end) for x, end, _ in stays_of(drawn))]
    return "; ".join(wrong) or None


def in_words(page):
    """What NAME.drawn has: the bars of each row, and its stays, where the drawing is cut, where the kernel differs, and which
    tasks aren't drawn. A bar ends before the line that stands last. Bars of one kind that touch look as one."""
    drawing = DRAWING.search(page)[0]
    cuts, differing = cuts_of(drawing), re.findall(r"M(\d+) 0v26", drawing.partition("<g id=differing>")[2].partition("</g>")[0])
    are_lines = is_by_lines(drawing) and not cuts

    def place(x):
        return f"{(x - LEFT) / LINE + 1:g}" if are_lines else f"{x}"

    told = []
    for name, drawn in lanes_of(drawing):
        bars = []
        for kind, x, end in bars_of(drawn, name.startswith("task ")):
            if bars and bars[-1][0] == kind and bars[-1][2] == x:
                x = bars.pop()[1]
            bars.append((kind, x, end))
        told.append(f"{name}: " + ", ".join(f"{kind} {place(x)}-{place(end)}" for kind, x, end in bars))
        told += [f"  {place(x)}-{place(end)}: {words}" for x, end, words in stays_of(drawn)]
    told += [f"cut at {x}" for x in cuts] + [f"differs at {place(int(x))}" for x in differing]
    return "\n".join([*told, *map(bare, IDLE.findall(page)), ""])
