"""What the pages of small runs say, which was worked out by hand: examples/stories.

A page is read as text: its heading, how the run ends, what happened, and a line for each row with its answer. The
drawing is left out, and so are the cards of rows, unless NAME.said has some: they stand below their row, each behind
two blanks.
"""
import difflib
import functools
import html
import os
import re

from testing import drawn
from testing.run import EXAMPLES, read, run

# What becomes of the tags within a line. All others are left out.
BETWEEN = (
    (r"\n(?=</samp>|</span>)", ""), (r"</span><code class=line>", ": "), (r" *</code><samp>", " => "),
    (r"<span class=seen>|<b class=held>|<b class=other>", ", "), (r"<br>", " "),
    (r"<li[^>]*>|<p[^>]*>|<ul[^>]*>|<ol[^>]*>|</ul>|</ol>", " / "),
)
CARD = re.compile(r"<div class=(?:card|\"card[^\"]*\")>(.*?)</div>", re.S)
ROW = re.compile(r"<(?:details|div) class=\"row[^\"]*\" id=line-\d+(?: open)?>")


def line_of(marked):
    """A part of a page as one line of text."""
    for tag, text in BETWEEN:
        marked = re.sub(tag, text, marked)
    words = html.unescape(re.sub(r"<[^>]*>", "", marked))
    return re.sub(r"( /)+ ", " / ", re.sub(r"\s+", " ", words)).strip(" /")


def row_of(marked, has_cards):
    """The lines of a row, and of how many are folded away that end with it."""
    row, _, folded = marked.partition("<p class=folded>")
    summary, _, cards = row.partition("<div class=now>")
    shown = [f"  {line_of(it)}" for it in CARD.findall(cards) if has_cards]
    return [line_of(summary), *shown, *([line_of(folded)] if folded else [])]


def said_by(page, has_cards):
    """The text of a page."""
    body = drawn.DRAWING.sub("", page[page.index("<h1>"):])
    head, _, rows = body.partition("<h2>Line by line</h2>")
    lines = [line_of(it) for it in re.split(r"<li[^>]*>|</h1>|</h2>|<p [^>]*>|<h2>|</ul>", head)]
    rows = ROW.split(rows.rpartition("<p class=soft>")[0])[1:]
    return "\n".join([*filter(None, lines), "Line by line", *(it for row in rows for it in row_of(row, has_cards)), ""])


def story(name, catalog):
    """The page of a run says what was worked out."""
    wanted = read(f"stories/{name}.said").decode()
    ending = "script" if os.path.exists(f"{EXAMPLES}/stories/{name}.script") else "trace"
    words = [f"stories/{catalog}.catalog", *(["--trace"] if ending == "trace" else []), f"stories/{name}.{ending}"]
    names = [f"stories/{name}.names"] if os.path.exists(f"{EXAMPLES}/stories/{name}.names") else []
    status, out, err = run(["klppage", *words, *names])
    told = [line for line in err.splitlines() if ": hint: " not in line]
    if status or told:
        return f"status {status}, {told}"
    page, place = out.decode(), f"stories/{name}.drawn"
    wrong = differs(wanted, said_by(page, "\n  " in wanted))
    if not wrong and os.path.exists(f"{EXAMPLES}/{place}"):
        wrong = differs(read(place).decode(), drawn.in_words(page))
    return wrong or drawn.faults(page, read(f"stories/{name}.{ending}").count(b"\n"))


def differs(wanted, said):
    """The lines in which two texts differ, or None."""
    lines = difflib.unified_diff(wanted.splitlines(), said.splitlines(), "wanted", "said", lineterm="", n=0)
    return "\n".join(lines) or None


def index():
    """The rows of the list of stories: the name of each, and of its catalog."""
    return [it.split() for it in read("stories/index").decode().splitlines() if it and not it.startswith("#")]


def cases():
    return [(f"stories/{name}.said", functools.partial(story, *row)) for row in index() for name in row[:1]]
