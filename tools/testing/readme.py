"""Commands and links of documents. Each block of `sh` in README.md, docs/ADMIN.md and docs/MODULES.md is run as it stands there, one after
another in one folder. What it answers has to be the block of `text` right behind it, or nothing where there is none. Each link of each document leads
somewhere, and each tool that one calls is there."""
import functools
import os
import re
import tempfile

from testing.run import PROGRAMS, TOP, finish, start

LINK = re.compile(r"\]\(([^)#\s]*)(?:#([^)]+))?\)")
BLOCK = re.compile(r"^```sh\n(.*?)^```\n(?:\n*```text\n(.*?)^```\n)?", re.M | re.S)


def text(name):
    with open(f"{TOP}/{name}", encoding="utf-8") as it:
        return it.read()


def blocks(document):
    """The commands of a document, each with the answer that stands there."""
    return BLOCK.findall(text(document))


def documents():
    return ["README.md", "examples/README.md", *(f"docs/{it}" for it in sorted(os.listdir(f"{TOP}/docs")) if it.endswith(".md"))]


def anchors(path):
    """What a link to a heading of this document ends with, for each heading."""
    outside = re.sub(r"^```.*?^```$", "", text(path), flags=re.M | re.S)
    return [re.sub(r"[^\w -]", "", it.lower()).replace(" ", "-") for it in re.findall(r"^#+ (.*)$", outside, re.M)]


def leads(document, path, heading):
    """Whether there is such a file, and such a heading in it, if one is named."""
    path = os.path.normpath(f"{os.path.dirname(document)}/{path}") if path else document
    return os.path.exists(f"{TOP}/{path}") and (not heading or heading in anchors(path))


def lost_links():
    """The links of documents that lead nowhere."""
    return [f"{document}: {path}#{heading}" for document in documents() for path, heading in LINK.findall(text(document))
            if not path.startswith("http") and not leads(document, path, heading)]


def lost_commands():
    """The programs and tools that documents call and that aren't there."""
    return [f"{document}: {name}" for document in documents()
            for name in re.findall(r"(?<![\w/.])(?:\./([a-z-]+)\b(?![/.])|(tools/[a-z-]+)\b)", text(document))
            for name in filter(None, name) if not os.path.exists(f"{TOP}/{name}")]


def lost_citations():
    """The headings of documents that code cites and that aren't there."""
    cited, lost = re.compile(r'docs/(\w+\.md),\s+"([^"]+)"'), []
    for folder, _, names in os.walk(f"{TOP}/crates"):
        for name in (it for it in names if it.endswith((".rt", ".antt")) and f"{os.sep}out" not in folder):
            with open(f"{folder}/{name}", encoding="utf-8") as it:
                comments = re.sub(r"\n\s*(?:///|//!|//|--) ?", " ", it.read())
            lost += [f"{name}: {page}, {heading}" for page, heading in cited.findall(comments)
                     if not os.path.exists(f"{TOP}/docs/{page}") or not re.search(rf"^#+ {re.escape(heading)}$", text(f"docs/{page}"), re.M)]
    return lost


def run_block(room, commands, answer):
    """What is wrong with a block, or None."""
    status, out, err = finish(start(["bash", "-euo", "pipefail", "-c", commands], room))
    if (status, out) == (0, answer.encode()):
        return None
    return f"status {status} and {out!r}, where {answer!r} is written; {err[-300:]!r}"


def run_all(document):
    """What is wrong with its blocks, or None. They are run in a folder that has what they name, and takes what they make."""
    with tempfile.TemporaryDirectory(prefix="readme-") as room:
        for name in (*PROGRAMS, "examples"):
            os.symlink(f"{TOP}/{name}", f"{room}/{name}")
        wrong = [it for it in (run_block(room, *block) for block in blocks(document)) if it]
        return "; ".join(wrong) or None


def counted_lines():
    """The files of docs/REVIEW.md with other numbers of lines than it says."""
    rows = re.findall(r"\]\(\.\./(\S+)\) \| (\d+) \|", text("docs/REVIEW.md"))
    lines = [text(path).count("\n") for path, _ in rows]
    wrong = [f"{path} has {own}, not {count}" for (path, count), own in zip(rows, lines) if own != int(count)]
    total = f"{sum(lines):,} lines together"
    return [*wrong, *([] if total in text("docs/REVIEW.md") else [f"all have {total}"])]


def lost_code():
    """The blocks of Rust in documents that aren't in a file which was named before them."""
    lost = []
    for document in documents():
        files = []
        for path, block in re.findall(r"\]\(\.\./(crates/[\w/]+\.rt)\)|^```rust\n(.*?)^```", text(document), re.M | re.S):
            files += [path] if path else []
            if block and not any(block in text(it) for it in files):
                lost.append(f"{document}: {block.strip().splitlines()[0]}")
    return lost


def lost_places():
    """The functions of the glossary's table that don't stand in the files that it names."""
    lost = []
    table = text("docs/GLOSSARY.md").split("## Where it is done")[1].split("|---|---|---|")[1]
    for names, places in re.findall(r"^\| [^|]+ \| ([^|]+) \| ([^|]+) \|$", table, re.M):
        parts = [it.split(":") for it in places.split(";") if ":" in it]
        files = [f"crates/{crate.strip()}/src/{name.strip()}.rt" for crate, own in parts for name in own.split(",") if name.strip() != ".."]
        code = "".join(text(it) for it in files if os.path.exists(f"{TOP}/{it}"))
        lost += [it for it in files if not os.path.exists(f"{TOP}/{it}")]
        lost += [it for it in re.findall(r"`(?:\w+::)?(\w+)`", names) if not re.search(rf"\b(?:fn|struct) {it}\b", code)]
    return lost


def cases():
    runs = [(f"{it}, {len(blocks(it))} blocks", functools.partial(run_all, it)) for it in ("README.md", "docs/ADMIN.md", "docs/MODULES.md")]
    return [*runs, ("documents, links", lost_links), ("documents, places", lost_places), ("documents, commands", lost_commands),
            ("documents, headings that code cites", lost_citations), ("REVIEW.md, numbers of lines", counted_lines),
            ("documents, code", lost_code)]
