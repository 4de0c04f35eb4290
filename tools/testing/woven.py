"""Wrong bodies of functions, as data, and sources in which each stands behind a number.

A file of tools/plants is named as the crate that its wrong bodies are of. Each of them is a block of lines:

    plant NAME
    why WHAT IS WRONG, as a sentence
    in FILE FUNCTION
    - a line of the function
    + the line that is there in the wrong body
    allowed WHY, if no example has to catch it
    by EXAMPLE, which is tried first

Lines `-` that follow each other stand so in the function, once, whatever is before each of them. More pairs may follow,
and more functions. Lines between blocks that begin with # are comments.
"""
import collections
import re

# The crate of the scratch copy that knows the chosen number.
CHOSEN = "klp_chosen"
HEAD = re.compile(r"^( *)(?:pub(?:\([^)]*\))? )?(?:unsafe )?fn (\w+)", re.M)

# A wrong body: its edits are by file and function, each a list of pairs of texts.
Plant = collections.namedtuple("Plant", "crate name why edits allowed by")


class Faulty(Exception):
    """A plant that can't be put into the sources."""


def read_plants(crate, text):
    """The plants of a crate."""
    found = []
    for block in re.split(r"^plant ", re.sub(r"^#.*\n", "", text, flags=re.M), flags=re.M)[1:]:
        name, *lines = block.rstrip().split("\n")
        found.append(plant(crate, name, lines))
    return found


def plant(crate, name, lines):
    """The plant of these lines."""
    words, edits, place = {"why": None, "allowed": None, "by": None}, {}, None
    for line in filter(None, lines):
        word, _, rest = line.partition(" ")
        if word in words:
            words[word] = rest
        elif word == "in":
            place = tuple(rest.split(" "))
            edits[place] = []
        elif word == "-":
            pairs = edits[place]
            if not pairs or pairs[-1][1]:
                pairs.append(([], []))
            pairs[-1][0].append(rest)
        elif word == "+":
            edits[place][-1][1].append(rest)
        else:
            raise Faulty(f"{crate}/{name}: no line of a plant begins so: {line}")
    if not words["why"] or not edits or not all(edits.values()):
        raise Faulty(f"{crate}/{name}: why it is wrong, or what is put in, is missing")
    return Plant(crate, name, words["why"], edits, words["allowed"], words["by"])


def noted(crate, text, by):
    """The file of a crate's plants in which these, by their names, say which example is tried first."""
    blocks = re.split(r"^(?=plant )", text, flags=re.M)
    for place, block in enumerate(blocks):
        example = by.get((crate, block.partition("\n")[0].removeprefix("plant ")))
        if example:
            block = re.sub(r"^by .*\n", "", block, flags=re.M)
            blocks[place] = re.sub(r"^(why .*\n)", lambda it, own=example: f"{it[1]}by {own}\n", block, count=1, flags=re.M)
    return "".join(blocks)


# A clause that gives what a function returns or writes.
GIVES = re.compile(r"result(?:\.now)? ≡ (?!true →|false →)|Adds sheet\.old sheet\.new|IsTrue result ↔")


def is_given(text, file, it):
    """Whether a clause of each function that this plant changes gives its result, by the source of the file."""
    functions = [(pairs, name) for (place, name), pairs in it.edits.items() if place == file]
    heads = [(text[:begin], text[begin:end], pairs) for pairs, name in functions for begin, end in bodies(text, name)]
    own = [before[before.rindex("fn "):] for before, body, pairs in heads if changed(body, pairs) is not None]
    return bool(own) and all(GIVES.search(head) for head in own)


def bodies(text, name):
    """Where the bodies of the functions of this name begin and end in a source."""
    for head in HEAD.finditer(text):
        if head[2] == name:
            begins = re.compile(rf"^{head[1]}(?! ).*\{{\n", re.M).search(text, head.start())
            ends = re.compile(rf"^{head[1]}\}}$", re.M).search(text, begins.end())
            yield begins.end(), ends.start()


def changed(body, pairs):
    """The body with these pairs put in, or None where the lines of a pair don't stand in it exactly once."""
    for old, new in pairs:
        form = r"\n\s*".join(map(re.escape, old))
        if len(re.findall(form, body)) != 1:
            return None
        body = re.sub(form, lambda _, new=new: "\n".join(new), body)
    return body


def woven(text, file, plants):
    """A source with the plants of this file, each a pair of its number and the plant."""
    choices = collections.defaultdict(list)
    for number, it in plants:
        for (place, name), pairs in it.edits.items():
            if place == file:
                spans = [(span, changed(text[slice(*span)], pairs)) for span in bodies(text, name)]
                fitting = [(span, body) for span, body in spans if body is not None]
                if len(fitting) != 1:
                    places = f"{len(fitting)} functions {name} of {file}"
                    raise Faulty(f"{it.crate}/{it.name}: its lines stand in {places}, not in one")
                choices[fitting[0][0]].append((number, fitting[0][1]))
    for begin, end in sorted(choices, reverse=True):
        text = text[:begin] + chosen_among(choices[begin, end], text[begin:end]) + text[end:]
    return text


def chosen_among(wrong, right):
    """A body that is one of the wrong ones if its number is chosen, and else the right one."""
    parts = [f"if {CHOSEN}::is_chosen({number}) {{\n{body}}} else " for number, body in wrong]
    return "".join(parts) + f"{{\n{right}}}\n"


def selector(variable):
    """The source of the crate that reads from this variable of the environment which number is chosen."""
    size, digits = 4096, 8
    name = variable + "\\0" * (size - len(variable))
    return f"""//! Which wrong body is chosen.
#![tactic(auto)]

static NAME: [u8; {size}] = *b"{name}";

unsafe extern "C" {{
    safe fn rattle_env(name: &[u8; {size}], buf: &mut [u8]) -> isize;
}}

/// Whether the wrong body of this number is chosen.
pub fn is_chosen(number: u32) -> bool {{
    let mut digits = [0u8; {digits}];
    let mut chosen = 0u32;
    let mut left = rattle_env(&NAME, &mut digits);
    for digit in digits {{
        if left > 0 {{
            chosen = chosen.wrapping_mul(10).wrapping_add(u32::from(digit.wrapping_sub(b'0')));
            left = left.wrapping_sub(1);
        }}
    }}
    chosen == number
}}
"""
