"""Writes down an unannounced difference: a catalog, a script, a page, and a report for the kernel's list."""
import os
import subprocess

from conforming.comparing import first_unannounced
from conforming.named import breaking_of, sentence
from conforming.smallest import after_each_event, breaking_event, is_look

# How often a shrunk script is played again, and the answers that the console has too.
TIMES, SPELLED = 3, ("ok", "started", "reversed", "pending", "completed", "prefailed", "freed", "value", "none")


def replayed(lab, case):
    """The rows of the case in each of three plays on a fresh machine, and which line makes the difference."""
    lab.restart()
    *rows, looked = lab.played([case] * TIMES + [after_each_event(case)])
    if is_look(case.lines[-1]):
        return rows, breaking_event(case, looked)
    return rows, breaking_of(case.lines, [(it.answer or [""])[0] for it in lab.rules.of(case, is_ordered=False)])


def trace_of(case, rules, rows):
    """The script as a trace, with the kernel's answers as far as a trace can have them."""
    return "".join(f"{it}\n" for row in zip(case.lines, rules, rows) for it in items_of(*row))


def items_of(line, rule, row):
    """The items of a trace that a line is: an event with its answer, or sights. A trace has no other questions."""
    words = line.split()
    if words[0] == "text":
        return sights_of(words[1], row)
    if line.startswith("cat /proc/") and row.kernel and row.kernel[0] in ("-1", "0", "1"):
        return [f"saw {words[1].split('/')[2]} {row.kernel[0]}"]
    if is_look(line) or words[0] == "echo" and words[1] == "0" and words[3].endswith("/force"):
        return []
    if row.what == "same":
        return [f"{line} => {rule.answer[0]}"]
    is_spelled = row.what == "unannounced" and row.kernel[0].split()[0] in SPELLED
    return [f"{line} => {row.kernel[0]}" if is_spelled else line]


def sights_of(name, row):
    """What a question about the text of an object showed, as sights of a trace."""
    found, seen = [], {}
    for it in row.kernel:
        symbol, _, state = it.partition(" ")
        seen[symbol] = seen.get(symbol, 0) + 1
        if state in ("plain", "hooked"):
            found.append(f"{state} .klp.sym.{name}.{symbol},{seen[symbol]}")
    return found


REPORT = """Linux {kernel}: livepatch breaks a rule of Documentation/livepatch

The rule: {told}.

Line {number} of the script below shows it, in {times} of {all} plays:

    {line}
    the rules:  {rules}
    the kernel: {answer}

Line {event}, `{event_line}`, makes the difference. The whole script, with the kernel's answers:

{script}
{log}
The script is what was done, and the catalog what the patches change (docs/CONSOLE.md and docs/CATALOG.md of Cihapuro).
`load` is insmod of the patch's module; tasks are processes that sleep inside of the functions named; `poll` is one call
of klp_try_complete_transition(). To see it again:

    tools/kernel/conform --kernel {given}{skip} --script difference.script

The catalog:

{catalog}
"""


def report_of(lab, case, rules, rows, event, times):
    """The text of the report."""
    kernel, skip = lab.kernel, f" --skip {lab.skip}" if lab.skip else ""
    row = first_unannounced(rows)
    log = [f"    {it}" for own in rows for it in own.log][:20]
    return REPORT.format(
        kernel=kernel.name, given=kernel.given, skip=skip, number=row.number, times=times, all=TIMES, line=row.line,
        event=event,
        told=broken(case, rules, event, row), rules=" | ".join(row.rules), answer=" | ".join(row.kernel),
        event_line=case.lines[event - 1], log="\n".join(["\nThe kernel's log:\n", *log, ""]) if log else "",
        script="\n".join(f"    {own.number:2} {own.line:60} {' | '.join(own.kernel)}".rstrip() for own in rows),
        catalog="\n".join(f"    {it}" for it in case.text.splitlines()))


def broken(case, rules, event, row):
    """The rule that the event breaks, and what shows it."""
    return sentence(case.lines[event - 1], (rules[event - 1].answer or [""])[0], row)


def write_down(lab, case):
    """Plays a shrunk case again, and writes it down. Returns the folder, the rule, and how many plays show it."""
    all_rows, event = replayed(lab, case)
    shown = [it for it in all_rows if first_unannounced(it)]
    if not shown:
        return None, "", 0
    own = lab.rules.of(case)
    folder = os.path.join(lab.room, "differences", f"{lab.kernel.name}-{case.name}")
    os.makedirs(folder, exist_ok=True)
    texts = {"catalog": case.text, "script": "".join(f"{it}\n" for it in case.lines),
             "trace": trace_of(case, own, shown[0]),
             "report": report_of(lab, case, own, shown[0], event, len(shown))}
    for name, text in texts.items():
        with open(os.path.join(folder, f"difference.{name}"), "w", encoding="utf-8") as it:
            it.write(text)
    with open(os.path.join(folder, "difference.html"), "w", encoding="utf-8") as page:
        subprocess.run(["klppage", "difference.catalog", "--trace", "difference.trace"], executable=lab.rules.program,
                       cwd=folder, stdout=page, stderr=subprocess.DEVNULL, check=False)
    return folder, broken(case, own, event, first_unannounced(shown[0])), len(shown)
