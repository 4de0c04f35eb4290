"""What was measured of each kernel, kept in measured.json, and the table of it in docs/KERNEL.md."""
import datetime
import json
import os

from conforming.differences import ANNOUNCED

FILE = os.path.join(os.path.dirname(os.path.abspath(__file__)), "measured.json")
# What becomes of lines, as the table says it.
WHATS = (("same", "lines with the same answer"), ("unannounced", "unannounced differences"),
         ("set", "lines that only bring a task to its place"), ("left", "lines that no kernel was asked"),
         ("apart", "lines behind a difference, not compared"))


def remembered():
    """What was measured, by the release."""
    if not os.path.exists(FILE):
        return {}
    with open(FILE, encoding="utf-8") as it:
        return json.load(it)


def remember(release, scripts, events, lines, names, ended):
    """Keeps what was measured of a kernel in place of what was measured before."""
    all_found = remembered()
    all_found[release] = {"date": datetime.date.today().isoformat(), "scripts": scripts, "events": events,
                          "lines": dict(lines), "announced": dict(names), "ended": ended}
    with open(FILE, "w", encoding="utf-8") as it:
        json.dump(all_found, it, indent=1, sort_keys=True)
        it.write("\n")


def table():
    """The rows of the table: each difference, by kernel."""
    found = remembered()
    releases = sorted(found, key=lambda it: [int(part) for part in it.split("-")[0].split("+")[0].split(".")])
    rows = [["What", *releases], ["---"] * (len(releases) + 1),
            ["measured on", *(found[it]["date"] for it in releases)],
            ["random scripts", *(f"{found[it]['scripts']} of {found[it]['events']} events" for it in releases)]]
    rows.append(["scripts that the kernel didn't survive", *(str(found[it]["ended"]) for it in releases)])
    for key, what in WHATS:
        rows.append([what, *(f"{found[it]['lines'].get(key, 0):,}" for it in releases)])
    for it in ANNOUNCED:
        rows.append([it.name, *(f"{found[release]['announced'].get(it.name, 0):,}" for release in releases)])
    return "".join(f"| {' | '.join(row)} |\n" for row in rows).replace("| --- ", "|---").replace("|--- |", "|---|")
