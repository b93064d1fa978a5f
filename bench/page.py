#!/usr/bin/env python3
"""Writes the newest figures of bench/results/ into docs/BENCH.md.

usage: bench/page.py [--print]     (with `--print` the page goes to standard output, and the file stays as it is)

The part of the page between `<!-- By bench/page.py: NAME -->` and `<!-- until here -->` is made of
bench/results/NAME.csv. Of each thing that was measured it has the rows of the commit that measured it last. What was
measured is written as `THING` or as `THING: PART`, and the parts are the columns of a table.
"""
import csv
import os
import re
import sys

TOP = os.path.dirname(os.path.dirname(os.path.abspath(__file__)))
PAGE = os.path.join(TOP, "docs/BENCH.md")
COLUMNS = ["date", "commit", "machine", "load", "what", "figure", "unit"]


def results_of(name):
    with open(os.path.join(TOP, f"bench/results/{name}.csv"), encoding="utf-8", newline="") as it:
        found = csv.DictReader(it)
        if found.fieldnames != COLUMNS:
            sys.exit(f"bench/results/{name}.csv does not begin with {','.join(COLUMNS)}")
        return list(found)


def thing_and_part(what):
    thing, _, part = what.rpartition(": ")
    return (thing, part) if thing else (part, "")


def newest(rows):
    """By date, commit, machine and load: the rows of each thing that was measured there last."""
    last = {thing_and_part(row["what"])[0]: row["commit"] for row in rows}
    groups = {}
    for row in rows:
        if last[thing_and_part(row["what"])[0]] == row["commit"]:
            groups.setdefault((row["date"], row["commit"], row["machine"], row["load"]), []).append(row)
    return groups


def shown(figure, unit):
    if re.fullmatch(r"\d{4,}", figure):
        figure = f"{int(figure):,}"
    return f"{figure} {unit}".strip()


def table(key, rows):
    """The table or the list of one group, below a line that says what its rows share."""
    date, commit, machine, load = key
    units = {row["unit"] for row in rows}
    unit = units.pop() if len(units) == 1 else ""
    cells = {}
    for row in rows:
        thing, part = thing_and_part(row["what"])
        cells.setdefault(thing, {})[part] = shown(row["figure"], "" if unit else row["unit"])
    parts = list(dict.fromkeys(part for of_thing in cells.values() for part in of_thing))
    named = commit if commit == "not noted" else f"`{commit}`"
    lines = [f"Date: {date}; commit: {named}; machine: {machine}; load: {load}{'; in ' + unit if unit else ''}.", ""]
    if parts == [""]:
        return "\n".join([*lines, *(f"- {thing}: {of_thing['']}" for thing, of_thing in cells.items())])
    lines += ["| | " + " | ".join(parts) + " |", "|---|" + "---|" * len(parts)]
    for thing, of_thing in cells.items():
        lines.append(f"| {thing} | " + " | ".join(of_thing.get(part, "") for part in parts) + " |")
    return "\n".join(lines)


def part_of_the_page(name):
    return "\n\n".join(table(key, rows) for key, rows in newest(results_of(name)).items())


def page():
    with open(PAGE, encoding="utf-8") as it:
        text = it.read()
    mark = re.compile(r"(<!-- By bench/page\.py: (\w+) -->\n).*?(\n<!-- until here -->)", re.S)
    return mark.sub(lambda found: found[1] + part_of_the_page(found[2]) + found[3], text)


if __name__ == "__main__":
    if sys.argv[1:] == ["--print"]:
        sys.stdout.write(page())
    elif sys.argv[1:]:
        sys.exit(__doc__)
    else:
        made = page()
        with open(PAGE, "w", encoding="utf-8") as it:
            it.write(made)
