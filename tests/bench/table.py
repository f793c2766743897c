"""Measures and prints what docs/BENCHMARKS.md shows, as Markdown.
Assumes built programs: table.py [--write DOCUMENT | --beside] PROGRAM..."""

import sys
import textwrap

from machine import machine_lines
from measure import best_rows, can_count, count_rows

BEGIN = "<!-- measured: begin -->\n"
END = "<!-- measured: end -->\n"

# The most that a time of the library may be of that of plain C: for all rows
# of a name, or for the one with so many records.
GOALS = {
    "check, all kinds": 1.2,
    "masks, feedback": 0.9,
    "masks, combinational": 0.85,
    ("masks, chain of registers", 2048): 0.05,
    ("masks, ring of registers", 2048): 0.05,
    "trim, feedback": 1.1,
    "trim, combinational": 0.9,
    "trim_by, feedback, smallest masks": 1.2,
    "trim_by, feedback, all bits": 1.2,
    "trim_by, combinational, smallest masks": 1.2,
    "trim_by, combinational, all bits": 1.2,
    "compact, feedback": 1.2,
    "compact, combinational": 1.2,
    "compact, words cut with constants": 1.2,
    "cycle, no multipliers": 1.0,
    "cycle, multipliers": 3.0,
    "cycle, multipliers of all widths": 3.0,
    "change_over, feedback": 1.2,
    "change_over, combinational": 1.2,
    "change_over, words cut with constants": 1.2,
}


def table(heads, lines):
    """A Markdown table; all columns but the first are numbers."""
    rule = ["---"] + ["--:"] * (len(heads) - 1)
    return ["| " + " | ".join(line) + " |" for line in [heads, rule, *lines]]


def number(value, places):
    return "-" if value is None else f"{value:,.{places}f}"


def ratio_places(value):
    """Small ratios are shown, and compared, with one more place."""
    return 3 if value < 0.1 else 2


def ratio_text(value):
    return "-" if value is None else number(value, ratio_places(value))


def above(row, limit):
    """As the ratio is shown, so that the words agree with the table."""
    value = row.ratio()
    return round(value, ratio_places(value)) > limit


def counts_ratio(row):
    return row.counts and row.counts[0] / row.counts[1]


def goal_of(row, goals):
    """None where there is none."""
    return goals.get(row.name, goals.get((row.name, row.records)))


def goal_text(goal):
    """With the places that it is written with above."""
    return "-" if goal is None else str(goal)


def main_table(rows, other, goals):
    heads = ["operation, designs", "records", "designs", "library, µs",
             f"{other}, µs", "ratio", "goal", "library, ns a record",
             f"{other}, ns a record", "library, instructions a record",
             f"{other}, instructions a record", "ratio of instructions"]
    return table(heads, [[
        row.name, f"{row.records:,}", str(row.designs),
        number(row.times[0], 2), number(row.times[1], 2),
        ratio_text(row.ratio()), goal_text(goal_of(row, goals)),
        number(row.nanoseconds(0), 1), number(row.nanoseconds(1), 1),
        number(row.instructions(0), 1), number(row.instructions(1), 1),
        ratio_text(counts_ratio(row))] for row in rows])


def by_name(rows):
    """The rows of each name, in order."""
    names = {}
    for row in rows:
        names.setdefault(row.name, []).append(row)
    return names


def over(value, first):
    return None if value is None else value / first


def by_sizes(rows):
    """The rows of each name, apart for each list of sizes that names have."""
    lists = {}
    for name, of in by_name(rows).items():
        sizes = tuple(row.records for row in of)
        lists.setdefault(sizes, {})[name] = of
    return lists


def growth_table(sizes, names, other):
    """For each side: a record of a larger design over one of the smallest."""
    heads = ["operation, designs", "side"]
    heads += [f"time at {size:,}" for size in sizes[1:]]
    heads += [f"instructions at {size:,}" for size in sizes[1:]]
    lines = []
    for name, (first, *later) in names.items():
        for side in range(2):
            times = [over(row.nanoseconds(side), first.nanoseconds(side))
                     for row in later]
            counts = [over(row.instructions(side), first.instructions(side))
                      for row in later]
            lines.append([name, ("library", other)[side]]
                         + [number(value, 2) for value in times + counts])
    return table(heads, lines)


def growth_tables(rows, other):
    """A table with a title for each list of sizes; one size has no growth."""
    lines = []
    for sizes, names in by_sizes(rows).items():
        if len(sizes) > 1:
            lines += ["", f"### Growth from {sizes[0]:,} records", "",
                      *growth_table(sizes, names, other)]
    return lines


def listed(rows):
    """Names, each with its sizes and ratios."""
    return "; ".join(
        name + " (" + ", ".join(
            f"{ratio_text(row.ratio())} at {row.records:,}" for row in of)
        + ")"
        for name, of in by_name(rows).items()) or "none"


def verdict(rows, other, goals):
    """What is slower is said in words, however the run came out."""
    slower = [row for row in rows if above(row, 1)]
    missed = [row for row in rows if goal_of(row, goals) is not None
              and above(row, goal_of(row, goals))]
    return [*textwrap.wrap(f"Slower than {other} in this run, {len(slower)} of"
                           f" {len(rows)} rows: {listed(slower)}.", 110), "",
            *textwrap.wrap(f"Above the goal in this run: {listed(missed)}.",
                           110)]


def rounds_lines(rounds, programs, other):
    return textwrap.wrap(
        f"- Times: the best of {rounds.most} rounds of at least"
        f" {rounds.length // 1000} ms in each of {len(programs)} programs;"
        f" library and {other} take turns. A row whose rounds take more than"
        f" {rounds.time // 1000} ms in a program has fewer there, but at least"
        f" {rounds.least}.", 110, subsequent_indent="  ")


def measured(programs, other="plain C", goals=GOALS):
    """Runs everything and gives the lines of the measured part."""
    counting = can_count()
    lines = machine_lines(counting)
    print("about 100 s", file=sys.stderr)
    rows, rounds = best_rows(programs)
    if counting:
        count_rows(programs[0], rows)
    lines += rounds_lines(rounds, programs, other)
    return (lines + ["", "### Times and instructions", ""]
            + main_table(rows, other, goals) + [""]
            + verdict(rows, other, goals) + growth_tables(rows, other))


def split_document(path):
    """What stands before and after the measured part, with the marks."""
    with open(path, encoding="utf-8") as document:
        text = document.read()
    if text.count(BEGIN) != 1 or text.count(END) != 1:
        raise SystemExit(f"{path}: the marks are not there once each")
    before, rest = text.split(BEGIN)
    if END not in rest:
        raise SystemExit(f"{path}: the marks are in the wrong order")
    return before + BEGIN, END + rest.split(END)[1]


def main(arguments):
    if arguments[:1] == ["--beside"]:
        print("\n".join(measured(arguments[1:], "the earlier library", {})))
        return
    if arguments[:1] != ["--write"]:
        print("\n".join(measured(arguments)))
        return
    path, *programs = arguments[1:]
    # Before the run, so that a document without marks costs no minute.
    before, after = split_document(path)
    text = "\n".join(measured(programs)) + "\n"
    with open(path, "w", encoding="utf-8") as document:
        document.write(before + "\n" + text + "\n" + after)
    print(text, end="")


main(sys.argv[1:])
