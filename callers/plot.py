#!/usr/bin/env python3
"""Draws what `bench` measured: out/speed.csv to docs/speed.svg and docs/growth.svg, and the tables of docs/SPEED.md.

A table of docs/SPEED.md stands between the comments `<!-- NAME -->` and `<!-- end -->`, and is written anew.
"""
import csv
import pathlib
import re
import sys

sys.dont_write_bytecode = True
from svg import FAINT, GREY, INK, Picture  # noqa: E402

ROOT = pathlib.Path(__file__).resolve().parent.parent
COLOURS = {"library": "#1f5a94", "plain Rust": "#d08a2e"}


def load(path):
    """Per table, per case in order, the microseconds of each column."""
    tables = {}
    with open(path, newline="") as file:
        for row in csv.DictReader(file):
            tables.setdefault(row["table"], {}).setdefault(row["case"], {})[row["column"]] = float(row["microseconds"])
    return tables


def ticks(highest):
    """Round numbers from 0 to just above the highest, at most six steps."""
    step = next(size * 10 ** power for power in range(6) for size in (1, 2, 5) if highest <= 6 * size * 10 ** power)
    return [step * k for k in range(int(-(-highest // step)) + 1)]


def legend(picture, x, y):
    for name, colour in COLOURS.items():
        picture.rect(x, y - 10, 12, 12, colour)
        picture.text(x + 18, y, name)
        x += 100


def bars(cases):
    """Horizontal bars, two for each kind of book."""
    left, top, width, height = 150, 74, 470, 46
    marks = ticks(max(times[name] for times in cases.values() for name in COLOURS))
    scale = width / marks[-1]
    bottom = top + height * len(cases)
    picture = Picture(left + width + 70, bottom + 40)
    picture.text(20, 28, "Planning a book of 32 seats and 24 windows, in microseconds", size=15, bold=True)
    legend(picture, 20, 54)
    for mark in marks:
        picture.line([(left + mark * scale, top), (left + mark * scale, bottom)], FAINT)
        picture.text(left + mark * scale, bottom + 20, "%d" % mark, size=12, anchor="middle", fill=GREY)
    for place, (case, times) in enumerate(cases.items()):
        y = top + place * height + 6
        picture.text(left - 10, y + 21, case, anchor="end")
        for row, (name, colour) in enumerate(COLOURS.items()):
            picture.rect(left, y + 17 * row, times[name] * scale, 15, colour)
            picture.text(left + times[name] * scale + 6, y + 17 * row + 12, "%.0f" % times[name], size=12, fill=INK)
    return picture


def curve(picture, left, cases, title, marks):
    """One diagram with a line for each column: cases are numbers."""
    top, width, height = 90, 320, 220
    sizes = [int(case) for case in cases]
    x = lambda size: left + size / sizes[-1] * width
    y = lambda time: top + height - time / marks[-1] * height
    picture.text(left + width / 2, top + height + 44, title, anchor="middle")
    for mark in marks:
        picture.line([(left, y(mark)), (left + width, y(mark))], FAINT)
        picture.text(left - 8, y(mark) + 4, "%d" % mark, size=12, anchor="end", fill=GREY)
    for size in sizes:
        picture.text(x(size), top + height + 20, size, size=12, anchor="middle", fill=GREY)
    for name, colour in COLOURS.items():
        points = [(x(int(case)), y(times[name])) for case, times in cases.items()]
        picture.line(points, colour, 2.0)
        for point in points:
            picture.dot(*point, colour)


def curves(by_seats, by_windows):
    highest = max(times[name] for cases in (by_seats, by_windows) for times in cases.values() for name in COLOURS)
    picture = Picture(840, 374)
    picture.text(20, 28, "Planning as books grow, a quarter of the caps filled, in microseconds", size=15, bold=True)
    legend(picture, 20, 54)
    curve(picture, 60, by_seats, "seats, with 24 windows", ticks(highest))
    curve(picture, 480, by_windows, "windows, with 32 seats", ticks(highest))
    return picture


def table(cases, head, columns, over=("plain Rust",)):
    """A table in Markdown, with the library's time over that of plain Rust, or of other columns, and the slowest book."""
    ratios = ["library / %s" % column for column in over]
    lines = ["| %s |" % " | ".join([head] + columns + ratios + ["slowest book"])]
    lines.append("|---" + "|---:" * (len(columns) + len(ratios) + 1) + "|")
    for case, times in cases.items():
        numbers = ["{:,.1f}".format(times[column]) for column in columns]
        numbers += ["%.2f" % (times["library"] / times[column]) for column in over]
        lines.append("| %s |" % " | ".join([case] + numbers + ["{:,.1f}".format(times["longest"])]))
    return "\n".join(lines)


def fulfil_table(cases, head):
    """With the library's time over that of its plan, standard sheet left out."""
    columns = ["library", "plain Rust", "other method", "plan", "settled plan"]
    return table(cases, head, columns, over=("plain Rust", "settled plan"))


def main():
    tables = load(ROOT / "out" / "speed.csv")
    (ROOT / "docs" / "speed.svg").write_text(str(bars(tables["plan"])))
    (ROOT / "docs" / "growth.svg").write_text(str(curves(tables["seats"], tables["windows"])))
    two = ["library", "plain Rust"]
    texts = {
        "plan": table(tables["plan"], "plan", two + ["settled alone", "other method", "max flow"]),
        "first": table(tables["first"], "plan, with any first seat", two + ["other method", "without it"]),
        "balances": table(tables["balances"], "plan, with balances", two + ["other method", "without them"],
                          over=("plain Rust", "without them")),
        "weights": table(tables["weights"], "plan, with own weights", two + ["other method", "without them"],
                         over=("plain Rust", "without them")),
        "weighed": table(tables["weighed"], "mark, with own weights", two + ["without them"], over=("plain Rust", "without them")),
        "mark": table(tables["mark"], "mark", two),
        "better": table(tables["better"], "better", two),
        "fulfil": fulfil_table(tables["fulfil"], "fulfil"),
        "fulfil seats": fulfil_table(tables["fulfil seats"], "seats"),
        "fulfil windows": fulfil_table(tables["fulfil windows"], "windows"),
        "forecast": table(tables["forecast"], "forecast", two),
        "file": table(tables["file"], "the longest file", two),
        "least": table(tables["least"], "one seat, one window", two),
        "seats": table(tables["seats"], "seats", two + ["other method"]),
        "windows": table(tables["windows"], "windows", two + ["other method"]),
    }
    page = ROOT / "docs" / "SPEED.md"
    text = page.read_text()
    for name, lines in texts.items():
        text = re.sub(r"(<!-- %s -->\n).*?(<!-- end -->)" % name, lambda m: m[1] + lines + "\n" + m[2], text, flags=re.S)
    page.write_text(text)


if __name__ == "__main__":
    main()
