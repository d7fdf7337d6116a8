#!/usr/bin/env python3
"""Draws wanted totals: on the left a sheet that gives its totals, on the right a group of seats that wants more than it can get.

  wanted.py FILE.day "WANT.." "SEAT.."     writes the picture to standard output

FILE.day has the sheet. The wants are one for each seat; the seats are those of the group, counted from 1. A square is a credit: for each
window its supply and the group's caps added up, of which the lesser is filled; then what the group can get in all windows together, and
what it wants.
"""
import sys

sys.dont_write_bytecode = True
from grid import CELL_HEIGHT, GAP, LEFT, TOP, draw_cells, draw_sides, panel_width, read  # noqa: E402
from svg import GREY, INK, Picture  # noqa: E402

UNIT, SQUARE, WORDS = 20, 16, 200
CREDIT, EXCESS = "#a9c4e0", "#b03a2e"


def added(numbers):
    return "%s = %d" % (" + ".join(map(str, numbers)), sum(numbers))


def listed(numbers):
    return ", ".join(map(str, numbers))


def draw_squares(picture, x, y, count, fill, stroke=INK):
    for place in range(count):
        picture.rect(x + place * UNIT, y, SQUARE, SQUARE, fill, stroke)


def draw_window(picture, left, words, y, supply, caps):
    """Two rows of squares; the words of the lesser are bold."""
    lesser = min(supply, sum(caps))
    for count, text in ((supply, "supply %d" % supply), (sum(caps), "caps " + added(caps))):
        ink = INK if count == lesser else GREY
        draw_squares(picture, left, y, count, CREDIT if count == lesser else "#ffffff", ink)
        picture.text(words, y + 13, text, size=12, fill=ink, bold=count == lesser)
        y += UNIT


def draw_sum(picture, left, words, y, most, wants):
    """What the group can get, window by window, and what it wants, seat by seat."""
    more = sum(wants) - sum(most)
    picture.text(left - 10, y + 13, "can get", size=12, anchor="end")
    draw_squares(picture, left, y, sum(most), CREDIT)
    picture.text(words, y + 13, added(most), size=12, bold=True)
    picture.text(left - 10, y + UNIT + 13, "wants", size=12, anchor="end")
    draw_squares(picture, left, y + UNIT, sum(most), "#ffffff")
    draw_squares(picture, left + sum(most) * UNIT, y + UNIT, more, EXCESS, EXCESS)
    picture.text(words, y + UNIT + 13, "%s: %d too many" % (added(wants), more), size=12, fill=EXCESS, bold=True)


def draw_group(picture, left, words, windows, wants):
    """Window by window, then their sum; a window is its supply and the caps of the group's seats."""
    for place, (supply, caps) in enumerate(windows):
        y = TOP + place * CELL_HEIGHT
        picture.text(left - 10, y + UNIT + 2, "window %d" % (place + 1), size=12, anchor="end")
        draw_window(picture, left, words, y, supply, caps)
    most = [min(supply, sum(caps)) for supply, caps in windows]
    draw_sum(picture, left, words, TOP + len(windows) * CELL_HEIGHT + 8, most, wants)


def main(path, wants, group):
    with open(path, "rb") as file:
        supplies, caps, sheet, weights, balances = read(file.read())
    windows = [(supply, [caps[seat - 1][window] for seat in group]) for window, supply in enumerate(supplies)]
    wanted = [wants[seat - 1] for seat in group]
    left = panel_width(len(supplies)) + GAP + LEFT
    words = left + max(sum(wanted), *(max(supply, sum(column)) for supply, column in windows)) * UNIT + 10
    picture = Picture(words + WORDS, TOP + max(len(sheet), len(supplies) + 1) * CELL_HEIGHT + 38)
    picture.text(LEFT, 34, "wanted %s: a sheet" % listed(sum(row) for row in sheet), size=15, bold=True)
    draw_cells(picture, LEFT, caps, sheet)
    draw_sides(picture, LEFT, supplies, sheet, weights, balances)
    picture.text(left, 34, "wanted %s: a group, seats %s" % (listed(wants), listed(group)), size=15, bold=True)
    draw_group(picture, left, words, windows, wanted)
    print(picture, end="")


if __name__ == "__main__":
    if len(sys.argv) != 4:
        sys.exit(__doc__)
    main(sys.argv[1], *([int(word) for word in words.split()] for words in sys.argv[2:]))
