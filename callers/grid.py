#!/usr/bin/env python3
"""Draws a book and its sheet as a grid, and what chains make of it, one grid after the other.

  grid.py FILE.day "TITLE: CHAIN"...     writes the picture to standard output

A chain is its moves as in a listing, "window giver taker", with commas between moves: "mark 2: 1 2 1, 2 3 2". Its moves are drawn as
arrows on one grid, under its title, and played for the next grid. A title without a chain shows the grid as it is then. The rows are
seats, the columns windows; a cell shows credits and cap. A level is shown where it is not the total.
"""
import struct
import sys

sys.dont_write_bytecode = True
from svg import FAINT, GREY, Picture  # noqa: E402

WEIGHTS = [1, 2, 3, 5, 8, 12, 20, 40]
CELL_WIDTH, CELL_HEIGHT = 74, 52
LEFT, TOP, GAP = 64, 78, 48
MOVED = "#b03a2e"


def read(data):
    """Supplies, caps, sheet, and each seat's weight and balance, of a day file that has a sheet."""
    numbers = struct.unpack("<%dH" % (len(data) // 2), data)
    entries = list(zip(numbers[1::3], numbers[2::3], numbers[3::3]))[:numbers[0]]
    parts = {kind: numbers[start // 2:(start + length) // 2] for kind, start, length in entries}
    classes, supplies, caps, sheet = (parts[kind] for kind in (1, 2, 3, 4))
    rows = [slice(i, i + len(supplies)) for i in range(0, len(caps), len(supplies))]
    weights = [parts.get(7, WEIGHTS)[number - 1] for number in classes]
    return supplies, [caps[row] for row in rows], [list(sheet[row]) for row in rows], weights, parts.get(6, [0] * len(classes))


def panel_width(windows):
    return LEFT + windows * CELL_WIDTH + 92


def draw_cells(picture, left, caps, sheet):
    for seat, row in enumerate(sheet):
        for window, credits in enumerate(row):
            x, y = left + window * CELL_WIDTH, TOP + seat * CELL_HEIGHT
            cap = caps[seat][window]
            picture.rect(x, y, CELL_WIDTH, CELL_HEIGHT, "#ffffff" if cap else "#f0f0f0", FAINT)
            if cap:
                picture.text(x + 12, y + 31, credits, size=17, bold=credits > 0)
                picture.text(x + CELL_WIDTH - 8, y + 31, "of %d" % cap, size=11, anchor="end", fill=GREY)


def level(weight, balance, total):
    """A seat's level in words, if it is not just the total."""
    if weight == 1:
        return ", level %d" % (balance + total) if balance else ""
    return ", level %d/%d" % (balance + total, weight)


def draw_sides(picture, left, supplies, sheet, weights, balances):
    right, bottom = left + len(supplies) * CELL_WIDTH, TOP + len(sheet) * CELL_HEIGHT
    for window, supply in enumerate(supplies):
        middle = left + (window + 0.5) * CELL_WIDTH
        picture.text(middle, TOP - 10, "window %d" % (window + 1), size=12, anchor="middle")
        placed = sum(row[window] for row in sheet)
        picture.text(middle, bottom + 20, "%d of %d" % (placed, supply), size=12, anchor="middle", fill=GREY)
    picture.text(left - 10, bottom + 20, "placed", size=12, anchor="end", fill=GREY)
    for seat, row in enumerate(sheet):
        y = TOP + seat * CELL_HEIGHT + 31
        picture.text(left - 10, y, "seat %d" % (seat + 1), size=12, anchor="end")
        words = level(weights[seat], balances[seat], sum(row))
        picture.text(right + 12, y, "total %d%s" % (sum(row), words), size=13)


def draw_moves(picture, left, moves):
    """An arrow from giver to taker for each move, with its number."""
    for number, (window, giver, taker) in enumerate(moves, start=1):
        x = left + (window - 0.5) * CELL_WIDTH - 8
        step = 1 if taker > giver else -1
        start = TOP + (giver - 0.5) * CELL_HEIGHT + step * 10
        end = TOP + (taker - 0.5) * CELL_HEIGHT - step * 12
        picture.line([(x, start), (x, end)], MOVED, 2.0, arrow=True)
        picture.text(x + 7, (start + end) / 2 + 4, number, size=12, fill=MOVED, bold=True)


def play(sheet, moves):
    after = [list(row) for row in sheet]
    for window, giver, taker in moves:
        after[giver - 1][window - 1] -= 1
        after[taker - 1][window - 1] += 1
    return after


def parse(words):
    """A title and the moves after it."""
    title, _, moves = words.partition(":")
    return title, [tuple(map(int, move.split())) for move in moves.split(",") if move.strip()]


def main(path, chains):
    with open(path, "rb") as file:
        supplies, caps, sheet, weights, balances = read(file.read())
    step = panel_width(len(supplies)) + GAP
    picture = Picture(step * len(chains) - GAP, TOP + len(sheet) * CELL_HEIGHT + 38)
    for place, words in enumerate(chains):
        left = place * step + LEFT
        title, moves = parse(words)
        picture.text(left, 34, title, size=15, bold=True)
        draw_cells(picture, left, caps, sheet)
        draw_sides(picture, left, supplies, sheet, weights, balances)
        draw_moves(picture, left, moves)
        sheet = play(sheet, moves)
    print(picture, end="")


if __name__ == "__main__":
    if len(sys.argv) < 3:
        sys.exit(__doc__)
    main(sys.argv[1], sys.argv[2:])
