#!/usr/bin/env python3
"""Makes the day files of this folder from their texts, and makes or checks their listings.

  make.py                      NAME.txt -> NAME.day
  make.py --check MARK PLAN    every NAME.day is that of its text, and both programs give the stored listings
  make.py --listings MARK PLAN writes the listings anew

MARK and PLAN are the commands of the two programs; both read a day file on standard input.
NAME.listing is what MARK prints of NAME.day, and NAME.planned.listing what it prints of the file that PLAN makes of it;
where PLAN makes none, it is the line of the refusal that PLAN prints.
No line depends on what the rules leave free, the windows and middle seats of an exchange path: the sheets here have
one shortest path each.
"""
import pathlib
import shlex
import struct
import subprocess
import sys

HERE = pathlib.Path(__file__).resolve().parent
# kinds 1 to 7; a text may leave out the last four
PARTS = ["classes", "supplies", "caps", "sheet", "first", "balances", "weights"]


def parse(text):
    """The kind and the numbers of each part: a word opens a part, its numbers follow; '#' opens a comment."""
    parts = {}
    for line in text.splitlines():
        for word in line.split("#")[0].split():
            if word in PARTS:
                numbers = parts[word] = []
            else:
                numbers.append(int(word))
    return [(kind, parts[name]) for kind, name in enumerate(PARTS, start=1) if name in parts]


def fields(numbers):
    """Two bytes each, low byte first."""
    return struct.pack("<%dH" % len(numbers), *numbers)


def day_file(parts):
    """The table of contents, then the bodies in the same order without gaps."""
    contents, start = [len(parts)], 2 + 6 * len(parts)
    for kind, numbers in parts:
        contents += [kind, start, 2 * len(numbers)]
        start += 2 * len(numbers)
    return fields(contents) + b"".join(fields(numbers) for _, numbers in parts)


def run(command, data):
    return subprocess.run(shlex.split(command), input=data, stdout=subprocess.PIPE).stdout


def planned_listing(day, mark, plan):
    """The listing of the planned file, or the line of the refusal. No day file begins as that line does."""
    planned = run(plan, day)
    return planned if planned.startswith(b"refused ") else run(mark, planned)


def outputs(day, mark, plan):
    """The stored files of one example beside its text, by their endings."""
    return {".day": day, ".listing": run(mark, day), ".planned.listing": planned_listing(day, mark, plan)}


def main(arguments):
    checking = arguments[:1] == ["--check"]
    count = 0
    for text in sorted(HERE.glob("*.txt")):
        day = day_file(parse(text.read_text()))
        files = outputs(day, *arguments[1:]) if arguments else {".day": day}
        for ending, data in files.items():
            path = text.with_suffix(ending)
            if not checking:
                path.write_bytes(data)
            elif path.read_bytes() != data:
                sys.exit("%s differs" % path.name)
            count += 1
    print("%d example files %s" % (count, "are as they should be" if checking else "written"))


if __name__ == "__main__":
    main(sys.argv[1:])
