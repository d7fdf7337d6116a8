"""Whether a sheet can give each seat just the total that is wanted for it: such a sheet, or seats that want more than they can get.

    python3 callers/python/fulfil.py FILE WANT..

There is one WANT for each seat of the day file, seat 1 first. Prints a line for each seat, `seat 1 total 3: 1 2` with its credits window by
window, if there is a sheet. If there is none, it prints one line with a group of seats, what these want together and the most that they
can get; or a refusal. The status is 0 where the file and the wants were taken, whichever reply came, 1 at a refusal, and 2 where the file
could not be read, a want is not a number from 0 to 4294967295, or a line could not be written. As with bin/mark no more than the first
65,536 bytes are taken as a file. The library has to be there: bin/library builds it.
"""
import os
import sys

TAKEN = 65536
sys.dont_write_bytecode = True


def load(name):
    with open(name, 'rb') as file:
        return file.read(TAKEN)


def group_line(book, wants, group):
    """What a group wants, and what it can get."""
    wanted = sum(wants[seat - 1] for seat in group)
    seats, want = ('seat', 'wants') if len(group) == 1 else ('seats', 'want')
    return f'group: {seats} {" ".join(map(str, group))} {want} {wanted} and can get {book.can_get(group)}'


def answer(name, wants):
    """The lines and the status for a file and the wanted totals."""
    import credits  # here, so that a library which is missing is told as a file is
    file = load(name)
    try:
        sheet, group = credits.fulfil(file, wants)
    except credits.Refused as r:
        why = f': {len(wants)} wanted totals for {credits.read(file).seats} seats' if r.number == 21 else f' in {name}'
        return [f'refused {r.number} at {r.offset}{why}'], 1
    if group:
        return [group_line(credits.read(file), wants, group)], 0
    return [f'seat {seat} total {sum(row)}: {" ".join(map(str, row))}' for seat, row in enumerate(sheet, 1)], 0


def want_of(word):
    """A wanted total in decimal digits."""
    if not (word.isascii() and word.isdigit() and int(word) < 1 << 32):
        raise ValueError(f'{word!r} is not a number from 0 to 4294967295')
    return int(word)


def main(words):
    if words == ['--help']:
        print(__doc__, end='')
        return 0
    if not words:
        print('usage: fulfil.py FILE WANT..', file=sys.stderr)
        return 2
    try:
        lines, status = answer(words[0], [want_of(word) for word in words[1:]])
        with open(1, 'wb', closefd=False) as out:
            out.write(os.fsencode('\n'.join(lines) + '\n'))
    except (OSError, ValueError) as e:
        print(f'fulfil.py: {e}', file=sys.stderr)
        return 2
    return status


if __name__ == '__main__':
    sys.exit(main(sys.argv[1:]))
