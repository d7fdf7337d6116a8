"""Which of two hand-ins of one book is the better one: that with the higher list, and on equal lists the first.

    python3 callers/python/better.py FIRST SECOND

Prints one line, `better: first FIRST` or `better: second SECOND`; or a refusal, with the file that it is of. As with bin/mark no more than
the first 65,536 bytes are taken as a file, and the status is 0 where both were taken, 1 at a refusal, and 2 where a file could not be read
or the line could not be written. The library has to be there: bin/library builds it.
"""
import os
import sys

TAKEN = 65536
sys.dont_write_bytecode = True


def load(name):
    with open(name, 'rb') as file:
        return file.read(TAKEN)


def compare(names):
    """The line and the status for two files."""
    import credits  # here, so that a library which is missing is told as a file is
    try:
        chosen = credits.better(*map(load, names)).file
    except credits.Refused as r:
        whose = f' in {names[r.file - 1]}' if r.file else ': the two files are of different books'
        return f'refused {r.number} at {r.offset}{whose}', 1
    return f'better: {("first", "second")[chosen - 1]} {names[chosen - 1]}', 0


def main(names):
    if names == ['--help']:
        print(__doc__, end='')
        return 0
    if len(names) != 2:
        print('usage: better.py FIRST SECOND', file=sys.stderr)
        return 2
    try:
        line, status = compare(names)
        os.write(1, os.fsencode(line + '\n'))
    except OSError as e:
        print(f'better.py: {e}', file=sys.stderr)
        return 2
    return status


if __name__ == '__main__':
    sys.exit(main(sys.argv[1:]))
