"""libcredits for Python, by ctypes: read, write, mark, plan, list and compare day files, fulfil wanted totals, and forecast plans.
include/credits.h says what each call does."""
import ctypes
import operator
import os
from typing import NamedTuple

SEATS, WINDOWS, CLASSES = 32, 24, 8
FILE_MAX, SHEET_MAX, MOVES_MAX, LISTING_MAX = 3310, 1536, 93, 3453
WASTEFUL, IMPROVABLE, TIED, SETTLED = 1, 2, 3, 4

Row = ctypes.c_uint16 * WINDOWS
Grid = Row * SEATS


def in_field(number):
    """The number, if a field of two bytes can hold it: a C number would wrap."""
    if not 0 <= number <= 65535:
        raise ValueError(f'{number} in a field of two bytes')
    return number


def fields(numbers, count):
    """So many numbers of two bytes each; or none, where there are no numbers."""
    row = [in_field(number) for number in numbers or []]
    if numbers is not None and len(row) != count:
        raise ValueError(f'{len(row)} numbers in place of {count}')
    return row


class Book(ctypes.Structure):
    """A book in memory; seats and windows count from 0. There is a sheet unless has_sheet is 0.

    Unless has_first is 0, `first` is the seat that comes first today, counted from 1; `first_seat` has None in place of the two.
    Unless has_balances is 0, `balances` are what the seats received on earlier days, 0 to 50,000; `carried` is a list of one for each
    seat, or None. Set it after `seats`.
    Unless has_weights is 0, `weights` are those of classes 1 to 8, 1 to 1,000 and rising; `own_weights` is a list of the eight, or None,
    which means 1, 2, 3, 5, 8, 12, 20 and 40."""
    _fields_ = [('seats', ctypes.c_size_t), ('windows', ctypes.c_size_t), ('classes', ctypes.c_uint16 * SEATS),
                ('supplies', Row), ('caps', Grid), ('has_sheet', ctypes.c_uint32), ('sheet', Grid),
                ('has_first', ctypes.c_uint32), ('first', ctypes.c_uint16),
                ('has_balances', ctypes.c_uint32), ('balances', ctypes.c_uint16 * SEATS),
                ('has_weights', ctypes.c_uint32), ('weights', ctypes.c_uint16 * CLASSES)]

    @property
    def first_seat(self):
        return self.first if self.has_first else None

    @first_seat.setter
    def first_seat(self, seat):
        self.has_first, self.first = (0, 0) if seat is None else (1, in_field(seat))

    @property
    def carried(self):
        return list(self.balances[:self.seats]) if self.has_balances else None

    @carried.setter
    def carried(self, balances):
        self.has_balances, self.balances = int(balances is not None), (ctypes.c_uint16 * SEATS)(*fields(balances, self.seats))

    @property
    def own_weights(self):
        return list(self.weights) if self.has_weights else None

    @own_weights.setter
    def own_weights(self, weights):
        self.has_weights, self.weights = int(weights is not None), (ctypes.c_uint16 * CLASSES)(*fields(weights, CLASSES))

    def total(self, seat):
        return sum(self.sheet[seat][:self.windows])

    def can_get(self, group):
        """What a group of seats, counted from 1, can get: over the windows the lesser of the supply and the group's caps added together.
        A seat that is named twice counts once; one that the book does not have is a ValueError."""
        seats = set(group)
        for seat in seats:
            if seat not in range(1, self.seats + 1):
                raise ValueError(f'seat {seat!r} in a book of seats 1 to {self.seats}')
        return sum(min(self.supplies[window], sum(self.caps[seat - 1][window] for seat in seats)) for window in range(self.windows))


class ReadResult(ctypes.Structure):
    _fields_ = [('refusal', ctypes.c_uint32), ('offset', ctypes.c_size_t), ('book', Book)]


class WriteResult(ctypes.Structure):
    _fields_ = [('refusal', ctypes.c_uint32), ('offset', ctypes.c_size_t), ('length', ctypes.c_size_t)]


class MarkResult(ctypes.Structure):
    _fields_ = [('refusal', ctypes.c_uint32), ('offset', ctypes.c_size_t), ('mark', ctypes.c_uint32),
                ('window', ctypes.c_uint32), ('seat', ctypes.c_uint32), ('moves', ctypes.c_uint32)]


class BetterResult(ctypes.Structure):
    _fields_ = [('refusal', ctypes.c_uint32), ('offset', ctypes.c_size_t), ('file', ctypes.c_uint32),
                ('start', ctypes.c_size_t), ('length', ctypes.c_size_t)]


class FulfilResult(ctypes.Structure):
    _fields_ = [('refusal', ctypes.c_uint32), ('offset', ctypes.c_size_t), ('length', ctypes.c_size_t), ('group', ctypes.c_uint32)]


class ForecastResult(ctypes.Structure):
    _fields_ = [('refusal', ctypes.c_uint32), ('offset', ctypes.c_size_t), ('length', ctypes.c_size_t),
                ('placed', ctypes.c_uint32 * WINDOWS)]


def declare(path):
    """The library at a path, with the types of its calls."""
    library = ctypes.CDLL(path)
    given = [ctypes.c_char_p, ctypes.c_size_t]
    lent = [ctypes.POINTER(ctypes.c_uint8), ctypes.c_size_t]
    for name, arguments, result in (
            ('credits_read', given, ReadResult), ('credits_write', [Book] + lent, WriteResult),
            ('credits_mark', given + lent, MarkResult), ('credits_plan', given + lent, WriteResult),
            ('credits_listing', given + lent, WriteResult), ('credits_better', given + given, BetterResult),
            ('credits_fulfil', given + given + lent, FulfilResult), ('credits_forecast', given, ForecastResult)):
        call = getattr(library, name)
        call.argtypes, call.restype = arguments, result
    return library


HERE = os.path.dirname(os.path.abspath(__file__))
LIBRARY = declare(os.environ.get('LIBCREDITS', os.path.join(HERE, '../../out/staticlib/libcredits.so')))


class Refused(Exception):
    """A refusal: its number and its offset. One by `better` has a file too: 1 or 2, or 0 where it is of both."""

    def __init__(self, number, offset, file=None):
        super().__init__(f'refused {number} at {offset}' + (f' in file {file}' if file else ''))
        self.number, self.offset, self.file = number, offset, file


class Move(NamedTuple):
    """One credit in a window, from a giver to a taker; all count from 1."""
    window: int
    giver: int
    taker: int


class Mark(NamedTuple):
    """Window and seat are those of mark 1, the moves those of marks 2 and 3."""
    mark: int
    window: int
    seat: int
    moves: list


class Better(NamedTuple):
    """The file that is chosen, 1 or 2, and its sheet body: not a copy, but a view of that part of the file."""
    file: int
    body: memoryview


class Fulfilled(NamedTuple):
    """A lawful sheet with just the wanted totals, as a list of cells for each seat; or a group of seats, counted from 1, that wants more
    than it can get. The other is None."""
    sheet: list
    group: list


class Forecast(NamedTuple):
    """What a plan will take: the length of the planned file, and for each of 24 windows the credits that it will have placed, which are 0
    for windows that the book does not have."""
    length: int
    placed: list


def buffer(length):
    return (ctypes.c_uint8 * length)()


def accepted(result):
    if result.refusal != 0:
        raise Refused(result.refusal, result.offset, getattr(result, 'file', None))
    return result


def read(file):
    """The book of a day file, and its sheet if it has one."""
    return accepted(LIBRARY.credits_read(file, len(file))).book


def write(book):
    """The day file of a book."""
    out = buffer(FILE_MAX)
    return bytes(out[:accepted(LIBRARY.credits_write(book, out, FILE_MAX)).length])


def mark(file):
    """The mark of the sheet in a day file."""
    out = buffer(MOVES_MAX)
    m = accepted(LIBRARY.credits_mark(file, len(file), out, MOVES_MAX))
    return Mark(m.mark, m.window, m.seat, [Move(*out[3 * i:3 * i + 3]) for i in range(m.moves)])


def plan(file):
    """The same day file with the standard sheet: of all settled ones the highest, read seat by seat and window by window. A book with an
    idle seat, whose caps are all zero, is refused by number 22."""
    out = buffer(FILE_MAX)
    return bytes(out[:accepted(LIBRARY.credits_plan(file, len(file), out, FILE_MAX)).length])


def listing(file):
    """A day file and its mark as text; for a file that cannot be marked, the line `refused N at P`."""
    out = buffer(LISTING_MAX)
    return bytes(out[:accepted(LIBRARY.credits_listing(file, len(file), out, LISTING_MAX)).length]).decode()


def better(first, second):
    """Of two day files of one book the one whose sheet has the higher list, and on equal lists the first."""
    b = accepted(LIBRARY.credits_better(first, len(first), second, len(second)))
    return Better(b.file, memoryview((first, second)[b.file - 1])[b.start:b.start + b.length])


def want_bytes(want):
    """A wanted total as four bytes, low byte first: a TypeError if it is no whole number, a ValueError if four bytes cannot hold it."""
    try:
        number = operator.index(want)
    except TypeError:
        raise TypeError(f'{want!r} as a wanted total: not a whole number') from None
    if not 0 <= number < 1 << 32:
        raise ValueError(f'{number} in four bytes')
    return number.to_bytes(4, 'little')


def wanted_row(wanted):
    """Wanted totals, in a list or whatever gives one after the other, as bytes, four for each, low byte first."""
    return b''.join([want_bytes(want) for want in wanted])


def fulfil(file, wanted):
    """A sheet of a day file's book with just the wanted totals, one for each seat; or, where there is none, a group that wants too much."""
    row, out = wanted_row(wanted), buffer(SHEET_MAX)
    f = accepted(LIBRARY.credits_fulfil(file, len(file), row, len(row), out, SHEET_MAX))
    if f.group:
        return Fulfilled(None, [seat + 1 for seat in range(SEATS) if f.group >> seat & 1])
    cells = [low + 256 * high for low, high in zip(out[:f.length:2], out[1:f.length:2])]
    seats = len(row) // 4
    windows = len(cells) // seats
    return Fulfilled([cells[windows * seat:][:windows] for seat in range(seats)], None)


def forecast(file):
    """What a plan of a day file will take, told from the file alone. Cells of a sheet that it holds are neither used nor checked. What is
    not planned for an idle seat is refused here too."""
    f = accepted(LIBRARY.credits_forecast(file, len(file)))
    return Forecast(f.length, list(f.placed))
