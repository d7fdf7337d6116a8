"""Plans, marks, reads, writes, lists and compares the day files of a folder (examples/ of this repository), fulfils wanted totals,
forecasts plans, tries books with idle seats, and checks all that it sees.

    python3 callers/python/example.py [FOLDER]
"""
import pathlib
import sys

import credits

FOLDER = pathlib.Path(sys.argv[1] if len(sys.argv) > 1 else pathlib.Path(__file__).resolve().parents[2] / 'examples')
# the calls with the same checks of a file, but for its sheet and idle seats
CHECKED = (credits.read, credits.plan, credits.forecast, credits.mark)


def refusal(call, *arguments):
    """The number and the offset of the refusal that a call must answer, and the file if there are two."""
    try:
        call(*arguments)
    except credits.Refused as r:
        return (r.number, r.offset) if r.file is None else (r.number, r.offset, r.file)
    raise AssertionError('not refused')


def error(call, *arguments):
    """The name and the words of the error that the wrapper itself must answer."""
    try:
        call(*arguments)
    except (TypeError, ValueError) as e:
        return type(e).__name__, str(e)
    raise AssertionError('no error')


def try_example(day):
    file = day.read_bytes()
    book = credits.read(file)
    assert credits.write(book) == file
    plan = credits.plan(file)
    fair = credits.read(plan)
    assert (fair.first_seat, fair.carried, fair.own_weights) == (book.first_seat, book.carried, book.own_weights)
    assert credits.mark(plan) == (credits.SETTLED, 0, 0, [])
    assert credits.listing(file) == day.with_suffix('.listing').read_text()
    assert credits.listing(plan) == day.with_suffix('.planned.listing').read_text()
    print(f'{day.stem:14} {book.seats:2} seats, {book.windows:2} windows: planned, {len(plan):4} bytes, mark 4')


def try_chain():
    """A spoilt sheet: its chains, played until the sheet is settled."""
    file = (FOLDER / 'k08.day').read_bytes()
    book, marks = credits.read(file), []
    while True:
        m = credits.mark(credits.write(book))
        marks.append(m.mark)
        print(f'k08 mark {m.mark}, {len(m.moves)} moves')
        if m.mark not in (credits.IMPROVABLE, credits.TIED):
            break
        for window, giver, taker in m.moves:
            print(f'  window {window} from {giver} to {taker}')
            assert book.sheet[giver - 1][window - 1] > 0
            assert book.sheet[taker - 1][window - 1] < book.caps[taker - 1][window - 1]
            book.sheet[giver - 1][window - 1] -= 1
            book.sheet[taker - 1][window - 1] += 1
    assert marks == [credits.IMPROVABLE, credits.TIED, credits.SETTLED]
    assert credits.mark(file).moves == [(1, 2, 1), (2, 3, 2)]
    fair = credits.read(credits.plan(file))
    totals = [book.total(i) for i in range(book.seats)]
    assert totals == [1, 2, 1] == [fair.total(i) for i in range(fair.seats)]
    print('k08 settled: totals', *totals, 'as planned')


def try_standard():
    """Of all settled sheets the planned one is the highest, read seat by seat and window by window. The others are settled too."""
    file = (FOLDER / 'standard.day').read_bytes()
    plan = credits.plan(file)
    book = credits.read(plan)
    assert [list(row[:3]) for row in book.sheet[:3]] == [[1, 2, 0], [2, 0, 1], [1, 0, 2]]
    by_windows, from_the_last_seat, lowest = '111 300 012', '102 201 120', '012 300 111'
    for other in (by_windows, from_the_last_seat, lowest):
        for row, cells in zip(book.sheet, other.split()):
            row[:3] = [int(cell) for cell in cells]
        assert credits.mark(credits.write(book)).mark == credits.SETTLED
        assert credits.plan(credits.write(book)) == plan
    print('standard planned: 1 2 0 / 2 0 1 / 1 0 2, and so with each of three other settled sheets')


def try_better():
    """Of a spoilt sheet and the planned one the planned is chosen; on equal lists the first."""
    k04, k08, k11, k12 = ((FOLDER / f'{name}.day').read_bytes() for name in ('k04', 'k08', 'k11', 'k12'))
    fair = credits.plan(k08)
    for first, second, chosen in ((k08, fair, 2), (fair, k08, 1), (k08, k08, 1), (k04, credits.plan(k04), 1), (credits.plan(k04), k04, 1)):
        file, body = credits.better(first, second)
        assert file == chosen and body.obj is (first, second)[file - 1]
        book = credits.read(body.obj)
        cells = [cell for row in book.sheet[:book.seats] for cell in row[:book.windows]]
        assert cells == [low + 256 * high for low, high in zip(body[::2], body[1::2])]
    print('k08 and its plan, in either order: the plan; k04 and its plan: the first')
    for first, second, refused in ((k11, b'', (13, 0, 1)), (k08, b'', (1, 0, 2)), (k08, k11, (13, 0, 2)), (k08, k12, (17, 0, 0))):
        assert refusal(credits.better, first, second) == refused
    print('pairs refused: the first file, the second, and another book')


def try_first_seats():
    """K3's book with either seat first: the odd credit goes to it. Then first seats that are not in the book."""
    book = credits.read((FOLDER / 'k03.day').read_bytes())
    assert book.first_seat is None
    plans = {}
    for first, expected in ((None, [2, 1]), (1, [2, 1]), (2, [1, 2])):
        book.first_seat = first
        plans[first] = credits.plan(credits.write(book))
        fair = credits.read(plans[first])
        totals = [fair.total(i) for i in range(fair.seats)]
        assert fair.first_seat == first and totals == expected
        print(f'k03 with seat {first or "1 (not named)"} first: totals', *totals)
    assert plans[2] == credits.plan((FOLDER / 'first-k03.day').read_bytes())
    file, body = credits.better(plans[2], plans[None])
    assert file == 1 and bytes(body) == plans[2][-6:-2]
    for first in (0, 3, 65535):
        book.first_seat = first
        assert refusal(credits.write, book) == (18, 36)
        for call in CHECKED:
            assert refusal(call, plans[2][:-2] + first.to_bytes(2, 'little')) == (18, 46)
    print('first seats that are not in the book: refused')


def try_balances():
    """K5's book with balances: who received much gets less. Then balances that are too high, and other books by their balances."""
    k05 = (FOLDER / 'k05.day').read_bytes()
    book = credits.read(k05)
    assert book.carried is None
    plans = {}
    for balances, expected in ((None, [2, 2]), ((0, 0), [2, 2]), ((0, 4), [3, 1]), ((50000, 0), [0, 4])):
        book.carried = balances
        plans[balances] = credits.plan(credits.write(book))
        fair = credits.read(plans[balances])
        totals = [fair.total(i) for i in range(fair.seats)]
        assert fair.carried == (None if balances is None else list(balances)) and totals == expected
        print('k05', f'with balances {balances}:' if balances else 'without balances:', 'totals', *totals)
    assert plans[0, 4] == credits.plan((FOLDER / 'balances-k05.day').read_bytes())
    assert credits.better(plans[None], plans[0, 0]).file == credits.better(plans[0, 0], plans[None]).file == 1
    for first, second in ((None, (0, 4)), ((0, 4), (0, 0)), ((0, 4), (50000, 0))):
        assert refusal(credits.better, plans[first], plans[second]) == (17, 0, 0)
    print('k05 without balances and with zeros: one book; with others: other books')
    for balance in (50001, 65535):
        book.carried = [50000, balance]
        assert refusal(credits.write, book) == (19, 38)
        for call in CHECKED:
            assert refusal(call, plans[0, 4][:-2] + balance.to_bytes(2, 'little')) == (19, 48)
    print('balances that are too high: refused')


def try_weights():
    """K5's book with weights of its own: who weighs more gets more. Then weights that do not rise, and other books by their weights."""
    book = credits.read((FOLDER / 'k05.day').read_bytes())
    assert book.own_weights is None
    built_in, one_to_three, highest = (1, 2, 3, 5, 8, 12, 20, 40), (1, 3, 6, 10, 20, 50, 300, 1000), tuple(range(993, 1001))
    plans = {}
    for weights, expected in ((None, [2, 2]), (built_in, [2, 2]), (one_to_three, [1, 3]), (highest, [2, 2])):
        book.own_weights = weights
        plans[weights] = credits.plan(credits.write(book))
        fair = credits.read(plans[weights])
        totals = [fair.total(i) for i in range(fair.seats)]
        assert fair.own_weights == (None if weights is None else list(weights)) and totals == expected
        print('k05', f'with weights {weights}:' if weights else 'without weights:', 'totals', *totals)
    assert plans[one_to_three] == credits.plan((FOLDER / 'weights-k05.day').read_bytes())
    assert credits.better(plans[None], plans[built_in]).file == credits.better(plans[built_in], plans[None]).file == 1
    for first, second in ((None, highest), (highest, built_in), (one_to_three, highest)):
        assert refusal(credits.better, plans[first], plans[second]) == (17, 0, 0)
    print('k05 without weights and with the built-in ones: one book; with others: other books')
    for place, weight in ((0, 0), (1, 1), (1, 1001), (7, 300), (7, 65535)):
        book.own_weights = one_to_three[:place] + (weight,) + one_to_three[place + 1:]
        assert refusal(credits.write, book) == (20, 36 + 2 * place)
        body = b''.join(number.to_bytes(2, 'little') for number in book.own_weights)
        for call in CHECKED:
            assert refusal(call, plans[one_to_three][:-16] + body) == (20, 46 + 2 * place)
    print('weights out of bounds or not rising: refused')


def with_sheet(book, sheet):
    """The day file of the book with that sheet."""
    book.has_sheet = 1
    for row, cells in zip(book.sheet, sheet):
        row[:len(cells)] = cells
    return credits.write(book)


def check_group(book, wants, group):
    assert group and all(1 <= seat <= book.seats for seat in group)
    assert sum(wants[seat - 1] for seat in group) > book.can_get(group)


def try_planned_totals(day):
    """A lawful sheet with the plan's totals is settled, as the plan is. With a credit more for any one seat there is no such sheet."""
    file = day.read_bytes()
    fair = credits.read(credits.plan(file))
    totals = [fair.total(i) for i in range(fair.seats)]
    sheet, group = credits.fulfil(file, totals)
    assert group is None and [sum(row) for row in sheet] == totals
    assert credits.mark(with_sheet(credits.read(file), sheet)).mark == credits.SETTLED
    for seat in range(fair.seats):
        wants = totals[:seat] + [totals[seat] + 1] + totals[seat + 1:]
        sheet, group = credits.fulfil(file, wants)
        assert sheet is None
        check_group(fair, wants, group)


def try_wanted():
    """Wanted totals of which each row has one reply only; then huge ones, and rows and buffers that are refused."""
    file = (FOLDER / 'k08.day').read_bytes()
    for wants, sheet, group in (([1, 2, 1], [[1, 0], [0, 2], [0, 1]], None), ([0, 3, 1], [[0, 0], [1, 2], [0, 1]], None),
                                ([2, 0, 0], None, [1]), ([1, 3, 0], None, [1, 2]), ([1, 1, 3], None, [1, 2, 3])):
        assert credits.fulfil(file, wants) == (sheet, group)
        print('k08 with', *wants, 'wanted:', f'the sheet {sheet}' if sheet else f'the group {group}')
    # the same supplies and caps, and all else different
    for day in (FOLDER / 'wanted-four.day', FOLDER / 'wanted-same.day'):
        assert credits.fulfil(day.read_bytes(), [5, 5, 3, 4]) == ([[3, 2, 0], [3, 0, 2], [0, 2, 1], [0, 0, 4]], None)
        assert credits.fulfil(day.read_bytes(), [5, 5, 4, 4]) == (None, [1, 2, 3])
    for wants in ([2 ** 32 - 1, 0, 0], [2 ** 31, 2 ** 31, 0]):
        check_group(credits.read(file), wants, credits.fulfil(file, wants).group)
    for wants in ([], [1, 2], [1, 2, 1, 0], [0] * 32):
        assert refusal(credits.fulfil, file, wants) == (21, 0)
        assert refusal(credits.fulfil, file[:-1], wants) == (6, 59)
    for wants in ([1, 2, 1], [9, 9, 9]):
        row, out = credits.wanted_row(wants), credits.buffer(11)
        out[:] = [0xee] * 11
        f = credits.LIBRARY.credits_fulfil(file, len(file), row, len(row), out, len(out))
        assert (f.refusal, f.offset, f.length, f.group) == (16, 12, 0, 0) and bytes(out) == b'\xee' * 11
    f = credits.LIBRARY.credits_fulfil(file, len(file), None, 0, None, 0)
    assert (f.refusal, f.offset, f.length, f.group) == (21, 0, 0, 0)
    print('wanted totals for other numbers of seats, and short buffers: refused')


def try_any_wants():
    """Wants from a generator; wants that no row can hold; groups with a seat twice, and with seats that the book does not have."""
    file = (FOLDER / 'k08.day').read_bytes()
    assert credits.fulfil(file, (want for want in (1, 2, 1))) == ([[1, 0], [0, 2], [0, 1]], None)
    assert credits.fulfil(file, (want for want in (1, 3, 0))) == (None, [1, 2])
    assert credits.wanted_row(want for want in (258, 2 ** 32 - 1)) == bytes([2, 1, 0, 0, 255, 255, 255, 255])
    for want in (1.0, 1.5, '1', None):
        assert error(credits.fulfil, file, [1, want, 1]) == ('TypeError', f'{want!r} as a wanted total: not a whole number')
    for want in (-1, 2 ** 32):
        assert error(credits.fulfil, file, [1, want, 1]) == ('ValueError', f'{want} in four bytes')
    book = credits.read(file)
    assert [book.can_get(group) for group in ([], [1], [2], [2, 2], (1, 2, 1, 2), iter([3, 1]))] == [0, 1, 3, 3, 3, 4]
    for seat in (0, -1, 4, 33, '1'):
        assert error(book.can_get, [1, seat]) == ('ValueError', f'seat {seat!r} in a book of seats 1 to 3')
    print('wants that are no whole numbers or too great for four bytes, and groups with seats of no book: errors')


def placed(book):
    """What the sheet places in each of 24 windows."""
    return [sum(row[window] for row in book.sheet) for window in range(credits.WINDOWS)]


def try_forecast(day):
    """Reserve, then plan: a buffer of just that length takes the plan, which places just those credits. One byte less is too short."""
    file = day.read_bytes()
    told = credits.forecast(file)
    out = credits.buffer(told.length)
    out[:] = [0xee] * told.length
    short = credits.LIBRARY.credits_plan(file, len(file), out, told.length - 1)
    assert (short.refusal, short.offset, short.length) == (16, told.length, 0) and bytes(out) == b'\xee' * told.length
    plan = credits.LIBRARY.credits_plan(file, len(file), out, told.length)
    assert (plan.refusal, plan.length) == (0, told.length)
    assert placed(credits.read(bytes(out))) == told.placed
    assert credits.forecast(bytes(out)) == told


def try_forecasts():
    """Forecasts by hand: two bytes, six for each entry, and the bodies; and of each window the lesser of the supply and the caps."""
    for name, length, sums in (('k01', 50, [4, 4]), ('k08', 60, [1, 3]), ('k09', 34, [0]), ('k11', 34, [2]), ('k12', 60, [1, 2]),
                               ('first-k03', 48, [3]), ('balances-k05', 50, [4]), ('weights-k05', 62, [4])):
        told = credits.forecast((FOLDER / f'{name}.day').read_bytes())
        assert told == (length, sums + [0] * (credits.WINDOWS - len(sums)))
        print(f'{name} forecast: {length} bytes, credits placed', *sums)
    assert credits.forecast((FOLDER / 'full-weights.day').read_bytes()).length == credits.FILE_MAX
    k08 = (FOLDER / 'k08.day').read_bytes()
    book = credits.read(k08)
    assert credits.forecast(with_sheet(book, [[65535, 65535]] * 3)) == credits.forecast(k08)
    book.has_sheet = 0
    assert credits.forecast(credits.write(book)) == credits.forecast(k08)
    print('k08 without a sheet and with one that is not lawful: forecast as before')
    f = credits.LIBRARY.credits_forecast(None, 0)
    assert (f.refusal, f.offset, f.length, list(f.placed)) == (1, 0, 0, [0] * credits.WINDOWS)


def try_idle_example(day):
    """A book with an idle seat: the line in place of a plan, the same refusal for the forecast, and all else as for other books."""
    file = day.read_bytes()
    assert credits.write(credits.read(file)) == file
    assert credits.listing(file) == day.with_suffix('.listing').read_text()
    number, offset = refusal(credits.plan, file)
    assert f'refused {number} at {offset}\n' == day.with_suffix('.planned.listing').read_text()
    assert refusal(credits.forecast, file) == (number, offset) == (22, 30)
    print(f'{day.stem:14} refused {number} at {offset} by plan and forecast, and listed')


def try_idle_files():
    """The same two files, of one book: marked, compared and fulfilled. A refusal leaves the buffer as it was, and no figure but 0."""
    spoilt, fair = ((FOLDER / f'{name}.day').read_bytes() for name in ('idle-four', 'idle-fair'))
    assert credits.mark(spoilt) == (credits.IMPROVABLE, 0, 0, [(1, 2, 1), (2, 4, 2)])
    assert credits.mark(fair) == (credits.SETTLED, 0, 0, [])
    assert credits.better(spoilt, fair) == (2, fair[-16:]) and credits.better(fair, spoilt) == (1, fair[-16:])
    assert credits.fulfil(spoilt, [1, 2, 0, 1]) == ([[1, 0], [0, 2], [0, 0], [0, 1]], None)
    assert credits.fulfil(spoilt, [0, 0, 1, 0]) == (None, [3])
    for length in (0, 69, 70, credits.FILE_MAX):
        out = credits.buffer(length)
        out[:] = [0xee] * length
        p = credits.LIBRARY.credits_plan(spoilt, len(spoilt), out, length)
        assert (p.refusal, p.offset, p.length) == (22, 30, 0) and bytes(out) == b'\xee' * length
    f = credits.LIBRARY.credits_forecast(spoilt, len(spoilt))
    assert (f.refusal, f.offset, f.length, list(f.placed)) == (22, 30, 0, [0] * credits.WINDOWS)
    print('idle-four and idle-fair: marked, compared and fulfilled')


def try_idle_seats():
    """K8's book with idle seats, of which the lowest counts: its class lies behind 3 to 7 entries. With one cap of 1 it is planned."""
    for parts in range(16):
        book = credits.read((FOLDER / 'k08.day').read_bytes())
        book.has_sheet = parts & 1
        book.first_seat = 3 if parts & 2 else None
        book.carried = [7, 0, 7] if parts & 4 else None
        book.own_weights = range(1, 9) if parts & 8 else None
        classes = 2 + 6 * (3 + bin(parts).count('1'))
        for seat in (2, 1, 0):
            book.caps[seat] = credits.Row()
            assert refusal(credits.plan, credits.write(book)) == (22, classes + 2 * seat)
            assert refusal(credits.forecast, credits.write(book)) == (22, classes + 2 * seat)
        book.caps[0][0] = book.caps[1][1] = 1
        assert refusal(credits.plan, credits.write(book)) == (22, classes + 4)
        book.caps[2][1] = 1
        plan = credits.plan(credits.write(book))
        assert [credits.read(plan).total(seat) for seat in range(3)] == [1, 1, 1]
        assert credits.forecast(credits.write(book)) == (len(plan), [1, 2] + [0] * 22)
    print('idle seats: refused by the lowest, at its class; with one cap of 1 for each planned')


def try_refusals():
    k11 = (FOLDER / 'k11.day').read_bytes()
    for file, number, offset in ((b'', 1, 0), (k11[:-1], 6, 25), (k11 + b'\0', 6, 27)):
        for call in CHECKED:
            assert refusal(call, file) == (number, offset)
        assert credits.listing(file) == f'refused {number} at {offset}\n'
        print(f'{len(file)} bytes: refused {number} at {offset}')
    assert refusal(credits.mark, k11) == (13, 0)
    k08 = (FOLDER / 'k08.day').read_bytes()
    moves = credits.buffer(credits.MOVES_MAX - 1)
    moves[:] = [0xee] * len(moves)
    m = credits.LIBRARY.credits_mark(k08, len(k08), moves, len(moves))
    assert (m.refusal, m.offset, m.mark, m.moves) == (16, credits.MOVES_MAX, 0, 0)
    assert bytes(moves) == b'\xee' * len(moves)
    print('a buffer one byte too short: refused, untouched')


def is_planned(day):
    """Whether an example is planned: else the line of the refusal stands in place of the plan's listing."""
    return not day.with_suffix('.planned.listing').read_text().startswith('refused ')


days = [day for day in sorted(FOLDER.glob('*.day')) if is_planned(day)]
idle_days = [day for day in sorted(FOLDER.glob('*.day')) if not is_planned(day)]
assert days and [day.stem for day in idle_days] == ['idle-fair', 'idle-four']
for d in days:
    try_example(d)
try_chain()
try_standard()
try_better()
try_first_seats()
try_balances()
try_weights()
for d in days:
    try_planned_totals(d)
print('planned totals of', len(days), 'examples: a sheet each; one credit more: a group')
try_wanted()
try_any_wants()
for d in days:
    try_forecast(d)
print('forecasts of', len(days), 'examples: what their plans then take')
try_forecasts()
for d in idle_days:
    try_idle_example(d)
try_idle_files()
try_idle_seats()
try_refusals()
print('Python: all checks passed')
