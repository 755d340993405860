#!/usr/bin/env python3
"""A model of the program, written from docs/ and apart from it: the answers that a job's calls should have.

Everything is worked out in exact whole numbers and fractions. tools/cases.py takes its answers from here;
tools/check_model.py holds the fitting to a trial of all lists. As a command it answers a job as the program does,
with the beginnings of the answers: tools/model.py [JOB]
"""
import re
import sys
from fractions import Fraction
from math import lcm

SPEEDS = {0: [(100, 80), (80, 65), (50, 40), (40, 30)], 1: [(80, 65), (65, 50), (40, 30), (30, 20)],
          2: [(65, 50), (50, 40), (30, 25), (25, 20)], 3: [(50, 40), (40, 35), (25, 20), (25, 20)]}
#        km/h: stopping, overtaking, free change, least length
ASKED = {20: (20, None, 15, 15), 25: (25, None, 15, 15), 30: (30, None, 15, 15), 35: (45, None, 15, 15), 40: (45, 165, 12, 20),
         50: (60, 235, 10, 30), 65: (90, 340, 8, 40), 80: (120, 470, 6, 50), 100: (180, 640, 5, 60)}
ONE_IN = [30, 20, 15]
PER_THOUSAND = {2: [50, 60, 70], 3: [60, 70, 80]}
MOST = 4294967295
LENGTHS = range(0, 2001, 5)
WHOLE = lcm(*LENGTHS[1:])  # every length but 0 divides it


# Codes: two verdicts, on a grade (rise, run) and on a curve (W, B, length)

def clause(kmh, sight, w, b, length):
    """The Indian standard's clause of a curve with W = w and B = b, or 0."""
    stopping, overtaking, free, least = ASKED[kmh]
    if abs(w) <= free * b:
        return 0
    if length < least:
        return 2
    if w < 0:
        s, q, c = [(stopping, 4400, 3), (2 * stopping, 9600, 4), (overtaking, 9600, 5)][sight]
    else:
        s, q, c = stopping, 1500 + 35 * stopping, 6
    fine = length * q * b >= abs(w) * s * s if length >= s else (2 * s - length) * abs(w) <= q * b
    return 0 if fine else c


class Irc:
    def __init__(self, cls, terrain, speed, gradient, sight):
        self.terrain, self.gradient, self.sight = terrain, gradient, sight
        self.kmh = SPEEDS[cls][terrain][speed]

    def grade(self, rise, run):
        if self.terrain < 2:
            return 0 if abs(rise) * ONE_IN[self.gradient] <= 1000 * run else 1
        return 0 if abs(rise) <= PER_THOUSAND[self.terrain][self.gradient] * run else 1

    def curve(self, w, b, length):
        return clause(self.kmh, self.sight, w, b, length)


def irc_refusal(figures):
    """The refusal of the five road figures, or None."""
    if any(f > most for f, most in zip(figures, (3, 3, 1, 2, 2))):
        return 6
    return 7 if figures[4] == 2 and SPEEDS[figures[0]][figures[1]][figures[2]] < 40 else None


class Table:
    def __init__(self, rows, bound, c):
        self.rows, self.bound, self.c = rows, bound, c

    def grade(self, rise, run):
        return self.c if abs(rise) > self.bound * run else 0

    def curve(self, w, b, length):
        for kind, change, least, c in self.rows:
            if kind == (0 if w < 0 else 1) and abs(w) <= change * b:
                return c if length < least else 0
        return 255


def table_fine(rows, bound, c):
    fine = 1 <= len(rows) <= 64 and bound <= 2000 and 1 <= c <= 254
    fine = fine and all(k <= 1 and change <= 2000 and least <= 2000 and 1 <= c <= 254 for k, change, least, c in rows)
    for kind in (0, 1):
        bounds = [row[1] for row in rows if row[0] == kind]
        fine = fine and all(a < b for a, b in zip(bounds, bounds[1:]))
    return fine


class Stricter:
    def __init__(self, first, second):
        self.first, self.second = first, second

    def grade(self, *figures):
        return self.first.grade(*figures) or self.second.grade(*figures)

    def curve(self, *figures):
        return self.first.curve(*figures) or self.second.curve(*figures)


# Numbers in groups of seven bits, and books

def number(n):
    """A number in groups of seven bits, lowest first."""
    groups = []
    while n >= 128:
        groups.append(128 + n % 128)
        n //= 128
    return bytes(groups + [n])


class Fault(Exception):
    pass


def take(book, at):
    """The number at a place and the place after it, or the fault of the number's layer."""
    value, k = 0, 0
    while True:
        if at + k >= len(book):
            raise Fault(11, at, 'number')
        value += (book[at + k] % 128) << (7 * k)
        if book[at + k] < 128:
            break
        k += 1
        if k == 5:
            raise Fault(11, at, 'number')
    if (k and book[at + k] == 0) or value > MOST:
        raise Fault(11, at, 'number')
    return value, at + k + 1


def parse(book):
    """The pegs and the fixed levels of a book, each as number: (sequence number, figures or None); or the first fault."""
    def entry(at, most, low, figures):
        n, end = take(book, at)
        if n > most:
            raise Fault(1, at, 'entry')
        if n < low:
            raise Fault(12, at, 'entry')
        at = end
        sequence, end = take(book, at)
        if sequence == 0:
            raise Fault(2, at, 'entry')
        at = end
        mark, end = take(book, at)
        if mark > 1:
            raise Fault(12, at, 'entry')
        last, held = 0, []
        for k in range(figures if mark else 0):
            at = end
            y, end = take(book, at)
            if y > (9_000_000 if k else 10_000):
                raise Fault(4 if k else 3, at, 'entry')
            if k == 2 and y < last:
                raise Fault(5, at, 'entry')
            last = y
            held.append(y)
        return n, sequence, tuple(held) or None, end

    form, at = take(book, 0)
    if form != 1:
        raise Fault(12, 0, 'book')
    tables = []
    for most, figures in ((39, 2), (15, 3)):
        count, end = take(book, at)
        if count > most + 1:
            raise Fault(12, at, 'book')
        at, low, slots = end, 0, {}
        for _ in range(count):
            n, sequence, held, at = entry(at, most, low, figures)
            slots[n] = (sequence, held)
            low = n + 1
        tables.append(slots)
    if at < len(book):
        raise Fault(12, at, 'book')
    return tables


def read(book):
    """The first fault of a book, or None."""
    try:
        parse(book)
    except Fault as fault:
        return fault.args
    return None


# Roads: pegs in force in order, with the fixed levels in force

class Refused(Exception):
    pass


class Road:
    """Pegs in force as (number, station, level) and fixed levels in force as (number, station, low, high), in number order."""

    def __init__(self, pegs, fixed):
        self.pegs, self.fixed = pegs, fixed
        self.stations, self.levels = [p[1] for p in pegs], [p[2] for p in pegs]
        self.last = len(pegs) - 1

    def ready(self):
        """Refusals 22, 23 and 24."""
        if len(self.pegs) < 2:
            raise Refused(22)
        if any(b - a < 10 for a, b in zip(self.stations, self.stations[1:])):
            raise Refused(23)
        if any(not self.stations[0] <= f[1] <= self.stations[-1] for f in self.fixed):
            raise Refused(24)

    def grade(self, i):
        """The rise and run from peg i to the next."""
        return self.levels[i + 1] - self.levels[i], self.stations[i + 1] - self.stations[i]

    def turn(self, i):
        """W and B of peg i; none at the ends."""
        if i in (0, self.last):
            return None
        (rise_in, run_in), (rise_out, run_out) = self.grade(i - 1), self.grade(i)
        return rise_out * run_in - rise_in * run_out, run_in * run_out

    def stretch(self, station):
        """The last stretch that starts at or before a station on the road."""
        return max(i for i in range(self.last) if self.stations[i] <= station)

    def level(self, lengths, station):
        """The exact level at a station on the road."""
        i = self.stretch(station)
        rise, run = self.grade(i)
        y = self.levels[i] + Fraction(rise * (station - self.stations[i]), run)
        for k in (i, i + 1):
            d = abs(station - self.stations[k])
            if 2 * d < lengths[k] and self.turn(k):
                w, b = self.turn(k)
                y += Fraction(w * (lengths[k] - 2 * d) ** 2, 8 * lengths[k] * b)
        return y

    def examine(self, code, lengths):
        """Refusals 9, and 33, 27, 34, 35 along the road."""
        if (len(lengths) != len(self.pegs) or any(l % 5 or l > 2000 for l in lengths) or lengths[0] or lengths[-1]):
            raise Refused(9)
        for i, (name, station, _) in enumerate(self.pegs):
            if self.turn(i):
                c = code.curve(*self.turn(i), lengths[i])
                if c:
                    raise Refused(33, f'peg {name} clause {c}')
            if i == self.last:
                break
            c = code.grade(*self.grade(i))
            if c:
                raise Refused(27, f'peg {name} clause {c}')
            if lengths[i] + lengths[i + 1] > 2 * self.grade(i)[1]:
                raise Refused(34, f'peg {name}')
            for f, at, low, high in self.fixed:
                if self.stretch(at) == i and not low <= self.level(lengths, at) <= high:
                    raise Refused(35, f'fixed {f}')

    def curves(self, code, i):
        """The lengths that the code passes at peg i; 0 alone at the ends."""
        return [l for l in LENGTHS if code.curve(*self.turn(i), l) == 0] if self.turn(i) else [0]

    def pull(self, k, station, length, whole):
        """The curve's part of the level at a station, times a whole number that its fraction's bottom divides."""
        twice = 2 * abs(station - self.stations[k])
        if twice >= length or not self.turn(k):
            return 0
        w, b = self.turn(k)
        return w * (length - twice) ** 2 * (whole // (8 * length * b))

    def agree(self, i):
        """Whether lengths at peg i and the next keep the rules of the stretch between them: a function of both."""
        rise, run = self.grade(i)
        bounds = []
        for _, at, low, high in self.fixed:
            if self.stretch(at) != i:
                continue
            whole = 8 * WHOLE * run
            for k in (i, i + 1):
                whole *= self.turn(k)[1] if self.turn(k) else 1
            line = self.levels[i] * whole + rise * (at - self.stations[i]) * (whole // run)
            ends = [{l: self.pull(k, at, l, whole) for l in LENGTHS} for k in (i, i + 1)]
            bounds.append((*ends, low * whole - line, high * whole - line))
        return lambda a, b: a + b <= 2 * run and all(low <= u[a] + v[b] <= high for u, v, low, high in bounds)

    def fit(self, code):
        """The lengths with the least total, the first of equals; refusals 27, 28 and 29.

        From the last peg back: for each length of a peg the best list from there on, as (total, list). Python
        compares those by total first and then by the first difference, which is the order asked for.
        """
        names = [p[0] for p in self.pegs]
        for i in range(self.last):
            c = code.grade(*self.grade(i))
            if c:
                raise Refused(27, f'peg {names[i]} clause {c}')
        for i in range(1, self.last):
            if not self.curves(code, i):
                raise Refused(28, f'peg {names[i]} clause {code.curve(*self.turn(i), 2000)}')
        lists = [(0, (0,))]
        for i in reversed(range(self.last)):
            agree, longer = self.agree(i), []
            for l in self.curves(code, i):
                best = next((x for x in lists if agree(l, x[1][0])), None)
                if best:
                    longer.append((l + best[0], (l,) + best[1]))
            if not longer:
                raise Refused(29, f'peg {names[i]}')
            lists = sorted(longer)
        return lists[0]


# The desk: a profile, codes, a sheet, and the calls of a job

class Misread(Exception):
    pass


class Nothing(Exception):
    pass


class Desk:
    def __init__(self):
        self.begin_again()

    def begin_again(self):
        self.pegs, self.fixed = {}, {}
        self.fitted, self.fittings = None, 0
        self.codes, self.rows, self.used, self.sheet = {}, [], None, None

    def road(self):
        return Road([(n, *held) for n, (_, held) in sorted(self.pegs.items()) if held],
                    [(n, *held) for n, (_, held) in sorted(self.fixed.items()) if held])

    def code(self):
        if self.used is None:
            raise Misread
        codes = [self.codes[name] for name in self.used]
        return codes[0] if len(codes) == 1 else Stricter(*codes)

    def answer(self, line):
        """The beginning of the answer to a line; none to a line without words."""
        words = re.split(r'[ \t]+', line.split('#')[0].strip(' \t\r\n'))
        if words == ['']:
            return None
        call = getattr(self, 'call_' + words[0], None)
        try:
            if call is None:
                raise Misread
            return ' '.join(map(str, ('ok', *(call(*words[1:]) or ()))))
        except Refused as refusal:
            return ' '.join(map(str, ('refused', *refusal.args)))
        except Fault as fault:
            return 'refused {} byte {} layer {}'.format(*fault.args)
        except Nothing as nothing:
            return ' '.join(map(str, ('none', *nothing.args)))
        except Misread:
            return 'not understood'

    def call_new(self, *words):
        figures(words, 0)
        self.begin_again()

    # codes

    def call_irc(self, *words):
        road = figures(words, 5)
        if irc_refusal(road):
            raise Refused(irc_refusal(road))
        self.codes['irc'] = Irc(*road)

    def call_row(self, *words):
        self.rows.append(figures(words, 4))

    def call_table(self, *words):
        bound, c = figures(words, 2)
        rows, self.rows = self.rows, []
        if not table_fine(rows, bound, c):
            raise Refused(8)
        self.codes['table'] = Table(rows, bound, c)

    def call_use(self, *words):
        if words not in (('irc',), ('table',), ('irc', 'table'), ('table', 'irc')) or not all(w in self.codes for w in words):
            raise Misread
        self.used = words

    def call_grade(self, *words):
        points = figures(words, 4)
        code = self.code()
        return 'clause', code.grade(*drawn(points).grade(0))

    def call_curve(self, *words):
        *points, length = figures(words, 7)
        code = self.code()
        road = drawn(points)
        if length % 5 or length > 2000:
            raise Refused(9)
        return 'clause', code.curve(*road.turn(1), length)

    def call_shortest(self, *words):
        points = figures(words, 6)
        code = self.code()
        w, b = drawn(points).turn(1)
        for length in LENGTHS:
            if code.curve(w, b, length) == 0:
                return 'length', length
        raise Nothing('clause', code.curve(w, b, 2000))

    # edits

    def edit(self, slots, most, number, sequence, *held):
        last = slots.get(number, (0, None))[0]
        for refusal, applies in ((1, number > most), (2, sequence == 0), (3, held and held[0] > 10_000), (4, any(y > 9_000_000 for y in held[1:])),
                                 (5, len(held) == 3 and held[1] > held[2]), (20, sequence < last), (21, sequence == last)):
            if applies:
                raise Refused(refusal)
        slots[number] = (sequence, held or None)
        self.fitted = None

    def call_place(self, *words):
        self.edit(self.pegs, 39, *figures(words, 4))

    def call_lift(self, *words):
        self.edit(self.pegs, 39, *figures(words, 2))

    def call_fix(self, *words):
        self.edit(self.fixed, 15, *figures(words, 5))

    def call_clear(self, *words):
        self.edit(self.fixed, 15, *figures(words, 2))

    # books

    def call_book(self, *words):
        size = figures(words, 1)[0] if words else 795
        book = [1]
        for slots in (self.pegs, self.fixed):
            book.append(len(slots))
            for n, (sequence, held) in sorted(slots.items()):
                book += [n, sequence, 1 if held else 0, *(held or ())]
        book = b''.join(map(number, book))
        if size < len(book):
            raise Refused(10)
        return len(book), book.hex()

    def call_read(self, *words):
        if len(words) != 1 or not re.fullmatch('([0-9a-fA-F]{2})+', words[0]):
            raise Misread
        self.pegs, self.fixed = parse(bytes.fromhex(words[0]))
        self.fitted = None

    # fittings

    def call_fit(self, *words):
        store = figures(words, 1)[0] if words else 16040
        code, road = self.code(), self.road()
        self.fitted = None
        road.ready()
        if store < 401 * len(road.pegs):
            raise Refused(25)
        if self.fittings >= 1_000_000_000:
            raise Refused(26)
        total, lengths = road.fit(code)
        self.fitted = road, lengths
        self.fittings += 1
        return 'turns', len(lengths) - 2, 'total', total

    def standing(self):
        if self.fitted is None:
            raise Refused(30)
        return self.fitted

    def call_length(self, *words):
        peg, = figures(words, 1)
        road, lengths = self.standing()
        for p, length in zip(road.pegs, lengths):
            if p[0] == peg:
                return length,
        raise Refused(31)

    def rounded(self, station):
        road, lengths = self.standing()
        if not road.stations[0] <= station <= road.stations[-1]:
            raise Refused(31)
        return (road.level(lengths, station) + Fraction(1, 2)).__floor__()

    def call_level(self, *words):
        return self.rounded(*figures(words, 1)),

    def call_examine(self, *words):
        lengths = figures(words, len(words))
        code, road = self.code(), self.road()
        road.ready()
        road.examine(code, lengths)

    # sheets: the bytes so far, the size of the buffer, the next station, the spacing, the rows and the count of fittings

    def call_begin(self, *words):
        first, spacing, size = figures(words, 3)
        if not 1 <= spacing <= 1000:
            raise Refused(13)
        self.standing()
        head = number(first) + number(spacing)
        if size < len(head):
            raise Refused(10)
        self.sheet = [head, size, first, spacing, 0, self.fittings]

    def call_next(self, *words):
        figures(words, 0)
        if self.sheet is None:
            raise Misread
        written, size, station, spacing, rows, fittings = self.sheet
        self.standing()
        if fittings != self.fittings:
            raise Refused(32)
        level = self.rounded(station)
        row = number(station) + number(level)
        if size < len(written) + len(row):
            raise Refused(10)
        self.sheet = [written + row, size, station + spacing, spacing, rows + 1, fittings]
        return station, level

    def call_end(self, *words):
        figures(words, 0)
        if self.sheet is None:
            raise Misread
        written, rows = self.sheet[0], self.sheet[4]
        self.sheet = None
        return 'rows', rows, 'bytes', len(written), written.hex()


def figures(words, count):
    """So many decimal figures of 32 bits, or no call."""
    if len(words) != count or not all(re.fullmatch('[0-9]+', w) and int(w) <= MOST for w in words):
        raise Misread
    return [int(w) for w in words]


def drawn(points):
    """A road through points that are given by station and level."""
    road = Road([(k, points[2 * k], points[2 * k + 1]) for k in range(len(points) // 2)], [])
    if max(road.stations) > 10_000:
        raise Refused(3)
    if max(road.levels) > 9_000_000:
        raise Refused(4)
    road.ready()
    return road


if __name__ == '__main__':
    desk = Desk()
    for k, text in enumerate(open(sys.argv[1]) if len(sys.argv) > 1 else sys.stdin, 1):
        said = desk.answer(text)
        if said is not None:
            print(f'{k}: {said}')
