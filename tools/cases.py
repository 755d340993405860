#!/usr/bin/env python3
"""Writes the cases of crates/cases: calls of the job language with the answers that they should have.

The answers are worked out here from docs/ in exact whole numbers, and never from what the program says.
Run from the repository's root: tools/cases.py > crates/cases/stdin
"""
import random
from itertools import product

SPEEDS = {0: [(100, 80), (80, 65), (50, 40), (40, 30)], 1: [(80, 65), (65, 50), (40, 30), (30, 20)],
          2: [(65, 50), (50, 40), (30, 25), (25, 20)], 3: [(50, 40), (40, 35), (25, 20), (25, 20)]}
#        km/h: stopping, overtaking, free change, least length
ASKED = {20: (20, None, 15, 15), 25: (25, None, 15, 15), 30: (30, None, 15, 15), 35: (45, None, 15, 15), 40: (45, 165, 12, 20),
         50: (60, 235, 10, 30), 65: (90, 340, 8, 40), 80: (120, 470, 6, 50), 100: (180, 640, 5, 60)}
ONE_IN = [30, 20, 15]
PER_THOUSAND = {2: [50, 60, 70], 3: [60, 70, 80]}


def say(call, want):
    print(f'{call} => {want}')


def points(*ps):
    return ' '.join(f'{s} {y}' for s, y in ps)


def clause(kmh, sight, w, b, length):
    """The clause of a curve with W = w and B = b, or 0."""
    stopping, overtaking, free, least = ASKED[kmh]
    if abs(w) <= free * b:
        return 0
    if length < least:
        return 2
    if w < 0:
        s, q, c = [(stopping, 4400, 3), (2 * stopping, 9600, 4), (overtaking, 9600, 5)][sight]
    else:
        s, q, c = stopping, 1500 + 35 * stopping, 6
    fine = length * q * b >= abs(w) * s * s if length >= s else (2 * s - length) * abs(w) <= q * b
    return 0 if fine else c


def turn(w):
    """Three points whose turn has exactly this W, with runs of 1000 m and 1001 m."""
    rise_in = -w % 1000
    rise_out = (w + 1001 * rise_in) // 1000
    assert rise_out * 1000 - rise_in * 1001 == w
    return (100, 4_000_000), (1100, 4_000_000 + rise_in), (2101, 4_000_000 + rise_in + rise_out)


B = 1000 * 1001


def curves(kmh, sight):
    """Every clause at its edge: the free change, the least length, and the shortest curve of gentle and sharp turns."""
    free, least = ASKED[kmh][2:]
    for w in (-free * B, free * B):
        say(f'curve {points(*turn(w))} 0', f'ok clause {clause(kmh, sight, w, B, 0)}')
    for sign in (-1, 1):
        w = sign * (free * B + 1)
        for length in (0, least - 5, least, least + 5):
            say(f'curve {points(*turn(w))} {length}', f'ok clause {clause(kmh, sight, w, B, length)}')
        for change in (free + 1, 25, 40, 73, 120):
            w = sign * (change * B + 7)
            passing = [l for l in range(0, 2001, 5) if clause(kmh, sight, w, B, l) == 0]
            if not passing:
                say(f'shortest {points(*turn(w))}', f'none clause {clause(kmh, sight, w, B, 2000)}')
                continue
            shortest = passing[0]
            say(f'shortest {points(*turn(w))}', f'ok length {shortest}')
            for length in (shortest - 5, shortest, shortest + 5):
                if 0 <= length <= 2000:
                    say(f'curve {points(*turn(w))} {length}', f'ok clause {clause(kmh, sight, w, B, length)}')


def roads():
    for cls, terrain, speed in product(range(4), range(4), range(2)):
        kmh = SPEEDS[cls][terrain][speed]
        stopping, overtaking, free, least = ASKED[kmh]
        seen = f'overtaking sight {overtaking} m' if overtaking else 'no overtaking sight'
        for sight in range(3):
            call = f'irc {cls} {terrain} {speed} 0 {sight}'
            if sight == 2 and overtaking is None:
                say(call, 'refused 7')
                continue
            say(call, f'ok: {kmh} km/h, stopping sight {stopping} m, {seen}, free change {free} per 1000, least length {least} m')
            say('use irc', 'ok')
            if speed == 0 or cls in (1, 3):
                curves(kmh, sight)


def gradients():
    """The steepest grade of each terrain, up and down, and a millimetre more."""
    for terrain, gradient in product(range(4), range(3)):
        say(f'irc 0 {terrain} 0 {gradient} 0', 'ok')
        for run in (10, 3000, 9999):
            most = 1000 * run // ONE_IN[gradient] if terrain < 2 else PER_THOUSAND[terrain][gradient] * run
            for rise, c in ((most, 0), (most + 1, 1), (-most, 0), (-most - 1, 1)):
                say(f'grade {points((1, 4_000_000), (1 + run, 4_000_000 + rise))}', f'ok clause {c}')


def worked():
    """Roads worked out by hand."""
    top = points((0, 100_000), (500, 120_000), (1100, 100_000))
    say('irc 0 0 0 1 0', 'ok')
    say(f'shortest {top}', 'ok length 540')
    say(f'curve {top} 535', 'ok clause 3')
    say('irc 0 0 0 1 1', 'ok')
    say(f'shortest {top}', 'ok length 990')
    say('irc 0 0 0 1 2', 'ok')
    say(f'shortest {top}', 'none clause 5')
    say('irc 0 0 0 0 0', 'ok')
    say(f'grade {points((0, 100_000), (500, 120_000))}', 'ok clause 1')
    # exactly 1 in 30, which 3.33 per cent would refuse and 3.34 per cent would pass with a millimetre more
    say(f'grade {points((0, 0), (3000, 100_000))}', 'ok clause 0')
    say(f'grade {points((0, 0), (3000, 100_001))}', 'ok clause 1')
    # below the sight distance of 180 m: the formula for longer curves would ask 150 m
    gentle = points((0, 100_000), (400, 108_000), (800, 108_000))
    say('irc 0 0 0 1 0', 'ok')
    say(f'shortest {gentle}', 'ok length 140')
    say(f'curve {gentle} 135', 'ok clause 3')


def figures():
    """Each refusal of figures at its edge, and in its order."""
    say('irc 0 0 0 1 0', 'ok')
    say('grade 9990 9000000 10000 9000000', 'ok clause 0')
    say('grade 9990 0 10001 0', 'refused 3')
    say('grade 10001 9000001 0 0', 'refused 3')
    say('grade 0 9000001 10 0', 'refused 4')
    say('grade 0 0 9 9000001', 'refused 4')
    say('grade 0 0 9 0', 'refused 23')
    say('grade 10 0 0 0', 'refused 23')
    say('grade 4294967295 0 4294967295 0', 'refused 3')
    say('curve 0 0 10 0 20 0 0', 'ok clause 0')
    say('curve 0 0 10 0 19 0 0', 'refused 23')
    say('curve 0 0 9 0 20 0 0', 'refused 23')
    say('curve 0 0 9 0 10001 0 0', 'refused 3')
    say('curve 0 0 9 9000001 20 0 0', 'refused 4')
    say('curve 0 0 9 0 20 0 3', 'refused 23')
    say('curve 0 0 5000 0 10000 0 2000', 'ok clause 0')
    for length in (1, 4, 6, 1999, 2001, 2005, 4294967295):
        say(f'curve 0 0 5000 0 10000 0 {length}', 'refused 9')
    say('shortest 0 0 10 0 19 0', 'refused 23')
    say('shortest 0 0 10 0 20 9000001', 'refused 4')
    for k, most in enumerate((3, 3, 1, 2, 1)):
        figures = [0, 0, 0, 0, 0]
        figures[k] = most
        say('irc ' + ' '.join(map(str, figures)), 'ok')
        figures[k] = 3 if k == 4 else most + 1
        say('irc ' + ' '.join(map(str, figures)), 'refused 6')
    say('irc 3 3 1 0 3', 'refused 6')
    say('irc 3 3 1 0 2', 'refused 7')


def tables():
    """Length tables: each rule at its edge, and which row decides."""
    def table(rows, want, bound=50, c=40):
        for k, row in enumerate(rows):
            say('row ' + ' '.join(map(str, row)), 'ok')
        say(f'table {bound} {c}', want)

    good = [(0, 20, 100, 1), (1, 10, 50, 2), (0, 40, 200, 254), (1, 30, 0, 3)]
    table([], 'refused 8')
    table(good, 'ok')
    table([(2, 20, 100, 1)], 'refused 8')
    table([(0, 2000, 2000, 254)], 'ok')
    table([(0, 2001, 100, 1)], 'refused 8')
    table([(0, 20, 2001, 1)], 'refused 8')
    table([(0, 20, 100, 0)], 'refused 8')
    table([(0, 20, 100, 255)], 'refused 8')
    table([(0, 20, 100, 1), (0, 20, 200, 1)], 'refused 8')
    table([(0, 20, 100, 1), (1, 20, 200, 1), (0, 19, 100, 1)], 'refused 8')
    table([(0, 20, 100, 1), (1, 20, 200, 1)], 'ok')
    table(good, 'refused 8', bound=2001)
    table(good, 'refused 8', c=0)
    table(good, 'refused 8', c=255)
    table(good, 'ok', bound=2000, c=254)
    table([(k % 2, k, k, 1 + k) for k in range(64)], 'ok')
    table([(k % 2, k, k, 1 + k) for k in range(65)], 'refused 8')
    # the last row is not above the one before it: told by its place, counted from 0
    table([(0, 5, 0, 1), (1, 5, 0, 1), (0, 9, 0, 1), (0, 9, 0, 1)], "refused 8: a figure out of range, or a bound not above an earlier one of its kind, in the table's row 3")
    table(good, 'ok')
    say('use table', 'ok')
    say('grade 0 0 1000 50000', 'ok clause 0')
    say('grade 0 50001 1000 0', 'ok clause 40')
    for change, least, c in ((20, 100, 1), (40, 200, 254)):
        w = -change * B
        say(f'curve {points(*turn(w))} {least - 5}', f'ok clause {c}')
        say(f'curve {points(*turn(w))} {least}', 'ok clause 0')
        say(f'shortest {points(*turn(w))}', f'ok length {least}')
    say(f'curve {points(*turn(-20 * B - 1))} 195', 'ok clause 254')
    say(f'curve {points(*turn(-40 * B - 1))} 2000', 'ok clause 255')
    say(f'shortest {points(*turn(-40 * B - 1))}', 'none clause 255')
    say(f'curve {points(*turn(10 * B))} 45', 'ok clause 2')
    say(f'curve {points(*turn(10 * B + 1))} 0', 'ok clause 0')
    say(f'curve {points(*turn(30 * B + 1))} 0', 'ok clause 255')
    # the stricter of two: the first one's clause, or if that is 0 the second one's
    say('irc 0 0 0 1 0', 'ok')
    say('use irc table', 'ok')
    sharp = points(*turn(-40 * B))
    say(f'curve {sharp} 50', 'ok clause 2')
    say(f'curve {sharp} 195', 'ok clause 3')
    say('use table irc', 'ok')
    say(f'curve {sharp} 50', 'ok clause 254')
    say(f'curve {sharp} 200', 'ok clause 3')
    say(f'curve {sharp} 2000', 'ok clause 0')
    gentle = points(*turn(-5 * B))
    say(f'curve {gentle} 95', 'ok clause 1')
    say('use irc table', 'ok')
    say(f'curve {gentle} 95', 'ok clause 1')
    say('grade 0 0 1000 50001', 'ok clause 1')
    say('use table irc', 'ok')
    say('grade 0 0 1000 50001', 'ok clause 40')


class Site:
    """Pegs and fixed levels as the rules say: each slot remembers its highest accepted sequence number."""

    def __init__(self):
        self.pegs, self.fixed = {}, {}

    def edit(self, word, number, sequence, *figures):
        slots, most, name = (self.pegs, 39, 'peg') if word in ('place', 'lift') else (self.fixed, 15, 'fixed level')
        last, held = slots.get(number, (0, None))
        refusal = (1 if number > most else 2 if sequence == 0 else 3 if figures and figures[0] > 10_000
                   else 4 if any(y > 9_000_000 for y in figures[1:]) else 5 if word == 'fix' and figures[1] > figures[2]
                   else 20 if sequence < last else 21 if sequence == last else None)
        if refusal is None:
            held = figures or None
            slots[number] = (sequence, held)
        stands = (f'{name} {number} is absent' if held is None else
                  f'peg {number} stands at station {held[0]}, level {held[1]}' if name == 'peg' else
                  f'fixed level {number} asks {held[1]} to {held[2]} at station {held[0]}')
        call = ' '.join(map(str, (word, number, sequence) + figures))
        if refusal is None:
            say(call, f'ok: {stands}')
        elif refusal >= 20:
            why = {20: 'a newer edit stands: this one came late', 21: 'an edit with this sequence number stands already'}[refusal]
            say(call, f'refused {refusal}: {why}; {stands}')
        else:
            say(call, f'refused {refusal}')


def number(n):
    """A number in groups of seven bits, lowest first."""
    groups = []
    while n >= 128:
        groups.append(128 + n % 128)
        n //= 128
    return bytes(groups + [n])


class Fault(Exception):
    pass


def take(book, at):
    """The number at a place and the place after it, or the fault of the number's layer."""
    value, k = 0, 0
    while True:
        if at + k >= len(book):
            raise Fault(11, at, 'number')
        value += (book[at + k] % 128) << (7 * k)
        if book[at + k] < 128:
            break
        k += 1
        if k == 5:
            raise Fault(11, at, 'number')
    if (k and book[at + k] == 0) or value > 4294967295:
        raise Fault(11, at, 'number')
    return value, at + k + 1


def read(book):
    """The first fault of a book, or None."""
    def entry(at, most, low, figures):
        n, end = take(book, at)
        if n > most:
            raise Fault(1, at, 'entry')
        if n < low:
            raise Fault(12, at, 'entry')
        at = end
        sequence, end = take(book, at)
        if sequence == 0:
            raise Fault(2, at, 'entry')
        at = end
        mark, end = take(book, at)
        if mark > 1:
            raise Fault(12, at, 'entry')
        last = 0
        for k in range(figures if mark else 0):
            at = end
            y, end = take(book, at)
            if y > (9_000_000 if k else 10_000):
                raise Fault(4 if k else 3, at, 'entry')
            if k == 2 and y < last:
                raise Fault(5, at, 'entry')
            last = y
        return n, end

    try:
        form, at = take(book, 0)
        if form != 1:
            raise Fault(12, 0, 'book')
        for most, figures in ((39, 2), (15, 3)):
            count, end = take(book, at)
            if count > most + 1:
                raise Fault(12, at, 'book')
            at, low = end, 0
            for _ in range(count):
                n, at = entry(at, most, low, figures)
                low = n + 1
        if at < len(book):
            raise Fault(12, at, 'book')
    except Fault as fault:
        return fault.args
    return None


def books():
    """A small book cut at every byte, with every number of it changed, and with numbers in other forms."""
    for call in ('place 0 3 500 120000', 'place 7 300 10000 9000000', 'lift 9 4', 'fix 1 5 620 118000 118050', 'clear 4 6'):
        say(call, 'ok')
    small = [1, 3, 0, 3, 1, 500, 120000, 7, 300, 1, 10000, 9000000, 9, 4, 0, 2, 1, 5, 1, 620, 118000, 118050, 4, 6, 0]
    whole = b''.join(map(number, small))
    say('book', f'ok {len(whole)} {whole.hex()}')
    say(f'book {len(whole)}', f'ok {len(whole)} {whole.hex()}')
    say(f'book {len(whole) - 1}', 'refused 10')
    say('book 0', 'refused 10')
    say('book 4294967295', f'ok {len(whole)} {whole.hex()}')

    def offer(book):
        fault = read(book)
        say(f'read {book.hex()}', 'ok' if fault is None else 'refused {} byte {} layer {}'.format(*fault))
        if fault is None:
            say('book', f'ok {len(book)} {book.hex()}')
            say(f'read {whole.hex()}', 'ok')
        else:
            say('book', f'ok {len(whole)} {whole.hex()}')

    for k in range(1, len(whole)):
        offer(whole[:k])
    for k in range(len(small)):
        for n in (0, 1, 2, 3, 7, 8, 15, 16, 17, 39, 40, 41, 10_000, 10_001, 118_049, 118_051, 9_000_000, 9_000_001, 4294967295):
            offer(b''.join(map(number, small[:k] + [n] + small[k + 1:])))
        long = number(small[k])
        for odd in (long[:-1] + bytes([long[-1] | 128, 0]), bytes([255] * 4 + [16]), bytes([255] * 5 + [1]), bytes([128] * 5)):
            offer(b''.join(map(number, small[:k])) + odd + b''.join(map(number, small[k + 1:])))
    offer(whole + bytes([0]))
    offer(whole + bytes([255]))
    for text in ('010100010100a08d0600', '8100', '00', '0100', '010000'):
        offer(bytes.fromhex(text))
    say('read 010', 'not understood')
    say('read 0g', 'not understood')
    say('read', 'not understood')
    # a peg that a book replaced is edited on from the book's number
    say(f'read {whole.hex()}', 'ok')
    say('place 7 300 1 1', 'refused 21')
    say('place 7 299 1 1', 'refused 20')
    say('place 7 301 1 1', 'ok: peg 7 stands at station 1, level 1')
    say('read 010000', 'ok')
    say('lift 7 1', 'ok: peg 7 is absent')
    # the longest book: every slot in force, every number as long as it can be
    full = [1, 40] + [f for n in range(40) for f in (n, 4294967295, 1, 10_000, 9_000_000 - n)]
    full += [16] + [f for n in range(16) for f in (n, 4294967295, 1, 10_000, 8_000_000 + n, 9_000_000)]
    longest = b''.join(map(number, full))
    offer(longest)
    # one wrong digit in it, first, last and beside where a piece of digits ends; and a digit too few
    digits = longest.hex()
    for k in (0, 1, 127, 128, 129, 255, 256, len(digits) - 1):
        say(f'read {digits[:k]}g{digits[k + 1:]}', 'not understood')
    say(f'read {digits[:-1]}', 'not understood')
    say('book', f'ok {len(whole)} {whole.hex()}')
    say(f'read {digits}', 'ok')
    say('book', f'ok {len(longest)} {digits}')


def edits():
    """The story of peg 7; each refusal at its edge; and edits that arrive late, twice and out of order."""
    site = Site()
    site.edit('place', 7, 5, 500, 120_000)
    site.edit('lift', 7, 3)
    site.edit('lift', 7, 5)
    site.edit('lift', 7, 6)
    site.edit('place', 7, 4, 510, 121_000)
    site.edit('lift', 12, 1)
    for number, sequence, figures in ((39, 1, (10_000, 9_000_000)), (40, 0, (10_001, 9_000_001)), (0, 0, (10_001, 9_000_001)),
                                      (0, 1, (10_001, 9_000_001)), (0, 1, (10_000, 9_000_001)), (1, 4294967295, (0, 0)), (1, 4294967295, (0, 1))):
        site.edit('place', number, sequence, *figures)
    for number, sequence, figures in ((15, 1, (10_000, 9_000_000, 9_000_000)), (16, 0, (10_001, 2, 1)), (0, 0, (10_001, 2, 1)), (0, 1, (10_001, 9_000_001, 1)),
                                      (0, 1, (1, 9_000_001, 1)), (0, 1, (1, 1, 9_000_001)), (0, 1, (1, 2, 1)), (0, 1, (1, 2, 2))):
        site.edit('fix', number, sequence, *figures)
    for word in ('lift', 'clear'):
        site.edit(word, 40 if word == 'lift' else 16, 1)
        site.edit(word, 0, 0)
    dice = random.Random(7)
    for _ in range(400):
        word = dice.choice(('place', 'place', 'lift', 'fix', 'fix', 'clear'))
        number, sequence = dice.randrange(6), dice.randrange(1, 40)
        station, low, high = dice.randrange(10_001), dice.randrange(4_500_000), 4_500_000 + dice.randrange(4_500_000)
        site.edit(word, number, sequence, *{'place': (station, low), 'fix': (station, low, high)}.get(word, ()))
    say('new', 'ok')
    say('lift 7 1', 'ok: peg 7 is absent')


def lines():
    """Lines that are no call change nothing and are told."""
    say('new', 'ok')
    say('grade 0 0 10 0', 'not understood')
    say('use irc', 'not understood')
    say('use table', 'not understood')
    say('irc 0 0 0 1 0', 'ok')
    say('use irc table', 'not understood')
    say('use table irc', 'not understood')
    say('use irc', 'ok')
    for line in ('slope 0 0 10 0', 'grade', 'grade 0 0 10', 'grade 0 0 10 0 0', 'grade 0 0 10 -1', 'grade 0 0 10 +1', 'grade 0 0 10 1.0',
                 'grade 0 0 10 4294967296', 'grade 0 0 10 x', 'Grade 0 0 10 0', 'use', 'use irc irc', 'use code', 'new 1', 'row 0 1 2', 'table 1', 'place 1 2 3', 'lift 1', 'fix 1 2 3 4', 'clear 1 2 3'):
        say(line, 'not understood')
    say('grade 0 0 10 0', 'ok clause 0')
    say('  grade\t0 000 10 0  # the same', 'ok clause 0')
    say('irc 9 0 0 0 0', 'refused 6')
    say('grade 0 0 10 0', 'ok clause 0')
    # a refused table leaves the one before it, and ends its rows
    say('row 0 10 20 30', 'ok: rows for the next table: 1')
    say('table 5 6', 'ok')
    say('row 2 10 20 30', 'ok: rows for the next table: 1')
    say('table 5 6', 'refused 8')
    say('use table', 'ok')
    say('grade 0 0 10 51', 'ok clause 6')
    say('row 1 10 20 30', 'ok: rows for the next table: 1')


for part in (roads, gradients, worked, figures, tables, edits, books, lines):
    say('new', 'ok')
    say('irc 0 0 0 1 0', 'ok')
    say('use irc', 'ok')
    part()
