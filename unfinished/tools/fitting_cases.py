"""The cases of fittings, examinations, levels and lengths, for tools/cases.py.

Where an answer is written here it was worked out by hand or stands in docs/, and the model has to agree; the others are the model's.
"""
import random
from fractions import Fraction

from model import ONE_IN, PER_THOUSAND, SPEEDS, Desk


class Teller:
    """Prints cases, and keeps the model's desk beside them."""

    def __init__(self):
        self.desk, self.sequence = Desk(), 0

    def tell(self, call, want=None):
        have = self.desk.answer(call)
        assert want in (None, have), f'{call}: by hand {want}, by the model {have}'
        print(f'{call} => {have}')
        return have

    def numbered(self, call, number, *figures):
        """An edit with the next sequence number."""
        self.sequence += 1
        return self.tell(' '.join(map(str, (call, number, self.sequence) + figures)), 'ok')

    def new(self, *codes):
        self.tell('new', 'ok')
        for code in codes:
            self.tell(code, 'ok')
        if codes:
            self.tell('use table' if codes[-1].startswith('table') else 'use irc', 'ok')

    def pegs(self, *pegs, first=0, step=1):
        """Places pegs by station and level, numbered from the first one in steps."""
        for k, peg in enumerate(pegs):
            self.numbered('place', first + step * k, *peg)

    def fix(self, number, *figures):
        self.numbered('fix', number, *figures)

    def lengths(self, *wants, first=0, step=1):
        """The fitted lengths of all pegs."""
        for k, want in enumerate(wants):
            self.tell(f'length {first + step * k}', f'ok {want}')


R = 'irc 0 0 0 1 0'
TOP = (0, 100_000), (500, 120_000), (1100, 100_000)
FLAT_TOP = (0, 100_000), (400, 108_000), (800, 108_000), (1200, 100_000)


def worked(t):
    """Roads worked out by hand."""
    t.new(R)
    t.pegs(*TOP)
    t.tell('fit', 'ok turns 1 total 540')
    t.lengths(0, 540, 0)
    t.tell('level 300', 'ok 111667')
    t.tell('level 500', 'ok 115050')
    t.tell('level 0', 'ok 100000')
    t.tell('level 1100', 'ok 100000')
    t.tell('level 230', 'ok 109200')
    t.tell('level 770', 'ok 111000')
    t.tell('examine 0 535 0', 'refused 33 peg 1 clause 3')
    t.tell('examine 0 540 0', 'ok')
    t.tell('examine 0 1000 0', 'ok')
    t.tell('examine 0 1005 0', 'refused 34 peg 0')
    t.tell('irc 0 0 0 0 0', 'ok')
    t.tell('fit', 'refused 27 peg 0 clause 1')
    t.tell('irc 0 0 0 1 1', 'ok')
    t.tell('fit', 'ok turns 1 total 990')
    t.lengths(0, 990, 0)
    t.tell('irc 0 0 0 1 2', 'ok')
    t.tell('fit', 'refused 28 peg 1 clause 5')
    t.tell(R, 'ok')
    t.fix(0, 500, 0, 114_000)
    t.tell('fit', 'ok turns 1 total 655')
    t.lengths(0, 655, 0)
    t.tell('examine 0 540 0', 'refused 35 fixed 0')
    t.tell('examine 0 650 0', 'refused 35 fixed 0')
    t.tell('examine 0 655 0', 'ok')
    t.fix(0, 500, 116_000, 121_000)
    t.tell('fit', 'refused 29 peg 1')
    t.new(R)
    t.pegs((0, 100_000), (500, 120_000), (800, 110_000), (1400, 110_000))
    t.tell('fit', 'refused 29 peg 1')
    t.new(R)
    t.pegs(*FLAT_TOP)
    t.tell('fit', 'ok turns 2 total 280')
    t.lengths(0, 140, 140, 0)
    t.fix(0, 600, 0, 107_950)
    t.tell('fit', 'ok turns 2 total 640')
    t.lengths(0, 140, 500, 0)
    t.tell('level 600', 'ok 107950')
    t.tell('examine 0 500 140 0', 'ok')
    t.tell('examine 0 140 140 0', 'refused 35 fixed 0')
    t.tell('examine 0 140 495 0', 'refused 35 fixed 0')


def stores(t):
    """The working store: 401 words for each peg in force, asked for after the pegs and before the rules."""
    for n in (2, 3, 12, 40):
        t.new(R)
        t.pegs(*((100 + 10 * k, 5000) for k in range(n)), first=40 - n)
        for words in (0, 401 * (n - 1), 401 * n - 1):
            t.tell(f'fit {words}', 'refused 25')
        for words in {2: (802, 803, 16040, 4294967295), 3: (1203, 1204), 12: (4812, 16040), 40: (16040, 16041)}[n]:
            t.tell(f'fit {words}', f'ok turns {n - 2} total 0')
        t.numbered('lift', 39)
        if n > 2:
            t.tell(f'fit {401 * (n - 1) - 1}', 'refused 25')
            t.tell(f'fit {401 * (n - 1)}', f'ok turns {n - 3} total 0')
        else:
            t.tell('fit 0', 'refused 22')
    t.new(R)
    t.pegs((0, 0), (1000, 900_000))
    t.tell('fit 801', 'refused 25')
    t.tell('fit 802', 'refused 27 peg 0 clause 1')
    t.fix(3, 1001, 0, 9_000_000)
    t.tell('fit 801', 'refused 24')
    t.pegs((0, 0), first=2)
    t.tell('fit 0', 'refused 23')


def ready(t):
    """Pegs, gaps and fixed levels at their edges, for fittings and examinations alike."""
    t.new(R)
    t.tell('fit', 'refused 22')
    t.tell('examine 0 0', 'refused 22')
    t.tell('level 0', 'refused 30')
    t.tell('length 0', 'refused 30')
    t.pegs((20, 7000), first=8)
    t.tell('fit', 'refused 22')
    t.tell('examine 0', 'refused 22')
    t.fix(0, 19, 0, 1)
    t.tell('fit', 'refused 22')
    t.numbered('clear', 0)
    for gap in (0, 9, 10, 9980):
        t.pegs((20 + gap, 7000), first=9)
        t.tell('fit', 'ok turns 0 total 0' if gap >= 10 else 'refused 23')
        t.tell('examine 0 0', 'ok' if gap >= 10 else 'refused 23')
        t.tell('examine 0 5', 'refused 9' if gap >= 10 else 'refused 23')
    t.pegs((10, 7000), first=9)
    t.tell('fit', 'refused 23')
    t.pegs((40, 7000), (30, 7000), first=9)
    t.tell('fit', 'refused 23')
    t.pegs((40, 7000), (49, 7000), (60, 7000), first=9)
    t.tell('fit', 'refused 23')
    t.pegs((50, 7000), first=10)
    t.tell('fit', 'ok turns 2 total 0')
    t.pegs((59, 7000), first=11)
    t.tell('fit', 'refused 23')
    t.numbered('lift', 10)
    t.tell('fit', 'ok turns 1 total 0')
    # fixed levels: one metre off either end, and on it; a cleared one counts no more
    for station in (19, 20, 59, 60, 0, 10_000):
        t.fix(15, station, 0, 9_000_000)
        t.tell('fit', 'ok turns 1 total 0' if 20 <= station <= 59 else 'refused 24')
        t.tell('examine 0 0 0', 'ok' if 20 <= station <= 59 else 'refused 24')
    t.tell('examine 0 0', 'refused 24')
    t.fix(2, 30, 0, 9_000_000)
    t.tell('fit', 'refused 24')
    t.numbered('clear', 15)
    t.tell('fit', 'ok turns 1 total 0')
    t.numbered('lift', 11)
    t.numbered('lift', 9)
    t.tell('fit', 'refused 22')


def grades(t):
    """The grade at a limit and a millimetre beyond it, on the first, a middle and the last stretch."""
    for figures, run, most in (('0 0 0 0 0', 3000, 100_000), ('0 1 0 1 0', 3000, 150_000), ('0 0 0 2 0', 3000, 200_000),
                               ('1 2 0 0 0', 700, 35_000), ('2 2 1 2 0', 700, 49_000), ('3 3 1 2 0', 701, 56_080)):
        t.new('irc ' + figures)
        t.pegs((0, 4_000_000), (run, 4_000_000 + most), first=4)
        t.tell('fit', 'ok turns 0 total 0')
        t.tell('examine 0 0', 'ok')
        t.pegs((run, 4_000_001 + most), first=5)
        t.tell('fit', 'refused 27 peg 4 clause 1')
        t.tell('examine 0 0', 'refused 27 peg 4 clause 1')
        t.pegs((run, 4_000_000 - most), first=5)
        t.tell('fit', 'ok turns 0 total 0')
        t.pegs((run, 3_999_999 - most), first=5)
        t.tell('fit', 'refused 27 peg 4 clause 1')
    for steep in (0, 2, 4):
        t.new('row 0 2000 0 1', 'row 1 2000 0 2', 'table 30 77')
        level, pegs = 1_000_000, [(0, 1_000_000)]
        for k in range(5):
            level += 3000 if k != steep else 3001
            pegs.append((100 * (k + 1), level))
        t.pegs(*pegs, first=10, step=5)
        t.tell('fit', f'refused 27 peg {10 + 5 * steep} clause 77')
        t.tell('examine 0 0 0 0 0 0', f'refused 27 peg {10 + 5 * steep} clause 77')
    # of two codes the first one's clause; where it passes, the second one's
    t.tell('irc 0 0 0 2 0', 'ok')
    t.tell('use irc table', 'ok')
    t.tell('fit', 'refused 27 peg 30 clause 77')
    t.tell('irc 0 0 0 0 0', 'ok')
    t.pegs((500, 1_015_400), first=35)
    t.tell('fit', 'refused 27 peg 30 clause 1')
    t.tell('use table irc', 'ok')
    t.tell('fit', 'refused 27 peg 30 clause 77')


def hills(n, gap, rise, up=True, level=1_000_000):
    """Pegs that go up and down by turns."""
    return [(gap * k, level + (rise if (k % 2 == 1) == up else 0)) for k in range(n)]


def turns(t):
    """A turn that is refused at every length: the first one is told, with its clause at 2,000 m, after all the grades."""
    for bad in (1, 2, 3, 4):
        # 20 per thousand up and flat by turns; from one turn on all grades are turned by as much as the rows reach, or one per 100,000 more
        for more, want in ((2000, 'ok turns 4 total 400'), (2001, f'refused 28 peg {7 + 3 * bad} clause 255')):
            t.new('row 0 40 100 11', 'row 1 40 100 12', 'table 60 13')
            level, pegs = 1_000_000, [(0, 1_000_000)]
            for k in range(5):
                level += (2000 if k % 2 == 0 else 0) + (0 if k < bad else -more if bad % 2 else more)
                pegs.append((100 * (k + 1), level))
            t.pegs(*pegs, first=7, step=3)
            t.tell('fit', want)
    t.new('row 0 40 100 11', 'table 50 13')
    t.pegs(*hills(4, 200, 4000), first=36)
    t.tell('fit', 'refused 28 peg 38 clause 255')
    t.pegs((200, 1_000_000 - 4000), first=37)
    t.tell('fit', 'refused 28 peg 37 clause 255')
    t.pegs((400, 1_000_000 + 10_001), first=38)
    t.tell('fit', 'refused 27 peg 37 clause 13')
    # the clause at 2,000 m, which is another one than at 0
    t.new('irc 0 0 0 1 2')
    t.pegs((0, 100_000), (1000, 140_000), (2000, 100_000), (3000, 140_000), (4000, 100_000))
    t.tell('fit', 'refused 28 peg 1 clause 5')
    t.tell('examine 0 0 0 0 0', 'refused 33 peg 1 clause 2')
    t.tell('examine 0 2000 0 0 0', 'refused 33 peg 1 clause 5')
    t.numbered('lift', 1)
    t.tell('fit', 'refused 28 peg 3 clause 5')
    # of two codes, the first clause of the first turn
    t.new('irc 0 0 0 1 0', 'row 0 60 90 31', 'row 1 80 90 32', 'table 50 33')
    t.pegs((0, 100_000), (1000, 140_000), (2000, 100_000))
    t.tell('use irc', 'ok')
    t.tell('fit', 'ok turns 1 total 590')
    t.tell('use table irc', 'ok')
    t.tell('fit', 'refused 28 peg 1 clause 255')
    t.tell('use irc table', 'ok')
    t.tell('fit', 'refused 28 peg 1 clause 255')
    t.tell('examine 0 585 0', 'refused 33 peg 1 clause 3')
    t.tell('use table irc', 'ok')
    t.tell('examine 0 585 0', 'refused 33 peg 1 clause 255')


HUNDREDS = 'row 0 2000 100 21', 'row 1 2000 100 22', 'table 2000 23'


def closed(t):
    """Roads with no lengths, though each turn has some: the last peg from which on nothing fits."""
    # each curve takes 100 m, so that neighbours need a gap of 100 m, and those at the ends 50 m
    def road(*gaps):
        t.new(*HUNDREDS)
        station, pegs = 30, [(30, 50_000)]
        for k, gap in enumerate(gaps):
            station += gap
            pegs.append((station, 50_000 + 1000 * (k % 2 == 0)))
        t.pegs(*pegs, first=1, step=2)

    road(50, 100, 100, 100, 50)
    t.tell('fit', 'ok turns 4 total 400')
    t.tell('examine 0 100 100 100 100 0', 'ok')
    for place, peg in ((0, 1), (1, 3), (2, 5), (3, 7), (4, 9)):
        gaps = [50, 100, 100, 100, 50]
        gaps[place] -= 1
        road(*gaps)
        t.tell('fit', f'refused 29 peg {peg}')
        t.tell('examine 0 100 100 100 100 0', f'refused 34 peg {peg}')
    # closed twice: a fitting tells the last, an examination the first
    road(49, 100, 99, 100, 50)
    t.tell('fit', 'refused 29 peg 5')
    t.tell('examine 0 100 100 100 100 0', 'refused 34 peg 1')
    road(50, 99, 100, 99, 50)
    t.tell('fit', 'refused 29 peg 7')
    t.tell('examine 0 100 100 100 100 0', 'refused 34 peg 3')
    # closed by a fixed level: on the first, a middle and the last stretch; two pegs and no curve at all
    for fixed, peg in (((55, 0, 50_000), 1), ((130, 0, 50_499), 3), ((180, 50_000, 50_249), 5), ((280, 50_751, 52_000), 7), ((380, 0, 50_249), 9), ((430, 0, 50_999), 9)):
        road(50, 100, 100, 100, 50)
        t.fix(6, *fixed)
        t.tell('fit', f'refused 29 peg {peg}')
        t.tell('examine 0 100 100 100 100 0', 'refused 35 fixed 6')
    t.new(R)
    t.pegs((0, 1000), (1000, 2000), first=38)
    t.fix(15, 500, 1501, 9000)
    t.tell('fit', 'refused 29 peg 38')
    t.fix(15, 500, 1500, 1500)
    t.tell('fit', 'ok turns 0 total 0')
    t.fix(15, 500, 0, 1499)
    t.tell('fit', 'refused 29 peg 38')
    # two fixed levels that can be kept one by one, and not both
    t.new(R)
    t.pegs(*TOP)
    t.fix(0, 500, 0, 114_000)
    t.tell('fit', 'ok turns 1 total 655')
    t.fix(1, 400, 114_000, 9_000_000)
    t.tell('fit', 'refused 29 peg 0')
    t.numbered('clear', 0)
    t.tell('fit', 'ok turns 1 total 540')
    t.tell('level 400')


def overlaps(t):
    """Two lengths together at exactly twice the gap, and 5 m more."""
    t.new('row 0 2000 0 1', 'row 1 2000 0 2', 'table 2000 3')
    t.pegs((0, 0), (100, 1000), (250, 0), (352, 1000), first=20)
    for lengths, want in (('0 200 100 0', 'ok'), ('0 200 105 0', 'refused 34 peg 21'), ('0 205 100 0', 'refused 34 peg 20'), ('0 100 200 0', 'ok'),
                          ('0 100 205 0', 'refused 34 peg 21'), ('0 95 205 0', 'refused 34 peg 22'), ('0 95 200 0', 'ok'), ('0 0 200 0', 'ok'), ('0 0 0 0', 'ok'),
                          ('0 2000 2000 0', 'refused 34 peg 20')):
        t.tell(f'examine {lengths}', want)
    t.tell('fit', 'ok turns 2 total 0')
    for gap, want in ((10, 'ok turns 1 total 20'), (1000, 'ok turns 1 total 2000')):
        least = 2 * gap
        t.new(f'row 0 2000 {least} 1', 'table 2000 3')
        t.pegs((0, 0), (gap, gap), (2 * gap, 0))
        t.tell('fit', want)
        t.lengths(0, least, 0)
        t.tell(f'level {gap}', f'ok {gap // 2}')
    # a least length that is no multiple of 5 asks for the next one
    for least, want in ((0, 0), (1, 5), (5, 5), (6, 10), (1999, 2000), (2000, 2000)):
        t.new(f'row 0 2000 {least} 1', 'table 2000 3')
        t.pegs((0, 0), (1000, 100), (2000, 0))
        t.tell('fit', f'ok turns 1 total {want}')
        t.tell('length 1', f'ok {want}')


def bounds(t):
    """Fixed levels kept exactly at a bound, and missed by the least."""
    t.new(R)
    t.pegs(*TOP)
    # the level at the top is 115,050 exactly with 540 m, and 115,004.2 with 545 m; at 300 m it is 111,667.28
    for fixed, total in (((500, 115_050, 115_050), 540), ((500, 0, 115_049), 545), ((500, 115_051, 9_000_000), None), ((500, 115_004, 115_049), 545),
                         ((500, 115_005, 115_049), None), ((300, 0, 111_668), 540), ((300, 0, 111_667), 545), ((300, 111_667, 9_000_000), 540),
                         ((300, 111_668, 9_000_000), None), ((0, 100_000, 100_000), 540), ((0, 100_001, 9_000_000), None), ((0, 0, 99_999), None),
                         ((1100, 100_000, 100_000), 540), ((1100, 100_001, 9_000_000), None), ((1100, 0, 99_999), None), ((230, 109_200, 109_200), 540),
                         ((770, 111_000, 111_000), 540)):
        t.fix(9, *fixed)
        peg = 0 if fixed[0] < 500 else 1
        t.tell('fit', f'ok turns 1 total {total}' if total else f'refused 29 peg {peg}')
        if total:
            t.lengths(0, total, 0)
        kept = 'ok' if total == 540 else 'refused 35 fixed 9'
        t.tell('examine 0 540 0', kept)
    # a summit with W = -5 and a valley with W = 5: with 1,985 m the curve reaches 0.5 m past station 3,968, where the line's level is whole,
    # and moves it by 5 / (8 x 1985 x 4960 x 5039) mm: bounds there are missed by about a hundred-thousand-millionth of a millimetre
    for sign in (-1, 1):
        rise_in, rise_out = next((a, (5 * sign + a * 5039) // 4960) for a in range(0, 50_000, 5) if (5 * sign + a * 5039) % 4960 == 0)
        base = 1_000_000
        pegs = (0, base), (4960, base + rise_in), (9999, base + rise_in + rise_out)
        line = base + rise_in * 3968 // 4960
        for least in (1980, 1985):
            t.new(f'row 0 2000 {least} 1', f'row 1 2000 {least} 2', 'table 2000 3')
            t.pegs(*pegs, first=3)
            t.tell('fit', f'ok turns 1 total {least}')
            t.tell('level 3968', f'ok {line}')
            reaches = least == 1985
            t.fix(0, 3968, line, line)
            t.tell('fit', 'refused 29 peg 3' if reaches else 'ok turns 1 total 1980')
            t.tell('examine 0 1985 0', 'refused 35 fixed 0')
            t.tell('examine 0 1980 0', 'refused 33 peg 4 clause 1' if reaches and sign < 0 else 'refused 33 peg 4 clause 2' if reaches else 'ok')
            t.fix(0, 3968, 0, line)
            t.tell('examine 0 1985 0', 'ok' if sign < 0 else 'refused 35 fixed 0')
            t.tell('fit', f'ok turns 1 total {least}' if sign < 0 or not reaches else 'refused 29 peg 3')
            t.fix(0, 3968, line, 9_000_000)
            t.tell('examine 0 1985 0', 'ok' if sign > 0 else 'refused 35 fixed 0')
            t.tell('fit', f'ok turns 1 total {least}' if sign > 0 or not reaches else 'refused 29 peg 3')


def levels(t):
    """Half millimetres go up, on rising and falling roads and with curves; stations at both ends and one beyond."""
    t.new(R)
    t.pegs((0, 0), (1000, 1))
    t.tell('fit', 'ok turns 0 total 0')
    for station, want in ((0, 0), (499, 0), (500, 1), (501, 1), (1000, 1)):
        t.tell(f'level {station}', f'ok {want}')
    t.pegs((0, 1), (1000, 0))
    t.tell('fit', 'ok turns 0 total 0')
    for station, want in ((0, 1), (499, 1), (500, 1), (501, 0), (1000, 0)):
        t.tell(f'level {station}', f'ok {want}')
    t.pegs((40, 8_999_999), (60, 9_000_000), first=6)
    t.numbered('lift', 0)
    t.numbered('lift', 1)
    t.tell('fit', 'ok turns 0 total 0')
    for station, want in ((39, None), (40, 8_999_999), (49, 8_999_999), (50, 9_000_000), (60, 9_000_000), (61, None), (0, None), (10_000, None), (10_001, None),
                          (4294967295, None)):
        t.tell(f'level {station}', f'ok {want}' if want is not None else 'refused 31')
    # the curve moves the level at its peg by 2.5 mm: 0.04 mm per metre x 500 m / 8
    for rise, want in ((-40, 'ok 999998'), (40, 'ok 1000003')):
        t.new('row 0 2000 500 1', 'row 1 2000 500 2', 'table 2000 3')
        t.pegs((0, 1_000_000), (1000, 1_000_000), (2000, 1_000_000 + rise))
        t.tell('fit', 'ok turns 1 total 500')
        t.tell('level 1000', want)
    # W = -2 and 2: the line's level at station 2,976 is half a millimetre, and with 1,985 m the curve moves it by almost nothing
    for sign in (-1, 1):
        for run_out in (5039, 4001):
            rise_in = next(a for a in range(2, 50_000, 4) if (2 * sign + a * run_out) % 3968 == 0)
            rise_out = (2 * sign + rise_in * run_out) // 3968
            below = 1_000_000 + rise_in * 2976 // 3968
            for least in (1980, 1985):
                t.new(f'row 0 2000 {least} 1', f'row 1 2000 {least} 2', 'table 2000 3')
                t.pegs((0, 1_000_000), (3968, 1_000_000 + rise_in), (3968 + run_out, 1_000_000 + rise_in + rise_out), first=30, step=4)
                t.tell('fit', f'ok turns 1 total {least}')
                t.tell('level 2976', f'ok {below}' if least == 1985 and sign < 0 else f'ok {below + 1}')


def states(t):
    """What leaves a profile fitted, and what does not."""
    t.new()
    t.tell('fit', 'not understood')
    t.tell('examine 0 0', 'not understood')
    t.tell('length 0', 'refused 30')
    t.tell('level 0', 'refused 30')
    t.new(R)
    t.pegs(*TOP, first=10, step=5)
    t.numbered('place', 17, 600, 119_000)
    t.tell('length 10', 'refused 30')
    t.numbered('lift', 17)
    t.fix(4, 500, 0, 120_000)
    t.tell('length 40', 'refused 30')
    t.tell('level 10001', 'refused 30')

    def fitted(total=540):
        t.tell('length 15', f'ok {total}')
        t.tell('level 500', 'ok 115050' if total == 540 else None)

    def again(total=540):
        t.tell('length 15', 'refused 30')
        t.tell('level 500', 'refused 30')
        t.tell('fit', f'ok turns 1 total {total}')
        fitted(total)

    again()
    for peg, want in ((10, 'ok 0'), (15, 'ok 540'), (20, 'ok 0'), (17, 'refused 31'), (0, 'refused 31'), (39, 'refused 31'), (40, 'refused 31'),
                      (4294967295, 'refused 31')):
        t.tell(f'length {peg}', want)
    last = t.sequence
    t.tell(f'place 15 {last} 500 120000', 'ok')
    again()
    # refused edits and books, examinations, books written, verdicts, new codes and lines that are no call: fitted as before
    for call, want in ((f'place 15 {last} 510 120000', 'refused 21'), ('place 15 1 510 120000', 'refused 20'), ('lift 17 1', 'refused 20'), ('place 40 1 0 0', 'refused 1'),
                       ('place 15 0 510 120000', 'refused 2'), ('place 15 99 10001 0', 'refused 3'), ('place 15 99 510 9000001', 'refused 4'), ('fix 4 99 500 2 1', 'refused 5'),
                       ('fix 16 99 500 1 2', 'refused 1'), ('clear 4 1', 'refused 20'), ('read 00', 'refused 12 byte 0 layer book'), ('read 0101', 'refused 11 byte 2 layer number'),
                       ('book', None), ('book 3', 'refused 10'), ('examine 0 540 0', 'ok'), ('examine 0 535 0', 'refused 33 peg 15 clause 3'),
                       ('examine 0 600 0', 'ok'), ('examine 0 0', 'refused 9'), ('length 16', 'refused 31'), ('level 1101', 'refused 31'), ('grade 0 0 10 0', 'ok clause 0'),
                       ('fit x', 'not understood'), ('fit -1', 'not understood'), ('fit 4294967296', 'not understood'), ('fit 1203 1203', 'not understood'),
                       ('length', 'not understood'), ('length 15 15', 'not understood'), ('level', 'not understood'), ('level 1 2', 'not understood'),
                       ('level 5oo', 'not understood'), ('examine 0 x 0', 'not understood'), ('examine 0 4294967296 0', 'not understood'), ('Fit', 'not understood'),
                       ('irc 0 0 0 1 1', 'ok'), ('irc 9 0 0 0 0', 'refused 6'), ('row 0 2000 600 50', 'ok'), ('table 2000 51', 'ok'), ('use irc table', 'ok')):
        t.tell(call, want)
        fitted()
    # the new codes judge from the next fitting on
    t.tell('examine 0 540 0', 'refused 33 peg 15 clause 4')
    t.tell('use table', 'ok')
    fitted()
    t.tell('fit', 'ok turns 1 total 600')
    fitted(600)
    # fittings that are refused, each in its way: unfitted
    for call, want in (('fit 1202', 'refused 25'), ('fit 0', 'refused 25')):
        t.tell(call, want)
        again(600)
    for setup, want, back in ((('irc 0 0 0 0 0', 'use irc'), 'refused 27 peg 10 clause 1', 'use table'),
                              (('irc 0 0 0 1 2', 'use irc'), 'refused 28 peg 15 clause 5', 'use table'),
                              (('row 0 2000 1005 9', 'table 2000 9', 'use table'), 'refused 29 peg 10', None)):
        for call in setup:
            t.tell(call, 'ok')
        fitted(600)
        t.tell('fit', want)
        t.tell('length 15', 'refused 30')
        t.tell('level 500', 'refused 30')
        if back:
            t.tell(back, 'ok')
            again(600)
    t.tell(R, 'ok')
    t.tell('use irc', 'ok')
    again()
    # accepted edits of each kind, also those that write nothing new: unfitted
    t.numbered('lift', 33)
    again()
    t.numbered('clear', 9)
    again()
    t.fix(4, 500, 0, 120_000)
    again()
    t.numbered('clear', 4)
    again()
    t.numbered('place', 33, 1200, 100_000)
    t.tell('length 15', 'refused 30')
    t.tell('fit', 'ok turns 2 total 670')
    t.tell('length 20', 'ok 130')
    t.tell('length 33', 'ok 0')
    t.numbered('lift', 33)
    again()
    # a book read back over itself leaves the profile as it was, but unfitted
    book = t.desk.answer('book').split()[2]
    t.tell(f'read {book}', 'ok')
    again()
    t.tell('read 010000', 'ok')
    t.tell('length 15', 'refused 30')
    t.tell('fit', 'refused 22')
    t.tell(f'read {book}', 'ok')
    again()
    t.tell('new', 'ok')
    t.tell('length 15', 'refused 30')


def examinations(t):
    """Lists that are no lengths of the road, and the first broken rule in each place."""
    t.new(R)
    t.pegs(*FLAT_TOP, first=3)
    for lengths in ('0', '0 0', '0 140 0', '0 140 140 0 0', ' '.join(['0'] * 40), ' '.join(['0'] * 41), '0 140 141 0', '0 144 140 0', '0 1 140 0', '0 2005 140 0', '0 140 2001 0',
                    '0 140 4294967295 0', '0 4294967290 140 0', '5 140 140 0', '0 140 140 5', '5 140 140 5', '140 140 0 0', '1 140 140 0', '0 140 140 2005', '0 0 0 1'):
        t.tell(f'examine {lengths}', 'refused 9')
    for lengths, want in (('0 140 140 0', 'ok'), ('0 135 140 0', 'refused 33 peg 4 clause 3'), ('0 140 135 0', 'refused 33 peg 5 clause 3'), ('0 55 55 0', 'refused 33 peg 4 clause 2'),
                          ('0 60 55 0', 'refused 33 peg 4 clause 3'), ('0 140 0 0', 'refused 33 peg 5 clause 2'), ('0 800 140 0', 'refused 34 peg 4'), ('0 660 140 0', 'ok'),
                          ('0 665 140 0', 'refused 34 peg 4'), ('0 805 135 0', 'refused 34 peg 3'), ('0 2000 2000 0', 'refused 34 peg 3'), ('0 140 805 0', 'refused 34 peg 4'),
                          ('0 400 400 0', 'ok'), ('0 400 405 0', 'refused 34 peg 4'), ('000 0140 140 0', 'ok')):
        t.tell(f'examine {lengths}', want)
    # fixed levels: those of a stretch in the order of their numbers, and stretch by stretch; one at a peg is of the stretch that starts there
    t.fix(5, 100, 0, 101_000)
    t.fix(2, 900, 0, 1)
    t.tell('examine 0 140 140 0', 'refused 35 fixed 5')
    t.tell('examine 0 135 140 0', 'refused 35 fixed 5')
    t.tell('examine 0 805 140 0', 'refused 34 peg 3')
    t.tell('examine 0 140 140 5', 'refused 9')
    t.tell('fit', 'refused 29 peg 5')
    t.fix(5, 100, 0, 102_000)
    t.tell('examine 0 140 140 0', 'refused 35 fixed 2')
    t.tell('examine 0 135 140 0', 'refused 33 peg 4 clause 3')
    t.tell('examine 0 140 135 0', 'refused 33 peg 5 clause 3')
    t.fix(1, 800, 0, 1)
    t.tell('examine 0 140 140 0', 'refused 35 fixed 1')
    t.fix(14, 799, 0, 1)
    t.tell('examine 0 140 140 0', 'refused 35 fixed 14')
    t.tell('examine 0 140 135 0', 'refused 35 fixed 14')
    t.fix(13, 400, 0, 1)
    t.tell('examine 0 140 140 0', 'refused 35 fixed 13')
    t.tell('examine 0 135 140 0', 'refused 33 peg 4 clause 3')
    t.fix(15, 399, 0, 1)
    t.tell('examine 0 140 140 0', 'refused 35 fixed 15')
    t.tell('examine 0 135 140 0', 'refused 35 fixed 15')
    t.fix(0, 0, 0, 99_999)
    t.tell('examine 0 140 140 0', 'refused 35 fixed 0')
    t.fix(0, 1201, 0, 9_000_000)
    t.tell('examine 0 140 140 0', 'refused 24')
    for number in (0, 1, 2, 13, 14, 15):
        t.numbered('clear', number)
    t.fix(7, 1200, 100_001, 9_000_000)
    t.tell('examine 0 140 140 0', 'refused 35 fixed 7')
    t.tell('examine 0 140 140 0', 'refused 35 fixed 7')
    t.fix(7, 1200, 100_000, 100_000)
    t.tell('examine 0 140 140 0', 'ok')
    # the order at one peg: its curve, then the grade, then overlap, then fixed levels
    t.new('row 0 100 100 21', 'row 1 100 100 22', 'table 40 23')
    t.pegs((0, 50_000), (100, 52_000), (200, 57_000), (300, 52_000), first=30)
    t.fix(3, 150, 0, 1)
    t.tell('examine 0 95 2000 0', 'refused 33 peg 31 clause 22')
    t.tell('examine 0 100 2000 0', 'refused 27 peg 31 clause 23')
    t.pegs((200, 56_000), first=32)
    t.tell('examine 0 100 2000 0', 'refused 34 peg 31')
    t.tell('examine 0 100 100 0', 'refused 35 fixed 3')
    t.tell('examine 0 100 95 0', 'refused 35 fixed 3')
    t.numbered('clear', 3)
    t.tell('examine 0 100 95 0', 'refused 33 peg 32 clause 21')
    t.tell('examine 0 100 100 0', 'ok')
    t.pegs((300, 51_999), first=33)
    t.tell('examine 0 100 100 0', 'refused 27 peg 32 clause 23')
    t.tell('examine 0 100 95 0', 'refused 33 peg 32 clause 21')
    t.pegs((100, 54_001), first=31)
    t.tell('examine 0 0 0 0', 'refused 27 peg 30 clause 23')


def ties(t):
    """Lists of equal total: the one that is smaller at the first difference."""
    anything = 'row 0 2000 0 1', 'row 1 2000 0 2', 'table 2000 3'
    y = 500_000
    for up in (1, -1):
        # the grades turn by 50 mm per metre; a curve that reaches station 500 moves it by 50 x (L - 200)^2 / (8 L) mm, and only one can
        t.new(*anything)
        t.pegs((0, y - up * 20_000), (400, y), (600, y), (1000, y - up * 20_000), first=12)

        def bound(station, move):
            t.fix(0, station, *((0, y - move) if up > 0 else (y + move, 9_000_000)))

        for move, length in ((1, 210), (100, 270), (400, 350), (625, 400)):
            bound(500, move)
            t.tell('fit', f'ok turns 2 total {length}')
            t.lengths(0, 0, length, 0, first=12)
            t.tell(f'examine 0 {length} 0 0', 'ok')
            t.tell(f'examine 0 {length - 5} 0 0', 'refused 35 fixed 0')
            t.tell(f'examine 0 0 {length - 5} 0', 'refused 35 fixed 0')
        bound(500, 626)
        t.tell('fit', 'refused 29 peg 13')
        # cheaper on the one side, then on the other
        bound(480, 100)
        t.tell('fit', 'ok turns 2 total 220')
        t.lengths(0, 220, 0, 0, first=12)
        bound(520, 100)
        t.tell('fit', 'ok turns 2 total 220')
        t.lengths(0, 0, 220, 0, first=12)
    # two ties in one road: both are settled by the first difference
    t.new(*anything)
    t.pegs((0, y - 20_000), (400, y), (600, y), (1000, y - 20_000), (1400, y - 20_000), (1800, y), (2000, y), (2400, y - 20_000), step=3)
    t.fix(3, 500, 0, y - 50)
    t.fix(1, 1900, 0, y - 50)
    t.tell('fit', 'ok turns 6 total 490')
    t.lengths(0, 0, 245, 0, 0, 0, 245, 0, step=3)
    for lengths in ('0 245 0 0 0 245 0 0', '0 245 0 0 0 0 245 0', '0 0 245 0 0 245 0 0'):
        t.tell(f'examine {lengths}', 'ok')
    # four turns in a row and a bound on each stretch between: the first and third curve, or the second and fourth
    t.new(*anything)
    t.pegs((0, y), (200, y + 20_000), (400, y + 30_000), (600, y + 30_000), (800, y + 20_000), (1000, y))
    for k, line in ((300, 25_000), (500, 30_000), (700, 25_000)):
        t.fix(k // 100, k, 0, y + line - 100)
    t.tell('fit', 'ok turns 4 total 540')
    t.lengths(0, 0, 270, 0, 270, 0)
    t.tell('examine 0 270 0 270 0 0', 'ok')
    t.fix(5, 500, 0, y + 30_000 - 150)
    t.tell('fit', 'ok turns 4 total 555')
    t.lengths(0, 0, 285, 0, 270, 0)
    t.tell('examine 0 270 0 285 0 0', 'ok')
    t.numbered('clear', 7)
    t.tell('fit', 'ok turns 4 total 285')
    t.lengths(0, 0, 285, 0, 0, 0)
    t.numbered('clear', 3)
    t.tell('fit', 'ok turns 4 total 285')
    t.lengths(0, 0, 0, 285, 0, 0)
    # least lengths of 210 m on a stretch of 240 m leave 270 m for the other curve
    t.new('row 0 2000 210 1', 'row 1 2000 0 2', 'table 2000 3')
    t.pegs((0, y - 20_000), (400, y), (640, y), (1040, y - 20_000))
    for move, length in ((0, 210), (1, 250), (20, 270), (21, None)):
        t.fix(3, 520, 0, y - move)
        t.tell('fit', f'ok turns 2 total {210 + length}' if length else 'refused 29 peg 1')
        if length:
            t.lengths(0, 210, length, 0)


def arrivals(t):
    """Edits that arrive late, twice and out of order: the same road, and the same fitting."""
    edits = ['place 4 3 0 100000', 'place 4 1 7 70000', 'place 8 9 400 108000', 'place 8 2 410 109000', 'lift 8 5', 'lift 9 6', 'place 9 8 800 108000', 'place 11 4 1200 100000',
             'place 30 1 9000 9000', 'lift 30 7', 'fix 0 2 600 0 107950', 'fix 0 1 600 0 107000', 'fix 5 3 700 1 2', 'clear 5 4']
    dice = random.Random(3)
    for _ in range(4):
        t.new(R)
        dice.shuffle(edits)
        for call in edits:
            t.tell(call)
        t.tell('fit', 'ok turns 2 total 640')
        for peg, length in ((4, 0), (8, 140), (9, 500), (11, 0)):
            t.tell(f'length {peg}', f'ok {length}')
        t.tell('length 30', 'refused 31')
        for call in dice.sample(edits, 3):
            assert t.tell(call) in ('refused 20', 'refused 21')
        t.tell('level 600', 'ok 107950')
    book = t.desk.answer('book').split()[2]
    t.new(R)
    t.tell(f'read {book}', 'ok')
    for call in dice.sample(edits, 4):
        assert t.tell(call) in ('refused 20', 'refused 21')
    t.tell('fit', 'ok turns 2 total 640')
    t.tell('length 9', 'ok 500')
    # a newer peg that came before the book: the book's entry stands, and edits go on from its number
    t.tell('place 9 99 820 108000', 'ok')
    t.tell('fit 1603', 'refused 25')
    t.tell(f'read {book}', 'ok')
    t.tell('place 9 10 810 108000', 'ok')
    t.tell('fit', 'ok turns 2 total 650')
    t.tell('length 8', 'ok 500')
    t.tell('length 9', 'ok 150')


def random_codes(t, dice, terrain, which):
    """A code for a road in a terrain: the standard's, a table, or the stricter of both."""
    t.tell('new', 'ok')
    while True:
        road = [dice.randrange(4), terrain, dice.randrange(2), dice.choice((0, 1, 1, 2, 2)), dice.choice((0, 0, 0, 1, 2))]
        if t.desk.answer('irc ' + ' '.join(map(str, road))) == 'ok':
            break
    t.tell('irc ' + ' '.join(map(str, road)), 'ok')
    kmh = SPEEDS[road[0]][terrain][road[2]]
    steepest = Fraction(1000, ONE_IN[road[3]]) if terrain < 2 else PER_THOUSAND[terrain][road[3]]
    if which != 'irc':
        for kind in (0, 1):
            change, least = 0, 0
            for _ in range(dice.randrange(1, 4)):
                change, least = change + dice.randrange(5, 50), least + dice.randrange(0, kmh)
                t.tell(f'row {kind} {change} {least} {dice.randrange(1, 255)}', 'ok')
            if dice.random() < 0.8:
                t.tell(f'row {kind} 400 {least + dice.randrange(0, kmh)} {dice.randrange(1, 255)}', 'ok')
        t.tell(f'table {int(steepest) + dice.choice((-1, 0, 30, 30))} {dice.randrange(1, 255)}', 'ok')
    t.tell(f'use {which}', 'ok')
    return kmh, steepest


def random_pegs(t, dice, n, kmh, steepest, tame):
    """Edits that lay out a road of n pegs, in any order, with older ones among them."""
    numbers = sorted(dice.sample(range(40), n))
    short, long = kmh, min(dice.choice((4, 7, 14, 20)) * kmh, 9900 // n)
    station, level, edits = dice.randrange(60), dice.randrange(1_000_000, 8_000_000), []
    part = dice.choice((0.3, 0.6, 1.0))
    for number in numbers:
        edits.append(f'place {number} {dice.randrange(50, 90)} {station} {level}')
        run = dice.randrange(short, long)
        most = int(steepest * run * (part if tame else 1))
        station, level = station + run, level + dice.randrange(-most, most + 1) + (0 if tame else dice.choice((0, 0, most // 2)))
    for number in dice.sample(range(40), 3):
        edits.append(dice.choice((f'lift {number} {dice.randrange(1, 50)}', f'place {number} {dice.randrange(1, 40)} {dice.randrange(10_001)} 5')))
        if number not in numbers:
            edits.append(f'lift {number} {dice.randrange(50, 90)}')
    dice.shuffle(edits)
    for call in edits:
        t.tell(call)
    return numbers


def ask(t, dice, numbers):
    """Lengths, levels and examinations of what is fitted."""
    road, lengths = t.desk.fitted
    for peg in numbers:
        t.tell(f'length {peg}')
    for _ in range(4):
        near = dice.randrange(len(numbers))
        station = road.stations[near] + dice.randrange(-lengths[near] // 2 - 3, lengths[near] // 2 + 4)
        t.tell(f'level {max(0, station)}')
    t.tell('examine ' + ' '.join(map(str, lengths)), 'ok')
    for _ in range(3 if len(numbers) > 2 else 1):
        other = list(lengths)
        for _ in range(dice.choice((1, 1, 2, 3))):
            k = dice.randrange(1, max(2, len(numbers) - 1))
            other[k] = max(0, min(2000, other[k] + dice.choice((-20, -5, -5, 5, 5, 30, 100, 600))))
        t.tell('examine ' + ' '.join(map(str, other)))


def random_bounds(t, dice, count, start=0):
    """Fixed levels near the fitted profile, that some ask to be lowered or raised."""
    road, lengths = t.desk.fitted
    for f in range(start, start + count):
        turning = [k for k in range(1, road.last) if road.turn(k)[0]]
        k = dice.choice(turning) if turning else 0
        reach = min(road.grade(k - 1)[1], road.grade(k)[1]) // 2 if turning else 0
        station = min(road.stations[-1], max(road.stations[0], road.stations[k] + dice.randrange(-reach, reach + 1)))
        y, corner = road.level(lengths, station), road.level((0,) * len(lengths), station)
        bend = abs(y - corner)
        shift = int(bend * dice.choice((0, Fraction(1, 20), Fraction(1, 9), Fraction(1, 3), Fraction(1, 2), 2)))
        down = corner > y or (corner == y and turning and road.turn(k)[0] < 0)
        bound = int(y) - shift if down else -int(-y // 1) + shift
        low, high = dice.choice(((0, bound), (bound - dice.randrange(200), bound)) if down else ((bound, 9_000_000), (bound, bound + dice.randrange(200))))
        if dice.random() < 0.3:
            low, high = int(y) - dice.randrange(500), int(y) + 1 + dice.randrange(500)
        t.fix(f, station, max(0, low), min(9_000_000, high))


def random_roads(t):
    """Roads of 2 to 12 pegs in all terrains, under all the codes."""
    dice = random.Random(2024)
    for k in range(48):
        terrain, which = k % 4, ('irc', 'table', 'irc table', 'table irc')[(k // 4) % 4]
        n = 2 + dice.randrange(11) if k >= 11 else 2 + k
        kmh, steepest = random_codes(t, dice, terrain, which)
        numbers = random_pegs(t, dice, n, kmh, steepest, tame=dice.random() < 0.85)
        have = t.tell(f'fit {401 * len(t.desk.road().pegs)}')
        if not have.startswith('ok'):
            t.tell('examine ' + ' '.join(['0'] * n))
            continue
        random_bounds(t, dice, dice.choice((1, 1, 2, 3, 4)))
        have = t.tell('fit')
        if have.startswith('ok'):
            ask(t, dice, numbers)
        else:
            t.tell('level 100', 'refused 30')


def longest(t):
    """A road of 40 pegs and 16 fixed levels."""
    dice = random.Random(40)
    t.new('irc 2 2 1 1 0')
    station, level = 5, 2_000_000
    for peg in range(40):
        t.numbered('place', peg, station, level)
        run = dice.randrange(180, 320)
        station, level = station + run, level + dice.randrange(-60 * run, 60 * run + 1)
    assert t.desk.road().stations[-1] <= 10_000
    t.tell('fit 16039', 'refused 25')
    t.tell('fit 16040')
    for f in range(16):
        random_bounds(t, dice, 1, f)
        # the model goes back to a fitted profile before it makes the next bound; a bound that can't be kept is made wide
        if not t.desk.answer('fit').startswith('ok'):
            road = t.desk.road()
            t.fix(f, road.stations[f + 3], 0, 9_000_000)
            t.desk.answer('fit')
    have = t.tell('fit')
    assert have.startswith('ok'), have
    road, lengths = t.desk.fitted
    for peg in range(40):
        t.tell(f'length {peg}', f'ok {lengths[peg]}')
    for fixed in road.fixed:
        t.tell(f'level {fixed[1]}')
    t.tell('examine ' + ' '.join(map(str, lengths)), 'ok')
    for k in (1, 7, 20, 38):
        shorter = list(lengths)
        shorter[k] -= 5
        if shorter[k] >= 0:
            t.tell('examine ' + ' '.join(map(str, shorter)))
    f, at, low, high = road.fixed[9]
    t.fix(f, at, 0, 1)
    t.tell('fit')
    t.fix(f, at, low, high)
    t.tell('fit', have)
    t.numbered('lift', 39)
    t.tell('length 1', 'refused 30')


PARTS = (worked, stores, ready, grades, turns, closed, overlaps, bounds, levels, states, examinations, ties, arrivals, random_roads, longest)


def main():
    teller = Teller()
    for part in PARTS:
        part(teller)
