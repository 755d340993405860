#!/usr/bin/env python3
"""Holds the model's fitting to a trial of every list of lengths, on short roads with random codes.

Neighbours' lengths together are at most twice their gap, so short gaps leave few lists. Run from anywhere: tools/check_model.py [ROADS]
"""
import random
import sys
from collections import Counter
from fractions import Fraction
from itertools import product

from model import Irc, Refused, Road, Stricter, Table, irc_refusal, table_fine

SEEN = Counter()


def height(road, lengths, station):
    """The exact level, curve by curve: the line of the two pegs around the station, and each curve that reaches it."""
    s, y = road.stations, road.levels
    k = max(k for k in range(len(s) - 1) if s[k] <= station)
    h = y[k] + Fraction(y[k + 1] - y[k], s[k + 1] - s[k]) * (station - s[k])
    for j in range(1, len(s) - 1):
        half = Fraction(lengths[j], 2)
        if j in (k, k + 1) and abs(station - s[j]) < half:
            change = Fraction(y[j + 1] - y[j], s[j + 1] - s[j]) - Fraction(y[j] - y[j - 1], s[j] - s[j - 1])
            h += change * (half - abs(station - s[j])) ** 2 / (2 * lengths[j])
    return h


def turn(road, j):
    s, y = road.stations, road.levels
    return (y[j + 1] - y[j]) * (s[j] - s[j - 1]) - (y[j] - y[j - 1]) * (s[j + 1] - s[j]), (s[j] - s[j - 1]) * (s[j + 1] - s[j])


def keeps(road, code, lengths, first):
    """Whether a list for all pegs keeps the curve of peg `first` and every rule on the stretches and turns after it."""
    n, s, y = len(road.pegs), road.stations, road.levels
    return (all(code.curve(*turn(road, j), lengths[j]) == 0 for j in range(max(first, 1), n - 1))
            and all(code.grade(y[j + 1] - y[j], s[j + 1] - s[j]) == 0 for j in range(first, n - 1))
            and all(lengths[j] + lengths[j + 1] <= 2 * (s[j + 1] - s[j]) for j in range(first, n - 1))
            and all(low <= height(road, lengths, at) <= high for _, at, low, high in road.fixed if at >= s[first]))


def trial(road, code):
    """What a fitting should say, by trying every list: the best, or the refusal with its words."""
    n, s, y = len(road.pegs), road.stations, road.levels
    for j in range(n - 1):
        c = code.grade(y[j + 1] - y[j], s[j + 1] - s[j])
        if c:
            return 27, f'peg {road.pegs[j][0]} clause {c}'
    for j in range(1, n - 1):
        if all(code.curve(*turn(road, j), l) for l in range(0, 2001, 5)):
            return 28, f'peg {road.pegs[j][0]} clause {code.curve(*turn(road, j), 2000)}'
    choices = [[0]] + [range(0, 2 * min(s[j] - s[j - 1], s[j + 1] - s[j]) + 1, 5) for j in range(1, n - 1)] + [[0]]
    good = sorted((sum(l), l) for l in product(*choices) if keeps(road, code, l, 0))
    if good:
        SEEN['fitted, with a tie'] += len(good) > 1 and good[0][0] == good[1][0]
        return good[0]
    # the last peg from which on nothing fits; its own curve may then be of any length up to the gap after it
    for first in reversed(range(n - 1)):
        own = [0] if first == 0 else range(0, 2 * (s[first + 1] - s[first]) + 1, 5)
        rest = choices[first + 1:]
        if not any(keeps(road, code, (0,) * first + l, first) for l in product(own, *rest)):
            return 29, f'peg {road.pegs[first][0]}'
    raise AssertionError('some list fits from the first peg on')


def random_code(dice):
    kinds = dice.choice(('irc', 'table', 'table', 'both'))
    while True:
        figures = [dice.randrange(4), dice.choice((2, 3)), 1, 2, 0]
        if not irc_refusal(figures):
            irc = Irc(*figures)
            break
    rows, change = [], {0: 0, 1: 0}
    for _ in range(dice.randrange(1, 6)):
        kind = dice.randrange(2)
        change[kind] += dice.randrange(1, 120)
        rows.append((kind, change[kind], dice.choice((0, 0, 5, 10, 15, 20, 25, 33, 60)), dice.randrange(1, 255)))
    rows += [(kind, 600, dice.choice((0, 10, 20)), 9) for kind in (0, 1) if dice.random() < 0.8]
    table = Table(rows, dice.choice((60, 150, 300)), 77)
    assert table_fine(rows, 300, 77)
    return irc if kinds == 'irc' else table if kinds == 'table' else dice.choice((Stricter(irc, table), Stricter(table, irc)))


def random_road(dice):
    n = dice.choice((2, 3, 4, 4, 5, 5, 5))
    station, level, pegs, steep = dice.randrange(50), 500_000, [], dice.choice((20, 60, 100, 250))
    for k in range(n):
        pegs.append((2 * k + 1, station, level))
        run = dice.randrange(10, 34)
        station, level = station + run, level + dice.randrange(-steep * run, steep * run + 1)
    road = Road(pegs, [])
    # bounds around the level of some list, so that some can be kept and many can't
    hidden = [0] + [5 * dice.randrange(0, min(road.grade(j - 1)[1], road.grade(j)[1]) // 5 + 1) for j in range(1, n - 1)] + [0]
    for f in range(dice.choice((0, 1, 1, 2, 3))):
        at = dice.choice((dice.choice(road.stations), dice.randrange(road.stations[0], road.stations[-1] + 1)))
        y = height(road, hidden, at)
        low, high = dice.choice(((0, int(y)), (-int(-y // 1), 9_000_000), (int(y) - dice.randrange(60), int(y) + 1 + dice.randrange(60))))
        road.fixed.append((f, at, max(0, low), high))
    return road


def mirrored_road(dice):
    """A road that is the same from both ends, with a bound in its middle that a longer curve on either side can keep."""
    side, middle, rise = dice.randrange(20, 34), 2 * dice.randrange(8, 15), dice.randrange(-4000, 4001)
    s = [7, 7 + side, 7 + side + middle, 7 + 2 * side + middle]
    y = [500_000, 500_000 + rise, 500_000 + rise, 500_000]
    pull = abs(Fraction(rise, side)) * dice.randrange(1, 6) / 10
    low, high = (0, int(y[1] - pull)) if rise > 0 else (int(y[1] + pull) + 1, 9_000_000)
    return Road(list(zip((3, 20, 21, 39), s, y)), [(8, s[1] + middle // 2, low, high)])


def main(count):
    dice = random.Random(11)
    for _ in range(count):
        road, code = dice.choice((random_road, random_road, random_road, mirrored_road))(dice), random_code(dice)
        want = trial(road, code)
        try:
            have = road.fit(code)
        except Refused as refusal:
            have = refusal.args
        assert have == want, (road.pegs, road.fixed, vars(code), have, want)
        fits = not isinstance(want[1], str)
        SEEN[f'fitting refused {want[0]}' if not fits else 'fitted, with curves' if want[0] else 'fitted, without curves'] += 1
        # an examination passes exactly the lists that keep every rule
        for _ in range(20):
            lengths = (0,) + tuple(5 * dice.randrange(9) for _ in road.pegs[2:]) + (0,)
            lengths = want[1] if fits and dice.random() < 0.1 else lengths
            try:
                road.examine(code, lengths)
                said = 'examined and passed'
            except Refused as refusal:
                said = f'examination refused {refusal.args[0]}'
            assert (said == 'examined and passed') == keeps(road, code, lengths, 0), (road.pegs, road.fixed, lengths)
            SEEN[said] += 1
    for said, n in sorted(SEEN.items()):
        print(f'{n} {said}')
    print(f'{count} roads agree')


main(int(sys.argv[1]) if len(sys.argv) > 1 else 1000)
