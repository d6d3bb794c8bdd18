#!/usr/bin/env python3
"""What reed_solomon_compare is to print, worked out by other means: the same words, corrected by Euclid's algorithm on polynomials.

  python3 tests/reed_solomon.py | diff - crates/reed_solomon_compare/stdout
"""
from euclid import near, through, value
from fields import CONSTANTS, Field, extension_times, polynomial_times

TURNS = 400
MASK = (1 << 64) - 1


class Draw:
    def __init__(self):
        self.state = 1

    def below(self, n):
        self.state = (self.state * 6364136223846793005 + 1442695040888963407) & MASK
        return (self.state >> 33) % max(n, 1)


def trial(draw, size, turn):
    """N, K, and how many places are made blank and wrong."""
    n = 1 if turn % 8 == 0 else size if turn % 64 == 12 else draw.below(min(size, 24)) + 1
    k = n if turn % 8 == 1 else 1 if turn % 8 == 2 else draw.below(n) + 1
    d = n - k + 1
    harm = [d - 1, d, d + 1][turn % 5] if turn % 5 < 3 else draw.below(d if turn % 5 == 3 else 2 * n)
    blanks = draw.below(min(harm, n) + 1)
    if (harm - blanks) % 2:
        blanks += -1 if blanks else 1
    if turn % 16 == 3:
        blanks = n
    return n, k, blanks, min(max(harm - blanks, 0) // 2, n - blanks)


def spoil(draw, size, word, blanks, errors):
    marks = []
    for p in range(len(word)):
        pick, other = draw.below(len(word) - p), draw.below(size - 1) + 1
        blank = pick < blanks
        wrong = not blank and pick - blanks < errors
        blanks, errors = blanks - blank, errors - wrong
        if blank or wrong:
            word[p] ^= other
        marks.append(blank)
    return marks


def survey(f):
    draw = Draw()
    accepted = refused = digest = 0
    for turn in range(TURNS):
        n, k, blanks, errors = trial(draw, f.size, turn)
        message = [draw.below(f.size) for _ in range(k)]
        sent, _ = through(f, list(enumerate(message)))
        word = [value(f, sent, x) for x in range(n)]
        marks = spoil(draw, f.size, word, blanks, errors)
        points = [(x, y) for x, y in enumerate(word) if not marks[x]]
        found = near(f, k, points) if len(points) >= k else None
        noted = []
        if found is None:
            refused += 1
        else:
            accepted += 1
            noted.append(sum(value(f, found, x) != y for x, y in points) * 2 + n - len(points))
            word = [value(f, found, x) for x in range(n)]
        for number in noted + word:
            digest = (digest * 31 + number) & MASK
    return f"{accepted} accepted, {refused} refused, 0 differing, digest {digest}"


for width in range(1, 9):
    print(f"polynomial {width}: {survey(Field(1 << width, polynomial_times(width)))}")
    if width % 2 == 0:
        print(f"extension {width}: {survey(Field(1 << width, extension_times(width)))}")
