#!/usr/bin/env python3
"""What the program compare is to print, worked out by other means: the same random recipes and words, encoded by sums of generators and decoded
by the least harm over all codewords where messages are few, and else by the syndromes of the cells, with the last wrong cell looked up. Which stage has no
choice is worked out from the syndromes of the columns, and from the scores of all codewords of a stage, or of those that Euclid's algorithm finds.

  python3 tests/compare.py | diff - crates/compare/stdout

Like the program, it takes a seed and a count of words for each recipe.
"""
import sys
from itertools import combinations
from math import comb

from euclid import near, value
from fields import CONSTANTS, Field, extension_times, polynomial_times

SEED, WORDS = [int(word) for word in sys.argv[1:]] + [20_000, 100][len(sys.argv) - 1:]
FEW_BITS, HELD_BITS, MOST_SETS = 11, 6, 50_000
MASK = (1 << 64) - 1
CHAINS = [0x11, 0x12, 0x13, 0x22, 0x23, 0x24, 0x25, 0x26, 0x27, 0x28, 0x29, 0x14]
TEXTS = {
    4: "no columns, or more than 4096 cells",
    6: "message length or columns do not fit the kind of code",
    12: "no codeword near enough",
}


FIELDS = {(1, w): Field(1 << w, polynomial_times(w)) for w in range(1, 9)}
FIELDS |= {(3, w): Field(1 << w, extension_times(w)) for w in CONSTANTS}


# outer codes: the distance, and the codewords of the messages with a single 1 among their bits

def newton(f, values, n):
    """The first n values of the polynomial through some first ones, by divided differences."""
    steps = list(values)
    for order in range(1, len(values)):
        for i in reversed(range(order, len(values))):
            steps[i] = f.div(steps[i] ^ steps[i - 1], i ^ (i - order))
    word = []
    for x in range(n):
        value = 0
        for i in reversed(range(len(values))):
            value = f.mul(value, x ^ i) ^ steps[i]
        word.append(value)
    return word


def outer(kind, width, k, n):
    """Distance and codewords of a code, or None where k and n do not fit."""
    bits = [1 << b for b in reversed(range(width))]
    if kind == 0:
        return (1, [[b if i == j else 0 for j in range(n)] for i in range(n) for b in bits]) if k == n else None
    if kind == 2:
        return (n, [[b] * n for b in bits]) if k == 1 else None
    if kind == 3 and width % 2 or not 1 <= k <= n <= 1 << width:
        return None
    f = FIELDS[kind, width]
    rows = [newton(f, [int(i == j) for j in range(k)], n) for i in range(k)]
    return n - k + 1, [[f.mul(b, y) for y in row] for row in rows for b in bits]


# chains: the cells of each label bit, as a number whose bit p is cell p

def product_cells(r, m):
    """The cells of a product of variables, doubled variable by variable."""
    cells, length = 1, 1
    for bit in range(r):
        cells = cells << length if m >> bit & 1 else cells | cells << length
        length *= 2
    return cells


def chain(byte):
    """How many cells, and for each stage its distance and the cells of its label bits, most significant first."""
    size = byte & 15
    if byte >> 4 == 1:
        ones = [[m for m in range(1 << size) if m.bit_count() == size - i] for i in range(size + 1)]
        return 1 << size, [(1 << i, [product_cells(size, m) for m in numbers]) for i, numbers in enumerate(ones)]
    last = 1 << (size - 1)
    return size, [(1, [last]), (2, [1 << p | last for p in range(size - 1)])]


# piles

class Refused(Exception):
    pass


class Pile:
    """The cells, the reach, and the codewords of the messages with a single 1, as numbers whose bit p is cell p."""

    def __init__(self, data, inner=None):
        n, stages = chain(data[0])
        columns = data[1] << 8 | data[2]
        if not 1 <= columns <= 4096 // n:
            raise Refused(4, 1)
        self.n, self.cells, self.columns, self.generators, reach = n, n * columns, columns, [], []
        self.stages = []
        for i, (distance, label_cells) in enumerate(stages):
            kind, k = data[3 + 3 * i], data[4 + 3 * i] << 8 | data[5 + 3 * i]
            code = outer(kind, len(label_cells), k, columns)
            if code is None:
                raise Refused(5 if kind > 3 or kind == 3 and len(label_cells) % 2 else 6, 4 + 3 * i)
            held = inner and len(label_cells) == 1
            if held:
                code = inner.reach, [[g >> j & 1 for j in range(columns)] for g in inner.generators]
            reach.append(distance * code[0])
            rows = Column(n, [cells for _, later in stages[i:] for cells in later], distance)
            field = FIELDS[kind, len(label_cells)] if kind & 1 and not held else None
            self.stages.append(Stage(rows, label_cells, code, kind == 0 and not held, field, k))
            self.generators += [lay(n, label_cells, word) for word in code[1]]
        self.bits, self.reach = len(self.generators), min(reach)


def lay(n, label_cells, word):
    cells = 0
    for j, label in enumerate(word):
        for b, column in enumerate(reversed(label_cells)):
            if label >> b & 1:
                cells ^= column << n * j
    return cells


class Column:
    """The rows of a column that begin with zeros, as a code of its own."""

    def __init__(self, n, generators, reach):
        self.cells, self.generators, self.reach = n, generators, reach


class Stage:
    """The rows of a stage, the cells that its label bits add, and its code: the distance and the codewords of single bits."""

    def __init__(self, rows, label_cells, code, is_open, field, k):
        self.rows, self.label_cells, self.inner = rows, label_cells, rows.reach
        self.outer, self.generators, self.is_open, self.field, self.k = *code, is_open, field, k
        self.decoder, self.known, self.all = None, {}, None

    def estimate(self, cells, readable):
        """The label and the harm of the row that is nearer than the distance, or None."""
        key = cells & readable, readable
        if key not in self.known:
            self.decoder = self.decoder or Syndromes(self.rows)
            blanks = self.rows.cells - readable.bit_count()
            found = self.decoder.nearest(*key, blanks, self.inner)
            width = len(self.label_cells)
            self.known[key] = found and (int("".join(map(str, spread(found[2], width))), 2), found[0])
        return self.known[key]

    def score(self, estimates, word):
        score = 0
        for estimate, symbol in zip(estimates, word):
            score += self.inner if estimate is None else estimate[1] if estimate[0] == symbol else 2 * self.inner - estimate[1]
        return score

    def candidates(self, estimates):
        n = len(estimates)
        if self.is_open:
            return [[e[0] if e else 0 for e in estimates]]
        if len(self.generators) <= FEW_BITS or self.field is None:
            if self.all is None:
                self.all = [[0] * n]
                for generator in self.generators:
                    self.all += [[a ^ b for a, b in zip(word, generator)] for word in self.all]
            return self.all
        words = []
        for threshold in sorted({e[1] + 1 for e in estimates if e}):
            points = [(x, e[0]) for x, e in enumerate(estimates) if e and e[1] < threshold]
            found = near(self.field, self.k, points) if len(points) >= self.k else None
            if found is not None:
                words.append([value(self.field, found, x) for x in range(n)])
        return words

    def choice(self, estimates):
        return next((word for word in self.candidates(estimates) if self.score(estimates, word) < self.inner * self.outer), None)


def without_choice(pile, cells, readable):
    """The number of the first stage without a choice, or 0."""
    columns = [[cells >> pile.n * j & (1 << pile.n) - 1, readable >> pile.n * j & (1 << pile.n) - 1] for j in range(pile.columns)]
    for number, stage in enumerate(pile.stages, 1):
        choice = stage.choice([stage.estimate(*column) for column in columns])
        if choice is None:
            return number
        for column, label in zip(columns, choice):
            for b, added in enumerate(reversed(stage.label_cells)):
                if label >> b & 1:
                    column[0] ^= added
    return 0


def encode(generators, message):
    word = 0
    for generator, bit in zip(generators, message):
        if bit:
            word ^= generator
    return word


# decoders: the harm, the codeword and the message as numbers, the message's first bit the lowest

class Exhaustive:
    fewest = 0

    def __init__(self, pile):
        self.words = [0]
        for generator in pile.generators:
            self.words += [word ^ generator for word in self.words]

    def nearest(self, cells, readable, blanks, bound):
        wrong = [((word ^ cells) & readable).bit_count() for word in self.words]
        least = min(wrong)
        if blanks + 2 * least >= bound:
            return None
        message = wrong.index(least)
        return blanks + 2 * least, self.words[message], message


def reduce_by(basis, row):
    """A row of cells and what was added up in it, without the highest cells of a basis."""
    vector, summed = row
    for top, (other, parts) in basis:
        if vector >> top & 1:
            vector, summed = vector ^ other, summed ^ parts
    return vector, summed


def extend(basis, row):
    """Adds a row to a basis, if it is no sum of its rows."""
    vector, summed = reduce_by(basis, row)
    if vector:
        basis.append((vector.bit_length() - 1, (vector, summed)))


class Syndromes:
    """The syndrome of a word is what its reduction by the code's basis leaves; it adds up, cell by cell."""

    def __init__(self, pile):
        self.cells, self.basis = pile.cells, []
        for i, generator in enumerate(pile.generators):
            extend(self.basis, (generator, 1 << i))
        self.of_cell = [reduce_by(self.basis, (1 << p, 0))[0] for p in range(pile.cells)]
        flips = max(t for t in range(pile.cells) if all(comb(pile.cells, s) <= MOST_SETS for s in range(t + 1)))
        self.fewest = max(pile.reach - 1 - 2 * flips, 0)

    def nearest(self, cells, readable, blanks, bound):
        if blanks >= bound:
            return None
        fill = []
        for p in range(self.cells):
            if not readable >> p & 1:
                extend(fill, (self.of_cell[p], 1 << p))
        word = cells & readable
        syndrome, filled = reduce_by(fill, (reduce_by(self.basis, (word, 0))[0], 0))
        wrong = self.wrong(syndrome, fill, readable, (bound - 1 - blanks) // 2)
        if wrong is None:
            return None
        for p in wrong:
            word ^= 1 << p
            filled ^= reduce_by(fill, (self.of_cell[p], 0))[1]
        word ^= filled
        rest, message = reduce_by(self.basis, (word, 0))
        assert rest == 0
        return blanks + 2 * len(wrong), word, message

    def wrong(self, syndrome, fill, readable, most):
        """The least set of readable cells whose syndromes add up to one, of at most so many."""
        if syndrome == 0:
            return ()
        if most == 0:
            return None
        places = [p for p in range(self.cells) if readable >> p & 1]
        of = {p: reduce_by(fill, (self.of_cell[p], 0))[0] for p in places}
        place = {vector: p for p, vector in of.items()}
        if syndrome in place:
            return (place[syndrome],)
        for size in range(1, most):
            for first in combinations(places, size):
                rest = syndrome
                for p in first:
                    rest ^= of[p]
                last = place.get(rest)
                if last is not None and last not in first:
                    return (*first, last)
        return None


# random recipes and words

class Random:
    def __init__(self, seed):
        self.state = seed

    def below(self, n):
        self.state = (self.state * 6364136223846793005 + 1442695040888963407) & MASK
        return (self.state >> 33) % (n or 1)


class Drawer:
    def __init__(self, random):
        self.random, self.accepted, self.refused = random, 0, 0

    def recipe(self, byte, most_cells, columns, most_symbols):
        below = self.random.below
        byte = byte or CHAINS[below(12)]
        n, stages = chain(byte)
        if columns is None:
            most = most_cells // n
            columns = below(min([4, 16, 64, most][below(4)], most)) + 1
        data = [byte, *divmod(columns, 256)]
        for _ in stages:
            kind = below(4)
            k = columns if kind == 0 else 1 if kind == 2 else below(min(columns, most_symbols) + 2)
            data += [kind, *divmod(k, 256)]
        data[1] %= 256
        return data

    def read(self, data, inner=None):
        try:
            pile = Pile(data, inner)
        except Refused:
            self.refused += 1
            return None
        self.accepted += 1
        return pile

    def pile(self, depth, byte, most_cells, most_symbols):
        """The bytes and the pile of recipes one in the other, the last with a chain byte, or None."""
        data = self.recipe(byte if depth == 1 else None, most_cells, None, most_symbols)
        pile = self.read(data)
        for level in range(1, depth):
            if pile is None or pile.bits > HELD_BITS:
                return None
            more = self.recipe(byte if level + 1 == depth else None, most_cells, pile.cells, most_symbols)
            data, pile = data + more, self.read(more, pile)
        return pile and (data, pile)


def trial(random, cells, reach, fewest, turn):
    """How many cells are made blank and turned over, and whether the word is no codeword at first."""
    aim = [reach - 1, reach - 1, reach, reach + 1][turn % 8] if turn % 8 < 4 else random.below(reach if turn % 8 < 6 else 2 * reach)
    most = fewest if turn % 16 < 8 else min(aim, cells)
    drawn = fewest + random.below(max(most - fewest, 0) + 1)
    blanks = min(drawn + max(aim - drawn, 0) % 2, cells)
    return blanks, min(max(aim - blanks, 0) // 2, cells - blanks), turn % 8 == 7


def spoil(random, word, blanks, flips):
    below, left, marks = random.below, len(word), [0] * len(word)
    for p in range(len(word)):
        pick = below(left)
        left -= 1
        if pick < blanks:
            blanks -= 1
            word[p] = below(2)
            marks[p] = 1
        elif pick - blanks < flips:
            flips -= 1
            word[p] ^= 1
    return marks


def spread(number, length):
    return [number >> p & 1 for p in range(length)]


def gather(cells):
    return int("".join(map(str, reversed(cells))), 2)


class Tally:
    def __init__(self):
        self.recipes = self.words = self.digest = 0
        self.correct, self.message_of, self.places = [0, 0], [0, 0], [0] * 6

    def note(self, numbers):
        digest = self.digest
        for number in numbers:
            digest = (digest * 31 + number) & MASK
        self.digest = digest

    def word(self, random, pile, decoder, turn):
        blanks, flips, stray = trial(random, pile.cells, pile.reach, decoder.fewest, turn)
        drawn = [random.below(2) for _ in range(pile.cells if stray else pile.bits)]
        word = drawn if stray else spread(encode(pile.generators, drawn), pile.cells)
        marks = spoil(random, word, blanks, flips)
        self.words += 1
        self.note(word)
        self.note(marks)
        whole, cells = (1 << pile.cells) - 1, gather(word)
        found = decoder.nearest(cells, whole ^ gather(marks), blanks, pile.reach)
        self.correct[found is None] += 1
        if found:
            self.note(found[0].to_bytes(8, "big"))
            self.note(spread(found[1], pile.cells))
            self.note(spread(found[2], pile.bits))
        else:
            place = without_choice(pile, cells, whole ^ gather(marks))
            self.places[place] += 1
            self.note(place.to_bytes(8, "big"))
        found = decoder.nearest(cells, whole, 0, 1)
        self.message_of[found is None] += 1
        if found:
            self.note(spread(found[2], pile.bits))

    def show(self, name):
        print(f"{name}: {self.recipes} recipes, {self.words} words, digest {self.digest}")
        for call, (accepted, refused) in ("correct", self.correct), ("message-of", self.message_of):
            for side in "library", "other decoder":
                print(f"  {call}, {side}: {accepted} accepted, {refused} refused")
            if call == "correct":
                for side in "library", "other decoder":
                    print(f"  refused at stages 1 to 5 and after the last, {side}:", *self.places[1:], "and", self.places[0])


def wanted(name, turn):
    """The chain byte or None, the least reach, the most cells and the most symbols of a message."""
    if name == "exhaustive":
        return CHAINS[turn % 11], 1 << turn // 11 % 4, 4096 if turn // 11 == 7 else 256, 2
    if name == "elimination":
        return (CHAINS[turn % 12], turn // 12 % 2 + 1, 256, 256) if turn < 48 else (None, 4 << turn % 3, 256, 256)
    return CHAINS[turn % 11] if name == "nested" else None, turn % 4 + 1, 12, 2


def compare(random, drawer, name, turns, depth):
    tally = Tally()
    for turn in range(turns):
        byte, reach, most_cells, most_symbols = wanted(name, turn)
        drawn = None
        while not drawn or (drawn[1].bits <= FEW_BITS) != (name != "elimination") or drawn[1].reach < reach:
            drawn = drawer.pile(depth, byte, most_cells, most_symbols)
        data, pile = drawn
        tally.recipes += 1
        tally.note(data)
        decoder = Exhaustive(pile) if pile.bits <= FEW_BITS else Syndromes(pile)
        for word in range(WORDS):
            tally.word(random, pile, decoder, word)
    tally.show(name)


# the worked examples

def refused(number, layer, place, page=""):
    return f"refused {number} ({layer}, place {place}{page}): {TEXTS[number]}"


def worn(name, states):
    """A page of zeros, with cell 9j in state states[j]."""
    pile = Pile(bytes.fromhex("130008020001010005010007000008"))
    cells = sum(1 << 9 * j for j, state in enumerate(states) if state == 1)
    blank = sum(1 << 9 * j for j, state in enumerate(states) if state == 2)
    found = Syndromes(pile).nearest(cells, ~blank & (1 << pile.cells) - 1, states.count(2), pile.reach)
    if found:
        data = "".join(map(str, spread(found[2], pile.bits)))
        shown = bytes(int(data[8 * i:8 * i + 8], 2) for i in range(pile.bits // 8)).hex()
        return f"{name}: read with harm {found[0]}, bytes {shown}"
    # Stage 1 repeats the sum of a column's cells: a blank column counts 1 against both labels, another 2 against the one that it has not.
    scores = [sum(1 if state == 2 else 2 * (state != label) for state in states) for label in (0, 1)]
    assert min(scores) >= 8
    return f"{name}: {refused(12, 'code', 1, ', page 0')}"


def bound(name, text):
    try:
        pile = Pile(bytes.fromhex(text))
    except Refused as fault:
        return f"{name}: {refused(fault.args[0], 'recipe', fault.args[1])}"
    return f"{name}: accepted, {pile.cells} cells, reach {pile.reach}"


def main():
    print(worn("three flips and a blank", [1, 1, 1, 2, 0, 0, 0, 0]))
    print(worn("seven blanks", [2] * 7 + [0]))
    print(worn("four flips", [1, 1, 1, 1, 0, 0, 0, 0]))
    print(worn("eight blanks", [2] * 8))
    print(bound("16 cells a column, N = 256", "140100" + "020001" * 4 + "000100"))
    print(bound("16 cells a column, N = 257", "140101" + "020001" * 4 + "000101"))
    print(bound("Reed-Solomon at width 3, N = 8", "130008020001010005010007000008"))
    print(bound("Reed-Solomon at width 3, N = 9", "130009020001010005010007000009"))
    random = Random(SEED)
    drawer = Drawer(random)
    compare(random, drawer, "exhaustive", 132, 1)
    compare(random, drawer, "elimination", 96, 1)
    compare(random, drawer, "nested", 22, 2)
    compare(random, drawer, "nested twice", 8, 3)
    print(f"recipes drawn: {drawer.accepted} accepted and {drawer.refused} refused by both readers")
    print("no difference")


main()
