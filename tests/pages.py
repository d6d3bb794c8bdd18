"""The pages of the README's recipe, by other means than the library's: each stage takes the codeword of least score, which is found column by column
over the sums that are 0 in a codeword.
"""
from itertools import product

CELLS, BITS, BYTES, REACH, BLANK = 64, 45, 5, 8, 2
NUMBERS = [7, 3, 5, 6, 1, 2, 4, 0]  # what the bits of a column's labels stand for, the first stage's first
POWERS = [1, 2, 4, 3, 6, 7, 5]  # of 2, modulo 0xB
TEXTS = {12: "no codeword near enough", 17: "no such page", 18: "no such cell, or no such state", 20: "a spare bit is set"}
PLACES = {12: "stage", 18: "cell", 20: "bit"}  # what a place counts; that of 17 is the page


def times(a, b):
    return POWERS[(POWERS.index(a) + POWERS.index(b)) % 7] if a and b else 0


def powers(checks):
    """A power below 7 sums to 0 over all eight elements, so a polynomial with 8 - checks coefficients does so times each of these."""
    return [[1, x, times(x, x)][:checks] for x in range(8)]


# The stages of the README's recipe: inner and outer distance, symbols of a message, a label's width, and each column's factors in the sums.
STAGES = [
    (1, 8, 1, 1, [[int(x in (0, i)) for i in range(1, 8)] for x in range(8)]),
    (2, 4, 5, 3, powers(3)),
    (4, 2, 7, 3, powers(1)),
    (8, 1, 8, 1, powers(0)),
]

# Each cell is the sum of the bits whose number has no one outside the cell's own.
ROWS = {
    "".join(bits): [sum(bit == "1" and m & ~p == 0 for bit, m in zip(bits, NUMBERS)) % 2 for p in range(8)]
    for bits in product("01", repeat=8)
}


class Refused(Exception):
    """A refusal by its number, layer, place and page; the place as it is told beside the page."""

    def __str__(self):
        number, layer, place, page = self.args
        where = [layer]
        if number in PLACES:
            where.append("after the last stage" if (number, place) == (12, 0) else f"{PLACES[number]} {place}")
        if page is not None:
            where.append(f"page {page}")
        return f"refused {number} ({', '.join(where)}): {TEXTS[number]}"


def pieces(whole, size):
    return [whole[i:i + size] for i in range(0, len(whole), size)]


def harm_of(word, cells):
    return sum(1 if cell == BLANK else 2 * (cell != bit) for bit, cell in zip(word, cells))


def estimate(row, cells, inner, width):
    """The label of the next stage in the nearest row that begins with what is decided, and its harm; none where that is not below the inner distance."""
    harm, nearest = min((harm_of(word, cells), full[len(row):]) for full, word in ROWS.items() if full.startswith(row))
    return (int(nearest[:width], 2), harm) if harm < inner else None


def scores_of(found, inner, width):
    """What each label of a stage scores in a column."""
    if found is None:
        return [inner] * (1 << width)
    agreed, harm = found
    return [harm if label == agreed else 2 * inner - harm for label in range(1 << width)]


def least(scores, width, factors):
    """The least score of a codeword, and its labels: of the ways to the same sums so far, only the best is followed."""
    ways = {(0,) * len(factors[0]): (0, [])}
    for column, by in zip(scores, factors):
        steps = [(f"{label:0{width}b}", score, [times(label, factor) for factor in by]) for label, score in enumerate(column)]
        further = {}
        for sums, (total, labels) in ways.items():
            for label, score, added in steps:
                to = tuple(x ^ y for x, y in zip(sums, added))
                if to not in further or total + score < further[to][0]:
                    further[to] = total + score, labels + [label]
        ways = further
    return ways[(0,) * len(factors[0])]


def word_of(rows):
    return [cell for row in rows for cell in ROWS[row]]


def encode(bits):
    """The word of a message. A codeword begins with its message: it is the one that costs nothing where these symbols are given."""
    rows = [""] * 8
    for _, _, k, width, factors in STAGES:
        message, bits = pieces(bits[:k * width], width), bits[k * width:]
        costs = [[int(label != int(symbol, 2)) for label in range(1 << width)] for symbol in message]
        _, codeword = least(costs + [[0] * (1 << width)] * (8 - k), width, factors)
        rows = [row + label for row, label in zip(rows, codeword)]
    return word_of(rows)


def message_of(data):
    """The bits that carry a page's bytes."""
    return "".join(f"{byte:08b}" for byte in data).ljust(BITS, "0")


def correct(page, cells, watch=lambda *stage: None):
    """The harm, the codeword and the message's bits; or a refusal, at the first stage where no codeword scores low enough. What each stage sees and
    chooses is shown to `watch`."""
    rows, bits = [""] * 8, ""
    for place, (inner, outer, k, width, factors) in enumerate(STAGES, 1):
        found = [estimate(row, column, inner, width) for row, column in zip(rows, pieces(cells, 8))]
        score, codeword = least([scores_of(one, inner, width) for one in found], width, factors)
        chosen = score < inner * outer
        watch(place, inner, outer, found, [int(label, 2) for label in codeword] if chosen else None, score)
        if not chosen:
            raise Refused(12, "code", place, page)
        rows = [row + label for row, label in zip(rows, codeword)]
        bits += "".join(codeword[:k])
    harm = harm_of(word_of(rows), cells)
    if harm >= REACH:
        raise Refused(12, "code", 0, page)
    return harm, word_of(rows), bits


class Image:
    """Pages of cells, each 0, 1 or BLANK. What a call returns is told of it, and the refused ones are counted."""

    pages = []
    refused = 0

    def fetch(self, page):
        if page >= len(self.pages):
            raise Refused(17, "medium", page, page)
        return self.pages[page]

    def put(self, page, word):
        self.pages[page] = [BLANK if cell == BLANK else bit for cell, bit in zip(self.fetch(page), word)]

    def corrected(self, page):
        harm, word, bits = correct(page, self.fetch(page))
        if "1" in bits[8 * BYTES:]:
            raise Refused(20, "memory", bits.index("1", 8 * BYTES), page)
        return harm, word, [int(byte, 2) for byte in pieces(bits[:8 * BYTES], 8)]

    def write(self, page, data):
        self.put(page, encode(message_of(data)))
        return f"{self.pages[page].count(BLANK)} of its cells blank"

    def read(self, page):
        harm, _, data = self.corrected(page)
        shown = ("\\" + chr(b) if chr(b) in '"\\' else chr(b) if 32 <= b < 127 else f"\\x{b:02x}" for b in data)
        return f'harm {harm}, "{"".join(shown)}"'

    def patrol(self, page):
        harm, word, _ = self.corrected(page)
        self.put(page, word)
        return f"harm {harm}"

    def wear(self, page, cell, state):
        cells = self.fetch(page)
        if cell >= CELLS or state > BLANK:
            raise Refused(18, "medium", cell, page)
        cells[cell] = state
        return state

    def picture(self, page, word, told):
        cells = self.pages[page]
        drawn = "".join("?" if cell == BLANK else str(cell) if cell == bit else "-+"[cell] for cell, bit in zip(cells, word))
        return "\n  ".join([f"{told} {REACH}, {cells.count(BLANK)} of its cells blank", *pieces(drawn, 8)])

    def inspect(self, page):
        harm, word, _ = self.corrected(page)
        return self.picture(page, word, f"harm {harm}, {REACH - harm} from the reach")

    def tell(self, name, page, *given, quiet=None):
        where = f"{name} page {page}{f', cell {given[0]}' if name == 'wear' else ''}"
        try:
            told = getattr(self, name)(page, *given)
        except Refused as fault:
            self.refused += 1
            where, told = name, fault
            if name == "inspect" and page < len(self.pages):
                told = self.picture(page, self.pages[page], f"{fault}, reach")
        if told != quiet:
            print(f"{where}: {told}")

    def reaches(self, page, count, name, more=""):
        """Whether there are so many pages from one on; else the first that there is not is refused."""
        if count <= 0 or page + count <= len(self.pages):
            return True
        self.refused += 1
        missing = max(page, len(self.pages))
        print(f"{name}: {Refused(17, 'medium', missing, missing)}{more}")
        return False

    def act(self, line):
        match line.split():
            case ["create", count, *replace]:
                self.pages = [[0] * CELLS for _ in range(int(count))]
                print(f"create {count} pages")
            case ["write", page, file]:
                rows = pieces(open(file, "rb").read(), BYTES)
                if self.reaches(int(page), len(rows), "write", f"; the file takes {len(rows)} from page {page} on, and nothing is written"):
                    for i, data in enumerate(rows):
                        self.tell("write", int(page) + i, data)
            case ["read", page, count]:
                if self.reaches(int(page), int(count), "read"):
                    for i in range(int(count)):
                        self.tell("read", int(page) + i)
            case ["patrol"]:
                for page in range(len(self.pages)):
                    self.tell("patrol", page, quiet="harm 0")
                print(f"patrolled {len(self.pages)} of {len(self.pages)} pages")
            case [name, *numbers]:
                self.tell(name, *map(int, numbers))
