#!/usr/bin/env python3
"""The survey of recipes, worked out a second time and by other means, for the stored output of the program.

  python3 tests/survey.py < crates/pizqarod/stdin | diff - crates/pizqarod/stdout
"""
import sys
from math import comb

TEXTS = {
    1: "the recipe ends inside or before a field",
    2: "unknown chain byte",
    3: "bytes left over after the last stage",
    4: "no columns, or more than 4096 cells",
    5: "unknown kind of code, or an extension at odd width",
    6: "message length or columns do not fit the kind of code",
}


class Refused(Exception):
    pass


def chain(byte):
    """Cells, and (width, distance) of each stage."""
    high, low = byte >> 4, byte & 15
    if high == 1 and 1 <= low <= 4:
        return 1 << low, [(comb(low, k), 1 << k) for k in range(low + 1)]
    if high == 2 and 2 <= low <= 9:
        return low, [(1, 1), (low - 1, 2)]
    raise Refused(2, 0)


def survey(data):
    """Reach, bytes, bits and cells of a recipe."""
    at = 0

    def field(size):
        nonlocal at
        if len(data) - at < size:
            raise Refused(1, len(data))
        at += size
        return int.from_bytes(data[at - size:at], "big")

    cells, stages = chain(field(1))
    columns = field(2)
    if columns == 0 or cells * columns > 4096:
        raise Refused(4, 1)
    bits, reach = 0, []
    for width, inner in stages:
        kind = field(1)
        if kind > 3 or (kind == 3 and width % 2 == 1):
            raise Refused(5, at - 1)
        k = field(2)
        fits, distance = {
            0: (k == columns, 1),
            2: (k == 1, columns),
        }.get(kind, (1 <= k <= columns <= 1 << width, columns - k + 1))
        if not fits:
            raise Refused(6, at - 2)
        bits += k * width
        reach.append(inner * distance)
    if at < len(data):
        raise Refused(3, at)
    return min(reach), bits // 8, bits, cells * columns


def main():
    rows, rest = [], []
    for number, line in enumerate(sys.stdin):
        text = line.strip()
        if not text:
            continue
        try:
            data = bytes.fromhex(text) if all(c in "0123456789abcdefABCDEF " for c in text) else None
        except ValueError:
            data = None
        if data is None:
            rest.append(f"{text}: not hexadecimal text of whole bytes")
            continue
        try:
            reach, size, bits, cells = survey(data)
            rows.append((reach, size, number, f"{reach:>5}  {size:>5}  {bits:>5}  {cells:>5}  {text}"))
        except Refused as fault:
            kind, place = fault.args
            rest.append(f"{text}: refused {kind} (recipe, {'length' if kind == 1 else 'offset'} {place}): {TEXTS[kind]}")
    print("reach  bytes   bits  cells  recipe")
    for row in sorted(rows):
        print(row[3])
    for line in rest:
        print(line)


main()
