#!/usr/bin/env python3
"""Runs the program's commands and holds what each prints, its status and the files that it leaves to what is worked out by other means (tests/pages.py).

  python3 tests/commands.py PROGRAM
"""
import io
import os
import random
import resource
import signal
import subprocess
import sys
import tempfile
from contextlib import redirect_stdout

from pages import BITS, BLANK, BYTES, CELLS, Image, REACH, Refused, correct, encode, pieces

RECIPE = "13 00 08 02 00 01 01 00 05 01 00 07 00 00 08"
# Columns of two cells, nine bits of a message and reach 2.
SMALL = "11 00 08 02 00 01 00 00 08"
MESSAGE = "1 101000111010011 100001110101010001111 11010011"
# Columns of three cells, fifteen in all.
ODD = "23 00 05 02 00 01 00 00 05"
# One column of two cells: no page holds a byte.
NO_BYTE = "11 00 01 02 00 01 00 00 01"
PAGE = 16  # bytes of a page under RECIPE
MISSING = "No such file or directory (os error 2)"
UNFIT = "pages, cells or bytes outside the medium's range"
PROGRAM = os.path.abspath(sys.argv[1])


def run(*words, given="", **how):
    done = subprocess.run([PROGRAM, *map(str, words)], input=given.encode(), capture_output=True, **how)
    return done.stdout, done.stderr, done.returncode


def hold(what, got, wanted):
    if got != wanted:
        sys.exit(f"{what}: {got!r}\nin place of:\n{wanted!r}")


def expect(printed, *words, error=None, noted="", refused=False, given="", **how):
    """What is printed, what is said beside it or the error that the run ends with, and the status, which is 1 after a refusal too."""
    said, status = (noted, int(refused)) if error is None else (f"Error: {error}\n", 1)
    printed = printed if isinstance(printed, bytes) else printed.encode()
    hold(f"pizqarod {' '.join(map(str, words))}", run(*words, given=given, **how), (printed, said.encode(), status))


def content(path):
    with open(path, "rb") as file:
        return file.read()


def fill(path, data):
    with open(path, "wb") as file:
        file.write(data)
    return path


def shown(cells, breadth=8):
    return " ".join("".join("01?"[cell] for cell in column) for column in pieces(cells, breadth))


def changed(cells, *changes):
    """Cells turned over, or made blank where a number is a text with ? behind it."""
    cells = list(cells)
    for change in changes:
        if isinstance(change, str):
            cells[int(change[:-1])] = BLANK
        else:
            cells[change] = 1 - cells[change]
    return cells


def decoded(cells):
    """What decode prints."""
    lines = []

    def watch(stage, inner, outer, found, choice, score):
        lines.append(f"stage {stage}, distances {inner} and {outer}")
        lines.append("  estimates, as label/harm: " + " ".join("-" if one is None else f"{one[0]}/{one[1]}" for one in found))
        lines.append("  no choice" if choice is None else f"  choice: {' '.join(map(str, choice))}, score {score}")

    try:
        harm, word, bits = correct(None, cells, watch)
        lines += [f"corrected, with harm {harm} below the reach {REACH}", f"word: {shown(word)}", f"message: {shown([int(bit) for bit in bits])}"]
    except Refused as fault:
        lines.append(str(fault))
    return "\n".join(lines) + "\n"


class Packed(Image):
    """The same image with the values that lie under its blank cells, and so with its bytes: a page's row of values and then its row of marks."""

    def __init__(self, count):
        self.pages = [[0] * CELLS for _ in range(count)]
        self.values = [[0] * CELLS for _ in range(count)]

    def put(self, page, word):
        super().put(page, word)
        self.values[page] = [old if cell == BLANK else cell for old, cell in zip(self.values[page], self.pages[page])]

    def wear(self, page, cell, state):
        told = super().wear(page, cell, state)
        if state != BLANK:
            self.values[page][cell] = state
        return told

    def bytes(self):
        rows = (row for values, cells in zip(self.values, self.pages) for row in (values, [int(cell == BLANK) for cell in cells]))
        return b"".join(bytes(int("".join(map(str, byte)), 2) for byte in pieces(row, 8)) for row in rows)


def told(image, line):
    """What an image tells of an action, and whether it refuses a part of it."""
    out, before = io.StringIO(), image.refused
    with redirect_stdout(out):
        image.act(line)
    return out.getvalue(), image.refused > before


def words():
    """Single words: encoded, damaged, corrected and refused at each place."""
    word = encode(MESSAGE.replace(" ", ""))
    expect(shown(word) + "\n", "encode", RECIPE, MESSAGE)
    ones, zeros = [i for i in range(64) if word[i]], [i for i in range(64) if not word[i]]
    turned = [ones[0], zeros[5], f"{ones[9]}?", f"{zeros[9]}?"]
    expect(shown(changed(word, *turned)) + "\n", "damage", RECIPE, shown(word), *turned)
    near = [[], [3], [ones[1], zeros[1], zeros[20]], [*turned], [0, 9, "18?", "19?", "20?"], [f"{i}?" for i in range(7)]]
    far = [
        [1, "14?", 25, 33, 36, "41?", 43, "57?"], [8, 15, "32?", 57, 63], ["28?", 38, 44, 48, 49, 55], [1, "4?", 10, 22, 28, 42, 54, 62],
        [0, 9, 18, 27], [f"{i}?" for i in range(8)],
    ]
    places = set()
    for changes in near + far:
        damaged = changed(word, *changes)
        expect(decoded(damaged), "decode", RECIPE, shown(damaged))
        try:
            correct(None, damaged)
        except Refused as fault:
            places.add(fault.args[2])
    return places


def image(path):
    """An image by single actions, each in a run of its own, and the file that each leaves."""
    text = fill(f"{path}.text", bytes(range(32, 32 + 2 * BYTES + 1)) + b"\\\xff")
    model = Packed(3)
    expect("create 3 pages\n", "create", path, RECIPE, 3)
    for action in [
        f"write 0 {text}", "wear 0 0 1", "wear 0 1 2", "wear 1 8 2", "wear 2 63 0", "read 0 3", "read 0 4", "read 3 1", "inspect 0", "inspect 1",
        "patrol 1", "inspect 0", "patrol", "wear 1 64 0", "wear 1 0 3", "wear 5 0 0", "patrol 3", "inspect 3", "read 2 1", "read 9 0",
        f"write 1 {text}", f"write 7 {text}", *(f"wear 1 {cell} 2" for cell in range(8)), "read 0 3", "patrol", "patrol 1", "inspect 1",
    ]:
        name, *rest = action.split()
        printed, refused = told(model, action)
        expect(printed, name, path, RECIPE, *rest, refused=refused)
        hold(f"the file that {action} leaves", content(path), model.bytes())
    return model


def scripts(path, model):
    """Actions of a script, whose lines are named where one is none, and how many calls it was refused."""
    script = f"{path}.script"

    def runs(lines, *strict, error=None, refused=False, count=None):
        fill(script, "\n".join(["# a line that is passed over, and one that is empty", "", *lines, ""]).encode())
        printed = "".join(told(model, line)[0] for line in lines if line.split()[0] not in ("mend", "run") and error is None)
        expect(printed + ("" if error else f"{count} refused\n"), "run", path, RECIPE, script, *strict, error=error, refused=refused)
        hold("the file that a script leaves", content(path), model.bytes())

    runs(["wear 2 1 2", "patrol 2", "read 2 1"], count=0)
    runs(["wear 2 2 2", "patrol 2", "read 2 1"], "--strict", count=0)
    runs(["wear 2 64 2", "wear 2 0 1", "read 7 1"], count=2)
    runs(["wear 2 64 2", "wear 2 0 0", "read 7 1"], "--strict", refused=True, count=2)
    for line, error in [
        ("wrte 0 x", "'wrte' is no action"), ("run x", "'run' is no action"), ("wear 2 0", "wear takes PAGE CELL STATE"), ("read x", "'x' is no number"),
        ("wear 2 0 red", "'red' is no state of a cell: 0, 1 or 2"), (f"write 0 {path}.none", f"{path}.none: {MISSING}"),
        ("create 3", f"{path}: is there already; --replace begins it anew"), ("create 0 --replace", f"{path}: refused 21 (medium, length 0): {UNFIT}"),
    ]:
        runs([line], error=f"{script}:3: {error}")
    fill(script, b"wear 2 0 1\n\nmend 1\nwear 2 1 1\n")
    expect("wear page 2, cell 0: 1\n", "run", path, RECIPE, script, error=f"{script}:3: 'mend' is no action")
    hold("the file that a script leaves which ends early", content(path), model.bytes())
    expect("", "run", path, RECIPE, f"{path}.none", error=f"{path}.none: {MISSING}")
    fill(script, b"create 1\ncreate 2\n")
    expect("create 1 pages\n", "run", f"{path}.twice", RECIPE, script, error=f"{script}:2: {path}.twice: is there already; --replace begins it anew")
    hold("a file of a script that ends early", os.path.exists(f"{path}.twice"), False)


def copies(path):
    """Bytes at random come back as a file after a life of wear below the reach; of a page that is refused none is given."""
    draw, count, out = random.Random(20261127), 12, f"{path}.out"
    data = draw.randbytes(count * BYTES)
    model = Packed(count)
    expect(f"create {count} pages\n", "create", path, RECIPE, count)
    written = fill(f"{path}.data", data)
    expect(told(model, f"write 0 {written}")[0], "write", path, RECIPE, 0, written)
    for _ in range(3):
        for page in range(count):
            spared = [cell for cell in range(CELLS) if model.pages[page][cell] != BLANK]
            harm = model.pages[page].count(BLANK)
            lines = []
            for cell in draw.sample(spared, 4):
                state = draw.choice([1 - model.pages[page][cell]] * 3 + [BLANK])
                harm += 1 if state == BLANK else 2
                if harm < REACH:
                    lines.append(f"wear {page} {cell} {state}")
            script = fill(f"{path}.script", "\n".join(lines).encode())
            expect("".join(told(model, line)[0] for line in lines) + "0 refused\n", "run", path, RECIPE, script, "--strict")
        expect(f"{len(data)} bytes of {count} pages written to {out}\n", "read", path, RECIPE, 0, count, "--output", out)
        hold("the bytes of worn pages", content(out), data)
        printed, refused = told(model, "patrol")
        expect(printed, "patrol", path, RECIPE)
        hold("pages below the reach", refused, False)
    expect(f"{len(data)} bytes of {count} pages written to {out}\n", "read", path, RECIPE, 0, count, "--output", out)
    hold("the bytes written", content(out), data)
    expect(data, "read", path, RECIPE, 0, count, "--output", "-", noted=f"{len(data)} bytes of {count} pages written to standard output\n")
    expect(data[5:10], "read", path, RECIPE, 1, "--output", "-", noted="5 bytes of 1 pages written to standard output\n")

    spared = [cell for cell in range(CELLS) if model.pages[1][cell] != BLANK][:REACH]
    for cell in spared:
        expect(told(model, f"wear 1 {cell} 2")[0], "wear", path, RECIPE, 1, cell, 2)
    said = told(model, "read 1 1")[0] + f"10 bytes of 2 pages written to "
    expect(said + f"{out}\n", "read", path, RECIPE, 0, 3, "--output", out, refused=True)
    hold("the bytes but for a refused page's", content(out), data[:5] + data[10:15])
    expect(data[:5] + data[10:15], "read", path, RECIPE, 0, 3, "--output", "-", noted=f"{said}standard output\n", refused=True)
    fill(out, b"as before")
    beyond = f"read: refused 17 (medium, page {count}): no such page\n"
    expect(beyond, "read", path, RECIPE, 2, count - 1, "--output", out, refused=True)
    expect("", "read", path, RECIPE, count, "--output", "-", noted=beyond, refused=True)
    expect(beyond, "read", path, RECIPE, 0, 2 ** 64 - 1, refused=True)
    hold("a file that nothing is written to", content(out), b"as before")
    script = fill(f"{path}.script", f"read 0 --output {out}\nread 1 --output {out}.none\n".encode())
    printed = f"5 bytes of 1 pages written to {out}\n{told(model, 'read 1 1')[0]}0 bytes of 0 pages written to {out}.none\n1 refused\n"
    expect(printed, "run", path, RECIPE, script)
    hold("the bytes of a script", content(out), data[:5])
    os.symlink(path, f"{path}.link")
    for name in [path, f"{path}.link", f"./{path}"]:
        expect("", "read", path, RECIPE, 0, "--output", name, error=f"{path}: the bytes read would take the image's place")
    expect("", "read", path, RECIPE, 0, "--output", f"{path}/x", error=f"{path}/x: Not a directory (os error 20)")
    hold("the image after its reads", content(path), model.bytes())


def kept(folder):
    """An image is replaced only if that is told, by one that calls take, and as a whole."""
    path = os.path.join(folder, "image")
    expect("create 2 pages\n", "create", path, RECIPE, 2)
    expect("wear page 1, cell 3: 1\n", "wear", path, RECIPE, 1, 3, 1)
    before = content(path)
    expect("", "create", path, RECIPE, 2, error=f"{path}: is there already; --replace begins it anew")
    for pages, length in [(0, 0), (65536, 65536 * PAGE), (2 ** 64 - 1, 2 ** 64 - 1)]:
        error = f"refused 21 (medium, length {length}): {UNFIT}"
        expect("", "create", path, RECIPE, pages, "--replace", error=f"{path}: {error}")
        expect("", "create", f"{path}.none", RECIPE, pages, error=f"{path}.none: {error}")
    expect("", "create", f"{path}.none", NO_BYTE, 1, error=f"{path}.none: refused 19 (memory): a code that does not fit the medium")
    hold("an image that is refused", os.listdir(folder), ["image"])
    hold("an image that is not replaced", content(path), before)

    def limit():
        resource.setrlimit(resource.RLIMIT_FSIZE, (20, 20))
        resource.setrlimit(resource.RLIMIT_CORE, (0, 0))

    # A file may have 20 bytes: the first run is killed while it saves, the second is told so.
    words = ["wear", path, RECIPE, 1, 4, 1]
    hold("a run that is killed while it saves", run(*words, preexec_fn=limit)[2], -signal.SIGXFSZ)
    hold("the image that it leaves", content(path), before)
    left = [name for name in os.listdir(folder) if name != "image"]
    hold("what it leaves", [content(os.path.join(folder, name)) for name in left], [before[:4] + content(os.path.join(folder, left[0]))[4:]])
    os.remove(os.path.join(folder, left[0]))
    expect("wear page 1, cell 4: 1\n", *words, error=f"{path}: File too large (os error 27)", preexec_fn=limit, restore_signals=False)
    hold("the image that it leaves", (os.listdir(folder), content(path)), (["image"], before))

    # A file that a process of the same number has left, a link, and the permissions.
    os.symlink("image", f"{path}.link")
    os.chmod(path, 0o640)
    expect("wear page 1, cell 4: 1\n", "wear", f"{path}.link", RECIPE, 1, 4, 1, preexec_fn=lambda: fill(f"{path}.{os.getpid()}.new", b"left"))
    hold("the files after a save", sorted(os.listdir(folder)), ["image", "image.link"])
    hold("a link after a save", os.readlink(f"{path}.link"), "image")
    hold("the permissions after a save", os.stat(path).st_mode & 0o777, 0o640)
    hold("the image after a save", content(path), before[:PAGE] + bytes([0x18]) + before[PAGE + 1:])
    expect("create 1 pages\n", "create", path, RECIPE, 1, "--replace")
    hold("an image that is replaced", content(path), bytes(PAGE))


def many(path):
    """A patrol of many pages tells how far it is; there are 65,535 at most."""
    expect("create 5000 pages\n", "create", path, SMALL, 5000)
    expect("wear page 4100, cell 0: 2\n", "wear", path, SMALL, 4100, 0, 2)
    expect("patrolled 4096 of 5000 pages\npatrol page 4100: harm 1\npatrolled 5000 of 5000 pages\n", "patrol", path, SMALL)
    expect("create 65535 pages\n", "create", path, SMALL, 65535, "--replace")
    expect('read page 65534: harm 0, "\\x00"\n', "read", path, SMALL, 65534)
    # Columns 00 but for the last, 11: the word of a spare bit.
    expect("wear page 0, cell 14: 1\n", "wear", path, SMALL, 0, 14, 1)
    expect("wear page 0, cell 15: 1\n", "wear", path, SMALL, 0, 15, 1)
    expect("read: refused 20 (memory, bit 8, page 0): a spare bit is set\n", "read", path, SMALL, 0, refused=True)
    shown = "\n  ".join(["a spare bit is set, reach 2, 0 of its cells blank", *["00"] * 7, "11"])
    expect(f"inspect: refused 20 (memory, bit 8, page 0): {shown}\n", "inspect", path, SMALL, 0, refused=True)


def odd(path):
    """Fifteen cells lie in two bytes of values and two of marks."""
    expect("create 3 pages\n", "create", path, ODD, 3)
    expect("wear page 2, cell 14: 1\n", "wear", path, ODD, 2, 14, 1)
    hold("a page of fifteen cells", content(path), bytes([0] * 9 + [2] + [0] * 2))


def others(path):
    """Help, words that are no command, and what reads a recipe alone."""
    names = ["describe", "survey", "encode", "damage", "decode", "create", "write", "read", "patrol", "wear", "inspect", "run"]
    for word in ["--help", "-h", "help"]:
        printed, said, status = run(word)
        lines = printed.decode().splitlines()
        hold(word, ([line.split()[1] for line in lines if line.startswith("pizqarod ")], said, status), (names, b"", 0))
    expect("pizqarod 0.1.0\n", "--version")
    usage = "usage: pizqarod COMMAND WORD.., see pizqarod --help"
    expect("", error=usage)
    expect("", "wrte", path, RECIPE, 0, error=f"'wrte' is no command: {usage}")
    for words, line in [
        (["decode", RECIPE], "decode HEX WORD"), (["survey", "x"], "survey"), (["describe"], "describe HEX.."), (["damage", RECIPE, "01"], "damage HEX WORD CHANGE.."),
        (["write", path, RECIPE, 0], "write IMAGE HEX PAGE FILE"), (["read"], "read IMAGE HEX PAGE [COUNT] [--output FILE]"), (["run", path], "run IMAGE HEX SCRIPT [--strict]"),
        (["create", path, RECIPE, 3, "--repalce"], "create IMAGE HEX PAGES [--replace]"), (["wear", path, RECIPE, 0, 0], "wear IMAGE HEX PAGE CELL STATE"),
    ]:
        expect("", *words, error=f"usage: pizqarod {line}")
    expect("", "read", path, RECIPE, "x", error="'x' is no number")
    expect("", "read", path, RECIPE, 0, "-1", error="'-1' is no number")
    expect("", "wear", path, RECIPE, 0, 0, 256, error="'256' is no state of a cell: 0, 1 or 2")
    table = "reach  bytes   bits  cells  recipe\n14 01 01: refused 4 (recipe, offset 1): no columns, or more than 4096 cells\n"
    expect(table, "survey", given="  \n 14 01 01 \n")
    expect("recipe 1x\n  not hexadecimal text of whole bytes\nrecipe 14 01 01\n  refused 4 (recipe, offset 1): no columns, or more than 4096 cells\n", "describe", "1x", "14 01 01")
    expect("", "encode", RECIPE, "1?", error="'?' is no cell: 0, 1 and, in a word, ?")
    expect("", "decode", RECIPE, "01 é", error="'é' is no cell: 0, 1 and, in a word, ?")
    expect("", "decode", RECIPE, "01", error="refused 10 (code, length 2): a buffer of the wrong length")
    expect("", "encode", "11", "1", error="recipe '11': refused 1 (recipe, length 1): the recipe ends inside or before a field")
    expect("", "read", RECIPE, path, 0, error=f"recipe '{path}': not hexadecimal text of whole bytes")
    expect("", "damage", RECIPE, "01", 0, 2, error="'2' is no change of a cell of the word: a number, or a number and ?")
    for words in [["read", 0], ["write", 0, path], ["patrol"], ["wear", 0, 0, 1], ["inspect", 0]]:
        expect("", words[0], path, RECIPE, *words[1:], error=f"{path}: No such file or directory; create makes an image")
    hold("what a look leaves", os.path.exists(path), False)
    fill(path, bytes(15))
    for words in [["read", 0], ["write", 0, path], ["patrol"], ["wear", 0, 0, 1], ["inspect", 0]]:
        expect("", words[0], path, RECIPE, *words[1:], error=f"{path}: refused 21 (medium, length 15): {UNFIT}")
    hold("a file of no whole pages", content(path), bytes(15))
    expect("", "patrol", ".", RECIPE, error=".: no regular file")


# The names are short wherever the folder lies, since an error keeps only the beginning of a long one.
with tempfile.TemporaryDirectory() as folder:
    os.chdir(folder)
    hold("the stages that refuse words", words(), {1, 2, 3, 4})
    scripts("image", image("image"))
    copies("copied")
    many("many")
    odd("odd")
    others("none")
    os.mkdir("alone")
    kept("alone")
    os.chdir("/")
