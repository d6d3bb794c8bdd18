#!/usr/bin/env python3
"""Brings this repository's own definitions and lemmas to one spelling: words in snake case, types and facts in camel case.

  python3 tools/respell.py          at the top of the repository, once, after the scripts of the Rattle that it is brought to; prints names that fall together
"""
import collections
import glob
import re
import sys

TOKEN = re.compile(r"[^\s()\[\]{}.,;:\"`«»|]+")
SIGNATURE = re.compile(r"^\s*(?:(?:abbrev|unfoldable|pub|data|record|infix\w*)\s+)*([^\s():{}.,;\"]+)((?:\s+[({][^)}]*[)}])*)\s*:(?!=)\s*(.*)$")
MADE = re.compile(r"^\s*(goal|given)\.")
# names that stand after `as`, and parameters of modules and definitions
BOUND = [
    "the-code", "the-medium", "the-memory", "the-recipe", "the-pile", "the-repetition", "the-polynomial", "the-extension",
    "harm-of", "score-of", "binary-due", "sized-due", "open-widths", "zero-there",
    "Sound-chain", "Medium-sound", "Medium-refuses", "Code-sound", "Code-refuses", "Worn-cell",
]
# names of this repository's that port.py took for the library's
TAKEN = {"type_size": "field_size", "get_d_bits": "get_or_bits"}
WORDS = {"getD": "get_or", "sumBy": "sum_by", "countBy": "count_by"}


def files(*kinds):
    return sorted(f for kind in kinds for f in glob.glob(kind, recursive=True))


def antt_files():
    return files("crates/*/specs/**/*.antt", "crates/*/proofs/**/*.antt")


def declared(text):
    """The names that a file declares, but for the goals that it answers."""
    for line in text.split("\n"):
        code = line.split("--")[0] if line.lstrip().startswith("--") else line
        match = SIGNATURE.match(code)
        if not match or code.lstrip().startswith(("use ", "let ", "module ", "open ", "|")):
            continue
        name, rest = match.group(1), match.group(3)
        if not MADE.match(rest):
            yield name


def respelt(name):
    for old, new in WORDS.items():
        name = name.replace(old, new)
    if name[0].isupper():
        return "".join(part[:1].upper() + part[1:] for part in re.split("[-_]", name))
    return name.replace("-", "_")


def answered(text):
    for line in text.split("\n"):
        match = SIGNATURE.match(line)
        if match and MADE.match(match.group(3)):
            yield match.group(1)


def split_comment(line, mark):
    """The code of a line and its comment; a mark inside a string does not begin one."""
    at = line.find(mark)
    while at >= 0 and line[:at].count('"') % 2:
        at = line.find(mark, at + 1)
    return (line, "") if at < 0 else (line[:at], line[at:])


def turned(text, mark, names):
    lines = []
    for line in text.split("\n"):
        code, comment = split_comment(line, mark)
        parts = code.split('"')
        for k in range(0, len(parts), 2):
            parts[k] = TOKEN.sub(lambda m: names.get(m.group(0), m.group(0)), parts[k])
        lines.append('"'.join(parts) + comment)
    return "\n".join(lines)


def whole(text):
    """The library's own word in place of a name that it has for something else."""
    if "AllByRecursion as All" not in text:
        return text
    text = text.replace("AllByRecursion as All", "AllByRecursion")
    return TOKEN.sub(lambda m: "AllByRecursion" if m.group(0) == "All" else m.group(0), text)


def main():
    texts = {f: open(f).read() for f in antt_files()}
    own, goals = collections.OrderedDict(), set()
    for name in BOUND:
        own[name] = respelt(name)
    for text in texts.values():
        for name in declared(text):
            own[name] = respelt(name)
        goals.update(answered(text))
    imported = set()
    for text in texts.values():
        for items in re.findall(r"use (?:Rattle\.std|borrow|denote|lib|native|mathlib)[^{;\n]*\{([^}]*)\}", text):
            imported.update(x.strip() for x in items.split(","))
    # a name that a library has too stays as the library spells it
    names = {old: new for old, new in own.items() if old != new and old not in goals and old not in imported}

    names.update(TAKEN)

    # names that fall together: with one another, with a name that stands already, or with one of the library's
    together = collections.defaultdict(set)
    for old, new in names.items():
        together[new].add(old)
    taken = set(own) - set(names)
    faults = [f"{sorted(olds)} all become {new}" for new, olds in together.items() if len(olds) > 1]
    faults += [f"{sorted(olds)} becomes {new}, which is declared already" for new, olds in together.items() if new in taken]
    faults += [f"{sorted(olds)} becomes {new}, which a library has" for new, olds in together.items() if new in imported]
    for fault in faults:
        print(fault, file=sys.stderr)

    for path in antt_files():
        new = whole(turned(texts[path], "--", names))
        if new != texts[path]:
            open(path, "w").write(new)
    for path in files("crates/*/src/**/*.rt", "crates/*/must-fail/*.edit"):
        text = open(path).read()
        new = whole(turned(text, "//", names))
        if new != text:
            open(path, "w").write(new)
    print(f"{len(names)} names respelt")


main()
