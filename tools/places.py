#!/usr/bin/env python3
"""Lists the places in crates/*/src that docs/DESIGN-PASS.md counts.

    python3 tools/places.py [ROOT]          the counts, a line a point
    python3 tools/places.py [ROOT] --list   each place too
"""
import collections
import pathlib
import re
import sys

root = pathlib.Path(next((a for a in sys.argv[1:] if not a.startswith("--")), "."))
show = "--list" in sys.argv


def sources():
    for path in sorted(root.glob("crates/*/src/**/*.rt")):
        yield path.relative_to(root), path.read_text().split("\n")


def code_lines():
    """Lines of code: no comments, no clauses, no ghost items."""
    for path, lines in sources():
        for number, line in enumerate(lines, 1):
            bare = line.strip()
            if not bare.startswith(("//", "ghost", "requires", "ensures", "#")):
                yield path, number, bare


def matching(pattern):
    return [(p, n, l) for p, n, l in code_lines() if re.search(pattern, l)]


def functions():
    """(path, line, name, parameters, clauses) of each function."""
    for path, lines in sources():
        text = "\n".join(lines)
        for m in re.finditer(r"\bfn (\w+)(?:<[^(]*>)?\(([^)]*)\)[^{;]*?(?=\n\s*(?:requires|ensures)|\s*\{|;)", text):
            rest = text[m.end():]
            clauses = []
            for c in re.finditer(r"\s*(?:requires|ensures)[^{]*\{(.*)\}\n", rest):
                if c.start() != sum(len(x) for x in clauses):
                    break
                clauses.append(c.group(0))
            parameters = tuple(
                re.sub(r"\s+", " ", p.strip()) for p in m.group(2).split(",") if p.strip()
            )
            yield path, text.count("\n", 0, m.start()) + 1, m.group(1), parameters, "".join(clauses)


def repeated_names():
    """Free functions and inherent methods whose name and body's shape stand in more than one file."""
    at = collections.defaultdict(set)
    for path, number, name, _, _ in functions():
        line = (root / path).read_text().split("\n")[number - 1]
        trait_method = re.match(r"\s+fn (check|width|len|message_len|distance|encode|message_of|correct|breadth|stages|word_of|estimate|pages|fetch|put|wear|sum|product|inverse|fmt|from|next|main)\b", line)
        if not trait_method:
            at[name].add(path)
    return [(", ".join(str(p) for p in sorted(ps)), 0, name) for name, ps in sorted(at.items()) if len(ps) > 1 and name not in ("new", "main")]


def room_pairs():
    return [(p, n, l.strip()) for p, lines in sources() for n, l in enumerate(lines, 1) if "The same as `" in l or re.search(r"fn \w+_in\b", l)]


def limits():
    return matching(r"const \w+: usize = (5|4096|65535|20480|256|260|65536|66820);")


def travelling():
    """Groups of three parameters and more that stand in three functions and more of one crate."""
    groups = collections.defaultdict(set)
    for path, number, name, parameters, _ in functions():
        plain = tuple(sorted(p for p in parameters if "self" not in p))
        for a in range(len(plain)):
            for b in range(a + 1, len(plain)):
                for c in range(b + 1, len(plain)):
                    groups[(path.parts[1], plain[a], plain[b], plain[c])].add(name)
    wide = {g: f for g, f in groups.items() if len(f) >= 3}
    by_crate = collections.defaultdict(set)
    for g, f in wide.items():
        by_crate[g[0]] |= f
    return [(crate, 0, ", ".join(sorted(f))) for crate, f in sorted(by_crate.items())]


def repeated_facts():
    """Facts of a `requires` that stand in the contracts of three functions and more of one file."""
    facts = collections.defaultdict(set)
    for path, number, name, _, clauses in functions():
        for m in re.finditer(r"requires[^{]*\{(.*)\}", clauses):
            for part in re.split(r" × ", m.group(1)):
                fact = part.strip().strip("()").strip()
                if len(fact) > 8:
                    facts[(path, fact)].add(name)
    return [(p, 0, f"{f}: {', '.join(sorted(ns))}") for (p, f), ns in sorted(facts.items(), key=str) if len(ns) >= 3]


POINTS = [
    ("1 enums, flags and numbers for kinds", lambda: matching(r"\benum [A-Z]|Result<bool|-> bool|state: u8")),
    ("2 functions of one name in several files", repeated_names),
    ("2 pairs that differ in room to work in", room_pairs),
    ("2 one limit written in several places", limits),
    ("3 loops over a range, `while` and `loop`", lambda: matching(r"\bfor \w+ in [^{]*\.\.|\bwhile\b|\bloop\b")),
    ("3 loops that reach into a second slice", lambda: matching(r"\.enumerate\(\) \{")),
    ("4 equality, copying and text by hand", lambda: matching(r"\bfn (same|copy|begins|text|code_name|named)\b|-> &'static str")),
    ("5 parameters that travel together", travelling),
    ("5 facts repeated in contracts", repeated_facts),
    ("6 arrays of a fixed length", lambda: matching(r"\[[^\[\]]+; [A-Z0-9_]+\]")),
    ("7 functions as values, dyn, switches on a step", lambda: matching(r"\bdyn |: fn\(|Box<|match (command|stage|turn)\b|if stage == ")),
]

for title, places in POINTS:
    found = places()
    print(f"{title}: {len(found)}")
    if show:
        for path, number, text in found:
            print(f"    {path}:{number}: {text}" if number else f"    {path}: {text}")
answers = list(root.glob("crates/*/proofs/**/*.antt"))
total = sum(len(p.read_text().split("\n")) for p in answers)
print(f"8 files below proofs/: {len(answers)}, of {total} lines")
