#!/usr/bin/env python3
"""Lists the places in crates/*/src that docs/DESIGN-PASS.md counts, by its points, and says how many there are.

    tools/places.py [POINT..]      at the top of a checkout; by default every point that a text can show: 1 2 3 4 5 6 7
"""
import collections
import glob
import re
import sys

sources = {path: open(path).read() for path in sorted(glob.glob("crates/*/src/*.rt"))}


def lines(pattern, comments=False):
    for path, text in sources.items():
        for number, line in enumerate(text.split("\n"), 1):
            if line.lstrip().startswith("//") == comments and re.search(pattern, line):
                yield f"{path}:{number}", line.strip()


def functions():
    """Each function: where it stands, its name, its parameters as (name, type), its type parameters, its body."""
    for path, text in sources.items():
        for found in re.finditer(r"^ *(?:pub )?(?:extern \"C\" )?fn (\w+)(<[^(]*>)?\(", text, re.M):
            depth, at = 1, found.end()
            while depth:
                depth += {"(": 1, ")": -1}.get(text[at], 0)
                at += 1
            inside = re.sub(r"\s+", " ", text[found.end():at - 1])
            parts, level, part = [], 0, ""
            for letter in inside:
                level += {"[": 1, "(": 1, "<": 1, "]": -1, ")": -1, ">": -1}.get(letter, 0)
                if letter == "," and level == 0:
                    parts.append(part)
                    part = ""
                else:
                    part += letter
            parts.append(part)
            names = [tuple(x.strip() for x in p.split(":", 1)) for p in parts if ":" in p]
            start = re.compile(r"^ *\{$|\{$", re.M).search(text, at)
            end = re.compile(r"^" + re.match(r" *", found.group()).group() + r"\}", re.M).search(text, start.end())
            yield f"{path}:{text.count(chr(10), 0, found.start()) + 1}", found.group(1), names, text[start.end():end.start()]


def enums():
    for path, text in sources.items():
        for found in re.finditer(r"enum (\w+) \{(.*?)^\}", text, re.M | re.S):
            yield f"{path}:{text.count(chr(10), 0, found.start()) + 1}", found.group(1), re.findall(
                r"^    (\w+)( \{|\(|,| =)", found.group(2), re.M)


def point1():
    for where, name, variants in enums():
        unit = [v for v, rest in variants if rest[0] in ", " and rest != " {"]
        if len(variants) == 2 and len(unit) == 1:
            yield "own Option", where, name
        elif any(v == "Refused" for v, _ in variants):
            yield "own Result", where, name
        elif len(variants) == 2 and len(unit) == 0:
            yield "own Option with a field in both cases", where, name
    for where, line in lines(r"^\s*(pub )?(is_\w+|same|yes): bool,$"):
        yield "flag beside a value", where, line
    for where, line in lines(r"or (24|that of all pairs|i if|x if|its length) ?.*(none|several)|\b0 where there is none", True):
        yield "number for none", where, line
    for where, name, names, _ in functions():
        if any(n in ("call", "verdict") and t == "u8" for n, t in names):
            yield "number for a kind", where, name


def point2():
    for where, name, names, body in functions():
        if not names and re.fullmatch(r"\s*\[.*; ?\w+\]\s*", body):
            yield "array of one value", where, name
        elif re.search(r"\w_\d+$", name):
            yield "a size in a name", where, name


def point3():
    for where, line in lines(r"^\s*('\w+: )?(while\b|loop \{)"):
        yield "loop", where, line


def point4():
    for where, name, _, _ in functions():
        if re.match(r"(same_|is_same|larger|capped|within|width$|numbers$|short$|number$|first$)", name):
            yield "written by hand", where, name


def point5():
    pairs = collections.defaultdict(list)
    for where, name, names, _ in functions():
        group = where.split("/")[1].split("_")[0]
        for i, one in enumerate(names):
            for two in names[i + 1:]:
                pairs[group, one, two].append(name)
    for (group, one, two), names in sorted(pairs.items(), key=lambda x: -len(x[1])):
        if len(names) >= 3:
            yield "together", f"{group}_ {one[0]}: {one[1]}, {two[0]}: {two[1]}", f"{len(names)}: " + " ".join(names)


def point6():
    for where, name, names, _ in functions():
        buffers = [n for n, t in names if re.match(r"&(mut )?\[", t)]
        lengths = [n for n, t in names if t == "usize" and n in ("at", "to", "n", "count", "end", "letters", "number", "spare")]
        if buffers and lengths:
            yield "buffer and place", where, f"{name}: {' '.join(buffers)}; {' '.join(lengths)}"


def point7():
    for where, name, names, _ in functions():
        for n, t in names:
            if t == "bool":
                yield "bool parameter", where, f"{name}: {n}"
    for where, line in lines(r"match (call|kind)\b"):
        yield "switch", where, line


for point in sys.argv[1:] or "1234567":
    found = list(globals()["point" + point]())
    for kind, where, what in found:
        print(f"{point} {kind}: {where} {what}")
    counts = collections.Counter(kind for kind, _, _ in found)
    print(f"point {point}: {len(found)} places" + "".join(f"; {kind}: {n}" for kind, n in counts.items()))
