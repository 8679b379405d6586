#!/usr/bin/env python3
"""Brings the repository's own definitions and lemmas to the spelling of Rattle's library.

usage: tools/respell.py [--list]      at the top of the repository; --list prints the names and changes nothing

Words are in snake case; types, facts and modules in camel case. A dash stands only between two names that are defined,
here or in the library; a plain word is added with an underscore. A prime is an apostrophe. Functions of src/, strings,
inputs and outputs keep their names.
"""

import os
import re
import sys

# what ends a name in antt
ENDS = r"\s(){}\[\];,.\"`"
NAME = re.compile(r"[^%s]+" % ENDS)
DECLARED = re.compile(r"^\s*((?:abbrev|unfoldable|pub|record|data|ruleset)\s+)*([^%s:]+)(?:\s+[^:=]*)?\s:(?:\s|$)" % ENDS)
HEAD = re.compile(r"^\s*(?:(?:abbrev|unfoldable|pub)\s+)*(?:record|data|ruleset)\s+([^%s:]+)" % ENDS)
# hyphenated English that is also the name of a lemma: only comments have it
ENGLISH = {"lead-in"}
# names that would fall together with another, or with the definition that their statement has
APART = {
    "count_at": "count_at_lem",
    "digits_from": "digits_from_lem",
    "inUse": "slots_in_use",
    "normal-form": "normal_form",
    "noneFound": "finds_none",
    "slot_counts": "slot_counts_lem",
    "text-fault": "fault_of_text",
}
# the names of what a statement writes with a sign
SIGNS = {"++": "append", "\u2237": "cons", "+": "add", "-": "sub", "*": "mul"}
# names that the library has too, and so keep their spelling
KEPT = {"and-false", "length-map", "lt_of_mul-lt-mul_left"}


def texts(root, ends):
    for top in ("crates",):
        for folder, dirs, files in os.walk(os.path.join(root, top)):
            dirs[:] = sorted(d for d in dirs if d not in ("out", ".git"))
            for f in sorted(files):
                if f.endswith(ends):
                    yield os.path.join(folder, f)


def read(path):
    with open(path, encoding="utf-8") as f:
        return f.read()


def declared(root):
    """The names that files of definitions and lemmas declare, each with the names that its statement has; of these, the
    definitions."""
    names, definitions = {}, set()
    for path in texts(root, ".antt"):
        if os.sep + "proofs" + os.sep in path and os.path.basename(path) in ("Proof.antt", "Answers.antt", "Invariants.antt"):
            continue
        lines = [line.split("-- ")[0] for line in read(path).split("\n")]
        for i, line in enumerate(lines):
            found = DECLARED.match(line) or HEAD.match(line)
            if not found:
                continue
            name = found.group(found.lastindex)
            said = line[found.end():]
            for more in lines[i + 1 :]:
                if not more.strip() or more.strip().startswith(("unfolding ", name + " ")):
                    break
                if re.match(r"\s*" + re.escape(name) + r"\s", more):
                    break
                said += " " + more
            names.setdefault(name, set()).update(SIGNS.get(w, w) for w in NAME.findall(said))
            if "-" not in name:
                definitions.add(name)
    return names, definitions


def snake(part):
    """A part of a name in snake case, if it begins as a word."""
    if not part or not part[0].islower():
        return part
    part = re.sub(r"([a-z0-9])([A-Z])", lambda m: m.group(1) + "_" + m.group(2).lower(), part)
    return part


def respelled(name, said):
    """The new spelling of a name; said: the names that its statement has, in the new spelling."""
    parts = name.replace("\u2032", "'").split("-")
    if any(not p for p in parts):
        return name
    parts = [snake(p) for p in parts]
    out = last = parts[0]
    for part in parts[1:]:
        joined = last in said and part in said
        out += ("-" if joined else "_") + part
        last = part if joined else last + "_" + part
    return out


def mapping(root):
    names, definitions = declared(root)
    taken = {snake(d) for d in definitions}
    table = {}
    for name in sorted(names):
        new = APART.get(name) or respelled(name, {snake(w) for w in names[name]})
        if "-" in name and new in taken and name not in APART:
            new += "_lem"
        if new != name and name not in KEPT:
            table[name] = new
    return table, names


def clashes(table, names):
    """Names that fall together under the table."""
    by = {}
    for name in names:
        by.setdefault(table.get(name, name), set()).add(name)
    return {new: olds for new, olds in by.items() if len(olds) > 1}


def in_code(text, table):
    return NAME.sub(lambda m: table.get(m.group(0), m.group(0)), text)


def in_comment(text, table):
    return NAME.sub(lambda m: m.group(0) if m.group(0) in ENGLISH else table.get(m.group(0), m.group(0)), text)


def of_antt(text, table):
    out = []
    for line in text.split("\n"):
        m = re.match(r"^(.*?)(--(?:\s.*)?)$", line)
        if m and (m.group(1) == "" or m.group(1)[-1:].isspace()):
            out.append(in_code(m.group(1), table) + in_comment(m.group(2), table))
        else:
            out.append(in_code(line, table))
    return "\n".join(out)


def of_rt(text, table):
    """A source: everything but its strings."""
    out, at = [], 0
    for m in re.finditer(r'"(?:[^"\\\n]|\\.)*"', text):
        out.append(in_comment(text[at:m.start()], table))
        out.append(m.group(0))
        at = m.end()
    out.append(in_comment(text[at:], table))
    return "".join(out)


def of_edit(text, table):
    return "\n".join(in_code(l, table) if l.startswith(("old:", "new:")) else in_comment(l, table) for l in text.split("\n"))


def of_page(text, table):
    """A page: what stands between grave accents, and lines set in."""
    out = []
    for line in text.split("\n"):
        if line.startswith("    "):
            out.append(in_comment(line, table))
        else:
            out.append(re.sub(r"`[^`\n]+`", lambda m: in_comment(m.group(0), table), line))
    return "\n".join(out)


def main():
    root = os.getcwd()
    table, names = mapping(root)
    if sys.argv[1:] == ["--list"]:
        for old, new in sorted(table.items()):
            print(old, new)
        return
    together = clashes(table, names)
    if together:
        for new, olds in sorted(together.items()):
            print("fall together:", new, "from", *sorted(olds))
    for ends, turn in ((".antt", of_antt), (".rt", of_rt), (".edit", of_edit)):
        for path in texts(root, ends):
            old = read(path)
            new = turn(old, table)
            if new != old:
                with open(path, "w", encoding="utf-8") as f:
                    f.write(new)
    pages = [os.path.join(root, "README.md")]
    for at, _, files in os.walk(os.path.join(root, "docs")):
        pages += [os.path.join(at, f) for f in sorted(files) if f.endswith(".md") and f != "PORT.md"]
    for path in pages:
        old = read(path)
        new = of_page(old, table)
        if new != old:
            with open(path, "w", encoding="utf-8") as f:
                f.write(new)


if __name__ == "__main__":
    main()
