#!/usr/bin/env python3
"""Draws docs/architecture.svg from crates.txt: a box for each group with its crates, and an arrow from a group to each
group that it stands on and does not reach through another. Run from anywhere; with --check it only compares."""
import os
import sys

ROOT = os.path.join(os.path.dirname(os.path.abspath(__file__)), "..")
PICTURE = os.path.join(ROOT, "docs", "architecture.svg")
KIT = {"io"}
PITCH, LINE, PAD, GAP, RISE = 168, 17, 12, 22, 46


def group(name):
    return name.split("_")[0]


def read():
    """The groups, in the order of the file: crates, purpose, and the groups that each stands on."""
    crates, purpose, uses = {}, {}, {}
    for line in open(os.path.join(ROOT, "crates.txt"), encoding="utf-8"):
        line = line.rstrip("\n")
        if line.startswith("# "):
            head, colon, text = line[2:].partition(": ")
            if colon and " " not in head and head != "NAME":
                purpose[head.rstrip("_")] = text
        elif ":" in line:
            head, _, below = line.partition(":")
            name = head.split()[0]  # "staticlib" may follow
            own = group(name)
            crates.setdefault(own, []).append(name)
            uses.setdefault(own, set()).update(group(d) for d in below.split() if d not in KIT)
    for own in uses:
        uses[own].discard(own)
    return crates, purpose, uses


def reduced(uses):
    """Only the arrows that no other way replaces."""
    def reach(start):
        seen, todo = set(), list(uses[start])
        while todo:
            at = todo.pop()
            if at not in seen:
                seen.add(at)
                todo += uses[at]
        return seen
    far = {own: reach(own) for own in uses}
    return {own: {d for d in uses[own] if not any(d in far[e] for e in uses[own] if e != d)} for own in uses}


def levels(uses):
    found = {}

    def level(own):
        if own not in found:
            found[own] = 1 + max([level(d) for d in uses[own]] or [-1])
        return found[own]
    for own in uses:
        level(own)
    return found


def escaped(text):
    return text.replace("&", "&amp;").replace("<", "&lt;")


def wrapped(text, width):
    lines = [""]
    for word in text.split():
        if lines[-1] and len(lines[-1]) + 1 + len(word) > width:
            lines.append("")
        lines[-1] = (lines[-1] + " " + word).strip()
    return lines


def through(line, box):
    """Whether a line passes through a box."""
    (x1, y1, x2, y2), (x, y, wide, tall) = line, box
    steps = [(x1 + (x2 - x1) * k / 100, y1 + (y2 - y1) * k / 100) for k in range(1, 100)]
    return any(x < a < x + wide and y < b < y + tall for a, b in steps)


def arrow(upper, lower, boxes):
    """From the bottom of one box to the top of another: from middle to middle, or as near to that as passes through no
    box. The boxes are drawn over the arrows, so that one that passes behind a box would seem to start there."""
    (x, y, wide, tall), (a, b, w, _) = upper, lower
    shifts = range(-48, 49, 12)
    ways = [(x + wide // 2 + wide * i // 100, y + tall, a + w // 2 + w * j // 100, b)
            for i, j in sorted(((i, j) for i in shifts for j in shifts), key=lambda s: (abs(s[0]) + abs(s[1]), s))]
    return next((way for way in ways if not any(through(way, box) for box in boxes)), ways[0])


def draw():
    crates, purpose, uses = read()
    arrows, level = reduced(uses), levels(uses)
    rows = [[g for g in crates if level[g] == n] for n in range(max(level.values()) + 1)]
    boxes, height, width = {}, PAD, 0
    for row in reversed(rows):
        texts = {g: wrapped(purpose.get(g, ""), 46) for g in row}
        tall = {g: PAD + LINE * (1 + len(texts[g]) + (len(crates[g]) + 1) // 2) + PAD // 2 for g in row}
        left = PAD
        for g in row:
            wide = 2 * PITCH + PAD
            boxes[g] = (left, height, wide, tall[g], texts[g])
            left += wide + GAP
        width = max(width, left - GAP + PAD)
        height += max(tall.values()) + RISE
    height += PAD - RISE
    shift = {g: (width - 2 * PAD - (max(boxes[h][0] + boxes[h][2] for h in row) - PAD)) // 2 for row in rows for g in row}
    out = ['<svg xmlns="http://www.w3.org/2000/svg" viewBox="0 0 %d %d" font-family="sans-serif" font-size="13">'
           % (width, height),
           '<title>The groups of crates, each above those it stands on</title>',
           '<defs><marker id="end" viewBox="0 0 8 8" refX="7" refY="4" markerWidth="7" markerHeight="7" orient="auto">'
           '<path d="M0 0 8 4 0 8z" fill="#555"/></marker></defs>',
           '<rect width="%d" height="%d" fill="#fff"/>' % (width, height)]
    frames = {g: (boxes[g][0] + shift[g],) + boxes[g][1:4] for g in crates}
    for g in crates:
        for d in sorted(arrows[g]):
            out.append('<line x1="%d" y1="%d" x2="%d" y2="%d" stroke="#555" marker-end="url(#end)"/>'
                       % arrow(frames[g], frames[d], frames.values()))
    for g in crates:
        x, y, wide, tall, texts = boxes[g]
        x += shift[g]
        out.append('<rect x="%d" y="%d" width="%d" height="%d" rx="4" fill="#f6f4ee" stroke="#333"/>' % (x, y, wide, tall))
        at = y + PAD + 6
        title = g + "_" if all(c.startswith(g + "_") for c in crates[g]) else g
        out.append('<text x="%d" y="%d" font-weight="bold">%s</text>' % (x + PAD, at, title))
        for text in texts:
            at += LINE
            out.append('<text x="%d" y="%d" fill="#555" font-style="italic">%s</text>' % (x + PAD, at, escaped(text)))
        for k, name in enumerate(crates[g]):
            at += LINE if k % 2 == 0 else 0
            out.append('<text x="%d" y="%d">%s</text>' % (x + PAD + k % 2 * PITCH, at, name))
    return "\n".join(out + ["</svg>"]) + "\n"


if __name__ == "__main__":
    text = draw()
    if sys.argv[1:] == ["--check"]:
        if open(PICTURE, encoding="utf-8").read() != text:
            sys.exit("docs/architecture.svg is not what docs/architecture.py draws from crates.txt")
    else:
        open(PICTURE, "w", encoding="utf-8").write(text)
