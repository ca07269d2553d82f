#!/usr/bin/env python3
"""Usage: checks/check-picture.py [--write]

Checks that docs/crates.svg shows crates.txt: the repository's crates in rows, each below those that it uses, and an arrow to
each crate that it uses and that no other of them uses. The status is 1 if the picture is stale. --write writes it.
"""

import os
import sys

TOP = os.path.dirname(os.path.dirname(os.path.abspath(__file__)))
PICTURE = f"{TOP}/docs/crates.svg"
WIDTH, HEIGHT, ACROSS, DOWN = 132, 26, 146, 62


def crates():
    """Returns the crates in the order of crates.txt, each with the repository's crates that it uses."""
    found = {}
    with open(f"{TOP}/crates.txt", encoding="utf-8") as file:
        for line in file:
            name, colon, words = line.partition("#")[0].partition(":")
            if colon:
                found[name.split()[0]] = words.split()
    return {name: [it for it in uses if it in found] for name, uses in found.items()}


def all_below(name, uses):
    below = set()
    for it in uses[name]:
        below |= {it} | all_below(it, uses)
    return below


def direct(name, uses):
    """Returns the crates that this one uses, but none that another of them uses."""
    return [it for it in uses[name] if not any(it in all_below(other, uses) for other in uses[name])]


def depth(name, uses):
    return 1 + max((depth(it, uses) for it in uses[name]), default=-1)


def row_of(name, uses):
    """Returns the row below all crates that this one uses, or the row above the first that uses it."""
    return depth(name, uses) if uses[name] else min((depth(it, uses) for it in uses if name in uses[it]), default=1) - 1


def places(uses):
    """Returns the middle of the upper edge of each crate's box. A row is centred, and sorted by the places above it."""
    rows = {}
    for name in uses:
        rows.setdefault(row_of(name, uses), []).append(name)
    widest, found = max(map(len, rows.values())), {}
    for row, names in sorted(rows.items()):
        names.sort(key=lambda it: sum(found[above][0] for above in direct(it, uses)) / max(1, len(direct(it, uses))))
        left = (widest - len(names)) * ACROSS / 2
        for place, name in enumerate(names):
            found[name] = left + (place + 0.5) * ACROSS, 8 + row * DOWN
    return found


def picture():
    uses = crates()
    found = places(uses)
    width = max(x for x, _ in found.values()) + ACROSS / 2
    height = max(y for _, y in found.values()) + HEIGHT + 8
    lines = [
        f'<svg xmlns="http://www.w3.org/2000/svg" viewBox="0 0 {width:.0f} {height:.0f}" font-family="monospace" font-size="12">',
        '<defs><marker id="tip" viewBox="0 0 8 8" refX="8" refY="4" markerWidth="7" markerHeight="7" orient="auto">'
        '<path d="M0 0L8 4L0 8z" fill="#555"/></marker></defs>',
        f'<rect width="{width:.0f}" height="{height:.0f}" fill="#fff"/>',
    ]
    for name, (x, y) in found.items():
        for above in direct(name, uses):
            to_x, to_y = found[above]
            end = to_y + HEIGHT
            bend = min(DOWN, (y - end) / 2)
            lines.append(
                f'<path d="M{x:.0f} {y:.0f}C{x:.0f} {y - bend:.0f} {to_x:.0f} {end + bend:.0f} {to_x:.0f} {end:.0f}" '
                'fill="none" stroke="#555" marker-end="url(#tip)"/>'
            )
    for name, (x, y) in found.items():
        left = x - WIDTH / 2
        lines.append(f'<rect x="{left:.0f}" y="{y:.0f}" width="{WIDTH}" height="{HEIGHT}" rx="4" fill="#eef" stroke="#335"/>')
        lines.append(f'<text x="{x:.0f}" y="{y + 17:.0f}" text-anchor="middle">{name}</text>')
    return "\n".join([*lines, "</svg>", ""])


def main():
    if sys.argv[1:] == ["--write"]:
        with open(PICTURE, "w", encoding="utf-8") as file:
            file.write(picture())
        return 0
    if sys.argv[1:]:
        print("usage: check-picture.py [--write]", file=sys.stderr)
        return 2
    try:
        with open(PICTURE, encoding="utf-8") as file:
            shown = file.read()
    except OSError:
        shown = None
    if shown != picture():
        print("docs/crates.svg does not show crates.txt: run checks/check-picture.py --write")
        return 1
    return 0


if __name__ == "__main__":
    sys.exit(main())
