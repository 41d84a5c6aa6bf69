#!/usr/bin/env python3
"""Puts random sheets, lawful, refused and damaged, through `outfit` and compares with the reference program.

Half of them come from a fixed seed and half from a fresh one, which is printed. A difference is made as small
as can be by leaving out lines and bytes, and shown.
Usage: random_sheets.py PROGRAM HOW_MANY [SEED]
"""

import os
import random
import subprocess
import sys

sys.path.insert(0, os.path.join(os.path.dirname(os.path.abspath(__file__)), "..", "reference"))
from reference import Book, Refused, outfit  # noqa: E402


def closed(lines, count=None, following=1):
    count = len(lines) if count is None else count
    return b"".join(line + b"\n" for line in lines) + b"E %d %d\n" % (count, following)


def lawful(rng, most):
    """Lines that a new book accepts, and the book after them."""
    book, lines = Book(), []
    for _ in range(rng.randrange(most)):
        free = [n for n in book.lines if not book.over(n)]
        choice = rng.random()
        try:
            if choice < 0.5 or not free:
                item_type = rng.randint(1, 3)
                book.issue(item_type)
                lines.append(b"I %d" % item_type)
            elif choice < 0.85 and len(free) > 1:
                a, b = rng.sample(free, 2)
                kind = rng.choice("SP")
                book.join("series" if kind == "S" else "parallel", a, b)
                lines.append(b"%s %d %d" % (kind.encode(), a, b))
            else:
                n = rng.choice(free)
                book.withdraw(n)
                lines.append(b"W %d" % n)
        except Refused:
            continue
    return lines, book


def any_line(rng, last):
    n = lambda: rng.choice([0, 1, last, last + 1, rng.randint(0, last + 3), rng.randint(0, 99999)])
    return rng.choice(
        [
            b"I %d" % rng.randint(0, 5),
            b"S %d %d" % (n(), n()),
            b"P %d %d" % (n(), n()),
            b"W %d" % n(),
            b"E %d %d" % (n(), n()),
            b"I 01",
            b"W 100000",
            b"",
        ]
    )


def damaged(rng, text):
    text = bytearray(text)
    for _ in range(rng.randint(1, 3)):
        at = rng.randrange(len(text) + 1)
        what = rng.randrange(3)
        if what == 0 and at < len(text):
            text[at] = rng.choice(b"ISPWE 0123456789\n\r\x00\xff")
        elif what == 1 and at < len(text):
            del text[at]
        else:
            text.insert(at, rng.choice(b"ISPWE 0123456789\n\r\x00\xff"))
    return bytes(text)


def sheet(rng):
    lines, book = lawful(rng, rng.choice([4, 12, 40, 90]))
    what = rng.random()
    if what < 0.4:
        return closed(lines)
    if what < 0.7:
        lines.insert(rng.randrange(len(lines) + 1), any_line(rng, book.last))
        return closed(lines)
    if what < 0.8:
        return closed(lines, rng.choice([len(lines), len(lines) + 1, 0]), rng.choice([0, 1, 2, 99999]))
    if what < 0.85:
        return closed(lines + [b"I 1"] * rng.randint(200, 300))
    return damaged(rng, closed(lines))


def run(program, text):
    done = subprocess.run([program], input=text, stdout=subprocess.PIPE, stderr=subprocess.PIPE)
    return done.stdout if done.returncode == 0 and not done.stderr else b"status %d" % done.returncode


def smallest(program, text):
    """A text as short as can be on which the two still differ."""
    changed = True
    while changed:
        changed = False
        for size in (64, 16, 4, 1):
            for at in range(0, len(text), size):
                shorter = text[:at] + text[at + size :]
                if run(program, shorter) != outfit(shorter):
                    text, changed = shorter, True
                    break
            if changed:
                break
    return text


def main():
    program, how_many = sys.argv[1], int(sys.argv[2])
    fresh = int(sys.argv[3]) if len(sys.argv) > 3 else random.SystemRandom().randrange(1 << 32)
    for name, seed in (("fixed", 20260801), ("fresh", fresh)):
        rng = random.Random(seed)
        for _ in range(how_many // 2):
            text = sheet(rng)
            if run(program, text) != outfit(text):
                text = smallest(program, text)
                print(f"not ok outfit random sheets, {name} seed {seed}: differs at {text!r}")
                print(f"  outfit writes {run(program, text)!r}, the reference {outfit(text)!r}")
                return 1
        print(f"ok outfit random sheets, {name} seed {seed}: {how_many // 2} sheets alike")
    return 0


if __name__ == "__main__":
    sys.exit(main())
