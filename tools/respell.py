#!/usr/bin/env python3
"""Respells the repository's own definitions and lemmas as today's Rattle spells names: facts, types and
records in upper camel case, all else in snake case. It goes by text, from the top of the repository, over
crates/: the names are those declared in specs/ and proofs/ (definitions, records and their fields,
constructors, lemmas) that have a dash. Functions of src/, strings and comments stay as they are.

usage: python3 tools/respell.py        once, right after the toolchain's own port script
"""

import os
import re

# Where the plain spelling would fall together with another name: a field, a module, a parameter or a
# function of the code, a word of the library, or a theorem's own function.
OTHERWISE = {
    "bit-and": "bits_of_and",
    "bit-or": "bits_of_or",
    "built-in": "is_built_in",
    "item-type": "type_of_part",
    "line-plan": "plan_of_line",
    "path-list": "plan_of_paths",
    "of-type": "is_of_type",
    "first-line": "first_line_of",
    "by-type": "of_each_type",
    "block-sums-stand": "block_sums_stand_lem",
    "cheapest-loss-stands": "cheapest_loss_stands_lem",
    "counts-stand": "counts_stand_lem",
    "order-stands": "order_stands_lem",
    "places-stand": "places_stand_lem",
    "rising-stands": "rising_stands_lem",
    "signature-stands": "signature_stands_lem",
    "trees-stand": "trees_stand_lem",
    "ways-agree": "ways_agree_lem",
}

# Files whose names, but for helpers with a type of their own, are goals that Rattle names.
GOALS = ("Answers.antt", "Invariants.antt", "Choices.antt", "Proof.antt")
DECLARED = re.compile(r"^(?:(?:abbrev|unfoldable) )?(?:pub )?(?:(?:record|data) )?([^\s(){}:.]+)(?: [({].*)? : (.*)$", re.M)
MEMBER = re.compile(r"^  (?:pub )?([^\s(){}:.]+) : ", re.M)
STRING = re.compile(r'("(?:[^"\\\\]|\\\\.)*")')
EDGE = r"[\w'′-]"


def files(root, ends):
    for folder, dirs, names in os.walk(os.path.join(root, "crates")):
        dirs[:] = sorted(d for d in dirs if d != "out")
        for f in sorted(names):
            if f.endswith(ends):
                yield os.path.join(folder, f)


def declared(root):
    found = set()
    for path in files(root, (".antt",)):
        with open(path, encoding="utf-8") as f:
            text = f.read()
        goals = os.path.basename(path) in GOALS
        for name, its_type in DECLARED.findall(text):
            if not (goals and re.match(r"(goal|need|needs)\.", its_type)):
                found.add(name)
        if not goals:
            found.update(MEMBER.findall(text))
    return {n for n in found if "-" in n.strip("-")}


def respelled(name):
    if name in OTHERWISE:
        return OTHERWISE[name]
    parts = name.split("-")
    if name[0].isupper():
        return "".join(p[:1].upper() + p[1:] for p in parts)
    return "_".join(parts)


def comment(line, path):
    """Where the comment of a line begins."""
    at = re.search(r"(^|\s)--(\s|$)" if path.endswith(".antt") else r"(^|\s)//", line)
    return at.start() if at else len(line)


def turn(text, path, names):
    out = []
    for line in text.split("\n"):
        end = comment(line, path)
        parts = STRING.split(line[:end]) if path.endswith(".rt") else [line[:end]]
        code = [p if p.startswith('"') else names.sub(lambda m: respelled(m.group(1) or m.group(2)), p) for p in parts]
        out.append("".join(code) + line[end:])
    return "\n".join(out)


def half_turned(text):
    """What the toolchain's script had turned half: `built-in` to `built_in`, a field's name, where it stood
    alone; and `Goes-on` to `Goes_on`, and quotes left round names that no longer want them."""
    text = re.sub(r"(?<![\w'-])Goes_on(?![\w'-])", "GoesOn", re.sub(r"«(\w+_\w+)»", r"\1", text))
    if not re.search(r"History\.\{[^}]*\bbuilt_in\b", text):
        return text
    return re.sub(r"(?<![\w.'-])built_in(?![\w'-]| =)", "is_built_in", text)


def main():
    root = os.getcwd()
    found = declared(root)
    together = {}
    for n in sorted(found):
        together.setdefault(respelled(n), []).append(n)
    for new, old in together.items():
        if len(old) > 1:
            raise SystemExit(f"{', '.join(old)} would all be {new}")
    one = "|".join(re.escape(n) for n in sorted(found, key=len, reverse=True))
    names = re.compile(f"«({one})»|(?<!{EDGE})({one})(?!{EDGE})")
    count = 0
    for path in files(root, (".antt", ".rt", ".edit")):
        with open(path, encoding="utf-8") as f:
            text = f.read()
        new = half_turned(turn(text, path, names))
        if new != text:
            with open(path, "w", encoding="utf-8") as f:
                f.write(new)
            count += 1
    print(f"{len(found)} names, {count} files")


if __name__ == "__main__":
    main()
