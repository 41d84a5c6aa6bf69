#!/usr/bin/env python3
"""Puts random scripts of calls through `trial` and through counting.cpp and compares what they answer.

Half of the cases come from a fixed seed and half from a fresh one, which is printed. A case is one `new` book and
5 to 40 commands on it. At a difference the first case that differs is made as small as can be, and shown with
both answers.
Usage: run.py [PROGRAM [HOW_MANY [SEED [COUNTING]]]]
"""

import os
import random
import subprocess
import sys
import tempfile

sys.dont_write_bytecode = True
from cases import case  # noqa: E402
from shrinking import smallest  # noqa: E402

HERE = os.path.dirname(os.path.abspath(__file__))
FIXED_SEED = 20260801


def build(folder):
    """The program counting.cpp, built."""
    program = os.path.join(folder, "counting")
    source = os.path.join(HERE, "counting.cpp")
    subprocess.run(["g++", "-std=c++17", "-O2", "-Wall", "-Wextra", "-o", program, source], check=True)
    return program


def answers(program, commands):
    """What a program answers to the commands, or that it failed."""
    script = "".join(command + "\n" for command in commands).encode()
    done = subprocess.run([program], input=script, stdout=subprocess.PIPE, stderr=subprocess.PIPE, timeout=600)
    return done.stdout.decode() if done.returncode == 0 and not done.stderr else "failed"


def by_case(text):
    return text.split("new\n")[1:]


def first_difference(cases, ours, theirs):
    """The first case that the two answer differently. After a failure each case is run by itself."""
    if "failed" in (ours, theirs):
        return None
    for commands, x, y in zip(cases, by_case(ours), by_case(theirs)):
        if x != y:
            return commands
    return None


def show(commands, ours, theirs):
    print("  the smallest script found:")
    for command in commands:
        print(f"    {command}")
        if command.startswith("sheet "):
            print(f"      which is {bytes.fromhex(command[6:])!r}")
    for name, text in (("trial", ours), ("counting.cpp", theirs)):
        print(f"  {name} answers:")
        for line in text.splitlines():
            print(f"    {line}")


def compare(program, counting, name, seed, how_many):
    rng = random.Random(seed)
    cases = [case(rng) for _ in range(how_many)]
    script = [command for commands in cases for command in commands]
    ours, theirs = answers(program, script), answers(counting, script)
    if ours == theirs != "failed":
        print(f"ok trial {name} seed {seed}: {how_many} cases, {len(script)} commands, {ours.count(chr(10))} lines alike")
        return True
    differ = lambda commands: answers(program, commands) != answers(counting, commands)
    found = first_difference(cases, ours, theirs) or next((c for c in cases if differ(c)), None)
    print(f"not ok trial {name} seed {seed}: the two programs differ, or fail")
    if found:
        found = smallest(found, differ)
        show(found, answers(program, found), answers(counting, found))
    return False


def main():
    program = sys.argv[1] if len(sys.argv) > 1 else os.path.join(HERE, "..", "..", "crates", "trial", "out", "trial")
    how_many = int(sys.argv[2]) if len(sys.argv) > 2 else 12000
    fresh = int(sys.argv[3]) if len(sys.argv) > 3 else random.SystemRandom().randrange(1 << 32)
    with tempfile.TemporaryDirectory() as folder:
        counting = sys.argv[4] if len(sys.argv) > 4 else build(folder)
        alike = compare(program, counting, "fixed", FIXED_SEED, how_many // 2)
        alike = compare(program, counting, "fresh", fresh, how_many - how_many // 2) and alike
    return 0 if alike else 1


if __name__ == "__main__":
    try:
        sys.exit(main())
    except (OSError, subprocess.SubprocessError) as error:
        print(f"not ok trial: {error}")
        sys.exit(1)
