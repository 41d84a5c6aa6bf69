"""Makes a case on which two programs differ as small as can be."""

from model import CLOSING, Model, read_line

MOST_TRIES = 5000
# Which words of a command are part numbers.
PARTS = {
    "join": [2, 3],
    "withdraw": [1],
    "question": [1],
    "count": [1],
    "signature": [1],
    "prices": [4],
    "survival": [1],
    "row": [1],
    "plan": [1],
}
CALLS = {"I": "issue", "S": "join S", "P": "join P", "W": "withdraw"}


def sheet_text(command):
    return bytes.fromhex(command[6:])


def sheet_of(lines):
    return ("sheet " + b"\n".join(lines).hex()).strip()


def change_of(command):
    """The change that a command asks for."""
    for letter, name in CALLS.items():
        if command.startswith(name + " "):
            return (letter, *map(int, command[len(name) :].split()))
    return None


def numbers_given(commands):
    """For each command the number that it gives, if it is a call that gives one."""
    book, given = Model(), []
    for command in commands:
        change, number = change_of(command), None
        if change:
            number = book.make(change)
        elif command == "new":
            book = Model()
        elif command.startswith("sheet"):
            book.enter(sheet_text(command))
        elif command.startswith("churn"):
            book.churn(*map(int, command.split(" ")[1:]))
        given.append(number if change and change[0] != "W" else None)
    return given


def moved(number, gone, instead):
    """A part number, where one is gone and another stands instead: the higher ones move down."""
    return instead if number == gone else number - 1 if number > gone else number


def renumbered(command, gone, instead):
    if command.startswith("sheet "):
        lines = [renumbered_line(line, gone, instead) for line in sheet_text(command).split(b"\n")]
        return sheet_of(lines)
    words = command.split(" ")
    for at in PARTS.get(words[0], []):
        words[at] = str(moved(int(words[at]), gone, instead))
    return " ".join(words)


def renumbered_line(line, gone, instead):
    change, closing = read_line(line), CLOSING.match(line)
    if change and change[0] != "I":
        return " ".join([change[0], *(str(moved(n, gone, instead)) for n in change[1:])]).encode()
    return b"E %s %d" % (closing[1], moved(int(closing[2]), gone, gone)) if closing else line


def names(command, number):
    return renumbered(command, number, -1) != renumbered(command, number, number)


def without_pieces(commands):
    size = len(commands)
    while size:
        for at in range(1, len(commands), size):
            yield commands[:at] + commands[at + size :]
        size //= 2


def without_lines(commands):
    """A line left out, with all that names it or with another in its place."""
    for at, gone in enumerate(numbers_given(commands)):
        if gone:
            before, after = commands[:at], commands[at + 1 :]
            yield before + [renumbered(command, gone, gone) for command in after if not names(command, gone)]
            for instead in change_of(commands[at])[1:]:
                if not commands[at].startswith("issue"):
                    yield before + [renumbered(command, gone, instead) for command in after]


def as_calls(commands):
    """A sheet replaced by the calls that its lines ask for."""
    for at, command in enumerate(commands):
        if command.startswith("sheet "):
            changes = filter(None, map(read_line, sheet_text(command).split(b"\n")))
            calls = [" ".join([CALLS[change[0]], *map(str, change[1:])]) for change in changes]
            yield commands[:at] + calls + commands[at + 1 :]


def smaller_sheets(command):
    text = sheet_text(command)
    lines = text.split(b"\n")
    for at in range(len(lines) - 2):
        rest = lines[:at] + lines[at + 1 :]
        closing = CLOSING.match(rest[-2])
        if closing:
            rest[-2] = b"E %d %s" % (len(rest) - 2, closing[2])
            yield sheet_of(rest)
    for size in (64, 16, 4, 1):
        for at in range(0, len(text), size):
            yield sheet_of([text[:at] + text[at + size :]])


def smaller_paths(command):
    words = command.split(" ")
    layers = 18 + int(words[17])
    for size in (16, 4, 1):
        for at in range(18, layers, size):
            rest = words[18:at] + words[at + size : layers] if at + size < layers else words[18:at]
            yield " ".join([*words[:17], str(len(rest)), *rest, *words[layers:]])


def fewer_layers(command):
    words = command.split(" ")
    for at in range(2 if words[0] == "plan" else 18 + int(words[17]), len(words)):
        yield " ".join(words[:at] + words[at + 1 :])


def smaller_numbers(command):
    words = command.split(" ")
    for at, word in enumerate(words):
        letter = "L" if word.startswith("L") else ""
        digits = word[len(letter) :]
        if at == 0 or words[0] == "sheet" or not digits.isdigit() or (words[0] == "paths" and at == 17):
            continue
        value = int(digits)
        for less in sorted({0, 1, value // 2, value - 1}):
            if 0 <= less < value:
                yield " ".join(words[:at] + [f"{letter}{less}"] + words[at + 1 :])


SMALLER = {"sheet": [smaller_sheets], "paths": [smaller_paths, fewer_layers], "plan": [fewer_layers]}


def smaller_commands(commands):
    for at, command in enumerate(commands):
        for step in [*SMALLER.get(command.split(" ")[0], []), smaller_numbers]:
            for other in step(command):
                yield commands[:at] + [other] + commands[at + 1 :]


def smallest(commands, differ):
    """A script on which the programs still differ and that no step here makes smaller, unless tries run out."""
    tries, before = 0, None
    while commands != before:
        before = commands
        for step in (without_pieces, as_calls, without_lines, smaller_commands):
            done, found = 0, True
            while found and tries < MOST_TRIES:
                found = False
                for at, other in enumerate(step(commands)):
                    if at < done or not other:
                        continue
                    tries += 1
                    if differ(other):
                        commands, done, found = other, at, True
                        break
    return commands
