"""The book of the rules, by a program of its own: it keeps a dictionary of lines and lists all states.

It shares no code and no table with the crates. `outfit(text)` answers what the program `outfit` has to write
for a sheet, as bytes.
"""

import itertools
import re


class Refused(Exception):
    def __init__(self, number, about=0):
        self.number = number
        self.about = about


class Book:
    def __init__(self):
        self.lines = {}  # number -> ("item", type) or ("series" or "parallel", a, b)
        self.last = 0

    def over(self, number):
        return [n for n, line in self.lines.items() if line[0] != "item" and number in line[1:]]

    def named(self, number):
        if number == 0 or number > self.last:
            raise Refused(15, number)
        if number not in self.lines:
            raise Refused(16, number)

    def used(self, number):
        self.named(number)
        if self.over(number):
            raise Refused(17, number)

    def give(self, line):
        if self.last == 9999:
            raise Refused(14)
        self.last += 1
        self.lines[self.last] = line
        return self.last

    def issue(self, item_type):
        if item_type not in (1, 2, 3):
            raise Refused(11)
        items = [line[1] for line in self.lines.values() if line[0] == "item"]
        if len(items) == 16:
            raise Refused(12)
        if items.count(item_type) == 7:
            raise Refused(13)
        return self.give(("item", item_type))

    def join(self, kind, a, b):
        self.used(a)
        self.used(b)
        if a == b:
            raise Refused(18, a)
        return self.give((kind, a, b))

    def withdraw(self, number):
        self.used(number)
        del self.lines[number]
        return number

    def items(self, number):
        line = self.lines[number]
        if line[0] == "item":
            return [number]
        return self.items(line[1]) + self.items(line[2])

    def works(self, number, state):
        line = self.lines[number]
        if line[0] == "item":
            return state[number]
        both = (self.works(line[1], state), self.works(line[2], state))
        return all(both) if line[0] == "series" else any(both)

    def states(self, number):
        """The numbers of states in which the line works, and in which it does not."""
        items = self.items(number)
        count = [0, 0]
        for bits in itertools.product((True, False), repeat=len(items)):
            count[0 if self.works(number, dict(zip(items, bits))) else 1] += 1
        return count


NUMBER = rb"(0|[1-9][0-9]{0,4})"
FORMS = {
    b"I": re.compile(rb"I " + NUMBER + rb"\Z"),
    b"S": re.compile(rb"S " + NUMBER + rb" " + NUMBER + rb"\Z"),
    b"P": re.compile(rb"P " + NUMBER + rb" " + NUMBER + rb"\Z"),
    b"W": re.compile(rb"W " + NUMBER + rb"\Z"),
}
CLOSING = re.compile(rb"E " + NUMBER + rb" " + NUMBER + rb"\Z")


def fault(number, line, place, about):
    return b"refused %d line %d place %d number %d\n" % (number, line, place, about)


def take(book, line):
    form = FORMS.get(line[:1])
    words = form.match(line) if form else None
    if not words:
        raise Refused(45)
    numbers = [int(word) for word in words.groups()]
    if line[:1] == b"I":
        book.issue(*numbers)
    elif line[:1] == b"W":
        book.withdraw(*numbers)
    else:
        book.join("series" if line[:1] == b"S" else "parallel", *numbers)


def outfit(text):
    if len(text) > 1024:
        return fault(41, 0, 0, 0)
    lines = text.split(b"\n")[:-1]
    closing = CLOSING.match(lines[-1]) if lines else None
    if not text.endswith(b"\n") or not closing:
        return fault(42, 0, len(text), 0)
    above = lines[:-1]
    places = [0]
    for line in above:
        places.append(places[-1] + len(line) + 1)
    count, following = (int(word) for word in closing.groups())
    if count != len(above):
        return fault(43, len(lines), places[-1], 0)
    book = Book()
    if following != book.last + 1:
        return fault(44, len(lines), places[-1], following)
    for at, line in enumerate(above):
        try:
            take(book, line)
        except Refused as refused:
            about = refused.about if 15 <= refused.number <= 18 else 0
            return fault(refused.number, at + 1, places[at], about)
    rows = [b"line items work fail\n"]
    for number in sorted(book.lines):
        if not book.over(number):
            work, fail = book.states(number)
            rows.append(b"%d %d %d %d\n" % (number, len(book.items(number)), work, fail))
    return b"".join(rows)
