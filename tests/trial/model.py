"""The book as the maker of cases follows it, so that it can ask for what is lawful and for what is not. Nothing is
compared with it: a mistake here makes poorer cases, and no wrong verdict."""

import re

LINE = re.compile(rb"(?:([IW]) (0|[1-9]\d{0,4})|([SP]) (0|[1-9]\d{0,4}) (0|[1-9]\d{0,4}))\Z")
CLOSING = re.compile(rb"E (0|[1-9]\d{0,4}) (0|[1-9]\d{0,4})\Z")


def read_line(line):
    words = LINE.match(line)
    return words and tuple(int(w) if w.isdigit() else w.decode() for w in words.groups() if w is not None)


class Model:
    def __init__(self):
        self.lines = {}  # number: type, or the two numbers beneath
        self.free = set()
        self.size = {}  # items beneath
        self.last = 0

    def copy(self):
        other = Model()
        other.lines, other.free, other.size, other.last = dict(self.lines), set(self.free), dict(self.size), self.last
        return other

    @property
    def items(self):
        return sum(self.size[n] for n in self.free)

    def allows(self, item_type):
        return self.items < 16 and list(self.lines.values()).count(item_type) < 7

    def give(self, line, size):
        self.last += 1
        self.lines[self.last] = line
        self.size[self.last] = size
        self.free.add(self.last)
        return self.last

    def make(self, change):
        """Makes the change and answers its number; None if it is refused."""
        letter, a, *rest = change
        if letter == "W":
            if a not in self.free:
                return None
            line = self.lines.pop(a)
            self.free.remove(a)
            self.free.update(line if isinstance(line, tuple) else ())
            return a
        if self.last == 9999:
            return None
        if letter == "I":
            return self.give(a, 1) if a in (1, 2, 3) and self.allows(a) else None
        b = rest[0]
        if a == b or a not in self.free or b not in self.free:
            return None
        self.free -= {a, b}
        return self.give((a, b), self.size[a] + self.size[b])

    def churn(self, item_type, times):
        if times and self.allows(item_type):
            self.last = min(self.last + times, 9999)

    def enter(self, text):
        lines = text.split(b"\n")
        closing = CLOSING.match(lines[-2]) if len(lines) > 1 and not lines[-1] and len(text) <= 1024 else None
        if not closing or tuple(map(int, closing.groups())) != (len(lines) - 2, self.last + 1):
            return
        after = self.copy()
        for line in lines[:-2]:
            change = read_line(line)
            if not change or after.make(change) is None:
                return
        self.lines, self.free, self.size, self.last = after.lines, after.free, after.size, after.last
