"""Random cases for the trial: a new book and commands on it that reach deep and refused states."""

from model import Model

S = 1 << 30
BYTES = b"ISPWE 0123456789\n\r\x00\xff"


class Case:
    """The commands so far, and the book that they lead to."""

    def __init__(self, rng):
        self.rng = rng
        self.book = Model()
        self.commands = ["new"]
        self.types = rng.choice([[1, 2, 3], [1, 2, 3], [1, 2, 3, 3], [1, 1, 1, 2], [rng.randint(1, 3)]])
        self.shape = rng.choice(["chain", "balanced", "any", "any"])
        self.kinds = rng.choice(["SP", "SP", "SP", "SPP", "SSP", "S", "P"])
        self.grows = rng.choice([0.4, 0.6, 0.9])
        self.items = rng.choice([3, 7, 12, 16, 16, 16])

    # Changes.

    def lawful_change(self, book):
        """A change that the book accepts, if there is one at hand. The book grows to a number of items, and is
        then taken apart and joined anew."""
        rng = self.rng
        free = sorted(book.free)
        types = [t for t in self.types if book.allows(t)]
        growing = types and book.items < self.items
        if growing and (len(free) < 2 or rng.random() < self.grows):
            return ("I", rng.choice(types))
        if len(free) > 1 and rng.random() < 0.93:
            return (rng.choice(self.kinds), *self.pair(book, free))
        blocks = [n for n in free if book.size[n] > 1]
        return ("W", rng.choice(blocks * 3 + free)) if free else None

    def pair(self, book, free):
        """Two free lines to be joined, in either order."""
        if self.shape == "any" or self.rng.random() < 0.1:
            return self.rng.sample(free, 2)
        by_size = sorted(free, key=lambda n: (book.size[n], n))
        pair = [by_size[0], by_size[1] if self.shape == "balanced" else by_size[-1]]
        self.rng.shuffle(pair)
        return pair

    def any_number(self, book):
        """A number of any standing: standing, built in, withdrawn, never given."""
        rng = self.rng
        standing = list(book.lines)
        built_in = [n for n in standing if n not in book.free]
        return rng.choice(
            [
                0,
                1,
                book.last,
                book.last + 1,
                rng.randint(0, book.last + 3),
                rng.randint(0, book.last),
                rng.choice(standing or [2]),
                rng.choice(built_in or [3]),
                rng.choice([9999, 10000, 65536, 99999]),
            ]
        )

    def any_change(self, book):
        rng = self.rng
        a = self.any_number(book)
        b = rng.choice([a, self.any_number(book), rng.choice(sorted(book.free) or [1])])
        if rng.random() < 0.3:
            a, b = b, a
        return rng.choice(
            [("I", rng.choice([0, 1, 2, 3, 4, 10, 257])), (rng.choice("SP"), a, b), ("W", a)]
        )

    def change(self):
        change = None if self.rng.random() < 0.2 else self.lawful_change(self.book)
        change = change or self.any_change(self.book)
        self.book.make(change)
        letter, *numbers = change
        name = {"I": "issue", "S": "join S", "P": "join P", "W": "withdraw"}[letter]
        self.commands.append(" ".join([name, *map(str, numbers)]))

    # Sheets.

    def sheet_lines(self, book, most):
        """Lines that the book accepts, unless its numbers are used up; it takes them."""
        lines = []
        for _ in range(self.rng.randrange(most)):
            change = self.lawful_change(book)
            if change and (book.make(change) or self.rng.random() < 0.3):
                lines.append(" ".join(map(str, change)).encode())
        return lines

    def sheet_text(self, most):
        rng = self.rng
        following = self.book.last + 1
        after = self.book.copy()
        lines = self.sheet_lines(after, most)
        what = rng.random()
        if 0.5 < what < 0.75:
            change = rng.choice([self.any_change(after), self.lawful_change(after) or ("W", 1)])
            change = " ".join(map(str, change)).encode()
            line = rng.choice([change, change, change, b"I 01", b"W 100000", b"", b"E 0 1", b"S 1", b"I 1 "])
            lines.insert(rng.choice([len(lines), rng.randrange(len(lines) + 1)]), line)
        if 0.75 < what < 0.78:
            lines += [b"I 1"] * rng.randint(200, 300)
        count = len(lines)
        if 0.78 < what < 0.82:
            count = rng.choice([0, count + 1, max(count - 1, 0), 99999])
        if 0.82 < what < 0.87:
            following = rng.choice([0, 1, following + 1, max(following - 1, 0), 10000, 99999])
        text = b"".join(line + b"\n" for line in lines) + b"E %d %d\n" % (count, following)
        return self.damaged(text) if what > 0.87 else text

    def damaged(self, text):
        rng = self.rng
        if rng.random() < 0.1:
            return rng.choice([b"", b"\n", text[:-1], text + b"\n", text.replace(b"\n", b"\r\n"), text * 2])
        text = bytearray(text)
        for _ in range(rng.randint(1, 3)):
            at, what = rng.randrange(len(text) + 1), rng.randrange(3)
            if what == 2 or at == len(text):
                text.insert(at, rng.choice(BYTES))
            elif what == 1:
                del text[at]
            else:
                text[at] = rng.choice(BYTES)
        return bytes(text)

    def sheet(self, most=None):
        text = self.sheet_text(most or self.rng.choice([2, 6, 20, 60]))
        self.book.enter(text)
        self.commands.append(("sheet " + text.hex()).strip())

    # Questions.

    def line(self):
        """Most often the number of a standing line, and of the largest of these."""
        if not self.book.lines or self.rng.random() < 0.15:
            return self.rng.choice([self.any_number(self.book), 4294967295])
        if self.rng.random() < 0.4:
            return max(self.book.lines, key=lambda n: (self.book.size[n], n))
        return self.rng.choice(list(self.book.lines))

    def places(self):
        standing = len(self.book.lines)
        enough = [standing, standing, standing + 1, standing + self.rng.randint(0, 5)]
        return self.rng.choice(enough * 2 + [max(standing - 1, 0), 0, 31, 32, self.rng.randint(0, 36)])

    def price(self):
        low, high = self.rng.randint(0, 9), self.rng.randint(0, 1000000)
        return self.rng.choice([0, 1, low, low, high, high, 1000000, 1000000] * 6 + [1000001, 4294967295])

    def share(self):
        edges = [0, 1, S // 2, S - 1, S]
        inner = [self.rng.randint(0, S), self.rng.randint(0, S), self.rng.randint(0, 99), S - self.rng.randint(0, 99)]
        return self.rng.choice((edges + inner) * 6 + [S + 1, 4294967295])

    def figures(self):
        number, places = self.line(), self.places()
        what = self.rng.randrange(7)
        if what == 0:
            self.commands.append(f"count {number} {places}")
        elif what == 1:
            prices = [self.price() for _ in range(3)]
            self.commands.append("prices {} {} {} {} {}".format(*prices, number, places))
        elif what == 2:
            self.commands.append(f"signature {number} {places}")
        elif what == 3:
            self.commands.append(f"row {number} {places}")
        elif what == 4:
            self.commands.append(" ".join(["plan", str(number), *self.layers()]))
        else:
            shares = [self.share() for _ in range(3)]
            self.commands.append("survival {} {} {} {}".format(number, *shares))

    # Plans.

    def layers(self):
        layer = lambda: self.rng.choice(["M", "M", f"L{self.rng.randint(0, 15)}", f"L{self.rng.randint(0, 18)}", "L255"])
        return [layer() for _ in range(self.rng.choice([0, 0, 1, 1, 2, 3]))]

    def place_types(self):
        """Types of the 16 places: some empty, most often at most 7 of each type."""
        rng = self.rng
        types = [t for t in (1, 2, 3) for _ in range(7)]
        rng.shuffle(types)
        types = types[: rng.choice([0, 1, 3, 6, 9, 12, 16])]
        if rng.random() < 0.1:
            types = [rng.randint(1, 3)] * 8 + types[:8]
        types += [0] * (16 - len(types))
        rng.shuffle(types)
        if rng.random() < 0.04:
            types[rng.randrange(16)] = rng.choice([4, 5, 255])
        return types

    def path(self, types):
        rng = self.rng
        filled = [place for place in range(16) if types[place]]
        if rng.random() < 0.02 or not filled:
            return rng.choice([0, 0, 1 << rng.randrange(16), 65535])
        size = rng.choice([1, 2, 2, 3, 4, 8])
        return sum(1 << place for place in rng.sample(filled, min(size, len(filled))))

    def paths(self):
        types = self.place_types()
        count = self.rng.choice([1, 2, 3, 4, 5, 6, 8, 12] * 3 + [0, 30, 63, 64, 65])
        paths = [self.path(types) for _ in range(count)]
        self.commands.append(" ".join(["paths", *map(str, types), str(count), *map(str, paths), *self.layers()]))

    # All.

    def churn(self):
        """Uses numbers up, most often nearly all."""
        item_type = self.rng.choice(self.types)
        room = 9999 - self.book.last
        times = self.rng.choice([3, 100, room, room - self.rng.randint(1, 30), room + 1])
        self.book.churn(item_type, times)
        self.commands.append(f"churn {item_type} {times}")

    def step(self):
        what = self.rng.random()
        if what < 0.5 or not self.book.lines and what < 0.9:
            self.change()
        elif what < 0.57:
            self.sheet()
        elif what < 0.64:
            self.commands.append(f"question {self.line()}")
        elif what < 0.92:
            self.figures()
        elif what < 0.97:
            self.paths()
        else:
            self.commands.append("account")


def case(rng):
    """The commands of one case."""
    made = Case(rng)
    length = 1 + rng.randint(5, 40)
    if rng.random() < 0.06:
        made.churn()
        made.sheet(20)
    if rng.random() < 0.5:
        made.sheet(90)
    while len(made.commands) < length:
        made.step()
    return made.commands
