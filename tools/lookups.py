"""Hosts, sessions, rounds and the program `lookup`, worked out anew, digit by digit. It shares no code with the engine.

The families, and the refusals that they share, are those of `trials.py`.
"""
import re
import sys

from trials import Refused, digit, digits_or_refuse, dot, entry_of, length, turned, weighed, words

MOST_CHANGES = 64

# numbers of an input may have thousands of digits
sys.set_int_max_str_digits(10000)


def size(layer, found):
    return Refused(3, "size", [found], layer)


def same_size(layer, wanted, found):
    if found != wanted:
        raise size(layer, found)


def same_length(row, wanted):
    if len(row) != wanted:
        raise length(len(row))


# ---- hosts ----------------------------------------------------------------------------------------------------------

class Host:
    """A count, and a table of which only the entries other than 0 are kept, by position."""

    def __init__(self, count, table):
        if not 1 <= count <= 1048576:
            raise size("host", count)
        self.count, self.table = count, table

    def entry(self, i):
        return self.table.get(i, 0)

    def answer(self, family, query, sheet):
        """Adds what it answers to a sheet."""
        k = family.dimension
        same_size("host", self.count, family.count)
        same_length(query, k)
        same_length(sheet, 6 * (1 + k))
        digits_or_refuse(query)
        digits_or_refuse(sheet)
        for i, a in self.table.items():
            u = family.rows(i)[0]
            e = dot(u, query)
            # the value is as the element of a coordinate at which every u is 1
            for c, d in enumerate([1] + u):
                sheet[6 * c + e] = (sheet[6 * c + e] + a * d) % 6


def dense(row):
    host = Host(len(row), {})
    digits_or_refuse(row)
    host.table = {i: d for i, d in enumerate(row) if d}
    return host


class ChangeHost(Host):
    """The changes are the table: one of digit 0 is kept as well."""

    def __init__(self, count):
        super().__init__(count, {})

    def set(self, i, d):
        if i >= self.count:
            raise Refused(6, "position", [i], "host")
        if d > 5:
            raise digit(0)
        if i not in self.table and len(self.table) == MOST_CHANGES:
            raise Refused(9, "full", [MOST_CHANGES], "host")
        self.table[i] = d


def summed(one, two):
    same_size("host", one.count, two.count)
    both = {i: (one.entry(i) + two.entry(i)) % 6 for i in {*one.table, *two.table}}
    return Host(one.count, both)


# ---- sessions -------------------------------------------------------------------------------------------------------

class Session:
    """Two sizes, the digits that are left, the lookup that waits (a position and a shift), and three numbers."""

    def __init__(self, family, tape):
        digits_or_refuse(tape)
        self.count, self.dimension = family.count, family.dimension
        self.left = list(tape)
        self.lookup = None
        self.taken = self.read = self.unread = 0

    def know(self, family):
        same_size("session", self.count, family.count)
        same_size("session", self.dimension, family.dimension)

    def may_request(self, t):
        if t >= self.count:
            raise Refused(6, "position", [t], "session")
        if len(self.left) < self.dimension:
            raise Refused(7, "spent", [len(self.left)], "session")

    def check(self, family, t, first, second):
        self.know(family)
        same_length(first, self.dimension)
        same_length(second, self.dimension)
        self.may_request(t)

    def request(self, family, t, first, second):
        self.check(family, t, first, second)
        u, v = family.rows(t)
        z = [self.left.pop(0) for _ in range(self.dimension)]
        first[:] = z
        second[:] = [(a + b) % 6 for a, b in zip(z, v)]
        self.lookup = t, dot(u, z)
        self.taken += 1

    def recover(self, family, one, two):
        t, s = self.lookup
        self.lookup = None
        try:
            entry = self.reading(family, t, s, one, two)
        except Refused:
            self.unread += 1
            raise
        self.read += 1
        return entry

    def reading(self, family, t, s, one, two):
        self.know(family)
        for sheet in (one, two):
            same_length(sheet, 6 * (1 + self.dimension))
        for sheet in (one, two):
            digits_or_refuse(sheet)
        v = family.rows(t)[1]
        four = []
        for sheet in (one, two):
            elements = [sheet[place:place + 6] for place in range(0, len(sheet), 6)]
            four += [elements[0], [sum(d * e[r] for d, e in zip(v, elements[1:])) % 6 for r in range(6)]]
        entry = entry_of(turned(weighed(*four), s))
        if entry is None:
            raise Refused(8, "at odds", [t], "session")
        return entry

    def abandon(self):
        self.lookup = None
        self.unread += 1


def check_round(session, family, hosts, t, rows):
    k = session.dimension
    session.know(family)
    for host in hosts:
        same_size("host", session.count, host.count)
    for row, wanted in zip(rows, (k, k, 6 * (1 + k), 6 * (1 + k))):
        same_length(row, wanted)
    session.may_request(t)


def whole_round(session, family, hosts, t, rows):
    """The entry, and how many digits were carried: two queries there, two sheets back."""
    check_round(session, family, hosts, t, rows)
    queries, sheets = rows[:2], rows[2:]
    session.request(family, t, *queries)
    for host, query, sheet in zip(hosts, queries, sheets):
        sheet[:] = [0] * len(sheet)
        host.answer(family, query, sheet)
    return session.recover(family, *sheets), sum(map(len, rows))


# ---- the program `lookup` -------------------------------------------------------------------------------------------

NUMBERS = rb"((?:[0-9]+(?: [0-9]+)*)?)\n"
FORM = re.compile(rb"([0-9]+ [0-9]+)\n([0-9]+)\n" + NUMBERS + NUMBERS)


def looked_up(data):
    """What `lookup` prints for an input."""
    # the last line feed may be missing, of an empty tape too
    form = FORM.fullmatch(data) or FORM.fullmatch(data + b"\n")
    if len(data) > 8192 or not form:
        return "refused 1\n"
    sizes, position, table, tape = ([int(word) for word in line.split()] for line in form.groups())
    if max(sizes + position + table + tape) > 4294967295:
        return "refused 1\n"
    t = position[0]
    try:
        family = words(*sizes)
        host = dense(table)
        session = Session(family, tape)
        rows = [[0] * n for n in (family.dimension,) * 2 + (6 * (1 + family.dimension),) * 2]
        entry, carried = whole_round(session, family, (host, host), t, rows)
    except Refused as refusal:
        return f"refused {refusal.args[0]}\n"
    first, second = ("".join(f" {d}" for d in query) for query in rows[:2])
    return f"position {t}\nfirst{first}\nsecond{second}\ncarried {carried}\nentry {entry}\n"
