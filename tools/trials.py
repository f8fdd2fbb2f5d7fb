#!/usr/bin/env python3
"""Writes the input of the program `trials` and the output that it must print.

It works everything out anew, digit by digit, and shares no code with the engine. Run it in the repository's folder:

    tools/trials.py            writes crates/trials/stdin and crates/trials/stdout
    tools/trials.py --seed N   the same cases with other random rows
    tools/trials.py --check    says whether the stored files are those it would write
"""
import argparse
import random
import sys
from itertools import combinations, product
from pathlib import Path

WEIGHTS = {1: (1, 5, 0), 2: (4, 3, 2), 3: (3, 1, 2), 4: (4, 5, 2), 5: (1, 3, 2)}


# ---- the rules ------------------------------------------------------------------------------------------------------

class Refused(Exception):
    """A refusal: its number, its word, what it names and its layer."""

    def __str__(self):
        number, word, names, layer = self.args
        return " ".join(["refused", str(number), word, *map(str, names), layer])


def length(found):
    return Refused(1, "length", [found], "element")


def digit(place):
    return Refused(2, "digit", [place], "element")


def size(found):
    return Refused(3, "size", [found], "family")


def digits_or_refuse(row, offset=0):
    for place, d in enumerate(row):
        if d > 5:
            raise digit(offset + place)


class Family:
    """A family: its count, its dimension, and the two vectors of each position."""

    def __init__(self, count, dimension, tell):
        self.count, self.dimension, self.tell = count, dimension, tell

    def rows(self, i):
        if i < self.count:
            return self.tell(i)
        return [0] * self.dimension, [0] * self.dimension

    def all_rows(self):
        return [self.rows(i) for i in range(self.count)]


def unit(n):
    if not 1 <= n <= 4096:
        raise size(n)
    return Family(n, n, lambda i: ([int(c == i) for c in range(n)], [int(c != i) for c in range(n)]))


def coordinates(h, q):
    """What each coordinate stands for: letters at places."""
    yield ()
    for place in range(h):
        for letter in range(q):
            yield ((place, letter),)
    for i, j in combinations(range(h), 2):
        for c, d in product(range(q), repeat=2):
            yield ((i, c), (j, d))


def words(h, q):
    if not 1 <= h <= 5:
        raise size(h)
    if not 2 <= q <= 16:
        raise size(q)
    meanings = list(coordinates(h, q))

    def tell(t):
        word = [t // q ** (h - 1 - p) % q for p in range(h)]
        u = [int(all(word[p] == letter for p, letter in m)) for m in meanings]
        return u, [WEIGHTS[h][len(m)] * x for m, x in zip(meanings, u)]

    return Family(q**h, len(meanings), tell)


def first(m, family):
    if not 1 <= m <= family.count:
        raise size(m)
    return Family(m, family.dimension, family.tell)


def dot(a, b):
    return sum(x * y for x, y in zip(a, b)) % 6


def examined(data):
    """What an examination finds: dimension, positions, pairs tried, and the family or the refusal."""
    whole, at = len(data), 0
    found = {"dimension": "-", "positions": "-", "pairs": "-"}

    def take(n):
        nonlocal at
        if whole - at < n:
            raise length(whole)
        at += n
        return data[at - n:at]

    def read():
        dimension = int.from_bytes(take(2), "big")
        if not 1 <= dimension <= 4096:
            raise size(dimension)
        found["dimension"] = dimension
        count = int.from_bytes(take(4), "big")
        if not 1 <= count <= 1024:
            raise size(count)
        found["positions"] = count
        sections = []
        for section in range(2):
            if section == 1:
                second = int.from_bytes(take(4), "big")
                if second != count:
                    raise Refused(4, "counts", [second], "family")
            start = at
            rows = take(count * dimension)
            digits_or_refuse(rows, start)
            sections.append([list(rows[i * dimension:(i + 1) * dimension]) for i in range(count)])
        if at != whole:
            raise length(whole)
        us, vs = sections
        found["pairs"] = 0
        for i in range(count):
            for j in range(count):
                found["pairs"] += 1
                p = dot(us[i], vs[j])
                if (p != 0) if i == j else (p not in (1, 3, 4)):
                    raise Refused(5, "unmatched", [i, j], "family")
        return Family(count, dimension, lambda i: (us[i], vs[i]))

    try:
        return found, read()
    except Refused as refusal:
        return found, refusal


C1, C2, C3, C4 = (0, 1, 0, 0, 2, 3), (0, 5, 0, 0, 4, 3), (0, 1, 0, 3, 2, 0), (0, 5, 0, 3, 4, 0)
D = (0, 2, 0, 3, 4, 3)


def answered(family, table, query):
    """The sheet of a table for a query: the value, then the element of each coordinate."""
    sheet = [[0] * 6 for _ in range(1 + family.dimension)]
    for entry, (u, _) in zip(table, family.all_rows()):
        e = dot(u, query)
        for place, factor in enumerate([1] + u):
            sheet[place][e] += entry * factor
    return [d % 6 for one in sheet for d in one]


def six_at(row, place):
    """Six numbers of a row from a place on, modulo 6; past its end they are 0."""
    return [d % 6 for d in (list(row[place:place + 6]) + [0] * 6)[:6]]


def weighed(*four):
    products = [times(c, y) for c, y in zip((C1, C2, C3, C4), four)]
    return [sum(digits) % 6 for digits in zip(*products)]


def entry_of(x):
    """The entry that X is D times, or None where it is no entry times D."""
    found = [a for a in range(6) if [a * d % 6 for d in D] == list(x)]
    return found[0] if found else None


def book(data):
    _, came = examined(data)
    if isinstance(came, Refused):
        raise came
    return came


def element(row):
    if len(row) != 6:
        raise length(len(row))
    digits_or_refuse(row)
    return list(row)


# ---- what the program prints ----------------------------------------------------------------------------------------

def spaced(row):
    return "".join(f" {d}" for d in row)


def asked(family, rest):
    if not rest:
        return f"count {family.count} dimension {family.dimension}"
    u, v = family.rows(rest[0])
    if len(rest) == 1:
        return f"u{spaced(u + [0])} v{spaced(v + [0])}"
    _, amount, e, row = rest
    result = dot(u, row)
    after = list(row)
    for c, d in enumerate(u):
        place = 6 * c + e % 6
        if d and place < len(after):
            after[place] = (after[place] + amount * d) % 6
    return f"product {result} spread{spaced(after)}"


def reported(data):
    found, came = examined(data)
    verdict = came if isinstance(came, Refused) else "accepted"
    return " ".join(f"{name} {value}" for name, value in found.items()) + f" {verdict}"


def turned(e, s):
    return [e[(r + s) % 6] for r in range(6)]


def times(e, f):
    out = [0] * 6
    for i, x in enumerate(e):
        for j, y in enumerate(f):
            out[(i + j) % 6] += x * y
    return [d % 6 for d in out]


def alone(row, s, a):
    e = element(row)
    return f"read{spaced(e)} turned{spaced(turned(e, s))} scaled{spaced([a * d % 6 for d in e])} digit {e[s % 6]}"


def written(row, over):
    e = element(row)
    if len(over) != 6:
        return f"{length(len(over))} row{spaced(over)}"
    return f"row{spaced(e)}"


def together(one, two):
    e, f = element(one), element(two)
    return f"sum{spaced([(x + y) % 6 for x, y in zip(e, f)])} product{spaced(times(e, f))} same {str(e == f).lower()}"


def multiplied(one, two):
    if len(two) != len(one):
        raise length(len(two))
    digits_or_refuse(one)
    digits_or_refuse(two)
    return f"product {dot(one, two)}"


def drawn(data, tape):
    if len(data) != len(tape):
        return f"{length(len(data))} tape{spaced(tape)}"
    return f"tape{spaced([b % 6 for b in data])}"


def told_entry(x):
    entry = entry_of(x)
    return "at odds" if entry is None else f"entry {entry}"


def recovered(family, t, s, sheets):
    """Each step of a recovery from two rows of any length."""
    v = family.rows(t)[1]
    four = []
    for sheet in sheets:
        elements = [six_at(sheet, 6 * (1 + c)) for c in range(family.dimension)]
        four += [six_at(sheet, 0), [sum(d * e[r] for d, e in zip(v, elements)) % 6 for r in range(6)]]
    w = weighed(*four)
    x = turned(w, s)
    return "".join(f"y{spaced(y)} " for y in four) + f"w{spaced(w)} x{spaced(x)} {told_entry(x)}"


# ---- the cases ------------------------------------------------------------------------------------------------------

def hexed(row):
    return bytes(row).hex() or "-"


def flat_book(us, vs, k, count=None, second=None):
    count = len(us) if count is None else count
    second = count if second is None else second
    rows = lambda vectors: b"".join(bytes(v) for v in vectors)
    return k.to_bytes(2, "big") + count.to_bytes(4, "big") + rows(us) + second.to_bytes(4, "big") + rows(vs)


def book_of(family):
    rows = family.all_rows()
    return flat_book([u for u, _ in rows], [v for _, v in rows], family.dimension)


def books(rng):
    """Books, good and bad in every way."""
    good = []
    for n in (1, 2, 3, 5, 16):
        good.append(book_of(unit(n)))
    for h, q in ((1, 2), (1, 5), (2, 2), (2, 3), (3, 2), (4, 2), (5, 2)):
        good.append(book_of(words(h, q)))
    yield from good
    # two faults at once, of which the first in order counts
    us, vs, bad = [[1, 0], [0, 1]], [[0, 1], [1, 0]], [[0, 1], [1, 6]]
    yield flat_book(bad, vs, 2, 2, 3)
    yield flat_book(us, bad, 2, 2, 3)
    yield flat_book(bad, bad, 2, 2, 2)
    yield flat_book(us, vs, 2, 2, 3)[:-1]
    yield flat_book(us, vs, 2, 2, 3) + b"\x00"
    yield flat_book(us, bad, 2) + b"\x00"
    yield flat_book(bad, vs, 2)[:-3]
    yield flat_book(us, bad, 2)[:-1]
    yield flat_book(us, us, 2) + b"\x00"
    yield flat_book(us, us, 2)
    yield flat_book(us, vs, 0, 0)
    yield flat_book(us, vs, 4097, 0)
    yield flat_book(us, vs, 2, 0, 5)
    yield flat_book(us, vs, 2, 1025, 5)
    # the products of one order fit and those of the other do not, so trying i < j alone would accept it
    yield flat_book([[1, 0], [0, 1]], [[0, 2], [1, 0]], 2)
    yield flat_book([[1, 0], [0, 1]], [[0, 1], [2, 0]], 2)
    # a product of 2 or 5 apart, or of anything but 0 alike
    for bad in (0, 2, 5):
        yield flat_book([[1, 0], [0, 1]], [[0, bad], [1, 0]], 2)
        yield flat_book([[1, 0], [0, 1]], [[0, 1], [bad, 0]], 2)
    for bad in range(1, 6):
        yield flat_book([[1, 0], [0, 1]], [[bad, 1], [1, 0]], 2)
        yield flat_book([[1, 0], [0, 1]], [[0, 1], [1, bad]], 2)
    # limits of the dimension and of the counts, with and without what follows
    for k in (0, 1, 2, 4095, 4096, 4097, 65535):
        yield k.to_bytes(2, "big")
        yield k.to_bytes(2, "big") + (1).to_bytes(4, "big")
    for k in (0, 1, 2, 4096, 4097):
        yield flat_book([[0] * k], [[0] * k], k)
    for n in (0, 1, 1023, 1024, 1025, 65536, 2**32 - 1):
        yield (1).to_bytes(2, "big") + n.to_bytes(4, "big")
        yield (1).to_bytes(2, "big") + n.to_bytes(4, "big") + b"\x06"
        yield flat_book([[0]], [[0]], 1, 1, n)
    yield flat_book([[0]] * 1024, [[0]] * 1024, 1)
    yield flat_book([[0]] * 1025, [[0]] * 1025, 1)
    # each good book cut at every length, with bytes after it, and with one byte changed
    for b in good[:4] + good[5:6] + good[7:8]:
        for cut in range(len(b)):
            yield b[:cut]
        for more in (b"\x00", b"\x06\x06", b"\x01\x02\x03"):
            yield b + more
        for place in range(len(b)):
            for d in (6, 255, (b[place] + 1) % 6):
                yield b[:place] + bytes([d]) + b[place + 1:]
    # random small books, most of them unmatched
    for _ in range(200):
        n, k = rng.randint(1, 3), rng.randint(1, 4)
        row = lambda: [rng.choice((0, 0, 1, 2, 3, 4, 5)) for _ in range(k)]
        yield flat_book([row() for _ in range(n)], [row() for _ in range(n)], k)


def some_row(rng, n, top=5):
    return [rng.randint(0, top) for _ in range(n)]


def kinds(rng):
    """Families of every kind: sizes at the edges, vectors, products and spreading."""
    for n in (0, 1, 2, 4095, 4096, 4097, 2**32):
        yield "unit", [n], None, lambda n=n: unit(n)
    for h, q in product(range(0, 7), range(0, 19)):
        yield "words", [h, q], None, lambda h=h, q=q: words(h, q)
    for m in (0, 1, 8, 9, 10):
        yield "first", [m, 2, 3], None, lambda m=m: first(m, words(2, 3))
    for m in (0, 1, 1048575, 1048576, 1048577):
        yield "first", [m, 5, 16], None, lambda m=m: first(m, words(5, 16))
    for m in (0, 1, 4, 5, 6):
        yield "part", [m, 4], None, lambda m=m: first(m, first(5, unit(6)))
    for i in range(6):
        yield "part", [3, 4], i, lambda: first(3, first(5, unit(6)))
    for n in (1, 2, 7):
        for i in range(n + 2):
            yield "unit", [n], i, lambda n=n: unit(n)
    for i in (0, 4095, 4096):
        yield "unit", [4096], i, lambda: unit(4096)
    for h, q in ((1, 2), (1, 3), (2, 2), (2, 3), (3, 2), (3, 3), (4, 2), (5, 2)):
        for i in range(q**h + 1):
            yield "words", [h, q], i, lambda h=h, q=q: words(h, q)
    for h, q in ((5, 16), (4, 16), (3, 16), (5, 7), (2, 16), (1, 16)):
        for i in (0, q**h - 1, q**h, rng.randrange(q**h)):
            yield "words", [h, q], i, lambda h=h, q=q: words(h, q)
    for i in range(6):
        yield "first", [4, 2, 3], i, lambda: first(4, words(2, 3))
    held = book_of(words(2, 2))
    for i in range(6):
        yield "book", [hexed(held)], i, lambda: book(held)


def lookups(rng):
    """Recoveries: from sheets of one table, from damaged ones, and from rows that are no sheets."""
    for h, q in ((1, 2), (1, 3), (1, 16), (2, 2), (2, 3), (3, 2), (4, 2), (5, 2)):
        family = words(h, q)
        for trial in range(8):
            t = rng.randrange(family.count)
            table = some_row(rng, family.count)
            # each entry from 0 to 5 is sought, and the last two seek whatever stands there
            table[t] = trial if trial < 6 else table[t]
            z = some_row(rng, family.dimension)
            if (h, q, trial) == (1, 2, 5):
                t, table, z = 1, [2, 5], [3, 1, 4]
            u, v = family.rows(t)
            s = dot(u, z)
            sheets = [answered(family, table, p) for p in (z, [(a + b) % 6 for a, b in zip(z, v)])]
            assert recovered(family, t, s, sheets).endswith(f"entry {table[t]}")
            if (h, q, trial) == (1, 2, 5):
                # the worked case, by its numbers
                assert sheets[0] == [0, 5, 0, 0, 2, 0] * 2 + [0, 0, 0, 0, 2, 0] + [0, 5, 0, 0, 0, 0]
                assert "w 3 0 4 0 3 2 " in recovered(family, t, s, sheets) and s == 1
            yield h, q, t, s, sheets
            yield h, q, t, s, sheets[::-1]
            yield h, q, t, (s + 1) % 6, sheets
            yield h, q, (t + 1) % family.count, s, sheets
            for which in range(2):
                place = rng.randrange(len(sheets[0]))
                damaged = [list(sheet) for sheet in sheets]
                damaged[which][place] = (damaged[which][place] + rng.randint(1, 5)) % 6
                yield h, q, t, s, damaged
        k = family.dimension
        for n, m in ((0, 0), (5, 7), (6 * k + 5, 6 * k + 6), (6 * k + 7, 6 * k)):
            yield h, q, family.count, 255, [some_row(rng, n, 255), some_row(rng, m, 255)]
            yield h, q, 0, rng.randint(0, 255), [some_row(rng, n, 255), some_row(rng, m, 255)]


def recoveries(rng):
    for r in range(5):
        one, power = [1, 0, 0, 0, 0, 0], [int(place == r) for place in range(6)]
        scale = lambda e: [r * d % 6 for d in e]
        four = one, scale(one), power, scale(power)
        yield "weighed " + " ".join(map(hexed, four)), lambda four=four: f"weighed{spaced(weighed(*four))}"
    for _ in range(60):
        four = [some_row(rng, 6) for _ in range(4)]
        yield "weighed " + " ".join(map(hexed, four)), lambda four=four: f"weighed{spaced(weighed(*four))}"
    for a in range(6):
        whole = [a * d % 6 for d in D]
        yield f"entry {hexed(whole)}", lambda whole=whole: told_entry(whole)
        for place in range(6):
            for d in range(1, 6):
                other = whole[:place] + [(whole[place] + d) % 6] + whole[place + 1:]
                yield f"entry {hexed(other)}", lambda other=other: told_entry(other)
    yield "entry 000100000203", lambda: told_entry([0, 1, 0, 0, 2, 3])
    for h, q, t, s, (one, two) in lookups(rng):
        yield (
            f"recover {h} {q} {t} {s} {hexed(one)} {hexed(two)}",
            lambda h=h, q=q, t=t, s=s, one=one, two=two: recovered(words(h, q), t, s, (one, two)),
        )


def odd_lines():
    """Lines that ask for no case, and words that are no numbers, rows or elements."""
    for line in ("", "element", "unit", "words 1", "recover 1 2 0 0 00", "Unit 3", "weigh 00", " unit 3", "unit\t3"):
        yield line, lambda: "no such trial"
    for line in ("unit 3 0 1", "words 1 2 0 1 2", "part 1 1 0 0"):
        yield line, lambda: "no such trial of a family"
    for line in ("modulo -", "modulo 0102030405"):
        yield line, lambda: "no six numbers"
    for line in ("weighed", "weighed 000000000000", "weighed - - - - -"):
        yield line, lambda: "no four elements"
    # between two spaces, and after one at the end, there is an empty word
    yield "unit 3 ", lambda: asked(unit(3), [2**64 - 1])
    yield "six 0708  1", lambda: "no such trial"
    # leading zeros and a plus may stand
    for word in ("3", "003", "+3", "+003"):
        yield f"unit {word}", lambda: asked(unit(3), [])
        yield f"element 010203040500 {word} {word}", lambda: alone([1, 2, 3, 4, 5, 0], 3, 3)
    # an amount or a shift above 255 counts as 255
    for word in ("256", "1000", "18446744073709551616"):
        yield f"element 010203040500 0 {word}", lambda: alone([1, 2, 3, 4, 5, 0], 0, 255)
        yield f"unit 1 0 {word} 6 000000000000", lambda: asked(unit(1), [0, 255, 6, [0] * 6])
        yield f"recover 1 2 0 {word} 07 -", lambda: recovered(words(1, 2), 0, 255, ([7], []))
    # a word that is no number, or one too large, is the largest there is
    for word in ("x", "-1", "1x", "+", "++3", "18446744073709551616", ""):
        yield f"unit {word}", lambda: str(size(2**64 - 1))
    for word in ("x", "-1", "1x"):
        yield f"element 010203040500 0 {word}", lambda: alone([1, 2, 3, 4, 5, 0], 0, 255)
    # a letter that is no digit counts as 0, and a lone last one is dropped
    yield "draw 0g1f2 0000", lambda: drawn([0, 31], [0, 0])
    yield "draw fF -", lambda: drawn([240], [])
    # of a longer row the first six numbers are taken
    for row in (range(7, 14), range(100, 112)):
        yield f"modulo {hexed(row)}", lambda row=row: f"modulo{spaced(six_at(list(row), 0))}"
    # a family that is none
    for h, q in ((0, 2), (6, 2), (1, 1), (5, 17)):
        yield f"recover {h} {q} 0 0 - -", lambda h=h, q=q: recovered(words(h, q), 0, 0, ([], []))
    # elements that are none; of two, the first that is none is refused
    for one, two in (([0], [6]), ([0, 1, 2, 3, 4, 5], [6] * 6), ([0] * 5 + [9], []), ([], [0] * 5 + [9]), ([0] * 6, [0] * 7)):
        yield f"elements {hexed(one)} {hexed(two)}", lambda one=one, two=two: together(one, two)
        yield f"write {hexed(one)} {hexed(two)}", lambda one=one, two=two: written(one, two)
    for row in ([], [0] * 5, [0, 0, 0, 0, 0, 6], [9, 0, 0, 0, 0, 0, 0]):
        yield f"entry {hexed(row)}", lambda row=row: told_entry(element(row))
        yield f"weighed {hexed([0] * 6)} {hexed(row)} {hexed([6] * 6)} -", lambda row=row: told_entry(element(row))


def cases(rng):
    for b in books(rng):
        yield "book " + hexed(b), lambda b=b: asked(book(b), [])
        yield "examine " + hexed(b), lambda b=b: reported(b)
    for word, numbers, i, make in kinds(rng):
        line = " ".join(map(str, [word, *numbers]))
        if i is None:
            yield line, lambda make=make: asked(make(), [])
            continue
        k = make().dimension
        yield f"{line} {i}", lambda make=make, i=i: asked(make(), [i])
        rows = [(rng.randint(0, 5), rng.randint(0, 20), some_row(rng, n)) for n in ({0, 1, 6 * k - 1, 6 * k, 6 * k + 3} if k < 20 else {6 * k})]
        rows.append((rng.randint(0, 255), rng.randint(0, 2**40), some_row(rng, min(6 * k, 90), 255)))
        for amount, e, row in rows:
            yield f"{line} {i} {amount} {e} {hexed(row)}", lambda make=make, i=i, a=amount, e=e, r=row: asked(make(), [i, a, e, r])
    for n in (0, 5, 6, 7, 12):
        one, over = some_row(rng, 6), some_row(rng, n, 255)
        yield f"write {hexed(one)} {hexed(over)}", lambda one=one, over=over: written(one, over)
    for _ in range(300):
        one, two = some_row(rng, 6), some_row(rng, 6)
        s, a = rng.randint(0, 13), rng.randint(0, 255)
        yield f"element {hexed(one)} {s} {a}", lambda one=one, s=s, a=a: alone(one, s, a)
        yield f"elements {hexed(one)} {hexed(two)}", lambda one=one, two=two: together(one, two)
    for place in range(6):
        one = some_row(rng, 6)
        two = one[:place] + [(one[place] + 1) % 6] + one[place + 1:]
        yield f"elements {hexed(one)} {hexed(two)}", lambda one=one, two=two: together(one, two)
        yield f"elements {hexed(one)} {hexed(one)}", lambda one=one: together(one, one)
    yield "elements 000003000000 000000000200", lambda: together([0, 0, 3, 0, 0, 0], [0, 0, 0, 0, 2, 0])
    for n in (0, 1, 5, 6, 7, 12):
        row = some_row(rng, n)
        yield f"element {hexed(row)} 1 1", lambda row=row: alone(row, 1, 1)
    for place in range(6):
        for d in (6, 255):
            row = [5] * 6
            row[place] = d
            yield f"element {hexed(row)} 0 0", lambda row=row: alone(row, 0, 0)
    for n in (0, 1, 2, 7, 100, 4095, 4096, 4097, 9000):
        one, two = some_row(rng, n), some_row(rng, n)
        yield f"vectors {hexed(one)} {hexed(two)}", lambda one=one, two=two: multiplied(one, two)
        five = [5] * n
        yield f"vectors {hexed(five)} {hexed(five)}", lambda five=five: multiplied(five, five)
    for one, two in (([1, 2], [1]), ([6], [1, 2]), ([6, 0], [0, 9]), ([0, 7], [9, 0]), ([5, 5], [0, 6])):
        yield f"vectors {hexed(one)} {hexed(two)}", lambda one=one, two=two: multiplied(one, two)
    everything = list(range(256))
    yield f"draw {hexed(everything)} {hexed([9] * 256)}", lambda: drawn(everything, [9] * 256)
    for n, m in ((0, 0), (1, 1), (3, 2), (2, 3), (0, 1)):
        data, tape = some_row(rng, n, 255), some_row(rng, m, 255)
        yield f"draw {hexed(data)} {hexed(tape)}", lambda data=data, tape=tape: drawn(data, tape)
    for n in (0, 1, 6, 7, 13):
        row = some_row(rng, n, 255)
        for place in (0, 1, 6, 7, 12, 13, 14, 2**64 - 1):
            yield f"six {hexed(row)} {place}", lambda row=row, place=place: f"six{spaced(six_at(row, place))}"
    for _ in range(6):
        row = some_row(rng, 6, 255)
        yield f"modulo {hexed(row)}", lambda row=row: f"modulo{spaced(six_at(row, 0))}"
    yield from recoveries(rng)
    yield from odd_lines()


def keep(folder, texts, check):
    """Writes texts into files of a folder, or, to check, compares them with what the files hold."""
    for name, text in texts.items():
        if check:
            if (folder / name).read_text() != text:
                sys.exit(f"{folder / name} is not what this program would write")
        else:
            (folder / name).write_text(text)


def main():
    parser = argparse.ArgumentParser(description=__doc__.splitlines()[0])
    parser.add_argument("--seed", type=int, default=1)
    parser.add_argument("--check", action="store_true")
    options = parser.parse_args()
    rng = random.Random(options.seed)
    lines, answers, asked_before = [], [], set()
    for line, work in cases(rng):
        if line in asked_before:
            continue
        asked_before.add(line)
        lines.append(line)
        try:
            answers.append(work())
        except Refused as refusal:
            answers.append(str(refusal))
    texts = {"stdin": "\n".join(lines) + "\n", "stdout": "\n".join(answers) + "\n"}
    keep(Path("crates/trials"), texts, options.check)
    print(f"{len(lines)} cases")


if __name__ == "__main__":
    main()
