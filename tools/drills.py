#!/usr/bin/env python3
"""Writes the input of the program `drills` and the output that it must print.

It works everything out anew, digit by digit, and shares no code with the engine: the rules are in `lookups.py`, what is
printed in `drill_bench.py`, and the cases here. Run it in the repository's folder:

    tools/drills.py            writes crates/drills/stdin and crates/drills/stdout
    tools/drills.py --seed N   the same cases with other random rows
    tools/drills.py --check    says whether the stored files are those it would write, and tries on all tapes of short
                               sessions that a host is shown the same for every position
"""
import argparse
import random
import sys
from collections import Counter
from itertools import combinations, product
from pathlib import Path

sys.dont_write_bytecode = True  # no folder of compiled files beside the tools

from drill_bench import Bench, family
from lookups import Session, dense, looked_up, whole_round
from trials import Refused, book_of, dot, flat_book, hexed, keep, some_row


def pairs_of(faults):
    """No fault, each fault alone, and each two of them."""
    for many in range(3):
        yield from map(set, combinations(faults, many))


def spoilt(rng, row, which):
    """The row with bytes that are no digits, of the first row at even places and of the second at odd ones: so a refusal
    tells the row."""
    row = list(row)
    places = range(which, len(row), 2) or [0]
    for _ in range(2):
        row[rng.choice(places)] = rng.choice((6, 7, 255))
    return row


def unfit(rng, row, which):
    """The first row with digits too few, the second with digits too many."""
    return list(row) + [0] * rng.choice((1, 2)) if which else list(row)[:-rng.choice((1, 2))]


# ---- families and hosts ---------------------------------------------------------------------------------------------

def any_book(rng, n, k):
    """A book of vectors found by trying: they match, and are of no other kind."""
    while True:
        us, vs = [], []
        for _ in range(20000):
            u, v = some_row(rng, k), some_row(rng, k)
            if dot(u, v) == 0 and all(dot(u, w) in (1, 3, 4) and dot(x, v) in (1, 3, 4) for x, w in zip(us, vs)):
                us.append(u)
                vs.append(v)
            if len(us) == n:
                return flat_book(us, vs, k)


def families(rng):
    """Every kind of family, small."""
    books = [any_book(rng, 2, 3), any_book(rng, 4, 4), book_of(family("words 2 2")), book_of(family("unit 3"))]
    texts = ["unit 1", "unit 2", "unit 5", "words 1 2", "words 1 4", "words 2 2", "words 2 3", "words 3 2", "words 4 2", "words 5 2"]
    texts += [f"book {hexed(data)}" for data in books]
    texts += ["first 1 unit 3", "first 3 words 2 2", f"first 3 book {hexed(books[1])}", "first 2 first 4 words 1 5"]
    return texts


# a letter for each host: dense (d), dense by repeating a row (r), change (c); two or more are summed
SHAPES = ["d", "c", "dd", "dc", "cd", "cc", "dcd", "cdc", "dccd", "rddr"]


def single(rng, letter, table):
    """A dense or a change host of a table."""
    if letter == "d":
        return f"d:{hexed(table) if table else ''}"
    if letter == "r":
        return f"r:{len(table)}:{hexed(table)}"
    held = [(i, d) for i, d in enumerate(table) if d or rng.random() < 0.2][:64]
    # first set to another digit, now and then
    settings = [(i, rng.randint(0, 5)) for i, _ in held if rng.random() < 0.3]
    rng.shuffle(held)
    settings += held
    return f"c:{len(table)}" + (":" + ",".join(f"{i}={d}" for i, d in settings) if settings else "")


def host_of(rng, shape, table):
    """A host of a table, as the sum of as many as the shape has letters."""
    parts = [some_row(rng, len(table)) for _ in shape[1:]]
    rest = [(d - sum(part[i] for part in parts)) % 6 for i, d in enumerate(table)]
    return "+".join(single(rng, letter, part) for letter, part in zip(shape, parts + [rest]))


def make_hosts(rng, bench):
    """Which hosts are made."""
    bench.use("unit 1")
    for line in ("- 0", "06", "00", "05 0 1", f"000102030405 0 1 2 3 4 5 6 {2**64 - 1}", "000600"):
        bench.ask("dense", line)
    for text in ("d:", "d:00", "d:05", "d:06", "d:ff", "d:000602", "d:0607", "d:0102030405000102"):
        bench.ask("host", text)
    for text in ("r:0:00", "r:1048576:05", "r:1048576:000000000006", "r:1048577:00", "r:1048577:06", "r:7:00000000000006"):
        bench.ask("host", text)
    for n in (0, 1, 2, 1048575, 1048576, 1048577, 2**32, 2**64 - 1):
        bench.ask("host", f"c:{n}")
    for text in ("c:2:2=0", "c:2:1=6", "c:2:2=6", "c:0:0=0", "c:2:0=1,1=5,0=2", "c:2:1", "c:2:0=1,1", "c:2:2"):
        bench.ask("host", text)
    for one, two in product(("d:01", "d:0102", "c:1", "c:2:1=5", "r:2:00"), repeat=2):
        bench.ask("host", f"{one}+{two}")
    for text in (
        "d:00+d:00+d:0000", "d:00+d:0000+d:00", "d:0000+d:00+d:00", "c:3+c:3+c:3", "c:1+c:2+c:3",
        "d:00+c:1+d:05+c:1:0=3", "d:00+c:1+d:0505+c:1", "d:00+c:2+d:05+c:1", "d:00+c:1+c:2+d:0000", "c:1+c:2+c:3+c:4",
        "c:1048576+r:1048576:01", "c:1048576+c:1048575", "d:+d:06", "d:06+d:", "d:0000+d:06", "c:1+c:2+c:0",
        "d:06+c:0", "c:0+d:06", "c:2:2=0+d:06",
    ):
        bench.ask("host", text)


def make_changes(rng, bench):
    """Change hosts, one change after the other."""
    bench.use("unit 1")
    ask = lambda n, *tasks: bench.ask("change", n, *tasks)
    for n in (0, 1, 1048576, 1048577):
        ask(n, "all", n, 0, 1048575, 2**64 - 1)
    # a digit is replaced, and no other; one of 0 is held; position, then digit
    ask(8, "3=5", "5=1", "3", "3=2", "3", "5", "4", "all", "3=0", "3", "all", "5=0", "0=0", "7=4", "all")
    ask(8, "7=5", "8=5", "8=6", "7=6", "7=255", "9=255", "0=6", f"{2**64 - 1}=0", "all", "7", "8", "0")
    ask(1, "0=0", "all", "0", "1", "0=5", "1=0", "all", "0", "1")
    # 64 are held, the next is refused; a held one is replaced all the same
    places = rng.sample(range(1048576), 63) + [1048575]
    held = [f"{p}={rng.randint(0, 5)}" for p in places]
    free = next(p for p in range(1048576) if p not in places)
    ask(1048576, *held, "all", f"{free}=1", f"{free}=0", "all", f"{places[0]}=3", f"{places[63]}=0", f"{places[30]}=5", "all",
        f"{free}=6", f"{places[0]}=6", "1048576=1", "1048576=6", free, places[0], places[63], 1048576, "all")
    ask(64, *(f"{p}={p % 6}" for p in range(64)), "all", *(f"{p}=0" for p in range(64)), "all", "64=0", "64=9", "63=9", "63=1", "63")
    ask(65, *(f"{p}=0" for p in range(65)), "64", "all", "64=5", "64", "0=5", "64=6", "65=0", "65=6", "0")
    for n, many in ((3, 20), (5, 30), (70, 150), (1048576, 40)):
        for _ in range(3):
            some = [rng.randrange(n) for _ in range(10)]
            place = lambda: rng.choice((rng.randrange(n), rng.randint(0, n), *some)) if n > 64 else rng.randint(0, n)
            tasks = [f"{place()}={rng.choice((0, 1, 2, 3, 4, 5, 5, 6))}" if rng.random() < 0.7 else place() for _ in range(many)]
            ask(n, *tasks, "all")


def answers(rng, bench, texts):
    """Answers of every kind of host, for every kind of family, and their refusals two at a time."""
    for number, text in enumerate(texts):
        bench.use(text)
        n, k = bench.family.count, bench.family.dimension
        for shape in SHAPES:
            host = host_of(rng, shape, some_row(rng, n))
            sheet = some_row(rng, 6 * (1 + k)) if k < 20 else [0] * 6 * (1 + k)
            bench.ask("answer", host, hexed(some_row(rng, k)), hexed(sheet))
            # the same query twice; a query or a sheet of zeros
            if k < 10:
                bench.ask("answer", host, hexed([0] * k), hexed([0] * 6 * (1 + k)))
        shapes = SHAPES if text in ("words 1 2", "unit 2") else [SHAPES[number % len(SHAPES)]]
        for shape, faults in product(shapes, pairs_of(("count", "query", "sheet", "query digit", "sheet digit"))):
            if k > 12:
                continue
            query, sheet = some_row(rng, k), some_row(rng, 6 * (1 + k))
            query = unfit(rng, query, rng.randrange(2)) if "query" in faults else query
            sheet = unfit(rng, sheet, rng.randrange(2)) if "sheet" in faults else sheet
            # of no digits none is bad
            query = spoilt(rng, query or [0] * (k + 1), 0) if "query digit" in faults else query
            sheet = spoilt(rng, sheet, 1) if "sheet digit" in faults else sheet
            table = some_row(rng, n + rng.choice((1, 3, -1 if n > 1 else 2)) if "count" in faults else n)
            bench.ask("answer", host_of(rng, shape, table), hexed(query), hexed(sheet))


# ---- sessions and rounds --------------------------------------------------------------------------------------------

# a session's family, one of its count or its dimension alone, and one of neither
OWN = {(): "unit 4", ("count",): "first 3 unit 4", ("dimension",): "words 2 2", ("count", "dimension"): "words 1 2"}


def handed(faults):
    """The family that a call is handed, by which of its sizes are unfit."""
    return OWN[tuple(fault for fault in ("count", "dimension") if fault in faults)]


def by_family(cases):
    """Cases in an order in which a family follows itself as often as it can."""
    return sorted(cases, key=lambda faults: (handed(faults), "spent" in faults))


def open_again(rng, bench, text, digits):
    """A session on that family, with a tape of that many digits."""
    bench.use(text)
    bench.ask("open", hexed(some_row(rng, digits)))


def openings(rng, bench):
    """The session that there is at first, calls out of turn, and tapes that are none."""
    bench.use("unit 1")
    for line in ("counters", "check 0 1 1", "request 1 1 1", "request 0 1 1", "recover - -", "abandon"):
        bench.ask(line)
    bench.use("words 1 2")
    for line in ("check 0 3 3", "request 0 3 3", "recover - -", "ask c:2 c:2", "abandon", "counters", "round 0 3 3 24 24 c:2 c:2"):
        bench.ask(line)
    for tape in ("-", "06", "000000000000000006", "050405ff06", "030104"):
        bench.ask("open", tape)
        bench.ask("counters")
    # a session stays where another is refused
    bench.ask("request 1 3 3")
    for line in ("open -", "fits", "check 0 3 3", "check 0 3 3 24 24 c:2 c:2", "request 0 3 3", "round 0 3 3 24 24 c:2 c:2", "counters"):
        bench.ask(line)
    bench.ask("ask d:0205 d:0205")
    for line in ("recover - -", "ask c:2 c:2", "abandon", "counters", "open 00", "counters"):
        bench.ask(line)


def requests(rng, bench):
    """A request's refusals, two at a time."""
    faults = ("count", "dimension", "first", "second", "position", "spent")
    for case in by_family(pairs_of(faults)):
        text = handed(case)
        if case and (bench.text != text or ("spent" in case) != (len(bench.session.left) == 3)):
            open_again(rng, bench, OWN[()], 3 if "spent" in case else 4)
        if not case:
            open_again(rng, bench, OWN[()], 4)
        bench.use(text)
        bench.ask("fits")
        lengths = [rng.choice(others) if name in case else 4 for name, others in (("first", (0, 3, 8)), ("second", (1, 5, 9)))]
        t = rng.choice((4, 5, 2**64 - 1)) if "position" in case else rng.randrange(4)
        for call in ("check", "request"):
            bench.ask(call, t, *lengths)
        if not case:
            bench.ask("abandon")
        bench.ask("counters")


def at_odds(rng, bench, k):
    """Two sheets of digits that come to no entry for the lookup that waits, for any family that it may meet."""
    t, s = bench.session.lookup
    while True:
        sheets = [some_row(rng, 6 * (1 + k)) for _ in range(2)]
        try:
            bench.session.reading(bench.family, t, s, *sheets)
        except Refused as refusal:
            if refusal.args[0] == 8:
                return sheets


def recoveries(rng, bench):
    """A recovery's refusals, two at a time: each ends the lookup."""
    open_again(rng, bench, OWN[()], 4 * 40)
    faults = ("count", "dimension", "first", "second", "first digit", "second digit", "at odds")
    for case in by_family(pairs_of(faults)):
        bench.use(OWN[()])
        t, table = rng.randrange(4), some_row(rng, 4)
        bench.ask("request", t, 4, 4)
        sheets = [[0] * 30, [0] * 30]
        for query, sheet in zip(bench.queries, sheets):
            for i in range(4):
                sheet[query[i]] = (sheet[query[i]] + table[i]) % 6
                sheet[6 * (1 + i) + query[i]] = table[i]
        if "at odds" in case:
            sheets = at_odds(rng, bench, 4)
        for which, name in enumerate(("first", "second")):
            sheets[which] = unfit(rng, sheets[which], which) if name in case else sheets[which]
            sheets[which] = spoilt(rng, sheets[which], which) if f"{name} digit" in case else sheets[which]
        bench.use(handed(case))
        came = bench.ask("recover", *map(hexed, sheets))
        assert case or came == f"entry {table[t]}"
        bench.ask("counters")
    # the last k digits are taken, and then the tape is spent, with some digits left and with none
    for more in range(4):
        open_again(rng, bench, OWN[()], 4 * 3 + more)
        for t in (3, 0, 2, 3, 0):
            bench.ask("check", t, 4, 4)
            bench.ask("request", t, 4, 4)
            bench.ask("ask d:00010203 c:4:1=1,2=2,3=3")
            bench.ask("counters")


def other_table(rng, bench, t, table):
    """A table that is found to be another by a round for position t on the tape's next digits, if there are enough."""
    fam = family(OWN[()])
    while True:
        other = some_row(rng, fam.count)
        trial = Session(fam, (bench.session.left + [0] * 4)[:4])
        rows = [[0] * n for n in (4, 4, 30, 30)]
        try:
            whole_round(trial, fam, [dense(table), dense(other)], t, rows)
        except Refused:
            return other


def rounds(rng, bench):
    """A round's refusals, two at a time, and sheets at odds."""
    faults = ("count", "dimension", "one", "two", "q", "r", "s", "x", "position", "spent", "odds")
    for case in by_family(pairs_of(faults)):
        if case <= {"odds"} or bench.text != handed(case) or ("spent" in case) != (len(bench.session.left) < 4):
            open_again(rng, bench, OWN[()], 3 if "spent" in case else rng.choice((4, 9)))
        bench.use(handed(case))
        others = {"q": (0, 3), "r": (1, 5), "s": (2, 29), "x": (4, 31)}
        lengths = [rng.choice(others[name]) if name in case else fit for name, fit in zip("qrsx", (4, 4, 30, 30))]
        t = rng.choice((4, 5, 2**40)) if "position" in case else rng.randrange(4)
        table = some_row(rng, 4)
        other = other_table(rng, bench, t % 4, table) if "odds" in case else table
        tables = [held + [0] if name in case else held for name, held in (("one", table), ("two", other))]
        # hosts of both unequal counts differ, to see which is named
        tables[1] = tables[1] + [0] if {"one", "two"} <= case else tables[1]
        hosts = [host_of(rng, rng.choice(SHAPES), held) for held in tables]
        bench.ask("check", t, *lengths, *hosts)
        came = bench.ask("round", t, *lengths, *hosts)
        assert case or f"entry {table[t]} carried 68" in came
        assert case != {"odds"} or "refused 8" in came
    # hosts of two tables: often found out, and not always
    bench.use("words 1 2")
    seen = Counter()
    while min(seen["found out"], seen["not found out"]) < 4:
        open_again(rng, bench, "words 1 2", 3)
        hosts = [host_of(rng, rng.choice(SHAPES), some_row(rng, 2)) for _ in range(2)]
        came = bench.ask("round", rng.randrange(2), 3, 3, 24, 24, *hosts)
        seen["found out" if "at odds" in came else "not found out"] += 1


def unmade(rng, bench):
    """Two hosts of which one cannot be made, or neither: the first is made whole before the second is looked at."""
    hosts = ("c:2", "d:0006", "c:0", "c:2:1", "c:1+c:2", "x:00")
    pairs = [pair for pair in product(hosts, repeat=2) if pair != ("c:2", "c:2")]
    open_again(rng, bench, "words 1 2", 3)
    for pair in pairs:
        bench.ask("check 0 3 3 24 24", *pair)
        bench.ask("round 0 3 3 24 24", *pair)
    bench.ask("request 0 3 3")
    for pair in pairs:
        bench.ask("ask", *pair)
    # the lookup still waits
    bench.ask("counters")
    bench.ask("abandon")


def entries(rng, bench, texts):
    """Each entry is read right, for every kind of family, of every kind of host, in a round and by hand."""
    for text in texts:
        bench.use(text)
        n, k = bench.family.count, bench.family.dimension
        cases = [*product(SHAPES, range(6))] if k < 12 else [(shape, e) for e in range(6) for shape in rng.sample(SHAPES, 3)]
        bench.ask("open", hexed(some_row(rng, k * len(cases) + k - 1)))
        for number, (shape, entry) in enumerate(cases):
            # the first position and the last among them
            t = {0: 0, 1: n - 1}.get(number, rng.randrange(n))
            table = some_row(rng, n)
            table[t] = entry
            hosts = [host_of(rng, shape, table), host_of(rng, rng.choice(SHAPES), table)]
            if number % 3 != 2:
                came = bench.ask("round", t, k, k, 6 * (1 + k), 6 * (1 + k), *hosts)
                assert came.startswith(f"entry {entry} carried {14 * k + 12} "), came
            else:
                bench.ask("request", t, k, k)
                assert bench.ask("ask", *hosts) == f"entry {entry}"
        # one digit short
        bench.ask("round", 0, k, k, 6 * (1 + k), 6 * (1 + k), *hosts)
        bench.ask("request", n, k, k)
        bench.ask("request", n - 1, k, k)
        bench.ask("counters")


def long_session(rng, bench, calls):
    """One session, many calls: taken and refused, recovered and abandoned, and with families of other sizes."""
    others = ["unit 3", "words 1 3", "first 2 unit 5", f"book {hexed(any_book(rng, 2, 3))}"]
    open_again(rng, bench, "words 1 2", 3 * 125 + 1)
    table = some_row(rng, 2)
    host = lambda held: host_of(rng, rng.choice(SHAPES), held)
    sheet = lambda: hexed(some_row(rng, rng.choice((24,) * 8 + (23, 25, 0)), rng.choice((5,) * 5 + (6,))))
    row_length = lambda: rng.choice((3,) * 12 + (2, 4, 0))
    for _ in range(calls):
        if rng.random() < 0.06:
            bench.use(rng.choice(others))
        elif rng.random() < 0.6:
            bench.use("words 1 2")
        asked_for = rng.choice((0, 1, 0, 1, 0, 1, 0, 1, 2, 7))
        if bench.session.lookup:
            kind = rng.choice(("ask", "ask", "other", "recover", "recover", "abandon", "request"))
        else:
            kind = rng.choice(("request", "request", "request", "round", "round", "check", "abandon"))
        if kind == "ask":
            bench.ask("ask", host(table), host(table))
        elif kind == "other":
            bench.ask("ask", host(some_row(rng, 2)), host(some_row(rng, rng.choice((2, 2, 3)))))
        elif kind == "recover":
            bench.ask("recover", sheet(), sheet())
        elif kind in ("request", "check"):
            bench.ask(kind, asked_for, row_length(), row_length())
        elif kind == "round":
            second = some_row(rng, 2) if rng.random() < 0.3 else table
            bench.ask("round", asked_for, row_length(), row_length(), 24, rng.choice((24,) * 9 + (30,)), host(table), host(second))
        else:
            bench.ask("abandon")
        if rng.random() < 0.1:
            bench.ask("counters")
    bench.ask("counters")
    if bench.session.lookup:
        bench.ask("abandon")


def large(rng, bench):
    """The largest families, and their first and last positions."""
    for text, table in (("words 5 16", {0: 1, 1048575: 5, 777777: 4, 65536: 2}), ("unit 4096", {0: 3, 4095: 4, 2000: 2})):
        bench.use(text)
        n, k = bench.family.count, bench.family.dimension
        bench.ask("open", hexed(some_row(rng, 2 * k)))
        host = f"c:{n}:" + ",".join(f"{i}={d}" for i, d in table.items())
        lengths = (k, k, 6 * (1 + k), 6 * (1 + k))
        for t in (n, n - 1, 0, n - 1):
            bench.ask("round", t, *lengths, host, f"{host}+c:{n}")
        bench.ask("answer", f"r:{n + 1 if n < 1048576 else n - 1}:010203", "-", "-")
    bench.use("words 5 4")
    n, k = bench.family.count, bench.family.dimension
    bench.ask("open", hexed(some_row(rng, 2 * k)))
    for t in (0, n - 1):
        host = f"r:{n}:0102030405"
        came = bench.ask("round", t, k, k, 6 * (1 + k), 6 * (1 + k), host, host)
        assert came.startswith(f"entry {t % 5 + 1} carried {14 * k + 12} ")


# ---- lookups --------------------------------------------------------------------------------------------------------

def asked(h, q, t, table, tape):
    """An input of `lookup`."""
    numbers = lambda row: " ".join(map(str, row))
    return f"{h} {q}\n{t}\n{numbers(table)}\n{numbers(tape)}\n".encode()


def forms():
    """Inputs at the edges of the form; in each, the marks stand for what is tried there."""
    worked = b"1 2\n1\n2 5\n3 1 4\n"
    yield worked
    yield worked[:-1]
    for more in (b"\n", b"\n\n", b" ", b"0", b"\x00", b"\n5"):
        yield worked + more
        yield worked[:-1] + more
    for place in range(len(worked)):
        yield worked[:place]
        yield worked[:place] + worked[place + 1:]
        for c in b"\n \t\r+-0x\x00\xff":
            yield worked[:place] + bytes([c]) + worked[place:]
            yield worked[:place] + bytes([c]) + worked[place + 1:]
    # line feeds alone, and empty lines
    for many in range(7):
        yield b"\n" * many
    for empty in range(4):
        lines = worked.split(b"\n")
        lines[empty] = b""
        yield b"\n".join(lines)
        yield b"\n".join(lines)[:-1]
    yield worked.replace(b"\n", b"\r\n")
    yield worked.replace(b"\n", b"\r")
    yield worked.replace(b" ", b"\t")
    yield b"\xef\xbb\xbf" + worked
    yield "１ 2\n1\n2 5\n3 1 4\n".encode()
    # how many numbers stand in a line
    for first in (b"1", b"1 2 3", b"", b" ", b"1 2 "):
        yield worked.replace(b"1 2\n", first + b"\n")
    for second in (b"1 1", b"", b"1 ", b" 1", b"01"):
        yield b"1 2\n" + second + b"\n2 5\n3 1 4\n"
    # numbers: their limit, leading zeros, signs and other words
    limits = [b"4294967295", b"4294967296", b"4294967297", b"9" * 10, b"1" + b"0" * 10, b"18446744073709551616", b"1" + b"0" * 400]
    limits += [b"0" * 400, b"0" * 400 + b"1", b"0" * 300 + b"4294967295", b"0" * 300 + b"4294967296"]
    limits += [b"007", b"00", b"6", b"256", b"257", b"65536"]
    for word in limits:
        for place in range(7):
            words = [b"1", b"2", b"1", b"2", b"5", b"3", b"1 4"]
            words[place] = word + (b" 4" if place == 6 else b"")
            yield b"%s %s\n%s\n%s %s\n%s %s\n" % tuple(words)
    for word in (b"+1", b"-1", b"1.0", b"1e0", b"0x1", b"one", b"1_0", b"1,", b"\xd9\xa1"):
        yield b"1 2\n" + word + b"\n2 5\n3 1 4\n"
        yield b"1 2\n1\n2 " + word + b"\n3 1 4\n"


def longest():
    """8,192 bytes are read, and one more is refused before all else."""
    for most in (8191, 8192, 8193):
        yield b"1 2\n1\n2 5\n" + b"0" * (most - 16) + b"3 1 4\n"
    for most in (8192, 8193):
        yield b"9 9\n1\n2 6\n" + b"0" * (most - 10)
    # an entry of the longest table, and a tape of as many digits as may stand
    table = [i % 6 for i in range(1024)]
    start = asked(5, 4, 1023, table, [])[:-1]
    yield start + b" ".join(b"%d" % (i % 5) for i in range((8192 - len(start)) // 2)) + b"\n"


def in_order(rng):
    """What an inquiry refuses, two at a time: the form, then family, table, tape, and the round."""
    faults = ("form", "h", "q", "no table", "table digit", "tape digit", "count", "position", "spent")
    for case in pairs_of(faults):
        h, q = (rng.choice((0, 6)) if "h" in case else 2), (rng.choice((0, 1, 17)) if "q" in case else 3)
        table = some_row(rng, 9 + ("count" in case))
        table[4] = rng.choice((6, 256)) if "table digit" in case else table[4]
        tape = some_row(rng, 16 - ("spent" in case))
        tape[-1] = rng.choice((6, 256)) if "tape digit" in case else tape[-1]
        text = asked(h, q, 9 if "position" in case else rng.randrange(9), [] if "no table" in case else table, tape)
        yield text.replace(b" ", b"  ", 1) if "form" in case else text


def whole(rng):
    """Lookups of all lengths of words, taken and not."""
    for h, q in product(range(7), (0, 1, 2, 3, 16, 17)):
        n, k = q**h, 1 + h * q + h * (h - 1) // 2 * q * q
        if n <= 300:
            yield asked(h, q, rng.randrange(max(n, 1)), some_row(rng, n), some_row(rng, k))
    for _ in range(60):
        h, q = rng.choice(((1, 2), (1, 3), (1, 7), (2, 2), (2, 3), (3, 2), (4, 2), (5, 2)))
        n, k = q**h, 1 + h * q + h * (h - 1) // 2 * q * q
        yield asked(h, q, rng.choice((0, n - 1, n, rng.randrange(n))), some_row(rng, n), some_row(rng, k + rng.choice((-1, 0, 0, 0, 1, 5))))
    for entry in range(6):
        yield asked(1, 2, 0, [entry, rng.randint(0, 5)], some_row(rng, 3))
        yield asked(1, 2, 1, [rng.randint(0, 5), entry], some_row(rng, 3))
    yield b"1 2\n1\n2 5\n"
    yield b"1 2\n1\n\n"
    yield b"1 2\n1\n\n\n"


def inquiries(rng, bench):
    assert looked_up(b"1 2\n1\n2 5\n3 1 4\n") == "position 1\nfirst 3 1 4\nsecond 4 1 3\ncarried 54\nentry 5\n"
    bench.use("unit 1")
    seen = set()
    for data in (*forms(), *in_order(rng), *whole(rng), *longest()):
        if data not in seen:
            bench.ask("lookup", hexed(data))
        seen.add(data)


# ---- who learns what ------------------------------------------------------------------------------------------------

def shown_to(text, tape, positions):
    """What each host is shown in a session that asks for these positions, and what each request met."""
    fam = family(text)
    session, views, met = Session(fam, tape), ([], []), []
    for t in positions:
        queries = [[0] * fam.dimension for _ in range(2)]
        try:
            session.request(fam, t, *queries)
            met.append(None)
        except Refused as refusal:
            met.append(refusal.args)
            continue
        for view, query in zip(views, queries):
            view.append(tuple(query))
        session.abandon()
    return [(tuple(view), tuple(session.left)) for view in views], met


def learn(text, digits, requests):
    """Over all tapes of that many digits: for every list of positions, each host is shown each view by exactly one tape."""
    fam = family(text)
    tapes = [*product(range(6), repeat=digits)]
    lists = [*product(range(fam.count), repeat=requests)]
    whole, mets = None, set()
    for positions in lists:
        seen = [shown_to(text, tape, positions) for tape in tapes]
        mets |= {str(met) for _, met in seen}
        for host in range(2):
            views = Counter(views[host] for views, _ in seen)
            # each once, and the same ones for every list: so from a list to another, one tape for each tape
            assert set(views.values()) == {1}, (text, positions, host)
            whole = whole or views
            assert views == whole, (text, positions, host)
    assert len(mets) == 1, (text, mets)
    return len(tapes) * len(lists)


def learning(rng):
    """All tapes of short sessions, with digits that stay unused and with a request that is refused."""
    cases = [("unit 2", 4, 2), ("unit 2", 5, 2), ("unit 2", 5, 3), ("unit 3", 4, 2), ("first 2 unit 4", 5, 1)]
    cases += [("words 1 2", 3, 1), ("words 1 2", 5, 2), ("words 1 2", 6, 2), ("words 1 3", 5, 1), (f"book {hexed(any_book(rng, 2, 3))}", 4, 1)]
    return sum(learn(*case) for case in cases)


# ---- the whole ------------------------------------------------------------------------------------------------------

def odd(bench):
    """Families that are refused, and lines, families and hosts that are none."""
    texts = ["unit 0", "unit 4097", "words 0 2", "words 6 2", "words 5 1", "words 5 17", "words 6 17", "first 0 unit 3", "first 4 unit 3"]
    texts += ["first 5 first 4 words 1 5", "first 2 first 6 words 1 5", "first 9 words 6 2", "book 00", "first 9 book 00"]
    for text in (*texts, "family", "unit", "unit 3 3", "words 3", "first 3", "first 1 last 2 unit 4", "Unit 3"):
        bench.use(text)
    bench.use("unit 1")
    for line in ("drill", "host", "host d:00 d:00", "answer d:00 00", "open", "request 0 1", "check 0 1 1 12", "change", "dense"):
        bench.ask(line)
    for line in ("round 0 1 1 12 12 d:00", "Lookup 00", "counters now", "fits 1", "recover -", "ask c:1", "abandon now"):
        bench.ask(line)
    for text in ("d", "c", "x:00", "d:00:00", "r:2", "c:1:0=0:0=0", "+", "d:00+", "d:00+d:00+d:00+d:00+d:00"):
        bench.ask("host", text)


def run(seed):
    rng, bench = random.Random(seed), Bench()
    texts = families(rng)
    odd(bench)
    openings(rng, bench)
    make_hosts(rng, bench)
    make_changes(rng, bench)
    answers(rng, bench, texts)
    requests(rng, bench)
    recoveries(rng, bench)
    rounds(rng, bench)
    entries(rng, bench, texts)
    long_session(rng, bench, 400)
    large(rng, bench)
    inquiries(rng, bench)
    unmade(rng, bench)
    # it ends while a lookup waits
    open_again(rng, bench, "words 1 2", 3)
    bench.ask("request", 0, 3, 3)
    return bench


def main():
    parser = argparse.ArgumentParser(description=__doc__.splitlines()[0])
    parser.add_argument("--seed", type=int, default=1)
    parser.add_argument("--check", action="store_true")
    options = parser.parse_args()
    bench = run(options.seed)
    texts = {"stdin": "\n".join(bench.lines) + "\n", "stdout": "\n".join(bench.answers) + "\n"}
    keep(Path("crates/drills"), texts, options.check)
    print(f"{len(bench.answers)} answers")
    if options.check:
        print(f"{learning(random.Random(options.seed))} sessions that tell a host nothing")


if __name__ == "__main__":
    main()
