"""What the program `drills` prints for each line of its input, by the rules of `lookups.py`."""
from functools import lru_cache

from lookups import ChangeHost, Session, check_round, dense, looked_up, summed, whole_round
from trials import Refused, book, first, spaced, unit, words

LARGEST = 2**64 - 1
# what rows hold before a call writes to them: no digit, so a place that was not written shows
UNWRITTEN = 9


class Unclear(Exception):
    """A line that asks for nothing."""


def number(word, largest=LARGEST):
    """A word as a number; one that is none, or is too large, is the largest there is."""
    return min(int(word), largest) if word.isascii() and word.isdecimal() else largest


def row(word):
    value = lambda c: "0123456789abcdef".find(c) if c in "0123456789abcdef" else 0
    return [16 * value(a) + value(b) for a, b in zip(word[::2], word[1::2])]


def shown(digits):
    """A row of digits; of a long one, its length and one number that tells it."""
    if len(digits) <= 60:
        return spaced(digits)
    told = 0
    for d in digits:
        told = (31 * told + d) % 2**32
    return f" {len(digits)} bytes {told}"


@lru_cache(maxsize=None)
def family(text):
    match text.split(" "):
        case ["unit", n]:
            made = unit(number(n))
        case ["words", h, q]:
            made = words(number(h), number(q))
        case ["book", data]:
            made = book(bytes(row(data)))
        case ["first", m, *rest]:
            made = first(number(m), family(" ".join(rest)))
        case _:
            raise Unclear("no such family")
    made.tell = lru_cache(maxsize=None)(made.tell)
    return made


def single(text):
    match text.split(":"):
        case ["d", digits]:
            return dense(row(digits))
        case ["r", n, digits]:
            digits, n = row(digits), number(n)
            return dense([digits[i % len(digits)] for i in range(n)])
        case ["c", n]:
            return ChangeHost(number(n))
        case ["c", n, settings]:
            host = ChangeHost(number(n))
            for setting in settings.split(","):
                i, _, d = setting.partition("=")
                host.set(number(i), number(d, 255))
            return host
        case _:
            raise Unclear("no such host")


def host(text):
    parts = [single(part) for part in text.split("+")]
    if len(parts) > 4:
        raise Unclear("no such host")
    if len(parts) == 4:
        parts = [summed(*parts[:2]), summed(*parts[2:])]
    made = parts[0]
    for part in parts[1:]:
        made = summed(made, part)
    return made


def told_dense(digits, *positions):
    """The entries that a dense host tells."""
    made = dense(row(digits))
    return f"count {made.count}" + "".join(f" entry {made.entry(number(i))}" for i in positions)


def changes(n, *tasks):
    """A change host that is given tasks, one after the other."""
    made = ChangeHost(number(n))
    came = [f"count {made.count}"]
    for task in tasks:
        if "=" in task:
            i, d = task.split("=")
            try:
                made.set(number(i), number(d, 255))
                came.append("set")
            except Refused as refusal:
                came.append(str(refusal))
        elif task == "all":
            listed = "".join(f" {i}={d}" for i, d in sorted(made.table.items()))
            came.append(f"{len(made.table)} held{listed}")
        else:
            i = number(task)
            came.append(f"told {made.table.get(i, 'none')} entry {made.entry(i)}")
    return ", ".join(came)


# each kind of line, with how many words follow, and whether a lookup has to wait, or none may
KINDS = {
    "host": ([1], None),
    "answer": ([3], None),
    "lookup": ([1], None),
    "open": ([1], False),
    "fits": ([0], False),
    "check": ([3, 7], False),
    "request": ([3], False),
    "round": ([7], False),
    "recover": ([2], True),
    "ask": ([2], True),
    "abandon": ([0], True),
    "counters": ([0], None),
}


class Bench:
    """The input so far and its answers, with the family and the session that the next line meets."""

    def __init__(self):
        self.lines, self.answers = [], []
        self.text = self.family = self.queries = None
        self.session = Session(unit(1), [])

    def use(self, text):
        """Goes on with a family: the line that names it comes after an empty one."""
        if text == self.text:
            return
        self.text = text
        try:
            self.family = family(text)
            answer = f"count {self.family.count} dimension {self.family.dimension}"
        except (Refused, Unclear) as why:
            answer = str(why)
        self.lines += ([""] if self.lines else []) + [text]
        self.answers.append(answer)

    def ask(self, *line):
        """Puts a line, and gives what the program prints for it."""
        line = " ".join(map(str, line))
        try:
            answer = self.answer(*line.split(" "))
        except (Refused, Unclear) as why:
            answer = str(why)
        self.lines.append(line)
        self.answers.append(answer)
        return answer

    def answer(self, kind, *rest):
        if kind in ("change", "dense") and rest:
            return {"change": changes, "dense": told_dense}[kind](*rest)
        many, waiting = KINDS.get(kind, ([], None))
        if len(rest) not in many:
            raise Unclear("no such drill")
        if waiting not in (None, self.session.lookup is not None):
            raise Unclear("out of turn")
        return getattr(self, "on_" + kind)(*rest)

    def on_host(self, text):
        return f"count {host(text).count}"

    def on_answer(self, text, query, sheet):
        asked, sheet = host(text), row(sheet)
        try:
            asked.answer(self.family, row(query), sheet)
            return f"sheet{shown(sheet)}"
        except Refused as refusal:
            return f"{refusal} sheet{shown(sheet)}"

    def on_open(self, tape):
        self.session = Session(self.family, row(tape))
        return "opened"

    def rows(self, *lengths):
        return [[UNWRITTEN] * number(n) for n in lengths]

    def on_fits(self):
        self.session.know(self.family)
        return "fits"

    def on_check(self, t, *rest):
        rows = self.rows(*rest[:4])
        if len(rest) == 2:
            self.session.check(self.family, number(t), *rows)
        else:
            check_round(self.session, self.family, [host(word) for word in rest[4:]], number(t), rows)
        return "would be taken"

    def on_request(self, t, *lengths):
        self.queries = self.rows(*lengths)
        came = "taken"
        try:
            self.session.request(self.family, number(t), *self.queries)
        except Refused as refusal:
            came = str(refusal)
        one, two = map(shown, self.queries)
        return f"{came} queries{one} and{two}"

    def on_recover(self, one, two):
        return f"entry {self.session.recover(self.family, row(one), row(two))}"

    def on_ask(self, one, two):
        sheets = [[0] * (6 * (1 + self.family.dimension)) for _ in range(2)]
        hosts = [host(one), host(two)]
        for each, query, sheet in zip(hosts, self.queries, sheets):
            each.answer(self.family, query, sheet)
        return f"entry {self.session.recover(self.family, *sheets)}"

    def on_abandon(self):
        self.session.abandon()
        return "abandoned"

    def counted(self):
        now = self.session
        return f"taken {now.taken} read {now.read} unread {now.unread}"

    def on_counters(self):
        now = self.session
        waiting = f" waiting for {now.lookup[0]}" if now.lookup else ""
        return f"{self.counted()} left {len(now.left)}{waiting}"

    def on_round(self, t, a, b, c, d, one, two):
        hosts, rows = [host(one), host(two)], self.rows(a, b, c, d)
        try:
            entry, carried = whole_round(self.session, self.family, hosts, number(t), rows)
            came = f"entry {entry} carried {carried}"
        except Refused as refusal:
            came = str(refusal)
        a, b, c, d = map(shown, rows)
        return f"{came} queries{a} and{b} sheets{c} and{d} {self.counted()}"

    def on_lookup(self, data):
        return looked_up(bytes(row(data))).replace("\n", "/")
