#!/usr/bin/env python3
"""Brings the names of this repository's own definitions and lemmas to the spelling of today's Rattle.

usage: python3 tools/respell.py        once, at the top of the repository, after the kit's own script has turned its spelling

Words are in snake case, types in camel case, and a dash stays only where it joins two names that stand alone, as in
`length-row` or `at-times`. It rewrites crates/*/specs, crates/*/proofs and the clauses of crates/*/src, comments left out.
It stops before it writes anything where a new name is taken already, but for names that a Rust function has too.
"""

import os
import re
import sys

# names in which each dash becomes an underscore
WORDS = """
length-fault digit-fault size-fault counts-fault unmatched-fault position-fault spent-fault at-odds-fault
full-fault cause-text layer-text pairs-single none-or-else row-cong above-none six-of limit-fit length-stretch
at-stretch total-stretch product-shorter total-cong total-zero total-start total-more total-none total-only
product-more product-none product-cong product-zero product-only product-past same-yes same-no power-own
power-other turned-divides zero-element same-element digits-fault lone-fault width-fault long-fault row-fault
vectors-fault limit-fault equal-fault below-fault alike-passes apart-passes allowed-from allowed-passes
first-pairing first-u first-family spread-other spread-zero spread-here all-passed skips-to spread-cong
spread-nothing unit-vectors u-own u-other unit-product unit-spread unit-matches unit-family u-digit v-digit
u-past-count v-past-count u-past-dim v-past-dim within-past-count within-past-dim within-digit places-more
places-none read-two left-fits left-push letters-fit one-next pair-next pair-last pairs-last left-all
left-none written-more choose-all sets-all places-below length-letters letters-lt own-letters length-own
own-least own-most own-rising own-count own-found own-missing next-at spread-more spread-all spread-past
own-length own-few own-lt own-small own-rises u-found u-missing mark-beyond mark-last width-none past-none
mark-weigh digit-weigh agree-or-differ by-distance by-agreement binomial-none binomial-one binomial-two
suc-less sum-by-size agreeing-sets count-few count-some dim-narrow power-one power-two width-ones width-sets
sets-tested sets-few three-lt weight-lt mark-here mark-there mark-later mark-past mark-lt own-sum own-marks
digit-past digit-past-dim own-product pairing-agreement common-most common-all own-from own-coordinates
places-from place-sets under-map reading-lt reading-more letter-lt agree-all agree-self agree-wholly
agree-partly words-match words-limits words-told words-family size-at word-dim word-digit word-vectors
words-fault second-u second-v five-letters zero-divisors found-line verdict-line dimension-told positions-told
pairs-told fault-found not-told is-told at-dimension in-limit layout-at at-sections at-pairs named-pair
accepted-none only-families all-families first-fault told-both digit-from book-vectors book-fault
told-dimension told-count told-pairs first-from passes-from first-is fails-from short-fault dimension-fault
count-fault second-fault section-fault end-fault sections-fault layout-fault no-bad-pair matches-from
fits-from matches-if-none none-if-matches bad-row first-at first-unmatched bad-pair-below dimension-of
second-of u-digits v-digits section-digits read-limits bad-partner bad-position bad-pair pairs-fault
long-enough second-section vector-ends vector-digit pairing-is fits-is section-digit book-family whole-vector
vector-product book-room session-of waiting-now is-taken is-unread taken-are read-are unread-are adds-up
query-of events-then end-then second-query sheets-weighed read-entry opening-fault digits-left next-digits
family-fault request-fault sheets-fault read-or-odds after-request after-reading after-loss after-recovery
table-sum sum-answers sum-answered sum-host power-sum sheet-size zero-sheet
""".split()

# types, and names that change otherwise
OTHERS = {
    "Distance-law": "DistanceLaw",
    "Worked-cases": "WorkedCases",
    "First-unmatched": "FirstUnmatched",
    "Run-counters": "RunCounters",
    "Law-of-runs": "LawOfRuns",
    "Sums-of-tables": "SumsOfTables",
    "u-product-past": "u-product_past",
    "sumBy-map": "sum_by-map",
    "sumBy-cong": "sum_by_cong",
    "sumBy-same": "sum_by-same",
    "sumBy-scale": "sum_by_scale",
    "sumBy-joined": "sum_by_joined",
    "sumBy-total": "sum_by-total",
    "numberAfter-split": "number_after_split",
    "bad-pair-at": "bad_pair-at",
}

# definitions whose new name a Rust function of src/ has too: a clause speaks of the definition, and code of the function
SHARED = {"size_at", "found_line", "verdict_line", "bad_partner", "bad_pair", "vector_product", "WorkedCases"}

SPELLINGS = {word: word.replace("-", "_") for word in WORDS} | OTHERS
NAME = re.compile(r"(?<![\w'-])(" + "|".join(sorted(map(re.escape, SPELLINGS), key=len, reverse=True)) + r")(?![\w'-])")


def files(top):
    for folder, below, names in os.walk(os.path.join(top, "crates")):
        below[:] = sorted(d for d in below if d != "out")
        for name in sorted(names):
            if name.endswith((".rt", ".antt")):
                yield os.path.join(folder, name)


def parted(line, path):
    """A line as its text and its comment."""
    mark = "//" if path.endswith(".rt") else "--"
    at = line.find(mark)
    return (line, "") if at < 0 else (line[:at], line[at:])


def respelled(text, path):
    lines = []
    for line in text.split("\n"):
        code, comment = parted(line, path)
        lines.append(NAME.sub(lambda m: SPELLINGS[m[1]], code) + comment)
    return "\n".join(lines)


def taken(texts):
    """New names that stand in the tree before anything is rewritten."""
    whole = "\n".join(parted(line, path)[0] for path, text in texts.items() for line in text.split("\n"))
    words = set(re.findall(r"[^\W\d][\w'-]*", whole))
    return sorted(new for new in SPELLINGS.values() if new in words and new not in SHARED)


def main():
    texts = {path: open(path, encoding="utf-8").read() for path in files(".")}
    clash = taken(texts)
    if clash:
        print("respell: taken already: " + ", ".join(clash), file=sys.stderr)
        return 1
    changed = 0
    for path, text in texts.items():
        new = respelled(text, path)
        if new != text:
            with open(path, "w", encoding="utf-8") as f:
                f.write(new)
            changed += 1
    print(f"respell: {len(SPELLINGS)} names, {changed} files rewritten")
    return 0


if __name__ == "__main__":
    raise SystemExit(main())
