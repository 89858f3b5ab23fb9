#!/usr/bin/env python3
"""Random histories, replayed by the built inkstep and by a second model of the rules that shares no code with it.

Each book has a theory, clauses, an allowance and steps of every kind, lawful and not; most are picked so that runs get
deep and reach verdicts. Some rows of clauses are malformed, and some records of terms and claims. What the program
prints, with states and without, is compared line by line with what the model answers. Verdicts of small books are
compared with a search through every choice of literals, and each written fit is tried by itself. The first difference
is printed below its book and ends the run with status 1.
"""
import collections
import itertools
import random
import re
import sys
import tempfile

import program
import rules
from theories import Distance, Equality, record_lines, some_fit_keeps

BATCH = 100
HOWS = ["replay --state", "replay"]
# Verdicts are searched for up to this many claims.
SEARCHED = 12
KINDS = ["decide", "propagate", "imply", "conflict", "clash", "resolve", "jump", "forget", "fit", "nofit"]
# How often a walk takes a lawful step of a kind, where it has one of several kinds, and how often it jumps to the
# lowest level that it may.
SEARCH = dict(
    decide=2, propagate=60, imply=5, conflict=200, clash=200, resolve=10, jump=60, forget=0.3, fit=500, nofit=500,
    lowest=0.9,
)
LAZY = dict(
    decide=30, propagate=1, imply=0.5, conflict=200, clash=200, resolve=2, jump=30, forget=0.1, fit=500, nofit=500,
    lowest=0.5,
)
HOARD = LAZY | dict(propagate=0, imply=0, resolve=0.3, forget=0.001, lowest=0.05)
WANDER = dict.fromkeys(KINDS, 1) | dict(lowest=0.5)


def some_records(rnd, theory, claims):
    """Few terms, so that claims bear on each other, or so many that none does."""
    if rnd.random() < 0.3:
        pairs = [(2 * i, 2 * i + 1) for i in range(claims)]
        bounds = [(a, b, rnd.randint(-9, 9)) for a, b in pairs]
        return [(k, []) for k in range(2 * claims)], bounds if theory is Distance else pairs
    if theory is Distance:
        terms = rnd.choice([1, 2, 3, 4, 6] if claims < 20 else [6, 20, 60, 256])
        reach = rnd.choice([0, 1, 3, 10, 1000000])
        bounds = [(rnd.randrange(terms), rnd.randrange(terms), rnd.randint(-reach, reach)) for _ in range(claims)]
        return [(k, []) for k in range(terms)], bounds
    # Constants, and then terms over few of those before them. Claims between constants join terms by congruence.
    constants = rnd.choice([2, 3, 4] if claims < 20 else [4, 8, 30])
    built, symbols = rnd.choice([0, 6, 12, 16] if claims < 20 else [10, 40, 100]), rnd.choice([1, 1, 2])
    table = [(k if rnd.random() < 0.9 else 0, []) for k in range(constants)]
    for k in range(constants, constants + built):
        reach = k if rnd.random() < 0.4 else constants
        table.append((99 + rnd.randrange(symbols), [rnd.randrange(reach) for _ in range(rnd.choice([1, 2, 2]))]))
    ends = [constants if rnd.random() < 0.4 else len(table) for _ in range(claims)]
    return table, [(rnd.randrange(end), rnd.randrange(end)) for end in ends]


def spoil(rnd, theory, table, claims):
    """Takes records to a limit, or past one."""
    constant = [0] if theory is Distance else []
    kind = rnd.randrange(6)
    if kind == 0:
        table += [(0, [])] * (rnd.choice([256, 257]) - len(table))
    elif kind == 1:
        claims += [(0, 0, *constant)] * (rnd.choice([128, 129]) - len(claims))
    elif kind == 2:
        table.append((0, [0] * rnd.choice([1, 2, 3, 255, 256])))
    elif kind == 3:
        table.append((0, [len(table)]))
    elif kind == 4:
        claims.append((rnd.randrange(len(table) + 2), len(table), *constant))
    elif theory is Distance:
        claims.append((0, 0, rnd.choice([-1000001, -1000000, 1000000, 1000001, 2147483647])))


def some_clause(rnd, claims, size):
    return [2 * i + rnd.randrange(2) for i in rnd.sample(range(claims), min(size, claims))]


def some_clauses(rnd, claims):
    many = min(512, claims * rnd.choice([0, 1, 2, 3, 5, 100]))
    most = rnd.choice([2, 3, 3, 4, 8])
    least = [0 if rnd.random() < 0.02 else 1 if rnd.random() < 0.2 else 2 for _ in range(many)]
    return [some_clause(rnd, claims, rnd.randint(size, most)) for size in least]


def hard_clauses(rnd, claims):
    """So many clauses of three literals that a search comes to many conflicts."""
    return [some_clause(rnd, claims, 3) for _ in range(min(5 * claims, 512))]


def row_of(clauses):
    return [number for clause in clauses for number in [len(clause)] + clause]


def some_row(rnd, clauses, claims):
    """The row of some clauses, at a limit or past one, or spoiled."""
    full, defects = [2 * i for i in range(claims)], ["many", "any"]
    if claims > 0:
        defects += ["no literal", "twice", "past the end", "cut", "changed"]
    if claims >= 8:
        defects.append("long")
    defect = rnd.choice(defects)
    if defect == "many":
        return row_of([[]] * rnd.choice([511, 512, 513, 600]))
    if defect == "any":
        return [rnd.randrange(2 * claims + 2) for _ in range(rnd.randrange(12))]
    if defect == "long":
        rest = 4096 % claims + rnd.randrange(2)
        return row_of([full] * (4096 // claims) + [full[:rest]] + [[]] * rnd.randrange(2))
    if defect == "no literal":
        clauses = clauses + [[rnd.choice([2 * claims, 2 * claims + 1, 65535])]]
    if defect == "twice":
        l = rnd.randrange(2 * claims)
        clauses = clauses + [[l, rnd.choice([l, l ^ 1])]]
    row = row_of(rnd.sample(clauses, len(clauses)))
    if defect == "past the end":
        return row + [rnd.choice([1, 2, 65535])]
    if defect == "cut":
        return row[:-1]
    if defect == "changed" and row:
        row[rnd.randrange(len(row))] = rnd.choice([0, 1, 2, 3, 2 * claims, 65535])
    return row


def row_lines(rnd, row):
    """Lines that give the row: one for each clause, or of any numbers as they come."""
    clauses, at = [], 0
    while at < len(row):
        clauses.append(row[at + 1: at + 1 + row[at]])
        at += 1 + row[at]
    if at == len(row) and rnd.random() < 0.7:
        return [" ".join(["clause", *map(str, clause)]) for clause in clauses]
    lines = []
    while row:
        many = rnd.choice([1, 3, 40, 1000])
        lines.append(" ".join(["row", *map(str, row[:many])]))
        row = row[many:]
    return lines


def any_step(rnd, history):
    """A step of any kind, whose numbers mostly mean something."""
    terms, literals = history.theory.terms, history.literals()

    def literal():
        return rnd.randrange(65536 if rnd.random() < 0.1 else literals + 2)

    def clause():
        return rnd.choice([
            rnd.randrange(len(history.book) + 2), rnd.choice(list(history.live) or [0]), rnd.choice(rules.LEARNED),
            rnd.choice([511, 512, 639, 640, rnd.randrange(65536)]),
        ])

    kind = rnd.choice(KINDS)
    if rnd.random() < 0.3 and 2 * len(history.trail) == literals:
        kind = "fit"
    if kind in ("decide", "imply"):
        return kind, literal()
    if kind == "propagate":
        c = clause()
        inside = sorted(history.live.get(c, ()))
        return kind, c, rnd.choice(inside) if inside and rnd.random() < 0.7 else literal()
    if kind in ("conflict", "forget"):
        return kind, clause()
    if kind == "jump":
        return kind, rnd.choice([0, 0, 1, 2, rnd.randrange(10), rnd.randrange(2**32)]), clause()
    if kind == "fit" and rnd.random() < 0.7:
        return kind, rnd.choice([0, max(terms - 1, 0), terms, terms + 1, 65535])
    return (kind,)


def lawful_steps(rnd, history, jump_lowest):
    """For each kind steps that the rules admit now: of Imply those of three literals, of Jump one. Of Fit one has too
    short a place."""
    steps = {kind: [] for kind in KINDS}
    reasons = {reason for _, reason in history.trail}
    steps["forget"] = [("forget", c) for c in history.live if c in rules.LEARNED and c not in reasons]
    if history.conflict is not None:
        if not history.conflict:
            steps["nofit"] = [("nofit",)]
            return steps
        if history.trail[history.at[history.latest() ^ 1]][1] != "decided":
            steps["resolve"] = [("resolve",)]
        lowest, highest = sorted([0, 0] + [history.level(l ^ 1) for l in history.conflict])[-2:]
        numbers = [c for c in rules.LEARNED if c not in history.live]
        if lowest < highest and numbers:
            k = lowest if rnd.random() < jump_lowest else rnd.randrange(lowest, highest)
            steps["jump"] = [("jump", k, rnd.choice(numbers))]
        return steps
    off = [l for l in range(history.literals()) if not history.on_trail(l)]
    false = {l ^ 1 for l in history.at}
    for c, clause in history.live.items():
        others = clause - false
        if not others:
            steps["conflict"].append(("conflict", c))
        elif len(others) == 1 and others.isdisjoint(history.at):
            steps["propagate"].append(("propagate", c, *others))
    steps["decide"] = [("decide", l) for l in off]
    if history.asserted.core() is not None:
        steps["clash"] = [("clash",)]
    else:
        tried = rnd.sample(off, min(3, len(off)))
        steps["imply"] = [("imply", l) for l in tried if history.impossible_with(l ^ 1)]
        if not off and all(any(l in history.at for l in clause) for clause in history.book):
            terms = history.theory.terms
            steps["fit"] = [("fit",), ("fit", terms), ("fit", terms + 3)] + [("fit", terms - 1)] * (terms > 0)
    return steps


class Walk:
    """Steps as they are proposed to the model one by one, and what is to be printed of them."""

    def __init__(self, rnd, history, manner, nonsense, most):
        self.history, self.lines, self.printed = history, [], []
        self.refusals, self.full = collections.Counter(), False
        over = 0
        while len(self.lines) < most and over < 4:
            steps = lawful_steps(rnd, history, manner["lowest"]) if rnd.random() >= nonsense else {}
            kinds = [kind for kind in steps if steps[kind] and manner[kind]]
            if kinds:
                self.propose(rnd.choice(steps[rnd.choices(kinds, [manner[kind] for kind in kinds])[0]]))
            else:
                self.propose(any_step(rnd, history))
            over += history.verdict is not None or history.count == history.allowance
        self.printed.append(f"verdict {history.verdict or 'none'}")
        if history.verdict == "fit":
            self.printed.append("fit " + (" ".join(map(str, history.written)) or "-"))

    def propose(self, step):
        history, words = self.history, " ".join(map(str, step))
        self.lines.append(f"step {words}")
        refused = history.propose(*step)
        if refused is not None:
            self.printed.append(f"{words}: refused {refused}")
            self.refusals[step[0], refused] += 1
            return
        self.printed.append(f"{words}: {history.count}")
        self.full = self.full or len(history.live) == len(history.book) + len(rules.LEARNED)
        if step[0] in ("decide", "propagate", "imply", "jump"):
            self.printed += self.trail()
        elif step[0] in ("conflict", "clash", "resolve"):
            self.printed.append(f"    conflict: {' '.join(map(str, sorted(history.conflict))) or 'empty'}")

    def trail(self):
        level, levels = 0, {}
        for l, reason in self.history.trail:
            level += reason == "decided"
            by = {"decided": "decided", "theory": "by the theory"}.get(reason, f"by clause {reason}")
            levels.setdefault(level, []).append(f"{l} {by}")
        return [f"    level {level}: {', '.join(entries)}" for level, entries in levels.items()]


class Book:
    """A random book and the model's answer to it: the number by which making or opening is refused, or a walk."""

    def __init__(self, rnd, theories):
        theory = rnd.choice(theories)
        size = rnd.choice([0, 1, 2, 3, 4, 5, 6, 8, 8, 10, 12, 12, rnd.choice([12, 20, 40, 128])])
        table, claims = some_records(rnd, theory, size)
        while rnd.random() < 0.02:
            spoil(rnd, theory, table, claims)
        size = len(claims)
        hard = size >= 8 and rnd.random() < 0.4
        clauses = hard_clauses(rnd, size) if hard else some_clauses(rnd, size)
        row = some_row(rnd, clauses, size) if rnd.random() < 0.1 else row_of(clauses)
        lines = record_lines(theory, table, claims) + row_lines(rnd, row)
        allowance = rnd.choice([0, 1, 5, 30] if rnd.random() < 0.08 else [None, None, 100000, 4294967295])
        if allowance is not None:
            lines.append(f"allowance {allowance}")
        self.clauses, unopened = rules.opened(row, size)
        self.refusal, self.walk = theory.refusal(table, claims) or unopened, None
        if self.refusal is None:
            self.theory = theory(table, claims)
            manner, most = rnd.choice([SEARCH, SEARCH, LAZY, WANDER]), rnd.choice([10, 60, 200, 600])
            if hard and size <= 20 and rnd.random() < 0.5:
                manner, most = HOARD, 2000
            history = rules.History(self.theory, self.clauses, 4294967295 if allowance is None else allowance)
            self.walk = Walk(rnd, history, manner, rnd.choice([0, 0.05, 0.05, 0.2, 0.5, 1]), most)
            lines += self.walk.lines
        self.text = "\n".join(lines) + "\n"

    def hold_to_the_law(self, rnd):
        """What stands of every history, by other means than the rules; whether its verdict was searched for."""
        history, theory, claims = self.walk.history, self.theory, len(self.theory.claims)
        assert history.count <= min(history.allowance, (claims + 4) * 3**claims), "too many steps are accepted"
        if history.verdict is None:
            left = history.count == history.allowance or any(lawful_steps(rnd, history, 1).values())
            assert left, "no step would be accepted"
            return False
        if history.verdict == "fit":
            row = history.written
            assert theory.admits(row), "what is written is no fit"
            assert all(any(theory.holds(l, row) for l in clause) for clause in self.clauses), "a clause is not kept"
            assert row == theory.fit([l for l, _ in history.trail]), "another fit is written"
        if claims > SEARCHED:
            return False
        assert some_fit_keeps(theory, self.clauses) == (history.verdict == "fit"), "the verdict is wrong"
        return True

    def compare(self, how, printed):
        # Why a step is refused is told in words, for people, on the line below it.
        printed = [line for before, line in zip([""] + printed, printed)
                   if ": refused " not in before or not line.startswith(" ")]
        wanted = [line for line in self.walk.printed if how == "replay --state" or not line.startswith(" ")]
        for number, (model, told) in enumerate(itertools.zip_longest(wanted, printed), 1):
            assert model == told, f"{how}, line {number} of what is printed: the model {model!r}, inkstep {told!r}"

    def compare_refused(self):
        run = program.run("replay", "-", text=self.text)
        told = run.returncode, run.stdout, re.findall(r"\brefused ([0-9]+)\b", run.stderr)
        wanted = 1, "", [str(self.refusal)]
        assert told == wanted, f"replay: the model {wanted}, inkstep {told}: {run.stderr!r}"


class Tally:
    """What was compared."""

    def __init__(self):
        self.books = self.unopened = self.steps = self.accepted = self.searched = self.full = 0
        self.verdicts, self.refusals = collections.Counter(), collections.Counter()

    def add(self, rnd, book):
        self.books += 1
        if book.walk is None:
            self.unopened += 1
            return
        self.steps += len(book.walk.lines)
        self.accepted += book.walk.history.count
        self.searched += book.hold_to_the_law(rnd)
        self.full += book.walk.full
        self.verdicts[book.walk.history.verdict] += 1
        self.refusals += book.walk.refusals

    def print(self):
        for kind in KINDS:
            told = [f"{many} by {number}" for (of, number), many in sorted(self.refusals.items()) if of == kind]
            print(f"{kind} refused: {', '.join(told) or 'never'}")
        print(f"refused at making or opening: {self.unopened}; runs that had every learned number in use: {self.full}")
        print(f"{self.books} books, {self.steps} steps, {self.accepted} accepted; {self.verdicts['fit']} fits and "
              f"{self.verdicts['no fit']} no fits, {self.searched} of them searched for; no difference")


def main():
    seed, count, theories = program.arguments(__doc__, 3000, [Equality, Distance])
    rnd, tally = random.Random(seed), Tally()
    with tempfile.TemporaryDirectory() as folder:
        while tally.books < count:
            books = [Book(rnd, theories) for _ in range(min(BATCH, count - tally.books))]
            walked = [book for book in books if book.walk]
            paths = program.files([book.text for book in walked], folder)
            printed = {how: program.answers(how.split(), paths) for how in HOWS}
            try:
                for book in books:
                    if book.walk is None:
                        book.compare_refused()
                for at, book in enumerate(walked):
                    for how in HOWS:
                        book.compare(how, printed[how][at])
                for book in books:
                    tally.add(rnd, book)
            except AssertionError as wrong:
                sys.exit(f"{book.text}\nseed {seed}, the book above: {wrong}")
    tally.print()


if __name__ == "__main__":
    main()
