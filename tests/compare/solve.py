#!/usr/bin/env python3
"""Random books, solved by the built inkstep and by solvers that share no code with it.

Each outcome is held to what is promised of it: numbers of a fit keep every clause, no fit is said only where the other
solvers find none, and spent only with the allowance used up, and never with one that always suffices. Of books with
few claims every choice is tried; for others there is a search of our own, and z3 and cvc5 where they are installed. A
book that none of them settles in a second or two is counted and not compared.

What the search did is logged and proposed again, to `inkstep replay` and to the model of the rules. The first
difference is told, its book is kept in a file, and the run ends with status 1.
"""
import collections
import os
import random
import sys
import tempfile

import cdcl
import families
import program
import rules
import smt
import text
from theories import Distance, Equality, some_fit_keeps

BATCH = 100
# Every choice is tried up to this many claims.
SEARCHED = 10
# What the other solvers may take: conflicts of our own search, and seconds.
CONFLICTS, SECONDS = 2000, 2
# Logs are replayed up to this many steps, and by the model up to this many.
REPLAYED, MODELED = 100000, 3000


class Logged:
    """The steps of a search, read from the log that it wrote for a book."""

    def __init__(self, book, outcome, path):
        self.outcome, self.path = outcome, path + ".log"
        lines = program.answer("solve", "--log", self.path, path)
        assert lines == outcome.lines, f"with a log the outcome is {lines}, and without {outcome.lines}"
        try:
            with open(self.path) as log:
                self.book, self.steps = text.read(log.read())
        except (OSError, LookupError, TypeError, ValueError) as wrong:
            raise AssertionError(f"the log is no book: {wrong!r}") from None
        assert self.book.parts() == book.parts(), "the log is of another book"
        assert len(self.steps) == outcome.steps, "the log has not as many steps as were told"

    def compare(self, printed):
        wanted = self.outcome.replayed(self.steps)
        for number, (line, told) in enumerate(zip(wanted, printed), 1):
            assert line == told, f"line {number} of the log's replay is {told!r}, and not {line!r}"
        assert len(wanted) == len(printed), "the log's replay has not as many lines as wanted"

    def model(self):
        """Proposes the steps to the model of the rules."""
        history = rules.History(self.book.theory, self.book.clauses, self.book.allowance)
        for number, step in enumerate(self.steps, 1):
            refused = history.propose(*step)
            assert refused is None, f"the model refuses step {number} of the log by {refused}: {step}"
        verdict = None if self.outcome.name == "spent" else self.outcome.name
        assert history.verdict == verdict, f"the model's verdict after the log is {history.verdict}"
        assert history.written == self.outcome.row, f"the model writes {history.written}"


class Tally:
    """What was compared."""

    def __init__(self):
        self.books = self.replayed = self.modeled = self.unsettled = 0
        self.theories, self.outcomes = collections.Counter(), collections.Counter()
        self.settled = {name: 0 for name in ["every choice", "cdcl.py", *smt.COMMANDS]}

    def settle(self, book, outcome):
        """Compares an outcome with what the other solvers find."""
        theory, found = book.theory, {}
        if len(theory.claims) <= SEARCHED:
            found["every choice"] = "fit" if some_fit_keeps(theory, book.clauses) else "no fit"
        found["cdcl.py"] = cdcl.Search(theory, book.clauses).verdict(CONFLICTS)
        for command in smt.installed():
            found[command] = smt.verdict(command, book, SECONDS)
        for name, verdict in found.items():
            self.settled[name] += verdict is not None
            assert verdict in (None, outcome.name), f"{name} finds {verdict}, and inkstep {outcome.name}"
        self.unsettled += not any(found.values())

    def add(self, book, outcome):
        self.books += 1
        self.theories[book.theory.name] += 1
        self.outcomes[outcome.name] += 1
        if outcome.name != "spent":
            self.settle(book, outcome)

    def print(self, seed):
        absent = [name for name in smt.COMMANDS if name not in smt.installed()]
        settled = [f"{many} by {name}" for name, many in self.settled.items() if name not in absent]
        told = [f"{many} of {name}" for name, many in sorted(self.theories.items())]
        print(f"seed {seed}: {self.books} books, {', '.join(told)}")
        print(f"{self.outcomes['fit']} fit, {self.outcomes['no fit']} no fit, {self.outcomes['spent']} spent")
        print(f"settled: {', '.join(settled)}; unsettled: {self.unsettled}")
        if absent:
            print(f"not installed: {', '.join(absent)}")
        print(f"each fit checked, {self.replayed} logs replayed, {self.modeled} by the model too; no difference")


def keep(book, seed, number):
    """The path of a file in which a book is kept."""
    path = os.path.join(tempfile.gettempdir(), f"solve-{seed}-{number}.book")
    with open(path, "w") as out:
        out.write(book.text())
    return path


def main():
    seed, count, theories = program.arguments(__doc__, 1000, [Equality, Distance])
    rnd, tally = random.Random(seed), Tally()
    with tempfile.TemporaryDirectory() as folder:
        while tally.books < count:
            books = [families.some_book(rnd, theories) for _ in range(min(BATCH, count - tally.books))]
            paths = program.files([book.text() for book, _ in books], folder)
            printed, logs = program.answers(["solve"], paths), {}
            first, at = tally.books, 0
            try:
                for at, (book, _) in enumerate(books):
                    outcome = text.Outcome(book, printed[at])
                    tally.add(book, outcome)
                    if outcome.steps <= REPLAYED:
                        logs[at] = Logged(book, outcome, paths[at])
                replays = program.answers(["replay"], [log.path for log in logs.values()])
                for (at, log), lines in zip(logs.items(), replays):
                    log.compare(lines)
                    tally.replayed += 1
                    if len(log.steps) <= MODELED:
                        log.model()
                        tally.modeled += 1
            except AssertionError as wrong:
                book, family = books[at]
                sys.exit(f"seed {seed}, a book of {family}, kept in {keep(book, seed, first + at)}: {wrong}")
    tally.print(seed)


if __name__ == "__main__":
    main()
