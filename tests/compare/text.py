"""The texts of a book to solve and of what is found for it, as docs/FORMATS.md has them: written, and read."""
import re

from theories import Distance, Equality, record_lines

MOST_STEPS = 4294967295


class Book:
    """A theory's records, clauses and an allowance; None is the one that a book has without an allowance line."""

    def __init__(self, theory, table, claims, clauses, allowance=None):
        self.theory, self.clauses, self.given = theory(table, claims), clauses, allowance
        self.records = table, claims
        self.allowance = MOST_STEPS if allowance is None else allowance

    def text(self):
        lines = record_lines(type(self.theory), *self.records)
        lines += [" ".join(["clause", *map(str, clause)]) for clause in self.clauses]
        if self.given is not None:
            lines.append(f"allowance {self.given}")
        return "\n".join(lines) + "\n"

    def parts(self):
        """All that two texts of one book have in common."""
        return self.theory.name, self.records, self.clauses, self.allowance

    def most_steps(self):
        """No history of the book has more."""
        claims = len(self.theory.claims)
        return (claims + 4) * 3**claims

    def check_fit(self, row):
        """The numbers are a fit that keeps each clause."""
        assert self.theory.admits(row), "these numbers are no fit"
        for number, clause in enumerate(self.clauses):
            assert any(self.theory.holds(l, row) for l in clause), f"the fit does not keep clause {number}"


class Outcome:
    """What `inkstep solve` prints of a book, read and checked as far as the book alone tells."""

    def __init__(self, book, lines):
        told = re.fullmatch(r"(?:(no fit|spent)|(fit)((?: -?[0-9]+)*| -))\nsteps ([0-9]+)", "\n".join(lines))
        assert told, f"no outcome: {lines}"
        self.lines, self.name, self.steps = lines, told[1] or told[2], int(told[4])
        self.row = None if told[1] else [int(number) for number in told[3].split() if number != "-"]
        if self.name == "spent":
            assert self.steps == book.allowance, "spent with allowance left"
            assert book.allowance < book.most_steps(), "spent with an allowance that always suffices"
        else:
            assert self.steps <= min(book.allowance, book.most_steps()), "too many steps"
        if self.name == "fit":
            book.check_fit(self.row)

    def replayed(self, steps):
        """What is to be printed of a replay of its steps."""
        lines = [f"{' '.join(map(str, step))}: {number}" for number, step in enumerate(steps, 1)]
        lines.append(f"verdict {'none' if self.name == 'spent' else self.name}")
        if self.name == "fit":
            lines.append("fit " + (" ".join(map(str, self.row)) or "-"))
        return lines


def read(text):
    """The book that a text without calls gives, and its steps, each a row of a kind and numbers."""
    theory, table, claims, clauses, allowance, steps = None, [], [], [], None, []
    for line in text.splitlines():
        word, *rest = line.split("#")[0].split() or [""]
        if word == "theory":
            theory = {t.name: t for t in (Distance, Equality)}[rest[0]]
        elif word == "step":
            steps.append((rest[0], *map(int, rest[1:])))
        elif word:
            numbers = [int(number) for number in rest]
            if word == "term":
                table.append((numbers[0], numbers[1:]))
            elif word == "claim":
                claims.append(tuple(numbers))
            elif word == "clause":
                clauses.append(numbers)
            elif word == "allowance":
                allowance = numbers[0]
            else:
                raise ValueError(f"a line begins with {word}")
    return Book(theory, table, claims, clauses, allowance), steps
