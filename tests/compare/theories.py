"""The two theories, written from docs/RULES.md and sharing no code with the crates.

Each tells in two ways whether a list of literals has a fit. `fit` goes over all bounds, or over all terms, until
nothing changes. `asserted` goes literal by literal in the order that docs/RULES.md gives under "Which explanation" and
"Which cycle", so that it has the one core that the program has to give.
"""


def record_lines(theory, table, claims):
    """The lines of a book of a theory that give its terms and claims."""
    return (
        [f"theory {theory.name}"]
        + [" ".join(["term", str(symbol), *map(str, args)]) for symbol, args in table]
        + [" ".join(["claim", *map(str, claim)]) for claim in claims]
    )


def past_limit(table, claims):
    return len(table) > 256 or len(claims) > 128 or any(len(args) > 2 for _, args in table)


def some_fit_keeps(theory, clauses, chosen=()):
    """Whether a fit in which the chosen literals hold keeps the clauses: each choice for the other claims is tried."""
    if any(all(l ^ 1 in chosen for l in clause) for clause in clauses) or theory.fit(chosen) is None:
        return False
    l = 2 * len(chosen)
    return l == 2 * len(theory.claims) or any(some_fit_keeps(theory, clauses, (*chosen, k)) for k in (l, l + 1))


class Distance:
    """Terms are only counted. A claim (a, b, c) says that a's number minus b's is at most c."""

    name = "distance"

    def __init__(self, table, claims):
        self.terms, self.claims = len(table), claims

    @staticmethod
    def refusal(table, claims):
        """The number by which making refuses some records, or None."""
        if past_limit(table, claims):
            return 1
        if any(args for _, args in table):
            return 2
        if any(max(a, b) >= len(table) or abs(c) > 1000000 for a, b, c in claims):
            return 3
        return None

    def bound(self, literal):
        a, b, c = self.claims[literal // 2]
        return (a, b, c) if literal % 2 == 0 else (b, a, -c - 1)

    def fit(self, literals):
        """The greatest numbers at most 0, or None where there is no fit."""
        row = [0] * self.terms
        bounds = [self.bound(l) for l in literals]
        for _ in range(self.terms + 1):
            broken = [(a, row[b] + c) for a, b, c in bounds if row[a] > row[b] + c]
            if not broken:
                return row
            for a, most in broken:
                row[a] = min(row[a], most)
        return None

    def admits(self, row):
        return len(row) == self.terms

    def holds(self, literal, row):
        a, b, c = self.bound(literal)
        return row[a] - row[b] <= c

    def check_core(self, literals):
        """One simple negative cycle: no fit, and one without any of its literals."""
        bounds = [self.bound(l) for l in literals]
        follows = {a: b for a, b, _ in bounds}
        assert len(follows) == len(bounds), "a term twice"
        assert sum(c for _, _, c in bounds) < 0, "not negative"
        at, start = follows[bounds[0][0]], bounds[0][0]
        for _ in range(len(bounds) - 1):
            assert at != start, "more than one cycle"
            at = follows[at]
        assert at == start, "no cycle"
        assert self.fit(literals) is None, "a fit of the core"
        for left_out in literals:
            assert self.fit([l for l in literals if l != left_out]) is not None, "a literal too many"

    def asserted(self):
        return AssertedBounds(self)


class AssertedBounds:
    """A list of bounds; of each number of first literals it keeps the numbers that are written, or the core."""

    def __init__(self, theory):
        self.theory, self.literals, self.after = theory, [], [([0] * theory.terms, None)]

    def add(self, literal):
        row, core = self.after[-1]
        self.literals.append(literal)
        self.after.append((row, core) if core else self.lowered(list(row)))

    def lowered(self, row):
        bounds = [self.theory.bound(l) for l in self.literals]
        new, lowered_by = len(bounds) - 1, {}
        while True:
            excess = [row[a] - (row[b] + c) for a, b, c in bounds]
            most = max(excess)
            if most <= 0:
                return row, None
            at = excess.index(most)
            term, base, _ = bounds[at]
            if term == bounds[new][1]:
                cycle = [at]
                while at != new:
                    at = lowered_by[bounds[at][1]]
                    cycle.append(at)
                return None, sorted(cycle)
            row[term] -= most
            assert term not in lowered_by, "a term is lowered twice"
            lowered_by[term] = at

    def cut(self, length):
        del self.literals[length:]
        del self.after[length + 1:]

    def core(self):
        """The positions of the core, or None where the list is possible."""
        return self.after[-1][1]

    def written(self):
        return self.after[-1][0]


class Equality:
    """A term is a symbol and the numbers of its arguments. A claim (a, b) says that two terms' numbers are equal."""

    name = "equality"

    def __init__(self, table, claims):
        self.table, self.terms, self.claims = table, len(table), claims
        # for each term the earlier ones with its symbol and number of arguments, the nearest first
        head = [(symbol, len(args)) for symbol, args in table]
        self.alike = [[u for u in range(t - 1, -1, -1) if head[u] == head[t]] for t in range(self.terms)]

    @staticmethod
    def refusal(table, claims):
        """The number by which making refuses some records, or None."""
        if past_limit(table, claims):
            return 1
        if any(a >= t for t, (_, args) in enumerate(table) for a in args):
            return 2
        if any(max(a, b) >= len(table) for a, b in claims):
            return 3
        return None

    def fit(self, literals):
        """The lowest number of a joined term, for each term, or None where there is no fit."""
        label = list(range(self.terms))

        def join(a, b):
            low, high = sorted((label[a], label[b]))
            if low != high:
                for t in range(self.terms):
                    if label[t] == high:
                        label[t] = low
            return low != high

        for l in literals:
            if l % 2 == 0:
                join(*self.claims[l // 2])
        moved = True
        while moved:
            moved, first = False, {}
            for t, (symbol, args) in enumerate(self.table):
                key = (symbol, tuple(label[a] for a in args))
                moved = join(first.setdefault(key, t), t) or moved
        for l in literals:
            a, b = self.claims[l // 2]
            if l % 2 == 1 and label[a] == label[b]:
                return None
        return label

    def admits(self, row):
        """One symbol and equal numbers at the arguments make equal numbers."""
        numbers = {}
        for (symbol, args), number in zip(self.table, row):
            if numbers.setdefault((symbol, tuple(row[a] for a in args)), number) != number:
                return False
        return len(row) == self.terms

    def holds(self, literal, row):
        a, b = self.claims[literal // 2]
        return (row[a] == row[b]) == (literal % 2 == 0)

    def check_core(self, literals):
        """Just one denial, and no fit."""
        assert sum(l % 2 for l in literals) == 1, "not one denial"
        assert self.fit(literals) is None, "a fit of the core"

    def asserted(self):
        return AssertedEqualities(self)


class AssertedEqualities:
    """A list of literals, its merges in their order, and the labels before the first merge and after each."""

    def __init__(self, theory):
        self.theory, self.literals = theory, []
        self.merges, self.labels = [], [list(range(theory.terms))]
        self.sweep()
        self.after = [len(self.merges)]

    def merge(self, a, b, why):
        """Joins the classes of two terms; `why` is the position of a literal, or None for equal parts."""
        low, high = sorted((self.labels[-1][a], self.labels[-1][b]))
        self.merges.append((a, b, why))
        self.labels.append([low if label == high else label for label in self.labels[-1]])

    def congruent_before(self, t):
        """The nearest earlier term that is congruent to t and has another label."""
        table, label = self.theory.table, self.labels[-1]
        for u in self.theory.alike[t]:
            if label[u] != label[t] and all(label[a] == label[b] for a, b in zip(table[t][1], table[u][1])):
                return u
        return None

    def sweep(self):
        moved = True
        while moved:
            moved = False
            for t in range(self.theory.terms):
                u = self.congruent_before(t)
                if u is not None:
                    self.merge(t, u, None)
                    moved = True

    def add(self, literal):
        position = len(self.literals)
        self.literals.append(literal)
        if literal % 2 == 0:
            a, b = self.theory.claims[literal // 2]
            if self.labels[-1][a] != self.labels[-1][b]:
                self.merge(a, b, position)
                self.sweep()
        self.after.append(len(self.merges))

    def cut(self, length):
        del self.literals[length:]
        del self.after[length + 1:]
        del self.merges[self.after[-1]:]
        del self.labels[self.after[-1] + 1:]

    def denied(self):
        """The position of the first denial whose terms are joined, or None."""
        for position, l in enumerate(self.literals):
            a, b = self.theory.claims[l // 2]
            if l % 2 == 1 and self.labels[-1][a] == self.labels[-1][b]:
                return position
        return None

    def core(self):
        """The positions of the core, or None where the list is possible."""
        denied = self.denied()
        if denied is None:
            return None
        positions, explained = {denied}, set()
        pairs = [self.theory.claims[self.literals[denied] // 2]]
        while pairs:
            a, b = pairs.pop()
            if a == b or (a, b) in explained:
                continue
            explained.add((a, b))
            met = next(k for k in range(len(self.merges)) if self.labels[k + 1][a] == self.labels[k + 1][b])
            s, t, why = self.merges[met]
            if self.labels[met][a] != self.labels[met][s]:
                s, t = t, s
            pairs += [(a, s), (t, b)]
            if why is None:
                pairs += zip(self.theory.table[s][1], self.theory.table[t][1])
            else:
                positions.add(why)
        return sorted(positions)

    def written(self):
        return self.labels[-1]
