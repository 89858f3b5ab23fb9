"""Random books to solve, in families that each make a search work in another way.

A family is a function of a source of chance and a size, 1 to 32, that gives records of terms, claims and clauses
of either theory. `some_book` takes one, mixes what does not matter, and adds an allowance.
"""
import itertools

from text import Book
from theories import Distance, Equality

# Nobody waits longer for a book than for so many steps.
LONGEST = 1000000


class Draft:
    """A book as it is written down: claims get their numbers when they are first named."""

    def __init__(self, theory):
        self.theory, self.table, self.claims, self.clauses = theory, [], {}, []

    def term(self, *args, symbol=None):
        self.table.append((len(self.table) if symbol is None else symbol, list(args)))
        return len(self.table) - 1

    def terms(self, many):
        return [self.term() for _ in range(many)]

    def claim(self, *claim):
        """The literal of a claim: two terms of equality, two and a constant of distances."""
        return 2 * self.claims.setdefault(claim, len(self.claims))

    def at_least(self, a, b, c):
        """a's number minus b's is at least c."""
        return self.claim(b, a, -c)

    def add(self, *literals):
        """A clause, unless it would have a claim twice."""
        if len({l // 2 for l in literals}) == len(literals):
            self.clauses.append(list(literals))


def signed(rnd, literal, denied=0.5):
    return literal ^ (rnd.random() < denied)


def some_clauses(rnd, draft, literals, many, sizes, denied=0.5):
    for _ in range(many):
        size = min(rnd.choice(sizes), len(literals))
        draft.add(*(signed(rnd, l, denied) for l in rnd.sample(literals, size)))


def some_claims(rnd, draft, terms, many, reach):
    """Different claims between some terms, as many as there are, up to so many."""
    if draft.theory is Equality:
        pairs = list(itertools.combinations(terms, 2))
        found = rnd.sample(pairs, min(many, len(pairs)))
    else:
        found = [(*rnd.sample(terms, 2), rnd.randint(-reach, reach)) for _ in range(many)] if len(terms) > 1 else []
    return list(dict.fromkeys(draft.claim(*claim) for claim in found))


def threshold(rnd, size, theory):
    """Clauses of three about claims between few terms, about as many as still can be kept."""
    draft = Draft(theory)
    literals = some_claims(rnd, draft, draft.terms(rnd.randint(3, 3 + size)), 2 + 2 * size, rnd.choice([1, 4, 30]))
    ratio = rnd.uniform(1.5, 4.5)
    some_clauses(rnd, draft, literals, int(ratio * len(literals)), [2, 3, 3, 3, 3, 4], rnd.choice([0.3, 0.5, 0.6]))
    return draft


def free(rnd, size, theory):
    """The same about claims that have nothing to do with one another."""
    draft = Draft(theory)
    constant = [rnd.randint(-9, 9)] if theory is Distance else []
    literals = [draft.claim(draft.term(), draft.term(), *constant) for _ in range(3 + 3 * size)]
    some_clauses(rnd, draft, literals, int(rnd.uniform(3.8, 4.7) * len(literals)), [3])
    return draft


def chain(rnd, size, theory):
    """Measures in a row, each next to the one before by one of some ways, and denials of what the row comes to."""
    draft, ways = Draft(theory), rnd.choice([1, 1, 2, 3]) if size <= 12 else 1
    row = draft.terms(size + 2)
    total = 0
    for a, b in zip(row, row[1:]):
        if theory is Equality:
            links = [draft.claim(a, b)]
            for _ in range(ways - 1):
                between = draft.term()
                both = [draft.claim(a, between), draft.claim(between, b)]
                way = draft.claim(draft.term(), draft.term())
                draft.add(way ^ 1, both[0])
                draft.add(way ^ 1, both[1])
                links.append(way)
        else:
            c = rnd.randint(-5, 5)
            total += c
            links = [draft.claim(a, b, c - k) for k in range(ways)]
        draft.add(*links)
    if theory is Equality:
        ends = [(row[0], row[-1])]
        if rnd.random() < 0.5:
            ends.append((draft.term(row[0], row[-1], symbol=999), draft.term(row[-1], row[0], symbol=999)))
        gap = rnd.random() < 0.4
        draft.add(*(draft.claim(*end) ^ 1 for end in ends))
    else:
        gap = rnd.random() < 0.5
        draft.add(draft.claim(row[-1], row[0], -total - (not gap)))
    if gap and theory is Equality:
        draft.clauses.pop(rnd.randrange(len(draft.clauses)))
    return draft


def diamonds(rnd, size, theory):
    """Two ways past each corner, and ends that no way may join; now and then with a gap."""
    draft, corners = Draft(theory), min(size, 8)
    at = first = draft.term()
    step = [rnd.randint(1, 9)] if theory is Distance else []
    for _ in range(corners):
        left, right, on = draft.terms(3)
        ways = [[draft.claim(at, side, *step), draft.claim(side, on, *step)] for side in (left, right)]
        draft.add(ways[0][0], ways[1][0])
        for near, far in ways:
            draft.add(near ^ 1, far)
        at = on
    if theory is Equality:
        draft.add(draft.claim(first, at) ^ 1)
    else:
        draft.add(draft.claim(first, at, 2 * corners * step[0] - rnd.randrange(2)) ^ 1)
    if rnd.random() < 0.3:
        draft.clauses.pop(rnd.randrange(len(draft.clauses)))
    return draft


def pigeons(rnd, size, theory):
    """Pigeons in one hole fewer than there are, or in as many; each hole is a number."""
    draft, holes = Draft(theory), min(2 + size // 4, 5)
    many = holes + rnd.choice([0, 1, 1])
    if theory is Equality:
        here, there = draft.terms(holes), draft.terms(many)
        if rnd.random() < 0.4:
            apart = [(draft.term(p, symbol=998), draft.term(q, symbol=998))
                     for p, q in itertools.combinations(there, 2)]
        else:
            apart = list(itertools.combinations(there, 2))
        for p in there:
            draft.add(*(draft.claim(p, h) for h in here))
        for p, q in apart:
            draft.add(draft.claim(p, q) ^ 1)
    else:
        base, *there = draft.terms(many + 1)
        for p in there:
            draft.add(draft.at_least(p, base, 0))
            draft.add(draft.claim(p, base, holes - 1))
        for p, q in itertools.combinations(there, 2):
            draft.add(draft.claim(p, q, -1), draft.claim(q, p, -1))
    return draft


def nested(rnd, size, theory=Equality):
    """Functions of one and of two measures, a few symbols, so that equal parts make much equal."""
    draft = Draft(theory)
    terms, symbols = draft.terms(rnd.randint(2, 4)), rnd.choice([1, 2, 2, 3])
    if rnd.random() < 0.2:
        terms.append(draft.term(symbol=0))
    constants = len(terms)
    for _ in range(rnd.randint(size, 3 * size)):
        reach = terms if rnd.random() < 0.6 else terms[:constants]
        args = [rnd.choice(reach) for _ in range(rnd.choice([1, 1, 2, 2]))]
        terms.append(draft.term(*args, symbol=500 + rnd.randrange(symbols)))
    literals = some_claims(rnd, draft, terms, 2 + 2 * size, 0)
    literals += some_claims(rnd, draft, terms[:constants], rnd.randint(0, 3), 0)
    literals = list(dict.fromkeys(literals))
    many = int(rnd.uniform(0.8, 3.5) * len(literals))
    some_clauses(rnd, draft, literals, many, [1, 2, 2, 3, 3], rnd.choice([0.35, 0.5]))
    return draft


def periods(rnd, size, theory=Equality):
    """A function applied over and over that comes back after some turns; it comes back after their common measure."""
    draft = Draft(theory)
    towers = [draft.term() for _ in range(rnd.choice([1, 1, 2]))]
    height = size + 3
    levels = [[start := tower] + [start := draft.term(start, symbol=700) for _ in range(height)] for tower in towers]
    for _ in range(rnd.randint(1, 3)):
        row = rnd.choice(levels)
        sides = [draft.claim(row[0], row[rnd.randint(1, height)]) for _ in range(rnd.choice([1, 2]))]
        draft.add(*dict.fromkeys(sides))
    for _ in range(rnd.randint(1, 3)):
        row, other = rnd.choice(levels), rnd.choice(levels)
        low, high = rnd.choice(row), rnd.choice(other)
        if low != high:
            draft.add(signed(rnd, draft.claim(*sorted((low, high))), 0.7))
    if len(levels) == 2:
        draft.add(draft.claim(levels[0][0], levels[1][rnd.randrange(3)]), draft.claim(levels[0][1], levels[1][0]))
    return draft


def cycles(rnd, size, theory=Distance):
    """Cycles of distances whose constants add up to 0 or -1, or to that by one of some ways."""
    draft = Draft(theory)
    terms, reach = draft.terms(size + 2), rnd.choice([2, 50, 1000000 // (size + 2)])
    for _ in range(rnd.randint(1, 1 + size // 2)):
        if len(draft.claims) > 80:
            break
        around = rnd.sample(terms, rnd.randint(2, min(len(terms), 14)))
        constants = [rnd.randint(-reach, reach) for _ in around[1:]]
        constants.append(-sum(constants) - (rnd.random() < 0.4))
        for a, b, c in zip(around, around[1:] + around[:1], constants):
            if abs(c) > 1000000:
                continue
            ways = [draft.claim(a, b, c)]
            if rnd.random() < 0.4:
                ways.append(draft.claim(*rnd.sample(terms, 2), rnd.randint(-reach, reach)))
            if rnd.random() < 0.3:
                ways.append(draft.at_least(b, a, 1 - c) ^ 1)
            draft.add(*dict.fromkeys(ways))
    return draft


def jobs(rnd, size, theory=Distance):
    """Jobs of some tasks in a row; of two tasks for one machine either comes first; all ends by a given time."""
    draft = Draft(theory)
    machines, many = rnd.choice([(2, 2), (2, 3), (3, 2), (1, 4)] + [(3, 3)] * (size > 4))
    start, tasks = draft.term(), []
    for job in range(many):
        order = rnd.sample(range(machines), machines)
        tasks.append([(draft.term(), machine, rnd.randint(1, 6)) for machine in order])
    least = max(sum(length for _, _, length in row) for row in tasks)
    for machine in range(machines):
        least = max(least, sum(length for row in tasks for _, m, length in row if m == machine))
    until = least + rnd.choice([-1, 0, 0, 1, 2, 4])
    for row in tasks:
        draft.add(draft.at_least(row[0][0], start, 0))
        draft.add(draft.claim(row[-1][0], start, until - row[-1][2]))
        for (t, _, length), (after, _, _) in zip(row, row[1:]):
            draft.add(draft.at_least(after, t, length))
    for row, other in itertools.combinations(tasks, 2):
        for (t, machine, length), (u, same, long) in itertools.product(row, other):
            if machine == same:
                draft.add(draft.at_least(u, t, length), draft.at_least(t, u, long))
    return draft


def bare(rnd, size, theory):
    """Books that lack something, or say next to nothing."""
    draft, constant = Draft(theory), [rnd.randint(-1, 1)] if theory is Distance else []
    kind = rnd.randrange(7)
    if kind == 0:
        draft.clauses += [[]] * rnd.choice([0, 0, 1, size])
    elif kind == 1:
        draft.terms(rnd.choice([1, size, 256]))
        draft.clauses += [[]] * rnd.choice([0, 0, 0, 1])
    elif kind == 2:
        literals = some_claims(rnd, draft, draft.terms(size + 1), size, 2)
        draft.clauses += rnd.choice([[], [[]], [[], [signed(rnd, l) for l in literals]]])
    elif kind == 3:
        term = draft.term()
        draft.add(signed(rnd, draft.claim(term, term, *constant)))
    elif kind == 4:
        literals = some_claims(rnd, draft, draft.terms(size + 1), 2 * size, 5)
        for l in literals:
            draft.add(signed(rnd, l, rnd.choice([0.1, 0.5, 0.9])))
    elif kind == 5:
        l = draft.claim(draft.term(), draft.term(), *constant)
        draft.clauses += [[l], [l ^ 1]]
    else:
        literals = some_claims(rnd, draft, draft.terms(3), 4, 1)
        some_clauses(rnd, draft, literals, 3, [0, 1, 2, 3])
    return draft


def full(rnd, size, theory):
    """A book at the limits: 128 claims, 256 terms, 512 clauses or 4,096 literals."""
    draft = Draft(theory)
    if theory is Equality:
        terms = draft.terms(rnd.choice([6, 20, 60]))
        while len(draft.table) < 256:
            args = [rnd.choice(terms) for _ in range(rnd.choice([1, 2]))]
            terms.append(draft.term(*args, symbol=500 + rnd.randrange(3)))
    else:
        terms = draft.terms(256)[: rnd.choice([12, 40, 256])]
    while len(draft.claims) < 128:
        some_claims(rnd, draft, terms, 128 - len(draft.claims), rnd.choice([3, 1000000]))
    literals = [2 * i for i in range(128)]
    if rnd.random() < 0.5:
        some_clauses(rnd, draft, literals, 512, [8])
    else:
        sizes = rnd.choice([[2, 3, 4], [3, 4, 5], [3]])
        some_clauses(rnd, draft, literals, 512 if rnd.random() < 0.7 else 350, sizes)
    return draft


OF_BOTH = [threshold, threshold, free, chain, diamonds, pigeons, bare]
OF_ONE = {Equality: [nested, nested, nested, periods], Distance: [cycles, cycles, jobs, jobs]}
# How often a book is at the limits.
FULL = 0.01


def say_again(rnd, draft):
    """Some claims once more in other words; of the clauses some have the one and some the other."""
    for (a, b, *constant), number in list(draft.claims.items()):
        # The denial of a - b <= c is b - a <= -c - 1.
        other, turned = ([], 0) if draft.theory is Equality else ([-constant[0] - 1], 1)
        if len(draft.claims) == 128 or rnd.random() < 0.7 or any(abs(c) > 1000000 for c in other):
            continue
        twin = draft.claim(b, a, *other) ^ turned
        for clause in draft.clauses:
            named = [l // 2 for l in clause]
            if number in named and twin // 2 not in named and rnd.random() < 0.5:
                at = named.index(number)
                clause[at] = twin ^ clause[at] % 2


def mixed(rnd, draft):
    """Claims, clauses and literals in another order, and now and then a clause twice."""
    numbers = rnd.sample(range(len(draft.claims)), len(draft.claims))
    claims = [claim for _, claim in sorted(zip(numbers, draft.claims))]
    if draft.theory is Equality:
        claims = [rnd.choice([(a, b), (b, a)]) for a, b in claims]
    clauses = [[2 * numbers[l // 2] + l % 2 for l in rnd.sample(clause, len(clause))] for clause in draft.clauses]
    room = min(512 - len(clauses), (4096 - sum(map(len, clauses))) // 128)
    if clauses and room > 0 and rnd.random() < 0.2:
        clauses += [rnd.choice(clauses) for _ in range(rnd.randint(1, min(room, 4)))]
    return claims, rnd.sample(clauses, len(clauses))


def some_allowance(rnd, most):
    """Mostly one that suffices; `most` is how many steps a history of the book can have."""
    kind = rnd.random()
    if kind < 0.12:
        return rnd.choice([0, 1, 2, 3, 5, 8, 13, 40, 120, 400])
    if most <= LONGEST:
        return rnd.choice([None, most, most + 1, LONGEST])
    return LONGEST


def some_book(rnd, theories):
    """A random book and its family's name."""
    theory, size = rnd.choice(theories), rnd.choice([1, 1, 2, 2, 3, 3, 4, 5, 6, 8, 10, 12, 16, 24, 32])
    family = full if rnd.random() < FULL else rnd.choice(OF_BOTH + OF_ONE[theory])
    draft = family(rnd, size, theory)
    if rnd.random() < 0.15:
        say_again(rnd, draft)
    claims, clauses = mixed(rnd, draft)
    book = Book(theory, draft.table, claims, clauses)
    return Book(theory, draft.table, claims, clauses, some_allowance(rnd, book.most_steps())), family.__name__
