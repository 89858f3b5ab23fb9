"""A conflict-driven search for a fit, sharing no code with the crates.

Clauses are watched at two literals; after each round of what follows from them, the theory is asked about all that is
assigned. Its part is computed anew each time: congruence closure with a forest of proofs for equality, Bellman and
Ford's lowering of numbers for distances.
"""


class Closure:
    """Equality: terms are joined, each class with a tree whose edges say why two terms are equal."""

    def __init__(self, theory):
        self.table, self.claims = theory.table, theory.claims
        self.above = [[] for _ in self.table]
        for t, (_, args) in enumerate(self.table):
            for a in set(args):
                self.above[a].append(t)

    def clash(self, literals):
        """Some of the literals that hold together in no fit, or None."""
        self.label = list(range(len(self.table)))
        self.toward = [None] * len(self.table)
        self.join_all([(*self.claims[l // 2], l) for l in literals if l % 2 == 0])
        for l in literals:
            a, b = self.claims[l // 2]
            if l % 2 == 1 and self.label[a] == self.label[b]:
                return [l, *self.explained(a, b)]
        return None

    def join_all(self, pending):
        members, signatures = [[t] for t in range(len(self.table))], {}

        def sign(t):
            symbol, args = self.table[t]
            other = signatures.setdefault((symbol, *(self.label[a] for a in args)), t)
            if self.label[other] != self.label[t]:
                pending.append((t, other, None))

        for t in range(len(self.table)):
            sign(t)
        while pending:
            a, b, why = pending.pop()
            if self.label[a] == self.label[b]:
                continue
            if len(members[self.label[a]]) > len(members[self.label[b]]):
                a, b = b, a
            moved, new = members[self.label[a]], self.label[b]
            self.hang(a, b, why)
            for t in moved:
                self.label[t] = new
            members[new] += moved
            for t in moved:
                for u in self.above[t]:
                    sign(u)

    def hang(self, a, b, why):
        """Turns the tree of a over so that a is its root, and hangs it below b."""
        edge = (b, why)
        while edge is not None:
            edge_of_a, self.toward[a] = self.toward[a], edge
            if edge_of_a is None:
                return
            edge, a = (a, edge_of_a[1]), edge_of_a[0]

    def explained(self, a, b):
        """The asserted literals that join two terms of one class."""
        literals, seen, pairs = set(), set(), [(a, b)]
        while pairs:
            a, b = pairs.pop()
            met = set()
            at = a
            while at is not None:
                met.add(at)
                at = self.toward[at] and self.toward[at][0]
            top = b
            while top not in met:
                top = self.toward[top][0]
            for at in (a, b):
                while at != top:
                    other, why = self.toward[at]
                    if at not in seen:
                        seen.add(at)
                        if why is None:
                            pairs += zip(self.table[at][1], self.table[other][1])
                        else:
                            literals.add(why)
                    at = other
        return literals


class Bounds:
    """Distances: each number is lowered to what the bounds allow, until a cycle of them closes."""

    def __init__(self, theory):
        self.terms = theory.terms
        self.bounds = [theory.bound(l) for l in range(2 * len(theory.claims))]

    def clash(self, literals):
        """Some of the literals that hold together in no fit, or None."""
        row, by = [0] * self.terms, {}
        lowered = True
        while lowered:
            lowered = False
            for l in literals:
                a, b, c = self.bounds[l]
                if row[b] + c < row[a]:
                    if a == b:
                        return [l]
                    row[a], by[a], lowered = row[b] + c, l, True
            cycle = lowered and self.cycle(by)
            if cycle:
                return cycle
        return None

    def cycle(self, by):
        """The literals along a cycle of terms, each lowered by way of the next."""
        done = set()
        for start in by:
            path, at = {}, start
            while at in by and at not in done and at not in path:
                path[at] = by[at]
                at = self.bounds[by[at]][1]
            if at in path:
                terms = list(path)
                return [path[t] for t in terms[terms.index(at):]]
            done.update(path)
        return None


class Search:
    """Decides claims, learns a clause from each conflict, and starts over now and then."""

    def __init__(self, theory, clauses):
        self.part = Closure(theory) if theory.name == "equality" else Bounds(theory)
        self.claims = len(theory.claims)
        self.value = [None] * (2 * self.claims)  # of each literal
        self.level, self.reason = [0] * self.claims, [None] * self.claims
        self.trail, self.starts, self.next = [], [], 0
        self.watched = [[] for _ in self.value]
        self.weight, self.step = [0.0] * self.claims, 1.0
        self.last = [True] * self.claims  # whether a claim was assigned its denial when it was assigned last
        self.clauses = clauses

    def verdict(self, conflicts):
        """"fit" or "no fit", or None where that many conflicts do not suffice."""
        for clause in self.clauses:
            if not self.open(list(dict.fromkeys(clause))):
                return "no fit"
        run, since = 50, 0
        while True:
            conflict = self.follow()
            if conflict is None:
                conflict = self.denied()
            if conflict is not None:
                if not self.starts:
                    return "no fit"
                if conflicts == 0:
                    return None
                conflicts, since = conflicts - 1, since + 1
                self.learn(conflict)
            elif len(self.trail) == self.claims:
                return "fit"
            elif since > run:
                run, since = run * 1.2, 0
                self.back(0)
            else:
                off = [i for i in range(self.claims) if self.value[2 * i] is None]
                i = max(off, key=self.weight.__getitem__)
                self.starts.append(len(self.trail))
                self.put(2 * i + self.last[i], None)

    def open(self, clause):
        """Takes in a clause of the book; whether it can still be kept."""
        if len(clause) > 1:
            self.watch(clause)
            return True
        if not clause or self.value[clause[0]] is False:
            return False
        if self.value[clause[0]] is None:
            self.put(clause[0], clause)
        return True

    def watch(self, clause):
        self.watched[clause[0]].append(clause)
        self.watched[clause[1]].append(clause)

    def put(self, l, reason):
        self.value[l], self.value[l ^ 1] = True, False
        self.level[l // 2], self.reason[l // 2] = len(self.starts), reason
        self.trail.append(l)

    def follow(self):
        """Puts what follows from the clauses; a clause that is false, or None."""
        while self.next < len(self.trail):
            false = self.trail[self.next] ^ 1
            self.next += 1
            clauses, self.watched[false] = self.watched[false], []
            for at, clause in enumerate(clauses):
                if clause[0] == false:
                    clause[0], clause[1] = clause[1], false
                if self.value[clause[0]] is not True and self.watches_another(clause):
                    continue
                self.watched[false].append(clause)
                if self.value[clause[0]] is False:
                    self.watched[false] += clauses[at + 1:]
                    return clause
                if self.value[clause[0]] is None:
                    self.put(clause[0], clause)
        return None

    def watches_another(self, clause):
        """Whether a literal that is not false could take the place of the second, which is."""
        for k in range(2, len(clause)):
            if self.value[clause[k]] is not False:
                clause[1], clause[k] = clause[k], clause[1]
                self.watched[clause[1]].append(clause)
                return True
        return False

    def denied(self):
        clash = self.part.clash(self.trail)
        return clash and [l ^ 1 for l in clash]

    def learn(self, conflict):
        """Resolves until one literal of the last level is left, goes back, and puts that one."""
        seen, others, open_here, at = set(), [], 0, len(self.trail)
        clause = conflict
        while True:
            for l in clause:
                i = l // 2
                if i not in seen and self.level[i] > 0:
                    seen.add(i)
                    self.weight[i] += self.step
                    if self.level[i] == len(self.starts):
                        open_here += 1
                    else:
                        others.append(l)
            at -= 1
            while self.trail[at] // 2 not in seen:
                at -= 1
            open_here -= 1
            if open_here == 0:
                break
            clause = self.reason[self.trail[at] // 2]
        self.step *= 1.05
        if self.step > 1e100:
            self.weight, self.step = [w / 1e100 for w in self.weight], self.step / 1e100
        others.sort(key=lambda l: -self.level[l // 2])
        learned = [self.trail[at] ^ 1, *others]
        self.back(self.level[others[0] // 2] if others else 0)
        if others:
            self.watch(learned)
        self.put(learned[0], learned)

    def back(self, level):
        if level < len(self.starts):
            for l in self.trail[self.starts[level]:]:
                self.value[l] = self.value[l ^ 1] = None
                self.last[l // 2] = l % 2 == 1
            del self.trail[self.starts[level]:]
            del self.starts[level:]
            self.next = len(self.trail)
