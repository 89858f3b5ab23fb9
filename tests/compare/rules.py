"""The rules of a history, written from docs/RULES.md and sharing no code with the crates."""

LEARNED = range(512, 640)


def opened(row, claims):
    """The clauses that a row gives, and the number by which opening refuses them, or None."""
    clauses, at = [], 0
    while at < len(row):
        count, clause = row[at], row[at + 1: at + 1 + row[at]]
        if len(clause) < count:
            return clauses, 1
        clauses.append(clause)
        at += 1 + count
    if len(clauses) > 512 or sum(len(clause) for clause in clauses) > 4096:
        return clauses, 1
    for clause in clauses:
        if any(l >= 2 * claims for l in clause) or len({l // 2 for l in clause}) < len(clause):
            return clauses, 4
    return clauses, None


class Refused(Exception):
    """A step is refused by this number."""


def refuse(number, cause):
    if cause:
        raise Refused(number)


class History:
    """A book over a theory. A method for each kind of step refuses it or does what it does."""

    def __init__(self, theory, clauses, allowance):
        self.theory, self.allowance = theory, allowance
        self.book = [frozenset(clause) for clause in clauses]
        self.live = dict(enumerate(self.book))
        self.trail = []  # pairs of a literal and its reason: "decided", "theory" or a clause's number
        self.at = {}  # the position of each literal on the trail
        self.asserted = theory.asserted()
        self.conflict = self.verdict = self.written = None
        self.count = 0

    def propose(self, kind, *numbers):
        """The number of the refusal, or None for a step that is accepted."""
        try:
            refuse(11, self.verdict is not None)
            refuse(12, self.count == self.allowance)
            getattr(self, "step_" + kind)(*numbers)
        except Refused as refused:
            return refused.args[0]
        self.count += 1
        return None

    # What the rules speak of

    def literals(self):
        return 2 * len(self.theory.claims)

    def false(self, l):
        return l ^ 1 in self.at

    def on_trail(self, l):
        return l in self.at or self.false(l)

    def level(self, l):
        """The level of a literal of the trail."""
        return sum(reason == "decided" for _, reason in self.trail[: self.at[l] + 1])

    def latest(self):
        """The literal of the conflict whose complement has the highest position."""
        return max(self.conflict, key=lambda l: self.at[l ^ 1])

    def above(self, k):
        return [l for l in self.conflict if self.level(l ^ 1) > k]

    def is_reason(self, c):
        return any(reason == c for _, reason in self.trail)

    def blamed(self, l):
        """What the theory blames for l: complements of the core of the literals before l and then its complement."""
        asked, before = self.theory.asserted(), [entry for entry, _ in self.trail[: self.at[l]]] + [l ^ 1]
        for literal in before:
            asked.add(literal)
        return {before[p] ^ 1 for p in asked.core()} - {l}

    def impossible_with(self, l):
        length = len(self.trail)
        self.asserted.add(l)
        core = self.asserted.core()
        self.asserted.cut(length)
        return core is not None

    def put(self, l, reason):
        self.at[l] = len(self.trail)
        self.trail.append((l, reason))
        self.asserted.add(l)

    # The steps

    def free(self, l):
        refuse(13, self.conflict is not None)
        refuse(14, l >= self.literals())
        refuse(15, self.on_trail(l))

    def step_decide(self, l):
        self.free(l)
        self.put(l, "decided")

    def step_propagate(self, c, l):
        self.free(l)
        refuse(16, c not in self.live)
        refuse(17, l not in self.live[c] or not all(self.false(other) for other in self.live[c] - {l}))
        self.put(l, c)

    def step_imply(self, l):
        self.free(l)
        refuse(21, self.asserted.core() is not None or not self.impossible_with(l ^ 1))
        self.put(l, "theory")

    def step_conflict(self, c):
        refuse(13, self.conflict is not None)
        refuse(16, c not in self.live)
        refuse(17, not all(self.false(l) for l in self.live[c]))
        self.conflict = set(self.live[c])

    def step_clash(self):
        refuse(13, self.conflict is not None)
        core = self.asserted.core()
        refuse(21, core is None)
        self.conflict = {self.trail[p][0] ^ 1 for p in core}

    def step_resolve(self):
        refuse(13, self.conflict is None)
        refuse(18, not self.conflict)
        latest = self.latest()
        l = latest ^ 1
        reason = self.trail[self.at[l]][1]
        refuse(18, reason == "decided")
        others = self.blamed(l) if reason == "theory" else self.live[reason] - {l}
        self.conflict = (self.conflict - {latest}) | others

    def step_jump(self, k, c):
        refuse(13, self.conflict is None)
        above = self.above(k)
        refuse(18, len(above) != 1)
        refuse(19, c in self.live or c not in LEARNED)
        decided = [p for p, (_, reason) in enumerate(self.trail) if reason == "decided"]
        for l, _ in self.trail[decided[k]:]:
            del self.at[l]
        del self.trail[decided[k]:]
        self.asserted.cut(len(self.trail))
        self.live[c] = frozenset(self.conflict)
        self.conflict = None
        self.put(above[0], c)

    def step_forget(self, c):
        refuse(16, c not in self.live)
        refuse(19, c not in LEARNED or self.is_reason(c))
        del self.live[c]

    def step_fit(self, length=None):
        refuse(13, self.conflict is not None)
        refuse(20, len(self.trail) < len(self.theory.claims))
        refuse(20, not all(any(l in self.at for l in clause) for clause in self.book))
        refuse(21, self.asserted.core() is not None)
        refuse(22, length is not None and length < self.theory.terms)
        self.verdict, self.written = "fit", self.asserted.written()

    def step_nofit(self):
        refuse(13, self.conflict is None)
        refuse(18, bool(self.conflict))
        self.verdict = "no fit"
