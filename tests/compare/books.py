#!/usr/bin/env python3
"""Random books, answered by the built inkstep and by a solver that shares no code with it.

Each book asserts, takes back, tries, queries and writes. What the program answers is compared with plain reference
solvers: Bellman and Ford's for distances, closure by repeated passes for equality. A core is held to what is promised
of it. The first difference is printed with its book and ends the run with status 1.
"""
import random
import sys

import program
from theories import Distance, Equality, record_lines


def some_records(rnd, theory):
    if theory is Distance:
        terms = rnd.choice([1, 2, 3, 5, 9, 20, 256])
        used = min(terms, rnd.choice([2, 4, 8, 40]))
        reach = rnd.choice([0, 1, 3, 30, 1000000])
        return [(rnd.randrange(65536), []) for _ in range(terms)], [
            (rnd.randrange(used), rnd.randrange(used), rnd.randint(-reach, min(reach + reach // 2, 1000000)))
            for _ in range(rnd.choice([0, 1, 3, 8, 20, 60, 128]))
        ]
    table, symbols = [], rnd.choice([2, 5, 300])
    for k in range(rnd.choice([1, 3, 8, 30, 120])):
        arity = min(rnd.choice([0, 0, 1, 2]), k)
        table.append((rnd.randrange(symbols), [rnd.randrange(k) for _ in range(arity)]))
    many = rnd.choice([0, 1, 3, 8, 30, 128])
    return table, [(rnd.randrange(len(table)), rnd.randrange(len(table))) for _ in range(many)]


def calls(rnd, book, many):
    """The lines of some calls, and for each what it is to answer: words, or a question with the list asked about."""
    claims, asserted, trials = len(book.claims), [], []
    for _ in range(many):
        kind = rnd.random()
        if kind < 0.55 and claims:
            literal, call = rnd.randrange(2 * claims + 1), rnd.choice(["assert", "assert", "assert", "trial"])
            if literal >= 2 * claims:
                answer = "refused 5"
            elif any(l // 2 == literal // 2 for l in asserted):
                answer = "refused 6"
            else:
                answer = "ok"
                if call == "trial":
                    trials.append(len(asserted))
                asserted.append(literal)
            yield f"call {call} {literal}", answer
        elif kind < 0.62:
            keep = rnd.randrange(len(asserted) + 2)
            yield f"call takeback {keep}", "ok" if keep <= len(asserted) else "refused 7"
            asserted = asserted[:keep]
        elif kind < 0.67 and trials:
            asserted = asserted[: trials.pop()]
            yield "call close", "ok"
        else:
            yield f"call {rnd.choice(['query', 'write'])}", list(asserted)


def check(book, call, literals, answer, cores):
    fit = book.fit(literals)
    if call == "call write":
        numbers = "refused 10" if fit is None else " ".join(map(str, fit))
        assert answer == numbers, f"not {numbers}"
    elif fit is not None:
        assert answer == "possible", "possible"
    else:
        word, *core = answer.split()
        core = [int(p) for p in core]
        assert word == "impossible" and core == sorted(set(core)) and core[-1] < len(literals), "no core"
        if tuple(literals) in cores:
            assert cores[tuple(literals)] == core, "another core of the same list"
        else:
            cores[tuple(literals)] = core
            book.check_core([literals[p] for p in core])


def main():
    seed, books, theories = program.arguments(__doc__, 200, [Distance, Equality])
    rnd, answers = random.Random(seed), 0
    for number in range(books):
        theory = rnd.choice(theories)
        table, claims = some_records(rnd, theory)
        book = theory(table, claims)
        asked = list(calls(rnd, book, rnd.choice([10, 60, 300])))
        text = "\n".join(record_lines(theory, table, claims) + [call for call, _ in asked]) + "\n"
        run = program.run("ask", "-", text=text)
        lines, cores = run.stdout.splitlines(), {}
        if run.returncode != 0 or len(lines) != len(asked):
            sys.exit(f"{text}\nseed {seed}, book {number}: {len(lines)} answers, status {run.returncode}: {run.stderr}")
        for (call, wanted), line in zip(asked, lines):
            answer = line.split(": ", 1)[1]
            try:
                if isinstance(wanted, str):
                    assert answer == wanted, f"not {wanted}"
                else:
                    check(book, call, wanted, answer, cores)
            except AssertionError as wrong:
                sys.exit(f"{text}\nseed {seed}, book {number}: {line}: {wrong}")
            answers += 1
    print(f"seed {seed}: {books} books, {answers} answers, no difference")


if __name__ == "__main__":
    main()
