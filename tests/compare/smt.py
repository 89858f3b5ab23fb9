"""Solvers that may be installed as commands, and a book to solve as SMT-LIB text for them."""
import shutil
import subprocess

# For each command the words that let it read standard input and give up after so many seconds.
COMMANDS = {
    "z3": lambda seconds: ["-in", f"-T:{seconds}"],
    "cvc5": lambda seconds: ["--lang=smt2", f"--tlimit={1000 * seconds}", "-"],
}
VERDICTS = {"sat": "fit", "unsat": "no fit", "timeout": None, "unknown": None, "cvc5 interrupted by timeout.": None}


def installed():
    return [name for name in COMMANDS if shutil.which(name)]


def call(name, parts):
    return f"({name} {' '.join(parts)})" if parts else name


def equality_lines(theory):
    yield "(set-logic QF_UF)\n(declare-sort Measure 0)"
    heads = {(symbol, len(args)): f"s{symbol}_{len(args)}" for symbol, args in theory.table}
    for (_, arity), head in heads.items():
        yield f"(declare-fun {head} ({' '.join(['Measure'] * arity)}) Measure)"
    for t, (symbol, args) in enumerate(theory.table):
        yield f"(define-fun t{t} () Measure {call(heads[symbol, len(args)], [f't{a}' for a in args])})"
    for i, (a, b) in enumerate(theory.claims):
        yield f"(define-fun c{i} () Bool (= t{a} t{b}))"


def distance_lines(theory):
    yield "(set-logic QF_IDL)"
    for t in range(theory.terms):
        yield f"(declare-fun t{t} () Int)"
    for i, (a, b, c) in enumerate(theory.claims):
        yield f"(define-fun c{i} () Bool (<= (- t{a} t{b}) {c if c >= 0 else f'(- {-c})'}))"


def smt_text(book):
    lines = list({"equality": equality_lines, "distance": distance_lines}[book.theory.name](book.theory))
    for clause in book.clauses:
        literals = [f"c{l // 2}" if l % 2 == 0 else f"(not c{l // 2})" for l in clause]
        lines.append(f"(assert {call('or', literals) if literals else 'false'})")
    return "\n".join(lines) + "\n(check-sat)\n"


def verdict(command, book, seconds):
    """"fit" or "no fit", or None where the time does not suffice."""
    run = subprocess.run([command, *COMMANDS[command](seconds)], input=smt_text(book), capture_output=True, text=True)
    told = (run.stdout + run.stderr).strip()
    assert told in VERDICTS, f"{command} says {told!r}"
    return VERDICTS[told]
