#!/usr/bin/env python3
"""What `inkstep solve FILE FILE ..` printed, read from standard input: checks each fit and each count of steps.

It prints how many fits keep their books; the first that does not ends the run with status 1.
"""
import sys

import text


def main():
    printed, fits = {}, 0
    for line in sys.stdin.read().splitlines():
        if line.endswith(".book:"):
            lines = printed[line[:-1]] = []
        else:
            lines.append(line)
    for path, lines in printed.items():
        with open(path) as file:
            book, _ = text.read(file.read())
        try:
            fits += text.Outcome(book, lines).name == "fit"
        except AssertionError as wrong:
            sys.exit(f"{path}: {wrong}")
    print(fits)


if __name__ == "__main__":
    main()
