"""The built inkstep, as the comparisons run it, and the words that their commands take."""
import argparse
import os
import subprocess
import sys

PATH = os.path.join(os.path.dirname(os.path.abspath(__file__)), "..", "..", "crates", "inkstep", "out", "inkstep")


def arguments(about, books, theories):
    """The seed, the number of books and the theories that the command's words name."""
    parser = argparse.ArgumentParser(description=about, formatter_class=argparse.RawDescriptionHelpFormatter)
    parser.add_argument("seed", metavar="SEED", nargs="?", type=int, default=1, help="the books follow from it; 1")
    parser.add_argument("books", metavar="COUNT", nargs="?", type=int, default=books, help=f"how many books; {books}")
    names = [theory.name for theory in theories]
    parser.add_argument("names", metavar="THEORY", nargs="*", help=" and ".join(names) + ", unless some are named")
    words = parser.parse_args()
    for name in words.names:
        if name not in names:
            parser.error(f"no theory is called {name}")
    if not os.path.exists(PATH):
        print("inkstep is not built: (cd crates/inkstep && rt run -- help)", file=sys.stderr)
        sys.exit(2)
    return words.seed, words.books, [theory for theory in theories if theory.name in (words.names or names)]


def run(*words, text=None):
    return subprocess.run([PATH, *words], input=text, capture_output=True, text=True)


def files(texts, folder):
    """The paths of the books, each in a file of its own."""
    paths = [os.path.join(folder, f"{number}.book") for number in range(len(texts))]
    for path, text in zip(paths, texts):
        with open(path, "w") as out:
            out.write(text)
    return paths


def answers(words, paths):
    """What is printed of each book, told in one call; each by itself if one, which none should be, is at fault."""
    told, names = run(*words, *paths), [f"{path}:" for path in paths]
    lines = told.stdout.splitlines()
    if told.returncode != 0 or len(paths) < 2 or lines[:1] != names[:1]:
        return [answer(*words, path) for path in paths]
    printed, at = {name: [] for name in names}, None
    for line in lines:
        if line in printed:
            at = line
        else:
            printed[at].append(line)
    return list(printed.values())


def answer(*words):
    """What is printed of one book, and of what went wrong."""
    told = run(*words)
    wrong = [f"exit status {told.returncode}"] if told.returncode != 0 else []
    return (told.stdout + told.stderr).splitlines() + wrong
