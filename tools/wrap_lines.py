#!/usr/bin/env python3
"""Breaks the lines of definitions and proofs that have over 160 characters: an import becomes two, another line goes on in the next one, further in.

usage: wrap_lines.py [NAME..]     all crates, or those named

It breaks at the space with the fewest brackets around it, before an operator where there is one, and at the last such place that leaves at most 160 characters
before it. A line with a word of over 80 characters stays. It prints the files that it changed; each of their crates has to be checked again.
"""
import glob
import os
import re
import sys

MOST = 160
OPERATOR = re.compile(r"(?:[→×⊎∙≡∷⇒↔]|\+\+|\|\||&&)(?: |$)")


def import_of(line):
    """Returns the lines of an import that is too long, or None where the line is no import."""
    it = re.fullmatch(r"((?:pub )?use \S+?\.)\{(.*)\}", line)
    if not it:
        return None
    lines, names = [], []
    for name in it[2].split(", "):
        if names and len(f"{it[1]}{{{', '.join([*names, name])}}}") > MOST:
            lines.append(f"{it[1]}{{{', '.join(names)}}}")
            names = []
        names.append(name)
    return [*lines, f"{it[1]}{{{', '.join(names)}}}"]


def broken(line):
    """Returns the lines that a line becomes."""
    if len(line) <= MOST or re.search(r"[^ ]{81}", line):
        return [line]
    lines = import_of(line)
    if lines:
        return lines
    indent = len(line) - len(line.lstrip())
    if line.lstrip().startswith("-- "):
        at = line.rfind(" ", indent + 4, MOST + 1)
        return [line[:at], *broken(f"{' ' * indent}-- {line[at + 1:]}")]
    further = indent + (8 if line.lstrip().startswith("let ") else 4)
    depth, places = 0, []
    for at, it in enumerate(line[:MOST + 1]):
        if it in "([{":
            depth += 1
        elif it in ")]}":
            depth -= 1
        elif it == " " and at > MOST // 3:
            places.append((depth, not OPERATOR.match(line, at + 1), -at))
    at = -min(places)[2]
    return [line[:at], *broken(" " * further + line[at + 1:].lstrip())]


def main():
    names = sys.argv[1:] or sorted(os.listdir("crates"))
    for name in names:
        for path in sorted(glob.glob(f"crates/{name}/specs/**/*.antt", recursive=True) + glob.glob(f"crates/{name}/proofs/**/*.antt", recursive=True)):
            with open(path, encoding="utf-8") as it:
                text = it.read()
            lines = [part for line in text.split("\n") for part in broken(line)]
            if "\n".join(lines) != text:
                with open(path, "w", encoding="utf-8") as it:
                    it.write("\n".join(lines))
                print(path)


if __name__ == "__main__":
    os.chdir(os.path.join(os.path.dirname(os.path.abspath(__file__)), ".."))
    main()
