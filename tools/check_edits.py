#!/usr/bin/env python3
"""Says which must-fail edits do not fit the files that they name.

usage: check_edits.py [--quiet] [NAME..]     all crates, or those named; --quiet: only the names of the edits

An edit is crates/NAME/must-fail/EDIT.edit: a line 'file: PATH' (below src/, specs/ or proofs/), and pairs of lines 'old: TEXT' and 'new: TEXT'. Each old text
has to stand once in the file as the pairs before have made it, and each new text has to differ from it. A comment is a line that begins with #. The last line is
'N passed, M failed'; it exits non-zero unless M is 0.
"""
import glob
import os
import sys


def misfit(edit):
    """Returns why the edit cannot be applied, or None."""
    crate = os.path.dirname(os.path.dirname(edit))
    path, old, pairs, texts, was = None, None, 0, {}, {}
    with open(edit, encoding="utf-8") as it:
        lines = it.read().split("\n")
    for line in lines:
        if line.startswith("file: "):
            path = line[len("file: "):].strip()
            if not path.startswith(("src/", "specs/", "proofs/")) or os.path.normpath(path) != path:
                return f"{path} is no file below src/, specs/ or proofs/"
            if not os.path.isfile(f"{crate}/{path}"):
                return f"there is no file {path}"
        elif line.startswith("old: "):
            if old is not None:
                return "an 'old:' line has no 'new:' line"
            old = line[len("old: "):]
        elif line.startswith("new:"):
            new = line[len("new:"):].removeprefix(" ")
            if path is None or old is None:
                return "a 'new:' line stands before its 'file:' or 'old:' line"
            if path not in texts:
                with open(f"{crate}/{path}", encoding="utf-8") as it:
                    texts[path] = was[path] = it.read()
            found = texts[path].count(old)
            if found != 1:
                return f"{path} has {found} times, and not once: {old.strip()}"
            if old == new:
                return f"it changes nothing: {old.strip()}"
            texts[path] = texts[path].replace(old, new)
            old, pairs = None, pairs + 1
        elif line.strip() and not line.startswith("#"):
            return f"a line that is not read: {line.strip()}"
    if old is not None:
        return "an 'old:' line has no 'new:' line"
    if not pairs:
        return "it has no 'old:' and 'new:' pair"
    return None if texts != was else "it changes nothing"


def main():
    words = sys.argv[1:]
    quiet = "--quiet" in words
    names = [it for it in words if it != "--quiet"]
    passed = failed = 0
    for edit in sorted(glob.glob("crates/*/must-fail/*")):
        if names and edit.split("/")[1] not in names:
            continue
        why = misfit(edit) if edit.endswith(".edit") else "it is no .edit file"
        if why:
            failed += 1
            print(edit if quiet else f"{edit}: {why}")
        else:
            passed += 1
    print(f"{passed} passed, {failed} failed")
    return 1 if failed else 0


if __name__ == "__main__":
    os.chdir(os.path.join(os.path.dirname(os.path.abspath(__file__)), ".."))
    sys.exit(main())
