#!/usr/bin/env python3
"""Spells the repository's own definitions and lemmas as today's Rattle does: words in snake case. Run once, after port.py, at the top.

usage: snake_names.py [--check]

A name is turned where it is declared in specs/ or proofs/ of a crate (a Proof.antt aside): a definition, a lemma, a field, a constructor, a
local function. Names of src/ and of the kit stay, and so does what a proof cites of the names that Rattle makes. Pages name in backticks what
they cite, and edits are turned like the file that they name. It prints names that fall together, which FALLEN then tells apart.
"""
import os
import re
import sys

W = r"[^\s(){}.;,@\"«»\[\]\\`]+"
PLAIN = re.compile(r"[a-z][A-Za-z0-9']*(?:[-_][a-z0-9][A-Za-z0-9']*)*\Z")
DECLARED = re.compile(r"^\s*(?:(?:pub|abbrev|unfoldable|private)\s+)*(%s)(?:\s+[({].*)?\s*:(?:\s|$)" % W)
HEAD = re.compile(r"^\s*(?:(?:pub|abbrev|unfoldable|private)\s+)*(record|data|module)\b")
TOKEN = re.compile(r"--[^\n]*|\"(?:[^\"\\]|\\.)*\"|«[^»]*»|" + W)
RT_TOKEN = re.compile(r"//[^\n]*|b?\"(?:[^\"\\]|\\.)*\"|b?'(?:\\.|[^'\\])'|" + W)
KIT_OR_OWN = re.compile(r"^(?:pub )?(?:ghost )?use (\S+?)(?:\.\{([^}]*)\})?(?: as (\S+?))?;?\s*$", re.M)
# Two names of one module that are one in snake case: the lemma gets _lem.
FALLEN = {}


def snake(name):
    name = name.replace("-", "_")
    return re.sub(r"(?<=[a-z0-9'])([A-Z])", lambda m: "_" + m[1].lower(), name)


def read(path):
    with open(path, encoding="utf-8") as f:
        return f.read()


def files(*ends):
    for folder, dirs, names in os.walk("crates"):
        dirs[:] = sorted(d for d in dirs if d != "out")
        for n in sorted(names):
            if n.endswith(ends):
                yield os.path.join(folder, n)


def unquoted(text):
    return re.sub(r"--[^\n]*", "", text)


def declared():
    """The names that our lemma files and definitions declare, those of fields, and by file those of each."""
    names, fields, by_file = set(), set(), {}
    for path in files(".antt"):
        if path.endswith("/Proof.antt") or "/src/" in path:
            continue
        record = None
        for line in unquoted(read(path)).split("\n"):
            indent = len(line) - len(line.lstrip())
            if record is not None and line.strip() and indent <= record:
                record = None
            head = HEAD.match(line)
            if head:
                record = indent if head[1] == "record" else None
                continue
            m = DECLARED.match(line)
            if m and PLAIN.match(m[1]):
                (fields if record is not None else names).add(m[1])
                by_file.setdefault(path, []).append((indent, m[1], record is not None))
    return names, fields, by_file


def imports(text):
    """The names that the file imports from the kit, and by alias whether a module is ours."""
    kit, aliases = set(), {}
    for m in KIT_OR_OWN.finditer(text):
        ours = m[1].startswith("Rattle.") and not m[1].startswith("Rattle.std.")
        for each in (m[2] or "").split(","):
            each = each.strip().split(" as ")
            if each[0] and not ours:
                kit.add(each[-1])
                kit.add(each[0])
        if m[3]:
            aliases[m[3]] = ours and not re.search(r"\.(Tie|Lts|Goals|Given)$", m[1])
    return kit, aliases


def turned(text, names, fields, rt):
    kit, aliases = imports(text)
    table = lambda it: FALLEN.get(it) or snake(it)

    def one(m):
        it = m[0]
        if it.startswith(("--", "//")):
            it = re.sub(r"`(%s)`" % W, lambda q: "`" + (table(q[1]) if q[1] in names | fields else q[1]) + "`", it)
            return re.sub(r"(?<![\w.-])[a-z]+(?:[A-Z][a-z0-9]*)+(?![\w-])", lambda q: snake(q[0]) if q[0] in names | fields else q[0], it)
        if not PLAIN.match(it) or (snake(it) == it and (rt or it not in FALLEN)) or it in kit:
            return it
        line = text[text.rfind("\n", 0, m.start()) + 1:m.start()]
        if re.match(r"(pub |ghost )*use [^{]*$", line):
            return it
        before = text[max(0, m.start() - 200):m.start()]
        chain = re.search(r"(?:(%s)\.)?(?:%s\.)*(%s|[)\]}])\.\Z" % (W, W, W), before)
        if before.endswith("."):
            head = re.search(r"((?:%s\.)+)\Z" % W, before)
            first = head[1].split(".")[0] if head else ""
            if first in aliases:
                return table(it) if aliases[first] and it in names | fields else it
            return table(it) if it in fields and snake(it) != it else it
        return table(it) if it in names or it in fields else it

    return (RT_TOKEN if rt else TOKEN).sub(one, text)


def together(path):
    """The names that a file has in scope, by their form in snake case."""
    text, found = read(path), {}
    if path.endswith(".rt"):
        words = {it for m in KIT_OR_OWN.finditer(text) for it in re.findall(W, m[2] or "")}
        words |= {it for m in re.finditer(r"(?ms)^\s*(?:pub )?fn (.*?)\n\{", text) for it in re.findall(r"(\w+): ", m[1])}
    else:
        text = re.sub(r"(?m)^((?:pub )?use )[^\s{]+", r"\1", text)
        if path.endswith("/Proof.antt"):
            text = "\n".join(re.findall(r"(?m)^(?:pub )?use .*", text))
        words = {it for it in TOKEN.findall(re.sub(r"--[^\n]*", "", text))}
    for it in words:
        if PLAIN.match(it):
            found.setdefault(snake(it), set()).add(it)
    return found


def main():
    check = "--check" in sys.argv
    names, fields, by_file = declared()
    wanted = {n for n in names | fields if snake(n) != n}
    print(len(names), "names,", len(fields), "fields;", len(wanted), "are not in snake case")
    for path in files(".antt", ".rt"):
        for now, each in together(path).items():
            own = [it for it in each if it in names | fields and it != now]
            if len(each) < 2 or not own:
                continue
            # The lemma goes, and the definition stays.
            lemmas = [it for it in own if "-" in it]
            for it in lemmas or [it for it in each if it == now and it in names]:
                FALLEN.setdefault(it, now + "_lem")
                print("told apart:", it, FALLEN[it], sorted(each), path)
    for path, each in by_file.items():
        seen = {}
        for indent, n, f in each:
            if indent > 2 and not f:
                continue
            seen.setdefault((f, FALLEN.get(n) or snake(n)), set()).add(n)
        for k, v in seen.items():
            if len(v) > 1:
                print("fall together:", path, sorted(v))
    for path in files(".antt", ".rt"):
        text = read(path)
        now = turned(text, names, fields, path.endswith(".rt"))
        # imports that fall together
        got = {}
        for m in KIT_OR_OWN.finditer(now):
            for each in (m[2] or "").split(","):
                each = each.strip().split(" as ")[-1]
                if each:
                    got.setdefault(each, []).append(m[1])
        for n, where in got.items():
            if len(where) > 1:
                print("imported twice:", path, n, where)
        local = {n for _, n, _ in by_file.get(path, [])}
        for n in local:
            if snake(n) != n and (FALLEN.get(n) or snake(n)) in got:
                print("own and imported:", path, n)
        if now != text and not check:
            with open(path, "w", encoding="utf-8") as f:
                f.write(now)
    if check:
        return
    for path in files(".edit"):
        text = read(path)
        m = re.search(r"(?m)^file: (\S+)", text)
        now = "\n".join(turned_edit(line, names, fields, m and m[1].endswith(".rt")) for line in text.split("\n"))
        if now != text:
            with open(path, "w", encoding="utf-8") as f:
                f.write(now)
    for top in ("README.md", "CONTRIBUTING.md", "docs", "host", "reference"):
        for path in ([top] if os.path.isfile(top) else (os.path.join(a, n) for a, _, ns in os.walk(top) for n in ns if n.endswith(".md"))):
            text = read(path)
            def quoted(q):
                inner = re.sub(W, lambda t: (FALLEN.get(t[0]) or snake(t[0])) if t[0] in wanted else t[0], q[1])
                return "`" + inner + "`"
            now = re.sub(r"`([^`\n]+)`", quoted, text)
            if now != text:
                with open(path, "w", encoding="utf-8") as f:
                    f.write(now)


def turned_edit(line, names, fields, rt):
    m = re.match(r"(old: |new: )(.*)", line)
    return m[1] + turned(m[2], names, fields, rt) if m else line


if __name__ == "__main__":
    main()
