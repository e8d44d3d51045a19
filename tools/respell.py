#!/usr/bin/env python3
"""Spells this repository's own antt names as today's Rattle does: words in snake case, types in camel case.

usage: tools/respell.py [--list]          (--list: print old and new, write nothing)

port.py turns the library's names, and of ours only those that a library spells alike. This turns the rest: each name that a file of specs/ or proofs/
declares with a dash or with a capital behind a small letter. A dash and a capital become `_`. What Rattle names itself stays: goals, steps, labels of the
source. Where two names would fall together, the lemma gets `_lem`. It goes by whole words: in .antt files, in clauses and comments of .rt files, and in
must-fail edits, those outside crates/ too.
"""

import os
import re
import sys

ROOT = os.path.realpath(os.path.join(os.path.dirname(__file__), ".."))
WORD = re.compile(r"[^\s(){}.;,@\"«»`\[\]]+")
BARE = re.compile(r"(?<![^\s(){};,@\"«»`\[\]])[^\s(){}.;,@\"«»`\[\]]+(?!\.\w)")
# A declaration: words before it, the name, implicit parameters, a colon.
DECLARED = re.compile(r"(?m)^ *(?:(?:pub|abbrev|unfoldable|record|data) +)*([^\s(){}.;,@\"«»:|]+)(?: +[({][^(){}]*[)}])* +:(?= |$)(.*)")
CLAUSE = re.compile(r"(?:requires|ensures)\s*\*?\s*(?:\w+\s*)?\{|ghost\s*(?:\w+\s*(?::\s*(?:(?:owns|lends)\s*)?|=\s*))?\{|ghost\s+use\b[^;]*;")
USE = re.compile(r"^ *(?:pub +)?use +([^\s;{]+)(\{[^}]*\})?", re.M)


def files(kind):
    for folder, dirs, names in os.walk(ROOT):
        dirs[:] = sorted(d for d in dirs if d not in ("out", "target", ".git"))
        for n in sorted(names):
            if n.endswith(kind):
                yield os.path.join(folder, n)


def read(path):
    with open(path, encoding="utf-8") as f:
        return f.read()


def snake(name):
    name = re.sub(r"getD(?![a-z])", "get_or", name)
    name = re.sub(r"(?<=[a-z0-9])[A-Z]", lambda m: "_" + m[0].lower(), name)
    return re.sub(r"(?<=\w)-(?=\w)", "_", name)


def is_own(name):
    return name[:1].islower() and snake(name) != name and not re.search(r"[^\w'₀-₉-]", name)


def declared(texts):
    """The names that files declare, each with the files; and the names of goals, which stay."""
    found, goals = {}, set()
    for path, text in texts.items():
        for m in DECLARED.finditer(text):
            if re.search(r"\b(goal|tie)\.", m[2]):
                goals.add(m[1])
            else:
                found.setdefault(m[1], set()).add(path)
    return found, goals


def imported(texts):
    """The names that files take from a library."""
    out = set()
    for text in texts.values():
        for m in USE.finditer(text):
            steps = m[1].rstrip(".").split(".")
            if m[2] and not (steps[0] == "Rattle" and os.path.isdir(os.path.join(ROOT, "crates", steps[1]))):
                out.update(WORD.findall(m[2]))
    return out


def table(texts):
    found, goals = declared(texts)
    lib = imported(texts)
    # A word behind a dot is a field or a step of a path, which meets no name.
    used = {path: set(BARE.findall(re.sub(r"(?m)--.*$", "", text))) for path, text in texts.items()}
    own = sorted(n for n in found if is_own(n) and n not in lib and (n not in goals or any("/specs/" in p for p in found[n])))
    top = {m[1] for text in texts.values() for m in re.finditer(r"(?m)^(?:pub +)?([a-z][\w']*)(?: +[({][^(){}]*[)}])* +:(?= |$)", text)}
    # A definition has its plain name, and a lemma of that name gives way.
    rows = {n: snake(n) for n in own if "-" not in n}
    rows.update({new: new + "_lem" for new in set(rows.values()) if new in top})
    for name in (n for n in own if "-" in n):
        new, users = snake(name), [p for p, w in used.items() if name in w]
        while new in rows.values() or new in found or any(new in used[p] for p in users):
            new += "_lem"
        rows[name] = new
    return rows


def words(text, rows):
    return WORD.sub(lambda m: rows.get(m[0], m[0]), text)


def clauses(text, rows):
    """The clauses, ghost items and comments of a source."""
    spans = []
    for m in CLAUSE.finditer(text):
        end = m.end()
        if not m[0].startswith("ghost use") and not re.match(r"ghost\s+use", m[0]):
            depth = 1
            while depth:
                depth += {"{": 1, "}": -1}.get(text[end], 0)
                end += 1
        spans.append((m.start(), end))
    spans += [m.span() for m in re.finditer(r"//[^\n]*", text)]
    out, at = [], 0
    for a, b in sorted(spans):
        if a < at:
            continue
        out += [text[at:a], words(text[a:b], rows)]
        at = b
    return "".join(out) + text[at:]


def main():
    texts = {p: read(p) for p in files(".antt")}
    rows = table(texts)
    if "--list" in sys.argv:
        for old, new in sorted(rows.items()):
            print(old, new)
        return
    for p, text in texts.items():
        turned = words(text, rows)
        if turned != text:
            open(p, "w", encoding="utf-8").write(turned)
    for p in files(".rt"):
        text = read(p)
        turned = clauses(text, rows)
        if turned != text:
            open(p, "w", encoding="utf-8").write(turned)
    # An edit's own lines are turned whole: where one shows source code, that code has none of these names.
    for p in files(".edit"):
        text = read(p)
        turned = words(text, rows)
        if turned != text:
            open(p, "w", encoding="utf-8").write(turned)


main()
