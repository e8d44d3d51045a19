#!/usr/bin/env python3
"""Lists the places of src/ that docs/DESIGN-PASS.md counts: python3 tools/design_places.py [POINT] [COMMIT], at the top of the repository.
Without a commit the files are read as they stand. A line for each place, and after each point how many there are."""
import collections
import difflib
import os
import re
import subprocess
import sys


def run(*command):
    return subprocess.run(command, capture_output=True, text=True, check=True).stdout


def files(commit, is_wanted):
    """The files of the crates that are wanted, as (path, text)."""
    if commit:
        for name in sorted(filter(is_wanted, run("git", "ls-tree", "-r", "--name-only", commit, "crates").split())):
            yield name, run("git", "show", f"{commit}:{name}")
    else:
        for name in sorted(filter(is_wanted, run("git", "ls-files", "-co", "--exclude-standard", "crates").split())):
            if os.path.exists(name):
                yield name, open(name).read()


def is_source(name):
    return "/src/" in name and name.endswith(".rt")


def is_answers(name):
    return name.endswith("/Answers.antt")


Function = collections.namedtuple("Function", "where name head clauses body")


def functions(name, text):
    """Each function with its head, its clauses and its body, without comments."""
    lines = text.split("\n")
    short = name.replace("crates/", "").replace("/src", "")
    i = 0
    while i < len(lines):
        found = re.match(r"(\s*)(pub(\(crate\))? )?(extern \"C\" )?fn (\w+)", lines[i])
        if not found:
            i += 1
            continue
        start, indent = i, found.group(1)
        while not (lines[i].rstrip() == indent + "{" or lines[i].rstrip().endswith(" {") and not re.match(r"\s*(requires|ensures|ghost)", lines[i])):
            i += 1
        end = i
        while lines[end].rstrip() != indent + "}":
            end += 1
        whole = [re.sub(r"\s*//.*", "", l) for l in lines[start:i + 1]]
        clauses = [l for l in whole if re.match(r"\s*(requires|ensures|ghost)\b", l)]
        head = " ".join(l.strip() for l in whole if l not in clauses)
        body = "\n".join(re.sub(r"\s*//.*", "", l) for l in lines[i + 1:end])
        yield Function(f"{short}:{start + 1}", found.group(5), head, clauses, body)
        i = end + 1


def parameters(function):
    inside = re.search(r"\((.*)\)", function.head.split("->")[0])
    text = inside.group(1) if inside else ""
    return re.findall(r"(?:^|,)\s*(?:mut )?(\w+)\s*:", re.sub(r"\[[^\]]*\]|<[^>]*>", "", text))


def point1(sources, all_functions):
    for name, text in sources:
        for found in re.finditer(r"^(?:pub(?:\(crate\))? )?enum (\w+) \{(.*?)^\}", text, re.M | re.S):
            if re.search(r"^\s+(Nothing|None|Malformed|Ended|Refused\(|Error)\b", found.group(2), re.M) and "= " not in found.group(2):
                yield f"{name}: enum {found.group(1)} has a case for nothing or for a refusal"
        for found in re.finditer(r"^(#\[repr\(C\)\]\n)?(?:#\[[^\n]*\n)*(?:pub(?:\(crate\))? )?struct (\w+)[^\n]*\{(.*?)^\}", text, re.M | re.S):
            if re.search(r"\b(number|code): u32", found.group(3)):
                yield f"{name}: struct {found.group(2)} has a number of a cause beside its values"
    for f in all_functions:
        if re.search(r"-> u32\b", f.head) and re.search(r"\b(Cause|Code)::", f.body + " ".join(f.clauses)):
            yield f"{f.where}: {f.name} answers the number of a cause"
        if re.search(r"-> u32\b", f.head) and re.search(r"judge_", f.body) and not re.search(r"\b(Cause|Code)::", f.body):
            yield f"{f.where}: {f.name} answers the number of a cause"


def point2(sources, all_functions):
    shapes = []
    for f in all_functions:
        tokens = re.findall(r"\w+|[^\s\w]", f.body)
        names = {}
        shape = [t if not re.match(r"[a-z_]\w*$", t) or t in ("let", "mut", "if", "else", "while", "for", "in", "return", "match", "as", "usize", "u32", "u8", "u64", "true", "false") else "v" for t in tokens]
        shapes.append((f, shape, tokens))
    for i, (f, s, t) in enumerate(shapes):
        for g, s2, t2 in shapes[i + 1:]:
            if min(len(s), len(s2)) < 18 or not 0.75 < len(s) / len(s2) < 1.34:
                continue
            m = difflib.SequenceMatcher(None, s, s2, autojunk=False)
            if m.real_quick_ratio() > 0.93 and m.quick_ratio() > 0.93 and m.ratio() > 0.93:
                yield f"{f.where} {f.name} and {g.where} {g.name}"


def point3(sources, all_functions):
    for f in all_functions:
        for found in re.finditer(r"while ([^\n{]*)\{", f.body):
            names = re.findall(r"\b([a-z_]\w*)\b", found.group(1))
            if any(re.search(rf"\b{n} [+-]= 1;", f.body) or re.search(rf"\b{n} = {n} [+-] 1;", f.body) for n in names):
                yield f"{f.where}: {f.name}: while {found.group(1).strip()}"


def point4(sources, all_functions):
    for f in all_functions:
        if re.match(r"\s*(\w+|\*\w+|self) as \w+\s*$", f.body) or re.match(r"\s*self as u32\s*$", f.body):
            yield f"{f.where}: {f.name} converts a number"
        if re.search(r"b'0' \+", f.body) or re.search(r"- b'0'", f.body):
            yield f"{f.where}: {f.name} writes or reads digits"
        if re.search(r"\.len\(\) != \w+\.len\(\)", f.body) and "!=" in f.body and "while" in f.body:
            yield f"{f.where}: {f.name} compares two slices"
        if re.search(r"if (\w+) < (\w+) \{ (\1|\2) \} else \{ (\1|\2) \}", f.body):
            yield f"{f.where}: {f.name} is a minimum or a maximum"


def point5(sources, all_functions):
    for f in all_functions:
        if len(parameters(f)) >= 6:
            yield f"{f.where}: {f.name} has {len(parameters(f))} parameters"
    facts = collections.Counter()
    for f in all_functions:
        mine = set()
        for c in f.clauses:
            found = re.search(r"requires(?: \w+)? \{ (.*) \}", c)
            if found:
                mine |= {re.sub(r"^\(|\)$", "", x.strip()) for x in re.split(r" × ", found.group(1))}
        file = f.where.split(":")[0]
        for x in mine:
            facts[(file, x)] += 1
    for (file, x), n in sorted(facts.items()):
        if n >= 3:
            yield f"{file}: {n} contracts ask for {x}"


def point6(sources, all_functions):
    for f in all_functions:
        names = parameters(f)
        if "out" in names and "at" in names:
            yield f"{f.where}: {f.name} has a buffer and a place beside it"
        if re.search(r"\[\w+ \+ [a-z]\w*\] = \w+\[[a-z]\w*\]", f.body):
            yield f"{f.where}: {f.name} copies a slice number by number"
    for name, text in sources:
        for found in re.finditer(r"const (\w+_AT): usize = [^;]*;", text):
            yield f"{name}: {found.group(1)} is a place in a flat array"


def point7(sources, all_functions):
    for name, text in sources:
        for found in re.finditer(r"^\s*match (kind|question|[a-z_]+\(seed[^\n]*) \{", text, re.M):
            yield f"{name}: match {found.group(1)}"


def point8(commit):
    for name, text in files(commit, is_answers):
        lets = collections.Counter(re.findall(r"let (\w+ : .*?) in$", text, re.M))
        repeated = {x: n for x, n in lets.items() if n >= 3}
        if repeated:
            yield f"{name}: {sum(repeated.values())} lines say {len(repeated)} facts"


def main():
    arguments = sys.argv[1:]
    wanted = [a for a in arguments if re.fullmatch(r"[1-8]", a)]
    commit = next((a for a in arguments if a not in wanted), None)
    sources = list(files(commit, is_source))
    all_functions = [f for name, text in sources for f in functions(name, text)]
    for k, point in enumerate((point1, point2, point3, point4, point5, point6, point7), 1):
        if wanted and str(k) not in wanted:
            continue
        places = list(point(sources, all_functions))
        for p in places:
            print(p)
        print(f"-- point {k}: {len(places)} places\n")
    if not wanted or "8" in wanted:
        places = list(point8(commit))
        print("\n".join(places + [f"-- point 8: {len(places)} places\n"]))
    print(f"{len(all_functions)} functions")


main()
