#!/usr/bin/env python3
"""Holds the documents to the code: what they name exists, what must be named is named, and the numbers that they state are the code's."""
import re
import sys
from pathlib import Path
from types import SimpleNamespace

TOP = Path(__file__).resolve().parent.parent
README, CLAIMS, HOST_README = "README.md", "docs/CLAIMS.md", "host/README.md"
RELATIONS = "crates/engine/specs/Relations.antt"
DOCUMENTS = [README, CLAIMS, "docs/DECISIONS.md", "docs/PERFORMANCE.md", HOST_README, RELATIONS]
RELATED = ["engine", "definitions", "rectangles", "index"]
HEADER, CRATE = "host/include/rabdzhine.h", "host/src/lib.rs"

# What stands in backticks and is no name of the repository: formats, commands, words of a language, what a build makes.
NO_NAMES = {
    "&mut line[start..end]",
    "-",
    "N passed, 0 failed",
    "cargo test --offline -p reference",
    "ensures",
    "label/FR",
    "let .. else",
    "libexports.a",
    "match",
    "memcpy",
    "memset",
    "refused",
    "requires",
    "rt ci",
    "rt lib",
    "crates/exports/out/libexports.a",
    "crates/labels/out/labels",
    "rattle-kit-13f",
    "rt version",
}

# What README.md must say of the plan's bounds, with the code's constants put in.
STATED = [
    "1 to {Network.MAX_VERTICES}",
    "1 to {Network.MAX_PIECES}",
    "1 to {Network.MAX_SIZE}",
    "0 to {Network.MAX_LENGTH:,}",
]

# What the line of each refusal must say, in the table of README.md and in the list of the C header.
REFUSALS = {
    "Cause.Accepted": "accepted",
    "Cause.Buffer": "buffer",
    "Cause.Text": "{Text.MAX_BYTES:,} bytes",
    "Cause.Layout": "layout",
    "Cause.Bounds": "bounds",
    "Cause.Vertex": "1 to n",
    "Cause.Length": "above {Network.MAX_LENGTH:,}",
    "Cause.Block": "check",
    "Cause.Source": "source",
    "Cause.Target": "target",
    "Code.Call": "kind",
    "Code.RowAgain": "already",
    "Code.Label": "above {Network.MAX_LABEL:,}",
    "Code.Nothing": "nothing",
}

# The constants of the C header and of the Rust crate, by the code's. Those of the stack are measured by host/tests/stack.
HOST_CONSTANTS = {
    "SIZES": "Network.SIZE_PLACES",
    "VERTICES": "Network.VERTEX_PLACES",
    "LENGTHS": "Network.LENGTH_PLACES",
    "LABELS": "Network.LABEL_PLACES",
    "ROUTE_PLACES": "Network.ROUTE_PLACES",
    "MAX_ARCS": "Network.MAX_ARCS",
    "ARC_SIZE": "Network.ARC_SIZE",
    "NO_TARGET": "Network.NO_TARGET",
    "NO_PATH": "Network.NO_PATH",
    "RECTANGLE": "Session.RECTANGLE_PLACES",
    "INDEX": "Session.INDEX_PLACES",
    "INDEX_ROW": "Network.INDEX_PLACES",
    "NOTHING": "Code.Nothing",
    "CALLS": "Session.CALL_PLACES",
    "ANSWERS": "Session.ANSWER_PLACES",
    "INTERVALS": "Session.INTERVAL_PLACES",
    "INTERVAL_SIZE": "Session.INTERVAL_SIZE",
    "UNUSED": "Session.UNUSED",
    "LINE": "Line.BYTES",
    "LISTING": "answer.LISTING_BYTES",
    "UNREACHED": "Network.UNREACHED",
    "MAX_LENGTH": "Network.MAX_LENGTH",
    "MAX_LABEL": "Network.MAX_LABEL",
}

faults = []


def fault(where, what):
    faults.append(f"{where}: {what}")


def read(path):
    return (TOP / path).read_text()


# ---- what there is


def spec_names(text):
    """Definitions, laws, fields and constructors stand before a colon, types behind their keyword."""
    names = set()
    for line in text.splitlines():
        line = re.sub(r"^\s*((pub|abbrev|unfoldable) )*", "", line)
        named = re.match(r"(?:record|data) ([^\s{]+)|(?!--|let )([^:(){}=]+) :(?: |$)", line)
        names.update((named[1] or named[2]).split() if named else [])
    return names


def source_names(crate, path):
    """Functions, types, constants, variants and modules: alone, and behind the crate, the module and the type that have them."""
    names, owner = set(), None
    for line in path.read_text().splitlines():
        opened = re.match(r"(?:pub )?(?:impl|enum) (\w+)", line)
        owner = opened[1] if opened else None if line == "}" else owner
        named = re.match(r'\s*(?:pub(?:\(crate\))? )?(?:extern "C" )?(?:fn|struct|enum|const|mod) (\w+)', line)
        variant = re.match(r"    (\w+)[,(]", line) if owner else None
        for name in [found[1] for found in (named, variant) if found]:
            names |= {name} | {f"{of}::{name}" for of in (crate, path.stem, owner, f"{crate}::{owner}")}
    return names


def host_names():
    in_header = re.findall(r"\b(?:rabdzhine|RABDZHINE)_\w+", read(HEADER))
    return {"rabdzhine", *in_header, *re.findall(r"pub (?:fn|const|struct) (\w+)", read(CRATE))}


def constants():
    """The constants of bounds, by their type, and those of answer; the causes and the codes, enums of definitions."""
    known = {}
    for owner in ("bounds", "answer"):
        text = read(f"crates/{owner}/src/lib.rt")
        for found in re.finditer(r"^impl (\w+)|^ *pub const (\w+): \w+ = ([^;]*);", text, re.M):
            owner, name = found[1] or owner, found[2]
            if name:
                term = re.sub(r" as \w+|\s", "", found[3]).replace("::", ".")
                setattr(known.setdefault(owner, SimpleNamespace()), name, eval(term, {}, known))
    for enum in ("Cause", "Code"):
        cases = re.search(rf"^pub enum {enum} {{(.*?)^}}", read("crates/definitions/src/lib.rt"), re.M | re.S)[1]
        known[enum] = SimpleNamespace(**{name: int(number) for name, number in re.findall(r"(\w+) = (\d+),", cases)})
    # what an answer says where nothing is refused
    known["Cause"].Accepted = 0
    return known


CRATES = re.findall(r"^(\w+)(?: staticlib)?:", read("crates.txt"), re.M)
FOLDERS = [TOP / "crates" / crate for crate in CRATES]
EDITS = {(folder.name, edit.stem) for folder in FOLDERS for edit in folder.glob("must-fail/*.edit")}
# Files of definitions and laws; beside them in proofs/ lie the proofs of functions, whose names nobody cites.
LAWS = [path for folder in FOLDERS for top in ("specs", "proofs") for path in folder.glob(f"{top}/**/*.antt")]
SPECS = {path: spec_names(path.read_text()) for path in LAWS if path.stem not in ("Answers", "Invariants", "Proof")}
SOURCES = [source_names(folder.name, path) for folder in FOLDERS for path in folder.glob("src/**/*.rt")]
NAMES = set(CRATES).union(host_names(), (path.stem for path in SPECS), *SPECS.values(), *SOURCES)
CONSTANTS = constants()


def value(name):
    space, _, constant = name.partition(".")
    return getattr(CONSTANTS[space], constant)


def place_of(path, document):
    """The file or folder of a path from the top, the document, the crates, a crate, its specs or host; its ending may be left out."""
    laws = [folder / top for folder in FOLDERS for top in ("specs", "proofs")]
    bases = [TOP, (TOP / document).parent, TOP / "crates", *FOLDERS, *laws, TOP / "host"]
    places = [base / (path + ending) for base in bases for ending in ("", ".antt", ".rt")]
    return next((place for place in places if place.exists()), None)


def spec_has(place, name):
    return any(name in names for path, names in SPECS.items() if place in (path, *path.parents))


def exists(name, document):
    """A name, a path, or a law behind its crate or file: `heap_laws: monge-test`."""
    path, colon, law = name.partition(": ")
    place = place_of(path, document) if colon or re.search("[/.]", path) else None
    return name in NAMES | NO_NAMES or bool(place and (not colon or spec_has(place, law)))


# ---- what the documents name


def cells(document):
    """Each cell of a table and each paragraph, with its line. Lines that are set as code are left out."""
    text = re.sub("^--", "", read(document), flags=re.M) if document == RELATIONS else read(document)
    for block in re.finditer(r"^\|.*|^(?!\||    |$).*(?:\n(?!\||    |$).*)*", text, re.M):
        line = text.count("\n", 0, block.start()) + 1
        yield from ((line, cell) for cell in (block[0].split("|") if block[0][0] == "|" else [block[0]]))


def names_in(line, cell):
    return [(line + cell.count("\n", 0, name.start()), name[1]) for name in re.finditer("`([^`]+)`", cell)]


def rows(document, head):
    """The rows of the table that begins with this head, each as its cells."""
    table = read(document).partition(head)[2].split("\n\n")[0]
    return [[cell.strip() for cell in row.split("|")[1:-1]] for row in table.splitlines()[2:]]


def check_links(document):
    for link in re.findall(r"\]\(([^)#]+)", read(document)):
        if "://" not in link and not (TOP / document).parent.joinpath(link).exists():
            fault(document, f"the link to {link} leads nowhere")


def check_names(document):
    """Returns the must-fail edits that are named. One without its crate is of the crate that was named last in its cell."""
    cited = set()
    for start, cell in cells(document):
        crate = None
        for line, name in names_in(start, cell):
            of, _, edit = name.rpartition("/")
            if (of or crate, edit) in EDITS:
                crate = of or crate
                cited.add((crate, edit))
            elif not exists(name, document):
                fault(f"{document}:{line}", f"`{name}` names nothing")
    return cited


def check_relations():
    """Names stand on the left, a row of endings short for a name with each; the files stand in the heading."""
    for number, line in enumerate(read(RELATIONS).splitlines(), 1):
        listed = re.match(r"--   (\S+(?:,? \S+)*)  ", line)
        stem = ""
        for name in re.findall(r"\w+", listed[1]) if listed else []:
            name = stem + name if name in ("Leaves", "Keeps") else name
            stem = re.sub("(Needs|Leaves|Keeps|Given)$", "", name)
            if not any(spec_has(TOP / "crates" / crate, name) for crate in RELATED):
                fault(f"{RELATIONS}:{number}", f"{name} is not defined in {', '.join(RELATED)}")
        for path in re.findall(r"[A-Z]\w+/\w+", line):
            if not place_of(path, RELATIONS):
                fault(f"{RELATIONS}:{number}", f"{path} is no file")


def public_functions(folder):
    """Those of a library's root and of its public modules, and those that it hands on by `pub use`."""
    root = "".join(path.read_text() for path in folder.glob("src/lib.rt"))
    modules = [(folder / f"src/{name}.rt").read_text() for name in re.findall(r"^pub mod (\w+);", root, re.M)]
    handed_on = " ".join(re.findall(r"^pub use ([^;]+);", root, re.M))
    own = re.findall(r'^ *pub (?:extern "C" )?fn (\w+)', "\n".join([root, *modules]), re.M)
    return {*own, *re.findall(r"\b[a-z]\w*\b(?!::)", handed_on)}


def check_claims(cited):
    """Every must-fail edit and every public function is named in the claims."""
    for crate, edit in sorted(EDITS - cited):
        fault(CLAIMS, f"the must-fail edit {crate}/{edit} is not named")
    named = {name.split("::")[-1] for start, cell in cells(CLAIMS) for _, name in names_in(start, cell)}
    for folder in FOLDERS:
        for name in sorted(public_functions(folder) - named):
            fault(CLAIMS, f"the public function {folder.name}::{name} is not named")


def check_spec_files():
    """No two files of definitions or laws have the same name, so that a name alone says which is meant, but a crate's definitions in specs/ and the laws of them in proofs/."""
    held = {}
    for path in SPECS:
        if path.stem != "Lib":
            held.setdefault(path.stem, []).append(path.relative_to(TOP).parts[1:3] + (str(path.relative_to(TOP)),))
    for name, files in sorted(held.items()):
        tops, crates = {top for _, top, _ in files}, {crate for crate, _, _ in files}
        if len(files) > len(tops) or len(crates) > 1:
            fault(files[0][2], f"{files[1][2]} has the same name, {name}")


def check_crates():
    listed = re.findall(r"`(\w+)`", " ".join(row[0] for row in rows(README, "| crate |")))
    for crate in sorted(set(listed) ^ set(CRATES)):
        fault(README, f"the table of crates and crates.txt differ in {crate}")


# ---- the numbers that they state


def says(text, fragment):
    """The fragment stands there, and no number of it goes on."""
    return re.search(rf"(?<!\d)(?<!\d,){re.escape(fragment)}(?!,?\d)", text)


def check_bounds():
    for fragment in [template.format(**CONSTANTS) for template in STATED]:
        if not says(read(README), fragment):
            fault(README, f"'{fragment}' stands nowhere")


def check_refusals(where, listed, wanted):
    """The pairs of number and words that are listed are those of the wanted constants."""
    said = {value(name): REFUSALS.get(name, name).format(**CONSTANTS) for name in wanted}
    if sorted(int(number) for number, _ in listed) != sorted(said):
        fault(where, f"the numbers of the refusals are not {sorted(said)}")
    for number, words in listed:
        if not says(words, said.get(int(number), "")):
            fault(where, f"refusal {number} does not say '{said[int(number)]}'")


def check_host():
    """The constants of header and crate are the same and the code's; the README of host states the header's stacks."""
    header = {name: int(number) for name, number in re.findall(r"#define RABDZHINE_(\w+) \D*(?:32_C\()?(\d+)", read(HEADER))}
    stated = re.findall(r"pub const (\w+): \w+ = ([\w:]+);", read(CRATE))
    crate = {name: int(number.replace("u32::MAX", "4294967295").replace("_", "")) for name, number in stated}
    code = {name: value(constant) for name, constant in HOST_CONSTANTS.items()}
    code |= {name: number for name, number in header.items() if name.startswith("STACK_")}
    for name in sorted(header.keys() | crate.keys() | code.keys()):
        if not header.get(name) == crate.get(name) == code.get(name):
            fault("host", f"{name} is {header.get(name)} in C, {crate.get(name)} in Rust, {code.get(name)} in the code")
    for entries, stack, *_ in rows(HOST_README, "| entry |"):
        for entry in re.findall(r"`rabdzhine_(\w+)`", entries):
            if header.get(f"STACK_{entry.upper()}") != int(stack.replace(",", "")):
                fault(HOST_README, f"the stack of {entry} is not that of the header")


def main():
    for document in DOCUMENTS:
        check_links(document)
        cited = check_names(document)
        if document == CLAIMS:
            check_claims(cited)
    check_relations()
    check_spec_files()
    check_crates()
    check_bounds()
    causes = [f"Cause.{name}" for name in vars(CONSTANTS["Cause"])]
    codes = [f"Code.{name}" for name in vars(CONSTANTS["Code"])]
    # a text is not turned away for a buffer
    check_refusals(README, rows(README, "| number | cause |"), set(causes) - {"Cause.Accepted", "Cause.Buffer"})
    check_refusals(HEADER, re.findall(r"^ \*   (\d+) +(.*)", read(HEADER), re.M), causes + codes)
    check_host()
    for found in faults:
        print(found)
    print(f"documents: {len(faults)} faults")
    sys.exit(1 if faults else 0)


main()
