#!/usr/bin/env python3
"""What a reader must believe: the files of definitions that the public promises reach.

    tools/believed.py            writes the list between the two markers of docs/REVIEW.md
    tools/believed.py --check    says whether it is stale, and ends with status 1

From the promises of every public function (`edits.public_functions`, and PROMISES below), by the names that they cite, through
the `use` lines of each file reached, and the facts that a declared type carries. A name or a module that is not understood ends
the script: nothing is left out without a word."""

import pathlib
import re
import sys

import edits

TOP = pathlib.Path(__file__).resolve().parent.parent
REVIEW = TOP / "docs/REVIEW.md"
BEGIN = "<!-- made by tools/believed.py from the promises and the definitions: begin -->"
END = "<!-- made by tools/believed.py: end -->"
# public functions of which no edit is asked: one that reads, and the one that is named after the version
PROMISES = [("relief", "read_input"), ("relief_c", r"relief_version_\d+_\d+")]
# libraries of the toolchain, whose definitions are not of this repository, and the modules of its plainest words: lists, numbers,
# booleans, texts and the operators
TOOLCHAIN = ["std", "core", "io", "lib", "mathlib", "native", "Prim"]
PLAIN = re.compile(r"Rattle\.std\.specs\.Prelude|Prim\.Native\.\w+")


def promises(text, name):
    """The promises of a function in a file's text, without the names of its clauses, or nothing where it is not there."""
    head = re.search(rf"^( *)pub (?:extern \"C\" )?fn {name}\b.*?\n\1\{{\n", text, re.S | re.M)
    if not head:
        return None
    found = re.findall(r"\bensures\b(?: \w+)? \{(.*?)\}\s*(?=\bensures\b|\n *\{\n\Z)", head.group(0), re.S)
    if not found or len(found) != len(re.findall(r"\bensures\b", head.group(0))):
        sys.exit(f"tools/believed.py: {name} promises nothing, or what is not understood")
    return "\n".join(found)


def imports(text, word):
    """The modules and names of the lines `use` of a text: (module, names), names being nothing for a whole module."""
    for line in re.findall(rf"^{word} ((?:[^{{;\n]|\{{[^}}]*\}})*);?$", text, re.M):
        got = re.fullmatch(r"([\w.-]+)\.\{(.*)\}|([\w.-]+) as \w+|([\w.-]+)", line, re.S)
        if not got:
            sys.exit(f"tools/believed.py: the line '{word} {line}' is not understood")
        if got[1]:
            names = [re.sub(r".* as ", "", name.strip()) for name in got[2].split(",")]
            yield got[1], [name for name in names if name]
        else:
            yield got[3] or got[4], None


def cites(promise, name):
    """Whether a promise cites a name, that of an operator by its signs."""
    signs = [part for part in name.split("◌") if part]
    if "◌" in name:
        return all(part in promise for part in signs)
    return re.search(rf"(?<![\w.]){re.escape(name)}(?!\w)", promise)


def cited(text, promise):
    """The modules, of this repository or of the toolchain, whose names a promise cites."""
    if "Rattle." in promise:
        sys.exit(f"tools/believed.py: a promise cites a definition by its path: {promise.strip()[:80]}")
    for module, names in imports(text, "ghost use"):
        if names is None or any(cites(promise, name) for name in names):
            yield module


def file_of(module):
    """The file of a module of definitions, that of the types that a crate declares being its source; nothing for the toolchain's."""
    crate, *path = module.removeprefix("Rattle.").split(".")
    if crate in TOOLCHAIN:
        return None
    if path[:2] == ["specs", "declared"] and len(path) > 2:
        names = path[2:]
        file = f"{crate}/src/{names[0]}.rt" if names[0][0].islower() else f"{crate}/src/lib.rt"
    elif path[:1] == ["specs"] and len(path) > 1:
        file = f"{crate}/specs/{path[1]}.antt"
    else:
        sys.exit(f"tools/believed.py: {module} is no module of definitions")
    if not (TOP / "crates" / file).is_file():
        sys.exit(f"tools/believed.py: {module} is not in {file}")
    return file


def reached():
    """The files, and the modules of the toolchain, that the promises reach."""
    modules = []
    for crate, name in [*edits.public_functions(), *PROMISES]:
        texts = [path.read_text(encoding="utf-8") for path in sorted((TOP / "crates" / crate / "src").glob("*.rt"))]
        said = [(text, promises(text, name)) for text in texts if promises(text, name) is not None]
        if len(said) != 1:
            sys.exit(f"tools/believed.py: {crate} has {len(said)} public functions {name}")
        modules += cited(*said[0])
    seen, toolchain = set(), set()
    while modules:
        module = modules.pop()
        file = file_of(module)
        if file is None:
            if not PLAIN.fullmatch(module):
                toolchain.add(module.removeprefix("Rattle."))
        elif file not in seen:
            seen.add(file)
            text = (TOP / "crates" / file).read_text(encoding="utf-8")
            if file.endswith(".antt"):
                modules += [module for module, _ in imports(text, "(?:pub )?use")]
                used = re.sub(r"^(pub )?use [^{\n]*(\{[^}]*\})?.*$|^\s*--.*$", "", text, flags=re.M)
                if "Rattle." in used:
                    sys.exit(f"tools/believed.py: {file} cites a definition by its path")
            else:
                # the facts that a declared type carries
                for fact in re.findall(r"^ +(?:pub )?ghost \w+: \{(.*?)\},$", text, re.S | re.M):
                    modules += cited(text, fact)
    return sorted(seen), sorted(toolchain)


def length(file):
    """The lines of a file without blank ones, comments and imports."""
    text = (TOP / "crates" / file).read_text(encoding="utf-8")
    text = re.sub(r"^\s*(pub |ghost )?use [^{\n]*(\{[^}]*\})?.*$", "", text, flags=re.M)
    return sum(1 for line in text.splitlines() if line.strip() and not re.match(r"\s*(--|//)", line))


def block():
    files, toolchain = reached()
    counts = {file: length(file) for file in files}
    lines = [
        BEGIN,
        "",
        f"{len(files)} files, {sum(counts.values())} lines; of the toolchain's libraries, beside its lists, numbers and booleans,",
        f"{', '.join(f'`{module}`' for module in toolchain) or 'none'}.",
        "",
        "| File | Lines |",
        "|---|---|",
    ]
    return "\n".join([*lines, *(f"| `{file}` | {count} |" for file, count in counts.items()), "", END])


def main(arguments):
    if arguments not in ([], ["--check"]):
        sys.exit(__doc__)
    text = REVIEW.read_text(encoding="utf-8")
    before, begun, rest = text.partition(BEGIN)
    _, ended, after = rest.partition(END)
    if not (begun and ended):
        sys.exit("docs/REVIEW.md: the markers of the list of what a reader must believe are not there")
    made = before + block() + after
    if arguments == []:
        REVIEW.write_text(made, encoding="utf-8")
    elif made != text:
        sys.exit("docs/REVIEW.md: the list of what a reader must believe is stale; run tools/believed.py")


if __name__ == "__main__":
    main(sys.argv[1:])
