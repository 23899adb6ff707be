#!/usr/bin/env python3
"""Spells the repository's own definitions and lemmas as Rattle does: words in snake case, types and modules in camel case.

    tools/respell.py [--dry]

Run once, at the top, after the port.py of the toolchain and before anything is edited by hand. What turns:

    camelCase words             checkAnswer -> check_answer, natAbs-clamp -> nat_abs-clamp, negℤ-mono -> neg_ℤ-mono, sameZ -> same_z
    fields of records in specs/ samples-length -> samples_length
    lemmas of proofs/           a dash between plain words becomes `_`; it stays where it joins the name of a definition to another
                                name (total-cong, nat_abs-clamp), at an operator or a digit (≤ℤ-trans), and in the names that Rattle makes

Names in .antt and .rt files, in the must-fail edits and in the code spans of README and docs/ turn; the functions of src/, exported
C names, strings, inputs and outputs do not. A name whose new spelling is another name already is printed and left.
"""
import glob, pathlib, re, sys

TOP = pathlib.Path(__file__).resolve().parent.parent
WORD = re.compile(r"[^\s(){}.;,@\"«»\[\]`λ]+")
DECL = re.compile(r"^(\s*)((?:(?:pub|abbrev|unfoldable|opaque|macro|instance) +)*)([^\s(){}.;,@\"«»:]+)((?:\s+[^\s:=]+|\s*[({][^)}]*[)}])*)\s+:\s")
# a lemma that would have its function's name, and names in which a plain word is also a definition elsewhere
ALONE = {
    "all-or-none": "all_or_none_lem",
    "left-reads-back": "left_reads_back",
    "left-writes-back": "left_writes_back",
}
HUMP = re.compile(r"(?<=[a-z0-9])([A-Zℤℕ])(?![A-Z])")


def snake(part):
    """One part of a name: humps become `_`; a part with a capital first is a type and stays."""
    part = part.replace("getD", "get_or")
    if not re.search(r"[a-z0-9][A-Zℤℕ]", part) or part[:1].isupper():
        return part
    return HUMP.sub(lambda m: "_" + (m.group(1).lower() if m.group(1).isascii() else m.group(1)), part)


def files(*patterns):
    return [pathlib.Path(p) for q in patterns for p in sorted(glob.glob(str(TOP / q), recursive=True))]


def declared(paths):
    out = {}
    for p in paths:
        for line in p.read_text(encoding="utf-8").splitlines():
            m = DECL.match(line)
            if m and not line.lstrip().startswith("--"):
                out.setdefault(m.group(3), []).append((p, len(m.group(1)), m.group(2), line))
    return out


def main():
    specs = declared(files("crates/*/specs/**/*.antt"))
    laws = declared(p for p in files("crates/*/proofs/*.antt"))
    deep = [p for p in files("crates/*/proofs/*/**/*.antt")]
    inner = declared(deep)
    made = {n for n, at in inner.items() if any(": tie." in row[3] or "statement" in row[3] for row in at)}
    texts = {p: p.read_text(encoding="utf-8") for p in files("crates/*/specs/**/*.antt", "crates/*/proofs/**/*.antt", "crates/*/src/**/*.rt")}
    # words of the library, as this repository imports them
    known = set()
    for t in texts.values():
        for m in re.finditer(r"use ((?:[\w·]+\.)+)\{([^}]*)\}", t):
            if not m.group(1).startswith(("Rattle.",)) or m.group(1).startswith("Rattle.std"):
                known |= {w.strip().split(" as ")[0] for w in m.group(2).split(",")}
    known = {w for w in known if re.fullmatch(r"[a-z][\w']*", w)}
    known |= {snake(n) for n in specs if "-" not in n and re.fullmatch(r"[a-z]\w*", n)}

    def law(name):
        parts = [snake(q) for q in name.split("-")]
        if not all(re.fullmatch(r"[A-Za-zℤℕ][\wℤℕ]*'?", q) for q in parts):
            return "-".join(parts)
        out = parts[0]
        start = 0
        for k, q in enumerate(parts[1:], 1):
            joins = "_".join(parts[start:k]) in known
            typed = parts[k - 1][:1].isupper() or q[:1].isupper()
            out += ("-" if joins or typed else "_") + q
            start = k if joins or typed else start
        return ALONE.get(name, out)

    table = {}
    for name in specs:
        table[name] = "_".join(snake(q) for q in name.split("-")) if re.fullmatch(r"[\w'-]+", name) else "-".join(snake(q) for q in name.split("-"))
    for name in laws:
        if name not in table and name not in made:
            table[name] = law(name)
    for name in inner:
        if name not in table and name not in made:
            table[name] = "-".join(snake(q) for q in name.split("-"))
    table = {a: b for a, b in table.items() if a != b}

    words = set()
    for t in texts.values():
        words |= set(WORD.findall(t))
    # parameters and local names in camel case
    for w in sorted(words):
        if w not in table and re.fullmatch(r"[a-z][\w'₀-₉]*", w) and re.search(r"[a-z][A-Z]", w):
            if any(re.search(r"(?<![\w.·])%s(?![\w])" % re.escape(w), t) for t in texts.values()):
                table[w] = snake(w)
    clash = {a: b for a, b in table.items() if b in words}
    seen = {}
    for a, b in list(table.items()):
        if b in seen:
            clash[a] = b
        seen[b] = a
    for a, b in sorted(clash.items()):
        print(f"falls together: {a} -> {b}")
    for a, b in sorted(table.items()):
        if "--table" in sys.argv:
            print(f"{a}\t{b}")
    if "--dry" in sys.argv:
        return

    def turn(text):
        # behind a dot `all-or-none` is the call of the function
        text = text.replace(".all-or-none", ".all_or_none")
        return WORD.sub(lambda m: table.get(m.group(0), m.group(0)), text)

    n = 0
    for p in files("crates/*/specs/**/*.antt", "crates/*/proofs/**/*.antt", "crates/*/src/**/*.rt", "crates/*/must-fail/*.edit"):
        old = p.read_text(encoding="utf-8")
        new = turn(old)
        if new != old:
            p.write_text(new, encoding="utf-8")
            n += 1
    for p in files("README.md", "docs/*.md", "docs/guides/*.md", "docs/landings/*.md"):
        old = p.read_text(encoding="utf-8")
        new = re.sub(r"`[^`\n]+`", lambda m: turn(m.group(0)), old)
        if new != old:
            p.write_text(new, encoding="utf-8")
            n += 1
    print(f"{len(table)} names turned in {n} files")


main()
