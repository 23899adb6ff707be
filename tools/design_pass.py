#!/usr/bin/env python3
"""The places that docs/DESIGN-PASS.md counts, in the Rattle sources of this checkout: a line for each pattern of each point.

    tools/design_pass.py            how many places each pattern has
    tools/design_pass.py --list     and which
"""

import pathlib
import re
import subprocess
import sys

TOP = pathlib.Path(__file__).resolve().parent.parent

# Point, what is counted, and the pattern, which is looked for in each line of crates/*/src/*.rt.
LINES = [
    (1, "own enums", r"^(pub )?enum \w+"),
    (1, "a flag among the fields of a struct or variant", r"^\s+(pub )?\w+: bool,$"),
    (1, "numbers for refusals", r"number: (u32|\d+)|Refused\((u32|\d+|number)"),
    (1, "numbers for kinds and states", r"kind: u8|header: u32|header(:| =| ==) \d"),
    (1, "an index, or the length where there is none", r"fn (first|search|beyond)_\w+\(.*-> usize"),
    (2, "functions that differ in a type, a width or a constant",
     r"fn (add|sub|natural|magnitude)(_wide)?\(|fn (some|search|first)_(over|beyond|outside)\(|fn (exact|exact_or_none|enough|found|judge_rounds)\("
     r"|fn (fill|put)_(samples|weights|flow)\(|fn put_(signed_)?(field|decimal|signed)[(<]|fn (advance|step|variation|product|search)_run\("
     r"|fn (advance_pairs|step_pairs|total_variation|total_product|first_moving)\(|fn (two_at|four_at|put_two_bytes|put_four_bytes)\("),
    (3, "an index that is counted by hand", r"^\s*\w+ \+= 1;$"),
    (4, "equality, conversion and copying by hand",
     r"fn (same|less|wide|natural_wide|unsigned_wide|magnitude_wide|signed_of|complement_of|numbers_of|job_of|written_of|clear|copy|move_to_front|initial|no_jobs|least|before|weight_count)\("),
    (4, "structs copied or emptied field by field", r"^\s+(width: (sized\.width|0),|start: w\.start,|quick: 0,|jobs: 0,)$"),
    (4, "printing by hand", r"^(pub )?fn put_\w+[(<]"),
    (6, "a buffer with an offset or a length beside it", r"output: &mut \[u8\], o: usize|^    o: usize,$|tape: &\[u8\], (at|start|weight)\b|pub count: usize,"),
    (7, "a switch on the kind of round", r"kind: Round|match kind|Round::(Quick|Steady)"),
]


def sources():
    """The Rattle sources, as git knows them."""
    names = subprocess.run(["git", "ls-files", "crates/*/src/*.rt"], cwd=TOP, check=True, capture_output=True, text=True)
    return names.stdout.split()


def main():
    listed = "--list" in sys.argv[1:]
    texts = {name: (TOP / name).read_text(encoding="utf-8") for name in sources()}
    for point, what, pattern in LINES:
        found = [f"{name}:{number}: {line.strip()}" for name, text in texts.items()
                 for number, line in enumerate(text.splitlines(), 1) if re.search(pattern, line)]
        print(f"{point}  {len(found):4}  {what}")
        if listed:
            print("\n".join("           " + place for place in found))
    many = []
    facts = {}
    for name, text in texts.items():
        for match in re.finditer(r"fn (\w+)(?:<[^(]*>)?\((.*?)\)\s*(?:->|\n|\{|requires|ensures)", text, re.S):
            parameters = [part for part in match.group(2).split(",") if ":" in part]
            if len(parameters) >= 6:
                many.append(f"{name}: {match.group(1)} ({len(parameters)})")
        for match in re.finditer(r"requires (?:\w+ )?\{(.*?)\}\n", text):
            for word in set(re.findall(r"\b[A-Z]\w+\b", match.group(1))):
                facts.setdefault(word, []).append(name)
    shared = {word: len(places) for word, places in facts.items() if len(places) >= 3}
    print(f"5  {len(many):4}  functions of six parameters or more")
    if listed:
        print("\n".join("           " + place for place in many))
    print(f"5  {len(shared):4}  facts that three functions or more ask for: " + ", ".join(f"{w} {n}" for w, n in sorted(shared.items())))
    answers = subprocess.run(["git", "ls-files", "crates/*/proofs/*.antt"], cwd=TOP, check=True, capture_output=True, text=True).stdout.split()
    lines = {name: (TOP / name).read_text(encoding="utf-8").splitlines() for name in answers}
    print(f"8  {sum(len(text) for name, text in lines.items() if name.endswith('/Answers.antt') and name.count('/') > 3):4}  lines of answers")
    print(f"8  {sum(line.strip().endswith('= search rules') for text in lines.values() for line in text):4}  answers that say only `search rules`")
    print(f"8  {sum(len(text) for text in lines.values()):4}  lines of proofs in all")


if __name__ == "__main__":
    main()
