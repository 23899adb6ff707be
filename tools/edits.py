#!/usr/bin/env python3
"""The must-fail edits, by their own comments: the table in docs/REVIEW.md is made from them, and held against what was said of each.

    tools/edits.py                writes the counts and the table between the two markers of docs/REVIEW.md
    tools/edits.py --check        says what is stale or wrong, and ends with status 1; runs no proof
    tools/edits.py --said FILE    holds what `rt ci` or `rt must-fail` printed, FILE, against the `at:` line of each edit
    tools/edits.py --said FILE CRATE..    the same of these crates' edits alone

An edit, crates/CRATE/must-fail/LABEL.edit, begins with

    # what it rules out, in plain words (one line or more)
    # at: run
    # for: checklist, public

`at:` names the function whose proof fails, or the law and its file, as `values in Values`: that of the one place that rt prints
of each edit that it tried. Behind a function, `(asks)` says that the proof fails first at what a function called asks, or at an
index, a length or the like, and `(search)` that no proof file answers for that goal, and the toolchain's own search found no
proof of what the function promises. With neither, what fails is what the function promises, or a fact from which its proof takes
that, in a proof file or by search.
An edit after which another fact is due at some place of the proof says in a third line how it changes the shape of the code,
which rt does not print and nothing holds it to:

    # shape: two calls exchanged

`for:` says why the edit is there: `checklist` (document 01's named wrong answers), `trap`, `form` (a place that takes a named
form), a request of document 02 (`F-6`), `public` (one of those that show a public promise), `inner` (of a function that an inner layer
offers to the crates above), `definition` (of a definition in specs/), `table` (shows that a table of counterexamples can fail). Of the crates in TABLES, whose edits are all of the last kind, both
lines may be left out.
"""

import collections
import pathlib
import re
import sys

TOP = pathlib.Path(__file__).resolve().parent.parent
REVIEW = TOP / "docs/REVIEW.md"
BEGIN = "<!-- made by tools/edits.py from the edits' own comments: begin -->"
END = "<!-- made by tools/edits.py: end -->"

# The public promises, each with at least two edits. The C functions are found by their names.
PUBLIC = {
    "calls": ["check", "price", "run"],
    "tape_reader": ["read"],
    "tape_writer": ["write"],
    "relief": ["clean", "read_input"],
    "season": ["season_text"],
}
# The crates all of whose edits show that a table can fail, and the equation at which each is refused.
TABLES = {"certificate": "counterexamples in Counterexamples"}
REASONS = re.compile(r"checklist|trap|form|F-\d+|public|inner|definition|table")
AT = re.compile(r"(?P<function>[a-z][a-z_0-9]*)(?: \((?P<how>asks|search)\))?|(?P<law>\S+) in (?P<file>[A-Z]\w*)")

Edit = collections.namedtuple("Edit", "crate label rules_out at reasons shape pairs")


def crates():
    """The crates of crates.txt, in its order."""
    lines = (TOP / "crates.txt").read_text(encoding="utf-8").splitlines()
    return [line.split(":")[0].split()[0] for line in lines if line.strip() and not line.startswith("#")]


def read_edit(path):
    words, fields, pairs, name, old = [], {}, [], None, None
    for line in path.read_text(encoding="utf-8").splitlines():
        if re.match("# (at|for|shape): ", line):
            key, value = line[2:].split(": ", 1)
            fields[key] = value.strip()
        elif line.startswith("# "):
            words.append(line[2:].strip())
        elif line.startswith("file: "):
            name = line[6:]
        elif line.startswith("old: "):
            old = line[5:]
        elif line.startswith("new:"):
            pairs.append((name, old, line[4:].removeprefix(" ")))
    crate = path.parent.parent.name
    if crate in TABLES:
        fields = {"at": TABLES[crate], "for": "table", **fields}
    reasons = fields["for"].split(", ") if "for" in fields else []
    return Edit(crate, path.stem, " ".join(words), fields.get("at", ""), reasons, fields.get("shape", ""), pairs)


def edits():
    found = []
    for crate in crates():
        found += [read_edit(path) for path in sorted((TOP / "crates" / crate / "must-fail").glob("*.edit"))]
    return found


def public_functions():
    """(crate, function) of each public promise."""
    found = [(crate, name) for crate, names in PUBLIC.items() for name in names]
    for path in sorted((TOP / "crates/relief_c/src").glob("*.rt")):
        text = path.read_text(encoding="utf-8")
        found += [("relief_c", name) for name in re.findall(r'pub extern "C" fn (relief_call_\w+)', text)]
    return found


def of_code(edit):
    return all((name or "").startswith("src/") for name, _, _ in edit.pairs)


def kind(edit, public):
    if "table" in edit.reasons:
        return "table"
    if not of_code(edit):
        return "definition" if edit.crate == "model" else "inner definition"
    return "public" if (edit.crate, edit.at.removesuffix(" (search)")) in public else "inner"


def counts(found):
    public = public_functions()
    return collections.Counter(kind(edit, public) for edit in found)


# -- the table

def cell(edit):
    at = AT.fullmatch(edit.at)
    if not at:
        return "?"
    if at["law"]:
        return f"`{at['law']}` in `{at['file']}`"
    return f"`{at['function']}`" + (f" ({at['how']})" if at["how"] else "")


def block(found):
    kinds = counts(found)
    lines = [
        BEGIN,
        "",
        f"{len(found)} edits: {kinds['public']} of a public function's code, refused at its own promise; {kinds['definition']} of a",
        f"definition that promises reach; {kinds['inner']} of the code of an inner function, and {kinds['inner definition']} of a",
        f"definition of an inner layer; {kinds['table']} of the table of counterexamples.",
        "",
        "| Edit | What it rules out | Refused at | There for |",
        "|---|---|---|---|",
    ]
    for edit in found:
        ruled = edit.rules_out + (f" (shape: {edit.shape})" if edit.shape else "")
        lines.append(f"| `{edit.crate}/{edit.label}` | {ruled} | {cell(edit)} | {', '.join(edit.reasons)} |")
    return "\n".join(lines + ["", END])


def with_block(found):
    """docs/REVIEW.md with the table made anew, or nothing where it lacks a marker."""
    text = REVIEW.read_text(encoding="utf-8")
    before, mark, rest = text.partition(BEGIN)
    _, end, after = rest.partition(END)
    return before + block(found) + after if mark and end else None


# -- what can be said without a proof

# the first line of an import, or a comment
NO_CODE = re.compile(r"^\s*(ghost use|use|pub use|//|--)", re.M)
# where a clause or a ghost member begins: its words go on to the brace that closes it
CLAUSE = re.compile(r"^\s*(?:pub )?(?:requires|ensures|ghost)\b(?! use\b)[^{};]*\{", re.M)


def lines_of(text, old):
    """The whole lines in which a text stands."""
    at = text.index(old)
    end = text.find("\n", at + len(old))
    return text[text.rfind("\n", 0, at) + 1 : end if end >= 0 else len(text)]


def in_a_contract(text, old):
    """Whether a text of a source file stands, in part or whole, in a clause of a contract or a ghost member."""
    first = text.index(old)
    for clause in CLAUSE.finditer(text):
        end, depth = clause.end(), 1
        while depth and end < len(text):
            depth += {"{": 1, "}": -1}.get(text[end], 0)
            end += 1
        if clause.start() < first + len(old) and first < end:
            return True
    return False


def declares(crate, law, file):
    """Whether a file of a crate's laws declares this one."""
    path = TOP / "crates" / crate / "proofs" / f"{file}.antt"
    return path.is_file() and re.search(rf"^ *(?:pub )?{re.escape(law)} :", path.read_text(encoding="utf-8"), re.M)


def stands(crate, function):
    """Whether a source of a crate has a function of this name."""
    sources = (TOP / "crates" / crate / "src").glob("*.rt")
    return any(re.search(rf"\bfn {re.escape(function)}\b", path.read_text(encoding="utf-8")) for path in sources)


def faults(found):
    public, listed = public_functions(), crates()
    names = {f"{edit.crate}/{edit.label}" for edit in found}
    for edit in found:
        name = f"{edit.crate}/{edit.label}"
        if not edit.rules_out or "|" in edit.rules_out:
            yield f"{name}: it does not say what it rules out (a line '# ..'; no '|')"
        at = AT.fullmatch(edit.at)
        if not at:
            yield f"{name}: no line '# at: FUNCTION', '# at: FUNCTION (asks)', '# at: FUNCTION (search)' or '# at: LAW in FILE'"
        elif at["law"] and not declares(edit.crate, at["law"], at["file"]):
            yield f"{name}: proofs/{at['file']}.antt of its crate has no law {at['law']}"
        if not edit.reasons or not all(REASONS.fullmatch(reason) for reason in edit.reasons):
            yield f"{name}: no line '# for: ..', or another reason than checklist, trap, form, F-n, public, inner, definition, table"
        if ("definition" in edit.reasons or "table" in edit.reasons) == of_code(edit):
            yield f"{name}: 'definition' or 'table' is said of the edits of specs/, and of these alone"
        if ("public" in edit.reasons) != (kind(edit, public) == "public"):
            yield f"{name}: 'public' is said of the edits of code that are refused at a public promise, and of these alone"
        if "inner" in edit.reasons and kind(edit, public) != "inner":
            yield f"{name}: 'inner' is said of the edits of an inner function's code, and of these alone"
        if at and at["function"] and not stands(edit.crate, at["function"]):
            yield f"{name}: its crate has no function {at['function']}"
        texts = {}
        for file, old, new in edit.pairs:
            path = TOP / "crates" / edit.crate / (file or "")
            if not path.is_file() or not file.startswith(("src/", "specs/")):
                yield f"{name}: {file} is no file of its crate below src/ or specs/"
                break
            text = texts.get(file) or path.read_text(encoding="utf-8")
            if not old or text.count(old) != 1:
                yield f"{name}: its text '{old}' is {text.count(old or '') if old else 0} times in {file}"
                break
            if NO_CODE.search(lines_of(text, old)) or file.startswith("src/") and in_a_contract(text, old):
                yield f"{name}: it edits a contract, an import or a comment"
            texts[file] = text.replace(old, new)
        if not edit.pairs:
            yield f"{name}: it edits nothing"
    for crate, function in public:
        shown = sum(edit.crate == crate and edit.at == function and of_code(edit) for edit in found)
        if shown < 2:
            yield f"{crate}: {function} has {shown} edits that are refused at its own promise; two are due"
    for path in [TOP / "README.md", *sorted((TOP / "docs").glob("*.md"))]:
        text = path.read_text(encoding="utf-8")
        for name in sorted(set(re.findall(r"`([a-z_0-9]+/[a-z_0-9]+)`", text))):
            crate, label = name.split("/")
            if crate in listed and name not in names and not (TOP / "crates" / crate / label).exists():
                yield f"{path.relative_to(TOP)}: {name} is no edit"
    if with_block(found) is None:
        yield "docs/REVIEW.md: the markers of the table are not there"
    elif with_block(found) != REVIEW.read_text(encoding="utf-8"):
        yield "docs/REVIEW.md: the table of edits is stale; run tools/edits.py"


# -- what rt said

# a line of `rt ci` or `rt must-fail`, and the place and the message in it, of which rt prints no more than 160 characters
SAID = re.compile(r"rt: must-fail (?P<crate>\w+)/(?P<label>[\w.-]+)\.edit: (?P<said>.*)")
REFUSED = re.compile(r"refused, as it must be(?: \((?P<only>only .*?)\))?(?:: (?P<where>.*))?")
WHERE = re.compile(r"(?:note: )?(?:\./)?(?P<path>[^\s:]+):(?P<line>\d+):\d+: (?P<error>error: )?(?P<message>.*)")

# The goals in which a function's promise is due: where it returns, and where a loop begins or goes round. What is left over is
# what functions called ask, and what an index, a length or a cast needs.
PROMISE = re.compile(r"(returns|(loop-.+|rounds|records)-(init|preserved))(-.*)?")
# the same in the words of a note, whose name of the goal may be cut off
PROMISED = re.compile(r"it is not proved that (what the function ensures|the invariant )")
# what an error says where a fact does not hold: two types or sides differ, another type is expected, a tactic finds no proof, or
# what a rewriting leaves is no equation of two equal ends. Any other one (a name or a field that is not there) is the proof file's.
FACT = re.compile(
    r"the two (types|sides)|expected type `|but this has type|no proof of|the goal does not follow"
    r"|a path whose two ends are equal|give a proof of that as the last argument, `rw L t`|`(grind|omega|search|simp)`: "
)
UNFIT = re.compile(r"that can be named from here|has no field|is not in scope|not admitted")
LIMIT = re.compile(r"limit was met|broke off|ran out of|took more than (?!200000 steps)|gave up at one of its limits")


def facts_of_promise(proof):
    """Of a function's proof file: the declarations that its promise rests on, which are the answers to the goals of that kind,
    with every declaration of the file, in a module or not, that one of them cites."""
    bodies, name = {}, None
    for line in proof.read_text(encoding="utf-8").splitlines():
        begun = re.match(r" *(?:pub |abbrev |unfoldable )*([^\s:(){}]+) :", line)
        if begun:
            name = begun[1]
        if name:
            bodies[name] = bodies.get(name, "") + " " + line
    rests = {name for name in bodies if PROMISE.fullmatch(name)}
    more = rests
    while more:
        cited = {word for name in more for word in re.findall(r"[^\s(){},;]+", bodies[name])}
        # an answer to a goal of its own is not cited: what is left are the declarations beside them
        more = {word for word in cited & bodies.keys() if f": goal.{word}" not in bodies[word]} - rests
        rests |= more
    return rests


FUNCTION = re.compile(r"(\s*)(?:pub(?:\([^)]*\))? )?(?:const |unsafe |extern \"C\" )*fn (\w+)")


def function_at(text, number):
    """The function of a source file's text in which the line of this number stands, attributes with it; none where it is in none."""
    lines, found = text.splitlines(), None
    for first, line in enumerate(lines):
        head = FUNCTION.match(line)
        if head:
            last = next((at for at in range(first, len(lines)) if lines[at] == head[1] + "}"), first)
            while first and re.match(r"\s*#\[", lines[first - 1]):
                first -= 1
            found = head[2] if first < number <= last + 1 else found
    return found


def judge_where(edit, where):
    """What is wrong with the place at which an edit was refused; nothing where it is where the edit says, at a fact."""
    at, place = AT.fullmatch(edit.at), WHERE.fullmatch(where or "")
    if not place:
        return f"rt does not say where: {where}"
    path, message = place["path"], place["message"]
    if not place["error"]:
        if LIMIT.search(message):
            return f"a limit was met: {where}"
        # the toolchain's own search: it says what it did not prove, and names the goal
        goal = re.search(r" \(`([^`]+)`\)", message)
        if not message.startswith("it is not proved that ") or not path.startswith("src/"):
            return f"its first line is no fact: {where}"
        source = TOP / "crates" / edit.crate / path
        function = function_at(source.read_text(encoding="utf-8"), int(place["line"])) if source.is_file() else None
        is_promise = PROMISE.fullmatch(goal[1]) if goal else PROMISED.match(message)
        how = ("search" if at["how"] == "search" else None) if is_promise else "asks"
        right = (at["function"], at["how"]) == (function, how)
        return None if right else f"refused at {function}{'' if is_promise else ' (asks)'}: {goal[1] if goal else message}"
    declared = re.match(r"`([^`]+)`: ", message)
    declared = declared[1] if declared else "?"
    if UNFIT.search(message):
        return f"it made the proof file unfit, and shows nothing: {where}"
    if LIMIT.search(message):
        return f"a limit was met: {where}"
    if not FACT.search(message):
        return f"its first error is no fact: {where}"
    parts = pathlib.PurePosixPath(path)
    if parts.stem in ("Answers", "Invariants", "Proof") and len(parts.parts) > 2:
        function, proof = parts.parent.name, TOP / "crates" / edit.crate / path
        if not proof.is_file():
            return f"there is no such file: {where}"
        how = None if declared in facts_of_promise(proof) else "asks"
        right = (at["function"], at["how"]) == (function, how)
        return None if right else f"refused at {function}{' (asks)' if how else ''}: `{declared}`"
    return None if (at["law"], at["file"]) == (declared, parts.stem) else f"refused at {declared} in {parts.stem}"


def judge_said(edit, said):
    """What is wrong with what rt said of an edit; nothing where it was refused where the edit says, at a fact."""
    if not AT.fullmatch(edit.at):
        return "it does not say where"
    refused = REFUSED.fullmatch(said)
    if not refused:
        return said
    if refused["only"]:
        return f"it was refused {refused['only'].split(',')[0]}: {refused['where']}"
    return judge_where(edit, refused["where"])


def judge_log(found, text):
    """The faults of what rt printed of these edits, whole."""
    said = {(line["crate"], line["label"]): line["said"] for line in map(SAID.fullmatch, text.splitlines()) if line}
    for edit in found:
        told = said.get((edit.crate, edit.label))
        fault = judge_said(edit, told) if told else "it was not tried: nothing is said of it"
        if fault:
            yield f"{edit.crate}/{edit.label} (at: {edit.at}): {fault}"


def main(arguments):
    found = edits()
    if arguments == []:
        text = with_block(found)
        if text is None:
            sys.exit("docs/REVIEW.md: the markers of the table are not there")
        REVIEW.write_text(text, encoding="utf-8")
        wrong = list(faults(found))
        done = "docs/REVIEW.md: the table of edits is written"
    elif arguments == ["--check"]:
        wrong = list(faults(found))
        done = "docs/REVIEW.md: the table of edits is what the edits say"
    elif arguments[:1] == ["--said"] and len(arguments) > 1:
        found = [edit for edit in found if edit.crate in arguments[2:] or not arguments[2:]]
        text = pathlib.Path(arguments[1]).read_text(encoding="utf-8", errors="replace")
        wrong = list(judge_log(found, text))
        done = f"{len(found)} edits refused where they say, each at a fact"
    else:
        sys.exit(__doc__)
    for fault in wrong:
        print(fault, file=sys.stderr)
    if wrong:
        sys.exit(1)
    print(done)
    print(f"{len(found)} edits:", ", ".join(f"{count} {name}" for name, count in counts(found).most_common()))


if __name__ == "__main__":
    main(sys.argv[1:])
