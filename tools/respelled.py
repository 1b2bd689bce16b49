#!/usr/bin/env python3
"""Brings the repository's own definitions, fields and lemmas to the spelling of today's kit, after its port.py.

usage: tools/respelled.py            at the top of the repository, once, on what port.py left
       tools/respelled.py --names    prints each name that changes, old and new

A word is in snake case: numberBelow and number-below become number_below. Where a lemma's name would fall together with a
definition's, the lemma takes _lem behind it. In specs/ and src/ the tests and places of lists have std's names: nat_eq, nat_lt,
nat_le, slice_index, slice_index_or. Facts and types, file names and functions of src/ keep theirs.
"""

import collections
import glob
import re
import sys

WORD = r"[^\s(){}\[\].,;:\"⌜⌝`]+"
TOKEN = re.compile(WORD)
DECLARED = re.compile(r"^(\s*)((?:(?:pub|abbrev|unfoldable)\s+)*)(" + WORD + r")\s+:\s")
IMPORT = re.compile(r"^(?:pub |ghost )?use ([^\s{;]+?)(?:\.\{([^}]*)\})?;?$", re.M)
STD = {"eqb": "nat_eq", "ltb": "nat_lt", "leb": "nat_le", "get_or": "slice_index_or"}

# Promises of specs/ whose names fall together with the definitions that they speak of.
PROMISES = {
    "answer-rows": "rows_of_answer",
    "envelope-bytes": "bytes_of_envelope",
    "program-bytes": "bytes_of_program",
    "envelope-written": "writes_envelope",
    "program-written": "writes_program",
}

# Laws that port.py already spelled as the definition is spelled now, by the module that has them; and two names for a value that fall
# together with a definition in the same way.
LAWS = [
    ("ends", "ReducingLaws", "count_of", "count_of_lem"),
    ("demands", "OrderlyLaws", "in_order", "in_order_lem"),
    ("tables", "RowLaws", "kept_by", "kept_by_lem"),
    ("planner", "CandidateCodeLaws", "left_at", "left_at_lem"),
    ("answerer", "CombinationCodeLaws", "row_at", "row_at_lem"),
    ("answerer", "SourceLaws", "row_in", "row_in_lem"),
    ("boundary", "StationCodeLaws", "rows_taken", "rows_taken_lem"),
    ("paths", "PathLaws", "same_place", "same_place_lem"),
    ("semijoin", "RunCodeLaws", "step_count", "step_count_lem"),
    ("tables", "RowLaws", "word_over", "word_over_lem"),
    ("station", "RowCodeLaws", "width_of", "width_sent"),
    ("demands", "UpperLaws", "after-step", "marks_after_step"),
]


def snake(name):
    name = re.sub(r"(?<=[a-z0-9'])([A-Z])", lambda m: "_" + m.group(1).lower(), name) if name[0].islower() else name
    return name.replace("-", "_")


def lawful():
    """The files of definitions and laws, proofs of functions aside."""
    return sorted(glob.glob("crates/*/specs/*.antt") + glob.glob("crates/*/proofs/*.antt"))


def declared(text):
    return [m.group(3) for line in text.split("\n") if (m := DECLARED.match(line))]


def imports(text, own):
    """Name to the module that it is imported from; own says whether of this repository."""
    for m in IMPORT.finditer(text):
        parts = m.group(1).split(".")
        if (parts[0] == "Rattle" and parts[1] in CRATES) == own:
            for word in re.split(r"[,\s]+", m.group(2) or ""):
                if word:
                    yield word, m.group(1)


# These are names of steps and fields as well, behind a point.
KEPT_FIELDS = {old for _, _, old, _ in LAWS if "-" not in old}

CRATES = {line.split(":")[0].split()[0] for line in open("crates.txt") if re.match(r"[a-z]", line)}


def plan():
    """Old name to new, for the whole repository."""
    homes = collections.defaultdict(list)
    kit = set()
    for path in lawful():
        with open(path) as f:
            text = f.read()
        for name in declared(text):
            homes[name].append(path)
        kit.update(word for word, _ in imports(text, False))
        # a name that a file passes on under another
        for name in re.findall(r" as ([a-z][A-Za-z0-9-]*)[,}]", text):
            if re.search("[a-z][A-Z]", name):
                homes[name].append(path)
    taken = collections.defaultdict(set)
    for name in homes:
        taken[snake(name)].add(name)
    new = {}
    for name in homes:
        to = snake(name)
        if name in PROMISES and any("/specs/" in p for p in homes[name]):
            continue
        if "-" in name and name[0].islower() and (len(taken[to]) > 1 or to in kit):
            to += "_lem"
        if to != name:
            new[name] = to
    return new, homes


def within(path, text, new, homes):
    """Old name to new, in one file."""
    kit = {word for word, _ in imports(text, False)}
    names = {old: to for old, to in new.items() if old not in kit}
    for old, to in PROMISES.items():
        if old in homes:
            names[old] = to if path.startswith("crates/demands/") else snake(old) + "_lem"
    for crate, module, old, to in LAWS:
        home = f"Rattle.{crate}.proofs.{module}"
        if path == f"crates/{crate}/proofs/{module}.antt" or (old, home) in list(imports(text, True)):
            names[old] = to
    return names


def respelled(text, names):
    def word(m):
        to = names.get(m.group(0))
        projected = m.start() > 0 and m.string[m.start() - 1] == "."
        return m.group(0) if to is None or projected and m.group(0) in KEPT_FIELDS else to

    return TOKEN.sub(word, text)


def argument(text, at):
    """The end of the argument that begins at a place, or None."""
    while at < len(text) and text[at] in " \n":
        at += 1
    if at < len(text) and text[at] == "(":
        deep = 0
        while at < len(text):
            deep += {"(": 1, ")": -1}.get(text[at], 0)
            at += 1
            if deep == 0:
                break
        else:
            return None
    else:
        m = TOKEN.match(text, at)
        if not m:
            return None
        at = m.end()
    m = re.compile(r"(?:\.[a-z_0-9]+)+").match(text, at)
    return m.end() if m else at


def indexed(text):
    """slice_index_or xs i 0 is slice_index xs i."""
    out, at = [], 0
    for m in re.finditer(r"(?<![\w'-])slice_index_or(?= )", text):
        end = argument(text, m.end())
        end = end and argument(text, end)
        zero = end and re.compile(r" 0(?=[\s)}\]×⌝,;]|$)").match(text, end)
        if zero:
            out += [text[at:m.start()], "slice_index", text[m.end():end]]
            at = zero.end()
    return "".join(out) + text[at:]


def to_std(text):
    for old, to in STD.items():
        text = re.sub(r"(?<![\w'.-])" + old + r"(?![\w'-])", to, text)
    while (once := indexed(text)) != text:
        text = once
    used = IMPORT.sub("", text)

    def head(m):
        words = [w for w in re.split(r"[,\s]+", m.group(2) or "") if w]
        if "slice_index_or" not in words:
            return m.group(0)
        at = words.index("slice_index_or")
        words[at:at + 1] = [w for w in ("slice_index", "slice_index_or") if re.search(r"(?<![\w'-])" + w + r"(?![\w'-])", used)]
        return m.group(0).replace(m.group(2), ", ".join(words)) if "\n" not in m.group(2) else m.group(0).replace(m.group(2), "\n  " + ",\n  ".join(words) + ",\n")

    return IMPORT.sub(head, text)


def main():
    new, homes = plan()
    if "--names" in sys.argv:
        for old in sorted(new):
            print(old, new[old])
        return
    paths = lawful() + sorted(glob.glob("crates/*/proofs/**/Proof.antt", recursive=True)) + sorted(glob.glob("crates/*/src/*.rt"))
    for path in paths:
        with open(path) as f:
            text = f.read()
        names = within(path, text, new, homes)
        to = respelled(text, names)
        if "/specs/" in path or path.endswith(".rt"):
            to = to_std(to)
        if to != text:
            with open(path, "w") as f:
                f.write(to)


if __name__ == "__main__":
    main()
