#!/usr/bin/env python3
"""Spells the repository's own definitions and lemmas in snake case, by the table names.tsv beside this script.

usage: snake_names.py [ROOT]        turns every .antt file and every clause of a .rt file below ROOT/crates
       snake_names.py --table       writes the table anew from the names that the files declare

A dash stays where it joins two names, as in `code-element`, the code of an element: KEPT lists these. Whole words alone are turned,
and no comment is. The new spelling may not be one that the files already use: CLASHES names those that get another one. A
definition may have the name of the function that it describes; a lemma then has `_lem` after it.
"""
import glob
import os
import re
import sys

HERE = os.path.dirname(os.path.abspath(__file__))
TABLE = os.path.join(HERE, "names.tsv")
KEPT = set(
    """
bit-and bit-or bit-shr bit-suc bit-zero code-bit code-element code-make code-zero count-sum count-zero distance-sum double-plus
doubled-add fails-append has-map inverse-zero length-up-to meetings-sum meets-sum multiples-double multiples-plus negated-plus
ones-count one-times open-sum order-append order-map ordered-append ordered-map picked-double picked-plus picked-zero plus-negated
plus-zero power-add power-logarithm power-times raised-power seen-append sum-add sum-times sum-zero times-doubled times-inverse
times-one times-plus zero-plus zero-times
""".split()
)
CLASHES = {"open-rows": "open_row_count"} | {
    name: name.replace("-", "_") + "_lem"
    for name in """
calls-keep-the-law changes-close-rows errors-show examples-compute first-in-word lowest-runs-are-functions one-codeword-is-near
open-rows-count-errors overwrites-touch-few-rows ranks-are-fixed refusals-leave-the-account repairs-have-one-result
runs-keep-the-promise unique-rows-abound
""".split()
}
WORD = re.compile(r"[^\s(){}.;,@\"«»]+")
DECLARED = re.compile(
    r"^\s*(?:pub |abbrev |unfoldable )*(?:([^\s(){}.;,@\"«»:=λ→]+) : |(?:data|record) ([^\s(){}.;,@\"«»:=λ→]+))"
)


def files(root, *kinds):
    for kind in kinds:
        yield from sorted(glob.glob(os.path.join(root, "crates", "*", kind), recursive=True))


def answers(path):
    return os.path.basename(path) in ("Answers.antt", "Invariants.antt", "Choices.antt", "Proof.antt")


def declared(root):
    for path in files(root, "specs/**/*.antt", "proofs/**/*.antt"):
        if not answers(path):
            for line in open(path, encoding="utf-8"):
                found = DECLARED.match(line)
                if found:
                    yield found.group(1) or found.group(2)


def words(root):
    for path in files(root, "specs/**/*.antt", "proofs/**/*.antt", "src/**/*.rt"):
        for line in open(path, encoding="utf-8"):
            yield from WORD.findall(line)


def write_table(root):
    names = sorted({n for n in declared(root) if "-" in n and n not in KEPT})
    used = set(words(root))
    rows = []
    for name in names:
        new = CLASHES.get(name, name.replace("-", "_"))
        if new in used:
            print(f"look: {name} falls together with {new}")
        rows.append(f"{name}\t{new}\n")
    open(TABLE, "w", encoding="utf-8").writelines(rows)


def turned(text, mark, table):
    lines = []
    for line in text.split("\n"):
        code, dashes, comment = line, "", ""
        at = re.search(r"(?:^|\s)" + mark, line)
        if at:
            code, comment = line[: at.end() - len(mark)], line[at.end() - len(mark) :]
        lines.append(WORD.sub(lambda w: table.get(w.group(), w.group()), code) + comment)
    return "\n".join(lines)


def main():
    if sys.argv[1:] == ["--table"]:
        return write_table(".")
    root = sys.argv[1] if len(sys.argv) > 1 else "."
    table = dict(row.rstrip("\n").split("\t") for row in open(TABLE, encoding="utf-8"))
    for path in files(root, "specs/**/*.antt", "proofs/**/*.antt", "src/**/*.rt"):
        text = open(path, encoding="utf-8").read()
        new = turned(text, "--" if path.endswith(".antt") else "//", table)
        if new != text:
            open(path, "w", encoding="utf-8").write(new)


main()
