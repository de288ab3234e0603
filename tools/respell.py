#!/usr/bin/env python3
"""Respells the definitions and lemmas of this repository in snake case: respell.py [FOLDER].

respelled.tsv, beside this file, has a line for each name: the old spelling, a tab, the new one. Definitions in camel case become snake case
(firstFrom, first_from), and so do lemmas and fields of records that joined plain words by a dash (entries-start, entries_start); a dash stays
between two names (drop-replicate). A lemma that would have a definition's name ends in _lem, a field in _fact. Names of functions, programs, strings
and C names stay.

The definition `result` is report_with, since a clause's `result` is what the function returned; the clauses that port.py left under a λ for its
sake are written out. It is run once, after the kit's port.py: a second run would take names for old ones."""
import os
import re
import sys

HERE = os.path.dirname(os.path.realpath(__file__))
TOKEN = re.compile(r"\"(?:[^\"\\]|\\.)*\"|[^\s(){}.;,@\"«»\[\]\\`]+")
# fields of this name are spoken of in three crates; everywhere else it is a function's
FIELDS = {"passes_on": "passes_on_fact"}
HOMES = ("certificate", "controller", "runs")


def table():
    with open(os.path.join(HERE, "respelled.tsv"), encoding="utf-8") as rows:
        return dict(row.rstrip("\n").split("\t") for row in rows)


def plain(word):
    return word.replace("-", "_")


RESULT = re.compile(r"(?<![\w.\-])result(?![\w\-])")
HELD = re.compile(r"ensures\* \{ λ r\. ⌜ (.*?) ⌝ \}")


def written_out(text):
    """The clauses that kept their λ, and the imports of what they name."""

    def clause(found):
        fact = RESULT.sub("report_with", found[1])
        return "ensures { %s }" % re.sub(r"(?<![\w.'])r(?![\w'])", "result", fact)

    text = HELD.sub(clause, text)
    return re.sub(r"(?m)^ghost use .*Checks\.\{.*$", lambda line: RESULT.sub("report_with", line[0]), text)


def report_with(text):
    """The definition `result` in specs/ and proofs/."""
    return "\n".join(line if line.lstrip().startswith("--") else RESULT.sub("report_with", line) for line in text.split("\n"))


def respelled(text, names, path):
    """A name of a step in a walk over the code (after c, before or an alias of one letter) is the name of a function."""
    walks = path.endswith("Proof.antt")
    code = path.endswith(".rt")

    def one(found):
        word = found[0]
        new = names.get(word)
        if new is None or word.startswith('"'):
            return word
        start = text.rfind("\n", 0, found.start()) + 1
        before = text[start : found.start()]
        if code and ("-" in word or plain(word) == word.lower()) and not before.lstrip().startswith("ghost use"):
            return word
        if not code and "-" in word and re.match(r"\s*--", before) and not before.endswith("`"):
            return word
        if walks and plain(word) != new and plain(word) == word.lower().replace("-", "_") and re.search(r"(?:\b\w|before)\.$", before):
            return word
        return new

    return TOKEN.sub(one, text)


def main():
    top = sys.argv[1] if len(sys.argv) > 1 else os.path.dirname(HERE)
    names = table()
    for folder, below, files in os.walk(os.path.join(top, "crates")):
        below[:] = [it for it in below if it != "out"]
        for name in files:
            if not name.endswith((".rt", ".antt")):
                continue
            path = os.path.join(folder, name)
            home = os.path.relpath(path, os.path.join(top, "crates")).split(os.sep)[0]
            here = {**names, **FIELDS} if home in HOMES and name.endswith(".antt") and name != "Proof.antt" else names
            with open(path, encoding="utf-8") as it:
                text = it.read()
            new = written_out(text) if name.endswith(".rt") else report_with(text)
            new = respelled(new, here, path)
            if new != text:
                with open(path, "w", encoding="utf-8") as it:
                    it.write(new)


if __name__ == "__main__":
    main()
