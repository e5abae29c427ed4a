#!/usr/bin/env python3
"""Brings the project's own words to one spelling: definitions, fields, constructors and lemmas in snake case.

usage: python3 tools/respell.py [--dry] [FOLDER]

It was run once, right after the scripts that brought the crates to today's Rattle. A word is renamed in all files of
crates/ where it is not brought in from a library; in comments, pages and edits only inside backticks. Types and modules
keep their capitals, and the functions of src/ their names. OTHER has the words whose plain spelling something else has.
"""

import collections
import glob
import os
import re
import sys

TOKEN = re.compile(r"[^\s(){}\[\].,;«»\"`|]+")
DECLARED = re.compile(r"\s*(?:(?:pub|abbrev|unfoldable|pattern|axiom)\s+)*([^\s(){}\[\]:=,;.«»\"`|]+(?:\s+[^\s(){}\[\]:=,;.«»\"`|]+)*?)(?:\s*\{[^}]*\})?\s*:(?:\s|$)")
MARKS = {"pub", "abbrev", "unfoldable", "pattern", "axiom", "data", "record", "module"}
# Lemmas that would have the name of the function of which they speak.
LEMMAS = (
    "start-state done-by fit-checks rests-at same-all some-cites stray-row agent-and-data agent-policy-agent sort-and-body all-checks log-checks "
    "lent-room most-read action-below policy-below body-with no-instance other-formula other-premise first-rests observers-faulty not-as-built code-of"
).split()
OTHER = {word: word.replace("-", "_") + "_lem" for word in LEMMAS}
# The name of a tactic of today's language, which no definition may have.
OTHER["ground"] = "is_ground"
# A law of a library, named by the module that it is in.
FOREIGN = {"suc-suc"}
# A variable that is spelled like a type.
OTHER["Lent-is"] = "lent_is"
# Such lemmas that the earlier scripts had respelled, and the files that name them.
RESPELLED = {
    "case_file/proofs/Laws.antt": ["code_view"],
    "case_file/proofs/SeenTable.antt": ["code_view"],
    "definition/proofs/CheckLaws.antt": ["has_one"],
    "definition/proofs/NightPairs.antt": ["in_order"],
    "definition/proofs/NightPromises.antt": ["in_order"],
    "definition/proofs/OneNumber.antt": ["same_row"],
    "definition/proofs/PassesExactly.antt": ["last_step"],
    "formula_book/proofs/RowComparison.antt": ["same_row"],
}


def snake(word):
    """`ruleOf` as `rule_of`, `each-use` as `each_use`; a type keeps its capital."""
    if word[:1].isupper():
        return word
    word = re.sub(r"([A-Z])([A-Z][a-z])", r"\1_\2", word)
    word = re.sub(r"([a-z0-9])([A-Z])", r"\1_\2", word)
    word = re.sub(r"[A-Z]", lambda m: m.group(0).lower(), word)
    return re.sub(r"(?<=[a-z0-9'])-(?=[a-z0-9])", "_", word)


def files(root):
    """The files of specs/ and the lemma files of proofs/, where words are declared."""
    found = glob.glob(root + "/crates/*/specs/*.antt") + glob.glob(root + "/crates/*/proofs/*.antt")
    return sorted(found)


def words(root):
    """Each own word that is not spelled as wanted, with its new spelling."""
    table = {}
    for path in files(root):
        for line in open(path, encoding="utf-8"):
            if line.lstrip().startswith("--"):
                continue
            m = DECLARED.match(line)
            if not m:
                continue
            for word in m.group(1).split():
                if word in MARKS or not re.match(r"[a-z]", word):
                    continue
                new = OTHER.get(word, snake(word))
                if new != word:
                    table[word] = new
    return table | variables(root, table)


def variables(root, table):
    """The names that are bound inside: arguments, parts of a pattern, names of a `let`."""
    more = {}
    for path in files(root):
        text = open(path, encoding="utf-8").read()
        foreign = brought_in(text)
        for line in text.split("\n"):
            if re.match(r"\s*(pub )?(use|mod) ", line):
                continue
            for word in TOKEN.findall(code_and_comment(line, "--")[0]):
                if word in OTHER:
                    more[word] = OTHER[word]
                elif re.match(r"[a-z]", word) and word not in table and word not in foreign | FOREIGN and snake(word) != word:
                    more[word] = snake(word)
    return more


def brought_in(text):
    """The words that a file takes from a library."""
    foreign = set()
    for m in re.finditer(r"^(?:ghost )?use ([^;\n{]+)\{([^}]*)\}", text, re.M):
        path = m.group(1)
        if path.startswith("Rattle.") and path.split(".")[1] not in ("std", "io", "core", "libc"):
            continue
        foreign |= {w.strip() for w in m.group(2).split(",")}
    return foreign


def code_and_comment(line, mark):
    at = line.find(mark)
    return (line, "") if at < 0 else (line[:at], line[at:])


def respell(text, table, mark, foreign=()):
    def word(m):
        w = m.group(0)
        return w if w in foreign else table.get(w, w)

    def code(part):
        pieces = re.split(r'("(?:[^"\\]|\\.)*")', part)
        return "".join(p if i % 2 else TOKEN.sub(word, p) for i, p in enumerate(pieces))

    def comment(part):
        return re.sub(r"`[^`\n]*`", lambda m: TOKEN.sub(word, m.group(0)), part)

    out = []
    for line in text.split("\n"):
        a, b = code_and_comment(line, mark) if mark else ("", line)
        out.append(code(a) + comment(b))
    return "\n".join(out)


def main(argv):
    dry = "--dry" in argv
    rest = [a for a in argv if not a.startswith("--")]
    root = rest[0] if rest else "."
    table = words(root)
    declared = collections.defaultdict(set)
    for old, new in table.items():
        declared[new].add(old)
    for new, olds in sorted(declared.items()):
        if len(olds) > 1:
            print("together:", new, sorted(olds))
    changed = 0
    for path in sorted(glob.glob(root + "/crates/**/*", recursive=True)):
        if "/out/" in path or not path.endswith((".antt", ".rt")):
            continue
        text = open(path, encoding="utf-8").read()
        foreign = brought_in(text)
        mark = "--" if path.endswith(".antt") else "//"
        there = set()
        for line in text.split("\n"):
            there |= set(TOKEN.findall(code_and_comment(line, mark)[0]))
        for old in sorted(there & set(table)):
            if table[old] in there and old not in foreign:
                print("taken:", path[len(root):], old, "->", table[old])
        here = dict(table)
        for end, olds in RESPELLED.items():
            if path.endswith("/crates/" + end):
                here |= {old: old + "_lem" for old in olds}
        new = respell(text, here, mark, foreign)
        if new != text:
            changed += 1
            if not dry:
                open(path, "w", encoding="utf-8").write(new)
    print(f"{len(table)} words, {changed} files")


main(sys.argv[1:])
