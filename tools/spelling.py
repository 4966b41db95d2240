#!/usr/bin/env python3
"""Respells the definitions and lemmas of this repository in snake case, and its types in camel case.

usage: tools/spelling.py          at the top of the checkout: rewrites crates/*/{src,specs,proofs,must-fail} in place
       tools/spelling.py --list   prints each old name beside its new one, and names that fall together

A name is respelled where it is declared or bound in a file of specs/ or in a lemma file of proofs/ (not in the files of
one function's proof, whose names come from the source). Comments, strings, the names of functions and those of the library
stay as they are.
"""
import glob
import os
import re
import sys

OF_ONE_FUNCTION = ("Answers.antt", "Invariants.antt", "Choices.antt", "Proof.antt", "Opened.antt")
DECLARED = re.compile(r"^( {0,2})(?:unfoldable )?(?:abbrev )?(?:pub )?(?:abbrev )?(?:data |record )?(?:pub )?([A-Za-z_][\w'-]*)(?: [({].*?)? :(?: |$)", re.M)
CASE = re.compile(r"^  (?:pub )?([a-z][\w'-]*) :(?: |$)", re.M)
TOKEN = re.compile(r"(?<![\w'-])[A-Za-z_][\w']*(?:-[\w'*]+)*(?![\w'-])")
TYPES = {"Short-behind": "ShortBehind", "Some-field": "SomeField"}
# lemmas that would fall together with words of the library, lemmas named by a word that the library no longer has, and aliases
MORE = {"bit-and": "bit_at_and", "bit-or": "bit_at_or", "getD-below": "index_below", "getD-above": "index_above", "getD-pasted": "index_pasted", "getD-sealed": "index_sealed",
        "is-pending-change": "is_pending_change", "protocol-calls": "protocol_calls", "protocol-answers": "protocol_answers"}


def files(*patterns):
    return sorted(f for p in patterns for f in glob.glob("crates/*/" + p, recursive=True) if "/out/" not in f)


def read(path):
    with open(path, encoding="utf-8") as f:
        return f.read()


def snake(name):
    if name in TYPES:
        return TYPES[name]
    name = name.replace("-", "_")
    if name[0].islower():
        name = re.sub(r"(?<=[a-z0-9])([A-Z])", lambda m: "_" + m[1].lower(), name)
    return name


def table():
    names = dict(MORE)
    declared = set()
    for path in files("specs/**/*.antt", "proofs/**/*.antt"):
        if os.path.basename(path) in OF_ONE_FUNCTION:
            continue
        text = read(path)
        for name in [m[2] for m in DECLARED.finditer(text)] + [m[1] for m in CASE.finditer(text)]:
            declared.add(name)
            if snake(name) != name:
                names.setdefault(name, snake(name))
    return names, declared


def imported():
    """The names that stand in a use line; those that are no names of this repository stay as they are."""
    found = set()
    for path in files("specs/**/*.antt", "proofs/**/*.antt", "src/**/*.rt"):
        for line in re.findall(r"^(?:ghost )?use [^{]*\{(.*?)\}", read(path), re.M | re.S):
            found.update(name.strip().split(" as ")[0] for name in line.split(","))
    return found


def bound(names, kept, code):
    """A line of a lemma or a definition with the names that it binds respelled."""
    if code.startswith("use "):
        return code
    return TOKEN.sub(lambda m: m[0] if m[0] in kept or m[0] in names or not m[0][0].islower() else m[0].replace("-", "_"), code)


def code_only(text, mark, turn):
    """The text with turn applied to what is neither a comment nor a string."""
    out = []
    for line in text.split("\n"):
        parts = re.split(r'("(?:\\.|[^"\\])*")', line)
        done = []
        for i, part in enumerate(parts):
            if i % 2:
                done.append(part)
                continue
            code, found, comment = part.partition(mark)
            done.append(turn(code) + found + comment)
            if found:
                done.extend(parts[i + 1:])
                break
        out.append("".join(done))
    return "\n".join(out)


def main():
    names, declared = table()
    if "--list" in sys.argv:
        for old in sorted(names):
            print(old, names[old], "FALLS TOGETHER" if names[old] in declared else "")
        for path in files("specs/**/*.antt", "proofs/**/*.antt", "src/**/*.rt"):
            words = set()
            code_only(read(path), "--" if path.endswith(".antt") else "//", lambda code: words.update(TOKEN.findall(code)) or code)
            for old in sorted(words & set(names)):
                if names[old] in words:
                    print("BOTH IN", path, old, names[old])
        return
    kept = imported()
    turn = lambda code: TOKEN.sub(lambda m: names.get(m[0], m[0]), code)
    for path in files("specs/**/*.antt", "proofs/**/*.antt", "src/**/*.rt", "must-fail/*.edit"):
        text = read(path)
        if path.endswith(".antt") and os.path.basename(path) not in OF_ONE_FUNCTION:
            new = code_only(text, "--", lambda code: turn(bound(names, kept, code)))
        else:
            new = code_only(text, "--" if path.endswith(".antt") else "//", turn)
        if path.endswith(".edit"):
            # an edit of a definition is respelled, one of the source names no definition
            new = code_only(text, "\0", turn) if re.search(r"^file: (specs|proofs)/", text, re.M) else text
        if new != text:
            with open(path, "w", encoding="utf-8") as f:
                f.write(new)


if __name__ == "__main__":
    main()
