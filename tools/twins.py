#!/usr/bin/env python3
"""Functions of the same shape: lists the groups of functions in src/ whose bodies are alike but for names and numbers.

    tools/twins.py [COMMIT]

Without COMMIT, the working tree. A body of fewer than WORDS words is left out: it calls one thing, and calling is what is left of a twin.
"""
import re
import subprocess
import sys

WORDS = 12
KEPT = {
    "if", "else", "match", "for", "in", "while", "let", "return", "fn", "mut", "Some", "None", "Ok", "Err", "self", "as", "break",
}


def files(commit):
    names = subprocess.run(
        ["git", "ls-tree", "-r", "--name-only", commit or "HEAD", "--", "crates"], capture_output=True, text=True, check=True
    ).stdout.split()
    for name in names:
        if re.fullmatch(r"crates/\w+/src/.*\.rt", name):
            if commit:
                text = subprocess.run(["git", "show", f"{commit}:{name}"], capture_output=True, text=True, check=True).stdout
            else:
                with open(name, encoding="utf-8") as file:
                    text = file.read()
            yield name, text


def functions(text):
    """Each function's name, line and body; tests are left out."""
    lines = text.split("#[cfg(test)]\nmod tests {")[0].split("\n")
    for at, line in enumerate(lines):
        found = re.match(r"( *)(?:pub(?:\([a-z]+\))? )?fn (\w+)", line)
        if not found or line.endswith(";"):
            continue
        # the body begins behind the brace at the function's own column or, where there are no clauses, at the end of its head
        end = next((n for n in range(at + 1, len(lines)) if lines[n] == found.group(1) + "}"), None)
        opens = [n for n in range(at, end or at) if lines[n] == found.group(1) + "{"]
        first = opens[0] if opens else at
        # a trait's method without a body has none
        if any(line.endswith(";") for line in lines[at:first]):
            continue
        if end and (opens or line.endswith("{")):
            yield found.group(2), at + 1, "\n".join(lines[first + 1:end])


def shape(body):
    body = re.sub(r"//.*", "", body)
    words = re.findall(r"\w+|[^\w\s]", body)
    named = [word if word in KEPT or not re.match(r"\w", word) else "name" for word in words]
    # calls of the same shape may have more or fewer arguments
    return len(words), re.sub(r"\( (?:& )?name(?: , (?:& )?name)* \)", "( names )", " ".join(named))


def main():
    commit = sys.argv[1] if len(sys.argv) > 1 and sys.argv[1] else None
    groups = {}
    for name, text in files(commit):
        if "/tests" in name or "/samples/" in name:
            continue
        for function, line, body in functions(text):
            size, form = shape(body)
            if size >= WORDS:
                groups.setdefault(form, []).append(f"{name}:{line}: {function}")
    twins = [group for group in groups.values() if len(group) > 1]
    for group in sorted(twins, key=len, reverse=True):
        for place in group:
            print(place)
        print()


main()
