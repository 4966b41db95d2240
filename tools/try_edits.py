#!/usr/bin/env python3
"""Tries the must-fail edits of a crate, one at a time, each in a copy: the prover must refuse every one.

    tools/try_edits.py NAME [LABEL..]

The copy stands in a folder of its own among the temporary files, and an edit takes over what earlier checks proved of the crate there, so it takes seconds. That makes it a quick
look and not the verdict, which `rt must-fail` and `rt ci` give. For each edit one line is written: refused or NOT REFUSED, and the first complaint.
"""
import functools
import os
import re
import shutil
import subprocess
import sys
import tempfile
import time

ROOT = os.path.dirname(os.path.dirname(os.path.abspath(__file__)))
TARGET = os.path.join(ROOT, "target")
# a checkout beside this one: no check reads the sources in it, and none that is planted gets into this one
COPY = os.path.join(tempfile.gettempdir(), f"planted-{os.getuid()}")


def refresh(name):
    """The copy of a crate as its sources stand now; what was proved of it stays."""
    for part in ("src", "specs", "proofs"):
        source, copy = (os.path.join(top, "crates", name, part) for top in (ROOT, COPY))
        shutil.rmtree(copy, ignore_errors=True)
        if os.path.isdir(source):
            shutil.copytree(source, copy)


@functools.cache
def begin():
    """Makes the copy of every crate, once in a run."""
    os.makedirs(COPY, exist_ok=True)
    shutil.copy(os.path.join(ROOT, "crates.txt"), COPY)
    for name in os.listdir(os.path.join(ROOT, "crates")):
        refresh(name)


def replacements(text):
    """The replacements of an edit: (file, old text, new text) for each pair of lines `old:` and `new:`."""
    file = old = None
    for line in text.splitlines():
        key, _, value = line.partition(": ")
        if key == "file":
            file = value
        elif key == "old":
            old = value
        elif key == "new":
            yield file, old, value


def must_fail_edits(name, labels):
    folder = os.path.join(ROOT, "crates", name, "must-fail")
    for file in sorted(os.listdir(folder)):
        label = file.removesuffix(".edit")
        if file.endswith(".edit") and (not labels or label in labels):
            with open(os.path.join(folder, file), encoding="utf-8") as edit:
                yield label, list(replacements(edit.read()))


def first_complaint(log, folder):
    for pattern in (r"^[^ \n]*:\d+:\d+: error.*$", r"^note: [^ \n]*:\d+:\d+:.*$", r"^.*error.*$"):
        found = re.search(pattern, log, re.M)
        if found:
            return found.group(0).replace(folder + "/", "")[:240]
    return log[:240].replace("\n", " ")


def copy_of(name):
    """A copy of a crate, to be edited."""
    begin()
    refresh(name)
    return os.path.join(COPY, "crates", name)


def prove(folder):
    """What the prover says of a copy: a verdict, and its whole log."""
    done = subprocess.run(["rt", "check"], cwd=folder, stdout=subprocess.PIPE, stderr=subprocess.STDOUT, text=True, check=False)
    if done.returncode == 0:
        return "NOT REFUSED", done.stdout
    refused = done.returncode == 1 and re.search("^logic=not-proved", done.stdout, re.M)
    return ("refused" if refused else "BAD EDIT"), done.stdout


def run_on_copy(name, file, number, line):
    """The verdict on the crate with another line in the place of one line of a file."""
    folder = copy_of(name)
    path = os.path.join(folder, file)
    with open(path, encoding="utf-8") as old:
        lines = old.read().split("\n")
    lines[number] = line
    with open(path, "w", encoding="utf-8") as new:
        new.write("\n".join(lines))
    return prove(folder)


def try_edit(name, edit):
    """The verdict on the crate with an edit, and the prover's first complaint."""
    folder = copy_of(name)
    for file, old, new in edit:
        path = os.path.join(folder, file)
        with open(path, encoding="utf-8") as source:
            text = source.read()
        if text.count(old) != 1:
            return "BAD EDIT", f"an old text stands {text.count(old)} times in {file}"
        with open(path, "w", encoding="utf-8") as source:
            source.write(text.replace(old, new))
    verdict, log = prove(folder)
    return verdict, first_complaint(log, folder) if verdict != "NOT REFUSED" else ""


def main():
    words = sys.argv[1:]
    if not words:
        sys.exit(__doc__)
    work = list(must_fail_edits(words[0], words[1:]))
    refused = 0
    for label, edit in work:
        start = time.time()
        verdict, complaint = try_edit(words[0], edit)
        refused += verdict == "refused"
        print(f"{words[0]}/{label}: {verdict} ({time.time() - start:.0f} s) {complaint}", flush=True)
    print(f"{refused} of {len(work)} edits refused")
    sys.exit(0 if refused == len(work) else 1)


if __name__ == "__main__":
    main()
