#!/usr/bin/env python3
"""Plants bugs in the functions of a crate, one at a time, and says which contract refuses each.

    tools/plant.py [--each N] [--fn WORD] NAME..      N bugs of different kinds in each function (2 unless said), in the named crates
    tools/plant.py --by-hand NAME..                   the bugs of tools/planted_by_hand.txt in the named crates
    tools/plant.py --table                            docs/PLANTED.md, from what the runs so far found

A bug keeps the shape of the code: another operand, `<` for `<=`, a dropped call, swapped arguments, a missed case, another constant, another cause. Code
that the compiler refuses counts as no bug, and another is taken. The results lie in target/planted/NAME.results, a line for each bug:
crate, function, place, bug, verdict, and the function whose contract was not met any more.

A bug that is NOT REFUSED shows that a contract says too little, or that the edit does not change what the function does; tools/planted_same.txt, if
there is one, has those that were looked at and found to change nothing, with the reason.

The bugs are planted in a copy, which takes over what earlier checks proved of the crate there.
"""
import os
import re
import sys

from try_edits import ROOT, TARGET, run_on_copy

# (what is wrong, pattern, replacement), tried on one line of a body; the kinds are taken in this order, one of each kind before a second of any
KINDS = [
    ("comparison", [(r" < ", " <= "), (r" <= ", " < "), (r" >= ", " > "), (r" > ", " >= "), (r" == ", " != "), (r" != ", " == ")]),
    ("dropped call", [(r"^(\s*)[a-z_][\w.]*(\[[^]]*\])?\.[a-z_]+\([^;]*\);$", r"\1();"), (r"^(\s*)[a-z_]\w*(\.\w+|\[[^]]*\])+ (\||&|\^|\+)?= [^;]*;$", r"\1();")]),
    ("another cause", [(r"Refusal::NotHeld", "Refusal::NotRead"), (r"Refusal::NotRead", "Refusal::NotHeld"), (r"Refusal::AlreadyHeld", "Refusal::NotHeld"),
                       (r"Refusal::ReadByChange", "Refusal::NotHeld"), (r"Refusal::NoSuchSession", "Refusal::WrongPhase"), (r"Refusal::WrongPhase", "Refusal::NoSuchSession"),
                       (r"Refusal::SlotOutsideBook", "Refusal::NotHeld"), (r"Refusal::SlotOutsideStore", "Refusal::SlotOutsideBook"), (r"Refusal::LaterConflict", "Refusal::PendingConflict"),
                       (r"Refusal::PendingConflict", "Refusal::LaterConflict"), (r"Refusal::StampTooEarly", "Refusal::QueueFull"), (r"Refusal::QueueFull", "Refusal::StampTooEarly"),
                       (r"Refusal::StampTaken", "Refusal::LaterConflict"), (r"Refusal::NumbersExhausted", "Refusal::QueueFull"), (r"Refusal::ReceiptTooHigh", "Refusal::WrongPhase"),
                       (r"Refusal::NoRule", "Refusal::Unreadable"), (r"Refusal::Unreadable", "Refusal::NoRule"),
                       (r"Fault::Check", "Fault::Layout"), (r"Fault::Layout", "Fault::Content"), (r"Fault::Content", "Fault::Layout")]),
    ("another case", [(r"Phase::Open\b", "Phase::Pending"), (r"Phase::Pending\b", "Phase::Idle"), (r"Phase::Idle\b", "Phase::Open"), (r"Stage::Pending", "Stage::Committed"),
                      (r"Stage::Committed", "Stage::Pending"), (r"Action::Allow", "Action::Block"), (r"Action::Block", "Action::Allow"), (r"Layer::Book", "Layer::Store"), (r"Layer::Store", "Layer::Book"),
                      (r"Layer::Line", "Layer::Block"), (r"Layer::Block", "Layer::Line")]),
    ("another operand", [(r"\bslots_read\b", "slots_written"), (r"\bslots_written\b", "slots_read"), (r"\bself\.read\b", "self.written"), (r"\bself\.written\b", "self.read"), (r"\.first\b", ".second"),
                         (r"\.second\b", ".first"), (r"\bself\.copies\b", "self.staged"), (r"\bself\.staged\b", "self.copies"), (r"\.intersection\(", ".union("), (r"\.union\(", ".difference("),
                         (r"\.difference\(", ".intersection("), (r"\bone\b", "other"), (r"\bfirst_port\b", "last_port"), (r"\blast_port\b", "first_port"), (r"\btime\b", "station"),
                         (r"\.holds\(", ".has_read("), (r"\.has_read\(", ".holds("), (r"\.insert\(", ".remove("), (r"\.remove\(", ".insert(")]),
    ("swapped arguments", [(r"\(([a-z_]\w*), ([a-z_]\w*)\)", r"(\2, \1)"), (r"\(([a-z_][\w.]*), ([a-z_][\w.]*), ", r"(\2, \1, "), (r", ([a-z_]\w*), ([a-z_]\w*)\)", r", \2, \1)")]),
    ("negated", [(r"if !", "if "), (r"\bif (?!let\b|!)([a-z_][\w.]*(\([^{]*\))?) \{", r"if !\1 {"), (r" && ", " || "), (r" \|\| ", " && "), (r"\btrue\b", "false"), (r"\bfalse\b", "true")]),
    ("another constant", [(r"(?<![\w.'\"])(\d+)(?=u8|u16|u32|u64|usize|\b)(?![\w]*['\"])", lambda m: str(int(m.group(1)) + 1)), (r"\bb'([0-8])'", lambda m: "b'%d'" % (int(m.group(1)) + 1)),
                          (r"b' '", "b'_'"), (r"b'\.'", "b','"), (r"b'/'", "b'-'"), (r"b'-'", "b'/'"), (r"\b(ROOM|SLOTS|SESSIONS|LIMIT|RECORD|BLOCK|LONGEST)\b", r"(\1 - 1)"), (r"u32::MAX", "u32::MIN")]),
    ("sum", [(r" \+ ", " - "), (r" - ", " + "), (r" \* ", " + "), (r" / ", " % "), (r" % ", " / "), (r" & ", " | "), (r" \| ", " & "), (r" << ", " >> "), (r" >> ", " << "), (r" \+= ", " -= ")]),
    ("no answer", [(r"\bSome\((?!\w+\) =)[^()]*(\([^()]*\))?[^()]*\)(?=[,;]?$| \})", "None"), (r"^(\s*)None(,?)$", None)]),
]
SKIP = re.compile(r"^\s*(//|ghost |ensures|requires|#\[|use |pub use|mod |pub mod|\)|const|pub const)")


def bodies(path):
    """(function, line number, line) of every line of code in a function's body."""
    with open(path, encoding="utf-8") as file:
        lines = file.read().split("\n")
    function, inside = None, False
    owner = ""
    for number, line in enumerate(lines):
        if re.match(r"#\[cfg\(test\)\]", line):
            return
        found = re.match(r"\s*(?:pub )?impl(?:<[^{]*?>)? (?:([\w:]+)(?:<[^{]*>)? for )?(\w+)", line)
        if found and not line.startswith(" "):
            owner = found.group(2) + "::"
        elif line and not line[0].isspace() and not line.startswith("}"):
            owner = owner if found else ("" if re.match(r"(pub(\(crate\))? )?(fn|struct|enum|trait)", line) else owner)
        found = re.match(r"\s*(?:pub(?:\(crate\))? )?(?:const )?fn (\w+)", line)
        if found:
            function, inside = owner + found.group(1), line.rstrip().endswith("{") and "ensures" not in line
            continue
        if function and not inside and re.match(r"^\s*\{$", line):
            inside = True
            continue
        if function and re.match(r"^(    )?\}$", line):
            inside = inside and line.startswith("    ") and not line == "    }"
            continue
        if function and inside and not SKIP.match(line):
            yield function, number, line


def bugs_of(path):
    """For each function of a file the bugs that can be planted in it, kinds mixed: (kind, line number, old line, new line)."""
    found = {}
    for function, number, line in bodies(path):
        code = line.split(" //")[0]
        for kind, swaps in KINDS:
            for pattern, new in swaps:
                if new is None:
                    continue
                for match in re.finditer(pattern, code):
                    changed = code[: match.start()] + match.expand(new) + code[match.end() :] if isinstance(new, str) else code[: match.start()] + new(match) + code[match.end() :]
                    if changed != code:
                        found.setdefault(function, {}).setdefault(kind, []).append((kind, number, line, changed))
    for function, kinds in found.items():
        order = []
        while any(kinds.values()):
            for kind, _ in KINDS:
                if kinds.get(kind):
                    order.append(kinds[kind].pop(0))
        yield function, order


def sources(name):
    folder = os.path.join(ROOT, "crates", name, "src")
    for place, _, files in sorted(os.walk(folder)):
        for file in sorted(files):
            if file.endswith(".rt"):
                yield os.path.join(place, file)


def caught_by(log):
    """The first function that is not proved any more."""
    for line in log.splitlines():
        found = re.match(r"(?:fn|struct|impl|trait) ([\w:<>' ]+): (?:no proof|not proved)", line)
        if found:
            return found.group(1)
    found = re.search(r"^\S*?/(src|proofs)/(\S+?):\d+:\d+: error", log, re.M)
    return found.group(2) if found else ""


def record(name, function, place, bug, verdict, log):
    """One line of results; the prover's verdict on a bug."""
    row = [name, function, place, bug, verdict, caught_by(log) if verdict == "refused" else ""]
    folder = os.path.join(TARGET, "planted")
    os.makedirs(folder, exist_ok=True)
    with open(os.path.join(folder, name + ".results"), "a", encoding="utf-8") as out:
        out.write("\t".join(row) + "\n")
    print("  ".join(row), flush=True)
    return verdict != "refused"


def by_hand(name):
    survived = 0
    with open(os.path.join(ROOT, "tools", "planted_by_hand.txt"), encoding="utf-8") as bugs:
        for line in bugs:
            if line.startswith(name + "\t"):
                _, function, file, old, new = line.rstrip("\n").split("\t")
                path = os.path.join(ROOT, "crates", name, file)
                with open(path, encoding="utf-8") as source:
                    lines = source.read().split("\n")
                places = [number for number, text in enumerate(lines) if old in text]
                if len(places) != 1:
                    print(f"{name}  {function}  the old text stands {len(places)} times in {file}: {old}", flush=True)
                    survived += 1
                    continue
                verdict, log = run_on_copy(name, file, places[0], lines[places[0]].replace(old, new))
                survived += record(name, function, f"{file}:{places[0] + 1}", f"by hand: {old.strip()} -> {new.strip()}", verdict, log)
    return survived


def plant(name, each, only):
    survived = 0
    for path in sources(name):
        short = os.path.relpath(path, os.path.join(ROOT, "crates", name))
        for function, bugs in bugs_of(path):
            if only and only not in function:
                continue
            planted, tried = 0, 0
            for kind, number, old, new in bugs:
                if planted == each or tried == 4 * each:
                    break
                tried += 1
                verdict, log = run_on_copy(name, short, number, new)
                if verdict == "BAD EDIT":
                    continue
                planted += 1
                survived += record(name, function, f"{short}:{number + 1}", f"{kind}: {old.strip()} -> {new.strip()}", verdict, log)
            if planted < each:
                print(f"{name}  {function}  only {planted} of {len(bugs)} bugs could be planted", flush=True)
    return survived


def same():
    """The bugs that were looked at and found to change nothing, with the reason: (crate, function, bug) -> reason."""
    found = {}
    path = os.path.join(ROOT, "tools", "planted_same.txt")
    if os.path.exists(path):
        with open(path, encoding="utf-8") as file:
            for line in file:
                if line.strip():
                    name, function, bug, reason = line.rstrip("\n").split("\t")
                    found[name, function, bug] = reason
    return found


def table():
    """docs/PLANTED.md from the results of all runs; a bug that was planted again counts by its last verdict."""
    rows, reasons = {}, same()
    folder = os.path.join(TARGET, "planted")
    for file in sorted(os.listdir(folder)):
        if file.endswith(".results"):
            with open(os.path.join(folder, file), encoding="utf-8") as results:
                for line in results:
                    name, function, _, bug, verdict, by = line.rstrip("\n").split("\t")
                    rows[name, function, bug] = (verdict, by)
    with open(os.path.join(ROOT, "crates.txt"), encoding="utf-8") as crates:
        order = [line.split(":")[0] for line in crates if ":" in line and not line.startswith("#")]
    refused = sum(verdict == "refused" for verdict, _ in rows.values())
    unmoved = sum(verdict != "refused" and key in reasons for key, (verdict, _) in rows.items())
    with open(os.path.join(ROOT, "docs", "PLANTED.md"), "w", encoding="utf-8") as out:
        out.write(HEAD.format(bugs=len(rows), refused=refused, same=unmoved, left=len(rows) - refused - unmoved))
        for crate in order:
            mine = [(key, value) for key, value in rows.items() if key[0] == crate]
            if not mine:
                continue
            out.write(f"\n## {crate}\n\n| function | bug | caught by the contract of |\n|---|---|---|\n")
            for (name, function, bug), (verdict, by) in mine:
                kind, change = bug.split(": ", 1)
                caught = f"`{by.split('::', 1)[-1]}`" if verdict == "refused" else reasons.get((name, function, bug), "**NOT REFUSED**")
                old, new = change.split(" -> ", 1)
                out.write(f"| `{function}` | {kind}: {code(old)} becomes {code(new)} | {caught} |\n")


def code(text):
    return "`" + text.replace("|", "\\|") + "`" if text != "();" else "nothing"


HEAD = """# Planted bugs

Bugs that keep the shape of the code (another operand, `<` for `<=`, a dropped call, swapped arguments, a missed case, another constant, another cause), planted
one at a time in the functions of the libraries by `tools/plant.py`. For each, the first function whose contract was not met any more. {bugs} bugs: {refused} refused by
the prover, {same} that change nothing (with the reason in place of a contract), {left} left.

    tools/plant.py NAME..      plants them again
    tools/plant.py --table     writes this page
"""


def main():
    words = sys.argv[1:]
    if words == ["--table"]:
        table()
        return
    if words[:1] == ["--by-hand"]:
        survived = sum(by_hand(name) for name in words[1:])
        print(f"{survived} not refused")
        return
    each, only = 2, None
    while words and words[0].startswith("--"):
        if words[0] == "--each":
            each, words = int(words[1]), words[2:]
        elif words[0] == "--fn":
            only, words = words[1], words[2:]
        else:
            sys.exit(__doc__)
    if not words:
        sys.exit(__doc__)
    survived = sum(plant(name, each, only) for name in words)
    print(f"{survived} not refused")


if __name__ == "__main__":
    main()
