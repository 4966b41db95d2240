"""Checks of lines and answers, with what is wanted worked out by hand."""

import ipaddress
import random
import re
import sys

import lines
import make_lines
from lines import CLOCK, TICKET, Call, Learnt
from rulebook import OPEN_RULE, Refusal, Rule

passed = 0


def same(got, wanted):
    global passed
    if got != wanted:
        sys.exit(f"lines: got {got!r}, wanted {wanted!r}")
    passed += 1


def read(line, kind=CLOCK):
    """The call, or the three numbers if the line is refused."""
    try:
        return lines.read_line(line, kind)
    except Refusal as refusal:
        return refusal.args


# Each call.
example_rule = Rule(0xC0000200, 24, 1, 0, 65535)
for line, call in (
        (b"b 0", Call("b", session=0)),
        (b"f 0 3", Call("f", session=0, slot=3)),
        (b"r 7 63", Call("r", session=7, slot=63)),
        (b"w 0 3 192.0.2.0/24 block 0-65535",
         Call("w", session=0, slot=3, rule=example_rule)),
        (b"d 8 64", Call("d", session=8, slot=64)),
        (b"c 4294967295", Call("c", session=4294967295)),
        (b"a 1", Call("a", session=1)),
        (b"l 2", Call("l", session=2)),
        (b"k 2 4294967295", Call("k", session=2, number=4294967295))):
    for kind in lines.KINDS:
        same(read(line, kind), call)
        same(lines.write_call(call, kind), line)

# Stamps.
for text, clock, ticket in (
        (b"7.1", (7, 1), None),
        (b"0.0", (0, 0), None),
        (b"18446744073709551615.65535", (2 ** 64 - 1, 65535), None),
        (b"18446744073709551616.0", None, None),
        (b"1.65536", None, None),
        (b"1.", None, None),
        (b".1", None, None),
        (b".", None, None),
        (b"1.2.3", None, None),
        (b"01.2", None, None),
        (b"1.02", None, None),
        (b"1.-2", None, None),
        (b"0", None, (0, 0)),
        (b"1", None, (1, 0)),
        (b"4294967295", None, (4294967295, 0)),
        (b"4294967296", None, None),
        (b"00", None, None),
        (b"07", None, None),
        (b"+7", None, None),
        (b"", None, None)):
    for kind, key in ((CLOCK, clock), (TICKET, ticket)):
        for start, call in ((b"p 3 ", Call("p", session=3, stamp=key)),
                            (b"t ", Call("t", stamp=key))):
            wanted = (21, 4, len(start)) if key is None else call
            same(read(start + text, kind), wanted)
            if key is not None:
                same(lines.write_call(call, kind), start + text)
same((7, 65535) < (8, 0), True)

# Refusals. The comment line counts the places.
#  0         1         2         3
#  0123456789012345678901234567890123456789
for line, place in (
        (b"", 0),
        (b" ", 0),
        (b"  ", 0),
        (b"b", 1),
        (b"b ", 2),
        (b"b  ", 2),
        (b"b  0", 2),
        (b" b 0", 0),
        (b"b 0 ", 4),
        (b"b 0  ", 4),
        (b"b 0 0", 4),
        (b"b 00", 2),
        (b"b 0\r", 2),
        (b"b\r", 0),
        (b"b\t0", 0),
        (b"b\0", 0),
        (b"b 0\0", 2),
        (b"b \xb2", 2),
        (b"b 4294967296", 2),
        (b"B 0", 0),
        (b"bb 0", 0),
        (b"b0", 0),
        (b"x 0", 0),
        (b"e", 0),
        (b"\xff 0", 0),
        (b"f 0", 3),
        (b"f 0 ", 4),
        (b"f x", 2),
        (b"f x y", 2),
        (b"f 0 y z", 4),
        (b"f 0 1 z", 6),
        (b"t", 1),
        (b"t 0 7.1", 2),
        (b"t 7.1 0", 6),
        (b"p 7.1", 2),
        (b"p 0", 3),
        (b"k 0 -1", 4),
        (b"w 0 3", 5),
        (b"w 0 3 192.0.2.0/24", 18),
        (b"w 0 3 192.0.2.0/24 ", 19),
        (b"w 0 3 192.0.2.0/24 block", 24),
        (b"w 0 3 192.0.2.0/24 block ", 25),
        (b"w 0 3 192.0.2.0/24 block 0-65536", 25),
        (b"w 0 3 192.0.2.0/24 Block 0-65536", 19),
        (b"w 0 3 192.0.2.0/256 block 0-0", 6),
        (b"w 0 3 192.0.2.0/24 block 0-0 ", 29),
        (b"w 0 3 192.0.2.0/24 block 0-0 0", 29),
        # The parts make no rule, but a field is wrong.
        (b"w 0 3 192.0.2.0/23", 18),
        (b"w 0 3 192.0.2.1/24 block 1-0 x", 29),
        (b"w 0 3 192.0.2.1/24 block 1-00", 25),
        (b"w 00 3 192.0.2.1/24 block 1-0", 2)):
    same(read(line), (21, 4, place))
for line, place in (
        (b"w 0 3 192.0.2.1/24 block 0-0", 6),
        (b"w 0 3 0.0.0.0/33 block 0-0", 6),
        (b"w 0 3 0.0.0.0/255 block 0-0", 6),
        (b"w 0 63 0.0.0.0/0 block 1-0", 7),
        (b"w 4294967295 4294967295 0.0.0.0/33 allow 65535-0", 24)):
    same(read(line), (20, 4, place))
same(read(b"w 0 3 0.0.0.0/32 block 0-0"),
     Call("w", session=0, slot=3, rule=Rule(0, 32, 1, 0, 0)))

# Long lines.
same(read(b"b 0" + b" " * 77), (21, 4, 4))
same(read(b"b 0" + b" " * 78), (21, 4, 80))
same(read(b"b " + b"0" * 78), (21, 4, 2))
same(read(b"b " + b"0" * 79), (21, 4, 80))
same(read(b" " * 80), (21, 4, 0))
same(read(b" " * 81), (21, 4, 80))
same(read(b"x" * 200), (21, 4, 80))

# Input.
same(lines.split_input(b""), [])
same(lines.split_input(b"\n"), [b""])
same(lines.split_input(b"a"), [b"a"])
same(lines.split_input(b"a\n"), [b"a"])
same(lines.split_input(b"a\n\n"), [b"a", b""])
same(lines.split_input(b"a\r\nb"), [b"a\r", b"b"])
same(lines.lint(b"b 0\n\nb", CLOCK), b"1 0\n2 21 4 0\n3 21 4 1\n")
same(lines.lint(b"", TICKET), b"")

# Answers.
for number, value, text in (
        (1, None, b"1 0"),
        (2, OPEN_RULE, b"2 0 0.0.0.0/0 allow 0-65535"),
        (5, 0, b"5 0 0"),
        (6, 4294967295, b"6 0 4294967295"),
        (7, Refusal(4, 3, 0), b"7 4 3 0"),
        (8, Refusal(3, 3, 9), b"8 3 3 9"),
        (9, Learnt(1, (), False), b"9 0 1 - 0"),
        (9, Learnt(3, (1, 5), True), b"9 0 3 1,5 1"),
        (10, Learnt(0, (63,), False), b"10 0 0 63 0")):
    same(lines.write_answer(number, value), text)

# Whether a line can be read at all, against a regular expression and the
# ipaddress module.
NUMBER = rb"(0|[1-9][0-9]*)"
OCTET = rb"(?:[0-9]|[1-9][0-9]|1[0-9]{2}|2[0-4][0-9]|25[0-5])"
STAMPS = {CLOCK: NUMBER + rb"\." + NUMBER, TICKET: NUMBER}
STAMP_LIMITS = {CLOCK: (2 ** 64, 2 ** 16), TICKET: (2 ** 32,)}
RULE = (rb"((?:" + OCTET + rb"\.){3}" + OCTET + rb"/" + NUMBER + rb") (?:allow|block) "
        + NUMBER + rb"-" + NUMBER)


def number_of_refusal(line, kind):
    """0, 20 or 21."""
    stamp, stamp_limits = STAMPS[kind], STAMP_LIMITS[kind]
    for pattern, limits in (
            (rb"[bcal] " + NUMBER, (2 ** 32,)),
            (rb"[frdk] " + NUMBER + rb" " + NUMBER, (2 ** 32, 2 ** 32)),
            (rb"p " + NUMBER + rb" " + stamp, (2 ** 32, *stamp_limits)),
            (rb"t " + stamp, stamp_limits),
            (rb"w " + NUMBER + rb" " + NUMBER + rb" " + RULE,
             (2 ** 32, 2 ** 32, None, 256, 65536, 65536))):
        match = re.fullmatch(pattern, line, re.DOTALL)
        if match is None or len(line) > 80:
            continue
        groups = match.groups()
        if any(limit is not None and int(group) >= limit
               for group, limit in zip(groups, limits, strict=True)):
            return 21
        if None in limits:
            try:
                ipaddress.IPv4Network(groups[2].decode())
            except ValueError:
                return 20
            return 20 if int(groups[4]) > int(groups[5]) else 0
        return 0
    return 21


for kind in lines.KINDS:
    for line in make_lines.all_lines(kind):
        got = read(line, kind)
        same((line, 0 if isinstance(got, Call) else got[0]),
             (line, number_of_refusal(line, kind)))

# A line that can be read is the text of its call, and the other way about.
chance = random.Random(3)
for kind in lines.KINDS:
    for _ in range(300):
        call = make_lines.some_call(chance, kind)
        same(read(lines.write_call(call, kind), kind), call)
    readable = 0
    for line in make_lines.all_lines(kind):
        call = read(line, kind)
        if isinstance(call, Call):
            readable += 1
            same(lines.write_call(call, kind), line)
    same(readable > 500, True)

print(f"lines: {passed} checks passed")
