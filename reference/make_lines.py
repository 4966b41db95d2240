"""Make lines for both kinds of stamp, with what is told of each.

    python3 reference/make_lines.py DIR

writes DIR/clock.stdin and DIR/ticket.stdin, scripts of lines of which most
are wrong somewhere, and DIR/clock.stdout and DIR/ticket.stdout. In these
stands for each line its number, then 0 if it reads as a call, else the three
numbers of its refusal. The lines are the same at every run. The last line of
clock.stdin has no line end; ticket.stdin ends with one.
"""

import itertools
import pathlib
import random
import sys

import lines
from lines import CLOCK, TICKET, Call
from rulebook import Rule

RANDOM_LINES = 500  # valid ones for each kind; each is then changed

RULE = b"192.0.2.0/24 block 0-65535"

GOOD_STAMPS = {CLOCK: b"7.1", TICKET: b"7"}


def good_lines(kind):
    """One right line for each letter."""
    stamp = GOOD_STAMPS[kind]
    return [b"b 0", b"f 1 3", b"r 2 0", b"w 3 5 " + RULE, b"d 4 63",
            b"p 5 " + stamp, b"c 6", b"a 7", b"l 0", b"k 1 12", b"t " + stamp]


NUMBERS = (
    b"0 1 7 8 9 10 63 64 00 01 007 010 255 256 65535 65536 2147483647"
    b" 2147483648 4294967295 4294967296 4294967300 9999999999 42949672950"
    b" 04294967295 18446744073709551615 18446744073709551616"
    b" 18446744073709551617 340282366920938463463374607431768211457"
    b" -0 -1 +1 1. 1.0 0x1 0b1 1e1 1_0 1,0 a - . / * ' \"").split(b" ")
NUMBERS += [b"", b"\0", b"1\0", b"\0001", b"1\r", b"\r", b"1\t", b"\t1",
            b"\xb2", b"\xd9\xa1", b"1\xff", b"\x80", b"/", b":", b"1:", b"1/"]

CLOCKS = (
    b"0.0 0.1 1.0 7.1 1.65535 1.65536 1.65537 1.99999 1.100000"
    b" 18446744073709551615.65535 18446744073709551615.0"
    b" 18446744073709551615.65536 18446744073709551616.0"
    b" 18446744073709551616.65535 18446744073709551617.1"
    b" 18446744073709551625.1 18446744073709551705.1 18446744073709552615.1"
    b" 18446744073709561615.1 28446744073709551615.1"
    b" 19446744073709551615.1 9999999999999999999.1 10000000000000000000.1"
    b" 99999999999999999999.1 184467440737095516150.1"
    b" 018446744073709551615.1 340282366920938463463374607431768211457.1"
    b" 9223372036854775807.1 9223372036854775808.1"
    b" 4294967295.0 4294967296.0 1. .1 . .. 1.. ..1 1..2 1.2.3 1.2. .1.2 1"
    b" 0 00 00.0 0.00 01.1 1.01 1.00 1.4294967296 1.18446744073709551617"
    b" 1,1 1:1 1-1 1/1 +1.1 1.+1 -1.1 1.-1 a.b 0x1.1 1.0x1 1_0.1 1.1_0"
    b" 1e1.1 4294967296 18446744073709551615 18446744073709551616").split(b" ")
CLOCKS += [b"", b"1.1\r", b"1.1\0", b"\0001.1", b"1\0.1", b"1.\t1", b"1\xb71",
           b"\xb2.1", b"1.\xb2", b"1\xe2\x80\xa41", b"1.1\xff"]

ADDRESSES = (
    b"0.0.0.0/0 0.0.0.0/1 0.0.0.0/32 0.0.0.0/33 0.0.0.0/34 0.0.0.0/64"
    b" 0.0.0.0/128 0.0.0.0/254 0.0.0.0/255 0.0.0.0/256 0.0.0.0/257"
    b" 0.0.0.0/288 0.0.0.0/512 0.0.0.0/4294967296 0.0.0.0/00 0.0.0.0/01"
    b" 0.0.0.0/ 0.0.0.0 /0 0.0.0.0//0 0.0.0.0/0/0 0.0.0.0/0. 0.0.0.0/-0"
    b" 10.0.0.0/8 10.0.0.0/7 10.0.0.0/6 10.0.0.1/8 10.0.0.1/32 10.0.0.1/31"
    b" 10.0.0.2/31 128.0.0.0/1 128.0.0.0/0 255.255.255.255/32"
    b" 255.255.255.255/31 255.255.255.255/33 256.0.0.0/8 0.256.0.0/8"
    b" 0.0.256.0/8 0.0.0.256/32 00.0.0.0/0 010.0.0.0/8 0.0.0.00/0 1.2.3/24"
    b" 1.2.3.4.5/32 .1.2.3/24 1.2.3./24 1..2.3/24 1.2.3.4\\32 1.2.3.a/32"
    b" 1.2.3.4/a a 1,2,3,4/32 192.0.2.1/24 192.0.2.128/24"
    b" 192.0.2.128/25").split(b" ")
ADDRESSES += [b"", b"\xb2.0.0.0/8", b"1.2.3.4/32\0", b"1.2.3.4/32\r"]

ACTIONS = b"allow block Allow BLOCK allo blocks deny 0 1 allowblock".split(b" ")
ACTIONS += [b"", b"block\r", b"\0allow", b"allow\t", b"\xe1llow"]

PORTS = (
    b"0-0 0-65535 65535-65535 65535-65534 65535-0 1-0 9-10 10-9 65536-65536"
    b" 0-65536 65536-0 0-65616 0-99999 0-4294967296 00-1 0-01 0-00 - -- 1 1-"
    b" -1 1--2 1-2-3 1-2- 1:2 1_2 +1-2 1-+2 a-b 80-443,8080").split(b" ")
PORTS += [b"", b"1-2\r", b"1-2\0", b"1\xe2\x80\x932", b"1-\xb2", b"1-2\xff"]

# A letter in all shapes, and what is no letter.
LETTERS = [bytes([byte]) for byte in range(256) if byte != 10]
LETTERS += [b"", b"bb", b"b0", b"b\0", b"\0b", b"b\r", b"b\t", b"begin",
            b"forward", b"ww", b"tt", b"p5", b"t7.1", b"k1", b"0b", b"\xc3\xa7",
            b"b,", b"b.", b"\xef\xbb\xbfb"]

OTHER_SPACES = (b"\t", b"\r", b"\0", b"\x0b", b"\x0c", b"\x1f", b"\x80",
                b"\xa0", b"\xc2\xa0", b"\xff")


def stamps(kind):
    """Texts that are or are nearly stamps of this kind, and of the other."""
    if kind is CLOCK:
        return CLOCKS
    return [*NUMBERS, b"0.0", b"7.1", b"1.", b".1", b"1.2.3"]


# The table: lines that are tried one by one

def letter_lines(kind):
    for letter in LETTERS:
        for rest in (b" 0", b" 0 1"):
            yield letter + rest
    for line in good_lines(kind):
        letter, rest = line[:1], line[1:]
        yield letter.upper() + rest
        yield letter + letter + rest
        yield letter + b"0" + rest
        yield b"0" + letter + rest
        yield letter + rest[1:]
        yield rest
        yield rest[1:]
        yield letter
        # Each letter with what stands behind the others.
        for other in good_lines(kind):
            yield letter + other[1:]


def field_lines(kind):
    """Missing, surplus and empty fields."""
    for line in good_lines(kind):
        yield line
        fields = line.split(b" ")
        for count in range(len(fields)):
            start = b" ".join(fields[:count])
            for end in (b"", b" ", b"  ", b"   "):
                yield start + end
        for more in (b" ", b"  ", b"   ", b" 0", b" x", b"  0", b" 0 ",
                     b" 0 0", b" \0", b" \r", b" \xff", b" #", b" " + RULE,
                     b" " + line):
            yield line + more
        yield b" " + line
        yield b"  " + line
        for number in range(len(fields)):
            before, field, after = fields[:number], fields[number], fields[number + 1:]
            yield b" ".join(before + [b""] + after)
            yield b" ".join(before + [b"", field] + after)
            yield b" ".join(before + [b"", b"", field] + after)
            yield b" ".join(before + after)
            yield b" ".join(before + [field, field] + after)
            yield b" ".join(before + [b"x"] + after)
            yield b" ".join(before + [b"x"] + after + [b"y"])
            yield b" ".join(before + [b"x"] + after[:-1])
            for other in range(number + 1, len(fields)):
                swapped = list(fields)
                swapped[number], swapped[other] = fields[other], field
                yield b" ".join(swapped)


def space_lines(kind):
    """Bytes that some take for a space or for nothing, at every place where
    a field begins or ends."""
    for line in good_lines(kind):
        places = [0, len(line)]
        places += [place for place in range(len(line))
                   if line[place:place + 1] == b" "]
        for byte in OTHER_SPACES:
            for place in places:
                yield line[:place] + byte + line[place:]
                if line[place:place + 1] == b" ":
                    yield line[:place] + byte + line[place + 1:]
                    yield line[:place + 1] + byte + line[place + 1:]


def number_lines(kind):
    for number in NUMBERS:
        yield b"b " + number
        yield b"f " + number + b" 3"
        yield b"r 0 " + number
        yield b"d 0 " + number
        yield b"w " + number + b" 3 " + RULE
        yield b"w 0 " + number + b" " + RULE
        yield b"p " + number + b" " + GOOD_STAMPS[kind]
        yield b"c " + number
        yield b"a " + number
        yield b"l " + number
        yield b"k " + number + b" 1"
        yield b"k 1 " + number


def stamp_lines(kind):
    for stamp in stamps(kind):
        yield b"p 0 " + stamp
        yield b"t " + stamp
        yield b"p 01 " + stamp
        yield b"p 0 " + stamp + b" "
        yield b"t " + stamp + b" 0"
        yield b"t 0 " + stamp


def rule_lines(kind):
    for addresses in ADDRESSES:
        yield b"w 0 3 " + addresses + b" allow 80-443"
        yield b"w 4294967295 10 " + addresses + b" block 9-8"
    for action in ACTIONS:
        yield b"w 0 3 10.0.0.0/8 " + action + b" 80-443"
        yield b"w 10 3 10.0.0.0/7 " + action + b" 80-443"
    for ports in PORTS:
        yield b"w 0 3 10.0.0.0/8 allow " + ports
        yield b"w 0 300 10.0.0.1/8 block " + ports
    for prefix in range(36):
        yield b"w 7 63 10.16.64.0/%d block 0-0" % prefix
        yield b"w 7 63 255.255.255.255/%d block 0-0" % prefix


def mixed_lines(kind):
    """Several errors in one line: no rule, unreadable, empty and surplus
    fields in all mixtures."""
    for session, slot, addresses, action, ports, more in itertools.product(
            (b"0", b"4294967296"), (b"12", b"x"),
            (b"1.2.3.4/32", b"1.2.3.4/24", b"1.2.3.4"), (b"block", b"Block"),
            (b"1-2", b"2-1", b"1-65536"), (b"", b" ", b" 0")):
        yield b"w %s %s %s %s %s%s" % (session, slot, addresses, action, ports, more)
    # No rule, and a field short or too many.
    for line in (b"w 0 3 1.2.3.4/24 block 2-1", b"w 0 10 0.0.0.0/33 allow 0-0",
                 b"w 4294967295 4294967295 0.0.0.0/255 allow 0-0"):
        yield line
        for more in (b" ", b"  ", b" x", b"\r", b"\0", b" 1-2"):
            yield line + more
        for size in range(len(line)):
            yield line[:size]
    # In the fields of other calls.
    for session in (b"0", b"00", b""):
        for other in (b"1", b"01", b""):
            for more in (b"", b" ", b" 0"):
                for letter in (b"b", b"f", b"k", b"p", b"t"):
                    yield letter + b" " + session + b" " + other + more


def long_lines(kind):
    """Lines of 79, 80, 81 bytes and more, right or wrong otherwise."""
    for size in (79, 80, 81):
        for line in (*good_lines(kind), b"w 0 3 1.2.3.4/24 block 2-1"):
            yield line + b" " * (size - len(line))
            yield line + b"0" * (size - len(line))
            yield (line + b" " + b"x" * size)[:size]
    for size in (100, 127, 128, 129, 200, 255, 256, 257):
        yield (b"b 0" + b" " * size)[:size]
        yield (b"w 0 3 " + RULE + b" x" * size)[:size]
    for size in (79, 80, 81, 200):
        yield b"x" * size
        yield b"\0" * size
        yield b"\r" * size
        yield b"\xff" * size
        yield b"0" * size
        yield b" " * size
        yield (b"b 0 " * size)[:size]
        yield b"b " + b"0" * (size - 2)
        yield b"b " + b"9" * (size - 2)
        yield b"w 0 3 " + b"0.0.0.0/" + b"0" * (size - 24) + b" allow 0-0"
        yield b"w 0 3 0.0.0.0/0 allow 1-" + b"1" * (size - 24)
        yield b"p 0 1." + b"1" * (size - 6)
        yield b"t " + b"1" * (size - 2)
    # The byte behind place 80.
    for byte in (b" ", b"0", b"\r", b"\0", b"\xff"):
        yield b"b 0" + b" " * 77 + byte
        yield b"x" * 80 + byte
    for size in (1023, 1024, 1025, 4095, 4096, 4097):
        yield b"b 0" + b" " * (size - 3)
    # Longer than what is likely to be read at once.
    yield b"b 0" + b" 0" * (8192 if kind is TICKET else 33000)


def byte_lines(kind):
    """Every byte in place of the one, and near bytes at every place."""
    for byte in LETTERS[:255]:
        yield b"b " + byte
        yield b"f 1" + byte + b"3"
        yield b"p 0 7" + byte + b"1"
    line = b"w 7 20 1.20.0.0/32 allow 5-67"
    for place in range(len(line)):
        for byte in b"\x00 /:\xb0":
            yield line[:place] + bytes([byte]) + line[place + 1:]
    for line in (b"b", b"b ", b"b  ", b" b", b" ", b"  ", b"\r", b"\0", b"\t"):
        yield b""
        yield line


# Lines by chance

def on_boundary(address, prefix):
    """The address with the bits behind the prefix set to zero."""
    step = 2 ** (32 - prefix)
    return address // step * step


def some_number(chance):
    return chance.choice((chance.randrange(8), chance.randrange(64),
                          chance.getrandbits(chance.randrange(1, 33)),
                          chance.choice((0, 7, 8, 63, 64, 2 ** 32 - 1))))


def some_rule(chance):
    prefix = chance.choice((0, 8, 16, 24, 32, *range(33)))
    ports = sorted(chance.getrandbits(chance.choice((4, 10, 16)))
                   for _ in range(2))
    return Rule(on_boundary(chance.getrandbits(32), prefix), prefix,
                chance.randrange(2), *ports)


def some_stamp(chance, kind):
    if kind is CLOCK:
        return (chance.getrandbits(chance.choice((4, 32, 64))),
                chance.getrandbits(chance.choice((3, 16))))
    return some_number(chance), 0


def some_call(chance, kind):
    letter = chance.choice("bfrwwwwdppcalkt")
    return Call(letter, **{
        part: some_rule(chance) if part == "rule"
        else some_stamp(chance, kind) if part == "stamp"
        else some_number(chance)
        for part in lines.PARTS[letter]})


def some_byte(chance):
    byte = chance.choice((chance.randrange(256), chance.randrange(256),
                          *b"0123456789    ./-bwpt\r\0"))
    return bytes([11 if byte == 10 else byte])


def mutations(chance, line, other):
    """The line with one byte changed, inserted, removed, doubled; cut; and
    joined with another."""
    place = chance.randrange(len(line))
    yield line[:place] + some_byte(chance) + line[place + 1:]
    place = chance.randrange(len(line) + 1)
    yield line[:place] + some_byte(chance) + line[place:]
    place = chance.randrange(len(line))
    yield line[:place] + line[place + 1:]
    place = chance.randrange(len(line))
    yield line[:place] + line[place:place + 1] + line[place:]
    yield line[:chance.randrange(len(line))]
    yield line + chance.choice((b"", b" ", b"\r", b"\0")) + other


def chance_lines(kind):
    chance = random.Random(2024 + lines.KINDS.index(kind))
    texts = [lines.write_call(some_call(chance, kind), kind)
             for _ in range(RANDOM_LINES)]
    for text in texts:
        yield text
        kept = list(mutations(chance, text, chance.choice(texts)))
        yield from chance.sample(kept, 4)
    for _ in range(30):
        yield chance.randbytes(chance.randrange(1, 90)).replace(b"\n", b"\x0b")


GROUPS = (letter_lines, field_lines, space_lines, number_lines, stamp_lines,
          rule_lines, mixed_lines, long_lines, byte_lines, chance_lines)


LAST_LINES = {CLOCK: b"k 7 4294967295", TICKET: b""}


def all_lines(kind):
    """Every line, each once (but the empty line), in the order made, and
    then the last one."""
    made = set()
    result = []
    for group in GROUPS:
        for line in group(kind):
            if line and line in made:
                continue
            made.add(line)
            result.append(line)
    return [*result, LAST_LINES[kind]]


def main():
    if len(sys.argv) != 2:
        sys.exit("usage: make_lines.py DIR")
    folder = pathlib.Path(sys.argv[1])
    folder.mkdir(parents=True, exist_ok=True)
    for kind in lines.KINDS:
        made = all_lines(kind)
        data = b"\n".join(made)
        if kind is TICKET:
            data += b"\n"
        assert lines.split_input(data) == made
        (folder / f"{kind.name}.stdin").write_bytes(data)
        (folder / f"{kind.name}.stdout").write_bytes(lines.lint(data, kind))


if __name__ == "__main__":
    main()
