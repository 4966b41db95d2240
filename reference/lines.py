"""Lines and answers of the book.

A line is bytes. It reads as a call, for one of the two kinds of stamp, or is
refused. Here is also the text of a call, the text of an answer line, and how
input is cut into lines.

A stamp is kept as its key, a pair of numbers, so that stamps compare as
pairs do.
"""

from typing import NamedTuple

import rulebook
from rulebook import LAYER_LINE, NO_RULE, UNREADABLE, Refusal, Rule

LONGEST_LINE = 80
HIGHEST_32 = 2 ** 32 - 1
HIGHEST_64 = 2 ** 64 - 1
HIGHEST_16 = 2 ** 16 - 1


# Stamps

class Kind(NamedTuple):
    """A kind of stamp: its name, how a field is read as a key (ValueError if
    it is none), and how a key is written."""
    name: str
    read: object
    write: object


def read_clock(field):
    time, station = field.split(b".")  # ValueError if not two
    return (rulebook.read_number(time, HIGHEST_64),
            rulebook.read_number(station, HIGHEST_16))


def write_clock(key):
    return b"%d.%d" % key


def read_ticket(field):
    return rulebook.read_number(field, HIGHEST_32), 0


def write_ticket(key):
    return b"%d" % key[0]


CLOCK = Kind("clock", read_clock, write_clock)
TICKET = Kind("ticket", read_ticket, write_ticket)
KINDS = (CLOCK, TICKET)


# Calls

class Call(NamedTuple):
    """A call: its letter, and what it is given. Parts that the call does not
    have are None."""
    letter: str
    session: int = None
    slot: int = None
    rule: Rule = None
    stamp: tuple = None
    number: int = None


# What each call is given, in the order of the fields. A rule is three fields.
PARTS = {
    "b": ("session",),
    "f": ("session", "slot"),
    "r": ("session", "slot"),
    "w": ("session", "slot", "rule"),
    "d": ("session", "slot"),
    "p": ("session", "stamp"),
    "c": ("session",),
    "a": ("session",),
    "l": ("session",),
    "k": ("session", "number"),
    "t": ("stamp",),
}


def read_letter(field):
    letter = field.decode("latin-1")
    if letter not in PARTS:
        raise ValueError("no letter of a call")
    return letter


def read_32(field):
    return rulebook.read_number(field, HIGHEST_32)


def readers(parts, kind):
    """How the fields behind the letter are read, one reader for each."""
    for part in parts:
        if part == "rule":
            yield from rulebook.FIELD_READERS
        elif part == "stamp":
            yield kind.read
        else:
            yield read_32


def cut(line):
    """The fields of a line, each with the place of its first byte."""
    place = 0
    for field in line.split(b" "):
        yield place, field
        place += len(field) + 1


def read_line(line, kind):
    """The call that the bytes are the text of."""
    if len(line) > LONGEST_LINE:
        raise Refusal(UNREADABLE, LAYER_LINE, LONGEST_LINE)
    (_, first), *fields = cut(line)
    try:
        letter = read_letter(first)
    except ValueError:
        raise Refusal(UNREADABLE, LAYER_LINE, 0) from None
    parts = PARTS[letter]
    wanted = list(readers(parts, kind))
    values = []
    for number, (place, field) in enumerate(fields):
        if number == len(wanted):
            raise Refusal(UNREADABLE, LAYER_LINE, place)
        try:
            values.append(wanted[number](field))
        except ValueError:
            raise Refusal(UNREADABLE, LAYER_LINE, place) from None
    if len(values) < len(wanted):
        raise Refusal(UNREADABLE, LAYER_LINE, len(line))
    if "rule" in parts:
        first_field = parts.index("rule")
        (address, prefix), action, (low, high) = values[first_field:]
        rule = Rule(address, prefix, action, low, high)
        if not rulebook.is_rule(rule):
            raise Refusal(NO_RULE, LAYER_LINE, fields[first_field][0])
        values[first_field:] = [rule]
    return Call(letter, **dict(zip(parts, values)))


def write_part(part, value, kind):
    if part == "rule":
        return rulebook.write_rule(value)
    if part == "stamp":
        return kind.write(value)
    return b"%d" % value


def write_call(call, kind):
    """The text of a call."""
    return b" ".join([call.letter.encode()] + [
        write_part(part, getattr(call, part), kind)
        for part in PARTS[call.letter]])


# Input

def split_input(data):
    """The lines of the input. There is none behind the last byte 10."""
    lines = data.split(b"\n")
    if lines[-1] == b"":
        lines.pop()
    return lines


# Answers

class Learnt(NamedTuple):
    """The value of a learn."""
    number: int
    slots: tuple  # rising
    ended: bool


def write_value(value):
    if isinstance(value, Rule):
        return rulebook.write_rule(value)
    if isinstance(value, Learnt):
        slots = ",".join(map(str, value.slots)) or "-"
        return f"{value.number} {slots} {int(value.ended)}".encode()
    return b"%d" % value


def write_answer(number, answer):
    """The answer line, without its byte 10, to the line of this number (from
    1). The answer is a Refusal, or else the value; None is no value."""
    if isinstance(answer, Refusal):
        return b"%d %s" % (number, str(answer).encode())
    if answer is None:
        return b"%d 0" % number
    return b"%d 0 %s" % (number, write_value(answer))


# Lint

def lint(data, kind):
    """What is told of the lines of the input, whether they can be read."""
    told = []
    for number, line in enumerate(split_input(data), 1):
        try:
            read_line(line, kind)
            told.append(write_answer(number, None))
        except Refusal as refusal:
            told.append(write_answer(number, refusal))
    return b"".join(line + b"\n" for line in told)
