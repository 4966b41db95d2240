"""Reference implementation of the rule formats.

It reads and writes the text of a rule, makes rules from parts, and keeps
rules in two kinds of store: blocks of bytes and a table of rows. It is
written for plainness, not for speed, so that other implementations can be
compared with it.

A call that is turned away raises Refusal with its three numbers.
"""

import struct
from typing import NamedTuple

MOST_SLOTS = 64
BLOCK_SIZE = 512
BLOCK_SLOTS = 32
HEAD_SIZE = 16
RECORD_SIZE = 12
RECORD = struct.Struct(">IBBHHH")  # the parts of a rule, then two zero bytes

LAYER_BLOCK = 1
LAYER_STORE = 2
LAYER_LINE = 4

WRONG_SIZE = 1
SLOT_OUTSIDE = 3
WRONG_CHECK = 17
WRONG_HEAD = 18
WRONG_RECORD = 19
NO_RULE = 20
UNREADABLE = 21


class Refusal(Exception):
    """A call was turned away: the cause's number, the layer and the place."""

    def __init__(self, number, layer, place):
        super().__init__(number, layer, place)
        self.number = number
        self.layer = layer
        self.place = place

    def __str__(self):
        return f"{self.number} {self.layer} {self.place}"


# Rules

class Rule(NamedTuple):
    """The five parts; whether they make a rule is told by is_rule."""
    address: int
    prefix: int
    action: int
    first: int
    last: int


OPEN_RULE = Rule(0, 0, 0, 0, 65535)
ACTIONS = (b"allow", b"block")


def is_rule(parts):
    return (parts.prefix <= 32
            and parts.address % 2 ** (32 - parts.prefix) == 0
            and parts.action in (0, 1)
            and parts.first <= parts.last)


def make_rule(address, prefix, action, first, last):
    rule = Rule(address, prefix, action, first, last)
    if not is_rule(rule):
        raise Refusal(NO_RULE, LAYER_LINE, 0)
    return rule


# The text of a rule

def write_rule(rule):
    """The text of a rule, as bytes."""
    octets = ".".join(str(octet) for octet in rule.address.to_bytes(4, "big"))
    action = ACTIONS[rule.action].decode()
    return f"{octets}/{rule.prefix} {action} {rule.first}-{rule.last}".encode()


def read_number(text, highest):
    """A decimal number without a leading zero. ValueError if it is none."""
    if not text.isdigit():  # of bytes: the ten digits only, and at least one
        raise ValueError("not a number")
    if text.startswith(b"0") and text != b"0":
        raise ValueError("leading zero")
    if len(text) > len(str(highest)) or int(text) > highest:
        raise ValueError("too high")
    return int(text)


def read_addresses(field):
    address_text, prefix_text = field.split(b"/")  # ValueError if not two
    octets = [read_number(octet, 255) for octet in address_text.split(b".")]
    if len(octets) != 4:
        raise ValueError("not four octets")
    return int.from_bytes(bytes(octets), "big"), read_number(prefix_text, 255)


def read_action(field):
    return ACTIONS.index(field)  # ValueError if it is neither word


def read_ports(field):
    first, last = field.split(b"-")  # ValueError if not two
    return read_number(first, 65535), read_number(last, 65535)


FIELD_READERS = (read_addresses, read_action, read_ports)


def read_rule(text):
    """The rule that the bytes are the text of."""
    values = []
    place = 0
    for number, field in enumerate(text.split(b" ")):
        if number == len(FIELD_READERS):
            raise Refusal(UNREADABLE, LAYER_LINE, place)
        try:
            values.append(FIELD_READERS[number](field))
        except ValueError:
            raise Refusal(UNREADABLE, LAYER_LINE, place) from None
        place += len(field) + 1
    if len(values) < len(FIELD_READERS):
        raise Refusal(UNREADABLE, LAYER_LINE, len(text))
    (address, prefix), action, (first, last) = values
    return make_rule(address, prefix, action, first, last)


# The check of a block

def ones_complement_sum(data):
    """The 16-bit words of data, added in one's complement."""
    total = 0
    for high, low in zip(data[0::2], data[1::2], strict=True):
        total += high * 256 + low
        if total > 0xFFFF:
            total = total - 0x10000 + 1
    return total


def check_of(data):
    """The RFC 1071 check of data."""
    return 0xFFFF - ones_complement_sum(data)


def block_check(block):
    """The check that the block should have: that of all but its first word."""
    return check_of(block[2:])


# Blocks

def block_count(count):
    """How many blocks a count of slots takes."""
    return (count + BLOCK_SLOTS - 1) // BLOCK_SLOTS


def slots_in_block(count, number):
    return min(BLOCK_SLOTS, count - BLOCK_SLOTS * number)


def make_head(number, slots):
    """Bytes 2 to 15 of a block."""
    return bytes([number, slots]) + bytes(12)


def make_record(rule):
    return RECORD.pack(*rule, 0)


def record_place(index):
    """Where in its block record number index begins."""
    return HEAD_SIZE + RECORD_SIZE * index


def record_at(block, index):
    """The parts in a record, and the number in its two last bytes."""
    *parts, spare = RECORD.unpack_from(block, record_place(index))
    return Rule(*parts), spare


def make_block(number, rules):
    """A whole block with these rules."""
    body = make_head(number, len(rules)) + b"".join(map(make_record, rules))
    body = body.ljust(BLOCK_SIZE - 2, b"\0")
    return check_of(body).to_bytes(2, "big") + body


def block_damage(block, number, slots):
    """The number of the block's damage, or None if it is sound."""
    if int.from_bytes(block[:2], "big") != block_check(block):
        return WRONG_CHECK
    if block[2:HEAD_SIZE] != make_head(number, slots):
        return WRONG_HEAD
    for index in range(slots):
        parts, spare = record_at(block, index)
        if not is_rule(parts) or spare != 0:
            return WRONG_RECORD
    if any(block[record_place(slots):]):
        return WRONG_RECORD
    return None


def check_blocks(memory, count):
    """The check before a block store is made, and before formatting."""
    if not (1 <= count <= MOST_SLOTS
            and len(memory) == BLOCK_SIZE * block_count(count)):
        raise Refusal(WRONG_SIZE, LAYER_STORE, 0)


def format_blocks(memory, count):
    """Fill the memory (a bytearray) with blocks of open rules."""
    check_blocks(memory, count)
    memory[:] = b"".join(
        make_block(number, [OPEN_RULE] * slots_in_block(count, number))
        for number in range(block_count(count)))


# Stores

class Store:
    """What both stores share. A store has a count, and for each slot below
    it entry (the rule, or a refusal with its damage) and set_entry."""

    count = 0

    def get(self, slot):
        if slot >= self.count:
            raise Refusal(SLOT_OUTSIDE, LAYER_STORE, slot)
        return self.entry(slot)

    def put(self, slot, rule):
        self.get(slot)  # refused for the same causes
        self.set_entry(slot, rule)


class BlockStore(Store):
    """Rules in a bytearray. Where check_blocks refuses, it has no slots."""

    def __init__(self, memory, count):
        self.memory = memory
        try:
            check_blocks(memory, count)
            self.count = count
        except Refusal:
            self.count = 0

    def block(self, number):
        return self.memory[BLOCK_SIZE * number:BLOCK_SIZE * (number + 1)]

    def entry(self, slot):
        number, index = divmod(slot, BLOCK_SLOTS)
        block = self.block(number)
        slots = slots_in_block(self.count, number)
        damage = block_damage(block, number, slots)
        if damage is not None:
            raise Refusal(damage, LAYER_BLOCK, number)
        return record_at(block, index)[0]

    def set_entry(self, slot, rule):
        number, index = divmod(slot, BLOCK_SLOTS)
        start = BLOCK_SIZE * number
        place = start + record_place(index)
        self.memory[place:place + RECORD_SIZE] = make_record(rule)
        check = block_check(self.block(number))
        self.memory[start:start + 2] = check.to_bytes(2, "big")


# Images

def image_count(image):
    """How many slots an image has, told by its size and its last block."""
    if len(image) not in (BLOCK_SIZE, 2 * BLOCK_SIZE):
        raise Refusal(WRONG_SIZE, LAYER_STORE, 0)
    last = len(image) // BLOCK_SIZE - 1
    slots = image[BLOCK_SIZE * last + 3]
    if not 1 <= slots <= BLOCK_SLOTS:
        raise Refusal(WRONG_HEAD, LAYER_BLOCK, last)
    return BLOCK_SLOTS * last + slots


def open_image(image):
    """The store in an image; refused with the first damage, if any."""
    store = BlockStore(image, image_count(image))
    for slot in range(store.count):
        store.get(slot)
    return store


def check_table(rows):
    """The check before a table store is made."""
    if not 1 <= len(rows) <= MOST_SLOTS:
        raise Refusal(WRONG_SIZE, LAYER_STORE, 0)


class TableStore(Store):
    """Rules in a list of rows, each a Rule that may break the conditions.
    Where check_table refuses, it has no slots."""

    def __init__(self, rows):
        self.rows = rows
        try:
            check_table(rows)
            self.count = len(rows)
        except Refusal:
            self.count = 0

    def entry(self, slot):
        row = self.rows[slot]
        if not is_rule(row):
            raise Refusal(WRONG_RECORD, LAYER_BLOCK, 0)
        return row

    def set_entry(self, slot, rule):
        self.rows[slot] = rule
