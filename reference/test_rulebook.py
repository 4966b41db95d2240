"""Checks of the reference implementation against facts from outside it:
published examples, the ipaddress module, and answers worked out by hand."""

import ipaddress
import random
import sys

import rulebook
from rulebook import OPEN_RULE, BlockStore, Refusal, Rule, TableStore

passed = 0


def same(got, wanted):
    global passed
    if got != wanted:
        sys.exit(f"reference: got {got!r}, wanted {wanted!r}")
    passed += 1


def answer(call, *arguments):
    """What the call gives, or its three numbers if it is refused."""
    try:
        return call(*arguments)
    except Refusal as refusal:
        return refusal.args


# The numerical example of RFC 1071.
example = bytes.fromhex("0001f203f4f5f6f7")
same(rulebook.ones_complement_sum(example), 0xDDF2)
same(rulebook.check_of(example), 0x220D)
same(rulebook.check_of(bytes(510)), 0xFFFF)
same(rulebook.check_of(bytes([0xFF] * 510)), 0)

# To add in one's complement is to add modulo 65535, but that a sum of words
# that are not all zero is never written 0.
chance = random.Random(1)
for _ in range(50):
    data = chance.randbytes(510)
    remainder = int.from_bytes(data, "big") % 65535
    same(rulebook.ones_complement_sum(data), remainder or 65535)

# The example block: every byte, written out.
example_rule = Rule(0xC0000200, 24, 1, 0, 65535)
example_block = bytes.fromhex(
    "25fd" "00" "01" + "00" * 12 + "c0000200" "18" "01" "0000" "ffff" "0000"
    + "00" * 484)
same(rulebook.make_block(0, [example_rule]), example_block)
same(rulebook.block_damage(example_block, 0, 1), None)
same(rulebook.block_damage(example_block, 1, 1), 18)
same(rulebook.block_damage(example_block, 0, 2), 18)
same(rulebook.block_damage(bytes(512), 0, 1), 17)

# The open rule in one slot: 0x0001 + 0xffff is 0x0001 again.
memory = bytearray([7] * 512)
same(answer(rulebook.format_blocks, memory, 33), (1, 2, 0))
same(memory, bytes([7] * 512))
same(answer(rulebook.format_blocks, memory, 1), None)
same(memory[:4].hex(), "fffe0001")
same(memory[16:28].hex(), "000000000000" "0000" "ffff" "0000")
same(any(memory[28:]), False)

# Put and get in the same slot: the example again.
store = BlockStore(memory, 1)
same(answer(store.get, 0), OPEN_RULE)
same(answer(store.put, 0, example_rule), None)
same(memory, example_block)
same(answer(store.get, 0), example_rule)
same(answer(store.get, 1), (3, 2, 1))
same(answer(store.put, 4294967295, example_rule), (3, 2, 4294967295))

# Damages. A zero word made 0xffff leaves the check as it is.
for offset, number in ((4, 18), (14, 18), (26, 19), (28, 19), (510, 19)):
    memory[offset:offset + 2] = b"\xff\xff"
    same(answer(store.get, 0), (number, 1, 0))
    same(answer(store.put, 0, OPEN_RULE), (number, 1, 0))
    memory[offset:offset + 2] = b"\0\0"
memory[511] = 1
same(answer(store.get, 0), (17, 1, 0))
memory[511] = 0
same(memory, example_block)

# Two blocks: the damage of one is not told by the other.
memory = bytearray(1024)
rulebook.format_blocks(memory, 33)
same(memory[512:516].hex(), "fefe0101")
memory[512] ^= 0x80
store = BlockStore(memory, 33)
same(answer(store.get, 31), OPEN_RULE)
same(answer(store.get, 32), (17, 1, 1))
same(answer(store.get, 33), (3, 2, 33))

# Sizes.
for count, length, fits in (
        (0, 0, False), (0, 512, False), (1, 512, True), (32, 512, True),
        (32, 1024, False), (33, 512, False), (33, 1024, True),
        (64, 1024, True), (64, 1025, False), (65, 1536, False)):
    wanted = None if fits else (1, 2, 0)
    same(answer(rulebook.check_blocks, bytes(length), count), wanted)
    same(BlockStore(bytearray(length), count).count, count if fits else 0)

# The table.
same(TableStore([]).count, 0)
same(TableStore([OPEN_RULE] * 64).count, 64)
same(answer(TableStore([OPEN_RULE] * 65).get, 0), (3, 2, 0))
table = TableStore([OPEN_RULE, Rule(0, 33, 0, 0, 0)])
same(answer(table.put, 0, example_rule), None)
same(answer(table.get, 0), example_rule)
same(answer(table.get, 1), (19, 1, 0))
same(answer(table.put, 1, OPEN_RULE), (19, 1, 0))
same(answer(table.get, 2), (3, 2, 2))

# Texts.
for text, wanted in (
        (b"0.0.0.0/0 allow 0-65535", OPEN_RULE),
        (b"192.0.2.0/24 block 0-65535", example_rule),
        (b"255.255.255.255/32 allow 7-7", Rule(0xFFFFFFFF, 32, 0, 7, 7)),
        (b"128.0.0.0/1 block 80-443", Rule(0x80000000, 1, 1, 80, 443))):
    same(answer(rulebook.read_rule, text), wanted)
    same(rulebook.write_rule(wanted), text)

for text, wanted in (
        (b"", (21, 4, 0)),
        (b" ", (21, 4, 0)),
        (b"1.2.3.4/32", (21, 4, 10)),
        (b"1.2.3.4/32 ", (21, 4, 11)),
        (b"1.2.3.4/32 allow", (21, 4, 16)),
        (b"1.2.3.4/32 allow ", (21, 4, 17)),
        (b"1.2.3.4/32 allow 1-2 ", (21, 4, 21)),
        (b"1.2.3.4/32 allow 1-2 x y", (21, 4, 21)),
        (b" 1.2.3.4/32 allow 1-2", (21, 4, 0)),
        (b"1.2.3.4/32  allow 1-2", (21, 4, 11)),
        (b"1.2.3.4/32 Allow 1-2", (21, 4, 11)),
        (b"1.2.3.4/32 allow 2-1", (20, 4, 0)),
        (b"1.2.3.4/32 allow 1-65536", (21, 4, 17)),
        (b"1.2.3.4/32 allow 1-2\n", (21, 4, 17)),
        (b"1.2.3.4/33 allow 1-2", (20, 4, 0)),
        (b"1.2.3.4/255 allow 1-2", (20, 4, 0)),
        (b"1.2.3.4/256 allow 1-2", (21, 4, 0)),
        (b"1.2.3.4/31 allow 1-2", Rule(0x01020304, 31, 0, 1, 2)),
        (b"1.2.3.4/30 allow 1-2", Rule(0x01020304, 30, 0, 1, 2)),
        (b"1.2.3.4/29 allow 1-2", (20, 4, 0)),
        (b"1.2.3.04/32 allow 1-2", (21, 4, 0)),
        (b"1.2.3/32 allow 1-2", (21, 4, 0)),
        (b"1.2.3.4/33 allow 1-02", (21, 4, 17)),
        (b"1.2.3.4/33 deny 1-02", (21, 4, 11))):
    same(answer(rulebook.read_rule, text), wanted)

# Addresses and prefixes, against the ipaddress module.
for _ in range(200):
    prefix = chance.randrange(33)
    address = chance.getrandbits(32) >> chance.randrange(33)
    address = address << chance.randrange(33) & 0xFFFFFFFF
    range_text = f"{ipaddress.IPv4Address(address)}/{prefix}"
    try:
        ipaddress.IPv4Network(range_text)
        wanted = Rule(address, prefix, 0, 0, 1)
    except ValueError:
        wanted = (20, 4, 0)
    same(answer(rulebook.read_rule, f"{range_text} allow 0-1".encode()), wanted)

print(f"reference: {passed} checks passed")
