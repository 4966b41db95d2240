"""Make test cases of the rule formats, with the answers expected.

    python3 reference/make_cases.py DIR

writes DIR/stdin, one command a line, and DIR/stdout, one answer a line. The
cases are the same at every run.

The commands (numbers are decimal, HEX is bytes in lower-case hex, `-` for
none); a refused one is answered by the three numbers of its refusal:

    text HEX                     read a rule's text            0 TEXT
    parts RULE                   make a rule                   0 TEXT
    memory COUNT LENGTH HEX      new memory: HEX, then zeros   0
    format COUNT                 format the memory             0
    count                        slots of the block store      0 N
    get SLOT                                                   0 TEXT
    put SLOT RULE                                              0
    poke OFFSET BYTE             set a byte of the memory      0
    dump                         memory, less ending zeros     0 HEX
    image                        open the memory as an image   0 N
    rows COUNT                   new table of open rules       0
    row INDEX RULE               set a row as it is            0
    tcount, tget SLOT, tput SLOT RULE: the same on the table store

RULE is five numbers: address, prefix length, action, first and last port.
"""

import itertools
import pathlib
import random
import sys

import rulebook
from rulebook import OPEN_RULE, BlockStore, Refusal, Rule, TableStore


class Machine:
    """Answers commands. Each method is the command of its name; it gives
    what stands behind the 0 of the answer, or None for nothing."""

    def __init__(self):
        self.store = BlockStore(bytearray(), 0)
        self.table = TableStore([])

    def answer(self, line):
        name, *fields = line.split(" ")
        try:
            result = getattr(self, name)(*fields)
        except Refusal as refusal:
            return str(refusal)
        return "0" if result is None else f"0 {result}"

    def text(self, text):
        return show(rulebook.read_rule(from_hex(text)))

    def parts(self, *parts):
        return show(rulebook.make_rule(*map(int, parts)))

    def memory(self, count, length, start):
        memory = bytearray(from_hex(start).ljust(int(length), b"\0"))
        self.store = BlockStore(memory, int(count))
        rulebook.check_blocks(memory, int(count))

    def format(self, count):
        rulebook.format_blocks(self.store.memory, int(count))
        self.store = BlockStore(self.store.memory, int(count))

    def count(self):
        return self.store.count

    def get(self, slot):
        return show(self.store.get(int(slot)))

    def put(self, slot, *parts):
        self.store.put(int(slot), rulebook.make_rule(*map(int, parts)))

    def poke(self, offset, byte):
        self.store.memory[int(offset)] = int(byte)

    def image(self):
        return rulebook.open_image(self.store.memory).count

    def dump(self):
        return to_hex(self.store.memory.rstrip(b"\0"))

    def rows(self, count):
        self.table = TableStore([OPEN_RULE] * int(count))
        rulebook.check_table(self.table.rows)

    def row(self, index, *parts):
        self.table.rows[int(index)] = Rule(*map(int, parts))

    def tcount(self):
        return self.table.count

    def tget(self, slot):
        return show(self.table.get(int(slot)))

    def tput(self, slot, *parts):
        self.table.put(int(slot), rulebook.make_rule(*map(int, parts)))


def show(rule):
    return rulebook.write_rule(rule).decode()


def to_hex(data):
    return data.hex() or "-"


def from_hex(text):
    return b"" if text == "-" else bytes.fromhex(text)


chance = random.Random(12345)
machine = Machine()
lines = []
answers = []


def case(name, *fields):
    """Add a command, and give its answer. Bytes are written in hex, a rule
    as its five numbers."""
    words = [name]
    for field in fields:
        if isinstance(field, (bytes, bytearray)):
            words.append(to_hex(field))
        elif isinstance(field, tuple):
            words.extend(map(str, field))
        else:
            words.append(str(field))
    lines.append(" ".join(words))
    answers.append(machine.answer(lines[-1]))
    return answers[-1]


# Things by chance

def on_boundary(address, prefix):
    """The address with the bits behind the prefix set to zero."""
    step = 2 ** (32 - prefix)
    return address // step * step


def some_ports():
    highest = chance.choice((9, 1023, 65535, 65535))
    return sorted(chance.randint(0, highest) for _ in range(2))


def some_rule():
    prefix = chance.choice((0, 8, 16, 24, 31, 32, *range(33)))
    address = on_boundary(chance.getrandbits(32), prefix)
    return Rule(address, prefix, chance.randrange(2), *some_ports())


def some_parts():
    """Five parts of the right widths, often no rule."""
    prefix = chance.choice((0, 24, 32, 33, 255, chance.randrange(256)))
    address = chance.getrandbits(32)
    if prefix <= 32 and chance.randrange(4):
        address = on_boundary(address, prefix)
    action = chance.choice((0, 1, 1, 0, 2, chance.randrange(256)))
    ports = some_ports()
    if chance.randrange(4) == 0:
        ports.reverse()
    return Rule(address, prefix, action, *ports)


BROKEN_PARTS = (
    Rule(0, 33, 0, 0, 0),
    Rule(0, 255, 0, 0, 0),
    Rule(1, 31, 0, 0, 0),
    Rule(0x80000000, 0, 1, 0, 0),
    Rule(0xC0000201, 24, 1, 0, 65535),
    Rule(0, 0, 2, 0, 0),
    Rule(0, 0, 255, 0, 0),
    Rule(0, 0, 0, 1, 0),
    Rule(0, 0, 0, 65535, 65534),
    Rule(0xFFFFFFFF, 255, 255, 65535, 0),
)


# Texts

GOOD_TEXT = b"192.0.2.0/24 block 0-65535"

WRITTEN_NUMBERS = (
    b"0 00 010 9 10 99 100 199 200 249 250 255 256 260 300 999 1000 01 -1 +1 a"
    b" 0x1 1_0 4294967295 4294967296 4294967551"
    b" 18446744073709551615 18446744073709551616 18446744073709551626"
    b" 340282366920938463463374607431768211456"
    b" 00000000000000000001"
    b" 999999999999999999999999999999").split(b" ")
WRITTEN_NUMBERS += [b"", b" 1", b"1 ", b"2 5", b"1\0", b"\xd9\xa1", b"\xb2"]


def octet_texts():
    for place in range(4):
        for number in WRITTEN_NUMBERS:
            octets = [b"1", b"20", b"0", b"0"]
            octets[place] = number
            case("text", b".".join(octets) + b"/32 allow 80-443")


def prefix_texts():
    for number in [b"1", b"31", b"32", b"33", b"032", b"128", b"254",
                   b"257", b"288", *WRITTEN_NUMBERS]:
        case("text", b"0.0.0.0/" + number + b" allow 80-443")
    for number in range(34):
        case("text", b"10.16.64.0/%d block 0-0" % number)


def port_texts():
    for number in [b"007", b"65534", b"65535", b"65536", b"65616", b"99999",
                   b"100000", *WRITTEN_NUMBERS]:
        case("text", b"10.0.0.0/8 allow " + number + b"-65535")
        case("text", b"10.0.0.0/8 block 0-" + number)
    for ports in (b"0-0", b"9-9", b"65535-65535", b"1-0", b"10-9", b"9-10",
                  b"65535-0", b"65535-65534", b"", b"-", b"--", b"1", b"1-",
                  b"-1", b"1--2", b"1-2-", b"1-2-3", b"-1-2", b"1:2", b"1_2",
                  b"1\xe2\x80\x932", b"all", b"0-65535,1"):
        case("text", b"10.0.0.0/8 allow " + ports)


def action_texts():
    for action in (b"Allow", b"ALLOW", b"allo", b"llow", b"allows", b"alow",
                   b"alloW", b"Block", b"BLOCK", b"bloc", b"lock", b"blocks",
                   b"blocK", b"allowblock", b"allow,block", b"deny", b"0",
                   b"1", b"a", b"", b"\0allow", b"allow\0", b"block\t",
                   b"block\r", b"\xe1llow", b"a\xcc\x81llow"):
        case("text", b"10.0.0.0/8 " + action + b" 0-65535")


def address_texts():
    for addresses in (b"", b"/", b".", b"...", b".../", b"1.2.3.4", b"1.2.3.4/",
                      b"/32", b"1.2.3.4//32", b"1.2.3.4/32/", b"1.2.3.4/32/32",
                      b"1.2.3.4/3/2", b"/1.2.3.4/32", b"1.2.3/32", b"1.2/32",
                      b"1/32", b"1.2.3.4.5/32", b"1.2.3.4./32", b".1.2.3.4/32",
                      b"1..2.3/32", b"1..2.3.4/32", b"1,2,3,4/32",
                      b"1.2.3.4\\32", b"1.2.3.4-32", b"1.2.3/4.32",
                      b"1.2.3.4/3.2", b"1.2.3.4/.32", b"16909060/32",
                      b"0x01.2.3.4/32", b"::1/128", b"any", b"1.2.3.4/32.",
                      b"255.255.255.255/32", b"255.255.255.255/31",
                      b"255.255.255.254/31", b"128.0.0.0/1", b"64.0.0.0/1",
                      b"0.0.0.1/0", b"0.0.0.0/0", b"0.0.0.0/32"):
        case("text", addresses + b" allow 1-2")


def space_texts():
    fields = GOOD_TEXT.split(b" ")
    for count in range(len(fields) + 1):
        case("text", b" ".join(fields[:count]))
        case("text", b" ".join(fields[:count]) + b" ")
        case("text", b" ".join(fields[:count]) + b"  ")
        case("text", b" " + b" ".join(fields[:count]))
        case("text", b" ".join(fields[count:]))
    for space in (b"  ", b"   ", b"\t", b"\n", b"\r", b"\0", b"\xa0", b" \t",
                  b"\xc2\xa0", b"", b"+", b"_"):
        case("text", fields[0] + space + fields[1] + b" " + fields[2])
        case("text", fields[0] + b" " + fields[1] + space + fields[2])
        case("text", space.join(fields))
        case("text", space + GOOD_TEXT)
        case("text", GOOD_TEXT + space)
    for more in (b" x", b" x y", b"  x", b" 0", b" " + GOOD_TEXT,
                 b"\n" + GOOD_TEXT, b"\r\n", b" #", b"\xff"):
        case("text", GOOD_TEXT + more)
    case("text", b"a" * 1000)
    case("text", b" " * 1000)
    case("text", b"0" * 1000)
    case("text", b"1.2.3.4/" + b"9" * 1000 + b" allow 1-2")
    case("text", b"1.2.3.4/32 " + b"allow" * 200 + b" 1-2")
    case("text", b"1.2.3.4/32 allow 1-" + b"1" * 1000)
    case("text", GOOD_TEXT + b" " + b"a" * 1000)


def several_errors():
    """Good, ruleless, unreadable and empty fields in all mixtures."""
    for fields in itertools.product(
            (b"1.2.3.4/32", b"1.2.3.4/33", b"1.2.3.4", b""),
            (b"block", b"Block", b""),
            (b"1-2", b"2-1", b"1-65536"),
            ((), (b"",), (b"x",))):
        *first_three, fourth = fields
        case("text", b" ".join([*first_three, *fourth]))


def text_bytes():
    """Bytes near to those that are read, at every place of a text."""
    text = b"1.20.0.0/32 allow 5-67"
    for place in range(len(text)):
        for byte in b"\x00 /:\xb0":
            case("text", text[:place] + bytes([byte]) + text[place + 1:])


def mutated(text):
    place = chance.randrange(len(text))
    byte = bytes([chance.choice((chance.randrange(256),
                                 *b"0123456789 ./-"))])
    yield text[:place] + byte + text[place + 1:]
    yield text[:place] + byte + text[place:]
    yield text[:place] + text[place + 1:]
    yield text[:place] + text[place:place + 1] + text[place:]
    yield text[:place]


def chance_texts():
    texts = [rulebook.write_rule(some_rule()) for _ in range(25)]
    for text in [rulebook.write_rule(OPEN_RULE), GOOD_TEXT, *texts]:
        case("text", text)
        for changed in mutated(text):
            case("text", changed)
    for _ in range(10):
        case("text", chance.randbytes(chance.randrange(1, 40)))


# Parts

def parts_cases():
    case("parts", OPEN_RULE)
    for parts in BROKEN_PARTS:
        case("parts", parts)
    for prefix in (*range(34), 64, 128, 255):
        step = 2 ** max(0, 32 - prefix)
        on = chance.getrandbits(32) // step * step
        for address in (on, on + step // 2, on + step - 1):
            case("parts", Rule(address, prefix, chance.randrange(2),
                               *some_ports()))
    for action in (0, 1, 2, 3, 128, 254, 255):
        case("parts", Rule(0x0A000000, 8, action, 80, 443))
    for first, last in itertools.product((0, 255, 256, 65535), repeat=2):
        case("parts", Rule(0x0A000000, 8, 1, first, last))
    for _ in range(50):
        case("parts", some_parts())


# The block store

def image(rules):
    """The memory of a block store with these rules."""
    return b"".join(
        rulebook.make_block(number, rules[start:start + rulebook.BLOCK_SLOTS])
        for number, start in enumerate(
            range(0, len(rules), rulebook.BLOCK_SLOTS)))


def with_right_check(block):
    return rulebook.block_check(block).to_bytes(2, "big") + block[2:]


def sizes():
    counts = (0, 1, 31, 32, 33, 63, 64, 65, 255, 4294967295)
    lengths = (0, 1, 511, 512, 513, 1023, 1024, 1025, 1536, 2048)
    for length in lengths:
        start = chance.randbytes(min(length, 6))
        for count in counts:
            case("memory", count, length, start)
            case("count")
            case("get", 0)
            case("dump")
        for count in counts:
            case("format", count)
            case("count")
            case("get", 0)
            case("dump")
    # A refused format leaves a store in use as it was.
    case("memory", 4, 512, image([some_rule() for _ in range(4)]))
    for count in (0, 33, 64, 65, 4294967295):
        case("format", count)
        case("count")
        case("get", 3)
        case("get", 4)
    # Counts that may seem to fit where they, or the bytes that they ask for,
    # are cut to 8, 16 or 32 bits.
    for count in (256, 257, 288, 65537, 65568, 268435457, 268435489,
                  4294967265):
        case("memory", count, 512, b"")
        case("memory", count, 1024, b"")
        case("format", count)
    # A refused memory has no slots, whatever it holds.
    case("memory", 33, 512, image([OPEN_RULE] * 32))
    case("count")
    case("get", 0)
    case("put", 0, OPEN_RULE)
    case("put", 4294967295, some_rule())
    case("put", 0, BROKEN_PARTS[0])
    case("dump")


def formats():
    case("memory", 1, 512, chance.randbytes(512))
    for count in range(1, 65):
        if count == 33:
            case("memory", 33, 1024, chance.randbytes(1024))
        case("format", count)
        case("get", 0)
        case("get", count - 1)
        case("get", count)
        if count in (1, 2, 31, 32, 33, 34, 63, 64):
            case("count")
            case("dump")


def puts():
    for count in (1, 4, 32, 33, 40, 64):
        case("memory", count, 512 if count <= 32 else 1024, b"")
        case("format", count)
        for _ in range(8):
            slot = chance.randrange(count)
            case("put", slot, some_rule())
            case("get", slot)
            case("get", chance.randrange(count))
        case("put", count - 1, some_rule())
        case("get", count - 1)
        case("dump")
        for slot in (count, 64, 4294967295):
            case("put", slot, some_rule())
            case("get", slot)
        case("put", 0, chance.choice(BROKEN_PARTS))
        case("put", count, chance.choice(BROKEN_PARTS))
        case("dump")


def poke_check(number):
    """Set the check of a block right, by pokes of the bytes that differ."""
    start = rulebook.BLOCK_SIZE * number
    block = machine.store.block(number)
    for index, byte in enumerate(with_right_check(block)[:2]):
        if block[index] != byte:
            case("poke", start + index, byte)


def try_damaged(slot, with_put):
    """Get a slot. If it is damaged, a put must change nothing."""
    damaged = not case("get", slot).startswith("0 ")
    if damaged and with_put:
        case("put", slot, some_rule())
        case("dump")


def every_byte(number, with_check):
    """Change each byte of a block in turn, and change it back. With
    with_check, the check is also set right behind the change."""
    start = rulebook.BLOCK_SIZE * number
    first_slot = rulebook.BLOCK_SLOTS * number
    slots = rulebook.slots_in_block(machine.store.count, number)
    for index in range(rulebook.BLOCK_SIZE):
        with_put = chance.randrange(40) == 0
        old = machine.store.memory[start + index]
        case("poke", start + index, old ^ chance.randrange(1, 256))
        try_damaged(first_slot + chance.randrange(slots), with_put)
        if chance.randrange(24) == 0:
            case("get", chance.randrange(machine.store.count + 1))
        if with_check and index >= 2:
            poke_check(number)
            block = machine.store.block(number)
            if rulebook.block_damage(block, number, slots) is None:
                # The rule with this byte is another one now.
                case("get", first_slot + (index - 16) // 12)
            else:
                # Any slot of the block tells of it.
                try_damaged(first_slot + chance.randrange(slots), with_put)
        case("poke", start + index, old)
        poke_check(number)
    case("get", first_slot)
    case("dump")


def damages():
    host = Rule(0xC6336407, 32, 1, 80, 443)
    case("memory", 4, 512, b"")
    case("format", 4)
    case("put", 0, Rule(0xC0000200, 24, 1, 0, 65535))
    case("put", 2, host)
    every_byte(0, with_check=True)
    case("memory", 40, 1024, b"")
    case("format", 40)
    for slot in (0, 33, 39):
        case("put", slot, host)
    every_byte(1, with_check=False)


def look(count):
    """Ask the first and the last slot of each block, and try a put."""
    for slot in sorted({0, min(31, count - 1), min(32, count - 1), count - 1}):
        case("get", slot)
    case("put", count - 1, some_rule())
    case("get", count - 1)


def whole_images():
    # Sound ones.
    for count in (1, 32, 33, 64):
        rules = [some_rule() for _ in range(count)]
        case("memory", count, len(image(rules)), image(rules))
        look(count)
    # A block read with another count, or at another place.
    rules = [some_rule() for _ in range(40)]
    for count in (1, 4, 31, 32):
        case("memory", count, 512, image(rules[:5]))
        look(count)
    for count in (33, 39, 41, 64):
        case("memory", count, 1024, image(rules))
        look(count)
    case("memory", 64, 1024, image(rules[:32]) * 2)
    look(64)
    case("memory", 8, 512, image(rules)[512:])
    look(8)
    case("memory", 40, 1024, image(rules)[512:] + image(rules)[:512])
    look(40)
    # Each block with a damage of its own.
    memory = bytearray(image(rules))
    memory[9] ^= 1
    memory[600] ^= 1
    case("memory", 40, 1024, memory)
    look(40)
    memory[:512] = with_right_check(memory[:512])
    case("memory", 40, 1024, memory)
    look(40)
    # Words that change places leave the check as it is.
    memory = bytearray(image(rules[:2]))
    memory[16:28], memory[28:40] = memory[28:40], memory[16:28]
    case("memory", 2, 512, memory)
    look(2)
    # So does a zero word made 0xFFFF.
    case("memory", 4, 512, image(rules[:4]))
    for offset in (4, 8, 14, 26, 38, 62, 64, 300, 510):
        case("poke", offset, 255)
        case("get", 3)
        case("poke", offset + 1, 255)
        case("get", 3)
        case("put", 3, some_rule())
        case("poke", offset, 0)
        case("poke", offset + 1, 0)
        case("get", 3)
    # Records that are no rules, under a right check.
    for parts in BROKEN_PARTS:
        index = chance.randrange(4)
        broken = list(rules[:4])
        broken[index] = parts
        case("memory", 4, 512, image(broken))
        case("get", 3 - index)
    # The same behind the slots in use: there it is a byte that is not zero.
    block = bytearray(image(rules[:4]))
    block[3] = 3
    case("memory", 3, 512, with_right_check(block))
    look(3)


def check_values():
    """Blocks whose other words add to 0xFFFF, or to 0."""
    # The ports are chosen so that the sum comes out.
    rest = rulebook.ones_complement_sum(
        image([Rule(0x0A000000, 8, 1, 0, 0)])[2:])
    rule = Rule(0x0A000000, 8, 1, 0, 0xFFFF - rest)
    block = image([rule])
    assert block[:2] == b"\0\0"
    for field in (b"\0\0", b"\xff\xff", b"\0\xff", b"\xff\0", b"\0\1"):
        case("memory", 1, 512, field + block[2:])
        case("get", 0)
        case("put", 0, OPEN_RULE)
        case("dump")
    case("format", 1)
    case("put", 0, rule)
    case("dump")
    case("get", 0)
    case("put", 0, rule)
    case("get", 0)
    # Bodies that are otherwise not as laid out.
    for body in (bytes(510), b"\xff" * 510, bytes(508) + b"\xff\xff",
                 b"\xff\xff" + bytes(508), b"\0\1" + bytes(506) + b"\xff\xfe",
                 b"\0\1" + bytes(506) + b"\xff\xff"):
        for field in (b"\0\0", b"\xff\xff"):
            for count in (1, 32):
                case("memory", count, 512, field + body)
                case("get", 0)
    # Many carries.
    full = Rule(0xFFFFFFFF, 32, 1, 65535, 65535)
    for parts in (full, Rule(0xFFFE0000, 15, 1, 1, 65535),
                  Rule(0x00FF00FF, 32, 0, 255, 65280)):
        for count in (1, 2, 32):
            case("memory", count, 512, image([parts] * count))
            case("get", count - 1)
            case("put", 0, some_rule())
            case("dump")
    # Carries that make one more carry, where all are added back at the end.
    block = image([full] * 31 + [Rule(0, 0, 0, 0, 0)])
    plain_sum = sum(block[2::2]) * 256 + sum(block[3::2])
    for port in range(65536):
        carries, word = divmod(plain_sum + port, 65536)
        if carries + word == 65536:
            rule = Rule(0, 0, 0, 0, port)
            case("memory", 32, 512, image([full] * 31 + [rule]))
            case("get", 31)
            case("memory", 32, 512, block)
            case("put", 31, rule)
            case("get", 31)
            case("dump")


def random_blocks():
    for _ in range(30):
        slots = chance.randrange(1, 33)
        case("memory", slots, 512, chance.randbytes(512))
        case("get", chance.randrange(slots))
    # With a right check; then with more and more that is right.
    for number in range(24):
        slots = chance.randrange(1, 33)
        sound = image([some_rule() for _ in range(slots)])
        end = (2, 16, rulebook.record_place(slots), 512)[number % 4]
        block = bytearray(sound[:end] + chance.randbytes(512 - end))
        if end == 512:
            block[chance.randrange(512)] = chance.randrange(256)
        case("memory", slots, 512, with_right_check(block))
        case("get", chance.randrange(slots))
        case("put", chance.randrange(slots), some_rule())


# Images

def images():
    for length in (0, 1, 511, 512, 513, 1023, 1024, 1025, 1536, 2048):
        case("memory", 1, length, b"\x00\x00\x00\x01")
        case("image")
    for count in range(1, 65):
        case("memory", count, 512 * rulebook.block_count(count), b"")
        case("format", count)
        case("image")
    # Every byte 3 of the last block, with its check left wrong and set right.
    for count in (4, 40):
        number = rulebook.block_count(count) - 1
        for slots in range(256):
            case("memory", count, 512 * (number + 1), b"")
            case("format", count)
            case("poke", 512 * number + 3, slots)
            if slots % 2:
                poke_check(number)
            case("image")
    # Damage in either block, and in both.
    for places in ((100,), (700,), (100, 700), (3,), (3, 515), (515, 100)):
        case("memory", 40, 1024, b"")
        case("format", 40)
        for place in places:
            case("poke", place, 0)
            case("poke", place + 1, 77)
        case("image")


# The table store

def tables():
    case("tcount")
    case("tget", 0)
    case("tput", 0, OPEN_RULE)
    for count in (0, 1, 4, 64, 65):
        case("rows", count)
        case("tcount")
        for slot in (0, max(0, count - 1), count, 256, 4294967295):
            case("tget", slot)
            case("tput", slot, some_rule())
            case("tget", slot)
        case("tput", 0, BROKEN_PARTS[0])
        case("tput", count, BROKEN_PARTS[1])
    for parts in BROKEN_PARTS:
        case("rows", 4)
        case("row", 2, parts)
        case("tget", 2)
        case("tput", 2, some_rule())
        case("tput", 1, some_rule())
        case("tget", 1)
        case("row", 2, some_rule())
        case("tget", 2)
    for count in (1, 4, 64, 65):
        case("rows", count)
        for _ in range(6):
            slot = chance.randrange(count)
            case("row", slot, some_parts())
            case("tget", slot)
            case("tput", chance.randrange(count), some_parts())
            case("tget", chance.randrange(count + 1))
        case("tcount")


def before_all():
    """The stores before anything is made."""
    for name in ("count", "dump", "tcount"):
        case(name)
    for name in ("get", "tget"):
        case(name, 0)
        case(name, 4294967295)
    case("put", 0, OPEN_RULE)
    case("tput", 0, OPEN_RULE)
    case("format", 0)
    case("format", 1)


def main():
    if len(sys.argv) != 2:
        sys.exit("usage: make_cases.py DIR")
    for group in (before_all, octet_texts, prefix_texts, port_texts,
                  action_texts, address_texts, space_texts, several_errors,
                  text_bytes, chance_texts, parts_cases, sizes, formats, puts,
                  damages, whole_images, check_values, random_blocks, tables, images):
        group()
    folder = pathlib.Path(sys.argv[1])
    folder.mkdir(parents=True, exist_ok=True)
    for name, content in (("stdin", lines), ("stdout", answers)):
        (folder / name).write_bytes("\n".join([*content, ""]).encode())


if __name__ == "__main__":
    main()
