"""Checks of the book and of the law, with what is wanted worked out by
hand."""

import sys

import broken
import law
import lines
import make_scripts
import rulebook
from book import Book
from lines import CLOCK, TICKET, Call, Learnt
from rulebook import OPEN_RULE, BlockStore, Refusal, Rule, TableStore

passed = 0


def same(got, wanted):
    global passed
    if got != wanted:
        sys.exit(f"book: got {got!r}, wanted {wanted!r}")
    passed += 1


OPEN = "0.0.0.0/0 allow 0-65535"
BLOCK = "192.0.2.0/24 block 0-65535"
WEB = "10.0.0.0/8 block 80-443"
BLOCK_RULE = Rule(0xC0000200, 24, 1, 0, 65535)
TOP = 4294967295


def table_book(count=4):
    return Book(TableStore([OPEN_RULE] * count))


def asked(the_book, line, kind=CLOCK):
    """The answer to a line, without the line's number."""
    answer = the_book.ask_line(line.encode(), kind)
    return lines.write_answer(1, answer).decode().removeprefix("1 ")


def talk(the_book, text, kind=CLOCK):
    """Lines, each with the answer wanted behind an arrow; no arrow means that
    the call is done without a value."""
    for line in text.strip().splitlines():
        line, _, wanted = line.strip().partition(" -> ")
        same((line, asked(the_book, line, kind)), (line, wanted or "0"))



# The worked script.
script = b"""\
b 0
f 0 3
r 0 3
w 0 3 192.0.2.0/24 block 0-65535
p 0 7.1
c 0
p 0 8.1
f 1 9
l 0
"""
wanted = b"""\
1 0
2 0 0.0.0.0/0 allow 0-65535
3 0 0.0.0.0/0 allow 0-65535
4 0
5 0 0
6 0 1
7 4 3 0
8 3 3 9
9 0 1 - 0
"""
same(table_book().run(script, CLOCK), wanted)
same(table_book().run(script[:-1], CLOCK), wanted)
same(table_book().run(b"", CLOCK), b"")
same(table_book().run(b"\n\r\nb 0", TICKET), b"1 21 4 0\n2 21 4 0\n3 0\n")

# An empty change at the earliest stamp.
talk(table_book(), """
b 0
p 0 0.0 -> 0 0
c 0 -> 0 0
""")

# A stamp twice, first pending, then committed.
talk(table_book(), """
b 0
p 0 5.1 -> 0 0
b 1
p 1 5.1 -> 10 3 0
c 0 -> 0 0
p 1 5.1 -> 10 3 0
p 1 5.2 -> 0 1
""")

# The stamp of an aborted change may be used again.
talk(table_book(), """
b 0
p 0 5.1 -> 0 0
a 0
b 1
p 1 5.1 -> 0 0
""")

# The threshold.
talk(table_book(), """
t 5.1 -> 0 0
b 0
p 0 5.1 -> 9 3 0
p 0 4.65535 -> 9 3 0
t 4.0 -> 0 0
p 0 5.0 -> 9 3 0
p 0 5.2 -> 0 0
""")
talk(table_book(), """
t 0 -> 0 0
b 0
p 0 0 -> 9 3 0
p 0 1 -> 0 0
""", TICKET)

# A later entry that has read what the change writes.
for stamp, answer in (("4.0", "12 3 0"), ("10.0", "0 1")):
    talk(table_book(), f"""
    f 0 1 -> 0 {OPEN}
    b 0
    r 0 1 -> 0 {OPEN}
    p 0 9.0 -> 0 0
    f 1 1 -> 0 {OPEN}
    b 1
    r 1 1 -> 0 {OPEN}
    w 1 1 {BLOCK}
    p 1 {stamp} -> {answer}
    """)

# A pending entry that writes what the change has read; then a stale copy,
# though the rule put is the one that was there.
for rule in (BLOCK, OPEN):
    talk(table_book(), f"""
    f 0 1 -> 0 {OPEN}
    b 0
    r 0 1 -> 0 {OPEN}
    w 0 1 {rule}
    p 0 4.0 -> 0 0
    f 1 1 -> 0 {OPEN}
    b 1
    r 1 1 -> 0 {OPEN}
    p 1 9.0 -> 13 3 0
    c 0 -> 0 1
    p 1 9.0 -> 14 3 1
    l 1 -> 0 1 1 1
    f 1 1 -> 0 {rule}
    b 1
    r 1 1 -> 0 {rule}
    p 1 9.0 -> 0 1
    """)

# A pending change goes on at a learn.
talk(table_book(), f"""
f 0 1 -> 0 {OPEN}
b 0
r 0 1 -> 0 {OPEN}
p 0 4.0 -> 0 0
f 1 1 -> 0 {OPEN}
b 1
r 1 1 -> 0 {OPEN}
w 1 1 {BLOCK}
p 1 9.0 -> 0 1
c 1 -> 0 1
l 0 -> 0 1 1 0
c 0 -> 0 1
r 0 1 -> 4 3 0
b 0
r 0 1 -> 6 3 1
""")

# A receipt leaves the notices that are newer.
talk(table_book(), f"""
f 0 1 -> 0 {OPEN}
f 1 1 -> 0 {OPEN}
b 1
r 1 1 -> 0 {OPEN}
w 1 1 {BLOCK}
p 1 1.0 -> 0 0
c 1 -> 0 1
l 0 -> 0 1 1 0
f 0 1 -> 0 {BLOCK}
b 1
r 1 1 -> 0 {BLOCK}
w 1 1 {WEB}
p 1 2.0 -> 0 1
c 1 -> 0 2
k 0 2 -> 16 3 0
k 0 1
b 0
r 0 1 -> 0 {BLOCK}
p 0 3.0 -> 14 3 1
l 0 -> 0 2 1 1
k 0 2
l 0 -> 0 2 - 0
""")

# The newer notice comes in place of the older one, which a receipt of the
# older number does not take.
talk(table_book(), f"""
f 0 1 -> 0 {OPEN}
f 1 1 -> 0 {OPEN}
b 1
r 1 1 -> 0 {OPEN}
w 1 1 {BLOCK}
p 1 1.0 -> 0 0
c 1 -> 0 1
b 1
r 1 1 -> 0 {BLOCK}
w 1 1 {OPEN}
p 1 2.0 -> 0 1
c 1 -> 0 2
l 0 -> 0 2 1 0
k 0 1
l 0 -> 0 2 1 0
k 0 2
l 0 -> 0 2 - 0
""")

# A full queue.
the_book = table_book()
for number in range(32):
    talk(the_book, f"""
    b 7
    p 7 {number} -> 0 {number}
    c 7 -> 0 0
    """, TICKET)
talk(the_book, """
b 7
p 7 31 -> 10 3 31
p 7 32 -> 11 3 32
t 31 -> 0 32
p 7 31 -> 9 3 0
p 7 32 -> 0 0
""", TICKET)

# The order of the causes 2 to 8.
talk(table_book(), f"""
b 8 -> 2 3 8
f 8 9 -> 2 3 8
r 4294967295 9 -> 2 3 4294967295
w 8 9 {BLOCK} -> 2 3 8
d 9 9 -> 2 3 9
p 8 1.1 -> 2 3 8
c 8 -> 2 3 8
a 8 -> 2 3 8
l 8 -> 2 3 8
k 8 1 -> 2 3 8
f 0 4 -> 3 3 4
r 0 4 -> 3 3 4
w 0 4294967295 {BLOCK} -> 3 3 4294967295
d 0 4 -> 3 3 4
r 0 3 -> 4 3 0
w 0 3 {BLOCK} -> 4 3 0
p 0 1.1 -> 4 3 0
c 0 -> 4 3 0
a 0 -> 4 3 0
d 0 3 -> 6 3 3
b 0
b 0 -> 4 3 0
c 0 -> 4 3 0
r 0 3 -> 6 3 3
w 0 3 {BLOCK} -> 6 3 3
d 0 3 -> 6 3 3
f 0 3 -> 0 {OPEN}
f 0 3 -> 5 3 3
w 0 3 {BLOCK} -> 7 3 3
r 0 3 -> 0 {OPEN}
d 0 3 -> 8 3 3
w 0 3 {BLOCK}
r 0 3 -> 0 {BLOCK}
w 0 3 {WEB}
r 0 3 -> 0 {WEB}
p 0 1.1 -> 0 0
b 0 -> 4 3 0
f 0 2 -> 4 3 0
f 0 4 -> 3 3 4
r 0 3 -> 4 3 0
w 0 3 {BLOCK} -> 4 3 0
d 0 3 -> 4 3 0
p 0 2.1 -> 4 3 0
k 0 1 -> 16 3 0
k 0 0
l 0 -> 0 0 - 0
c 0 -> 0 1
d 0 3
f 0 3 -> 0 {WEB}
w 0 3 10.0.0.1/8 block 80-443 -> 20 4 6
w 0 4 10.0.0.0/8 block 80-443  -> 21 4 30
""")

# A dropped slot keeps its notice until it is fetched; one that is not held
# gets none.
the_book = table_book()
talk(the_book, f"""
f 0 0 -> 0 {OPEN}
f 0 1 -> 0 {OPEN}
f 1 0 -> 0 {OPEN}
f 1 1 -> 0 {OPEN}
f 1 2 -> 0 {OPEN}
b 1
r 1 2 -> 0 {OPEN}
r 1 1 -> 0 {OPEN}
r 1 0 -> 0 {OPEN}
w 1 2 {BLOCK}
w 1 1 {BLOCK}
w 1 0 {BLOCK}
p 1 1.0 -> 0 0
c 1 -> 0 1
d 0 1
b 0
r 0 0 -> 0 {OPEN}
p 0 2.0 -> 14 3 0
l 0 -> 0 1 0,1 1
f 0 0 -> 0 {BLOCK}
l 0 -> 0 1 1 0
k 0 1
l 0 -> 0 1 - 0
l 1 -> 0 1 - 0
""")
same(the_book.store.rows, [BLOCK_RULE] * 3 + [OPEN_RULE])

# A learn without notices of slots that were read ends no change.
talk(table_book(), f"""
f 0 0 -> 0 {OPEN}
f 0 1 -> 0 {OPEN}
f 1 0 -> 0 {OPEN}
b 1
r 1 0 -> 0 {OPEN}
w 1 0 {BLOCK}
p 1 1.0 -> 0 0
b 0
r 0 1 -> 0 {OPEN}
c 1 -> 0 1
l 0 -> 0 1 0 0
r 0 1 -> 0 {OPEN}
r 0 0 -> 6 3 0
f 0 0 -> 0 {BLOCK}
r 0 0 -> 0 {BLOCK}
p 0 2.0 -> 0 1
c 0 -> 0 1
""")

# The first place with a conflict is told, whether pending or committed, the
# session's own too; 12 before 13, 13 before 14.
talk(table_book(), f"""
f 0 0 -> 0 {OPEN}
b 0
p 0 1.0 -> 0 0
c 0 -> 0 0
b 0
r 0 0 -> 0 {OPEN}
p 0 9.0 -> 0 1
c 0 -> 0 0
b 0
r 0 0 -> 0 {OPEN}
w 0 0 {BLOCK}
p 0 8.0 -> 12 3 1
p 0 10.0 -> 0 2
f 1 0 -> 0 {OPEN}
f 1 1 -> 0 {OPEN}
b 1
r 1 0 -> 0 {OPEN}
r 1 1 -> 0 {OPEN}
w 1 1 {BLOCK}
f 2 1 -> 0 {OPEN}
b 2
r 2 1 -> 0 {OPEN}
p 2 12.0 -> 0 3
p 1 9.9 -> 12 3 2
p 1 11.0 -> 12 3 3
p 1 13.0 -> 13 3 2
c 0 -> 0 1
p 1 13.0 -> 14 3 0
p 1 12.0 -> 10 3 3
""")

# Truncation: pending entries stay, and places close up.
talk(table_book(), """
b 0
p 0 1 -> 0 0
b 1
p 1 2 -> 0 1
c 1 -> 0 0
b 1
p 1 5 -> 0 2
c 1 -> 0 0
t 2 -> 0 1
b 1
p 1 2 -> 9 3 0
p 1 5 -> 10 3 1
p 1 1 -> 9 3 0
c 0 -> 0 0
t 0 -> 0 1
t 4294967295 -> 0 1
p 1 4294967295 -> 9 3 0
""", TICKET)

# An abort of a pending change closes up the queue.
talk(table_book(), """
b 0
p 0 1 -> 0 0
b 1
p 1 2 -> 0 1
b 2
p 2 3 -> 0 2
a 1
b 1
p 1 3 -> 10 3 1
a 0
p 1 3 -> 10 3 0
p 1 2 -> 0 1
""", TICKET)

# The numbers come to an end: the notice number with the pending entries that
# write. A change that writes nothing is let past.
the_book = table_book()
the_book.notice_number = TOP - 2
for session in (0, 1, 2):
    talk(the_book, f"""
    f {session} {session} -> 0 {OPEN}
    b {session}
    r {session} {session} -> 0 {OPEN}
    w {session} {session} {BLOCK}
    """)
talk(the_book, f"""
b 3
p 3 1.3 -> 0 0
p 0 1.0 -> 0 1
p 1 1.1 -> 0 2
p 2 1.2 -> 15 3 0
c 0 -> 0 {TOP - 1}
p 2 1.2 -> 15 3 0
c 1 -> 0 {TOP}
p 2 1.2 -> 15 3 0
b 0
p 0 2.0 -> 0 3
c 3 -> 0 {TOP}
a 2
l 2 -> 0 {TOP} - 0
k 2 {TOP}
""")

# Damage: a row, and a block that is damaged while a change is pending.
rows = [OPEN_RULE, Rule(0, 33, 0, 0, 0)]
talk(Book(TableStore(rows)), f"""
f 0 1 -> 19 1 0
f 0 2 -> 3 3 2
f 0 0 -> 0 {OPEN}
""")
memory = bytearray(1024)
rulebook.format_blocks(memory, 33)
the_book = Book(BlockStore(memory, 33))
talk(the_book, f"""
f 0 31 -> 0 {OPEN}
f 0 32 -> 0 {OPEN}
f 0 33 -> 3 3 33
b 0
r 0 31 -> 0 {OPEN}
r 0 32 -> 0 {OPEN}
w 0 32 {BLOCK}
w 0 31 {BLOCK}
p 0 1.0 -> 0 0
""")
before = bytes(memory)
memory[512] ^= 1
talk(the_book, "c 0 -> 17 1 1")
memory[0] ^= 1
talk(the_book, "c 0 -> 17 1 0")
memory[:] = before
talk(the_book, "c 0 -> 0 1")
same(rulebook.record_at(memory, 31), (BLOCK_RULE, 0))
same(rulebook.record_at(memory[512:], 0), (BLOCK_RULE, 0))
same([rulebook.block_damage(memory[:512], 0, 32),
      rulebook.block_damage(memory[512:], 1, 1)], [None, None])

# A store without slots.
talk(Book(TableStore([])), """
b 0
f 0 0 -> 3 3 0
p 0 1.1 -> 0 0
c 0 -> 0 0
""")


# A refused call changes nothing.
def state(the_book):
    return repr([
        [vars(session) for session in the_book.sessions],
        [vars(entry) for entry in the_book.queue],
        the_book.threshold, the_book.notice_number,
        law.entries_of(the_book.store)])


for number in range(60):
    history = make_scripts.History(number)
    the_book = Book(history.new_store())
    for line in history.lines:
        before = state(the_book)
        if isinstance(the_book.ask_line(line, history.kind), Refusal):
            same(state(the_book), before)

# The law, on histories made by hand. Two slots, a to d are rules.
a, b, c, d = (Rule(0, 32, 1, port, port) for port in range(4))


def parts(end, *history):
    """The parts of the law that are broken; both slots begin with a."""
    return sorted({breach.part for breach in law.check([a, a], history, end)})


def took(session, slot, rule):
    return Call("f", session, slot), rule


def begin(session):
    return Call("b", session), None


def reading(session, slot, rule):
    return Call("r", session, slot), rule


def writing(session, slot, rule):
    return Call("w", session, slot, rule=rule), None


def forward(session, stamp, answer=0):
    return Call("p", session, stamp=(stamp, 0)), answer


def commit(session):
    return Call("c", session), 1


def refused(number, place):
    return Refusal(number, 3, place)


same(parts([a, a]), [])
same(parts([a, b]), ["a", "b"])
write_b = [took(0, 1, a), begin(0), reading(0, 1, a), writing(0, 1, b),
           forward(0, 5)]
same(parts([a, a], *write_b), [])
same(parts([a, b], *write_b), ["a", "b"])
write_b.append(commit(0))
same(parts([a, b], *write_b), [])
same(parts([a, a], *write_b), ["a", "b"])
same(parts([b, a], *write_b), ["a", "b"])
# A refused call does nothing; nor does what is struck out.
same(parts([a, b], *write_b, (Call("c", 0), refused(4, 0))), [])
same(parts([a, b], *write_b, begin(0), reading(0, 1, d),
           (Call("a", 0), None)), [])
same(parts([a, b], *write_b, begin(0), reading(0, 1, d),
           (Call("l", 0), Learnt(1, (1,), True))), [])
same(parts([a, b], *write_b, begin(0), reading(0, 1, d), forward(0, 6),
           (Call("a", 0), None)), [])
same(parts([a, b], *write_b, begin(0), reading(0, 1, d), forward(0, 6),
           (Call("t", stamp=(9, 0)), 1), commit(0)), ["a", "b"])
# It reads what it wrote itself.
same(parts([a, c], begin(0), reading(0, 1, a), writing(0, 1, b),
           reading(0, 1, b), writing(0, 1, c), reading(0, 1, c),
           forward(0, 1), commit(0)), [])
same(parts([a, c], begin(0), reading(0, 1, a), writing(0, 1, b),
           reading(0, 1, a), writing(0, 1, c), forward(0, 1), commit(0)),
     ["a", "b"])
# A reader with an earlier stamp that saw the new rule: wrong by stamps only.
same(parts([a, b], *write_b, took(1, 1, b), begin(1), reading(1, 1, b),
           forward(1, 4), commit(1)), ["a"])
same(parts([a, b], *write_b, took(1, 1, b), begin(1), reading(1, 1, b),
           forward(1, 6), commit(1)), [])
# A reader accepted later that saw the old rule: wrong by acceptance only.
same(parts([a, b], took(1, 1, a), begin(1), reading(1, 1, a),
           *write_b[:-1], forward(1, 4), commit(1), commit(0)), ["b"])
same(parts([a, b], took(1, 1, a), begin(1), reading(1, 1, a),
           *write_b[:-1], forward(1, 6), commit(1), commit(0)), ["a", "b"])
# The same stamp twice.
same(parts([a, a], begin(0), forward(0, 1), commit(0), begin(1),
           forward(1, 1), commit(1)), ["a"])
same(parts([a, a], begin(0), forward(0, 1), commit(0), begin(1),
           forward(1, 1)), [])
# Staleness. Session 1 took a copy of slot 1 before it was replaced.
old_copy = [took(1, 1, a), *write_b, begin(1), reading(1, 1, a)]
same(parts([a, b], *old_copy, forward(1, 6, refused(14, 1))), [])
same(parts([a, b], *old_copy, forward(1, 6, refused(14, 0))), ["c"])
same(parts([a, b], *old_copy, forward(1, 6, refused(13, 0))), [])
same(parts([a, b], *old_copy, forward(1, 6, refused(15, 0))), ["c"])
same(parts([a, b], *old_copy, forward(1, 6)), ["c"])
same(parts([a, b], *old_copy, forward(1, 6), commit(1)), ["a", "b", "c"])
new_copy = [*write_b, took(1, 1, b), begin(1), reading(1, 1, b)]
same(parts([a, b], *new_copy, forward(1, 6)), [])
same(parts([a, b], *new_copy, forward(1, 6, refused(14, 1))), ["c"])
# The session's own commit takes a copy, and is no replacing for itself.
own = [*write_b, begin(0), reading(0, 1, b)]
same(parts([a, b], *own, forward(0, 6)), [])
same(parts([a, b], *own, forward(0, 6, refused(14, 1))), ["c"])
# A change that was struck out, or is pending still, has replaced nothing.
waiting = [took(1, 1, a), *write_b[:-1], begin(1), reading(1, 1, a)]
same(parts([a, a], *waiting, forward(1, 4)), [])
same(parts([a, a], *waiting, forward(1, 4, refused(14, 1))), ["c"])
# Done without a change.
same(parts([a, a], reading(0, 1, a)), ["run"])
same(parts([a, a], begin(0), commit(0)), ["run"])
same(parts([a, a], begin(0), begin(0)), ["run"])

# The histories of broken books: the law says no of them, and yes of what the
# right book gives.
made_by_fault = {made.__doc__: made for made in broken.BROKEN}
shown = list(broken.read_file(broken.FILE.read_text()))
same({fault for fault, *_ in shown}, set(made_by_fault))
for fault, part, pairs in shown:
    calls = [lines.read_line(line.encode(), CLOCK) for line, _ in pairs]
    answers, breaches = broken.run(made_by_fault[fault], calls)
    same([lines.write_answer(number, answer).decode()
          for number, answer in enumerate(answers, 1)],
         [answer for _, answer in pairs])
    same(part in {breach.part for breach in breaches}, True)
    same(broken.run(Book, calls)[1], [])

# Some histories by chance.
for number in range(100, 200):
    same(make_scripts.History(number).breaches, [])

print(f"book: {passed} checks passed")
