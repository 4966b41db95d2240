"""Reference implementation of the book.

A book lies over a store of either kind and takes stamps of either kind (as
keys). Each call is a method; a refused one raises Refusal and changes
nothing. The book can also be fed calls and lines, and then gives the refusal
as the answer.
"""

import lines
from lines import Learnt
from rulebook import SLOT_OUTSIDE, Refusal

SESSIONS = 8
QUEUE_ROOM = 32
HIGHEST_NUMBER = 2 ** 32 - 1

LAYER_BOOK = 3

NO_SUCH_SESSION = 2
WRONG_PHASE = 4
ALREADY_HELD = 5
NOT_HELD = 6
NOT_READ = 7
READ_BY_CHANGE = 8
STAMP_TOO_EARLY = 9
STAMP_TAKEN = 10
QUEUE_FULL = 11
LATER_CONFLICT = 12
PENDING_CONFLICT = 13
STALE = 14
NUMBERS_EXHAUSTED = 15
RECEIPT_TOO_HIGH = 16

IDLE = "idle"
OPEN = "open"
PENDING = "pending"


def refuse(number, place):
    raise Refusal(number, LAYER_BOOK, place)


class Session:
    """What the book keeps for one session."""

    def __init__(self):
        self.phase = IDLE
        self.copies = {}   # the held slots, each with the copy
        self.notices = {}  # slots with a notice, each with its number
        self.learnt = 0
        self.read = set()
        self.staged = {}   # the slots written, each with the staged rule


class Entry:
    """An entry of the queue."""

    def __init__(self, stamp, session, read, written):
        self.stamp = stamp
        self.session = session
        self.read = frozenset(read)
        self.written = frozenset(written)
        self.committed = False


class Book:
    """The book over a store."""

    def __init__(self, store):
        self.store = store
        self.sessions = [Session() for _ in range(SESSIONS)]
        self.queue = []        # in order of acceptance
        self.threshold = None  # absent until the first truncation
        self.notice_number = 0

    # What several calls check

    def check_session(self, number):
        if number >= SESSIONS:
            refuse(NO_SUCH_SESSION, number)
        return self.sessions[number]

    def check_slot(self, slot):
        if slot >= self.store.count:
            refuse(SLOT_OUTSIDE, slot)

    def check_phase(self, number, *phases):
        if self.sessions[number].phase not in phases:
            refuse(WRONG_PHASE, number)

    def check_held(self, session, slot):
        if slot not in session.copies:
            refuse(NOT_HELD, slot)

    # The calls

    def begin(self, number):
        session = self.check_session(number)
        self.check_phase(number, IDLE)
        session.phase = OPEN
        session.read = set()
        session.staged = {}

    def fetch(self, number, slot):
        session = self.check_session(number)
        self.check_slot(slot)
        self.check_phase(number, IDLE, OPEN)
        if slot in session.copies:
            refuse(ALREADY_HELD, slot)
        rule = self.store.get(slot)
        session.copies[slot] = rule
        session.notices.pop(slot, None)
        return rule

    def read(self, number, slot):
        session = self.check_session(number)
        self.check_slot(slot)
        self.check_phase(number, OPEN)
        self.check_held(session, slot)
        session.read.add(slot)
        if slot in session.staged:
            return session.staged[slot]
        return session.copies[slot]

    def write(self, number, slot, rule):
        session = self.check_session(number)
        self.check_slot(slot)
        self.check_phase(number, OPEN)
        self.check_held(session, slot)
        if slot not in session.read:
            refuse(NOT_READ, slot)
        session.staged[slot] = rule

    def drop(self, number, slot):
        session = self.check_session(number)
        self.check_slot(slot)
        self.check_phase(number, IDLE, OPEN)
        self.check_held(session, slot)
        if session.phase == OPEN and slot in session.read:
            refuse(READ_BY_CHANGE, slot)
        del session.copies[slot]

    def forward(self, number, stamp):
        session = self.check_session(number)
        self.check_phase(number, OPEN)
        self.check_early(stamp)
        self.check_taken(stamp)
        self.check_room()
        self.check_later(session, stamp)
        self.check_pending(session, stamp)
        self.check_stale(session)
        self.check_numbers(session)
        self.queue.append(Entry(stamp, number, session.read, session.staged))
        session.phase = PENDING
        return len(self.queue) - 1

    def commit(self, number):
        session = self.check_session(number)
        self.check_phase(number, PENDING)
        written = sorted(session.staged)
        for slot in written:
            self.store.get(slot)
        self.put_staged(session, written)
        if written:
            self.notice_number += 1
            self.give_notices(session, written)
        self.pending_entry(number).committed = True
        session.phase = IDLE
        return self.notice_number

    def abort(self, number):
        session = self.check_session(number)
        self.check_phase(number, OPEN, PENDING)
        if session.phase == PENDING:
            gone = self.pending_entry(number)
            self.queue = [entry for entry in self.queue if entry is not gone]
        session.phase = IDLE

    def learn(self, number):
        session = self.check_session(number)
        noticed = sorted(session.notices)
        self.let_go(session, noticed)
        ended = session.phase == OPEN and not session.read.isdisjoint(noticed)
        if ended:
            session.phase = IDLE
        session.learnt = self.notice_number
        return Learnt(session.learnt, tuple(noticed), ended)

    def receipt(self, number, upto):
        session = self.check_session(number)
        if upto > session.learnt:
            refuse(RECEIPT_TOO_HIGH, number)
        self.take_notices(session, upto)

    def truncate(self, stamp):
        self.raise_threshold(stamp)
        kept = [entry for entry in self.queue
                if not entry.committed or entry.stamp > self.threshold]
        left = len(self.queue) - len(kept)
        self.queue = kept
        return left

    # What a forward checks; the checks of a change, one for each cause

    def check_early(self, stamp):
        if self.threshold is not None and stamp <= self.threshold:
            refuse(STAMP_TOO_EARLY, 0)

    def check_taken(self, stamp):
        for place, entry in enumerate(self.queue):
            if entry.stamp == stamp:
                refuse(STAMP_TAKEN, place)

    def check_room(self):
        if len(self.queue) == QUEUE_ROOM:
            refuse(QUEUE_FULL, QUEUE_ROOM)

    def check_later(self, session, stamp):
        for place, entry in enumerate(self.queue):
            if entry.stamp > stamp and (entry.written & session.read
                                        or entry.read & set(session.staged)):
                refuse(LATER_CONFLICT, place)

    def check_pending(self, session, stamp):
        for place, entry in enumerate(self.queue):
            if (not entry.committed and entry.stamp < stamp
                    and entry.written & session.read):
                refuse(PENDING_CONFLICT, place)

    def check_stale(self, session):
        stale = session.read & set(session.notices)
        if stale:
            refuse(STALE, min(stale))

    def check_numbers(self, session):
        writing = sum(1 for entry in self.queue
                      if not entry.committed and entry.written)
        if session.staged and self.notice_number + writing >= HIGHEST_NUMBER:
            refuse(NUMBERS_EXHAUSTED, 0)

    # Parts of other calls

    def pending_entry(self, number):
        """The entry of the change that the session has pending."""
        for entry in self.queue:
            if entry.session == number and not entry.committed:
                return entry
        raise AssertionError("a pending session has an entry")

    def put_staged(self, session, written):
        for slot in written:
            self.store.put(slot, session.staged[slot])
            session.copies[slot] = session.staged[slot]

    def give_notices(self, session, written):
        for other in self.sessions:
            if other is not session:
                for slot in written:
                    if slot in other.copies:
                        other.notices[slot] = self.notice_number

    def let_go(self, session, slots):
        """The session no longer holds these slots."""
        for slot in slots:
            session.copies.pop(slot, None)

    def take_notices(self, session, upto):
        session.notices = {slot: number
                           for slot, number in session.notices.items()
                           if number > upto}

    def raise_threshold(self, stamp):
        if self.threshold is None or stamp > self.threshold:
            self.threshold = stamp

    # Calls and lines

    def ask(self, call):
        """The answer to a call: its value, or the refusal."""
        method = getattr(self, METHODS[call.letter])
        given = [getattr(call, part) for part in lines.PARTS[call.letter]]
        try:
            return method(*given)
        except Refusal as refusal:
            return refusal

    def ask_line(self, line, kind):
        """The answer to a line."""
        try:
            call = lines.read_line(line, kind)
        except Refusal as refusal:
            return refusal
        return self.ask(call)

    def run(self, data, kind):
        """The answer lines to the lines of the input."""
        return b"".join(
            lines.write_answer(number, self.ask_line(line, kind)) + b"\n"
            for number, line in enumerate(lines.split_input(data), 1))


METHODS = {
    "b": "begin",
    "f": "fetch",
    "r": "read",
    "w": "write",
    "d": "drop",
    "p": "forward",
    "c": "commit",
    "a": "abort",
    "l": "learn",
    "k": "receipt",
    "t": "truncate",
}
