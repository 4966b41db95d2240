"""The law of the book, checked over a history.

A history is a list of pairs, a call and its answer (a value or a Refusal),
with the entries of the store at the making and at the end. Nothing else of
the book is looked at.

    (a) The committed changes, taken one at a time in the order of their
        stamps, give every reading the answer that it got, and end at the
        present store. No two of them have the same stamp.
    (b) So they do in order of acceptance; and a change that was committed
        before another began stands before it there.
    (c) A forward that passed every check before staleness is refused with 14
        exactly when its change had read a slot that another session's commit
        replaced after the session last took its copy of it; and the place
        told is the lowest such slot.

A history that no book could be meant to give, such as a read done without a
change, breaks the run itself.
"""

from typing import NamedTuple

from rulebook import Refusal

STALE = 14
NUMBERS_EXHAUSTED = 15


class Breach(NamedTuple):
    """A part of the law that does not hold, and in words what is wrong."""
    part: str
    words: str


class Change:
    """A change in the comparison run."""

    def __init__(self, session, began):
        self.session = session
        self.began = began      # the number of its begin in the history
        self.steps = []         # ("read" or "write", slot, rule) in turn
        self.stamp = None
        self.committed = None   # the number of its commit in the history

    def slots(self, what):
        return {slot for step, slot, _ in self.steps if step == what}


class Run:
    """The comparison run. It is fed the calls in turn, each with its answer,
    and keeps what the law speaks of."""

    def __init__(self):
        self.changes = {}   # session: its change, while there is one
        self.accepted = []  # changes in order of acceptance
        self.taken = {}     # (session, slot): when the copy was last taken
        self.replaced = {}  # slot: {session: when it last replaced the slot}
        self.breaches = []  # of part (c), and of the run itself

    def feed(self, time, call, answer):
        if self.makes_no_sense(call, answer):
            self.breaches.append(Breach(
                "run", f"line {time + 1}: done without a change for it"))
            return
        if call.letter == "p":
            self.look_at_forward(time, call, answer)
        if isinstance(answer, Refusal):
            return
        session = call.session
        change = self.changes.get(session)
        if call.letter == "b":
            self.changes[session] = Change(session, time)
        elif call.letter == "f":
            self.taken[session, call.slot] = time
        elif call.letter == "r":
            change.steps.append(("read", call.slot, answer))
        elif call.letter == "w":
            change.steps.append(("write", call.slot, call.rule))
        elif call.letter == "p":
            change.stamp = call.stamp
            self.accepted.append(change)
        elif call.letter == "c":
            change.committed = time
            for slot in change.slots("write"):
                self.taken[session, slot] = time
                self.replaced.setdefault(slot, {})[session] = time
            del self.changes[session]
        elif call.letter == "a" or call.letter == "l" and answer.ended:
            if change in self.accepted:
                self.accepted.remove(change)
            del self.changes[session]

    def makes_no_sense(self, call, answer):
        """Whether the call was done, but the session's change is not one that
        it can be done for."""
        if isinstance(answer, Refusal):
            return False
        change = self.changes.get(call.session)
        if call.letter == "b":
            return change is not None
        if call.letter in "rwp":
            return change is None or change.stamp is not None
        if call.letter == "c":
            return change is None or change.stamp is None
        if call.letter == "a" or call.letter == "l" and answer.ended:
            return change is None
        return False

    def stale_slots(self, session):
        """The slots that the session's change has read and that another
        session replaced after this one last took its copy."""
        return {
            slot for slot in self.changes[session].slots("read")
            if any(other != session
                   and time > self.taken.get((session, slot), -1)
                   for other, time in self.replaced.get(slot, {}).items())}

    def look_at_forward(self, time, call, answer):
        """Part (c)."""
        number = answer.number if isinstance(answer, Refusal) else 0
        if number not in (0, STALE, NUMBERS_EXHAUSTED):
            return
        stale = self.stale_slots(call.session)
        line = f"line {time + 1}"
        if number != STALE and stale:
            self.breaches.append(Breach(
                "c", f"{line}: slot {min(stale)} was replaced since its copy"
                f" was taken, but the forward is not refused with 14"))
        if number == STALE and not stale:
            self.breaches.append(Breach(
                "c", f"{line}: refused with 14, but no slot that was read was"
                f" replaced since its copy was taken"))
        if number == STALE and stale and answer.place != min(stale):
            self.breaches.append(Breach(
                "c", f"{line}: refused with 14 at {answer.place}, but the"
                f" lowest slot replaced is {min(stale)}"))


def take_in_turn(part, changes, start, end):
    """Take the changes one at a time; the breaches of this part."""
    entries = list(start)
    for change in changes:
        for step, slot, rule in change.steps:
            if step == "write":
                entries[slot] = rule
            elif entries[slot] != rule:
                yield Breach(
                    part, f"the change begun at line {change.began + 1} read"
                    f" another rule in slot {slot} than it would in its turn")
    for slot, (got, wanted) in enumerate(zip(entries, end, strict=True)):
        if got != wanted:
            yield Breach(part, f"the changes leave another rule in slot {slot}"
                         f" than the store has")


def check(start, history, end):
    """The breaches of the law; none if it holds."""
    run = Run()
    for time, (call, answer) in enumerate(history):
        run.feed(time, call, answer)
    in_turn = [change for change in run.accepted
               if change.committed is not None]
    by_stamp = sorted(in_turn, key=lambda change: change.stamp)
    breaches = []
    for first, second in zip(by_stamp, by_stamp[1:]):
        if not first.stamp < second.stamp:
            breaches.append(Breach(
                "a", f"the changes begun at lines {first.began + 1} and"
                f" {second.began + 1} have the same stamp"))
    breaches.extend(take_in_turn("a", by_stamp, start, end))
    breaches.extend(take_in_turn("b", in_turn, start, end))
    for place, change in enumerate(in_turn):
        for later in in_turn[place + 1:]:
            if later.committed < change.began:
                breaches.append(Breach(
                    "b", f"the change begun at line {change.began + 1} stands"
                    f" before the one begun at line {later.began + 1}, which"
                    f" was committed before it began"))
    return breaches + run.breaches


def entries_of(store):
    """The entries of a store: rules, or the numbers of a damage."""
    entries = []
    for slot in range(store.count):
        try:
            entries.append(store.get(slot))
        except Refusal as refusal:
            entries.append(refusal.args)
    return entries
