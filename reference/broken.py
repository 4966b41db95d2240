"""Books with one fault each, and short histories of which the law says no.

    python3 reference/broken.py

looks by chance for histories in which a broken book breaks the law, makes
them short, and writes them to broken_histories.txt beside this file. For
each fault there is one history for each part of the law that it was seen to
break (one can stand for two parts). The file is the same at every run.

    python3 reference/broken.py --seen N

tells in how many of the first N scripts of make_scripts.py each broken book
gives other answers than the right one.
"""

import pathlib
import random
import sys

import book
import law
import lines
import make_scripts
from book import Book, Entry
from lines import CLOCK, Call
from rulebook import OPEN_RULE, Refusal, Rule, TableStore

FILE = pathlib.Path(__file__).parent / "broken_histories.txt"

SLOTS = 4
TRIES = 4000     # histories looked at for each fault
SHRUNK = 40      # of those that break a part, how many are made short
EXAMPLE_RULES = (Rule(0xC0000200, 24, 1, 0, 65535),
                 Rule(0x0A000000, 8, 1, 80, 443))


# The broken books. The first line of each says what is wrong with it.

class NoLaterCheck(Book):
    """no later-conflict check"""

    def check_later(self, session, stamp):
        pass


class NoPendingCheck(Book):
    """no pending check"""

    def check_pending(self, session, stamp):
        pass


class NoStaleCheck(Book):
    """no stale check"""

    def check_stale(self, session):
        pass


class ReceiptTakesAll(Book):
    """a receipt removes every notice"""

    def take_notices(self, session, upto):
        session.notices = {}


class LearnKeepsCopies(Book):
    """a learn keeps the copies, while a receipt takes the notices"""

    def let_go(self, session, slots):
        pass


class NoNotices(Book):
    """a commit gives no notices"""

    def give_notices(self, session, written):
        pass


class ForgetsOnePut(Book):
    """a commit forgets the put of its highest slot"""

    def put_staged(self, session, written):
        for slot in written:
            if slot != written[-1]:
                self.store.put(slot, session.staged[slot])
            session.copies[slot] = session.staged[slot]


class PretendsCommit(Book):
    """a commit pretends: it is answered as done, and nothing is done"""

    def commit(self, number):
        session = self.check_session(number)
        self.check_phase(number, book.PENDING)
        return self.notice_number + (1 if session.staged else 0)


class DropsThreshold(Book):
    """truncation drops the threshold, so that an early stamp is accepted"""

    def truncate(self, stamp):
        left = super().truncate(stamp)
        self.threshold = None
        return left


class FetchLeavesNotice(Book):
    """a fetch leaves the old notice"""

    def fetch(self, number, slot):
        session = self.check_session(number)
        notices = dict(session.notices)
        rule = super().fetch(number, slot)
        session.notices = notices
        return rule


class LetsReadersPast(Book):
    """a change without writings is let past the checks 12, 13 and 14"""

    def check_later(self, session, stamp):
        if session.staged:
            super().check_later(session, stamp)

    def check_pending(self, session, stamp):
        if session.staged:
            super().check_pending(session, stamp)

    def check_stale(self, session):
        if session.staged:
            super().check_stale(session)


class AcceptsAll(Book):
    """every forward is accepted"""

    def forward(self, number, stamp):
        session = self.check_session(number)
        self.check_phase(number, book.OPEN)
        self.queue.append(Entry(stamp, number, session.read, session.staged))
        session.phase = book.PENDING
        return len(self.queue) - 1


# More of them, with smaller faults.

class LaterOfPendingOnly(Book):
    """the later-conflict check looks at pending entries only"""

    def check_later(self, session, stamp):
        for place, entry in enumerate(self.queue):
            if (not entry.committed and entry.stamp > stamp
                    and (entry.written & session.read
                         or entry.read & set(session.staged))):
                book.refuse(book.LATER_CONFLICT, place)


class LaterReadersPast(Book):
    """the later-conflict check forgets entries that only read the slot"""

    def check_later(self, session, stamp):
        for place, entry in enumerate(self.queue):
            if entry.stamp > stamp and entry.written & session.read:
                book.refuse(book.LATER_CONFLICT, place)


class LaterWritersPast(Book):
    """the later-conflict check forgets slots that the change only read"""

    def check_later(self, session, stamp):
        for place, entry in enumerate(self.queue):
            if entry.stamp > stamp and entry.read & set(session.staged):
                book.refuse(book.LATER_CONFLICT, place)


class LaterOfOthersOnly(Book):
    """the later-conflict check passes over the session's own entries"""

    def check_later(self, session, stamp):
        for place, entry in enumerate(self.queue):
            if (self.sessions[entry.session] is not session
                    and entry.stamp > stamp
                    and (entry.written & session.read
                         or entry.read & set(session.staged))):
                book.refuse(book.LATER_CONFLICT, place)


class NoTakenCheck(Book):
    """no check of a stamp that is in the queue"""

    def check_taken(self, stamp):
        pass


class EqualAtThreshold(Book):
    """a stamp that equals the threshold is accepted"""

    def check_early(self, stamp):
        if self.threshold is not None and stamp < self.threshold:
            book.refuse(book.STAMP_TOO_EARLY, 0)


class LowersThreshold(Book):
    """truncation sets the threshold back to an earlier stamp"""

    def raise_threshold(self, stamp):
        self.threshold = stamp


class TruncatesPending(Book):
    """truncation takes pending entries too"""

    def truncate(self, stamp):
        left = super().truncate(stamp)
        before = len(self.queue)
        self.queue = [entry for entry in self.queue
                      if entry.stamp > self.threshold]
        return left + before - len(self.queue)

    def pending_entry(self, number):
        for entry in self.queue:
            if entry.session == number and not entry.committed:
                return entry
        return Entry(None, number, (), ())  # one that is in no queue


class NoticeOfOtherRulesOnly(Book):
    """no notice where the rule put is the one that the copy has"""

    def give_notices(self, session, written):
        for other in self.sessions:
            if other is not session:
                for slot in written:
                    if other.copies.get(slot) not in (
                            None, session.staged[slot]):
                        other.notices[slot] = self.notice_number


class NoticeOfOneSlot(Book):
    """a commit gives notices for its lowest slot only"""

    def give_notices(self, session, written):
        super().give_notices(session, written[:1])


class NoticeWithOldNumber(Book):
    """notices bear the number from before it rose"""

    def give_notices(self, session, written):
        self.notice_number -= 1
        super().give_notices(session, written)
        self.notice_number += 1


class KeepsOldCopy(Book):
    """a commit leaves the session's own copy as it was"""

    def put_staged(self, session, written):
        for slot in written:
            self.store.put(slot, session.staged[slot])


class ReadsCopyOnly(Book):
    """a read gives the copy, though the slot is written in the change"""

    def read(self, number, slot):
        super().read(number, slot)
        return self.sessions[number].copies[slot]


class DropsReadSlot(Book):
    """drop of a slot that the open change has read is done"""

    def drop(self, number, slot):
        session = self.check_session(number)
        self.check_slot(slot)
        self.check_phase(number, book.IDLE, book.OPEN)
        self.check_held(session, slot)
        del session.copies[slot]


class FetchesHeldSlot(Book):
    """fetch of a slot that is held is done"""

    def fetch(self, number, slot):
        session = self.check_session(number)
        self.check_slot(slot)
        self.check_phase(number, book.IDLE, book.OPEN)
        session.copies.pop(slot, None)
        return super().fetch(number, slot)


class NoReceiptCheck(Book):
    """no check that a receipt is not above the last learnt number"""

    def receipt(self, number, upto):
        self.take_notices(self.check_session(number), upto)


class LearnEndsNoChange(Book):
    """a learn lets the open change go on"""

    def learn(self, number):
        session = self.check_session(number)
        phase = session.phase
        learnt = super().learn(number)
        session.phase = phase
        return learnt._replace(ended=False)


class StalePlaceIsHighest(Book):
    """the highest stale slot is told, not the lowest"""

    def check_stale(self, session):
        stale = session.read & set(session.notices)
        if stale:
            book.refuse(book.STALE, max(stale))


BROKEN = (
    NoLaterCheck, NoPendingCheck, NoStaleCheck, ReceiptTakesAll,
    LearnKeepsCopies, NoNotices, ForgetsOnePut, PretendsCommit, DropsThreshold,
    FetchLeavesNotice, LetsReadersPast, AcceptsAll,
    LaterOfPendingOnly, LaterReadersPast, LaterWritersPast, LaterOfOthersOnly,
    NoTakenCheck, EqualAtThreshold, LowersThreshold, TruncatesPending,
    NoticeOfOtherRulesOnly, NoticeOfOneSlot, NoticeWithOldNumber,
    KeepsOldCopy, ReadsCopyOnly, DropsReadSlot, FetchesHeldSlot,
    NoReceiptCheck, LearnEndsNoChange, StalePlaceIsHighest)


# Books in which no breach of the three parts is found. They answer otherwise
# than the right one, so that the scripts are to find them.

class KeepsOlderNotice(Book):
    """a notice does not come in place of an older one"""

    def give_notices(self, session, written):
        for other in self.sessions:
            if other is not session:
                for slot in written:
                    if slot in other.copies:
                        other.notices.setdefault(slot, self.notice_number)


class DropTakesNotice(Book):
    """a drop takes the notice with it"""

    def drop(self, number, slot):
        super().drop(number, slot)
        self.sessions[number].notices.pop(slot, None)


class NoticeToAll(Book):
    """sessions that do not hold the slot get a notice too"""

    def give_notices(self, session, written):
        for other in self.sessions:
            if other is not session:
                for slot in written:
                    other.notices[slot] = self.notice_number


class PendingOfCommitted(Book):
    """the pending check looks at committed entries too"""

    def check_pending(self, session, stamp):
        for place, entry in enumerate(self.queue):
            if entry.stamp < stamp and entry.written & session.read:
                book.refuse(book.PENDING_CONFLICT, place)


class StaleBeforePending(Book):
    """14 is tried before 13"""

    def check_pending(self, session, stamp):
        self.check_stale(session)
        super().check_pending(session, stamp)


class PendingBeforeLater(Book):
    """13 is tried before 12"""

    def check_later(self, session, stamp):
        self.check_pending(session, stamp)
        super().check_later(session, stamp)


class LaterBeforeRoom(Book):
    """11 is tried last"""

    def check_room(self):
        pass

    def check_numbers(self, session):
        super().check_room()
        super().check_numbers(session)


class PhaseBeforeSlot(Book):
    """4 is tried before 3"""

    def read(self, number, slot):
        self.check_session(number)
        self.check_phase(number, book.OPEN)
        return super().read(number, slot)


class TruncateLeavesLast(Book):
    """a committed entry that has the truncated stamp itself stays"""

    def truncate(self, stamp):
        self.raise_threshold(stamp)
        kept = [entry for entry in self.queue
                if not entry.committed or entry.stamp >= self.threshold]
        left = len(self.queue) - len(kept)
        self.queue = kept
        return left


class TruncateByStamp(Book):
    """entries leave that are not after the stamp, whatever the threshold"""

    def truncate(self, stamp):
        self.raise_threshold(stamp)
        kept = [entry for entry in self.queue
                if not entry.committed or entry.stamp > stamp]
        left = len(self.queue) - len(kept)
        self.queue = kept
        return left


class LearnTakesNotices(Book):
    """a learn takes the notices"""

    def learn(self, number):
        learnt = super().learn(number)
        self.sessions[number].notices = {}
        return learnt


class LearnTellsHeldOnly(Book):
    """a learn tells of slots that were held only"""

    def learn(self, number):
        held = set(self.check_session(number).copies)
        learnt = super().learn(number)
        return learnt._replace(
            slots=tuple(slot for slot in learnt.slots if slot in held))


class NumberAlwaysRises(Book):
    """the notice number rises at a commit without writings too"""

    def commit(self, number):
        session = self.check_session(number)
        self.check_phase(number, book.PENDING)
        if not session.staged:
            self.notice_number += 1
        return super().commit(number)


class RefusedForwardEnds(Book):
    """a forward refused with 14 ends the change"""

    def check_stale(self, session):
        try:
            super().check_stale(session)
        except Refusal:
            session.phase = book.IDLE
            raise


class AbortLeavesEntry(Book):
    """an aborted entry stays in the queue, as if it were committed"""

    def abort(self, number):
        session = self.check_session(number)
        self.check_phase(number, book.OPEN, book.PENDING)
        if session.phase == book.PENDING:
            self.pending_entry(number).committed = True
        session.phase = book.IDLE


class ReceiptBelowOnly(Book):
    """a receipt leaves the notice that has its own number"""

    def take_notices(self, session, upto):
        super().take_notices(session, upto - 1)


UNSEEN_BY_LAW = (
    KeepsOlderNotice, DropTakesNotice, NoticeToAll, PendingOfCommitted,
    StaleBeforePending, PendingBeforeLater, LaterBeforeRoom, PhaseBeforeSlot,
    TruncateLeavesLast, TruncateByStamp, LearnTakesNotices,
    LearnTellsHeldOnly, NumberAlwaysRises, RefusedForwardEnds,
    AbortLeavesEntry, ReceiptBelowOnly)


# Histories

def run(made, calls):
    """The answers of a book of this class to the calls, and the breaches."""
    store = TableStore([OPEN_RULE] * SLOTS)
    the_book = made(store)
    start = law.entries_of(store)
    answers = [the_book.ask(call) for call in calls]
    breaches = law.check(start, list(zip(calls, answers)),
                         law.entries_of(store))
    return answers, breaches


def kind_of(breach):
    """What is searched for: a part of the law, and whether it is broken by
    nothing more than the same stamp twice."""
    return breach.part, breach.words.endswith("same stamp")


def kinds_broken(made, calls):
    return {kind_of(breach) for breach in run(made, calls)[1]}


def some_calls(made, number):
    """The calls of a history, made while a broken book answers them."""
    chance = random.Random(number)
    style = make_scripts.Style(chance)
    style.full = False
    style.slots = SLOTS
    style.sessions = (0, 1) if chance.randrange(3) else (0, 1, 2)
    style.favourites = [chance.randrange(SLOTS) for _ in range(2)]
    style.rules = (OPEN_RULE, *EXAMPLE_RULES)
    style.nonsense = 0.1
    style.unreadable = 0
    style.truncate = chance.choice((0, 0.02, 0.1))
    the_book = made(TableStore([OPEN_RULE] * SLOTS))
    maker = make_scripts.Maker(chance, style, the_book, CLOCK)
    calls = []
    for _ in range(60):
        calls.append(maker.call())
        the_book.ask(calls[-1])
    return calls


def shorter(calls):
    """The calls without some of them, many first."""
    size = len(calls) // 2
    while size:
        for start in range(0, len(calls) - size + 1):
            yield calls[:start] + calls[start + size:]
        size //= 2
    # Without two that stand apart.
    for first in range(len(calls)):
        for second in range(first + 2, len(calls)):
            yield (calls[:first] + calls[first + 1:second]
                   + calls[second + 1:])


def shrink(made, calls, kind):
    """As few of the calls as still break the law so, with plain numbers."""
    found = True
    while found:
        found = False
        for fewer in shorter(calls):
            if kind in kinds_broken(made, fewer):
                calls = fewer
                found = True
                break
    for plain in plainer(calls):
        if kind in kinds_broken(made, plain):
            return plain
    return calls


def plainer(calls):
    """The calls with sessions and slots numbered as they come, times from 1,
    and as few rules as may be."""
    sessions = numbered(call.session for call in calls)
    slots = numbered(call.slot for call in calls)
    times = {stamp: (time, 0) for time, stamp in enumerate(
        sorted({call.stamp for call in calls if call.stamp}), 1)}
    rules = {rule: EXAMPLE_RULES[min(number, 1)] for rule, number
             in numbered(call.rule for call in calls).items()}
    for with_rules in ({rule: EXAMPLE_RULES[0] for rule in rules}, rules,
                       {rule: rule for rule in rules}):
        yield [Call(call.letter, sessions.get(call.session),
                    slots.get(call.slot), with_rules.get(call.rule),
                    times.get(call.stamp), call.number) for call in calls]


def numbered(values):
    numbers = {}
    for value in values:
        if value is not None:
            numbers.setdefault(value, len(numbers))
    return numbers


def text_of(calls):
    return [lines.write_call(call, CLOCK).decode() for call in calls]


def search(made):
    """The shortest history found for each kind of breach."""
    tried = {}
    best = {}
    for number in range(TRIES):
        if tried and all(times >= SHRUNK for times in tried.values()) \
                and number > TRIES // 4:
            break
        calls = some_calls(made, number)
        for kind in sorted(kinds_broken(made, calls)):
            if kind[0] == "run" or tried.get(kind, 0) >= SHRUNK:
                continue
            tried[kind] = tried.get(kind, 0) + 1
            short = shrink(made, calls, kind)
            if kind not in best or (len(short), text_of(short)) < (
                    len(best[kind]), text_of(best[kind])):
                best[kind] = short
    return best


# The file

HEADING = f"""\
Histories of broken books, each with the part of the law that it breaks. The
store is a table of {SLOTS} open rules, the stamps are clock stamps. A line
stands on the left, the broken book's answer behind the arrow. Where the right
book, given the same lines, answers otherwise, its answer follows in brackets.
"""


def show(made, kind, calls):
    """The history as text."""
    answers, breaches = run(made, calls)
    right_answers, right_breaches = run(Book, calls)
    assert not right_breaches
    yield f"fault: {made.__doc__}"
    for breach in breaches:
        if kind_of(breach) == kind:
            yield f"breaks ({breach.part}): {breach.words}"
    others = sorted({breach.part for breach in breaches} - {kind[0]})
    if others:
        yield "also broken: " + ", ".join(f"({other})" for other in others)
    for number, call in enumerate(calls, 1):
        line = lines.write_call(call, CLOCK).decode()
        answer = lines.write_answer(number, answers[number - 1]).decode()
        right = lines.write_answer(number, right_answers[number - 1]).decode()
        note = f"  [{right}]" if right != answer else ""
        yield f"    {line:33} -> {answer}{note}"


def read_file(text):
    """The fault, the part and the lines with answers of each history."""
    for piece in text.split("\n\n")[1:]:
        fault = part = None
        pairs = []
        for line in piece.splitlines():
            if line.startswith("fault: "):
                fault = line.removeprefix("fault: ")
            elif line.startswith("breaks ("):
                part = line.removeprefix("breaks (").split(")")[0]
            elif " -> " in line:
                asked, answer = line.split(" -> ")
                pairs.append((asked.strip(), answer.split("  [")[0]))
        yield fault, part, pairs


def write_file():
    pieces = [HEADING]
    for made in BROKEN:
        best = search(made)
        told = ", ".join(
            f"({part}{', same stamp' if same_stamp else ''}) in"
            f" {len(best[part, same_stamp])} lines"
            for part, same_stamp in sorted(best)) or "NOTHING FOUND"
        print(f"{made.__doc__}: {told}", flush=True)
        shown = []
        for kind in sorted(best):
            # One history can stand for several parts.
            if best[kind] in shown:
                continue
            shown.append(best[kind])
            pieces.append("\n".join(show(made, kind, best[kind])) + "\n")
    FILE.write_text("\n".join(pieces))


def seen(count):
    """In how many scripts a broken book is seen by its answers alone."""
    histories = [make_scripts.History(number) for number in range(count)]
    for made in BROKEN + UNSEEN_BY_LAW:
        differing = sum(
            history.answers_of(made) != history.answer_lines()
            for history in histories)
        print(f"{differing:5} of {count}: {made.__doc__}")


def main():
    if sys.argv[1:2] == ["--seen"] and len(sys.argv) == 3:
        seen(int(sys.argv[2]))
    elif len(sys.argv) == 1:
        write_file()
    else:
        sys.exit("usage: broken.py, or broken.py --seen N")


if __name__ == "__main__":
    main()
