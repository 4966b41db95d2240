"""Make scripts of calls by chance, with the answers expected.

    python3 reference/make_scripts.py DIR N

writes N scripts, numbered from 0. Number 7 is

    DIR/0007.script     lines, most of them calls that make sense
    DIR/0007.answers    the answer lines expected
    DIR/0007.options    the options of the program, one line
    DIR/0007.image      the image file before, if the options name one
    DIR/0007.after      the image file expected afterwards

The image is named in the options as it is in DIR. A script is the same at
every run, whatever N is.

    python3 reference/make_scripts.py --check N

writes nothing, but runs N histories and tells how often each cause was met.

Every history is held against the law. The causes 15 and 17 to 19 are not met
here: one needs four thousand million commits, the others a damaged store.
"""

import collections
import pathlib
import random
import sys

import book
import law
import lines
import make_lines
import rulebook
from lines import CLOCK, TICKET, Call
from rulebook import OPEN_RULE, BlockStore, Refusal, Rule, TableStore

OTHER_RULES = (
    Rule(0xC0000200, 24, 1, 0, 65535),
    Rule(0x0A000000, 8, 1, 80, 443),
    Rule(0xFFFFFFFF, 32, 0, 65535, 65535),
    Rule(0, 1, 1, 0, 0),
)


class Style:
    """What one history is like: how many slots, sessions and rules, and how
    often this and that is done."""

    def __init__(self, chance):
        self.full = chance.randrange(5) == 0  # the queue shall run full
        self.slots = chance.choice((1, 2, 2, 3, 4, 4, 6, 8, 32, 33, 64))
        self.sessions = sorted(chance.sample(
            range(book.SESSIONS), chance.choice((1, 2, 2, 3, 3, 4, 5, 8))))
        self.rules = chance.sample(
            (OPEN_RULE, *OTHER_RULES), chance.choice((1, 2, 2, 3, 5)))
        # Slots that are asked for more often than others.
        self.favourites = [chance.randrange(self.slots)
                           for _ in range(chance.choice((1, 2, 3, 5)))]
        self.calls = chance.choice((20, 40, 80, 120, 150))
        self.rising = chance.choice((0.1, 0.5, 0.8, 0.95))
        self.nonsense = chance.choice((0, 0.03, 0.1, 0.3))
        self.unreadable = chance.choice((0, 0.01, 0.05))
        self.scenes = chance.choice((0, 0.002, 0.01))
        self.truncate = chance.choice((0, 0.005, 0.02, 0.06))
        self.patience = chance.choice((0, 2, 6))  # how long changes wait
        self.tidings = chance.choice((0.2, 0.5, 1, 3))  # learn and receipt
        self.hurry = chance.choice((0.3, 1, 2))  # to forward
        self.slips = chance.choice((0, 0.3, 1))  # of the wrong slot
        if chance.randrange(5) == 0:  # many changes at once in few slots
            self.slots = chance.choice((2, 3, 4))
            self.favourites = list(range(self.slots))
            self.sessions = list(range(chance.choice((4, 6, 8))))
            self.calls = chance.choice((150, 250))
            self.rising = 0.4
            self.patience = 40
            self.hurry = chance.choice((0.1, 0.3))
            self.tidings = 0.2
            self.truncate = 0.005
        if self.full:
            self.calls = chance.choice((200, 300))
            self.rising = 0.9
            self.nonsense = chance.choice((0, 0.03))
            self.truncate = 0
            self.patience = 0
            self.tidings = 0.2
            self.hurry = 1


class Maker:
    """Makes one line after another. It looks into the book, so that most of
    them make sense."""

    def __init__(self, chance, style, the_book, kind):
        self.chance = chance
        self.style = style
        self.book = the_book
        self.kind = kind
        self.latest = chance.choice((0, 0, 10, 1000, 2 ** 31 - 20,
                                     self.highest() - 20,
                                     self.highest() - 5000))
        self.plan = []  # calls to come next

    def line(self):
        call = self.call()
        line = lines.write_call(call, self.kind)
        if self.chance.random() < self.style.unreadable:
            other = lines.write_call(self.call(), self.kind)
            return self.chance.choice([
                *make_lines.mutations(self.chance, line, other), b"",
                b"w 0 0 10.0.0.1/8 allow 0-0", b"w 9 99 0.0.0.0/0 block 1-0"])
        return line

    def call(self):
        chance, style = self.chance, self.style
        if self.plan:
            return self.plan.pop(0)
        if chance.random() < style.scenes:
            self.plan = chance.choice((self.between, self.twice))()
            return self.plan.pop(0)
        if chance.random() < style.nonsense:
            return self.any_call()
        if chance.random() < style.truncate:
            return Call("t", stamp=self.some_stamp())
        if style.full and len(self.book.queue) == book.QUEUE_ROOM:
            if chance.randrange(12) == 0:
                return Call("t", stamp=self.some_stamp())
        return self.sensible_call(chance.choice(style.sessions))

    # Calls that make sense for the phase of the session

    def sensible_call(self, number):
        chance, style = self.chance, self.style
        session = self.book.sessions[number]
        slot = self.some_slot()
        held = slot in session.copies
        ways = {"l": style.tidings, "k": style.tidings}
        if session.phase == book.IDLE:
            ways["b"] = 4
            ways["d" if held else "f"] = 1 if held else 4
        elif session.phase == book.OPEN:
            ways["a"] = 0.3
            ways["p"] = style.hurry * (5 if style.full
                                       else 0.5 + len(session.read))
            if not held:
                ways.update(f=4, r=style.slips, d=style.slips)
            elif slot not in session.read:
                ways.update(r=6, d=0.5, w=style.slips, f=style.slips)
            else:
                ways.update(w=5, r=0.5, d=style.slips, f=style.slips)
        else:
            ways["c"] = 5
            ways["a"] = 0.5
            ways["wait"] = style.patience
        if slot in session.copies and slot in session.notices:
            ways["d" if session.phase == book.IDLE else "l"] = 4
        letter, = chance.choices(list(ways), list(ways.values()))
        if letter == "wait":
            return self.sensible_call(chance.choice(style.sessions))
        if letter == "l" and session.notices and chance.randrange(2):
            # What the receipt left is told by another learn.
            upto = chance.choice((self.book.notice_number,
                                  *session.notices.values()))
            self.plan = [Call("k", number, number=upto), Call("l", number)]
        return self.with_parts(letter, number, slot)

    def with_parts(self, letter, number, slot):
        parts = {}
        for part in lines.PARTS[letter]:
            if part == "session":
                parts[part] = number
            elif part == "slot":
                parts[part] = slot
            elif part == "rule":
                parts[part] = self.chance.choice(self.style.rules)
            elif part == "stamp":
                parts[part] = self.some_stamp()
            else:
                parts[part] = self.some_number(number)
        return Call(letter, **parts)

    def some_slot(self):
        if self.chance.randrange(4):
            return self.chance.choice(self.style.favourites)
        return self.chance.randrange(self.style.slots)

    def some_stamp(self):
        chance = self.chance
        if chance.random() < self.style.rising:
            self.latest += chance.choice((1, 2, 3, 20))
            return self.stamp_at(self.latest)
        stamps = [entry.stamp for entry in self.book.queue]
        if self.book.threshold is not None:
            stamps.append(self.book.threshold)
        if stamps and chance.randrange(2):
            time, station = chance.choice(stamps)
            if self.kind is CLOCK and chance.randrange(3) == 0:
                station += chance.choice((-1, 1))
                return time, min(max(0, station), lines.HIGHEST_16)
            return self.stamp_at(
                max(0, time + chance.choice((-2, -1, 0, 0, 1, 2))), station)
        if chance.randrange(60) == 0:
            return self.stamp_at(0, 0)
        earliest = min(stamps)[0] if stamps and chance.randrange(4) else 0
        return self.stamp_at(
            chance.randint(earliest, max(earliest, self.latest) + 4))

    def stamp_at(self, time, station=None):
        time = min(time, self.highest())
        if self.kind is TICKET:
            return time, 0
        if station is None:
            station = self.chance.choice((0, 1, 1, 2, 65535))
        return time, station

    def highest(self):
        return lines.HIGHEST_64 if self.kind is CLOCK else lines.HIGHEST_32

    def some_number(self, number):
        """A number for a receipt of this session, if there is one."""
        numbers = [0, self.book.notice_number]
        if number < book.SESSIONS:
            session = self.book.sessions[number]
            numbers += [session.learnt] * 4
            numbers += [session.learnt + 1, max(0, session.learnt - 1)]
            for notice in session.notices.values():
                numbers += [notice, notice - 1]
        return self.chance.choice(numbers)

    # Scenes: calls that lead where chance alone seldom does

    def whole_change(self, number, reads, writes, stamp):
        """A change up to its forward, after all others are given up."""
        yield Call("l", number)
        yield Call("a", number)
        for slot in reads:
            if slot not in self.book.sessions[number].copies:
                yield Call("f", number, slot)
        yield Call("b", number)
        for slot in reads:
            yield Call("r", number, slot)
        for slot in writes:
            yield Call("w", number, slot,
                       rule=self.chance.choice(self.style.rules))
        yield Call("p", number, stamp=stamp)

    def some_sessions(self, count):
        """Different sessions, of those in use as far as there are so many."""
        others = [number for number in range(book.SESSIONS)
                  if number not in self.style.sessions]
        numbers = self.chance.sample(self.style.sessions,
                                     len(self.style.sessions)) + others
        return numbers[:count]

    def between(self):
        """A stamp between that of a pending change and a later one, both of
        which stand against it; and some of their commits."""
        first, last, middle = self.some_sessions(3)
        one, other = self.some_slot(), self.some_slot()
        stamps = [self.stamp_at(self.latest + step, 1) for step in (1, 2, 3)]
        self.latest += 3
        calls = [*self.whole_change(first, [one], [one], stamps[0]),
                 *self.whole_change(last, [other], [], stamps[2])]
        calls += self.chance.choice(([], [Call("c", last)], [Call("c", first)]))
        calls += self.whole_change(middle, [one, other], [other], stamps[1])
        return calls

    def twice(self):
        """A held slot is replaced twice before its session learns; then one
        receipt or the other."""
        holder, writer = self.some_sessions(2)
        slot = self.some_slot()
        calls = [Call("l", holder)]
        if slot not in self.book.sessions[holder].copies:
            calls.append(Call("f", holder, slot))
        for _ in range(2):
            self.latest += 1
            calls += self.whole_change(writer, [slot], [slot],
                                       self.stamp_at(self.latest))
            calls.append(Call("c", writer))
        upto = self.book.notice_number + self.chance.choice((0, 1, 1, 2))
        calls.append(Call("l", holder))
        calls.append(Call("k", holder, number=upto))
        calls.append(self.chance.choice((Call("l", holder),
                                         Call("f", holder, slot))))
        return calls

    # Calls of all sorts

    def any_call(self):
        chance, style = self.chance, self.style
        letter = chance.choice(list(lines.PARTS))
        number = chance.choice((*style.sessions * 4, 0, 7, 8, 9, 2 ** 32 - 1))
        slot = self.some_slot()
        if chance.randrange(4) == 0:
            slot = chance.choice((style.slots, style.slots + 1, 64,
                                  2 ** 32 - 1))
        return self.with_parts(letter, number, slot)


class History:
    """One history: its lines and answers, and whether the law holds."""

    def __init__(self, number):
        chance = random.Random(77000 + number)
        self.kind = lines.KINDS[number % 2]
        style = Style(chance)
        self.style = style
        self.image = None
        if number % 4 >= 2:
            rules = [chance.choice(style.rules) for _ in range(style.slots)]
            self.image = b"".join(
                rulebook.make_block(start // 32, rules[start:start + 32])
                for start in range(0, len(rules), 32))
        store = self.new_store()
        the_book = book.Book(store)
        maker = Maker(chance, style, the_book, self.kind)
        start = law.entries_of(store)
        calls = 0 if number == 2 else style.calls
        looks = {chance.randrange(calls) for _ in range(3)} if calls else ()
        self.lines = []
        self.answers = []
        self.calls = []     # with phases, answers: only what could be read
        self.breaches = []
        history = []
        for time in range(calls):
            line = maker.line()
            self.lines.append(line)
            try:
                call = lines.read_line(line, self.kind)
            except Refusal as refusal:
                self.answers.append(refusal)
                continue
            phase = "none"
            if call.session is not None and call.session < book.SESSIONS:
                phase = the_book.sessions[call.session].phase
            answer = the_book.ask(call)
            self.answers.append(answer)
            self.calls.append((call, phase, answer, len(the_book.queue)))
            history.append((call, answer))
            if time in looks:
                self.breaches += law.check(start, history,
                                           law.entries_of(store))
        self.breaches += law.check(start, history, law.entries_of(store))
        self.after = bytes(store.memory) if self.image else None
        self.last_line_end = b"" if number % 7 == 3 else b"\n"

    def new_store(self):
        """A store as it is at the making."""
        if self.image is None:
            return TableStore([OPEN_RULE] * self.style.slots)
        return BlockStore(bytearray(self.image), self.style.slots)

    def script(self):
        if not self.lines:
            return b""
        # A last line that is empty needs its line end.
        end = self.last_line_end if self.lines[-1] else b"\n"
        return b"\n".join(self.lines) + end

    def answer_lines(self):
        return b"".join(lines.write_answer(number, answer) + b"\n"
                        for number, answer in enumerate(self.answers, 1))

    def answers_of(self, made):
        """The answer lines of a book of another class to the same lines."""
        return made(self.new_store()).run(self.script(), self.kind)

    def options(self, name):
        if self.image is None:
            made = f"--slots {self.style.slots}"
        else:
            made = f"--image {name}.image"
        return f"{made} --stamps {self.kind.name}\n".encode()


def complain(number, history):
    """Say loudly that the law does not hold."""
    print(f"THE LAW DOES NOT HOLD in history {number}:")
    for breach in history.breaches:
        print(f"  ({breach.part}) {breach.words}")
    for line, answer in zip(
            history.lines, history.answer_lines().split(b"\n")):
        print(f"    {line.decode('latin-1'):50} {answer.decode()}")


def write_scripts(folder, count):
    folder.mkdir(parents=True, exist_ok=True)
    for number in range(count):
        history = History(number)
        if history.breaches:
            complain(number, history)
            sys.exit(1)
        name = f"{number:04}"
        files = {"script": history.script(), "answers": history.answer_lines(),
                 "options": history.options(name)}
        if history.image is not None:
            files["image"] = history.image
            files["after"] = history.after
        for ending, content in files.items():
            (folder / f"{name}.{ending}").write_bytes(content)


def check(count):
    results = collections.Counter()
    phases = collections.Counter()
    unreadable = collections.Counter()
    calls = broken = full = ended = pending_learn = removed = 0
    for number in range(count):
        history = History(number)
        if history.breaches:
            broken += 1
            complain(number, history)
        calls += len(history.calls)
        full += any(entries == book.QUEUE_ROOM
                    for *_, entries in history.calls)
        for answer in history.answers:
            if isinstance(answer, Refusal) and answer.number in (20, 21):
                unreadable[answer.number] += 1
        for call, phase, answer, _ in history.calls:
            refused = isinstance(answer, Refusal)
            cause = answer.number if refused else 0
            results[call.letter, cause] += 1
            phases[call.letter, phase, refused] += 1
            if call.letter == "l" and not refused:
                ended += answer.ended
                pending_learn += phase == book.PENDING and answer.slots != ()
            if call.letter == "t":
                removed += answer
    print(f"{count} histories, {calls} calls,"
          f" {sum(unreadable.values())} lines that could not be read")
    causes = sorted({cause for _, cause in results})
    print("\nHow often each call was done (0), or refused with each cause:\n")
    print("call " + "".join(f"{cause:7}" for cause in causes))
    for letter in lines.PARTS:
        print(f"{letter:4} " + "".join(
            f"{results[letter, cause] or '-':>7}" for cause in causes))
    print("all  " + "".join(
        f"{sum(results[letter, cause] for letter in lines.PARTS):7}"
        for cause in causes))
    print("\nLines refused: " + ", ".join(
        f"{times} with {cause}" for cause, times in sorted(unreadable.items())))
    print("\nDone and refused in each phase:\n")
    for letter in lines.PARTS:
        print(f"{letter:4} " + "  ".join(
            f"{phase} {phases[letter, phase, False]}"
            f"/{phases[letter, phase, True]}"
            for phase in (book.IDLE, book.OPEN, book.PENDING, "none")))
    print(f"\n{full} histories had a full queue; {removed} entries left by"
          f" truncation; {ended} changes ended by learn; {pending_learn} learns"
          f" of a pending session told of slots")
    print(f"\nThe law holds in {count - broken} of {count} histories.")
    return broken == 0


def main():
    if len(sys.argv) != 3:
        sys.exit("usage: make_scripts.py DIR N, or make_scripts.py --check N")
    count = int(sys.argv[2])
    if sys.argv[1] == "--check":
        sys.exit(0 if check(count) else 1)
    write_scripts(pathlib.Path(sys.argv[1]), count)


if __name__ == "__main__":
    main()
