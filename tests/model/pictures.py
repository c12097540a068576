"""What a picture of a run has to show: marks, labels and signs of the legend, as docs/FORMATS.md says ("Picture")."""

import re
from collections import Counter

MARK = re.compile("<use href='#([a-z]+)' x='([0-9]+)' y='([0-9]+)'/>")
LABEL = re.compile("<text class='[tscrbj]' x='([0-9]+)' y='(?!43')([0-9]+)'>([^<]*)</text>")
NUMBER = re.compile("<text class='(?:place|c)' x='([0-9]+)' y='(18|30|43)'>([0-9]+)</text>")
SIGN = re.compile("<text x='42' y='4'>([^<]*)</text>")
ARROWS = {
    "message": "message, its SSN and first bytes",
    "number": "its number (RSN), to its sender",
    "acknowledgement": "acknowledgement of a number",
    "output": "output, its SSN and first bytes",
}


def column_x(column):
    return 190 + 24 * column + 140 * (column // 50)


def line_y(number):
    return 100 + 78 * number


def first_bytes(pairs):
    """The first four of these bytes, in hexadecimal, and two dots where there are more."""
    return pairs if len(pairs) <= 8 else pairs[:8] + ".."


def handed_in(order, text):
    """The bytes that an order hands in."""
    return int(text).to_bytes(64, "little").hex() if order == "input" else text


class Picture:
    """The marks and labels of the trace of a scenario with their places, and what its legend has.

    Of each entry and each refused order a line of `moments` has the line of the scenario, and what the entry's message says
    or the number that refused the order.
    Where only messages are shown, numbers and acknowledgements are left out, and entries that move one have no column.
    """

    def __init__(self, scenario, trace, moments, only_messages=False):
        inputs = re.findall("(?m)^(input|bytes) [^ ]+ (.*)$", scenario)
        self.handed = [first_bytes(handed_in(*found)) for found in inputs]  # by feed, from 1
        self.said = None  # the first bytes of the message that an entry puts on the wire or shows
        self.marks, self.labels, self.signs, self.numbers = [], [], set(), []
        self.only_messages, self.messages = only_messages, set()  # the keys of those on the wire
        self.packets = {}  # by key: from, to, column, column of the copy or None, kind
        self.jobs = {}  # by process: whose message its open job has, or None where it is replayed
        self.saved, self.left = {}, {}  # by process: messages of its checkpoint; peers that restore its numbers
        self.processes = len(re.findall("(?m)^process ", trace))
        self.down = set()
        entries = enumerate(re.findall("(?m)^[0-9]{6} w[0-9]+ (.*) -> (.*)$", trace), 1)
        self.column = 0
        for line, *more in map(str.split, moments.splitlines()):
            self.said = first_bytes(more[1]) if more[:1] == ["says"] else None
            is_drawn = self.refuse(more[1]) if more[:1] == ["refused"] else self.enter(*next(entries))
            if is_drawn:
                self.numbers.append((column_x(self.column), 30, int(line)))
                self.column += 1
        assert next(entries, None) is None
        for process in list(self.jobs):
            self.end_job(process, is_cut=True)
        for packet in self.packets.values():
            self.signs |= {ARROWS[packet[4]], "still on its way"}
            self.ring(packet, self.half(packet))

    def refuse(self, number):
        """A refused order has its column."""
        self.marks.append(("refused", column_x(self.column), 14))
        self.signs.add("refused order, its line and number")
        self.numbers.append((column_x(self.column), 43, int(number)))
        return True

    def enter(self, number, entry):
        """The next entry, by its number. Whether it has a column."""
        (verb, *numbers), (said, *told) = (half.split() for half in entry)
        is_other = verb in ("copy", "lose", "arrive") and numbers[0] not in self.messages
        if verb in ("lose", "arrive"):
            self.messages.discard(numbers[0])
        if verb == "transmit" or verb == "copy" and not is_other:
            self.messages.add(told[0])
        if self.only_messages and is_other:
            return False
        self.numbers.append((column_x(self.column), 18, number))
        getattr(self, verb)(said, *map(int, numbers), *map(int, told))
        return True

    def mark(self, shape, number, sign=None):
        self.marks.append((shape, column_x(self.column), line_y(number)))
        self.signs |= {sign} - {None}

    def above(self, number, text, beyond=0):
        out = 11 * (self.column % 2)
        self.labels.append((column_x(self.column), line_y(number) - 14 - beyond - out, text))

    def below(self, number, text, beyond=0):
        self.labels.append((column_x(self.column), line_y(number) + 22 + beyond + 11 * (self.column % 2), text))

    def away(self, number, other, text, beyond=0):
        """On the side that looks away from the other line."""
        (self.below if other < number else self.above)(number, text, beyond)

    def half(self, packet):
        return column_x(self.column), (line_y(packet[0]) + line_y(packet[1])) // 2

    def ring(self, packet, end):
        """On the arrow of a copy, in the column in which it was copied."""
        start, _, column, copied, _ = packet
        if copied is not None:
            x, rise = column_x(copied), end[1] - line_y(start)
            way = abs(rise) * (x - column_x(column)) // (end[0] - column_x(column))
            self.marks.append(("copy", x, line_y(start) + (way if rise > 0 else -way)))
            self.signs.add("a copy, from where it was made")

    def put(self, key, start, end, kind):
        if not self.only_messages or kind in ("message", "output"):
            self.packets[key] = (start, end, self.column, None, kind)

    def begin_job(self, process, sender, job):
        self.end_job(process, is_cut=True)
        self.jobs[process] = sender
        self.labels.append((column_x(self.column) + 3, line_y(process) + 4, f"#{job}"))

    def end_job(self, process, is_cut=False):
        if process in self.jobs:
            sender = self.jobs.pop(process)
            self.signs.add("replayed call" if sender is None else "handler call, its job")
            self.signs |= {"cut by a crash, or still open"} if is_cut else set()
            return sender
        return None

    def input(self, _, to, feed, __):
        self.mark("input", 0, "input, its feed and first bytes")
        self.above(0, f"in {feed}")
        self.below(0, f"for {to}")
        self.above(0, self.handed[feed - 1], beyond=22)

    def transmit(self, _, start, end, ssn, key):
        self.away(start, end, f"ssn {ssn}")
        self.away(start, end, self.said, beyond=22)
        self.put(key, start, end, "message" if end else "output")

    def copy(self, _, key, new):
        start, end, column, _, kind = self.packets[key]
        self.packets[new] = (start, end, column, self.column, kind)

    def lose(self, _, key):
        packet = self.packets.pop(key)
        end = self.half(packet)
        self.marks.append(("lost", *end))
        self.signs |= {ARROWS[packet[4]], "lost packet"}
        self.ring(packet, end)

    def arrive(self, said, key, number=None):
        packet = self.packets.pop(key)
        back, here = packet[:2]
        self.signs.add(ARROWS[packet[4]])
        self.ring(packet, (column_x(self.column), line_y(here)))
        if said == "started":
            self.begin_job(here, back, number)
        elif said == "shown":
            self.mark("shown", 0)
            self.above(0, f"out {number}")
            self.above(0, self.said, beyond=22)
        elif said == "down":
            self.mark("lost", here, "lost packet")
            self.away(here, back, "down")
        elif said in ("duplicate", "early", "stale"):
            self.away(here, back, "again" if said == "duplicate" else said)
        if number is not None and said in ("duplicate", "numbered"):
            self.put(number, here, back, "number" if said == "duplicate" else "acknowledgement")

    def finish(self, said, process, rsn, key=None):
        sender = self.end_job(process)
        if said == "committed":
            self.away(process, sender, f"rsn {rsn}")
            self.put(key, process, sender, "number")
        else:
            self.below(process, f"rsn {rsn}")

    def checkpoint(self, _, process, count):
        self.mark("saved", process, "checkpoint, what it covers")
        self.above(process, f"save {count}")
        self.saved[process] = count

    def trim(self, _, to, count):
        self.mark("trim", to, "logs to it are trimmed")
        self.above(to, f"trim {count}")

    def crash(self, _, process, incarnation):
        self.mark("crash", process, "crash, its new incarnation")
        self.above(process, "crash")
        self.below(process, f"inc {incarnation}")
        self.end_job(process, is_cut=True)
        self.down.add(process)

    def recover(self, _, process, count, word="recover"):
        self.mark("recover", process, "recovery, how many it kept")
        self.above(process, word)
        self.below(process, f"kept {count}")
        peers = {p for p in range(1, self.processes + 1) if p != process}
        left = len(peers - self.down - set(self.left) if word == "alone" else peers)
        self.down.discard(process)
        if left or count > self.saved.get(process, 0):
            self.left[process] = left
            self.signs.add("replays, or restores numbers")

    def alone(self, said, process, count):
        self.recover(said, process, count, "alone")

    def replay(self, _, process, job):
        self.begin_job(process, None, job)

    def resync(self, _, process, peer, count):
        self.away(process, peer, f"sync {count}")
        self.signs.add("numbers from a peer")
        self.left[process] -= 1
        if not self.left[process]:
            del self.left[process]


def is_picture(svg, scenario, trace, moments, only_messages=False):
    """Whether a picture of a run has its marks and labels where they belong, the signs of its legend, and no others."""
    drawn, legend = svg.split("<g transform", 1)
    wanted = Picture(scenario, trace, moments, only_messages)
    return (
        Counter(tuple(map(int, found)) for found in NUMBER.findall(drawn)) == Counter(wanted.numbers)
        and Counter((shape, int(x), int(y)) for shape, x, y in MARK.findall(drawn)) == Counter(wanted.marks)
        and Counter((int(x), int(y), text) for x, y, text in LABEL.findall(drawn)) == Counter(wanted.labels)
        and sorted(SIGN.findall(legend)) == sorted(wanted.signs)
    )
