"""A plain reader of traces: whether a text is one, at which line it shows first that it is none, and what `replay` answers.

It follows docs/TRACE.md, docs/CRASHES.md and docs/REPLAY.md. Commands and replies are those of plain_tree.py, and what a
crash leaves of the disk is worked out by plain_disk.py.
"""

import re
from typing import NamedTuple

import plain_disk
import plain_tree

NUMBER = re.compile("0|[1-9][0-9]*")
BLOCK_TEXT = re.compile("[0-9a-f]{2048}")
OUTSIDE = {f"refused {number} {plain_tree.REFUSALS[number]}" for number in range(13, 18)}
FIGURES = {"full": 2, "toobig": 3, "scattered": 1}
MOST_BYTES = 2**18
FAULT, STOPPED = "refused 14 DiskFault", "refused 15 Stopped"


class WrongLine(Exception):
    """The first line, counted from 1, at which a text shows that it is no trace."""

    def __init__(self, number):
        super().__init__(number)
        self.number = number


class Outgrown(Exception):
    """A file of the trace would get more than `MOST_BYTES`. Such a trace isn't read, since a plain tree holds all bytes."""


class Answer(NamedTuple):
    """What `replay` answers: the status, the output, and of a damaged image all damages that may be told."""

    status: int
    out: str
    texts: tuple = ()


class Point(NamedTuple):
    """A sync point: the moment at which it has begun, and its listing."""

    begun: int
    listing: str


def number_of(text, below):
    """The number of a text, or `None` where it is none, or isn't below a bound."""
    return int(text) if NUMBER.fullmatch(text) and len(text) <= 20 and int(text) < below else None


class Reader:
    """What was read of a trace so far."""

    def __init__(self):
        self.geometry, self.events, self.mount = None, [], 0
        self.last, self.open, self.lost = 0, set(), 0
        self.tree, self.command, self.stopped, self.mark = None, None, False, 0
        # where the next line stands: `first`, `mount`, `asked`, `between` or `ended`
        self.place = "first"
        # the sync points, and what each reply promised at its mark
        self.points, self.promises = [], []

    def take(self, line):
        """Takes a line, where it may come; whether it may."""
        word, _, rest = line.decode("latin-1").partition(" ")
        if self.place == "first":
            return word == "g" and self.take_geometry(rest)
        if word in ("w", "f", "d") and self.place in ("mount", "asked"):
            return self.take_event(word, rest)
        if word == "c" and self.place in ("mount", "between"):
            return self.take_command(rest)
        if word == "r" and self.place == "asked":
            return self.take_reply(rest)
        if line == b"end" and self.place in ("mount", "between"):
            self.place = "ended"
            return True
        return False

    def take_geometry(self, rest):
        parts = rest.split(" ")
        layout = 2 if len(parts) == 4 and parts[3] == "2" else 1
        numbers = [number_of(text, 2**32) for text in (parts if layout == 1 else parts[:3])]
        if len(numbers) != 3 or None in numbers or not plain_disk.Geometry(*numbers, layout).fits():
            return False
        self.geometry, self.place = plain_disk.Geometry(*numbers, layout), "mount"
        self.tree = plain_tree.Tree(self.geometry.nodes, layout)
        self.points.append(Point(0, self.tree.listing()))
        return True

    def take_event(self, word, rest):
        parts = rest.split(" ")
        if len(parts) != {"w": 3, "f": 2, "d": 1}[word]:
            return False
        ticket = None if word == "f" else number_of(parts[0], 2**64)
        if word == "d":
            if ticket not in self.open:
                return False
            self.open.remove(ticket)
            self.events.append(plain_disk.Event("d", ticket))
        else:
            block, data = number_of(parts[-2], self.geometry.blocks), parts[-1]
            if block is None or not BLOCK_TEXT.fullmatch(data):
                return False
            if word == "w" and (ticket is None or ticket <= self.last):
                return False
            if word == "w":
                self.last = ticket
                self.open.add(ticket)
            self.lost += word == "f"
            self.events.append(plain_disk.Event(word, ticket or self.lost, block, bytes.fromhex(data)))
        self.mount = len(self.events) if self.place == "mount" else self.mount
        return True

    def take_command(self, text):
        """A command is written in one way: numbers have no zeros before them, and digits are in lower case."""
        command = plain_tree.BAD if text == "?" else plain_tree.parse(text.encode("latin-1"))
        is_bad = command is None or (command == plain_tree.BAD and text != "?")
        if is_bad or (command.word == "write" and text.split(" ")[3] != command.arguments[2].hex()):
            return False
        self.mark = self.mark if self.place == "between" else self.mount
        self.command, self.place = command, "asked"
        return True

    def take_reply(self, rest):
        mark, _, reply = rest.partition(" ")
        if number_of(mark, 2**64) != len(self.events) or not self.takes(reply):
            return False
        self.mark, self.place = len(self.events), "between"
        promised = plain_tree.PROMISE.fullmatch(reply)
        self.promises += [(self.mark, int(promised[1]))] if promised else []
        return True

    def takes(self, reply):
        """Does the command, where it may be answered so; whether it may."""
        if self.command == plain_tree.BAD:
            return reply == "bad"
        if self.stopped:
            return reply == STOPPED
        is_sync = self.command.word in ("osync", "dsync")
        if reply in OUTSIDE or self.has_figures(reply):
            self.stopped = reply == FAULT
            if is_sync and self.stopped and self.tree.changed:
                self.points.append(Point(self.mark, self.tree.listing()))
            return True
        makes = is_sync and self.tree.changed
        known = re.fullmatch("known ([0-9]+)", reply)
        if self.command.word == "durable":
            point = number_of(known[1], 2**64) if known else None
            return point is not None and self.tree.durable <= point <= self.tree.point
        if self.outgrows():
            raise Outgrown
        if self.tree.answer(self.command) != reply:
            return False
        if makes:
            self.points.append(Point(self.mark, self.tree.listing()))
        return True

    def outgrows(self):
        """Whether the command may make a file that is too long for this reader."""
        word, arguments = self.command
        ends = {"write": lambda: arguments[1] + len(arguments[2]), "fill": lambda: arguments[1] + arguments[2], "truncate": lambda: arguments[1]}
        return word in ends and MOST_BYTES < ends[word]() <= plain_tree.LARGEST_FILE

    def has_figures(self, reply):
        """Whether a reply is a refusal with figures, each of 32 bits."""
        word, *figures = reply.split(" ")
        return FIGURES.get(word) == len(figures) and all(number_of(text, 2**32) is not None for text in figures)

    def bounds(self, moment):
        """Floor and top of a moment."""
        floor = max([0, *(point for mark, point in self.promises if mark <= moment)])
        return floor, max(number for number, point in enumerate(self.points) if point.begun <= moment)


def read(text):
    """What the bytes of a trace say. `WrongLine` tells where they show first that they are none, and `Outgrown` that they may
    be one which isn't read."""
    *lines, rest = text.split(b"\n")
    reader = Reader()
    for number, line in enumerate(lines, 1):
        if not reader.take(line):
            raise WrongLine(number)
    if reader.place != "ended" or rest:
        raise WrongLine(len(lines) + 1)
    return reader


def replayed(trace, moment, stand, tear):
    """What `replay` answers to a crash of a trace that was read, by a choice whose texts are lawful."""
    if moment > len(trace.events):
        return Answer(13, "error 13 choice\n")
    try:
        image = plain_disk.crash_by(plain_disk.formatted(trace.geometry), trace.events[:moment], stand, tear)
    except ValueError:
        return Answer(13, "error 13 choice\n")
    try:
        plain_disk.mountable(image)
        listing = plain_disk.tree_of(image).listing()
    except plain_disk.Damage as damage:
        is_spent = damage.texts == (plain_disk.SPENT_TEXT,)
        return Answer(9, "error 9 spent\n") if is_spent else Answer(6, "error 6 damaged\n", damage.texts)
    floor, top = trace.bounds(moment)
    points = [number for number in range(floor, top + 1) if trace.points[number].listing == listing]
    if not points:
        return Answer(10, f"prefix none\n{listing}error 10 no prefix\n")
    return Answer(0, f"prefix {points[-1]}\n{listing}")
