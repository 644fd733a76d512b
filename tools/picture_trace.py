"""A recording as tools/picture shows it: its events and commands, its sync points with the bounds of each moment, and what
each write is.

Bounds come from commands, replies and marks alone, as docs/CRASHES.md says; the trees of the sync points are those of
plain_tree.py. What a crash leaves isn't worked out here: that is asked of the program (picture_choices.py).
"""

import pathlib
from typing import NamedTuple

import plain_disk
import plain_tree

# The letter of a write, as in docs/LOOKING.md.
HEADER, FRESH, DESCRIPTOR, PAYLOAD, COMMIT, CHECKPOINT, LOST = "hflpckx"
# Behind so many bytes a write is torn, where that leaves neither all of it nor nothing.
USUAL_CUT = 100
SYNCS = ("osync", "dsync")
# The first words of replies with which a command changed nothing.
LEAVE_ALL = ("refused", "full", "toobig", "scattered", "bad")


class NoTrace(Exception):
    """Why a text is no trace that can be shown."""


class Event(NamedTuple):
    """An event: `w`, `f` or `d`; the ticket, or the number of a lost write; the block and the bytes of a write."""

    kind: str
    ticket: int
    block: int = 0
    data: bytes = b""

    @property
    def name(self):
        """How the words of `replay` name a write."""
        return f"f{self.ticket}" if self.kind == "f" else str(self.ticket)


class Command(NamedTuple):
    """A command with its reply: the mark before it, its own mark, and the sync point that it makes, or `None`."""

    text: str
    reply: str
    begins: int
    mark: int
    makes: int | None = None

    @property
    def word(self):
        return self.text.split(" ")[0]

    @property
    def meets_fault(self):
        """Whether a call of the disk failed in it."""
        return self.reply.startswith("refused 14 ")

    @property
    def promised(self):
        """The sync point that the reply promises, or `None`."""
        kind, _, rest = self.reply.partition(" ")
        return int(rest) if kind in ("durable", "known") else None


class Role(NamedTuple):
    """What a write is: its letter, and some words."""

    letter: str
    text: str


class Listed(NamedTuple):
    """An entry of a descriptor, with the place of the descriptor among the events and the number of its record."""

    place: int
    record: int
    entry: plain_disk.Entry


class Recording:
    """A recording, read from the text of its trace."""

    def __init__(self, text):
        self.events, self.commands, self.mount = [], [], None
        lines = text.splitlines()
        if lines[-1:] != ["end"] or not lines[0].startswith("g "):
            raise NoTrace("it isn't a whole trace")
        self.geometry = plain_disk.Geometry(*map(int, lines[0].split(" ")[1:]))
        self.read(lines[1:-1])
        self.mount = len(self.events) if self.mount is None else self.mount
        self.find_points()
        self.floor, self.top = self.bounds()
        self.last, self.pending = self.last_points(), self.pending_writes()
        self.roles = Roles(self.geometry, self.events).all()
        self.cuts = cuts(self.events)

    def read(self, lines):
        """Takes the lines between the first and the last one."""
        lost, command, begins = 0, None, 0
        for line in lines:
            word, _, rest = line.partition(" ")
            if word == "c":
                command, begins = rest, len(self.events)
                self.mount = begins if self.mount is None else self.mount
            elif word == "r":
                mark, _, reply = rest.partition(" ")
                self.commands.append(Command(command, reply, begins, int(mark)))
            elif word == "d":
                self.events.append(Event("d", int(rest)))
            else:
                lost += word == "f"
                ticket, block, data = f"{lost} {rest}".split(" ") if word == "f" else rest.split(" ")
                self.events.append(Event(word, int(ticket), int(block), bytes.fromhex(data)))

    def find_points(self):
        """Runs the commands that were done: which of all make a sync point, and the listing of each point."""
        tree = plain_tree.Tree(self.geometry.nodes, self.geometry.layout)
        self.listings = [tree.listing()]
        for place, command in enumerate(self.commands):
            is_left = command.reply.split(" ")[0] in LEAVE_ALL
            if command.word in SYNCS and tree.changed and (not is_left or command.meets_fault):
                self.commands[place] = command._replace(makes=len(self.listings))
                self.listings.append(tree.listing())
            if not is_left:
                tree.answer(plain_tree.parse(command.text.encode()))

    @property
    def points(self):
        """The number of the last sync point."""
        return len(self.listings) - 1

    def bounds(self):
        """Floor and top of each moment."""
        begun = [(0, 0), *((one.begins, one.makes) for one in self.commands if one.makes is not None)]
        promised = [(0, 0), *((one.mark, one.promised) for one in self.commands if one.promised is not None)]
        by = lambda pairs, moment: max(point for since, point in pairs if since <= moment)
        moments = range(len(self.events) + 1)
        return [by(promised, moment) for moment in moments], [by(begun, moment) for moment in moments]

    def last_points(self):
        """For the mount's end and each mark before a disk fault, the last points of the replies with that mark: for each of
        them all that was issued stands."""
        last, point = {self.mount: {0}}, 0
        for command in self.commands:
            if command.meets_fault:
                break
            point = point if command.makes is None else command.makes
            last.setdefault(command.mark, set()).add(point)
        return last

    def pending_writes(self):
        """The writes that are pending at each moment, as places among the events, the oldest first."""
        waiting, found = [], [[]]
        places = {event.ticket: place for place, event in enumerate(self.events) if event.kind == "w"}
        for place, event in enumerate(self.events):
            if event.kind == "d":
                noticed = places[event.ticket]
                block = self.events[noticed].block
                waiting = [one for one in waiting if one > noticed or self.events[one].block != block]
            else:
                waiting = [*waiting, place]
            found.append(waiting)
        return found


def read_recording(path):
    """The recording whose trace is in a file."""
    try:
        return Recording(pathlib.Path(path).read_text(encoding="utf-8"))
    except (OSError, ValueError) as why:
        raise NoTrace(str(why)) from None


def cuts(events):
    """Behind how many bytes each write is torn, so that it is neither lost nor whole by chance."""
    before, found = {}, []
    for event in events:
        old = before.get(event.block, plain_disk.ZEROS)
        if event.kind != "d":
            before[event.block] = event.data
        changed = [at for at, (one, other) in enumerate(zip(old, event.data)) if one != other] or [plain_disk.BLOCK // 2]
        is_within = changed[0] < USUAL_CUT <= changed[-1]
        found.append(USUAL_CUT if is_within else max(1, changed[len(changed) // 2]))
    return found


class Roles:
    """What each write of a recording is, read off its bytes by docs/JOURNAL.md and docs/LAYOUT.md."""

    def __init__(self, geometry, events):
        self.geometry, self.events = geometry, events
        self.listed = [one for place, event in enumerate(events) for one in self.entries_of(place, event)]

    def all(self):
        """The role of each event, and `None` of a notice."""
        return [None if event.kind == "d" else self.role(place, event) for place, event in enumerate(self.events)]

    def entries_of(self, place, event):
        """The entries of a descriptor that was written."""
        part = plain_disk.read_descriptor(self.geometry, event.data) if event.kind != "d" else None
        return [Listed(place, part[1], entry) for entry in part[3]] if part else []

    def role(self, place, event):
        if event.block < 2:
            return self.header(event)
        if event.block < self.geometry.bitmap:
            return self.ring_block(place, event)
        return self.home_block(place, event)

    def header(self, event):
        read = plain_disk.read_header(self.geometry.blocks, event.data)
        if read is None:
            return Role(HEADER, "a block in a header slot")
        header = read[1]
        return Role(HEADER, f"header {header.turn}: the journal from record {header.start} on, sure up to {header.sure}")

    def ring_block(self, place, event):
        """The role of a block of a record."""
        descriptor = plain_disk.read_descriptor(self.geometry, event.data)
        commit = plain_disk.read_commit(self.geometry, event.data)
        if descriptor:
            return Role(DESCRIPTOR, f"descriptor of record {descriptor[1]}: which blocks it has")
        if commit:
            return Role(COMMIT, f"commit block of record {commit[1]}")
        digest = plain_disk.sha(event.data)
        listed = [one for one in self.listed if one.entry.digest == digest and one.entry.kind != plain_disk.FRESH]
        listed = [one for one in listed if one.place < place][-1:] or listed[:1]
        if not listed:
            return Role(PAYLOAD, "a block of the journal")
        return Role(PAYLOAD, f"payload of record {listed[0].record}: block {self.named(listed[0].entry.block)}")

    def home_block(self, place, event):
        """The role of a block in its own place: it is fresh where a descriptor behind it says so."""
        listed = [one for one in self.listed if one.entry.block == event.block]
        behind = [one for one in listed if one.place > place]
        before = [one for one in listed if one.place < place]
        if behind and behind[0].entry == (event.block, plain_disk.FRESH, plain_disk.sha(event.data)):
            return Role(FRESH, f"fresh block of record {behind[0].record}: new bytes, in their own place")
        if before and before[-1].entry.kind != plain_disk.FRESH:
            return Role(CHECKPOINT, f"checkpoint write of block {self.named(event.block)}, from record {before[-1].record}")
        return Role(FRESH, "a block in its own place, of no record")

    def named(self, block):
        """A block with the area that it lies in."""
        geometry = self.geometry
        area = "bitmap" if block < geometry.table else "node table" if block < geometry.data else "data"
        return f"{block} ({area})"
