"""A plain recorder: the trace of a script on a disk without notices, with each event and all its bytes, in either layout.

It follows docs/FILES.md, docs/DIRECTORIES.md, docs/PIPELINE.md, docs/JOURNAL.md and docs/TRACE.md, and counts by plain_room.py.
Trials ask it what the program records. No rule of notices is part of it, and no write that fails. What it makes of an image
(`run`, `upgrade`) has the right tree, but not the right journal.
"""

from typing import NamedTuple

import plain_disk
import plain_tree
from plain_disk import BLOCK, ENTRY, FRESH, Entry, Event, Header
from plain_room import Room

EPOCH = 2
# so many bytes of a file an upgrade writes at once
PIECE = 65536
COMMITTED, DURABLE, SURE, PLACED, RELEASED = range(5)


class Kept:
    """A record in the pipeline: its state, its tickets, and what it leaves in the blocks that it names, `None` for a fresh one."""

    def __init__(self, record, tickets):
        self.record, self.tickets, self.state, self.batched = record, tickets, COMMITTED, False
        self.contents = record.contents | {entry.block: None for entry in record.fresh}


class Written(NamedTuple):
    """A header that was written, its slot, and its ticket."""

    header: Header
    slot: int
    ticket: int


class Pipeline:
    """The records of a session, and the way of each to where its blocks are at home."""

    def __init__(self, geometry):
        self.geometry, self.events, self.tickets, self.noticed = geometry, [], 0, set()
        self.records, self.batch, self.place = [], set(), 0
        self.durable = None
        self.header = self.write_header(Header(EPOCH, 2, 1, 0, 0, 0), 1)
        self.wait([self.header.ticket])
        self.durable = self.header

    def write(self, block, data):
        self.tickets += 1
        self.events.append(Event("w", self.tickets, block, data))
        return self.tickets

    def write_header(self, header, slot):
        return Written(header, slot, self.write(slot, plain_disk.header_block(self.geometry, header)))

    def wait(self, tickets):
        """Waits for those of these tickets that have no notice, ascending."""
        for ticket in sorted(set(tickets) - self.noticed):
            self.events.append(Event("d", ticket))
            self.noticed.add(ticket)

    def last(self, state):
        """The number of the last record that came so far, or 0."""
        return max([0, *(one.record.number for one in self.records if one.state >= state)])

    def find_durable(self):
        """Records become durable, the oldest first."""
        for one in self.records:
            if not one.tickets <= self.noticed:
                break
            one.state = max(one.state, DURABLE)

    def advance(self):
        """What is done once, where no notice comes but those that were waited for."""
        self.find_durable()
        if self.header.ticket in self.noticed:
            self.durable = self.header
            for one in self.records:
                if one.state == DURABLE and one.record.number <= self.durable.header.sure:
                    one.state = SURE
                if one.record.number < self.durable.header.start:
                    one.state = RELEASED
        if self.batch <= self.noticed:
            self.place_batch()
            self.begin_batch()
        is_pending = self.header.ticket not in self.noticed
        start = self.last(PLACED) + 1 if any(one.state >= PLACED for one in self.records) else self.durable.header.start
        if not is_pending and (self.last(DURABLE) > self.durable.header.sure or self.last(PLACED) >= self.durable.header.start):
            at = sum(one.record.places for one in self.records[: start - 1]) % self.geometry.journal
            header = Header(EPOCH, self.durable.header.turn + 1, start, self.last(DURABLE), at, 0)
            self.header = self.write_header(header, 1 - self.durable.slot)

    def begin_batch(self):
        """The sure records are the next batch: what the last of them leaves in each block is written home, but for blocks that
        they free."""
        homes = {}
        for one in self.records:
            one.batched = one.state == SURE
            if one.batched:
                homes.update(one.contents)
        is_freed = lambda block: block >= self.geometry.data and not self.is_marked(homes, block)
        homes = {block: data for block, data in sorted(homes.items()) if data is not None and not is_freed(block)}
        self.batch = {self.write(block, data) for block, data in homes.items()}
        # a batch that has nothing to write is placed at once
        if not self.batch:
            self.place_batch()

    def place_batch(self):
        for one in self.records:
            one.state = PLACED if one.batched and one.state == SURE else one.state

    def is_marked(self, blocks, block):
        """Whether a block of data is in use by the bitmap that these blocks have; it is where they have none of it."""
        return self.geometry.bitmap + block // 8192 not in blocks or plain_disk.bit(blocks, self.geometry, block)

    def drain(self):
        while any(one.state < RELEASED for one in self.records):
            pending = {event.ticket for event in self.events if event.kind == "w"} - self.noticed
            self.wait(pending)
            self.advance()

    def commit(self, payloads, fresh):
        """Writes the record of blocks with their bytes, in order."""
        stored = [plain_disk.escaped(data) for _, data in payloads]
        rows = [Entry(block, kind, plain_disk.sha(kept)) for (block, _), (kind, kept) in zip(payloads, stored)]
        news = [Entry(block, FRESH, plain_disk.sha(data)) for block, data in fresh]
        record = plain_disk.Record(len(self.records) + 1, self.place, rows, news, [kept for _, kept in stored])
        writes = plain_disk.record_writes(self.geometry, EPOCH, record, [data for _, data in fresh])
        self.records.append(Kept(record, {self.write(block, data) for block, data in writes}))
        self.place = (self.place + record.places) % self.geometry.journal


class DrainingRoom(Room):
    """The room of a session whose pipeline settles where a command needs it."""

    def __init__(self, geometry, pipeline):
        super().__init__(geometry, has_notices=False)
        self.pipeline = pipeline

    def settle(self):
        self.pipeline.drain()
        super().settle()


class Recorder:
    """A session on a formatted disk: its blocks as they are now, the slots of its directories, and what the running transaction
    changed and took."""

    def __init__(self, geometry):
        self.geometry, self.pipeline = geometry, Pipeline(geometry)
        self.tree, self.room = plain_tree.Tree(geometry.nodes, geometry.layout), DrainingRoom(geometry, self.pipeline)
        self.now = plain_disk.formatted(geometry)
        self.slots, self.changed, self.taken = {1: []}, set(), set()
        # what was taken, and kept by snapshots, before the command
        self.known_taken, self.kept_before = set(), set()
        self.synced = list(self.now)

    @classmethod
    def of(cls, image):
        """A session on an image in which a tree stands."""
        stood, found = plain_disk.tree_of(image), plain_disk.find(image)
        recorder = cls(stood.geometry)
        recorder.tree, room = plain_tree.Tree.of(stood), recorder.room
        for block, data in plain_disk.recovered(image, found).items():
            recorder.now[block] = data
        recorder.synced = list(recorder.now)
        recorder.slots = {number: [(child, name.encode()) for name, child in slots] for number, slots in stood.slots.items()}
        room.places = {number: node.places for number, node in stood.nodes.items()}
        is_file = lambda one, number: one.nodes[number].kind == 2
        room.kept = {one.name: {number: one.places[number] for number in one.nodes if is_file(one, number)} for one in stood.snapshots}
        room.may -= room.listed()
        recorder.kept_before = room.shared()
        return recorder

    def answer(self, command):
        """Does a command, and returns its reply."""
        if command == plain_tree.BAD:
            return "bad"
        self.pipeline.advance()
        places, before = dict(self.room.places), self.tree.copy()
        lacks = self.room.answer(self.tree, command, None)
        if lacks:
            return lacks
        weight = self.room.weight
        reply = self.tree.answer(command)
        if command.word in ("osync", "dsync") and weight:
            self.commit()
        if command.word == "durable":
            return f"known {self.known()}"
        if reply.startswith("durable "):
            records = self.pipeline.records[: int(reply.split(" ")[1])]
            self.pipeline.wait({ticket for one in records for ticket in one.tickets})
            self.pipeline.find_durable()
        if reply == "ok":
            self.change(command, before, places)
        return reply

    def known(self):
        """How many of the first records have all their notices."""
        records = self.pipeline.records
        return next((at for at, one in enumerate(records) if not one.tickets <= self.pipeline.noticed), len(records))

    def change(self, command, before, places):
        """What a command that was done makes of the blocks, where the nodes had these before."""
        self.taken |= self.room.listed() - {block for kept in places.values() for block in kept} - self.kept_before
        getattr(self, f"do_{command.word}", lambda *_: None)(before, places, *command.arguments)
        for block, data in self.metadata().items():
            if data != self.now[block] or block in self.taken - self.known_taken:
                self.changed.add(block)
            self.now[block] = data
        self.known_taken = set(self.taken)
        self.kept_before = self.room.shared()

    def metadata(self):
        """The blocks of the bitmap, of the node table and of directories, as the tree and the lists of blocks say them."""
        geometry, layout = self.geometry, self.geometry.layout
        bits = sum(1 << block for block in [*range(geometry.data), *self.room.listed()])
        bitmap = bits.to_bytes(BLOCK * (geometry.table - geometry.bitmap), "little")
        blocks = self.cut(geometry.bitmap, bitmap) | self.cut(geometry.table, self.table(layout))
        for number in self.slots:
            for block, data in zip(self.room.places[number], self.directory(number)):
                blocks[block] = data
        return blocks

    def cut(self, first, data):
        return {first + at // BLOCK: data[at : at + BLOCK] for at in range(0, len(data), BLOCK)}

    def table(self, layout, with_snapshots=True):
        """The bytes of the node table."""
        spelled = {number: self.node(number, layout) for number in self.tree.nodes}
        if with_snapshots:
            for kept in self.tree.snapshots.values():
                places = self.room.places[kept.number]
                spelled[kept.number] = plain_disk.node_bytes(3, 1, BLOCK * len(places), pairs(places), layout)
        free = bytes(self.geometry.numbers.node)
        return b"".join(spelled.get(number, free) for number in range(1, self.geometry.nodes + 1))

    def node(self, number, layout):
        data, places = self.tree.nodes[number], self.room.places[number]
        if data is None:
            return plain_disk.node_bytes(1, 1, ENTRY * len(self.slots[number]), pairs(places), layout)
        return plain_disk.node_bytes(2, self.tree.links(number), len(data), pairs(places), layout)

    def directory(self, number):
        """The blocks of a directory."""
        data = plain_disk.directory_bytes(self.slots[number], self.geometry.layout)
        return [data[at : at + BLOCK].ljust(BLOCK, b"\0") for at in range(0, len(data), BLOCK)]

    def put(self, path, places, low, high, data, offset):
        """Puts bytes into a file, at this offset, which had these blocks; the blocks from `low` up to `high` are touched."""
        number = self.tree.names[path]
        old, new, size = places.get(number, []), self.room.places[number], self.old_size
        for place in range(low // BLOCK, -(-high // BLOCK)):
            begin = BLOCK * place
            block = bytearray(self.now[old[place]] if place < len(old) else bytes(BLOCK))
            if high > size and size < begin + BLOCK:
                clear = max(0, size - begin)
                block[clear:] = bytes(BLOCK - clear)
            first, last = max(begin, offset), min(begin + BLOCK, offset + len(data))
            if first < last:
                block[first - begin : last - begin] = data[first - offset : last - offset]
            self.now[new[place]] = bytes(block)
            self.changed.add(new[place])

    def write(self, before, places, path, offset, data):
        self.old_size = len(before.nodes[before.names[path]])
        if data:
            self.put(path, places, min(offset, self.old_size), offset + len(data), data, offset)

    do_write = write

    def do_fill(self, before, places, path, offset, length, byte):
        self.write(before, places, path, offset, bytes([byte]) * length)

    def do_truncate(self, before, places, path, size):
        self.old_size = len(before.nodes[before.names[path]])
        if size > self.old_size:
            self.put(path, places, self.old_size, size, b"", size)

    def do_mkdir(self, before, places, path):
        self.slots[self.tree.names[path]] = []
        self.enter(self.tree, path, self.tree.names[path])

    def do_create(self, before, places, path):
        self.enter(self.tree, path, self.tree.names[path])

    def do_link(self, before, places, path, other):
        self.enter(self.tree, other, self.tree.names[other])

    def do_unlink(self, before, places, path):
        self.take_out(before, path)

    def do_rmdir(self, before, places, path):
        self.take_out(before, path)
        del self.slots[before.names[path]]

    def do_rename(self, before, places, path, other):
        number = before.names[path]
        if before.names.get(other) == number:
            return
        there, name = before.names.get(other), other[-1].encode()
        above = self.slots[before.names[other[:-1]]]
        if there is not None:
            above[[slot[1] for slot in above].index(name)] = (number, name)
            self.take_out(before, path)
            if self.slots.get(there) == []:
                del self.slots[there]
        elif path[:-1] == other[:-1]:
            above[[slot[1] for slot in above].index(path[-1].encode())] = (number, name)
        else:
            above.append((number, name))
            self.take_out(before, path)

    def enter(self, tree, path, number):
        self.slots[tree.names[path[:-1]]].append((number, path[-1].encode()))

    def take_out(self, before, path):
        """Takes a name out of its directory: the last slot comes into its place."""
        above = self.slots[before.names[path[:-1]]]
        place = [slot[1] for slot in above].index(path[-1].encode())
        above[place] = above[-1]
        above.pop()

    def do_snap(self, before, places, name):
        """The blocks of a snapshot are new: its name, the node table as it was, and the directories."""
        layout, table = self.geometry.layout, self.table(self.geometry.layout, with_snapshots=False)
        data = [(bytes([len(name)]) + name.encode()).ljust(BLOCK, b"\0"), *self.cut(0, table).values()]
        data += [block for number in sorted(self.slots) for block in self.directory(number)]
        for block, bytes_of in zip(self.room.places[self.tree.snapshots[name].number], data):
            self.now[block] = bytes_of
            self.changed.add(block)

    def commit(self):
        """Writes the record of what the running transaction changed."""
        directories = {block for number in self.slots for block in self.room.places[number]}
        live = self.room.listed()
        changed = sorted(block for block in self.changed if block < self.geometry.data or block in live)
        is_fresh = lambda block: block >= self.geometry.data and block in self.taken and block not in directories
        payloads = [(block, self.now[block]) for block in changed if not is_fresh(block)]
        fresh = [(block, self.now[block]) for block in changed if is_fresh(block)]
        heads = 1 + -(-len(changed) // plain_disk.ENTRIES)
        self.room.sync(heads + len(payloads))
        self.pipeline.commit(payloads, fresh)
        self.changed, self.taken, self.known_taken = set(), set(), set()
        self.synced = list(self.now)


def run(image, lines):
    """The replies to lines of a run on an image, and an image with the tree of the last sync point."""
    recorder = Recorder.of(image)
    commands = [plain_tree.parse(line.encode("latin-1")) for line in lines]
    return [recorder.answer(command) for command in commands if command is not None], recorder.synced


def upgrade(image, numbers):
    """The status of an upgrade of an image to a disk of layout 2 of these numbers, and the new image, or `None`."""
    geometry, tree = plain_disk.Geometry(*numbers, 2), plain_disk.tree_of(image)
    if not geometry.fits():
        return 11, None
    live = [node for node in tree.nodes.values() if node.kind != 3]
    blocks = sum(-(-plain_disk.content_size(geometry, node.kind, node.size) // BLOCK) for node in live)
    if len(live) > geometry.nodes or blocks > geometry.blocks - geometry.data:
        return 14, None
    recorder = Recorder(geometry)
    for command in making(plain_tree.Tree.of(tree)):
        if recorder.answer(command).startswith("toobig"):
            recorder.answer(plain_tree.Command("osync"))
            recorder.answer(command)
    recorder.answer(plain_tree.Command("dsync"))
    return 0, recorder.synced


def making(tree):
    """The commands that make a tree anew: the names of each directory, and then the bytes of each file."""
    first = {}
    for path in sorted(path for path in tree.names if tree.is_directory(path)):
        for name in tree.held(path):
            below = (*path, name)
            number = tree.names[below]
            word = "mkdir" if tree.is_directory(below) else "link" if number in first else "create"
            yield plain_tree.Command(word, (first[number], below) if word == "link" else (below,))
            first.setdefault(number, below)
    for number, path in first.items():
        data = tree.nodes[number] or b""
        for at in range(0, len(data), PIECE):
            yield plain_tree.Command("write", (path, at, data[at : at + PIECE]))


def pairs(places):
    """The runs of a list of blocks."""
    runs = []
    for block in places:
        if runs and sum(runs[-1]) == block:
            runs[-1] = (runs[-1][0], runs[-1][1] + 1)
        else:
            runs.append((block, 1))
    return runs


def told(event):
    return f"d {event.ticket}" if event.kind == "d" else f"w {event.ticket} {event.block} {event.data.hex()}"


def record(geometry, lines):
    """The text of the trace of these lines."""
    recorder, text = Recorder(geometry), [f"g {geometry.text}"]
    events, shown = recorder.pipeline.events, 0
    for line in lines:
        command = plain_tree.parse(line.encode("latin-1"))
        if command is None:
            continue
        if not shown:
            text += map(told, events)
            shown = len(events)
        reply = recorder.answer(command)
        text += [f"c {spelt(line, command)}", *map(told, events[shown:]), f"r {len(events)} {reply}"]
        shown = len(events)
    text += map(told, events[shown:])
    return "\n".join([*text, "end", ""])


def spelt(line, command):
    """A command as a trace has it."""
    if command == plain_tree.BAD:
        return "?"
    return line if command.word != "write" else " ".join([*line.split(" ")[:3], command.arguments[2].hex()])
