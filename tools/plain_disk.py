"""A plain model of a disk: what its blocks say, what a crash leaves of them, and which tree stands in them.

It follows docs/LAYOUT.md, docs/JOURNAL.md, docs/RECOVERY.md, docs/DISK.md and docs/TRACE.md with struct and hashlib
alone. An image is a list of blocks, each 1,024 bytes.
"""

import collections
import hashlib
import re
import struct
from typing import NamedTuple

from plain_layout import BLOCK, ENTRY, LAYOUTS, LONGEST_NAME

ZEROS = bytes(BLOCK)
ENTRIES = 24
PAYLOAD, FRESH, ESCAPED = 1, 2, 3
SPENT = 2**63 - 16
COMMIT, DESCRIPTOR = b"OPTC0001", b"OPTD0001"


class Damage(Exception):
    """Why blocks stand for no tree, or why an image can't be mounted: `texts` has all that may be told of it, by
    docs/FSCK.md and docs/SHOWING.md. `SPENT_TEXT` alone is the damage of an image whose numbers are at their end."""

    def __init__(self, *texts):
        super().__init__(*texts)
        self.texts = texts

    def __str__(self):
        return ", or ".join(self.texts[:3])


NO_HEADER_TEXT, SPENT_TEXT = "there is no header", "spent"


def sha(data):
    return hashlib.sha256(data).digest()


def sealed(body):
    """A sealed block with these bytes before its seal, and zeros behind them."""
    body = body.ljust(BLOCK - 32, b"\0")
    return body + sha(body)


def is_sealed(block):
    return sha(block[:-32]) == block[-32:]


class Geometry(NamedTuple):
    """The blocks of a disk, those of its journal, how many nodes there are, and which layout the disk has."""

    blocks: int
    journal: int
    nodes: int
    layout: int = 1

    @classmethod
    def of(cls, words):
        """The geometry of these words of a command: numbers, and `--layout` with the layout where it is named."""
        *numbers, layout = words if "--layout" in words else (*words, 1)
        return cls(*(int(word) for word in numbers if word != "--layout"), int(layout))

    @property
    def words(self):
        """The words by which a command makes a disk of this geometry."""
        return [*map(str, self[:3]), *(["--layout", str(self.layout)] if self.layout != 1 else [])]

    @property
    def text(self):
        """Its numbers as the first line of a trace has them, with that of the layout where it isn't 1."""
        return " ".join(map(str, self if self.layout != 1 else self[:3]))

    @property
    def numbers(self):
        """The numbers of its layout."""
        return LAYOUTS[self.layout]

    @property
    def bitmap(self):
        return self.journal + 2

    @property
    def table(self):
        return self.bitmap + -(-self.blocks // 8192)

    @property
    def data(self):
        return self.table + self.nodes // self.numbers.nodes

    def fits(self):
        limits = 64 <= self.blocks <= 2**20 and 16 <= self.journal <= 2**16 and 16 <= self.nodes <= 2**16
        bits = self.table - self.bitmap
        fits = self.data + 8 <= self.blocks and 25 * (7 + bits) <= 24 * (self.journal - 2)
        # in fours in both layouts
        return limits and self.nodes % 4 == 0 and fits

    def ring(self, place):
        """The block of a place of the ring."""
        return 2 + place % self.journal


class Header(NamedTuple):
    epoch: int
    turn: int
    start: int
    sure: int
    at: int
    closed: int


def header_block(geometry, header):
    return sealed(geometry.numbers.tag + struct.pack("<QQQQIIIII", *header, *geometry[:3]))


def read_header(blocks, block):
    """The geometry and the header of a block of a disk of so many blocks, or `None`."""
    layout = next((number for number, layout in LAYOUTS.items() if block[:8] == layout.tag), None)
    if not is_sealed(block) or layout is None or any(block[60:-32]):
        return None
    *fields, n, j, i = struct.unpack("<QQQQIIIII", block[8:60])
    geometry, header = Geometry(n, j, i, layout), Header(*fields)
    is_within = header.epoch and header.turn and header.start and header.closed < 2
    if n != blocks or not geometry.fits() or not is_within or header.start > header.sure + 1 or header.at >= j:
        return None
    return geometry, header


class Entry(NamedTuple):
    """An entry of a descriptor: a block, its kind, and the digest of the bytes that are stored."""

    block: int
    kind: int
    digest: bytes


class Record(NamedTuple):
    """A record: its number and place, its entries, and the bytes that are stored of its payloads and fresh blocks."""

    number: int
    place: int
    payloads: list
    fresh: list
    stored: list

    @property
    def heads(self):
        """How many places its commit block and its descriptors take."""
        return 1 + -(-(len(self.payloads) + len(self.fresh)) // ENTRIES)

    @property
    def places(self):
        return self.heads + len(self.payloads)

    @property
    def contents(self):
        """The blocks that its payloads are of, with their bytes."""
        return {e.block: unescaped(e.kind, data) for e, data in zip(self.payloads, self.stored)}


def unescaped(kind, data):
    return b"O" + data[1:] if kind == ESCAPED else data


def escaped(data):
    """The kind of a payload, and its bytes as they are stored."""
    return (ESCAPED, b"\0" + data[1:]) if data[:3] == b"OPT" else (PAYLOAD, data)


def head_writes(geometry, epoch, record):
    """The writes of a record's descriptors, and that of its commit block."""
    entries = record.payloads + record.fresh
    parts = [entries[first : first + ENTRIES] for first in range(0, len(entries), ENTRIES)]
    writes = []
    for index, part in enumerate(parts):
        body = DESCRIPTOR + struct.pack("<QQII", epoch, record.number, index, len(part))
        body += b"".join(struct.pack("<IBBBB", e.block, e.kind, 0, 0, 0) + e.digest for e in part)
        writes.append((geometry.ring(record.place + 1 + index), sealed(body)))
    counts = (len(parts), len(record.payloads), len(record.fresh))
    commit = sealed(COMMIT + struct.pack("<QQIII", epoch, record.number, *counts))
    return writes, (geometry.ring(record.place), commit)


def record_writes(geometry, epoch, record, fresh):
    """All writes of a record in their order; `fresh` has the bytes of its fresh blocks."""
    descriptors, commit = head_writes(geometry, epoch, record)
    place = record.place + record.heads
    payloads = [(geometry.ring(place + index), data) for index, data in enumerate(record.stored)]
    return [*zip([e.block for e in record.fresh], fresh), *descriptors, *payloads, commit]


def read_commit(geometry, block):
    """Epoch, number, and the counts of descriptors, payloads and fresh blocks, or `None`."""
    if block[:8] != COMMIT or any(block[36:-32]) or not is_sealed(block):
        return None
    epoch, number, heads, payloads, fresh = struct.unpack("<QQIII", block[8:36])
    if payloads < 1 or heads != -(-(payloads + fresh) // ENTRIES) or 1 + heads + payloads > geometry.journal:
        return None
    return epoch, number, heads, payloads, fresh


def read_descriptor(geometry, block):
    """Epoch, number, index and entries, or `None`."""
    if block[:8] != DESCRIPTOR or not is_sealed(block):
        return None
    epoch, number, index, count = struct.unpack("<QQII", block[8:32])
    if not 1 <= count <= ENTRIES or any(block[32 + 40 * count : -32]):
        return None
    entries = []
    for first in range(32, 32 + 40 * count, 40):
        number_of, kind, zeros = struct.unpack("<IB3s", block[first : first + 8])
        least = geometry.data if kind == FRESH else geometry.bitmap
        if any(zeros) or kind not in (PAYLOAD, FRESH, ESCAPED) or not least <= number_of < geometry.blocks:
            return None
        entries.append(Entry(number_of, kind, block[first + 8 : first + 40]))
    return epoch, number, index, entries


def whole_record(image, geometry, header, number, place, left):
    """The record of this number that is whole at the place, or `None`."""
    commit = read_commit(geometry, image[geometry.ring(place)]) if left else None
    if commit is None or commit[:2] != (header.epoch, number) or (header.closed and number > header.sure):
        return None
    _, _, heads, payload_count, fresh_count = commit
    if 1 + heads + payload_count > left:
        return None
    entries = []
    for index in range(heads):
        part = read_descriptor(geometry, image[geometry.ring(place + 1 + index)])
        rest = payload_count + fresh_count - ENTRIES * index
        if part is None or part[:3] != (header.epoch, number, index) or len(part[3]) != min(ENTRIES, rest):
            return None
        entries += part[3]
    payloads, fresh = entries[:payload_count], entries[payload_count:]
    rows = [[e.block for e in part] for part in (payloads, fresh)]
    if rows != [sorted(set(row)) for row in rows] or set(rows[0]) & set(rows[1]):
        return None
    if any(e.kind == FRESH for e in payloads) or any(e.kind != FRESH for e in fresh):
        return None
    first = place + 1 + heads
    stored = [image[geometry.ring(first + index)] for index in range(payload_count)]
    begins = lambda kind, data: data[:3] == b"\0PT" if kind == ESCAPED else data[:3] != b"OPT"
    if any(sha(data) != e.digest or not begins(e.kind, data) for e, data in zip(payloads, stored)):
        return None
    if number > header.sure and any(sha(image[e.block]) != e.digest for e in fresh):
        return None
    return Record(number, place, payloads, fresh, stored)


class Found(NamedTuple):
    """What a search finds: the slot of the newest header, its geometry, the header, and the run."""

    slot: int
    geometry: Geometry
    header: Header
    run: list

    @property
    def last(self):
        return self.header.start - 1 + len(self.run)

    def homes(self):
        """The blocks whose last entry in the run is a payload, with their bytes."""
        homes = {}
        for record in self.run:
            for entry in record.fresh:
                homes.pop(entry.block, None)
            homes.update(record.contents)
        return homes


def find(image):
    """What a search of an image finds, or `None` where it has no header."""
    headers = [read_header(len(image), block) for block in [*image, ZEROS, ZEROS][:2]]
    slots = [slot for slot in (0, 1) if headers[slot]]
    if not slots:
        return None
    slot = max(slots, key=lambda slot: (headers[slot][1].turn, -slot))
    geometry, header = headers[slot]
    run, place, left = [], header.at, geometry.journal
    while record := whole_record(image, geometry, header, header.start + len(run), place, left):
        run.append(record)
        place, left = (place + record.places) % geometry.journal, left - record.places
    return Found(slot, geometry, header, run)


def recovered(image, found):
    """The recovered blocks by their numbers: those of the bitmap and the node table, and the data that are marked."""
    geometry, homes = found.geometry, found.homes()
    now = lambda block: homes.get(block, image[block])
    live = {block: now(block) for block in range(geometry.bitmap, geometry.data)}
    live.update({block: now(block) for block in range(geometry.data, geometry.blocks) if bit(live, geometry, block)})
    return live


def bit(blocks, geometry, number):
    """The bit of a number in the bitmap."""
    return blocks[geometry.bitmap + number // 8192][number % 8192 // 8] >> number % 8 & 1


def greatest_epoch(image, geometry):
    """The greatest epoch of the headers, and of the sealed blocks of the ring that begin as the journal's do."""
    headers = [read_header(geometry.blocks, block) for block in image[:2]]
    ring = [image[geometry.ring(place)] for place in range(geometry.journal)]
    tagged = [block for block in ring if block[:8] in (COMMIT, DESCRIPTOR) and is_sealed(block)]
    return max([0, *(one[1].epoch for one in headers if one), *(int.from_bytes(b[8:16], "little") for b in tagged)])


def greatest_number(image, found):
    """The greatest number of the journal of an image in which this was found."""
    header = found.header
    return max(header.turn, header.start, header.sure, found.last, greatest_epoch(image, found.geometry))


def mountable(image):
    """What a mount of an image finds, and the recovered blocks. `Damage` tells why it isn't mounted."""
    found = find(image)
    if found is None:
        raise Damage(NO_HEADER_TEXT)
    if greatest_number(image, found) >= SPENT:
        raise Damage(SPENT_TEXT)
    blocks = recovered(image, found)
    check_bits(found.geometry, blocks)
    return found, blocks


def mounted(image):
    """The image behind a mount. `Damage` tells why there is none."""
    found, _ = mountable(image)
    header, greatest = found.header, greatest_epoch(image, found.geometry)
    image, slot, turn = list(image), found.slot, header.turn
    if found.run and not (header.closed and header.sure == found.last):
        slot, turn = 1 - slot, turn + 1
        image[slot] = header_block(found.geometry, header._replace(turn=turn, sure=found.last, closed=1))
    for block, data in found.homes().items():
        image[block] = data
    opened = Header(greatest + 1, turn + 1, found.last + 1, found.last, 0, 0)
    image[1 - slot] = header_block(found.geometry, opened)
    return image


def formatted(geometry):
    """The image of a disk that was just formatted."""
    image = [ZEROS] * geometry.blocks
    image[0] = header_block(geometry, Header(1, 1, 1, 0, 0, 0))
    bits = ((1 << geometry.data) - 1).to_bytes(BLOCK * (geometry.table - geometry.bitmap), "little")
    for number in range(geometry.bitmap, geometry.table):
        first = BLOCK * (number - geometry.bitmap)
        image[number] = bits[first : first + BLOCK]
    image[geometry.table] = node_bytes(1, 1, 0, [], geometry.layout).ljust(BLOCK, b"\0")
    return image


# Blocks that stand for a tree


class Node(NamedTuple):
    """A node in use: its kind, links and size, its runs, and its blocks in order."""

    kind: int
    links: int
    size: int
    runs: list
    places: list


def node_bytes(kind, links, size, runs, layout=1):
    """The bytes of a node in use."""
    head = struct.pack("<BBHIQ16x", kind, 0, len(runs), links, size)
    return (head + b"".join(struct.pack("<II", *run) for run in runs)).ljust(LAYOUTS[layout].node, b"\0")


def slot_bytes(number, name, layout=1):
    """The bytes of a slot."""
    return (struct.pack("<IB", number, len(name)) + name).ljust(LAYOUTS[layout].slot, b"\0")


def directory_bytes(slots, layout=1):
    """The bytes of a directory with these slots, each as its number and name, up to the end of the last one."""
    numbers, data = LAYOUTS[layout], b""
    for place, slot in enumerate(slots):
        data = data.ljust(numbers.slot_place(place), b"\0") + slot_bytes(*slot, layout)
    return data


def damaged_by(texts):
    """`Damage`, where something is broken."""
    texts = list(texts)
    if texts:
        raise Damage(*texts)


def check_bits(geometry, blocks):
    """Whether the bits of the blocks before the data and behind the end are right. The least wrong one is told."""
    bits = int.from_bytes(b"".join(blocks[number] for number in range(geometry.bitmap, geometry.table)), "little")
    before = (1 << geometry.data) - 1
    wrong = ~bits & before | bits >> geometry.blocks << geometry.blocks
    if wrong:
        raise Damage(f"the bit of block {(wrong & -wrong).bit_length() - 1} is wrong")


def content_size(geometry, kind, size):
    """How many bytes the content of a node has: of a directory the bytes of its blocks up to the end of the last slot."""
    return geometry.numbers.directory_bytes(size // ENTRY) if kind == 1 else size


def read_node(geometry, spelled):
    """The node with these bytes; `None` where they are those of no node in use."""
    kind, zero, count, links, size = struct.unpack("<BBHIQ", spelled[:16])
    is_odd = kind not in (1, 2, 3) or zero or any(spelled[16:32]) or count > geometry.numbers.most_runs
    is_odd = is_odd or any(spelled[32 + 8 * count :])
    if is_odd or not links or (kind == 1 and size % ENTRY) or (kind == 2 and (links > 65535 or size > 2**30)):
        return None
    runs = [struct.unpack("<II", spelled[first : first + 8]) for first in range(32, 32 + 8 * count, 8)]
    within = all(length and geometry.data <= first and first + length <= geometry.blocks for first, length in runs)
    tidy = all(sum(one) != other[0] for one, other in zip(runs, runs[1:]))
    blocks = sum(length for _, length in runs)
    if not within or not tidy or blocks != -(-content_size(geometry, kind, size) // BLOCK):
        return None
    return Node(kind, links, size, runs, [b for first, length in runs for b in range(first, first + length)])


def is_name(name, longest):
    return 1 <= len(name) <= longest and re.fullmatch(rb"[!-.0-~]+", name) and name not in (b".", b"..")


def read_slots(numbers, data, count):
    """So many slots in these bytes, as names and numbers of nodes, or `None` where one of them is no slot, or bytes between two
    of them aren't zeros."""
    slots = []
    for place in range(count):
        first, last = numbers.slot_place(place), numbers.slot_place(place) + numbers.slot
        child, length = struct.unpack("<IB", data[first : first + 5])
        name, rest = data[first + 5 : first + 5 + length], data[first + 5 + length : last]
        gap = data[last : numbers.slot_place(place + 1)]
        if length > numbers.longest_name or not is_name(name, numbers.longest_name) or any(rest) or any(gap):
            return None
        slots.append((name.decode(), child))
    return slots


def spelled_nodes(geometry, table):
    """The nodes in use of a node table, and the numbers whose bytes are neither zeros nor those of a node in use."""
    size = geometry.numbers.node
    spelled = {number: table[size * (number - 1) : size * number] for number in range(1, geometry.nodes + 1)}
    used = {number: read_node(geometry, one) for number, one in spelled.items() if any(one)}
    return {number: node for number, node in used.items() if node}, [number for number in used if used[number] is None]


class Names:
    """Directories and files by their numbers, with their bytes: the slots, and the paths to which these lead."""

    def __init__(self, numbers, nodes, bytes_of):
        self.numbers, self.nodes, self.bytes_of = numbers, nodes, bytes_of
        self.slots = {number: self.slots_of(number) for number, node in nodes.items() if node.kind == 1}
        self.paths = self.walk() if self.slots.get(1) is not None else {}

    def slots_of(self, number):
        """The slots of a directory, or `None` where its bytes or its links are wrong."""
        node = self.nodes[number]
        return read_slots(self.numbers, self.bytes_of(number), node.size // ENTRY) if node.links == 1 else None

    def broken(self):
        """What is broken in names, slots and links."""
        read = {number: slots for number, slots in self.slots.items() if slots is not None}
        named = collections.Counter(child for slots in read.values() for _, child in slots)
        reached = set(self.paths.values())
        if 1 not in read:
            yield "node 1 is no directory"
        for number, slots in read.items():
            before = set()
            for place, (name, child) in enumerate(slots):
                if child == 1:
                    yield f"slot {place} of node {number} names the root"
                if child not in self.nodes or child in self.slots and child not in read:
                    yield f"slot {place} of node {number} names a node that is not in use"
                if name in before:
                    yield f"slot {place} of node {number} has the name of another"
                before.add(name)
        for number, node in self.nodes.items():
            if node.kind == 1 and number not in read:
                yield f"the bytes or the links of directory {number} are wrong"
                continue
            if node.kind == 1 and number != 1 and named[number] != 1:
                yield f"node {number}, a directory, is not named once"
            if node.kind == 2 and named[number] != node.links:
                yield f"node {number} has other links than slots name it"
            if number not in reached:
                yield f"no path leads to node {number}"

    def walk(self):
        """The paths of all nodes that are reached from the root, by the first slot of a name. A directory that was met is gone
        into once."""
        paths, met, ahead = {"/": 1}, {1}, ["/"]
        while ahead:
            path = ahead.pop()
            for name, child in self.slots[paths[path]]:
                below = f"{path.rstrip('/')}/{name}"
                is_new = below not in paths
                paths.setdefault(below, child)
                if is_new and self.slots.get(child) is not None and child not in met:
                    met.add(child)
                    ahead.append(below)
        return paths

    def lines(self):
        """The lines of the paths."""
        lines = []
        for path, number in sorted(self.paths.items(), key=lambda one: [part for part in one[0].split("/") if part]):
            if number in self.slots:
                lines.append(f"dir {path} {number}\n")
            else:
                data = self.bytes_of(number)
                lines.append(f"file {path} {number} {len(data)}{' ' if data else ''}{data.hex()}\n")
        return "".join(lines)


class Snapshot:
    """What a snapshot keeps, by the places of its blocks."""

    def __init__(self, tree, number):
        self.tree, self.number, self.node = tree, number, tree.nodes[number]
        table = tree.geometry.data - tree.geometry.table
        blocks = [tree.blocks.get(place, ZEROS) for place in self.node.places]
        self.first, self.nodes, self.bad, self.names = blocks[0] if blocks else ZEROS, {}, [], None
        if len(blocks) > table:
            self.nodes, self.bad = spelled_nodes(tree.geometry, b"".join(blocks[1 : 1 + table]))
        self.places, place = {}, 1 + table
        for one, node in sorted(self.nodes.items()):
            if node.kind == 1:
                count = tree.geometry.numbers.directory_blocks(node.size // ENTRY)
                self.places[one] = self.node.places[place : place + count]
                place += count
            elif node.kind == 2:
                self.places[one] = node.places
        self.is_whole = self.node.links == 1 and self.node.size == BLOCK * len(blocks) and len(blocks) == place
        if self.is_whole and all(node.kind != 3 for node in self.nodes.values()):
            self.names = Names(tree.geometry.numbers, self.nodes, self.bytes_of)

    @property
    def name(self):
        """Its name, or `None` where its first block has none."""
        length = self.first[0]
        is_spelled = is_name(self.first[1 : 1 + length], LONGEST_NAME) and not any(self.first[1 + length :])
        return self.first[1 : 1 + length].decode() if is_spelled else None

    @property
    def kept(self):
        """The blocks of the files that it keeps, in order."""
        return [place for number in sorted(self.nodes) if self.nodes[number].kind == 2 for place in self.places[number]]

    def whole(self, number):
        return b"".join(self.tree.blocks.get(place, ZEROS) for place in self.places[number])

    def bytes_of(self, number):
        """All bytes of a node that it keeps."""
        return self.whole(number)[: self.tree.size_of(self.nodes[number])]

    def broken(self, before, firm):
        """What is broken in it, where these snapshots come before it, and directories and snapshots have these blocks."""
        about = f"snapshot {self.number}"
        if not self.is_whole:
            yield f"{about} has other links, bytes or blocks than it should"
            return
        if self.name is None:
            yield f"{about} has no name"
        for other in before:
            if other.first == self.first:
                yield f"{about} has the name of snapshot {other.number}"
        odd = [*self.bad, *(number for number, node in self.nodes.items() if node.kind == 3)]
        yield from (f"the bytes of node {number} in {about} are no node's" for number in odd)
        for number, node in self.nodes.items():
            if node.kind == 1 and any(self.whole(number)[self.tree.size_of(node) :]):
                yield f"directory {number} in {about} has bytes behind its last slot"
        met = set()
        for place in self.kept:
            if not self.tree.bit(place):
                yield f"{about} keeps block {place}, whose bit is clear"
            if place in met:
                yield f"{about} keeps block {place}, which has a place before"
            if place in firm:
                yield f"{about} keeps block {place}, which is no file's"
            met.add(place)
        if self.names is not None:
            yield from (f"in {about}: {text}" for text in self.names.broken())


class Tree:
    """The tree for which blocks stand: its paths, the nodes in use, and its snapshots. `Damage` tells why they stand for none,
    first by the rules on blocks, bits and zeros, then by those on snapshots, and where these hold by those on names, slots and
    links (docs/FSCK.md)."""

    def __init__(self, geometry, blocks):
        self.geometry, self.blocks = geometry, blocks if isinstance(blocks, dict) else dict(enumerate(blocks))
        check_bits(geometry, blocks)
        self.nodes, bad = spelled_nodes(geometry, b"".join(blocks[number] for number in range(geometry.table, geometry.data)))
        damaged_by([*(f"the bytes of node {number} are no node's" for number in bad), *self.broken_places()])
        damaged_by(["node 1 is no directory"] * (1 in self.nodes and self.nodes[1].kind == 3))
        self.snapshots = [Snapshot(self, number) for number, node in sorted(self.nodes.items()) if node.kind == 3]
        firm = {place for node in self.nodes.values() if node.kind != 2 for place in node.places}
        damaged_by(text for at, one in enumerate(self.snapshots) for text in one.broken(self.snapshots[:at], firm))
        damaged_by(self.lost())
        live = {number: node for number, node in self.nodes.items() if node.kind != 3}
        self.names = Names(geometry.numbers, live, self.bytes_of)
        damaged_by(self.names.broken())
        self.paths, self.slots = self.names.paths, self.names.slots

    def broken_places(self):
        """What is broken in blocks, bits and zeros."""
        owned = set()
        for number, node in self.nodes.items():
            for place in node.places:
                if not self.bit(place):
                    yield f"node {number} has block {place}, whose bit is clear"
                if place in owned:
                    yield f"node {number} has block {place}, which has a place before"
                owned.add(place)
            if node.kind == 1 and any(self.whole(node)[self.size_of(node) :]):
                yield f"directory {number} has bytes behind its last slot"

    def lost(self):
        """The blocks that are marked, and that no node has and no snapshot keeps."""
        owned = {place for node in self.nodes.values() for place in node.places}
        owned.update(place for one in self.snapshots for place in one.kept)
        for number in range(self.geometry.data, self.geometry.blocks):
            if number not in owned and self.bit(number):
                yield f"no node has block {number}, whose bit is set"

    def bit(self, number):
        return bit(self.blocks, self.geometry, number)

    def whole(self, node):
        """All bytes of the blocks of a node. A block whose bit is clear is empty."""
        return b"".join(self.blocks.get(place, ZEROS) for place in node.places)

    def size_of(self, node):
        """How many bytes the content of a node has."""
        return content_size(self.geometry, node.kind, node.size)

    def bytes_of(self, number):
        """All bytes of a node."""
        return self.whole(self.nodes[number])[: self.size_of(self.nodes[number])]

    def listing(self):
        """The lines of the tree and of its snapshots, as `tree` of the program writes them."""
        snapshots = sorted(self.snapshots, key=lambda one: one.name)
        return "".join([self.names.lines(), *(f"snap {one.name}\n{one.names.lines()}" for one in snapshots)])


def tree_of(image):
    """The tree for which an image stands."""
    found = find(image)
    if found is None:
        raise Damage(NO_HEADER_TEXT)
    return Tree(found.geometry, recovered(image, found))


# Traces and crashes


class Event(NamedTuple):
    """An event: `w`, `f` or `d`, its ticket, and the block and the bytes of a write. A lost one has its number."""

    kind: str
    ticket: int
    block: int = 0
    data: bytes = b""


class Answered(NamedTuple):
    """An entry of a trace: a command, its reply, and how many events there are by then."""

    command: str
    reply: str
    mark: int


class Trace:
    """A trace: the geometry, the events, how many are the mount's, and the entries."""

    def __init__(self, text):
        lines = text.splitlines()
        self.is_whole = lines[-1:] == ["end"]
        self.geometry = Geometry(*map(int, lines[0].split()[1:]))
        self.events, self.entries, self.mount, command, lost = [], [], 0, None, 0
        for line in lines[1:]:
            word, _, rest = line.partition(" ")
            if word == "w":
                ticket, block, data = rest.split(" ")
                self.events.append(Event("w", int(ticket), int(block), bytes.fromhex(data)))
            elif word == "f":
                lost += 1
                block, data = rest.split(" ")
                self.events.append(Event("f", lost, int(block), bytes.fromhex(data)))
            elif word == "d":
                self.events.append(Event("d", int(rest)))
            elif word == "c":
                command = rest
                self.mount = self.mount if self.entries else len(self.events)
            elif word == "r":
                mark, _, reply = rest.partition(" ")
                self.entries.append(Answered(command, reply, int(mark)))
        self.mount = self.mount if self.entries else len(self.events)


def pending(events):
    """What is settled behind these events, by blocks, and the writes that are pending, the oldest first."""
    settled, waiting = {}, []
    for event in events:
        if event.kind != "d":
            waiting.append(event)
            continue
        place = next((at for at, one in enumerate(waiting) if one[:2] == ("w", event.ticket)), None)
        if place is not None:
            settled[waiting[place].block] = waiting[place].data
            waiting = [one for at, one in enumerate(waiting) if one.block != waiting[place].block or at > place]
    return settled, waiting


def crash_image(base, events, stand, tear):
    """The image of a crash behind these events. Of the pending writes those in `stand` are there, each by its kind and
    ticket, and so many bytes of those in `tear`."""
    settled, waiting = pending(events)
    image = list(base)
    for block, data in settled.items():
        image[block] = data
    before = list(image)
    for event in waiting:
        name = event[:2]
        if name in tear:
            image[event.block] = event.data[: tear[name]] + before[event.block][tear[name] :]
        elif name in stand:
            image[event.block] = event.data
    return image


def crash_by(base, events, stand, tear):
    """The same, where the choice is said as in docs/CRASHES.md. Behind `all` may come lost writes: `all,f1`."""
    names, numbers = {event[:2] for event in pending(events)[1]}, [text for text in stand.split(",") if text]
    name = lambda text: ("f", int(text[1:])) if text[0] == "f" else ("w", int(text))
    stands = {name(text) for text in numbers if text not in ("all", "none")}
    stands |= {one for one in names if one[0] == "w"} if "all" in numbers else set()
    tears = dict(text.split(":") for text in tear.split(",") if text)
    tears = {name(ticket): int(count) for ticket, count in tears.items()}
    if not stands | set(tears) <= names:
        raise ValueError(f"a write that isn't pending: {stand} {tear}")
    return crash_image(base, events, stands, tears)


def recorded(trace):
    """What all records of a trace leave in the blocks that they name."""
    blocks = {}
    for place, event in enumerate(trace.events):
        is_in_ring = event.kind == "w" and event.block < trace.geometry.bitmap
        commit = read_commit(trace.geometry, event.data) if is_in_ring else None
        if commit is None:
            continue
        _, _, heads, payloads, fresh = commit
        writes = trace.events[place - fresh - heads - payloads : place]
        parts = [read_descriptor(trace.geometry, one.data)[3] for one in writes[fresh : fresh + heads]]
        entries = [entry for part in parts for entry in part]
        for entry, one in zip(entries, [*writes[fresh + heads :], *writes[:fresh]]):
            blocks[entry.block] = unescaped(entry.kind, one.data)
    return blocks
