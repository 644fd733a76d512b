"""Images as one makes them who wants a program to fail: trees with odd places and odd records, of which bytes, fields and
whole blocks are then changed, and sealed anew where a seal covers them.

An image is a list of blocks, as in plain_disk.py. What is drawn comes from the `random` that is handed in, and from nothing
else. What stands in an image isn't known here: that is for a reader to say.
"""

import struct

import plain_disk
from plain_disk import BLOCK, COMMIT, DESCRIPTOR, ENTRY, ESCAPED, FRESH, LAYOUTS, PAYLOAD, SPENT, ZEROS, Entry, Header

GEOMETRIES = [(64, 16, 16)] * 6 + [(64, 16, 24), (72, 18, 20), (96, 24, 32), (128, 32, 16)]
GEOMETRIES += [(64, 16, 16, 2)] * 4 + [(64, 16, 24, 2), (96, 24, 32, 2), (128, 32, 16, 2)]
# Offsets and widths of the fields of each kind of block, of an entry, of a node and of a slot.
HEADER_FIELDS = [(8, 8), (16, 8), (24, 8), (32, 8), (40, 4), (44, 4), (48, 4), (52, 4), (56, 4), (0, 8), (60, 4)]
COMMIT_FIELDS = [(8, 8), (16, 8), (24, 4), (28, 4), (32, 4), (0, 8), (36, 4)]
DESCRIPTOR_FIELDS = [(8, 8), (16, 8), (24, 4), (28, 4), (0, 8)]
ENTRY_FIELDS = [(0, 4), (4, 1), (5, 1), (8, 8), (32, 8)]
NODE_FIELDS = [(0, 1), (1, 1), (2, 2), (4, 4), (8, 8), (16, 8), (32, 4), (36, 4), (40, 4), (44, 4), (248, 8)]
NAMES = [b"a", b"b", b"A", b"...", b"~", b"!", b"a" * 59, b"b" * 58, b"a.b", b"-", b"x" * 30]
LONG_NAMES = [b"a" * 255, b"b" * 254, b"c" * 60, b"d" * 251]
ODD_NAMES = [b"/", b".", b"..", b" ", b"\x7f", b"a/b", b"\x80", b"\0", b""]


def geometry_of(random):
    return plain_disk.Geometry(*random.choice(GEOMETRIES))


def names_of(geometry):
    """The names that are drawn: they may be long in layout 2."""
    return NAMES if geometry.layout == 1 else NAMES + LONG_NAMES


def place_of(geometry, number):
    """The block of a node, counted from the first one of the node table, and its first byte there."""
    numbers = geometry.numbers
    return (number - 1) // numbers.nodes, numbers.node * ((number - 1) % numbers.nodes)


def is_header(block):
    """Whether a block begins as headers do, of either layout."""
    return block[:8] in [layout.tag for layout in LAYOUTS.values()]


def edge(random, old, width, geometry):
    """A number that a field of so many bytes may have, near its old one or near a bound."""
    most = 256**width - 1
    near = [old + 1, old - 1, old * 2, old ^ 1 << random.randrange(8 * width), 0, 1, 2, most, most // 2 + 1]
    bounds = [geometry.blocks, geometry.journal, geometry.nodes, geometry.data, geometry.bitmap, SPENT, SPENT - 1, 64, 1024, 2**30]
    number = random.choice([*near, random.choice(bounds) + random.choice([-1, 0, 0, 1]), random.randrange(most + 1)])
    return (number % (most + 1)).to_bytes(width, "little")


def put(random, image, block, at, data, sealing=0.8):
    """Puts bytes into a block. Where it was sealed it is most often sealed anew."""
    old = image[block]
    new = (old[:at] + data + old[at + len(data) :])[:BLOCK]
    is_sealed = old[:3] == b"OPT" and at < BLOCK - 32 and plain_disk.is_sealed(old)
    image[block] = plain_disk.sealed(new[:-32]) if is_sealed and random.random() < sealing else new


def change_field(random, image, geometry, block, base, fields):
    """Changes a field of what begins there in a block."""
    at, width = random.choice(fields)
    old = int.from_bytes(image[block][base + at : base + at + width], "little")
    put(random, image, block, base + at, edge(random, old, width, geometry))


# Trees and records that are drawn


class Drawn:
    """A tree that is drawn, with blocks anywhere: the blocks of its bitmap, its node table and its nodes."""

    def __init__(self, random, geometry):
        self.random, self.geometry, self.blocks = random, geometry, {}
        self.free = [*range(geometry.blocks - 1, geometry.data - 1, -1)]
        if random.random() < 0.6:
            random.shuffle(self.free)
        numbers = random.sample(range(2, geometry.nodes + 1), random.randrange(min(9, geometry.nodes)))
        self.slots, self.links, self.sizes = {1: []}, {}, {}
        for number in numbers:
            (self.add_directory if random.random() < 0.35 else self.add_file)(number)
        self.place_all()

    def name(self, above):
        """A name that isn't in a directory yet, or none that is lawful; or `None`."""
        used = [name for name, _ in self.slots[above]]
        if self.random.random() < 0.01:
            return self.random.choice(ODD_NAMES)
        names = [*names_of(self.geometry), *(b"n%d" % number for number in range(30))]
        return next((name for name in self.random.sample(names, 12) if name not in used), None)

    def enter(self, number):
        above = self.random.choice([*self.slots])
        name = self.name(above)
        if name is not None:
            self.slots[above].append((name, number))
        return name is not None

    def add_directory(self, number):
        if self.enter(number):
            self.slots[number] = []

    def add_file(self, number):
        links = sum(self.enter(number) for _ in range(self.random.choice([1, 1, 1, 2, 18])))
        if links:
            self.links[number] = links
            large = self.random.randrange(27, 31) * BLOCK if self.random.random() < 0.02 else 3000
            self.sizes[number] = self.random.choice([0, 1, 2, 1023, 1024, 1025, self.random.randrange(4000), large])

    def place_all(self):
        """Takes blocks for all nodes, and puts together what they have."""
        nodes, directories, layout = {}, {}, self.geometry.layout
        for number, slots in self.slots.items():
            data = directories[number] = plain_disk.directory_bytes([(child, name) for name, child in slots], layout)
            nodes[number] = plain_disk.node_bytes(1, 1, ENTRY * len(slots), self.place(data, b"\0"), layout)
        for number, links in self.links.items():
            size = self.sizes[number] if len(self.free) > self.sizes[number] // BLOCK + 4 else 0
            data = (self.random.choice([b"", b"", b"OPT", b"\0PT", COMMIT]) + self.random.randbytes(size))[:size]
            runs = self.place(data, self.random.choice([b"\0", b"\xff"]))
            nodes[number] = plain_disk.node_bytes(2, links, len(data), runs, layout)
        self.add_snapshots(nodes, directories)
        free = bytes(self.geometry.numbers.node)
        table = b"".join(nodes.get(number, free) for number in range(1, self.geometry.nodes + 1))
        used = [*range(self.geometry.data), *(set(range(self.geometry.data, self.geometry.blocks)) - set(self.free))]
        bits = sum(1 << number for number in used).to_bytes(BLOCK * (self.geometry.table - self.geometry.bitmap), "little")
        for first, area in ((self.geometry.bitmap, bits), (self.geometry.table, table)):
            self.blocks.update({first + at // BLOCK: area[at : at + BLOCK] for at in range(0, len(area), BLOCK)})

    def add_snapshots(self, nodes, directories):
        """Puts snapshots of the nodes so far among these, where directories have these bytes; behind each a file may change."""
        unused = [number for number in range(2, self.geometry.nodes + 1) if number not in nodes]
        for number in self.random.sample(unused, min(len(unused), self.random.choice([0, 0, 0, 0, 1, 1, 2, 3]))):
            name = self.random.choice(ODD_NAMES if self.random.random() < 0.01 else NAMES)
            free = bytes(self.geometry.numbers.node)
            rows = [nodes.get(one, free) for one in range(1, self.geometry.nodes + 1)]
            table = b"".join(free if row[0] == 3 else row for row in rows)
            copies = [data.ljust(-len(data) % BLOCK + len(data), b"\0") for _, data in sorted(directories.items())]
            data = (bytes([len(name)]) + name).ljust(BLOCK, b"\0") + table + b"".join(copies)
            if len(self.free) > len(data) // BLOCK + 2:
                nodes[number] = plain_disk.node_bytes(3, 1, len(data), self.place(data, b"\0"), self.geometry.layout)
                self.change_file(nodes)

    def change_file(self, nodes):
        """A file that is cut to nothing, or whose first block is written over. A snapshot keeps what it had."""
        files = [number for number in self.links if nodes[number][2] and self.random.random() < 0.5]
        for number in files:
            _, _, count, links, size = struct.unpack("<BBHIQ", nodes[number][:16])
            runs = [struct.unpack_from("<II", nodes[number], 32 + 8 * at) for at in range(count)]
            first, length = runs[0]
            rest = [*([(first + 1, length - 1)] if length > 1 else []), *runs[1:]]
            is_cut = self.random.random() < 0.3 or not self.free
            new = [] if is_cut else [*self.place(self.random.randbytes(BLOCK), b"\0"), *rest]
            if len(new) <= self.geometry.numbers.most_runs and (len(new) < 2 or sum(new[0]) != new[1][0]):
                nodes[number] = plain_disk.node_bytes(2, links, 0 if is_cut else size, new, self.geometry.layout)

    def place(self, data, filler):
        """Takes blocks for these bytes, and returns their runs."""
        places = [self.free.pop() for _ in range(-(-len(data) // BLOCK))]
        for at, place in enumerate(places):
            self.blocks[place] = data[BLOCK * at : BLOCK * (at + 1)].ljust(BLOCK, filler)
        is_split = self.random.random() < 0.02
        firsts = [at for at, place in enumerate(places) if not at or place != places[at - 1] + 1 or is_split]
        runs = [(places[at], end - at) for at, end in zip(firsts, [*firsts[1:], len(places)])]
        if runs and self.random.random() < 0.02:
            odd = [(runs[0][0] + 2, 0), (self.geometry.blocks, 1), (self.geometry.data - 1, 1)]
            runs.insert(self.random.randrange(len(runs) + 1), self.random.choice(odd))
        return runs[: self.geometry.numbers.most_runs + 1]


def spelled(random, geometry):
    """An image with a tree that is drawn and an empty run."""
    image = [ZEROS] * geometry.blocks
    for block, data in Drawn(random, geometry).blocks.items():
        image[block] = data
    number = lambda: random.choice([1, 1, 2, 2, 5, 7, 2**40, *random.choice([[1], [2], [SPENT - 1], [SPENT]])])
    start = number()
    header = Header(number(), number(), start, start - 1, random.randrange(geometry.journal), 0)
    image[random.randrange(2)] = plain_disk.header_block(geometry, header)
    if random.random() < 0.3:
        fill_ring(random, image, geometry, header)
    return image


def fill_ring(random, image, geometry, header):
    """Puts what is no part of the run into the ring: old records, and blocks of anything."""
    for _ in range(random.randrange(1, 5)):
        number, epoch = random.randrange(1, 4), max(1, header.epoch - random.randrange(3))
        entry = Entry(geometry.bitmap, PAYLOAD, plain_disk.sha(ZEROS))
        record = plain_disk.Record(number, random.randrange(geometry.journal), [entry], [], [ZEROS])
        for block, data in plain_disk.record_writes(geometry, epoch, record, []):
            image[block] = data
    image[geometry.ring(random.randrange(geometry.journal))] = random.randbytes(BLOCK)


def journaled(random, geometry):
    """An image in whose ring are records that make other trees of the one that is at home, and perhaps broken ones."""
    image = spelled(random, geometry)
    _, geometry, header, _ = plain_disk.find(image)
    place, left, start = random.randrange(geometry.journal), geometry.journal, random.choice([1, 1, 1, 2, SPENT - 2])
    header = header._replace(turn=header.turn + random.choice([0, 1, 1, 1]), start=start, sure=start - 1 + random.choice([0, 0, 1, 2]))
    header = header._replace(at=place, closed=int(random.random() < 0.15))
    image[random.randrange(2)] = plain_disk.header_block(geometry, header)
    for number in range(start, start + random.choice([1, 1, 2, 3])):
        after = [*image]
        for block, data in Drawn(random, geometry).blocks.items():
            after[block] = data
        for _ in range(random.choice([0, 0, 0, 1])):
            random.choice(HOME_CHANGES)(random, after, geometry)
        record = Forged(random, image, geometry, after)
        if random.random() < 0.4:
            random.choice(FLAWS)(random, geometry, record)
        taken = record.write(random, image, geometry, header.epoch, number, place)
        place, left = place + taken, left - taken
        if left < 3:
            break
    return image


class Forged:
    """A record that makes an image another one: its entries, and the bytes that it stores and puts at home."""

    def __init__(self, random, image, geometry, after):
        changed = [block for block in range(geometry.bitmap, geometry.blocks) if image[block] != after[block]]
        self.fresh = [block for block in changed if block >= geometry.data and random.random() < 0.7]
        payloads = [block for block in changed if block not in self.fresh] or [geometry.bitmap]
        kept = [plain_disk.escaped(after[block]) for block in payloads]
        self.stored, self.news = [data for _, data in kept], [after[block] for block in self.fresh]
        self.payloads = [Entry(block, kind, plain_disk.sha(data)) for block, (kind, data) in zip(payloads, kept)]
        self.fresh = [Entry(block, FRESH, plain_disk.sha(after[block])) for block in self.fresh]
        # what is changed in its blocks once they are there
        self.flaws = []

    def write(self, random, image, geometry, epoch, number, place):
        """Puts it into an image, and returns how many places it takes."""
        record = plain_disk.Record(number, place, self.payloads, self.fresh, self.stored)
        for block, data in plain_disk.record_writes(geometry, epoch, record, self.news):
            if block < len(image):
                image[block] = data
        heads = [geometry.ring(place + at) for at in range(record.heads)]
        for flaw in self.flaws:
            flaw(image, random.choice(heads))
        return record.places


def out_of_order(random, geometry, record):
    """Two neighbours change places, or one stands twice."""
    pairs = random.choice([[record.payloads, record.stored], [record.fresh, record.news]])
    for row in pairs:
        row[-2:] = reversed(row[-2:]) if len(pairs[0]) > 1 and pairs[0][-1] != pairs[0][-2] else row[-1:] * 2


def named_twice(random, geometry, record):
    """A fresh block is a payload as well, or a payload is fresh."""
    if record.fresh:
        entry, data = random.choice([*zip(record.fresh, record.news)])
        kind, kept = plain_disk.escaped(data)
        at = sum(other.block < entry.block for other in record.payloads)
        record.payloads.insert(at, Entry(entry.block, kind, plain_disk.sha(kept)))
        record.stored.insert(at, kept)


def other_block(random, geometry, record):
    """An entry of a block that none may name."""
    row = random.choice([record.payloads, record.fresh or record.payloads])
    at = random.choice([0, -1])
    low, high = (geometry.data - 1, geometry.bitmap), (geometry.blocks, geometry.blocks + 1, 2**32 - 1)
    block = random.choice(high if at else low if row is record.fresh else (geometry.bitmap - 1, 2, 0))
    row[at] = row[at]._replace(block=block)


def other_kind(random, geometry, record):
    """An entry of another kind, and perhaps bytes that fit it."""
    row = random.choice([record.payloads, record.fresh or record.payloads])
    at = random.randrange(len(row))
    row[at] = row[at]._replace(kind=random.choice([0, PAYLOAD, FRESH, ESCAPED, 4, 255]))
    if row is record.payloads and random.random() < 0.5:
        record.stored[at] = random.choice([b"OPT", b"\0PT", b"\0PS"]) + record.stored[at][3:]
        row[at] = row[at]._replace(digest=plain_disk.sha(record.stored[at]))


def no_payloads(random, geometry, record):
    record.payloads, record.stored = [], []


def other_head(random, geometry, record):
    """A number of a commit block or a descriptor is one more or one less, or the block isn't sealed."""
    def change(image, block):
        fields = COMMIT_FIELDS[:5] if image[block][:8] == COMMIT else [*DESCRIPTOR_FIELDS[:4], (36, 1), (37, 3)]
        at, width = random.choice([*fields, (random.randrange(900, 992), 1)])
        number = int.from_bytes(image[block][at : at + width], "little") + random.choice([-1, 1])
        put(random, image, block, at, (number % 256**width).to_bytes(width, "little"), 1)

    def unseal(image, block):
        image[block] = image[block][:-1] + bytes([image[block][-1] ^ 1])

    record.flaws.append(random.choice([change, change, change, unseal]))


FLAWS = [out_of_order, named_twice, other_block, other_kind, no_payloads, other_head, other_head]


# Changes


def a_block(random, image, geometry):
    """A block, of which those that carry something are drawn more often."""
    areas = [(0, 2), (2, geometry.bitmap), (geometry.bitmap, geometry.table), (geometry.table, geometry.data), (geometry.data, geometry.blocks)]
    blocks = [*range(*random.choice(areas))]
    carrying = [block for block in blocks if block < len(image) and any(image[block][:64])]
    return random.choice(carrying or blocks) % len(image)


def change_bytes(random, image, geometry):
    """Some bytes of a block."""
    block, count = a_block(random, image, geometry), random.choice([1, 1, 1, 2, 4, 32])
    at = random.choice([random.randrange(72), random.randrange(BLOCK), random.randrange(BLOCK)])
    put(random, image, block, at, random.choice([bytes(count), b"\xff" * count, random.randbytes(count), random.randbytes(1)]))


def change_block(random, image, geometry):
    """A whole block, which becomes another one, is emptied or filled, or changes places."""
    block, other = a_block(random, image, geometry), a_block(random, image, geometry)
    new = random.choice([ZEROS, b"\xff" * BLOCK, random.randbytes(BLOCK), image[other], image[other]])
    if random.random() < 0.3:
        image[other] = image[block]
    image[block] = new


def change_header(random, image, geometry):
    """A field of a header, or the layout that it says."""
    block = random.choice([block for block in (0, 1) if is_header(image[block])] or [0])
    if random.random() < 0.1:
        return put(random, image, block, 7, random.choice([b"1", b"2", b"3"]))
    return change_field(random, image, geometry, block, 0, HEADER_FIELDS)


def change_record(random, image, geometry):
    """A field of a commit block, a descriptor or an entry, or a byte of a payload."""
    ring = [block for block in range(2, geometry.bitmap) if any(image[block])]
    if not ring:
        return change_header(random, image, geometry)
    block = random.choice(ring)
    tag = image[block][:8]
    if tag == COMMIT:
        change_field(random, image, geometry, block, 0, COMMIT_FIELDS)
    elif tag == DESCRIPTOR and random.random() < 0.6:
        entry = random.randrange(max(1, min(24, image[block][28])))
        change_field(random, image, geometry, block, 32 + 40 * entry, ENTRY_FIELDS)
    elif tag == DESCRIPTOR:
        change_field(random, image, geometry, block, 0, DESCRIPTOR_FIELDS)
    else:
        put(random, image, block, random.randrange(BLOCK), random.randbytes(1))
    return None


def change_bits(random, image, geometry):
    """Some bits of the bitmap."""
    for _ in range(random.choice([1, 1, 1, 2])):
        near = random.choice([0, geometry.data - 1, geometry.blocks - 1, geometry.blocks, 8191, random.randrange(8192)])
        number = random.choice([near, random.randrange(geometry.data, geometry.blocks)]) % 8192
        old = image[geometry.bitmap][number // 8]
        put(random, image, geometry.bitmap, number // 8, bytes([old ^ 1 << number % 8]))


def used_nodes(image, geometry):
    """The numbers of the nodes whose first byte isn't zero."""
    at = lambda number: image[geometry.table + place_of(geometry, number)[0]][place_of(geometry, number)[1]]
    return [number for number in range(1, geometry.nodes + 1) if at(number)]


def change_node(random, image, geometry):
    """A field of a node, most often of one in use; or its bytes or its runs, which become those of another one."""
    used = used_nodes(image, geometry)
    number = random.choice(used) if used and random.random() < 0.85 else random.randrange(1, geometry.nodes + 1)
    size, (place, base) = geometry.numbers.node, place_of(geometry, number)
    if random.random() < 0.7:
        return change_field(random, image, geometry, geometry.table + place, base, NODE_FIELDS)
    other, other_base = place_of(geometry, random.choice(used or [1]))
    data = image[geometry.table + other][other_base : other_base + size]
    at, data = random.choice([(0, data), (0, bytes(size)), (32, data[32:36]), (32, data[32:]), (4, bytes([random.randrange(4)]))])
    return put(random, image, geometry.table + place, base + at, data)


def change_slot(random, image, geometry):
    """A slot of a directory: its node, its name, or all of it; or one is put behind the last one."""
    size, longest = geometry.numbers.slot, geometry.numbers.longest_name
    blocks = [block for block in range(geometry.data, geometry.blocks) if image[block][0] and 1 <= image[block][4] <= longest]
    if not blocks:
        return change_node(random, image, geometry)
    block = random.choice(blocks)
    slots = [size * at for at in range(geometry.numbers.slots) if any(image[block][size * at : size * (at + 1)])]
    at, other = random.choice(slots), random.choice(slots)
    name = random.choice([*names_of(geometry), *ODD_NAMES])
    new = random.choice([
        random.choice([*used_nodes(image, geometry), 0, 1, geometry.nodes + 1]).to_bytes(4, "little"),
        random.randrange(2**32).to_bytes(4, "little"),
        image[block][at : at + 4] + bytes([len(name)]) + name.ljust(longest, b"\0"),
        image[block][at : at + 4] + image[block][other + 4 : other + size],
        image[block][other : other + size],
        bytes(size),
        image[block][at : at + 4] + bytes([random.choice([0, 1, 2, 58, 59, 60, 254, 255])]),
    ])
    return put(random, image, block, min(at + random.choice([0, 0, 0, size]), BLOCK - size), new)


def change_snapshot(random, image, geometry):
    """A field of a node that a snapshot keeps, or its name; or a kept node becomes another one."""
    at = lambda number: (geometry.table + place_of(geometry, number)[0], place_of(geometry, number)[1])
    first = lambda number: int.from_bytes(image[at(number)[0]][at(number)[1] + 32 :][:4], "little")
    found = [number for number in used_nodes(image, geometry) if image[at(number)[0]][at(number)[1]] == 3]
    places = [first(number) for number in found if geometry.data <= first(number) < geometry.blocks - geometry.data + geometry.table]
    if not places:
        return change_node(random, image, geometry)
    place = random.choice(places)
    if random.random() < 0.2:
        name = random.choice([*NAMES, *LONG_NAMES, *ODD_NAMES])
        return put(random, image, place, 0, random.choice([bytes([len(name)]) + name.ljust(59, b"\0"), b"\0", b"\x3c"]))
    number = random.choice([number for number in used_nodes(image, geometry)])
    size, (kept, base) = geometry.numbers.node, place_of(geometry, number)
    if random.random() < 0.8:
        return change_field(random, image, geometry, place + 1 + kept, base, NODE_FIELDS)
    other, other_base = at(random.choice(used_nodes(image, geometry)))
    return put(random, image, place + 1 + kept, base, random.choice([image[other][other_base : other_base + size], bytes(size)]))


HOME_CHANGES = [change_bits, change_node, change_slot, change_node, change_slot, change_snapshot]
CHANGES = [change_bytes, change_bytes, change_block, change_header, change_record, change_record, *HOME_CHANGES]


def of_another_size(random, image, geometry):
    """An image that is cut short or grown, sometimes with a header that says so; and bytes behind its last block."""
    count = random.choice([0, 1, 2, len(image) - 1, len(image) + 1, len(image) + 8, random.randrange(len(image)), 63, 65])
    image = (image + [random.choice([ZEROS, b"\xff" * BLOCK])] * max(0, count - len(image)))[:count]
    for block in (0, 1):
        if len(image) > block and is_header(image[block]) and random.random() < 0.5:
            image[block] = plain_disk.sealed(image[block][:48] + count.to_bytes(4, "little") + image[block][52:-32])
    return image


def drawn(random, bases):
    """The bytes of an image that is drawn: one of the bases, or a new one, with changes."""
    image = random.choice([
        lambda: [*random.choice(bases)],
        lambda: spelled(random, geometry_of(random)),
        lambda: journaled(random, geometry_of(random)),
    ])()
    geometry = plain_disk.find(image).geometry
    for _ in range(random.choice([0, 1, 1, 1, 1, 2, 3])):
        random.choice(CHANGES)(random, image, geometry)
    if random.random() < 0.06:
        image = of_another_size(random, image, geometry)
    tail = random.randbytes(random.choice([1, 452, 1023])) if random.random() < 0.05 else b""
    return b"".join(image) + tail
