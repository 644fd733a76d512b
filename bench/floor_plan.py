"""The floor: which blocks the design can't avoid writing for a workload, which of them it hashes, and when it syncs.

docs/LAYOUT.md says which blocks an operation changes, and docs/JOURNAL.md and docs/PIPELINE.md what a sync writes of them:
a digest and a place in the ring for each changed block, the fresh blocks of files in place, sealed descriptors and a sealed
commit block. Once the ring is full, there are four syncs: the records are durable, a header makes them sure, the newest
payload of each block goes home, and a header gives the places back. The plan has these writes, and one header of the
mount. It is the least: blocks go home and headers are written only then, and in a workload of dsyncs the syncs of a full
ring are left out, since those of the dsyncs may serve. drivers/floor.c writes what a plan names.
"""

from typing import NamedTuple

SLOTS_IN_BLOCK, NODES_IN_BLOCK, BITS_IN_BLOCK, ENTRIES_IN_DESCRIPTOR, BLOCK = 16, 4, 8192, 24, 1024


class Geometry(NamedTuple):
    """An image's size: its blocks, those of its journal, and its nodes."""

    blocks: int
    journal: int
    nodes: int

    @property
    def bitmap(self):
        """The first block of the bitmap."""
        return self.journal + 2

    @property
    def table(self):
        """The first block of the node table."""
        return self.bitmap + -(-self.blocks // BITS_IN_BLOCK)

    @property
    def data(self):
        """The first block of the data."""
        return self.table + self.nodes // NODES_IN_BLOCK


class Node:
    """A directory or a file: its number, its size in bytes or in slots, and its blocks."""

    def __init__(self, number):
        self.number, self.size, self.blocks = number, 0, []


class Changes:
    """Which blocks the operations since the last sync change: payloads, and the fresh blocks of files."""

    def __init__(self, geometry):
        self.geometry = geometry
        self.nodes = {"/": Node(1)}
        self.slots = {}
        self.unused = list(range(geometry.nodes, 1, -1))
        self.taken = 0
        self.payloads, self.fresh = set(), set()

    def node_changes(self, node):
        """The block of the table that has the node changes."""
        self.payloads.add(self.geometry.table + (node.number - 1) // NODES_IN_BLOCK)

    def bit_changes(self, block):
        """The block of the bitmap that has the block's bit changes."""
        self.payloads.add(self.geometry.bitmap + block // BITS_IN_BLOCK)

    def take(self):
        """The next block of the data, which wasn't in use; round the disk in the end."""
        block = self.geometry.data + self.taken % (self.geometry.blocks - self.geometry.data)
        self.taken += 1
        self.bit_changes(block)
        return block

    def parent(self, path):
        """The directory in which a path is."""
        return self.nodes[path[: path.rindex("/")] or "/"]

    def make(self, path):
        """A new node has the least unused number, and a slot at the end of its directory."""
        node, parent = Node(self.unused.pop()), self.parent(path)
        if parent.size % SLOTS_IN_BLOCK == 0:
            parent.blocks.append(self.take())
        self.slots[path] = parent.size
        parent.size += 1
        self.payloads.add(parent.blocks[self.slots[path] // SLOTS_IN_BLOCK])
        self.nodes[path] = node
        self.node_changes(node)
        self.node_changes(parent)

    def put(self, path, offset, length):
        """Blocks that the file has are changed, and those by which it grows are fresh."""
        node = self.nodes[path]
        for place in range(offset // BLOCK, -(-(offset + length) // BLOCK)):
            if place == len(node.blocks):
                node.blocks.append(self.take())
                self.fresh.add(node.blocks[place])
            elif node.blocks[place] not in self.fresh:
                self.payloads.add(node.blocks[place])
        if offset + length > node.size:
            node.size = offset + length
            self.node_changes(node)

    def rename(self, path, other):
        """A path of the root gets another name there, and a file that had this name goes.

        Where one goes, its slot is that of the other file then, and the last slot of the root takes the free place.
        """
        root, node = self.nodes["/"], self.nodes.pop(path)
        slot = self.slots.pop(path)
        self.payloads.add(root.blocks[slot // SLOTS_IN_BLOCK])
        if other in self.nodes:
            self.drop(self.nodes[other])
            root.size -= 1
            self.node_changes(root)
            self.payloads.add(root.blocks[self.slots[other] // SLOTS_IN_BLOCK])
            last = {name for name, place in self.slots.items() if place == root.size and self.parent(name) is root}
            self.slots.update(dict.fromkeys(last, slot))
        else:
            self.slots[other] = slot
        self.nodes[other] = node

    def drop(self, node):
        """A node isn't in use any more, and its blocks are free."""
        self.node_changes(node)
        self.unused = sorted([*self.unused, node.number], reverse=True)
        for block in node.blocks:
            self.bit_changes(block)

    def do(self, operation):
        """Does an operation that is no sync."""
        if operation.word in ("mkdir", "create"):
            self.make(operation.path)
        elif operation.word == "rename":
            self.rename(operation.path, operation.other)
        else:
            self.put(operation.path, operation.offset, len(operation.data))


class Plan:
    """The lines of a plan as they come, the ring places in use, and the blocks that have to go home."""

    def __init__(self, geometry, asks_durable):
        self.geometry, self.asks_durable = geometry, asks_durable
        self.lines, self.home = ["sealed 0 1", "sync"], set()
        self.place, self.used, self.headers = 0, 0, 1

    def ring(self, kind, count):
        """So many ring places are written, up to the end of the ring and from its beginning on."""
        while count:
            some = min(count, self.geometry.journal - self.place)
            self.lines.append(f"{kind} {2 + self.place} {some}")
            self.place = (self.place + some) % self.geometry.journal
            count -= some

    def blocks(self, kind, numbers):
        """Blocks are written where they lie, neighbours by one line."""
        first = last = None
        for number in [*sorted(numbers), None]:
            if first is not None and number != last + 1:
                self.lines.append(f"{kind} {first} {last - first + 1}")
                first = None
            first, last = number if first is None else first, number

    def header(self):
        """A header goes into the other slot."""
        self.lines.append(f"sealed {self.headers % 2} 1")
        self.headers += 1

    def sync(self):
        """A sync of a full ring."""
        if not self.asks_durable:
            self.lines.append("sync")

    def empty_ring(self):
        """All records are durable, go home and are released."""
        self.sync()
        self.header()
        self.sync()
        self.blocks("plain", self.home)
        self.sync()
        self.header()
        self.sync()
        self.home, self.used = set(), 0

    def record(self, changes):
        """Writes the record of the changes."""
        descriptors = -(-(len(changes.payloads) + len(changes.fresh)) // ENTRIES_IN_DESCRIPTOR)
        places = 1 + descriptors + len(changes.payloads)
        if self.used + places > self.geometry.journal:
            self.empty_ring()
        self.used += places
        self.blocks("digested", changes.fresh)
        self.ring("sealed", 1 + descriptors)
        self.ring("digested", len(changes.payloads))
        self.home |= changes.payloads
        changes.payloads, changes.fresh = set(), set()


def lines_of(operations, geometry):
    """The plan for the operations."""
    asks_durable = sum(operation.word == "dsync" for operation in operations) > 1
    changes, plan, is_durable = Changes(geometry), Plan(geometry, asks_durable), True
    for operation in operations:
        if operation.word not in ("osync", "dsync"):
            changes.do(operation)
            continue
        if changes.payloads:
            plan.record(changes)
            is_durable = False
        if operation.word == "dsync" and not is_durable:
            plan.lines.append("sync")
            is_durable = True
    return plan.lines
