"""A plain model of the room of a session: which commands lack room, and what they are answered then.

It follows docs/SPACE.md and the costs of docs/TREE.md. On a disk without notices it also knows which blocks each node has.
"""

import collections
from typing import NamedTuple

from plain_disk import BLOCK


class Change(NamedTuple):
    """What a command makes of the blocks: how many it needs and costs, which places of a node new ones take, and behind which
    node of so many blocks the others come; how many blocks each node has then."""

    need: int
    cost: int
    number: int
    renewed: list
    counts: dict


class Room:
    """The room of a session, by docs/SPACE.md: the weight, and how many blocks are left; and on a disk without notices
    which blocks each node has and each snapshot keeps, which may be taken and which wait, and how many places of the ring
    are free."""

    def __init__(self, geometry, has_notices):
        self.geometry, self.bits, self.has_notices = geometry, geometry.table - geometry.bitmap, has_notices
        self.may, self.waiting, self.held = set(range(geometry.data, geometry.blocks)), set(), set()
        self.weight, self.most, self.free, self.places = 0, 24 * (geometry.journal - 2), geometry.journal, {1: []}
        # of each snapshot, by its name, the blocks of each file that it keeps
        self.kept = {}

    def counts(self, tree):
        """How many blocks each node has by its size, and each snapshot."""
        counts = self.blocks_of(tree.names, tree.nodes)
        for name, kept in tree.snapshots.items():
            counts[kept.number] = self.snapshot(kept.names, kept.nodes)
        return counts

    def blocks_of(self, names, nodes):
        """How many blocks each of these nodes has by its size."""
        named = collections.Counter(path[:-1] for path in names if path)
        directories = {number: self.geometry.numbers.directory_blocks(named[path]) for path, number in names.items()}
        return directories | {number: -(-len(data) // BLOCK) for number, data in nodes.items() if data is not None}

    def snapshot(self, names, nodes):
        """How many blocks a snapshot of these paths and nodes has."""
        counts = self.blocks_of(names, nodes)
        return 1 + self.geometry.data - self.geometry.table + sum(counts[n] for n, data in nodes.items() if data is None)

    def shared(self):
        """The blocks of files that snapshots keep."""
        return {block for files in self.kept.values() for places in files.values() for block in places}

    def listed(self):
        """The blocks that a node has or a snapshot keeps."""
        return self.shared().union(*self.places.values())

    def met(self, tree, command):
        """Which blocks of the file there bytes of a command touch, by their places: the first, and the one behind the last."""
        word, arguments = command
        size = len(tree.nodes[tree.names[arguments[0]]])
        low = arguments[1] if word != "truncate" else size
        high = arguments[1] if word == "truncate" else low + (len(arguments[2]) if word == "write" else arguments[2])
        return (min(low, size) // BLOCK, min(-(-size // BLOCK), -(-high // BLOCK))) if high > low else (0, 0)

    def cost(self, tree, command, need, freed, over):
        """What a command costs that the tree accepts, where bytes touch so many blocks that no snapshot keeps."""
        word, arguments = command
        if word in ("mkdir", "create", "link"):
            return 25 * (3 + need)
        if word in ("unlink", "rmdir"):
            return 25 * (4 + min(freed, self.bits))
        if word == "rename":
            moves = tree.names.get(arguments[0]) != tree.names.get(arguments[1])
            return 25 * (6 + need + min(freed, self.bits)) if moves else 0
        if word == "snap":
            return 25 * (1 + min(need, self.bits)) + need
        if word == "unsnap":
            return 25 * (1 + min(freed, self.bits))
        return 25 * (over + 1 + min(need, self.bits)) + need

    def change(self, tree, after, command):
        """What a command that is accepted makes of the blocks."""
        before, counts = self.counts(tree), self.counts(after)
        grown = [number for number in counts if counts[number] > before.get(number, 0)]
        need = sum(counts[number] - before.get(number, 0) for number in grown)
        shared, renewed, over = self.shared(), [], 0
        is_write = command.word in ("write", "fill", "truncate")
        if is_write:
            number = tree.names[command.arguments[0]]
            first, last = self.met(tree, command)
            renewed = [place for place in range(first, last) if self.places[number][place] in shared]
            over, grown = last - first - len(renewed), [number]
        lost = {block for number in before for block in self.places[number][counts.get(number, 0) :]} - shared
        if command.word == "unsnap":
            lost |= self.alone(tree, command.arguments[0])
        size = len(tree.nodes[number]) if is_write else 0
        is_cut = command.word == "truncate" and command.arguments[1] < size
        is_nothing = is_write and not is_cut and not changes(command, size)
        if is_nothing or command.word in ("read", "stat", "list", "snaps", "at", "durable", "dwait", "poll"):
            return Change(0, 0, 0, [], counts)
        if is_cut:
            return Change(0, 25 * (1 + min(len(lost), self.bits)), 0, [], counts)
        need += len(renewed)
        return Change(need, self.cost(tree, command, need, len(lost), over), grown[0] if grown else 0, renewed, counts)

    def alone(self, tree, name):
        """The blocks of its files that a snapshot alone has."""
        others = [places for other, files in self.kept.items() if other != name for places in files.values()]
        return {block for places in self.kept[name].values() for block in places}.difference(*others, *self.places.values())

    def answer(self, tree, command, told):
        """Takes a command as the page says, and tells of one that lacks room how it is answered. `told` has the reply
        where it is `scattered` over a disk with notices: then it isn't followed which blocks may be taken."""
        after = tree.copy()
        if command.word in ("bad", "osync", "dsync") or after.answer(command).startswith("refused"):
            return None
        change = self.change(tree, after, command)
        left = len(self.may) + len(self.waiting)
        if change.need > left:
            return f"full {change.need} {left}"
        if self.weight + change.cost > self.most:
            return f"toobig {self.weight} {change.cost} {self.most}"
        if change.need > len(self.may):
            self.settle()
        taken = sorted(self.may)[: change.need]
        runs = len(runs_of(self.placed(change, taken)))
        if told or (not self.has_notices and runs > self.geometry.numbers.most_runs):
            return told or f"scattered {runs}"
        self.spend(tree, command, change, taken)
        return None

    def placed(self, change, taken):
        """The blocks of the node that grows, with these new ones."""
        places = list(self.places.get(change.number, []))
        for place, block in zip(change.renewed, taken):
            places[place] = block
        return places + taken[len(change.renewed) :]

    def spend(self, tree, command, change, taken):
        """What a command that is done makes of the room."""
        listed = self.listed() | set(taken)
        if taken:
            self.places[change.number] = self.placed(change, taken)
        if command.word == "snap":
            self.kept[command.arguments[0]] = {n: self.places[n] for n, data in tree.nodes.items() if data is not None}
        if command.word == "unsnap":
            del self.kept[command.arguments[0]]
        self.places = {number: self.places.get(number, [])[:count] for number, count in change.counts.items()}
        self.weight += change.cost
        self.may -= set(taken)
        self.held |= listed - self.listed()

    def settle(self):
        self.may, self.waiting, self.free = self.may | self.waiting, set(), self.geometry.journal

    def sync(self, places):
        """A sync whose record takes so many places."""
        if places > self.free:
            self.settle()
        self.free -= places
        self.weight, self.waiting, self.held = 0, self.waiting | self.held, set()


def changes(command, size):
    """Whether a write, a fill or a truncate that cuts nothing puts bytes into a file of this size."""
    word, arguments = command
    return {"write": lambda: len(arguments[2]), "fill": lambda: arguments[2], "truncate": lambda: arguments[1] - size}[word]() > 0


def runs_of(places):
    return [place for place, block in enumerate(places) if not place or block != places[place - 1] + 1]
