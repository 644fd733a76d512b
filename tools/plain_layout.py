"""The numbers of the two layouts of a disk. plain_disk.py, plain_tree.py and the trials count by them alone.

Layout 2 has greater nodes, and slots for names of up to 255 bytes. All else is the same in both, and so is nothing of it here.
"""

from typing import NamedTuple

BLOCK = 1024
# what `stat` and a directory's size count for each name, in both layouts
ENTRY = 64
# the name of a snapshot has a block of its own in both layouts; a line of a script has shorter ones
LONGEST_NAME, LONGEST_SNAPSHOT_NAME = 255, 59


class Layout(NamedTuple):
    """How its headers begin, the bytes of a node and how many runs it has at most, the bytes of a slot and how many of them
    stand in a block, and the bytes of the longest name."""

    tag: bytes
    node: int
    most_runs: int
    slot: int
    slots: int
    longest_name: int

    @property
    def nodes(self):
        """How many nodes stand in a block."""
        return BLOCK // self.node

    def slot_place(self, index):
        """Where a slot begins in the blocks of its directory, one behind the other."""
        return BLOCK * (index // self.slots) + self.slot * (index % self.slots)

    def directory_blocks(self, names):
        """How many blocks a directory with so many names has."""
        return -(-names // self.slots)

    def directory_bytes(self, names):
        """Where the last slot of so many ends."""
        return self.slot_place(names - 1) + self.slot if names else 0


LAYOUTS = {
    1: Layout(b"OPTH0001", 256, 28, 64, 16, 59),
    2: Layout(b"OPTH0002", 512, 60, 264, 3, 255),
}
