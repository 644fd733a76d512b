"""The workloads: what is done in each, and what every peer must make of it.

A workload is a list of operations, drawn from a seed. Its script has a line for each operation, in the language of
docs/SCRIPT.md, or of docs/LOG.md where it is one of a log, and all peers but the floor read that script. `Outcome` is a
model of what comes of it, which knows of no peer: the replies and the tree at the end; `LogOutcome` is that of a log. What
the floor writes for a workload of a tree is said in floor_plan.py.
"""

import pathlib
from random import Random
from typing import Callable, NamedTuple

import floor_plan

MIB = 1 << 20
SEED = 1
SYNCS = ("osync", "dsync")
TREE, LOG = "tree", "log"


class Operation(NamedTuple):
    """A command of a script. The data are what a write or a fill puts at the offset, or what is appended to a log;
    `other` is a rename's new path.
    """

    word: str
    path: str = ""
    other: str = ""
    offset: int = 0
    data: bytes = b""

    def line(self):
        """The command as a line of a script, without its line feed."""
        if self.word == "write":
            return f"write {self.path} {self.offset} {self.data.hex()}"
        if self.word == "fill":
            return f"fill {self.path} {self.offset} {len(self.data)} {self.data[0]}"
        return " ".join(part for part in (self.word, self.path, self.other, self.data.hex()) if part)


OSYNC, DSYNC = Operation("osync"), Operation("dsync")
ORDER, SYNC = Operation("order"), Operation("sync")


class Workload(NamedTuple):
    """How a workload is made: its operations for so many units, and the geometry of its image.

    `units` is how many it has by default, `short` how many where trees are compared; both are multiples of `group`. Its
    script asks a tree or a log.
    """

    name: str
    about: str
    operations: Callable
    units: int
    short: int
    group: int
    geometry: floor_plan.Geometry
    language: str = TREE

    def long_form(self, scale):
        """The workload with so many times the units that it has by default."""
        return self._replace(units=max(self.group, int(self.units * scale) // self.group * self.group))

    def short_form(self):
        """The workload with few units, and with a small image whose journal is often full."""
        return self._replace(units=self.short, geometry=SHORT)


def small_files(count, draw, sync=OSYNC, every=1, folders=32):
    """Files of 100 bytes are made in some directories, with a sync after every so many of them."""
    for number in range(folders):
        yield Operation("mkdir", f"/d{number}")
    yield OSYNC
    for number in range(count):
        path = f"/d{number % folders}/f{number}"
        yield Operation("create", path)
        yield Operation("write", path, data=draw.randbytes(100))
        if (number + 1) % every == 0:
            yield sync


def grouped_files(count, draw):
    """The same, with an osync after every 50 files."""
    return small_files(count, draw, every=50)


def durable_files(count, draw):
    """The same, with a dsync after each file."""
    return small_files(count, draw, sync=DSYNC)


def large_files(count, draw):
    """Four files grow by so many MiB in all, with an osync after each MiB."""
    for number in range(4):
        yield Operation("create", f"/big{number}")
    yield OSYNC
    for number in range(4):
        for piece in range(count // 4):
            yield Operation("fill", f"/big{number}", offset=piece * MIB, data=bytes([draw.randrange(1, 256)]) * MIB)
            yield OSYNC


def overwrites(count, draw):
    """One block after the other of a file of 1 MiB is overwritten, with an osync after each."""
    yield Operation("create", "/o")
    yield Operation("fill", "/o", data=b"a" * MIB)
    yield OSYNC
    for _ in range(count):
        yield Operation("write", "/o", offset=1024 * draw.randrange(1024), data=draw.randbytes(1024))
        yield OSYNC


def replacements(count, draw):
    """A file is replaced: a new one of 1,000 bytes is written, and after an osync it is renamed over the old one."""
    for _ in range(count):
        yield Operation("create", "/new")
        yield Operation("write", "/new", data=draw.randbytes(1000))
        yield OSYNC
        yield Operation("rename", "/new", "/old")
        yield OSYNC


def appends(count, draw):
    """Appends of 100 bytes to a log, with an order after each."""
    for _ in range(count):
        yield Operation("append", data=draw.randbytes(100))
        yield ORDER


MANY_NODES = floor_plan.Geometry(65536, 4096, 8192)
LARGE = floor_plan.Geometry(131072, 4096, 64)
SMALL = floor_plan.Geometry(8192, 4096, 64)
MANY_BLOCKS = floor_plan.Geometry(65536, 4096, 64)
SHORT = floor_plan.Geometry(8192, 384, 512)

WORKLOADS = {
    workload.name: workload
    for workload in (
        Workload("meta", "files of 100 bytes, an osync after each", small_files, 2000, 100, 1, MANY_NODES),
        Workload("batch", "files of 100 bytes, an osync after 50", grouped_files, 2000, 100, 50, MANY_NODES),
        Workload("dur", "files of 100 bytes, a dsync after each", durable_files, 500, 30, 1, MANY_NODES),
        Workload("seq", "MiB put into four files, an osync after each", large_files, 64, 4, 4, LARGE),
        Workload("over", "overwrites of 1 KiB, an osync after each", overwrites, 2000, 100, 1, SMALL),
        Workload("repl", "files replaced, two osyncs for each", replacements, 1000, 60, 1, SMALL),
        Workload("log", "appends of 100 bytes to a log, an order after each", appends, 100_000, 200, 1, MANY_BLOCKS, LOG),
    )
}


class Outcome:
    """What comes of operations: the replies, and the tree as the bytes of each path, or `None` for a directory."""

    def __init__(self, operations):
        self.tree, self.replies, self.point, self.has_changed = {"/": None}, [], 0, False
        for operation in operations:
            self.replies.append(self.sync(operation.word) if operation.word in SYNCS else self.change(operation))

    def sync(self, word):
        """A sync makes a new point where something has changed, and its reply has the last one's number."""
        self.point += self.has_changed
        self.has_changed = False
        return f"{'synced' if word == 'osync' else 'durable'} {self.point}"

    def change(self, operation):
        """Does what an operation asks of the tree."""
        self.has_changed = True
        if operation.word == "mkdir":
            self.tree[operation.path] = None
        elif operation.word == "create":
            self.tree[operation.path] = bytearray()
        elif operation.word == "rename":
            self.tree[operation.other] = self.tree.pop(operation.path)
        else:
            self.tree[operation.path][operation.offset : operation.offset + len(operation.data)] = operation.data
        return "ok"


class LogOutcome:
    """What comes of operations on a log: the replies, and as the tree the bytes of each append under its number."""

    def __init__(self, operations):
        self.tree, self.replies, self.point, self.has_changed = {}, [], 0, False
        for operation in operations:
            self.replies.append(self.append(operation) if operation.word == "append" else self.sync(operation.word))

    def append(self, operation):
        """The number is that of the appends before."""
        number = len(self.tree)
        self.tree[str(number)] = operation.data
        self.has_changed = True
        return f"ok {number}"

    def sync(self, word):
        """A sync makes a new point where something has changed, and its reply has the last one's number."""
        self.point += self.has_changed
        self.has_changed = False
        return f"{'synced' if word == 'order' else 'durable'} {self.point}"


class Job(NamedTuple):
    """A workload that is written down: its script and its plan for the floor, and what comes of it."""

    workload: Workload
    script: pathlib.Path
    plan: pathlib.Path
    replies: str
    tree: dict
    commands: int
    transactions: int
    user_bytes: int
    asks_durable: bool


def job_of(workload, folder):
    """Writes a workload into a folder. The last command of each is a dsync, and of a log a sync. The floor has a plan for
    trees alone.
    """
    is_log = workload.language == LOG
    operations = [*workload.operations(workload.units, Random(SEED)), SYNC if is_log else DSYNC]
    script, plan = folder / f"{workload.name}.script", folder / f"{workload.name}.plan"
    script.write_text("".join(f"{operation.line()}\n" for operation in operations))
    if not is_log:
        plan.write_text("".join(f"{line}\n" for line in floor_plan.lines_of(operations, workload.geometry)))
    outcome = LogOutcome(operations) if is_log else Outcome(operations)
    return Job(
        workload,
        script,
        plan,
        "".join(f"{reply}\n" for reply in outcome.replies),
        outcome.tree,
        len(operations),
        outcome.point,
        sum(len(operation.data) for operation in operations),
        operations.count(DSYNC) > 1,
    )
