"""The peers: optfs, and what a user might take in its place. Each runs the script of a workload on an image of its own.

A peer makes an image in a folder (`begin`), says the command that runs the script on it (`command`), lists the tree that
is in it then (`tree`), and leaves nothing behind (`end`). `reason` says why it can't be had here, or is empty. What it
promises of an osync is ORDER, that a crash may lose the last points and never one before another, or DURABLE, that it
loses none. What each promises of a dsync is DURABLE. Where an image has a device, that counts (`has_device`).
"""

import os
import pathlib
import tempfile

import programs
import workloads

ORDER, DURABLE = "order", "durable"
LEAST_EXT4 = 64 << 20


class Peer:
    """What all peers have in common. The image of each is `img` in its folder; names that begin so are beside it."""

    name = about = promise = reason = ""
    has_device = False
    language = workloads.TREE

    def __init__(self, tools):
        self.tools = tools

    def serves(self, job):
        """Whether the peer can keep what the workload asks for."""
        return job.workload.language == self.language

    def image(self, folder):
        """The path of the image."""
        return pathlib.Path(folder) / "img"

    def begin(self, folder, job):
        """Makes an image with an empty tree."""

    def command(self, folder):
        """The command that reads the input of the job and does it on the image."""
        raise NotImplementedError

    def input_of(self, job):
        """The file that the command reads."""
        return job.script

    def wrong_output(self, output, job):
        """What is wrong with the command's output, or an empty text: it must be the replies of the model."""
        for number, (given, wanted) in enumerate(zip(output.splitlines(), job.replies.splitlines()), 1):
            if given != wanted:
                return f"command {number} is answered {given[:80]!r}, and not {wanted!r}"
        return "" if output == job.replies else "it has another number of replies than the script has commands"

    def tree(self, folder):
        """The tree in the image: the bytes of each path, or `None` for a directory. Of a log the bytes of each append under
        its number.
        """
        raise NotImplementedError

    def end(self, folder):
        """Gives back what the system lent."""


class Optfs(Peer):
    """The program of this repository."""

    name, about, promise = "optfs", "`optfs run`", ORDER

    def __init__(self, tools, program):
        super().__init__(tools)
        self.program = program

    def begin(self, folder, job):
        programs.succeed([self.program, "mkfs", self.image(folder), *job.workload.geometry], self.name)

    def command(self, folder):
        return [self.program, "run", self.image(folder)]

    def tree(self, folder):
        listing = programs.succeed([self.program, "tree", self.image(folder)], self.name)
        return tree_of(listing, columns=4)


class Ext4(Peer):
    """The system's ext4 in an image, by a loop device: what is counted is what the device is asked for."""

    name, about, promise = "ext4", "kernel ext4 on a loop device, fsync", DURABLE
    has_device = True

    def __init__(self, tools):
        super().__init__(tools)
        self.device = self.before = None
        self.reason = programs.reason_without(["mke2fs", "losetup", "mount", "umount"]) or self.reason_without_loop()

    def reason_without_loop(self):
        """Why no image can be mounted here, or an empty text: one is, to see it."""
        if os.geteuid() != 0:
            return "a loop device needs root"
        try:
            with tempfile.TemporaryDirectory(dir=self.tools) as folder:
                try:
                    self.make(folder, LEAST_EXT4)
                finally:
                    self.end(folder)
        except programs.Failed as failed:
            return str(failed)
        return ""

    def mounted(self, folder):
        """The folder in which the image is mounted."""
        return pathlib.Path(folder) / "mounted"

    def make(self, folder, size):
        """Formats and mounts an image of this size."""
        with open(self.image(folder), "wb") as image:
            image.truncate(size)
        lazy = "lazy_itable_init=0,lazy_journal_init=0"
        programs.succeed(["mke2fs", "-q", "-F", "-t", "ext4", "-E", lazy, "-N", 16384, self.image(folder)], self.name)
        self.mounted(folder).mkdir()
        self.mount(folder)

    def mount(self, folder):
        """Mounts the image."""
        shown = programs.succeed(["losetup", "--show", "-f", self.image(folder)], self.name)
        self.device = shown.strip()
        programs.succeed(["mount", "-t", "ext4", self.device, self.mounted(folder)], self.name)

    def unmount(self, folder):
        """Unmounts the image, and gives its device back."""
        if self.mounted(folder).is_mount():
            programs.succeed(["umount", self.mounted(folder)], self.name)
        if self.device:
            device, self.device = self.device, None
            programs.succeed(["losetup", "-d", device], self.name)

    def begin(self, folder, job):
        self.make(folder, max(LEAST_EXT4, 1024 * job.workload.geometry.blocks))
        programs.succeed(["sync", "-f", self.mounted(folder)], self.name)
        self.before = self.device_numbers()

    def command(self, folder):
        return [programs.build("posix_tree", self.tools), self.mounted(folder)]

    def device_numbers(self):
        """Flushes, writes and bytes written of the device so far."""
        numbers = pathlib.Path(f"/sys/block/{pathlib.Path(self.device).name}/stat").read_text().split()
        return int(numbers[15]), int(numbers[4]), 512 * int(numbers[6])

    def device_counts(self):
        """Syncs, writes and bytes that the device counted since the image was made."""
        return tuple(now - then for now, then in zip(self.device_numbers(), self.before))

    def tree(self, folder):
        self.unmount(folder)
        self.mount(folder)
        top, tree = self.mounted(folder), {"/": None}
        for path in top.rglob("*"):
            tree[f"/{path.relative_to(top)}"] = path.read_bytes() if path.is_file() else None
        if tree.pop("/lost+found", b"") is not None:
            raise programs.Failed(f"{self.name}: there is no lost+found in the image")
        return tree

    def end(self, folder):
        self.unmount(folder)


class Database(Peer):
    """A tree in a database, by a driver: which, and in which mode."""

    driver = header = mode = ""

    def __init__(self, tools):
        super().__init__(tools)
        self.reason = programs.reason_without(headers=[self.header])

    def call(self, folder, mode):
        """The words that call the driver in a mode."""
        return [programs.build(self.driver, self.tools), self.image(folder), mode]

    def begin(self, folder, job):
        programs.succeed(self.call(folder, "make"), self.name)

    def command(self, folder):
        return self.call(folder, self.mode)

    def tree(self, folder):
        listing = programs.succeed(self.call(folder, "show"), self.name)
        return {"/": None, **tree_of(listing, columns=3)}


class SqliteNormal(Database):
    """SQLite, which keeps the order of transactions and syncs where its log is full."""

    name, about, promise = "sqlite-normal", "SQLite, WAL, synchronous NORMAL", ORDER
    driver, header, mode = "sqlite_tree", "sqlite3.h", "normal"

    def serves(self, job):
        """It has no sync for each transaction: such a workload is one for the mode FULL."""
        return super().serves(job) and not job.asks_durable


class SqliteFull(Database):
    """SQLite, which syncs each transaction."""

    name, about, promise = "sqlite-full", "SQLite, WAL, synchronous FULL", DURABLE
    driver, header, mode = "sqlite_tree", "sqlite3.h", "full"


class LmdbSync(Database):
    """LMDB, which syncs each transaction and the page that names it."""

    name, about, promise = "lmdb", "LMDB, all synced", DURABLE
    driver, header, mode = "lmdb_tree", "lmdb.h", "sync"


class LmdbNoMetaSync(Database):
    """LMDB, which syncs each transaction, and the page that names it with the next one."""

    name, about, promise = "lmdb-nometasync", "LMDB, NOMETASYNC", ORDER
    driver, header, mode = "lmdb_tree", "lmdb.h", "nometasync"


class OptfsLog(Optfs):
    """The program of this repository, which keeps a log in an image."""

    about, language = "`optfs applog`", workloads.LOG

    def command(self, folder):
        return [self.program, "applog", self.image(folder)]

    def ask(self, folder, script):
        """The replies to calls of the log."""
        return programs.succeed(self.command(folder), self.name, input=script).splitlines()

    def tree(self, folder):
        low, behind = map(int, self.ask(folder, "count\n")[0].removeprefix("count ").split(" "))
        replies = self.ask(folder, "".join(f"get {number}\n" for number in range(low, behind)))
        return {str(low + place): bytes.fromhex(reply.removeprefix("hex")) for place, reply in enumerate(replies)}


class DatabaseLog(Database):
    """A log in a database."""

    driver, language = "sqlite_log", workloads.LOG

    def tree(self, folder):
        return log_of(programs.succeed(self.call(folder, "show"), self.name))


class SqliteNormalLog(DatabaseLog, SqliteNormal):
    """SQLite, which keeps the order of transactions and syncs where its log is full."""


class SqliteFullLog(DatabaseLog, SqliteFull):
    """SQLite, which syncs each transaction."""


class FileLog(Peer):
    """A file of the host, to which appends are written, with an fdatasync behind each."""

    name, about, promise, language = "file", "a file, write and fdatasync", DURABLE, workloads.LOG

    def __init__(self, tools):
        super().__init__(tools)
        self.reason = programs.reason_without()

    def command(self, folder):
        return [programs.build("file_log", self.tools), self.image(folder), "run"]

    def tree(self, folder):
        return log_of(programs.succeed([programs.build("file_log", self.tools), self.image(folder), "show"], self.name))


class Floor(Peer):
    """What the design can't avoid writing (floor_plan.py), with no tree: a bound from below and no peer."""

    name, about, promise = "floor", "the writes, hashes and syncs that the design needs", ORDER

    def __init__(self, tools):
        super().__init__(tools)
        self.reason = programs.reason_without(headers=["openssl/evp.h"])

    def begin(self, folder, job):
        with open(self.image(folder), "wb") as image:
            image.truncate(1024 * job.workload.geometry.blocks)

    def command(self, folder):
        return [programs.build("floor", self.tools), self.image(folder)]

    def input_of(self, job):
        return job.plan

    def planned(self, job):
        """How many syncs and writes the plan has."""
        lines = [line.split() for line in job.plan.read_text().splitlines()]
        return lines.count(["sync"]), sum(int(line[2]) for line in lines if len(line) == 3)

    def wrong_output(self, output, job):
        """It must have synced and written what its plan says."""
        syncs, writes = self.planned(job)
        return "" if output.startswith(f"writes {writes} syncs {syncs} ") else f"it did {output.strip()!r}"


def tree_of(listing, columns):
    """The tree that a listing shows, in which a file's size is in this column."""
    tree = {}
    for line in listing.splitlines():
        kind, path, *rest = line.split(" ")
        data = bytes.fromhex(rest[columns - 2]) if len(rest) > columns - 2 else b""
        tree[path] = data if kind == "file" else None
        if kind == "file" and int(rest[columns - 3]) != len(data):
            raise programs.Failed(f"{path} is listed with another size than it has bytes")
    return tree


def log_of(listing):
    """The bytes of each append that a listing shows, under its number."""
    return {number: bytes.fromhex(digits) for number, digits in (line.split(" ") for line in listing.splitlines())}


def all_peers(program, tools):
    """All peers; drivers are built into the folder of tools. Those of logs have the names of those of trees."""
    others = (Ext4, SqliteNormal, SqliteFull, LmdbNoMetaSync, LmdbSync, Floor, SqliteNormalLog, SqliteFullLog, FileLog)
    return [Optfs(tools, program), OptfsLog(tools, program), *(peer(tools) for peer in others)]
