"""A plain model of the tree: it reads lines of a script, does what they ask for, and says what the replies are.

docs/SCRIPT.md describes lines and replies, and docs/TREE.md what the commands do. Room on a disk is no part of the
model, so it never answers `full`, `toobig`, `scattered` or one of the refusals 13 to 17. Where a program did so, the
tree stays as it was (`follow`). `Points` keeps the sync points of a session, and what it promised of them. A script can
also be drawn, line by line, for the tree as it is by then (`Draws`).
"""

import re
from typing import NamedTuple

from plain_layout import ENTRY, LAYOUTS, LONGEST_SNAPSHOT_NAME

REFUSALS = {
    1: "NotFound",
    2: "Exists",
    3: "NotDir",
    4: "IsDir",
    5: "NotEmpty",
    6: "BelowItself",
    7: "TooLarge",
    8: "TooManyLinks",
    9: "NoNode",
    13: "ReadFault",
    14: "DiskFault",
    15: "Stopped",
    16: "Spent",
    17: "NoMemory",
    18: "NameTooLong",
    20: "NoSnap",
}
ARGUMENTS = {
    "mkdir": ("path",),
    "create": ("path",),
    "write": ("path", "number", "bytes"),
    "fill": ("path", "number", "number", "number"),
    "read": ("path", "number", "number"),
    "truncate": ("path", "number"),
    "link": ("path", "path"),
    "unlink": ("path",),
    "rmdir": ("path",),
    "rename": ("path", "path"),
    "stat": ("path",),
    "list": ("path",),
    "osync": (),
    "dsync": (),
    "durable": (),
    "dwait": ("number",),
    "poll": (),
    "snap": ("name",),
    "unsnap": ("name",),
    "snaps": (),
}
LOOKS = ("read", "stat", "list")
NAME = re.compile("[!-.0-~]{1,255}")
NUMBER = re.compile("0|[1-9][0-9]{0,9}")
HEX = re.compile("(?:[0-9a-fA-F]{2})+")
LONGEST_LINE = 262_144
LARGEST_FILE = 2**30
LONGEST_READ = 2**20
MOST_LINKS = 65_535
NO_ROOM = re.compile("(?:full|toobig|scattered)(?: [0-9]+)+")
OUTSIDE = re.compile("refused 1[3-7] [A-Za-z]+")
# of the snapshots that are drawn there are so many names
SNAPSHOTS = 4
# where long names are drawn, a name has so many bytes, by its number
LENGTHS = [1, 59, 60, 255, 100, 2]
KNOWN = re.compile("known ([0-9]+)")
PROMISE = re.compile("(?:durable|known) ([0-9]+)")

# how often each command is drawn, beside osync and dsync; and those of snapshots, where these are drawn
WEIGHTS = {
    "create": 12,
    "mkdir": 3,
    "write": 14,
    "fill": 14,
    "truncate": 6,
    "unlink": 10,
    "rename": 6,
    "link": 3,
    "rmdir": 3,
    "durable": 5,
    "dwait": 4,
    "poll": 3,
    "read": 2,
    "stat": 2,
    "list": 1,
    "bad": 1,
}
SNAPSHOT_WEIGHTS = {"snap": 8, "unsnap": 6, "snaps": 1, "at": 8}
BAD_LINES = [b"sync", b"create /a/", b" osync", b"read /a 0 01", b"write /a 0 f", b"fill /a 0 1 256", b"dwait", b"dwait 01"]


class Command(NamedTuple):
    """A command: its word, and its arguments as paths, numbers and bytes."""

    word: str
    arguments: tuple = ()


BAD = Command("bad")


class Unlawful(Exception):
    """A part of a line isn't what its command wants there."""


class Refused(Exception):
    """The tree refuses a command, for the reason of this number."""

    def __init__(self, number):
        super().__init__(number)
        self.number = number


def name_of(text):
    """A name of a file or a directory."""
    if not NAME.fullmatch(text) or text in (".", ".."):
        raise Unlawful
    return text


def snapshot_name_of(text):
    """A name of a snapshot."""
    if len(text) > LONGEST_SNAPSHOT_NAME:
        raise Unlawful
    return name_of(text)


def path_of(text):
    """A path as a tuple of names, from the root down."""
    if text == "/":
        return ()
    first, *names = text.split("/")
    if first or not names:
        raise Unlawful
    return tuple(map(name_of, names))


def number_of(text):
    """A number of the script."""
    if not NUMBER.fullmatch(text) or int(text) >= 2**32:
        raise Unlawful
    return int(text)


def bytes_of(text):
    """The bytes of pairs of hexadecimal digits."""
    if not HEX.fullmatch(text):
        raise Unlawful
    return bytes.fromhex(text)


READERS = {"path": path_of, "number": number_of, "bytes": bytes_of, "name": snapshot_name_of}


def parse(line):
    """The command of a line of bytes without its line feed, or `None` where the line is skipped."""
    if not line or line.startswith(b"#"):
        return None
    word, *parts = line.decode("latin-1").split(" ")
    if len(line) <= LONGEST_LINE and word == "at":
        return at(parts)
    if len(line) > LONGEST_LINE or word not in ARGUMENTS or len(parts) != len(ARGUMENTS[word]):
        return BAD
    try:
        arguments = tuple(READERS[kind](part) for kind, part in zip(ARGUMENTS[word], parts))
    except Unlawful:
        return BAD
    if (word == "read" and arguments[2] > LONGEST_READ) or (word == "fill" and arguments[3] > 255):
        return BAD
    return Command(word, arguments)


def at(parts):
    """The command of a line that looks at a snapshot: its name, and a look."""
    name, *look = parts or [""]
    if not look or look[0] not in LOOKS:
        return BAD
    command = parse(" ".join(look).encode("latin-1"))
    try:
        return BAD if command == BAD else Command("at", (snapshot_name_of(name), command))
    except Unlawful:
        return BAD


def text_of(path):
    """A path as it is written."""
    return "/" + "/".join(path)


class Kept(NamedTuple):
    """What a snapshot keeps: its number, and the paths and nodes of a tree as it was."""

    number: int
    names: dict
    nodes: dict


class Tree:
    """A session: the tree and what its snapshots keep, by their names, the greatest number of a node, the layout of the disk,
    the last sync point, and the greatest that a dsync or a dwait answered."""

    def __init__(self, limit, layout=1):
        self.limit, self.layout = limit, layout
        self.names = {(): 1}
        # a directory is `None`, and a file its bytes
        self.nodes = {1: None}
        self.snapshots = {}
        self.point, self.durable, self.changed = 0, 0, False

    @classmethod
    def new(cls, geometry):
        """A session on a new disk of a geometry (`plain_disk.Geometry`)."""
        return cls(geometry.nodes, geometry.layout)

    @classmethod
    def of(cls, stood):
        """A session on a tree that a reader of blocks found (`plain_disk.Tree`)."""
        tree = cls.new(stood.geometry)
        tree.names, tree.nodes = maps_of(stood.names)
        tree.snapshots = {one.name: Kept(one.number, *maps_of(one.names)) for one in stood.snapshots}
        return tree

    def copy(self):
        """The same tree, as a session on it begins."""
        other = Tree(self.limit, self.layout)
        other.names, other.nodes, other.snapshots = dict(self.names), dict(self.nodes), dict(self.snapshots)
        return other

    def kept(self, name):
        """The tree that a snapshot keeps."""
        other = Tree(self.limit, self.layout)
        _, other.names, other.nodes = self.snapshots[name]
        return other

    def listing(self):
        """The lines of the tree and of its snapshots, as `tree` of the program writes them."""
        parts = [f"snap {name}\n{self.kept(name).lines()}" for name in sorted(self.snapshots)]
        return "".join([self.lines(), *parts])

    def lines(self):
        """The lines of the tree alone."""
        lines = []
        for path, number in sorted(self.names.items()):
            data = self.nodes[number]
            kind = f"dir {text_of(path)} {number}" if data is None else f"file {text_of(path)} {number} {len(data)}"
            lines.append(f"{kind} {data.hex()}\n" if data else f"{kind}\n")
        return "".join(lines)

    def answer(self, command):
        """Does a command, and returns its reply."""
        if command == BAD:
            return "bad"
        try:
            return getattr(self, f"do_{command.word}")(*command.arguments) or "ok"
        except Refused as refused:
            return f"refused {refused.number} {REFUSALS[refused.number]}"

    def follow(self, command, reply):
        """Does a command that a program answered so over a disk, and returns the right reply where that may not be."""
        if NO_ROOM.fullmatch(reply):
            expected = self.copy().answer(command)
            return None if expected == "ok" else expected
        if OUTSIDE.fullmatch(reply) and command != BAD:
            return None
        expected, known = self.answer(command), KNOWN.fullmatch(reply)
        if command.word == "durable" and known:
            # more may be known than what was waited for
            return None if self.durable <= int(known[1]) <= self.point else expected
        return None if reply == expected else expected

    def is_directory(self, path):
        """Whether a directory is at the path, at which something is."""
        return self.nodes[self.names[path]] is None

    def walk(self, path):
        """Goes along the path from the root, up to what is there, and returns its number."""
        for length in range(len(path)):
            if not self.is_directory(path[:length]):
                raise Refused(3)
            if path[: length + 1] not in self.names:
                raise Refused(1)
        return self.names[path]

    def walk_above(self, path):
        """Goes along the path up to its parent. The root has none."""
        if path:
            self.walk(path[:-1])
            if not self.is_directory(path[:-1]):
                raise Refused(3)

    def held(self, path):
        """The names in the directory at the path, ascending."""
        return sorted(other[-1] for other in self.names if other and other[:-1] == path)

    def links(self, number):
        """How many paths a node has."""
        return sum(other == number for other in self.names.values())

    def is_too_long(self, path):
        """Whether the last name of a path is longer than a slot of the disk takes."""
        return bool(path) and len(path[-1]) > LAYOUTS[self.layout].longest_name

    def unused(self):
        """The least number that no node and no snapshot has, or `None`."""
        used = {*self.nodes, *(kept.number for kept in self.snapshots.values())}
        return next((number for number in range(1, self.limit + 1) if number not in used), None)

    def drop(self, path):
        """Takes a path away, and with its last path the node."""
        number = self.names.pop(path)
        if number not in self.names.values():
            del self.nodes[number]
        self.changed = True

    def make(self, path, data):
        """Makes a node at a path."""
        self.walk_above(path)
        number = self.unused()
        refuse({2: path in self.names, 9: number is None, 18: self.is_too_long(path)})
        self.names[path], self.nodes[number] = number, data
        self.changed = True

    def put(self, path, offset, data):
        """Puts bytes into a file, behind zeros where it ends before them."""
        number = self.walk(path)
        refuse({4: self.is_directory(path), 7: len(data) > 0 and offset + len(data) > LARGEST_FILE})
        if data:
            old = self.nodes[number].ljust(offset, b"\0")
            self.nodes[number] = old[:offset] + data + old[offset + len(data) :]
            self.changed = True

    def do_mkdir(self, path):
        self.make(path, None)

    def do_create(self, path):
        self.make(path, b"")

    def do_write(self, path, offset, data):
        self.put(path, offset, data)

    def do_fill(self, path, offset, length, byte):
        self.walk(path)
        # no room is taken for bytes that are refused
        refuse({4: self.is_directory(path), 7: length > 0 and offset + length > LARGEST_FILE})
        self.put(path, offset, bytes([byte]) * length)

    def do_read(self, path, offset, length):
        number = self.walk(path)
        refuse({4: self.is_directory(path)})
        data = self.nodes[number][offset : offset + length]
        return f"hex {data.hex()}" if data else "hex"

    def do_truncate(self, path, size):
        number = self.walk(path)
        refuse({4: self.is_directory(path), 7: size > LARGEST_FILE})
        if size != len(self.nodes[number]):
            self.nodes[number] = self.nodes[number][:size].ljust(size, b"\0")
            self.changed = True

    def do_link(self, path, other):
        number = self.walk(path)
        self.walk_above(other)
        is_full = self.links(number) >= MOST_LINKS
        refuse({2: other in self.names, 4: self.is_directory(path), 8: is_full, 18: self.is_too_long(other)})
        self.names[other] = number
        self.changed = True

    def do_unlink(self, path):
        self.walk(path)
        refuse({4: self.is_directory(path)})
        self.drop(path)

    def do_rmdir(self, path):
        self.walk(path)
        refuse({3: not self.is_directory(path), 5: bool(self.held(path)), 6: not path})
        self.drop(path)

    def do_rename(self, path, other):
        number = self.walk(path)
        self.walk_above(other)
        if self.names.get(other) == number:
            return
        directory, there = self.is_directory(path), other in self.names
        over = there and self.is_directory(other)
        refuse(
            {
                3: directory and there and not over,
                4: not directory and over,
                5: directory and over and bool(self.held(other)),
                6: directory and other[: len(path)] == path,
                18: self.is_too_long(other),
            }
        )
        if there:
            self.drop(other)
        moved = {old: node for old, node in self.names.items() if old[: len(path)] == path}
        for old, node in moved.items():
            del self.names[old]
            self.names[other + old[len(path) :]] = node
        self.changed = True

    def do_stat(self, path):
        number = self.walk(path)
        data = self.nodes[number]
        if data is None:
            return f"stat dir {number} {ENTRY * len(self.held(path))} 1"
        return f"stat file {number} {len(data)} {self.links(number)}"

    def do_list(self, path):
        self.walk(path)
        refuse({3: not self.is_directory(path)})
        return " ".join(["names", *self.held(path)])

    def do_osync(self):
        self.point += self.changed
        self.changed = False
        return f"synced {self.point}"

    def do_dsync(self):
        self.do_osync()
        self.durable = self.point
        return f"durable {self.point}"

    def do_durable(self):
        return f"known {self.durable}"

    def do_dwait(self, number):
        if number > self.point:
            return f"nopoint {self.point}"
        self.durable = max(self.durable, number)
        return f"durable {number}"

    def do_poll(self):
        pass

    def do_snap(self, name):
        number = self.unused()
        refuse({2: name in self.snapshots, 9: number is None})
        self.snapshots[name] = Kept(number, dict(self.names), dict(self.nodes))
        self.changed = True

    def do_unsnap(self, name):
        refuse({20: name not in self.snapshots})
        del self.snapshots[name]
        self.changed = True

    def do_snaps(self):
        return " ".join(["names", *sorted(self.snapshots)])

    def do_at(self, name, look):
        refuse({20: name not in self.snapshots})
        return self.kept(name).answer(look)


def maps_of(names):
    """The numbers of paths, and the nodes, of directories and files that a reader of blocks found."""
    paths = {tuple(part for part in path.split("/") if part): number for path, number in names.paths.items()}
    return paths, {number: None if number in names.slots else names.bytes_of(number) for number in names.nodes}


def refuse(conditions):
    """Refuses by the least number whose condition holds, where one does."""
    for number in sorted(conditions):
        if conditions[number]:
            raise Refused(number)


class Points:
    """The sync points of a session that a program answers over a disk: each as a tree and as its listing."""

    def __init__(self, tree):
        self.tree = tree.copy()
        self.trees, self.listings = [tree.copy()], [tree.listing()]
        # the lines that were answered, the last point behind each, and which point each reply promised
        self.lines, self.after, self.promises = [], [], []
        self.wrong = None

    def take(self, line, reply):
        """Takes the reply to a line that isn't skipped, and does the same on the plain tree."""
        expected = self.tree.follow(parse(line), reply)
        if expected is not None:
            self.wrong = f"{line[:80].decode()} is answered {reply[:80]!r}, and not {expected[:80]!r}"
        promise = PROMISE.fullmatch(reply)
        self.promises.append(int(promise[1]) if promise else 0)
        if self.tree.point == len(self.trees):
            self.trees.append(self.tree.copy())
            self.listings.append(self.tree.listing())
        self.lines.append(line)
        self.after.append(self.tree.point)

    def between(self, read, replied):
        """The last point that so many replies promised, and the last one that so many lines may have made."""
        return max([0, *self.promises[:replied]]), max([0, *self.after[:read]])


class Draws:
    """Draws the lines of a script, most of which can be done as the tree is by then.

    One of so many lines is a sync, and one of so many syncs is a dsync. A name is one of so many, and what is put into
    a file at once has so many bytes at most. Snapshots are drawn where that is asked for, and so are names of up to 255 bytes.
    """

    def __init__(self, random, syncs, dsyncs, names, longest, with_snapshots=False, with_long_names=False):
        self.random, self.with_long_names = random, with_long_names
        self.syncs, self.dsyncs, self.names, self.longest = syncs, dsyncs, names, longest
        self.weights = WEIGHTS | SNAPSHOT_WEIGHTS if with_snapshots else WEIGHTS

    def line(self, tree):
        """The next line, without its line feed."""
        if self.random.random() < 1 / self.syncs:
            return b"dsync" if self.random.random() < 1 / self.dsyncs else b"osync"
        files = [path for path in tree.names if not tree.is_directory(path)]
        word = self.random.choices(list(self.weights), list(self.weights.values()))[0] if files else "create"
        if word == "bad":
            return self.random.choice(BAD_LINES)
        if word == "dwait":
            near = self.random.randrange(-1, 4)
            return b"dwait %d" % max(0, tree.point - near)
        if word in SNAPSHOT_WEIGHTS:
            return self.snapshot(tree, word)
        return self.of(tree, word, files)

    def of(self, tree, word, files):
        """A line of a command that isn't one on snapshots."""
        if "number" in ARGUMENTS[word]:
            parts = self.piece(tree, word, self.random.choice(files))
        else:
            parts = map(text_of, self.paths(tree, word, files))
        return " ".join([word, *parts]).encode()

    def snapshot(self, tree, word):
        """A line of a command on snapshots."""
        names = [f"s{number}" for number in range(SNAPSHOTS)]
        some = sorted(tree.snapshots) if self.random.random() < 0.9 else names
        name = self.random.choice(names if word == "snap" or not some else some)
        if word != "at":
            return f"{word} {name}".encode() if word != "snaps" else b"snaps"
        kept = tree.kept(name) if name in tree.snapshots else tree
        files = [path for path in kept.names if not kept.is_directory(path)]
        look = self.random.choice(LOOKS if files else ("list",))
        return f"at {name} ".encode() + self.of(kept, look, files)

    def paths(self, tree, word, files):
        """The paths of a command that has nothing else."""
        directories = [path for path in tree.names if tree.is_directory(path)]
        above = self.random.choice([path for path in directories if len(path) < 3])
        number = self.random.randrange(self.names)
        new = (*above, f"n{number}".ljust(LENGTHS[number % len(LENGTHS)] if self.with_long_names else 0, "x"))
        of = {"rmdir": directories, "list": directories, "rename": files + directories, "stat": files + directories}
        first = new if word in ("create", "mkdir") else self.random.choice(of.get(word, files))
        return [first, new][: len(ARGUMENTS[word])]

    def piece(self, tree, word, path):
        """The path of a file, and numbers and bytes that fit it."""
        size = len(tree.nodes[tree.names[path]])
        offset = self.random.choice([0, size, self.random.randrange(size + 1)])
        length = min(self.random.choice([1, 5, 100, 1024, 1500, 3000, self.longest]), self.longest)
        rest = {
            "write": [offset, self.random.randbytes(min(length, 1500)).hex()],
            "fill": [offset, length, self.random.randrange(256)],
            "read": [offset, length],
            "truncate": [self.random.choice([0, offset, self.random.randrange(6000)])],
        }
        return [text_of(path), *map(str, rest[word])]
