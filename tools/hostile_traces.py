"""Traces as one makes them who wants a program to fail: recorded ones of which bytes, numbers and lines are changed.

A trace is its bytes. What is drawn comes from the `random` that is handed in, and from nothing else. Whether a text is still
a trace isn't known here: that is for a reader to say. About half of the changes may leave one.
"""

import re

import hostile_images
import plain_disk
import plain_tree
from plain_disk import BLOCK

REPLIES = """ok|bad|hex|hex 6869|known 0|known 1|known 2|synced 0|synced 1|synced 2|durable 0|durable 1|durable 2|names|names a|full 1 0
full 4294967295 1|full 4294967296 1|full 01 0|full 1|toobig 1 2 3|toobig 1 2|scattered 29|scattered 29 0|stat dir 1 0 1|stat file 2 0 1
refused 1 NotFound|refused 2 Exists|refused 9 NoNode|refused 10 Full|refused 13 ReadFault|refused 14 DiskFault|refused 15 Stopped
refused 16 Spent|refused 17 NoMemory|refused 17 Stopped|refused 18 Other|refused 013 ReadFault|known 18446744073709551616|""".replace("\n", "|").split("|")
REPLIES += ["refused 19 NoPoint", "nopoint", "nopoint 0", "nopoint 1", "nopoint 2", "nopoint 01"]
ODD_LINES = [b"", b"#", b" ", b"end", b"end ", b"END", b"g 64 16 16", b"w", b"d", b"f", b"c", b"r", b"c ?", b"c  ?", b"r 0 ok", b"\r", b"\0", b"\xff"]
GEOMETRY_LINES = [b"g 64 16 20", b"g 65 16 16", b"g 64 17 16", b"g 300 40 64", b"g 64 16 18", b"g 63 16 16", b"g 1048577 16 16", b"g 064 16 16", b"g 8300 24 16"]
GEOMETRY_LINES += [b"g 64 16 16 2", b"g 64 16 20 2", b"g 64 16 18 2", b"g 65 50 16 2", b"g 64 16 16 1", b"g 64 16 16 3", b"g 64 16 16 02"]


REFUSALS = ["refused 13 ReadFault", "refused 14 DiskFault", "refused 16 Spent", "refused 17 NoMemory"]


def lines_of(text):
    """The lines of a text, each with its line feed but perhaps the last one."""
    return re.findall(rb"[^\n]*\n|[^\n]+", text)


def edge(random, number):
    """A text for a number, near its old one or near a bound, or none that is lawful."""
    near = [number + 1, number - 1, number + 2, 0, 1, 2, 63, 64, 65, 2**32 - 1, 2**32, 2**63, 2**64 - 1, 2**64, random.randrange(70)]
    return random.choice([*(str(max(0, one)) for one in near), f"0{number}", f"+{number}", f"-{number}", "", f"{number} "]).encode()


# Changes of the bytes of a text


def change_bytes(random, text):
    at, count = random.randrange(len(text) + 1), random.choice([1, 1, 1, 2, 8])
    new = random.choice([random.randbytes(count), b"", b" ", b"\n", b"0", b"a" * count, text[at : at + count] * 2, text[at : at + count].upper()])
    return text[:at] + new + text[at + count :]


def move_bytes(random, text):
    """A piece that is taken out, doubled, or put elsewhere."""
    at, to, count = random.randrange(len(text) + 1), random.randrange(len(text) + 1), random.choice([1, 5, 50, 2048, 2060])
    piece, rest = text[at : at + count], text[:at] + text[at + count :]
    return random.choice([rest, text[:to] + piece + text[to:], rest[:to] + piece + rest[to:]])


def cut(random, text):
    return random.choice([text[: random.randrange(len(text) + 1)], text[: -random.randrange(1, 8)], text + random.choice([b"\n", b"x", b"end\n"])])


# Changes of its lines


def change_lines(random, text):
    """A line that is taken out, doubled, moved, exchanged with another one, or none of its kind."""
    lines = lines_of(text)
    at, to = random.randrange(len(lines)), random.randrange(len(lines))
    kind = random.randrange(6)
    if kind == 0:
        del lines[at]
    elif kind == 1:
        lines.insert(to, lines[at])
    elif kind == 2:
        lines.insert(to, lines.pop(at))
    elif kind == 3:
        lines[at], lines[to] = lines[to], lines[at]
    elif kind == 4:
        lines.insert(at, random.choice(ODD_LINES) + b"\n")
    else:
        lines[0] = random.choice(GEOMETRY_LINES) + b"\n"
    return b"".join(lines)


def change_number(random, text):
    """A number of a line, but for bytes of blocks."""
    lines = lines_of(text)
    at = random.randrange(len(lines))
    found = [*re.finditer(rb"(?<= )[0-9]{1,20}(?=[ \n])", lines[at])]
    if found:
        one = random.choice(found)
        lines[at] = lines[at][: one.start()] + edge(random, int(one[0])) + lines[at][one.end() :]
    return b"".join(lines)


def change_reply(random, text):
    """A reply, or a command with the tree's word in it."""
    lines = lines_of(text)
    places = [at for at, line in enumerate(lines) if line[:2] == b"r "]
    if places:
        at = random.choice(places)
        lines[at] = b" ".join([*lines[at].split(b" ")[:2], random.choice(REPLIES).encode()]) + b"\n"
    return b"".join(lines)


# Changes that may leave a trace


def change_contents(random, text):
    """A field of a block that is written, which is sealed anew where a seal covers it."""
    lines = lines_of(text)
    writes = [at for at, line in enumerate(lines) if line[:2] in (b"w ", b"f ") and len(line) > 2 * BLOCK]
    geometry = geometry_of(lines)
    if not writes or geometry is None:
        return text
    for at in random.sample(writes, min(len(writes), random.choice([1, 1, 2]))):
        *words, data = lines[at].rstrip(b"\n").split(b" ")
        image = [plain_disk.ZEROS] * geometry.blocks
        block = int(words[-1]) if words[-1].isdigit() and int(words[-1]) < geometry.blocks else 2
        try:
            image[block] = bytes.fromhex(data.decode("latin-1"))
        except ValueError:
            continue
        if len(image[block]) == BLOCK:
            random.choice(hostile_images.CHANGES)(random, image, geometry)
            lines[at] = b" ".join([*words, image[block].hex().encode()]) + b"\n"
    return b"".join(lines)


def forge_record(random, text):
    """A block that a record has, with the digest of its entry: the record is as whole as it was."""
    lines, geometry = lines_of(text), geometry_of(lines_of(text))
    writes = {at: data for at, line in enumerate(lines) if line[:2] in (b"w ", b"f ") and (data := data_of(line))}
    parts = {at: part for at, data in writes.items() if geometry and (part := plain_disk.read_descriptor(geometry, data))}
    if not parts:
        return text
    at, (*_, entries) = random.choice([*parts.items()])
    number = random.randrange(len(entries))
    entry = entries[number]
    place = next((place for place, data in writes.items() if plain_disk.sha(data) == entry.digest), None)
    if place is None:
        return text
    image = [plain_disk.ZEROS] * geometry.blocks
    image[entry.block] = plain_disk.unescaped(entry.kind, writes[place])
    is_before = [entry.block < end for end in (geometry.table, geometry.data, geometry.blocks)]
    changes = [hostile_images.change_bits, hostile_images.change_node, hostile_images.change_slot]
    changes[is_before.index(True)](random, image, geometry)
    kind, kept = plain_disk.escaped(image[entry.block])
    kind, kept = (entry.kind, image[entry.block]) if entry.kind == plain_disk.FRESH else (kind, kept)
    first = 32 + 40 * number
    body = writes[at][: first + 4] + bytes([kind]) + writes[at][first + 5 : first + 8] + plain_disk.sha(kept) + writes[at][first + 40 : -32]
    for one, data in ((place, kept), (at, plain_disk.sealed(body))):
        lines[one] = lines[one].rstrip(b"\n").rpartition(b" ")[0] + b" " + data.hex().encode() + b"\n"
    return b"".join(lines)


def data_of(line):
    """The bytes of a block that a line has, or `None`."""
    digits = line.rstrip(b"\n").rpartition(b" ")[2]
    return bytes.fromhex(digits.decode()) if re.fullmatch(rb"[0-9a-f]{2048}", digits) else None


def geometry_of(lines):
    """The geometry of the first line, or `None`."""
    found = re.fullmatch(rb"g ([0-9]{1,7}) ([0-9]{1,7}) ([0-9]{1,7})( 2)?\n", lines[0]) if lines else None
    geometry = plain_disk.Geometry(*map(int, filter(None, found.groups()))) if found else None
    return geometry if geometry and geometry.fits() and geometry.blocks < 10000 else None


def renumbered(lines):
    """The lines, in which each mark is the number of the events before it."""
    events = 0
    for at, line in enumerate(lines):
        events += line[:2] in (b"w ", b"f ", b"d ")
        parts = line.split(b" ", 2)
        if parts[0] == b"r" and len(parts) == 3:
            lines[at] = b" ".join([b"r", str(events).encode(), parts[2]])
    return b"".join(lines)


def change_events(random, text):
    """Events that are taken out, doubled as lost ones, or moved; a notice of a write that is pending, put in. Marks fit."""
    lines = lines_of(text)
    events = [at for at, line in enumerate(lines) if line[:2] in (b"w ", b"f ", b"d ")]
    asked = [at for at, line in enumerate(lines) if line[:2] == b"c "]
    if not events:
        return text
    at = random.choice(events)
    kind = random.randrange(5)
    if kind == 0:
        del lines[at]
    elif kind == 1 and lines[at][:2] == b"w ":
        lines[at] = b"f " + lines[at].split(b" ", 2)[2]
    elif kind == 2:
        lines.insert(random.choice([*events, *(place + 1 for place in asked)]), lines.pop(at))
    elif kind == 3 and lines[at][:2] == b"w ":
        place = random.choice([place for place in [*events, *asked] if place >= at]) + 1
        lines.insert(place, b"d " + lines[at].split(b" ")[1] + b"\n")
    else:
        lines.insert(at + 1, b"f %d %s\n" % (random.randrange(64), random.randbytes(BLOCK).hex().encode()))
    return renumbered(lines)


def refuse(random, text):
    """A command that is refused from outside the tree, behind which the others may be as they were."""
    lines = lines_of(text)
    places = [at for at, line in enumerate(lines) if line[:2] == b"r "]
    if not places:
        return text
    syncs = [at for at in places if lines[at - 1][-5:] == b"sync\n" or b" synced " in lines[at]]
    at = random.choice(random.choice([places, syncs or places]))
    why = random.choice([*REFUSALS, "full 3 2", "toobig 1 2 3", "scattered 29"])
    lines[at] = b" ".join([*lines[at].split(b" ")[:2], why.encode()]) + b"\n"
    if "DiskFault" in why and random.random() < 0.8:
        for place in (place for place in places if place > at and lines[place - 1] != b"c ?\n"):
            lines[place] = b" ".join([*lines[place].split(b" ")[:2], b"refused 15 Stopped\n"])
    return b"".join(lines)


def change_command(random, text):
    """The bytes of a command `write` or `fill`, which the disk then doesn't have."""
    lines = lines_of(text)
    places = [at for at, line in enumerate(lines) if line[:8] in (b"c write ", b"c fill /")]
    if not places:
        return text
    at = random.choice(places)
    words, _, last = lines[at].rstrip(b"\n").rpartition(b" ")
    new = random.randbytes(len(last) // 2).hex().encode() if line_word(lines[at]) == b"write" else b"%d" % random.randrange(256)
    lines[at] = words + b" " + new + b"\n"
    return b"".join(lines)


def line_word(line):
    """The word of the command of a line."""
    return line.split(b" ")[1]


def end_early(random, text):
    """Entries that are taken away at the end."""
    lines = lines_of(text)
    places = [at + 1 for at, line in enumerate(lines) if line[:2] == b"r "]
    return b"".join([*lines[: random.choice(places)], b"end\n"]) if places else text


def add_entries(random, text):
    """Commands with the replies of a tree, put before the end, without events."""
    lines = lines_of(text)
    marks = sum(line[:2] in (b"w ", b"f ", b"d ") for line in lines)
    tree = plain_tree.Tree(16)
    names = random.sample(["a", "b", "n0", "n1", "n2"], 2)
    words = [f"create /{names[0]}", f"read /{names[1]} 0 5", f"stat /{names[0]}", f"unlink /{names[1]}"]
    words += ["durable", "dwait 0", "dwait 1", "poll", "osync", "?", "list /"]
    added = []
    for line in random.sample(words, random.randrange(1, 4)):
        command = plain_tree.BAD if line == "?" else plain_tree.parse(line.encode())
        reply = random.choice([tree.answer(command), random.choice(REPLIES)])
        added.append(f"c {line}\nr {marks} {reply}\n".encode())
    return b"".join([*lines[:-1], *added, *lines[-1:]])


HARSH = [change_bytes, move_bytes, cut, change_lines, change_number, change_reply]
MILD = [change_contents, change_contents, forge_record, forge_record, change_events, change_events, refuse, change_command, end_early, add_entries]


def drawn(random, bases):
    """The bytes of a trace that is drawn: one of the bases with changes."""
    text = random.choice(bases)
    for _ in range(random.choice([0, 1, 1, 1, 2, 3])):
        text = random.choice(random.choice([HARSH, MILD, MILD]))(random, text) or b"\n"
    return text


def choice(random, trace):
    """A moment and a choice of what becomes of the pending writes: the words of `replay`. Of no trace it is any."""
    events = trace.events if trace else []
    moment = random.choice([len(events), *(random.randrange(len(events) + more) for more in (1, 1, 3))])
    waiting = plain_disk.pending(events[:moment])[1]
    names = [str(one.ticket) if one.kind == "w" else f"f{one.ticket}" for one in waiting]
    share = random.choice([0, 0.3, 0.7, 0.9, 1, 1])
    stand = [name for name in names if random.random() < share]
    stand += random.choices(["1", "2", "f1", "99"], k=1) if random.random() < 0.03 else []
    tickets = [name for name in names if name[0] != "f"]
    torn = random.sample(tickets, min(len(tickets), random.choice([0, 0, 0, 1, 2])))
    tear = [f"{name}:{random.choice([1, 8, 512, 1000, 1023])}" for name in torn]
    stands = random.choice(["all", "none"]) if random.random() < 0.3 else ",".join(stand) or "none"
    return moment, stands, ",".join(tear)
