"""An application's log as docs/LOG.md describes it: what `applog` answers, and which log a tree has."""

LONGEST, LAST = 65536, 2**32 - 1
SEGMENT = 1048576


class Log:
    """A log: the number with which it begins, its appends, and where its segments begin. `former` has what a crash may leave."""

    def __init__(self, low=0, appends=(), firsts=()):
        self.low, self.appends, self.firsts = low, list(appends), list(firsts)
        self.former = [self.value()]

    def value(self):
        return self.low, tuple(self.appends)

    def size(self):
        """The bytes of the last segment."""
        return sum(4 + len(one) for one in self.appends[self.firsts[-1] - self.low :])

    def take(self, line, reply):
        """Takes a call with its reply; what the reply must be, which is itself where the file system may refuse the call."""
        may = reply if reply.startswith(("refused 1", "full ", "scattered ")) else self.answer(line, reply)
        self.former = [self.value()] if reply.startswith("durable ") else [*self.former, self.value()]
        return may

    def answer(self, line, reply):
        """Answers a call, as a log does whose file system refuses nothing."""
        word, *more = line.split(" ")
        behind = self.low + len(self.appends)
        if word == "append" and len(more) < 2:
            return self.append(bytes.fromhex("".join(more)), behind)
        if word == "get":
            number = int(more[0])
            there = self.low <= number < behind
            return f"hex {self.appends[number - self.low].hex()}".strip() if there else f"norecord {self.low} {behind}"
        if word == "trim":
            while len(self.firsts) > 1 and self.firsts[1] <= int(more[0]):
                self.appends = self.appends[self.firsts[1] - self.low :]
                self.low = self.firsts[1]
                self.firsts.pop(0)
            return f"low {self.low}"
        if word == "count":
            return f"count {self.low} {behind}"
        # which number a sync point has is the file system's
        words = {"order": "synced", "sync": "durable"}
        return reply if word in words and reply.startswith(words[word] + " ") else words.get(word, "bad")

    def append(self, data, number):
        if len(data) > LONGEST:
            return "toolong"
        if number == LAST:
            return "logend"
        if not self.firsts or self.size() + 4 + len(data) > SEGMENT:
            self.firsts.append(number)
            self.low = self.low if len(self.firsts) > 1 else number
        self.appends.append(data)
        return f"ok {number}"


def log_of(paths, bytes_of):
    """The log of a tree of these paths, each with its node, as `value` has it; or what is wrong with it."""
    names = sorted(path[5:] for path in paths if path.startswith("/log/"))
    low, appends = int(names[0]) if names else 0, []
    for name in names:
        if len(name) != 10 or not name.isdigit() or int(name) != low + len(appends):
            return f"the segment {name} isn't behind {low + len(appends)}"
        data = bytes_of(paths["/log/" + name])
        while data:
            count = int.from_bytes(data[:4], "little")
            if len(data) < 4 + count or count > LONGEST:
                return f"the segment {name} has an append that isn't whole"
            appends.append(data[4 : 4 + count])
            data = data[4 + count :]
    return low, tuple(appends)
