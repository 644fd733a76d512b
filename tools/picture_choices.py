"""Which crashes of a recording tools/picture tries, and what the program says that they leave.

A crash is a moment and a choice: of each pending write, the oldest first, whether it is lost, torn or arrived. The page
has no list of the choices: picture_page.js makes the same ones in the same order, so what is changed here is changed there.
"""

import itertools
import multiprocessing
import subprocess
from typing import NamedTuple

GONE, TORN, ARRIVED = range(3)
# Of a moment with many pending writes so many are lost alone, torn alone, and lost with all behind or before them.
MOST_ALONE = 25
# Statuses of a replay that found what a crash leaves: a sync point, damage, a number at its end, no sync point.
FOUND = (0, 6, 9, 10)


class Failed(Exception):
    """Why the program doesn't say what a crash leaves."""


class Plan(NamedTuple):
    """Up to how many pending writes all choices are tried, how many are tried of more, and the seed that draws them."""

    all: int
    sample: int
    seed: int


def draws(seed):
    """Numbers of 32 bits that a seed decides."""
    limit = 0xFFFFFFFF
    while True:
        seed = (seed + 0x6D2B79F5) & limit
        mixed = ((seed ^ seed >> 15) * (seed | 1)) & limit
        mixed = ((mixed + ((mixed ^ mixed >> 7) * (mixed | 61))) ^ mixed) & limit
        yield (mixed ^ mixed >> 14) & limit


def ways_of(event):
    """What may become of a pending write. A lost one isn't torn, since the words of `replay` don't say it."""
    return (GONE, ARRIVED) if event.kind == "f" else (GONE, TORN, ARRIVED)


def choices(moment, ways, plan):
    """The choices that are tried at a moment, where of each pending write there are these ways."""
    if len(ways) <= plan.all:
        return [choice[::-1] for choice in itertools.product(*ways[::-1])]
    return [*chosen(ways), *drawn(moment, ways, plan)]


def place_of_all(count, plan):
    """The place among the choices of the one by which all of so many pending writes arrived."""
    return -1 if count <= plan.all else 1


def chosen(ways):
    """All is lost; all arrived; and for some writes: it is lost alone, torn alone, lost with all behind or before it."""
    count = len(ways)
    found = [(GONE,) * count, (ARRIVED,) * count]
    for part in range(min(count, MOST_ALONE)):
        place = part * count // min(count, MOST_ALONE)
        before, behind = place, count - place - 1
        torn = TORN if TORN in ways[place] else GONE
        found += [(ARRIVED,) * before + (way,) + (ARRIVED,) * behind for way in (GONE, torn)]
        found.append((ARRIVED,) * before + (GONE,) * (1 + behind))
        found.append((GONE,) * (before + 1) + (ARRIVED,) * behind)
    return found


def drawn(moment, ways, plan):
    """The choices that are drawn, so that there are as many as the plan says. Of one few arrive, of another most."""
    numbers = draws((plan.seed * 2654435761 + moment * 40503) & 0xFFFFFFFF)
    for _ in range(plan.sample - len(chosen(ways))):
        share = (64, 128, 192, 235)[next(numbers) % 4]
        choice = []
        for way in ways:
            arrives, tears = next(numbers) & 255, next(numbers) & 7
            choice.append(ARRIVED if arrives < share else TORN if tears < 3 and TORN in way else GONE)
        yield tuple(choice)


def words_of(recording, moment, choice):
    """The words with which `replay` shows a crash."""
    rows = [(recording.events[place], recording.cuts[place], way) for place, way in zip(recording.pending[moment], choice)]
    stand = [event.name for event, _, way in rows if way == ARRIVED]
    tear = [f"{event.name}:{cut}" for event, cut, way in rows if way == TORN]
    if stand and all((way == GONE) == (event.kind == "f") for event, _, way in rows):
        stand = ["all"]
    options = [("--stand", stand), ("--tear", tear)]
    return ["--at", str(moment), *(word for option, names in options if names for word in (option, ",".join(names)))]


def replay(program, trace, words):
    """What the program prints of a crash."""
    with open(trace, "rb") as source:
        done = subprocess.run(
            [program, "replay", *words], stdin=source, stdout=subprocess.PIPE, stderr=subprocess.DEVNULL, close_fds=False
        )
    text = done.stdout.decode()
    if done.returncode not in FOUND:
        raise Failed(f"replay {' '.join(words)}: status {done.returncode}, {text.strip() or 'no output'}")
    return text


class Replays:
    """Asks the program for crashes of a trace, by so many processes at once."""

    def __init__(self, program, trace, jobs):
        self.program, self.trace, self.pool = program, trace, multiprocessing.Pool(jobs)

    def __enter__(self):
        return self

    def __exit__(self, *_):
        self.pool.terminate()
        self.pool.join()

    def ask(self, asked):
        """The text of each crash, in the order of their words."""
        return self.pool.starmap(replay, [(self.program, self.trace, words) for words in asked], chunksize=8)


class Crashes:
    """The crashes that are tried, and what they left.

    `texts` has each text that the program printed, once, and `outcomes` for each moment the number of the text of each
    choice. `calls` counts how often the program was asked.
    """

    def __init__(self, recording, plan):
        self.recording, self.plan = recording, plan
        self.texts, self.outcomes, self.calls = [], [], 0
        self.numbers, self.known = {}, {}

    def try_all(self, ask, tell=lambda moment, calls: None):
        """Tries all crashes. `ask` takes a list of words and answers the texts; `tell` hears how far it is."""
        for moment in range(len(self.recording.events) + 1):
            self.try_moment(moment, ask)
            tell(moment, self.calls)
        self.points = [self.point_of(text) for text in self.texts]

    def choices(self, moment):
        ways = [ways_of(self.recording.events[place]) for place in self.recording.pending[moment]]
        return choices(moment, ways, self.plan)

    def try_moment(self, moment, ask):
        """What is printed follows from image, floor and top (docs/REPLAY.md), so crashes that have these three in common
        are asked for once."""
        recording, bounds = self.recording, (self.recording.floor[moment], self.recording.top[moment])
        image = self.image_maker(moment)
        keys, asked = [], {}
        for choice in self.choices(moment):
            keys.append((bounds, image(choice)))
            if keys[-1] not in self.known:
                asked.setdefault(keys[-1], words_of(recording, moment, choice))
        for key, text in zip(asked, ask(list(asked.values()))):
            self.known[key] = self.numbers.setdefault(text, len(self.numbers))
        self.calls += len(asked)
        self.texts = list(self.numbers)
        self.outcomes.append([self.known[key] for key in keys])

    def image_maker(self, moment):
        """A function from a choice to what tells its image from others: which write each block has, and what is torn."""
        events, pending = self.recording.events, self.recording.pending[moment]
        noticed = {event.ticket for event in events[:moment] if event.kind == "d"}
        settled = {one.block: place for place, one in enumerate(events[:moment]) if one.kind == "w" and one.ticket in noticed}

        def image(choice):
            blocks = dict(settled)
            for place, way in zip(pending, choice):
                block = events[place].block
                if way != GONE:
                    blocks[block] = place if way == ARRIVED else (place, settled.get(block))
            return frozenset(blocks.items())

        return image

    def point_of(self, text):
        """The sync point whose tree was printed, or -1. Where the program names none, it is sought among all points: it
        may lie outside the bounds."""
        first, _, listing = text.partition("\n")
        if first == "prefix none":
            listing = listing.removesuffix("error 10 no prefix\n")
            return max([-1, *(point for point, one in enumerate(self.recording.listings) if one == listing)])
        word, _, number = first.partition(" ")
        is_so = word == "prefix" and self.recording.listings[int(number) : int(number) + 1] == [listing]
        return int(number) if is_so else -1

    def is_inside(self, moment, outcome):
        """Whether the point of an outcome lies from floor to top."""
        return self.recording.floor[moment] <= self.points[outcome] <= self.recording.top[moment]

    def outside(self, moment):
        """The outcomes of a moment that lie outside, one for each choice that has one."""
        return [outcome for outcome in self.outcomes[moment] if not self.is_inside(moment, outcome)]

    def all_arrived(self, moment):
        """The outcome of the choice by which all pending writes arrived."""
        return self.outcomes[moment][place_of_all(len(self.recording.pending[moment]), self.plan)]

    def is_short(self, moment):
        """Whether all that was issued should stand for the last point of a reply at this moment, and doesn't."""
        listings, point = self.recording.listings, self.points[self.all_arrived(moment)]
        return any(point < 0 or listings[point] != listings[last] for last in self.recording.last.get(moment, ()))

    def short(self):
        """The moments at which that is so."""
        return [moment for moment in range(len(self.outcomes)) if self.is_short(moment)]

    def count(self):
        """How many crashes were tried, and how many of them lie outside."""
        moments = range(len(self.outcomes))
        return sum(map(len, self.outcomes)), sum(len(self.outside(moment)) for moment in moments)
