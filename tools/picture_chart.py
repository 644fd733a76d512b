"""The picture of tools/picture: moments from left to right, sync points upwards, as SVG.

It knows where each thing lies, and no colours: those are in picture_page.css, by the classes given here. A moment's place is a
share of the width, so that the page can stretch the picture.
"""

import html
from typing import NamedTuple

# Widths and heights in pixels.
NAMES, LANE, SYNC, PENDING, LETTER = 78, 16, 22, 34, 6.3
MOST_LANES, LONGEST_LABEL = 5, 22
# The width in which a picture lies whole where it can.
USUAL = 1130
# The shares of a moment's choices from which on a dot is of the second and the third size.
SHARES = (0.05, 0.4)
HAS_VALUE = ("known", "durable", "synced")
NOT_DONE = ("refused", "full", "toobig", "scattered", "bad")
NO_TREE = -1


def tag(name, inside="", **attributes):
    """An element of SVG. `cls` is its class, and an underscore is a hyphen."""
    words = {"cls": "class"}
    text = "".join(f' {words.get(key, key.replace("_", "-"))}="{plain(value)}"' for key, value in attributes.items())
    return f"<{name}{text}>{inside}</{name}>" if inside else f"<{name}{text}/>"


def plain(value):
    """A number without digits that no one sees, or a text."""
    return f"{value:.5g}" if isinstance(value, float) else value


def runs(row):
    """The stretches of a row that have one value: first place, last place, value."""
    found = []
    for place, value in enumerate(row):
        if found and found[-1][2] == value:
            found[-1][1] = place
        else:
            found.append([place, place, value])
    return found


class Label(NamedTuple):
    """The label of a command: where it begins, how wide it is, its moment, its text, how many commands it is for, and
    whether it stands left of its moment."""

    left: float
    width: float
    moment: int
    text: str
    count: int = 1
    is_left: bool = False


class Chart:
    """The picture of a recording and its crashes, at least so many pixels wide."""

    def __init__(self, recording, crashes, width=0):
        self.recording, self.crashes = recording, crashes
        self.count, self.points = len(recording.events) + 1, recording.points
        self.step = max(22 if self.count <= 14 else max(9, min(13, USUAL / self.count)), width / self.count)
        self.row = max(5, min(34, 300 // (self.points + 1)))
        self.most = max(1, *map(len, recording.pending))
        self.left_out = 0
        self.lanes = self.lanes_of_labels()
        self.find_heights()

    @property
    def width(self):
        return self.step * self.count

    def find_heights(self):
        """Where each row of the picture lies."""
        outside = {outcome for moment in range(self.count) for outcome in self.crashes.outside(moment)}
        self.has_no_tree = any(self.crashes.points[outcome] == NO_TREE for outcome in outside)
        self.syncs_at = len(self.lanes) * LANE + 4
        self.points_at = self.syncs_at + SYNC + 22
        self.no_tree_at = self.points_at + (self.points + 1) * self.row
        self.writes_at = self.no_tree_at + 22 * self.has_no_tree + 22
        self.notices_at = self.writes_at + 17
        self.pending_at = self.notices_at + 20
        self.axis_at = self.pending_at + PENDING
        self.height = self.axis_at + 20

    def edge(self, place):
        """Where the column of a moment begins."""
        return f"{place / self.count * 100:.5g}%"

    def middle(self, place):
        """Where a moment lies. Event i lies between two of them."""
        return self.edge(place + 0.5)

    def level(self, point):
        """How high a point lies; there is a row for trees of no point."""
        return self.no_tree_at + 11 if point == NO_TREE else self.points_at + (self.points - point + 0.5) * self.row

    # Labels of commands

    def lanes_of_labels(self):
        """The labels of commands that wrote nothing, in rows in which they have room."""
        lanes = []
        for command in self.recording.commands:
            if command.makes is not None and command.mark > command.begins:
                continue
            label = self.label_of(command)
            lane = next((lane for lane in lanes if lane[-1].left + lane[-1].width <= label.left), None)
            if lane is not None:
                lane.append(label)
            elif len(lanes) < MOST_LANES:
                lanes.append([label])
            else:
                self.left_out += 1
                self.count_in(lanes[-1], label)
        return lanes

    def label_of(self, command):
        text = command.text if len(command.text) <= LONGEST_LABEL else command.text[: LONGEST_LABEL - 1] + "…"
        kind = command.reply.split(" ")[0]
        text += f" → {command.reply}" if kind in HAS_VALUE else " ✕" if kind in NOT_DONE else ""
        left, width = (command.begins + 0.5) * self.step, len(text) * LETTER + 12
        is_left = left + width > self.width + 10
        return Label(left - width * is_left, width, command.begins, text, 1, is_left)

    def count_in(self, lane, label):
        """A label without room is counted in the last one of a lane, if both are of one moment."""
        last = lane[-1]
        if last.moment == label.moment and not last.is_left:
            lane[-1] = last._replace(width=64, text=f"+{last.count + 1} more", count=last.count + 1)

    def commands(self):
        for row, lane in enumerate(self.lanes):
            for label in lane:
                place, top = self.middle(label.moment), row * LANE
                yield tag("line", cls="flag", x1=place, x2=place, y1=top + 2, y2=top + 15)
                more = {"dx": -4, "text_anchor": "end"} if label.is_left else {"dx": 4}
                cls = "cmd no" if "✕" in label.text else "cmd"
                yield tag("text", html.escape(label.text), cls=cls, x=place, y=top + 12, **more)

    def syncs(self):
        """A bar for each sync that wrote, from its beginning to its reply."""
        for command in self.recording.commands:
            if command.makes is None or command.mark == command.begins:
                continue
            cls = "sync wait" if command.word == "dsync" else "sync"
            width = f"{(command.mark - command.begins) / self.count * 100:.5g}%"
            yield tag("rect", cls=cls, x=self.middle(command.begins), width=width, y=self.syncs_at, height=17, rx=2)
            text = f"{command.word} {command.makes}"
            yield tag("text", text, cls=cls, x=self.middle(command.begins), dx=5, y=self.syncs_at + 12.5)

    # The band, and what crashes left

    def grid(self):
        for point in range(self.points + 1):
            yield tag("line", cls="grid", x1=0, x2="100%", y1=self.level(point), y2=self.level(point))

    def band(self):
        floor, top = self.recording.floor, self.recording.top
        for first, last, (low, high) in runs(list(zip(floor, top))):
            width = f"{(last - first + 1) / self.count * 100 + 0.02:.5g}%"
            height = max(0, high - low + 1) * self.row
            yield tag("rect", cls="band", x=self.edge(first), width=width, y=self.level(high) - self.row / 2, height=height)
        yield from self.edges("begun", top, -1)
        yield from self.edges("promised", floor, 1)
        first = next((moment for moment, point in enumerate(top) if point > 0), 0)
        yield tag("text", "top: begun", cls="tag", x=self.edge(first), dx=3, y=self.level(top[first]) - self.row / 2 - 5)
        yield tag("text", "floor: promised", cls="tag strong", x=2, y=self.level(floor[0]) + self.row / 2 + 13)

    def edges(self, cls, row, side):
        """The line of the tops or of the floors, with its steps."""
        before = None
        for first, last, point in runs(row):
            at = self.level(point) + side * self.row / 2
            yield tag("line", cls=cls, x1=self.edge(first), x2=self.edge(last + 1), y1=at, y2=at)
            if before is not None:
                yield tag("line", cls=cls, x1=self.edge(first), x2=self.edge(first), y1=before, y2=at)
            before = at

    def dots(self):
        for moment, outcomes in enumerate(self.crashes.outcomes):
            inside = [self.crashes.points[one] for one in outcomes if self.crashes.is_inside(moment, one)]
            paths = {}
            for point in sorted(set(inside)):
                size = 1 + sum(inside.count(point) / len(outcomes) >= share for share in SHARES)
                paths[size] = paths.get(size, "") + f"M0 {self.level(point):g}h0"
            dots = "".join(tag("path", cls=f"d{size}", d=path) for size, path in sorted(paths.items()))
            yield tag("svg", dots, cls="col", x=self.middle(moment)) if dots else ""

    def crosses(self):
        """A cross for each point outside, and for what all issued writes leave where it should be another."""
        for moment in range(self.count):
            wrong = {self.crashes.points[one] for one in self.crashes.outside(moment)}
            if self.crashes.is_short(moment):
                wrong.add(self.crashes.points[self.crashes.all_arrived(moment)])
            for point in sorted(wrong):
                path = f"M-4 {self.level(point) - 4:g}l8 8m-8 0l8 -8"
                cross = tag("path", cls="halo", d=path) + tag("path", cls="bad", d=path)
                yield tag("svg", cross, cls="col", x=self.middle(moment))

    # Events

    def writes(self):
        for place, event in enumerate(self.recording.events):
            if event.kind == "d":
                inside = tag("circle", cls="note", cy=self.notices_at + 4, r=2.6)
            else:
                letter = "×" if event.kind == "f" else self.recording.roles[place].letter
                box = tag("rect", cls="box", id=f"e{place}", x=-5, width=10, y=self.writes_at - 7, height=14, rx=2)
                inside = box + tag("text", letter, cls="ev", y=self.writes_at + 4)
            yield tag("svg", inside, cls="col", x=self.edge(place + 1))

    def pending(self):
        """A column for each moment, as high as writes are pending."""
        for moment, waiting in enumerate(self.recording.pending):
            height = len(waiting) / self.most * (PENDING - 2)
            cls, width = "all" if len(waiting) <= self.crashes.plan.all else "some", f"{88 / self.count:.5g}%"
            if waiting:
                yield tag("rect", cls=cls, x=self.edge(moment), width=width, y=self.axis_at - height, height=height)

    def axis(self):
        yield tag("line", cls="axis", x1=0, x2="100%", y1=self.axis_at, y2=self.axis_at)
        for moment in range(0, self.count, 1 if self.count <= 31 else 5 if self.count <= 101 else 10):
            cls = "tick ten" if moment % 50 == 0 else "tick"
            yield tag("text", str(moment), cls=cls, x=self.middle(moment), y=self.axis_at + 14)

    # Whole pictures

    def sizes(self):
        """The widths of dots, as CSS."""
        radius, sizes = min(5.5, 0.42 * min(self.row, self.step)), ((1, 0.9), (2, 1.4), (3, 2))
        return "".join(f"#chart .d{size} {{ stroke-width: {radius * part:.2f}px; }}\n" for size, part in sizes)

    def drawing(self):
        """All that is drawn, but for what the page moves over it."""
        parts = [self.grid(), self.band(), self.dots(), self.crosses(), self.commands(), self.syncs()]
        return "".join(element for part in [*parts, self.writes(), self.pending(), self.axis()] for element in part)

    def of_page(self):
        """The picture of the page: with what marks the moment that is picked, and what takes clicks."""
        top = self.points_at - 16
        width = f"{100 / self.count:.5g}%"
        cursor = tag("rect", id="cursor", y=top, height=self.axis_at - top, width=width, x="-10%")
        ring = tag("svg", tag("circle", r=7.5), id="ring", cls="col", x="-10%")
        catch = tag("rect", id="catch", width="100%", height=self.height)
        words = {"id": "chart", "role": "img", "aria_labelledby": "headline", "height": self.height}
        return tag("svg", cursor + self.drawing() + ring + catch, **words, style=f"--min:{round(self.width)}px")

    def names(self):
        """The names of the rows."""
        rows = [("syncs", self.syncs_at + 12.5), ("writes", self.writes_at + 4), ("notices", self.notices_at + 8)]
        rows += [("commands", 12)] * bool(self.lanes) + [("pending", self.pending_at + 12), ("moment", self.axis_at + 14)]
        rows += [("no tree", self.no_tree_at + 15)] * self.has_no_tree
        parts = [tag("text", name, x=NAMES - 8, y=at) for name, at in rows]
        parts.append(tag("text", f"up to {self.most}", cls="small", x=NAMES - 8, y=self.pending_at + 25))
        every = 1 if self.row >= 14 else 5 if self.points < 50 else 10
        for point in range(0, self.points + 1, every):
            text = f"point {point}" if point in (0, self.points) else str(point)
            parts.append(tag("text", text, cls="pt", x=NAMES - 8, y=self.level(point) + 4))
        return tag("svg", "".join(parts), id="left", width=NAMES, height=self.height, aria_hidden="true")

    def overview(self):
        """The whole run in little: a moment is one wide and a point one high."""
        rows, floor, top = self.points + 1, self.recording.floor, self.recording.top
        path = f"M0 {rows - top[0] - 1}" + "".join(f"V{rows - top[place] - 1}H{place + 1}" for place in range(self.count))
        path += "".join(f"V{rows - floor[place]}H{place}" for place in reversed(range(self.count))) + "Z"
        dots = bad = ""
        for moment, outcomes in enumerate(self.crashes.outcomes):
            for outcome in sorted(set(outcomes)):
                place = f"M{moment + 0.5:g} {rows - max(0, self.crashes.points[outcome]) - 0.5:g}h0"
                is_inside = self.crashes.is_inside(moment, outcome)
                dots, bad = (dots + place, bad) if is_inside else (dots, bad + place)
        drawn = tag("path", cls="band", d=path) + tag("path", cls="od", d=dots) + (tag("path", cls="ob", d=bad) if bad else "")
        view = tag("rect", id="view", y=0, height=rows, x=0, width=0)
        cursor = tag("line", id="ocur", y1=0, y2=rows, x1=0, x2=0)
        words = {"id": "over", "viewBox": f"0 0 {self.count} {rows}", "preserveAspectRatio": "none", "aria_hidden": "true"}
        return tag("svg", drawn + view + cursor, **words)

    def alone(self, headline, css):
        """A picture that stands by itself, under a line of text."""
        width, above = round(NAMES + self.width), 34
        chart = tag("svg", self.drawing(), id="chart", x=NAMES, width=round(self.width), height=self.height)
        moved = tag("g", self.names() + chart, transform=f"translate(0 {above})")
        inside = tag("title", headline) + tag("style", css + self.sizes())
        inside += tag("rect", cls="ground", width="100%", height="100%")
        inside += tag("text", headline, cls="headline", x=8, y=20) + moved
        size = {"width": width + 8, "height": self.height + above}
        box = f"0 0 {size['width']} {size['height']}"
        return tag("svg", inside, xmlns="http://www.w3.org/2000/svg", viewBox=box, **size) + "\n"
