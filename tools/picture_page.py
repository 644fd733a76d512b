"""The page of tools/picture, and the picture by itself: what was tried is put down for the script of the page, and told in
words.

The parts are picture_page.html, .css and .js, and the picture is drawn by picture_chart.py. The page loads nothing.
"""

import html
import json
import pathlib
import string

import picture_chart

FOLDER = pathlib.Path(__file__).resolve().parent
SIGNS = string.digits + string.ascii_uppercase + string.ascii_lowercase + "-_"
# A picture that is wider opens whole, where the window is wide.
WIDE = 1200
# The least width of a picture that stands by itself.
ALONE = 900
LONGEST = 60


def part(name):
    """The text of a part of the page."""
    return (FOLDER / f"picture_{name}").read_text(encoding="utf-8")


def counted(number, thing, things=None):
    """So many things, in words."""
    return f"{number:,} {thing if number == 1 else things or f'{thing}s'}"


def headline_of(crashes):
    """What was counted, in a sentence."""
    tried, outside = crashes.count()
    replies = counted(len(crashes.short()), "reply", "replies")
    told = [f"{outside:,} of {tried:,} crashes tried lie outside the band"] * bool(outside)
    told += [f"at {replies} all that was issued isn't the last sync point"] * bool(crashes.short())
    return "; ".join(told) or f"{tried:,} crashes tried: no dot lies outside the band"


def is_wrong(crashes):
    """Whether anything is left that mustn't be."""
    return bool(crashes.count()[1] or crashes.short())


class Page:
    """The page of a recording under a name, and of the crashes of it that were tried."""

    def __init__(self, recording, crashes, name):
        self.recording, self.crashes, self.name = recording, crashes, name
        self.lines = {}
        self.chart = picture_chart.Chart(recording, crashes)

    def text(self):
        """The whole page."""
        crashes, recording = self.crashes, self.recording
        is_lost = any(event.kind == "f" for event in recording.events)
        values = {
            "name": html.escape(self.name),
            "headline": headline_of(crashes),
            "headline_class": "wrong" if is_wrong(crashes) else "",
            "body_class": "wide" if self.chart.width > WIDE else "",
            "style": part("chart.css") + part("page.css") + self.chart.sizes(),
            "writes": f"{sum(event.kind != 'd' for event in recording.events):,}",
            "commands": f"{len(recording.commands):,}",
            "moments": f"{len(recording.events) + 1:,}",
            "wrong_legend": "what mustn't be left" + ("" if is_wrong(crashes) else ": there is none"),
            "lost_legend": " <b>×</b> lost write" if is_lost else "",
            "sample": f"{crashes.plan.sample:,}",
            "overview": self.chart.overview(),
            "names": self.chart.names(),
            "chart": self.chart.of_page(),
            "footer": self.footer(),
            "data": json.dumps(self.data(), separators=(",", ":"), ensure_ascii=False).replace("<", "\\u003c"),
            "script": part("page.js"),
        }
        return string.Template(part("page.html")).substitute(values)

    def footer(self):
        """How the page was made, and what it claims."""
        recording, crashes = self.recording, self.crashes
        moments, plan = len(crashes.outcomes), crashes.plan
        whole = sum(len(waiting) <= plan.all for waiting in recording.pending)
        some = f"At {whole:,} of {moments:,} moments all choices were tried, since at most {plan.all} writes were pending; "
        some += f"at each other one {plan.sample}, some chosen and the others drawn by the seed {plan.seed}."
        claim = "That no honest crash of a recording lies outside is proved; this page only shows it of one."
        if is_wrong(crashes):
            claim = "No recording leaves that, as is proved: so <code>optfs</code> didn't write this trace, or not all of it."
        left_out = f"{counted(self.chart.left_out, 'command')} had no room for a label; the list below the picture has them."
        shape, calls = recording.geometry.text, counted(crashes.calls, "call")
        told = [
            f"{html.escape(self.name)}: geometry {shape}, {counted(len(recording.events), 'event')}.",
            some if whole < moments else "At each moment all choices of lost, torn and arrived were tried.",
            f"Each tree that is left is what <code>optfs replay</code> printed, in {calls}: crashes of one image and of the "
            "same floor and top share one.",
            "A dot lies at the point that has the tree, sought among all points.",
            claim,
            left_out if self.chart.left_out else "",
        ]
        return " ".join(told)

    # What the script of the page works with

    def data(self):
        recording, crashes = self.recording, self.crashes
        digits = 1 + (len(crashes.texts) > 64) + (len(crashes.texts) > 64**2)
        return {
            "name": self.name,
            "plan": crashes.plan._asdict(),
            "events": [self.event(place) for place in range(len(recording.events))],
            "commands": [self.command(command) for command in recording.commands],
            "mount": recording.mount,
            "floor": recording.floor,
            "top": recording.top,
            "last": recording.points,
            "short": crashes.short(),
            "digits": digits,
            "tried": ["".join(spelled(outcome, digits) for outcome in outcomes) for outcomes in crashes.outcomes],
            "points": crashes.points,
            "outcomes": [self.numbers_of(text) for text in crashes.texts],
            "trees": [self.numbers_of(listing) for listing in recording.listings],
            "lines": list(self.lines),
            "start": self.start(),
            "chart": {"points": self.chart.points_at, "row": self.chart.row, "noTree": self.chart.level(picture_chart.NO_TREE)},
        }

    def event(self, place):
        event, role = self.recording.events[place], self.recording.roles[place]
        data = {"kind": event.kind, "ticket": event.ticket}
        if role is not None:
            data |= {"block": event.block, "letter": role.letter, "text": role.text, "cut": self.recording.cuts[place]}
        return data

    def command(self, command):
        clipped = lambda text: text if len(text) <= LONGEST else text[: LONGEST - 1] + "…"
        data = {"text": clipped(command.text), "reply": clipped(command.reply), "begins": command.begins, "mark": command.mark}
        return data | {"makes": command.makes, "promises": command.promised}

    def numbers_of(self, text):
        """The lines of a text, each by its number."""
        return [self.lines.setdefault(line, len(self.lines)) for line in text.splitlines()]

    def start(self):
        """The moment that the page opens at: the first at which something is wrong, else that with the most points left."""
        crashes, moments = self.crashes, range(len(self.crashes.outcomes))
        wrong = [moment for moment in moments if crashes.outside(moment) or crashes.is_short(moment)]
        points = lambda moment: len({crashes.points[outcome] for outcome in crashes.outcomes[moment]})
        return wrong[0] if wrong else max(moments, key=lambda moment: (points(moment), -moment))


def spelled(number, digits):
    """A number by so many signs, of which there are 64."""
    return "".join(SIGNS[number // 64**place % 64] for place in reversed(range(digits)))


def picture_alone(recording, crashes):
    """The picture as an SVG that needs nothing else."""
    chart = picture_chart.Chart(recording, crashes, ALONE)
    return chart.alone(headline_of(crashes), part("chart.css"))
