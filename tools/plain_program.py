"""The models in place of the program, where check-rows asks them: they are called by the same words, and end in the same ways.

What they don't know is told by `asks`: notices, lost writes, great files, logs, and how inputs and outputs fail.
"""

import re

import plain_disk
import plain_record
import plain_trace
import trial


class PlainProgram:
    """The models, which are called as the program is: `mkfs`, `tree`, `run`, `record`, `replay` and `upgrade`."""

    is_program = False
    # what may be told of the image that was found damaged last
    texts = ()

    def asks(self, kind, words, rows):
        """Whether the model can answer such a section: it has no notices and no lost writes, and holds small disks alone."""
        is_plain = kind != "record" or (set(words) - {"--layout"} <= {word for word in words if word.isdigit()} and int(words[0]) <= 10000)
        return kind in ("script", "record", "disk", "image", "trace") and is_plain and not any(self.is_other(said) for said, _ in rows)

    def is_other(self, said):
        """Whether a row asks for what the model doesn't know: outputs that are full, sources that give pieces, great files."""
        return re.match("listing [0-9]|pieces |fault |cuts|digest |each ", said) is not None

    def call(self, word, path, *words, given=b""):
        if word == "record":
            geometry = plain_disk.Geometry.of([path, *words])
            lines = given.decode("latin-1").split("\n")
            return trial.Done(0, plain_record.record(geometry, lines), "") if geometry.fits() else trial.Done(11, "error 11 shape\n", "")
        if word == "replay":
            return self.replay(given, *[str(one) for one in words])
        if word == "mkfs":
            return self.ends(0, path, plain_disk.formatted(plain_disk.Geometry.of(words)))
        data = path.read_bytes()
        image = [data[at : at + plain_disk.BLOCK] for at in range(0, len(data), plain_disk.BLOCK)]
        try:
            mounted = plain_disk.mounted(image)
        except plain_disk.Damage as damage:
            self.texts = damage.texts
            return self.ends(9 if self.texts == (plain_disk.SPENT_TEXT,) else 6, path, image)
        if word == "run" and given:
            replies, after = plain_record.run(mounted, given.decode("latin-1").splitlines())
            return self.ends(0, path, after, "".join(f"{reply}\n" for reply in replies))
        after = mounted if word == "run" else image
        try:
            listing = plain_disk.tree_of(mounted).listing()
        except plain_disk.Damage as damage:
            self.texts = damage.texts
            return self.ends(6, path, after)
        return self.ends(0, path, after, listing if word == "tree" else "")

    def replay(self, text, moment, _="", stand="none", __="", tear=""):
        """How a replay of a trace ends."""
        try:
            answer = plain_trace.replayed(plain_trace.read(text), int(moment), stand, tear)
        except plain_trace.WrongLine as wrong:
            return trial.Done(3, f"error 3 line {wrong.number}\n", "")
        return trial.Done(answer.status, answer.out, "")

    def upgrade(self, image, numbers):
        status, new = plain_record.upgrade(image, [int(number) for number in numbers])
        return trial.Done(status, {11: "error 11 shape\n", 14: "error 14 room\n"}.get(status, ""), ""), new

    def damage(self, done, wanted):
        """The model knows all that may be told: what is wanted, where it is among this."""
        if done.status != 6:
            return None
        return wanted if wanted in self.texts else ", or ".join(self.texts)

    def ends(self, status, path, image, text=""):
        """How the program would end, and the image that it would leave."""
        path.write_bytes(b"".join(image))
        return trial.Done(status, {6: "error 6 damaged\n", 9: "error 9 spent\n"}.get(status, text), "")
