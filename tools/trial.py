"""What the trials of this folder have in common: the program under trial, strace, and when a trial is skipped.

Each trial is called as `tools/check-NAME [--program PATH] [--seconds N] [--seed N]`. Its status is 0 where it found
nothing wrong or was skipped, and else 1.
"""

import argparse
import collections
import importlib.machinery
import importlib.util
import os
import pathlib
import re
import shutil
import signal
import subprocess
import sys
import time

TOP = pathlib.Path(__file__).resolve().parent.parent
BUILT = TOP / "crates" / "optfs" / "out" / "optfs"
LIMIT = 300

# How a program ended, and what it wrote.
Done = collections.namedtuple("Done", "status out err")

# A system call in a log of strace: its name, which one of this name it is (from 1), what it is about, and the line.
Call = collections.namedtuple("Call", "name when about line")


def options(about):
    """The words of a trial, whose help is `about`; the program is the built one, where none is named."""
    words = argparse.ArgumentParser(description=about)
    words.add_argument("--program", default=str(BUILT), help="the program under trial")
    words.add_argument("--seconds", type=float, default=30, help="for how long the trial goes on")
    words.add_argument("--seed", type=int, default=1, help="the seed of what is drawn")
    given = words.parse_args()
    given.program = str(pathlib.Path(given.program).resolve())
    if not pathlib.Path(given.program).is_file():
        sys.exit(f"{name()}: there is no program at {given.program}: build it by ./optfs")
    return given


def name():
    """The name of the trial."""
    return pathlib.Path(sys.argv[0]).name


def module_of(trial):
    """Another trial of this folder, as a module."""
    loader = importlib.machinery.SourceFileLoader(trial.replace("-", "_"), str(TOP / "tools" / trial))
    module = importlib.util.module_from_spec(importlib.util.spec_from_loader(loader.name, loader))
    loader.exec_module(module)
    return module


def skip(why):
    """Ends the trial as one that was not made."""
    print(f"{name()}: skipped: {why}")
    sys.exit(0)


def can_trace():
    """Whether a program can be traced here."""
    is_there = shutil.which("strace") is not None
    return is_there and subprocess.run(["strace", "-o", "/dev/null", "true"], capture_output=True).returncode == 0


def need_strace():
    """Skips the trial where no program can be traced here."""
    if shutil.which("strace") is None:
        skip("there is no strace on the PATH")
    if not can_trace():
        skip("strace can't trace a program here")


def call(command, given=b"", **more):
    """How a command ends that is given these bytes, or a file. One that goes on for LIMIT seconds is killed."""
    stdin = subprocess.PIPE if isinstance(given, bytes) else given
    program = subprocess.Popen(
        command, stdin=stdin, stdout=subprocess.PIPE, stderr=subprocess.PIPE, start_new_session=True, **more
    )
    try:
        out, err = program.communicate(given if isinstance(given, bytes) else None, timeout=LIMIT)
    except subprocess.TimeoutExpired:
        os.killpg(program.pid, signal.SIGKILL)
        program.communicate()
        return Done(None, "", f"it went on for {LIMIT} seconds\n")
    return Done(program.returncode, out.decode(errors="replace"), err.decode(errors="replace"))


def strace(log, more=()):
    """The words that put strace before a program, which logs its calls, with the paths of its files."""
    return ["strace", "-o", str(log), "-y", "-s", "0", *more]


def calls_of(log, image, other=""):
    """The calls in a log of strace that are about the image, another one, their folder, or a standard stream (`in`, `out`, `err`)."""
    calls, counts = [], collections.Counter()
    for line in pathlib.Path(log).read_text(errors="replace").splitlines():
        begin = re.match(r"(\w+)\((.*)", line)
        if begin is None:
            continue
        counts[begin[1]] += 1
        about = about_what(begin[2], str(image), str(other))
        if about:
            calls.append(Call(begin[1], counts[begin[1]], about, line))
    return calls


def about_what(words, image, other=""):
    """What the words of a call are about, or an empty text."""
    words = re.sub(r"AT_FDCWD<[^>]*>", "", words.rsplit(") = ", 1)[0])
    for path, about in ((image, "image"), (other, "other"), (os.path.dirname(image), "folder")):
        if path and re.search(rf'[<"]{re.escape(path)}/?( \(deleted\))?[>"]', words):
            return about
    return {"0<": "in", "1<": "out", "2<": "err"}.get(words[:2], "")


def shortened(text):
    """A text without what is in the middle of long words, and the middle of it where it is long all the same."""
    text = re.sub(r"([0-9a-f]{12})[0-9a-f]{12,}", r"\1..", text)
    return text if len(text) <= 800 else f"{text[:600]} .. {text[-200:]}"


class Tally:
    """Counts what was tried and what was wrong, and knows when the time is up."""

    def __init__(self, things, seconds):
        self.things, self.tried, self.wrong = things, 0, 0
        self.end = time.monotonic() + seconds

    def time_is_up(self):
        return time.monotonic() > self.end

    def judge(self, what, complaints):
        self.tried += 1
        self.wrong += bool(complaints)
        for complaint in complaints:
            print(f"WRONG: {what}: {shortened(complaint)}", flush=True)

    def close(self):
        """Writes the last line; the status of the trial."""
        print(f"{name()}: {self.tried} {self.things}, {self.wrong} wrong")
        return 1 if self.wrong else 0
