"""Runs of one peer on one workload: how long they take, and what they write and sync.

Each run is on a new image in a folder of its own, and its output must be right: else it raises `Failed`. A timed run isn't
traced. Where no device counts for the peer, strace does: an fsync, fdatasync, msync, sync_file_range, syncfs or sync is a
sync, and so is a write to a descriptor that was opened with O_SYNC or O_DSYNC. Making an image isn't measured, and what
SQLite puts into the memory that its programs share isn't a write.
"""

import contextlib
import os
import pathlib
import re
import shutil
import signal
import subprocess
import tempfile
from typing import NamedTuple

import programs
import trial

LIMIT = 1800
SYNCS = ("fsync", "fdatasync", "msync", "sync_file_range", "syncfs", "sync")
WRITES = ("write", "pwrite64", "writev", "pwritev", "pwritev2")
CALL = re.compile(r"(?m)^(?:\d+ +)?(\w+)\((.*)\) += (\d+)")
DESCRIPTOR = re.compile(r"(\d+)<([^>]*)>")
SHARED_MEMORY = "-shm"


class Timing(NamedTuple):
    """Wall and processor time in seconds, and peak memory in KiB."""

    wall: float
    processor: float
    memory: int


class Counts(NamedTuple):
    """How many syncs and writes there were, and how many bytes were written."""

    syncs: int
    writes: int
    bytes: int


@contextlib.contextmanager
def begun(peer, job, scratch):
    """A folder with a new image of the peer in it. Afterwards all of it is gone."""
    folder = pathlib.Path(tempfile.mkdtemp(prefix=f"{peer.name}-", dir=scratch))
    try:
        peer.begin(folder, job)
        yield folder
    finally:
        peer.end(folder)
        shutil.rmtree(folder)


def call(words, given, output, where):
    """The status of a program, and what it wrote on its standard error. Nothing that it started outlives an exception."""
    program = subprocess.Popen(words, stdin=given, stdout=output, stderr=subprocess.PIPE, start_new_session=True)
    try:
        errors = program.communicate(timeout=LIMIT)[1]
    except BaseException as reason:
        os.killpg(program.pid, signal.SIGKILL)
        program.communicate()
        if isinstance(reason, subprocess.TimeoutExpired):
            raise programs.Failed(f"{where}: it went on for {LIMIT} seconds") from None
        raise
    return program.returncode, programs.said_in(errors.decode(errors="replace"))


def run(peer, job, folder, before=()):
    """Runs the peer on its image, behind the words of another program, and looks at what it answers."""
    where = f"{job.workload.name}: {peer.name}"
    words = [str(word) for word in (*before, *peer.command(folder))]
    with open(peer.input_of(job), "rb") as given, open(folder / "output", "wb") as output:
        status, errors = call(words, given, output, where)
    if status != 0:
        raise programs.Failed(f"{where}: it ended with status {status}: {errors}")
    wrong = peer.wrong_output((folder / "output").read_text(), job)
    if wrong:
        raise programs.Failed(f"{where}: {wrong}. On standard error {errors}")


def timed(peer, job, scratch):
    """The timing of one run."""
    with begun(peer, job, scratch) as folder:
        report = folder / "report"
        run(peer, job, folder, [programs.build("measure", peer.tools), report])
        wall, user, system, memory = map(int, report.read_text().split())
        return Timing(wall / 1e6, (user + system) / 1e6, memory)


def can_count(peer):
    """Whether the syncs and writes of the peer can be counted here."""
    return peer.has_device or trial.can_trace()


def counted(peer, job, folder):
    """The counts of one run on an image that was made in the folder."""
    if peer.has_device:
        run(peer, job, folder)
        return Counts(*peer.device_counts())
    log = folder / "strace"
    calls = ",".join(SYNCS + WRITES + ("openat",))
    run(peer, job, folder, ["strace", "-f", "--seccomp-bpf", "-y", "-s", "0", "-o", log, "-e", f"trace={calls}"])
    return counts_in(log, peer.image(folder))


def counts_in(log, image):
    """What a log of strace says of an image and the files beside it: the syncs, the writes and their bytes."""
    text = log.read_text(errors="replace")
    if "<unfinished ...>" in text:
        raise programs.Failed("strace: two calls of the program cross, and the log isn't read so far")
    synced, syncs, writes, written = set(), 0, 0, 0
    for name, words, result in CALL.findall(text):
        descriptor, path = DESCRIPTOR.match(words).groups() if DESCRIPTOR.match(words) else ("", "")
        if name == "openat":
            synced.discard(result)
            synced.update({result} if re.search(r"\bO_D?SYNC\b", words) else {})
        elif name in SYNCS:
            syncs += 1
        elif path.startswith(str(image)) and not path.endswith(SHARED_MEMORY):
            writes, written = writes + 1, written + int(result)
            syncs += descriptor in synced
    return Counts(syncs, writes, written)
