"""Programs that a benchmark needs: what each of them must not do is fail, and how the drivers are built.

A call that fails raises `Failed`, whose text is one line for the user: bench/run and bench/check end with it. What isn't
installed is found out beforehand, and told as a reason (`reason_without`), so that a peer can be skipped.
"""

import pathlib
import shutil
import signal
import subprocess
import sys

DRIVERS = pathlib.Path(__file__).resolve().parent / "drivers"


class Failed(Exception):
    """A program ended otherwise than it should; the text says which and how."""


def end_with(name, main):
    """Runs a program of this folder, and ends with its status, or with a line that says what failed.

    A signal that ends it leaves no folder, mount or loop device behind, as Ctrl-C does.
    """
    for number in (signal.SIGTERM, signal.SIGHUP):
        signal.signal(number, signal.default_int_handler)
    try:
        sys.exit(main())
    except Failed as failed:
        sys.exit(f"{name}: {failed}")
    except KeyboardInterrupt:
        sys.exit(f"{name}: it was interrupted")


def succeed(command, what, **more):
    """What a command writes that must end with status 0; `what` says in the message what it was for."""
    done = subprocess.run([str(word) for word in command], capture_output=True, text=True, **more)
    if done.returncode != 0:
        raise Failed(f"{what}: {pathlib.Path(command[0]).name} ended with {done.returncode}: {said_in(done.stderr)}")
    return done.stdout


def said_in(errors):
    """What a program wrote on its standard error, in one line."""
    lines = [line.strip() for line in errors.splitlines() if line.strip()]
    return "; ".join(lines[-3:])[:300] or "it said nothing"


def reason_without(programs=(), headers=()):
    """Why something can't be used: the first of these programs or headers of C that isn't there, or an empty text."""
    for program in ("cc", "make", *programs):
        if shutil.which(program) is None:
            return f"there is no {program} on the PATH"
    for header in headers:
        words = ["cc", "-x", "c", "-fsyntax-only", "-include", header, "/dev/null"]
        if subprocess.run(words, capture_output=True).returncode != 0:
            return f"there is no {header}"
    return ""


def build(driver, folder):
    """Builds a driver into a folder, and returns its path."""
    path = pathlib.Path(folder) / driver
    if not path.exists():
        succeed(["make", "-s", "-C", DRIVERS, f"OUT={folder}", path], f"building {driver}")
    return path


def chosen(names, known, what):
    """The names of a list parted by commas, all of which must be known."""
    wanted = [name for name in names.split(",") if name]
    for name in wanted:
        if name not in known:
            raise Failed(f"there is no {what} {name}: there are {', '.join(known)}")
    return wanted
