"""What tests share that cut commands short: how the file of a session stands, what its scripts did, and waiting for what
a killed command has started."""

import ctypes
import os

# Of <linux/prctl.h>.
PR_SET_CHILD_SUBREAPER = 36

# The defaults of whoever runs the tests are none of theirs.
for default in ("UNDORC_RUNNER", "UNDORC_CONTROLLER", "UNDORC_OUTPUT"):
    os.environ.pop(default, None)


class Wrong(Exception):
    """What the program did is not what is promised."""


def read(path):
    """The bytes of a file: none, where there is no file."""
    try:
        with open(path, "rb") as file:
            return file.read()
    except FileNotFoundError:
        return b""


def block(text):
    """The bytes after a line that says how many they are, and what follows them."""
    line, rest = text.split(b"\n", 1)
    length = int(line.split()[1])
    return rest[:length], rest[length:]


def is_history(text):
    return text.startswith(b"undorc-history ")


def present(text):
    """The marks of the present generation of a history, its database and its session."""
    rest = text.split(b"\n", 2)[2]
    for _number in range(int(text.split(b"\n", 2)[1].split()[1]) + 1):
        marks, rest = rest.split(b"\n", 1)
        database, rest = block(rest)
        session, rest = block(rest)
        count = int(rest.split(b"\n", 1)[0].split()[1])
        rest = rest.split(b"\n", count + 1)[count + 1]
    return marks, database, session


def session_of(text):
    """The text of the session in the file of a session."""
    return present(text)[2] if is_history(text) else text


def standing(text):
    """The present database of a history, and whether an undo goes on from the state on which it stands; None of a live
    text alone."""
    if not is_history(text):
        return None
    marks, database, session = present(text)
    states = [line.split()[0] for line in session.splitlines() if line.split()[0] in (b"up", b"now")]
    first, last = (mark == b"passed" for mark in marks.split()[1:])
    return database, first and states[0] == b"now" or last and states[-1] == b"now"


def recorded(text):
    """The names that are up by what the scripts recorded, a line `up NAME` or `down NAME` each."""
    up = set()
    for line in text.decode().splitlines():
        way, name = line.split()
        (up.add if way == "up" else up.discard)(name)
    return up


def under_way(log):
    """The names whose transitions a run log begins and does not end."""
    names = set()
    for line in log.decode(errors="replace").split("\n")[:-1]:
        words = line.split()
        if words[:1] == ["take"]:
            names.add(words[2])
        if words[:1] == ["done"]:
            names.discard(words[2])
    return names


def adopt_orphans():
    """What a killed command started becomes a child of this process, also where it has yet to run its program."""
    if ctypes.CDLL(None, use_errno=True).prctl(PR_SET_CHILD_SUBREAPER, 1, 0, 0, 0) != 0:
        raise OSError(ctypes.get_errno(), "prctl")


def wait_for_orphans():
    """Waits until nothing goes on that a killed command started."""
    try:
        while True:
            os.wait()
    except ChildProcessError:
        pass
