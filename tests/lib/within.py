#!/usr/bin/env python3
"""Runs a command within a time limit, and ends whatever it leaves behind.

    tests/lib/within.py SECONDS COMMAND..

At the limit all processes of the command get TERM, and KILL where they have not ended five seconds
later. So do processes that the command has left behind where it has ended by itself, which is an
error, too: each is named on standard output. Processes in other sessions and process groups count.

The status is that of the command, 124 where the limit was reached, and 125 where it ended with 0
and left a process behind. A signal to this program ends all of them.
"""

import ctypes
import os
import signal
import sys
import time

PR_SET_CHILD_SUBREAPER = 36
LIMIT_REACHED = 124
LEFT_BEHIND = 125
# What ends together with the command may take so long.
GRACE = 2
PATIENCE = 5


class Interrupted(Exception):
    """A signal, by its number."""


def interrupt(number, _frame):
    raise Interrupted(number)


def below():
    """The processes below this one that have not ended, by their numbers, each with its words."""
    parents = {}
    for name in os.listdir("/proc"):
        try:
            with open(f"/proc/{name}/stat", "rb") as file:
                state, parent = file.read().rpartition(b")")[2].split()[:2]
            if name.isdigit() and state not in (b"Z", b"X"):
                parents[int(name)] = int(parent)
        except OSError:
            continue
    found = {}
    for process in parents:
        above = parents[process]
        while above not in (0, os.getpid()):
            above = parents.get(above, 0)
        if above == os.getpid():
            found[process] = words_of(process)
    return found


def words_of(process):
    try:
        with open(f"/proc/{process}/cmdline", "rb") as file:
            return file.read().replace(b"\0", b" ").decode(errors="replace").strip()
    except OSError:
        return ""


def have_ended(seconds):
    """Waits until all processes below have ended, and collects them; whether they have."""
    end = time.monotonic() + seconds
    while True:
        try:
            while os.waitpid(-1, os.WNOHANG)[0]:
                pass
        except ChildProcessError:
            return True
        if time.monotonic() > end:
            return False
        time.sleep(0.02)


def end_all():
    """Ends all processes below, and collects them."""
    for number in (signal.SIGTERM, signal.SIGKILL):
        for process in below():
            try:
                os.kill(process, number)
            except ProcessLookupError:
                pass
        if have_ended(PATIENCE):
            return


def status_of(child):
    """The status with which the command ends. What it leaves is handed to this process, and each of
    these that ends is collected at once, as the first process of a machine does."""
    while True:
        process, status = os.waitpid(-1, 0)
        if process == child:
            status = os.waitstatus_to_exitcode(status)
            return status if status >= 0 else 128 - status


def watch(child):
    """That status, or what is told of processes that are left behind."""
    status = status_of(child)
    signal.alarm(0)
    if have_ended(GRACE):
        return status
    for process, words in sorted(below().items()):
        print(f"FAILED: left behind: process {process}: {words}", flush=True)
    end_all()
    return status or LEFT_BEHIND


def main():
    seconds, words = int(sys.argv[1]), sys.argv[2:]
    ctypes.CDLL(None).prctl(PR_SET_CHILD_SUBREAPER, 1, 0, 0, 0)
    for number in (signal.SIGINT, signal.SIGTERM, signal.SIGHUP, signal.SIGALRM):
        signal.signal(number, interrupt)
    usual = [signal.SIGPIPE, signal.SIGXFSZ]
    child = os.posix_spawnp(words[0], words, os.environ, setsigdef=usual)
    signal.alarm(seconds)
    try:
        return watch(child)
    except Interrupted as signalled:
        number = signalled.args[0]
        if number == signal.SIGALRM:
            print(f"FAILED: not ended after {seconds} s: {' '.join(words)}", flush=True)
        end_all()
        return LIMIT_REACHED if number == signal.SIGALRM else 128 + number


sys.exit(main())
