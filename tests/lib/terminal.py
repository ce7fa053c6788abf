#!/usr/bin/env python3
"""Runs a command whose standard input is a terminal, and types the lines of a file there, then ^D.

    tests/lib/terminal.py FILE COMMAND [WORD..]

The file has at most 4,000 bytes, as many as a terminal holds. The command writes to the standard output and
error of this program, which exits with its status.
"""

import os
import pathlib
import subprocess
import sys

END = b"\x04"


def main():
    typed = pathlib.Path(sys.argv[1]).read_bytes()
    keyboard, terminal = os.openpty()
    command = subprocess.Popen(sys.argv[2:], stdin=terminal)
    os.close(terminal)
    os.write(keyboard, typed + END)
    return command.wait()


if __name__ == "__main__":
    sys.exit(main())
