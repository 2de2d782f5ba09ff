"""Types lines at a command on a terminal of its own, one after another, and writes what is seen: `typed_at.py COMMAND LINE .. [-- LINE ..]`.
After `--` the command is begun anew, in the same home."""

import os
import pty
import select
import struct
import sys
import tempfile
from fcntl import ioctl
from termios import TIOCSWINSZ


def seen(terminal, seconds):
    """What the command shows until it is silent for so long, or ends."""
    shown = b""
    while select.select([terminal], [], [], seconds)[0]:
        try:
            part = os.read(terminal, 4096)
        except OSError:
            break
        if not part:
            break
        shown += part
    return shown


def talk(command, lines, home):
    """What is seen while these lines are typed."""
    child, terminal = pty.fork()
    if child == 0:
        ioctl(0, TIOCSWINSZ, struct.pack("HHHH", 24, 80, 0, 0))
        os.execve(command, [command], {**os.environ, "HOME": home, "TERM": "xterm"})
    shown = seen(terminal, 3)
    for line in lines:
        os.write(terminal, line.encode() + b"\r")
        shown += seen(terminal, 2)
    os.close(terminal)
    os.waitpid(child, 0)
    return shown.decode()


def main():
    command, *lines = sys.argv[1:]
    with tempfile.TemporaryDirectory() as home:
        while lines:
            end = lines.index("--") if "--" in lines else len(lines)
            sys.stdout.write(talk(command, lines[:end], home))
            lines = lines[end + 1:]


main()
