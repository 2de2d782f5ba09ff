"""The program run on a script, whose bytes come in pieces of one size."""

import array
import fcntl
import os
import subprocess
import termios
import threading

# The program of the folder built as it is, and run with no proof, for ten seconds. The run that is counted in steps would take long, and
# ends at once.
UNPROVED = ["rt", "try", "--steps", "1", "--seconds", "10"]

# Bounds how long a command may take.
SECONDS = 600


def is_read(pipe):
    """Whether all that was written to a pipe is read."""
    waiting = array.array('i', [0])
    fcntl.ioctl(pipe, termios.FIONREAD, waiting)
    return waiting[0] == 0


def feed(process, text, size):
    """Writes the text in pieces, each only once the one before it is read: so no read gets more than a piece."""
    pipe = process.stdin.fileno()
    try:
        for at in range(0, len(text), size):
            os.write(pipe, text[at:at + size])
            while not is_read(pipe) and process.poll() is None:
                os.sched_yield()
    except BrokenPipeError:
        pass
    finally:
        process.stdin.close()


def output_of(command, text, size=None, folder=None):
    """What a command writes, and the status that it ends with, or "timeout". Without a size the text comes whole."""
    if size is not None:
        return output_in_pieces(command, text, size)
    try:
        ended = subprocess.run(command, input=text, capture_output=True, check=False, cwd=folder, timeout=SECONDS)
    except subprocess.TimeoutExpired as late:
        return late.stdout or b"", "timeout"
    return ended.stdout, ended.returncode


def output_in_pieces(command, text, size):
    """Returns what a command writes that gets the text in pieces of this size, and the status that it ends with, or "timeout"."""
    is_late = threading.Event()
    process = subprocess.Popen(command, stdin=subprocess.PIPE, stdout=subprocess.PIPE, stderr=subprocess.DEVNULL, bufsize=0)
    timer = threading.Timer(SECONDS, lambda: (is_late.set(), process.kill()))
    timer.start()
    feeder = threading.Thread(target=feed, args=(process, text, size))
    feeder.start()
    output = process.stdout.read()
    feeder.join()
    status = process.wait()
    timer.cancel()
    return output, "timeout" if is_late.is_set() else status
