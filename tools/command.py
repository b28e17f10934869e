"""Code that the Python tools share: messages, exit statuses, and files that are written whole.

A tool exits with 0 on success, 1 if a file is at fault, 2 for an invalid command line, and 3 if a
file can't be read or written.
"""
import contextlib
import os
import re
import signal
import stat
import sys
import tempfile

import vpr430

CONTROL = re.compile(r"[\x00-\x1f\x7f-\x9f]")


class WrongWords(Exception):
    """The command line is invalid."""


def shown(text):
    """A text for a terminal, with `?` instead of each control character."""
    return CONTROL.sub("?", text)


def put(*lines):
    """Prints lines on standard output."""
    try:
        text = "".join(f"{shown(str(line))}\n" for line in lines)
        sys.stdout.buffer.write(text.encode(**vpr430.TEXT))
        sys.stdout.buffer.flush()
    except (OSError, AttributeError) as fault:  # sys.stdout is None if it was closed at the start
        reason = getattr(fault, "strerror", "it is closed")
        raise vpr430.Unread(f"standard output: {reason}") from fault


def say(*lines):
    """Prints lines on standard error, if it can be written."""
    try:
        text = "".join(f"{shown(str(line))}\n" for line in lines)
        sys.stderr.buffer.write(text.encode(**vpr430.TEXT))
        sys.stderr.buffer.flush()
    except (OSError, AttributeError):
        pass


def is_same(path, other):
    """Whether two names refer to the same file."""
    try:
        return os.path.samefile(path, other)
    except OSError:
        return os.path.realpath(path) == os.path.realpath(other)


def refuse_inputs(path, inputs):
    """Refuses to overwrite an input file."""
    for other in inputs:
        if is_same(path, other):
            raise vpr430.Unread(f"{path}: not written, because it is the input {other}")


def mode_of(path):
    """The mode of a file, or the mode that a new file gets."""
    try:
        return stat.S_IMODE(os.stat(path).st_mode)
    except OSError:
        mask = os.umask(0)
        os.umask(mask)
        return 0o666 & ~mask


def write_whole(path, text):
    """Writes a text or bytes to a file, all or nothing.

    A new file in the same folder takes the file's name at the end.
    """
    try:
        data = text if isinstance(text, bytes) else text.encode(**vpr430.TEXT)
        if os.path.exists(path) and not os.path.isfile(path):  # a device or a pipe
            with open(path, "wb") as file:
                file.write(data)
            return
        target = os.path.realpath(path)
        if os.path.exists(target) and not os.access(target, os.W_OK):
            raise PermissionError(0, "no permission to write it")
        descriptor, new = tempfile.mkstemp(prefix=".new-", dir=os.path.dirname(target))
        try:
            with open(descriptor, "wb") as file:
                file.write(data)
            os.chmod(new, mode_of(target))
            os.replace(new, target)
        except BaseException:
            with contextlib.suppress(OSError):
                os.unlink(new)
            raise
    except (OSError, ValueError) as fault:
        raise vpr430.Unread(f"{path}: {getattr(fault, 'strerror', fault)}") from fault


def end_by_signal(number, _frame):
    """Exits as on an interrupt, so that no partial file stays."""
    raise SystemExit(128 + number)


def main(run, words=None):
    """Runs a tool with these arguments, or the command line's, and returns its exit status."""
    signal.signal(signal.SIGTERM, end_by_signal)
    try:
        run(sys.argv[1:] if words is None else words)
        return 0
    except vpr430.Fault as fault:
        say(fault)
        return 1
    except WrongWords as fault:
        say(fault)
        return 2
    except vpr430.Unread as fault:
        say(fault)
        return 3
    except KeyboardInterrupt:
        return 128 + signal.SIGINT
