"""The output of a sweep, and the exceptions that end a job or the sweep."""
import os
import re

TEXT = {"encoding": "utf-8", "errors": "surrogateescape"}
CONTROL = re.compile(r"[\x00-\x1f\x7f-\x9f]")


class WrongWords(Exception):
    """The command line is invalid."""


class NotRun(Exception):
    """A job, or the whole sweep, could not be run, for a reason other than the circuit."""


class Ended(Exception):
    """The sweep ends, so a job gets no line."""


def shown(text):
    """A text for tables and terminals, with `?` instead of each control character."""
    return CONTROL.sub("?", text)


def hold_descriptors():
    """Opens /dev/null for each closed standard stream, so that no other file gets its number.

    It is opened for reading only, so that writing fails as on the closed stream.
    """
    while (held := os.open(os.devnull, os.O_RDONLY)) <= 2:
        os.set_inheritable(held, True)
    os.close(held)


def write(number, text):
    left = text.encode(**TEXT)
    while left:
        left = left[os.write(number, left) :]


def put(text):
    """Prints a text."""
    try:
        write(1, text)
    except OSError as fault:
        raise NotRun(f"standard output: {fault.strerror}") from fault


def say(*lines):
    """Prints lines on standard error; if that fails, the sweep goes on."""
    try:
        write(2, "sweep: " + "".join(f"{shown(str(line))}\n" for line in lines))
    except OSError:
        pass
