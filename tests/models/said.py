"""How `lab` prints values."""


def words(numbers):
    return " ".join(map(str, numbers)) or "none"


def boolean(value):
    return "true" if value else "false"


def counts(arch):
    """The counts of an architecture with one switch."""
    classes = len(arch.groups(True)) + len(arch.groups(False))
    return f"{len(arch.pins)} pins, {classes} classes, {len(arch.segments)} segments, 1 switches"
