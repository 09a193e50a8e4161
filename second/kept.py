"""The kept script of the desk and its kept answers, and whether they are what is worked out."""

import pathlib

import sections
from desk import split_lines

FOLDER = pathlib.Path(__file__).resolve().parent.parent / "crates" / "desk"
SCRIPT, ANSWERS = FOLDER / "stdin", FOLDER / "stdout"
# as many as the gate has time for; reads of many states are told reading by reading, and take the most lines for an operation
FEWEST_OPERATIONS, MOST_OPERATIONS, MOST_BYTES = 19000, 25000, 2800000


def kept_bytes(path):
    return path.read_bytes() if path.is_file() else b""


def first_difference(path, wanted):
    """None where a file has the wanted bytes, else what its first differing line is and what it has to be."""
    found = kept_bytes(path)
    if found == wanted:
        return None
    place = "crates/desk/" + path.name
    pairs = zip(found.split(b"\n"), wanted.split(b"\n"))
    for number, (has, due) in enumerate(pairs, 1):
        if has != due:
            return "%s:%d: %r where %r is due" % (place, number, has, due)
    return "%s: it ends in another place" % place


def check():
    """Whether the kept script and answers are those worked out, and what to say about it."""
    script = sections.build()
    for path, wanted in ((SCRIPT, script.written()), (ANSWERS, script.answered())):
        difference = first_difference(path, wanted)
        if difference is not None:
            return False, difference
    operations, size = script.operations(), len(script.written()) + len(script.answered())
    if not FEWEST_OPERATIONS <= operations <= MOST_OPERATIONS or size >= MOST_BYTES:
        return False, "desk: %d operations in %d bytes" % (operations, size)
    return True, "desk: %d lines, %d operations and %d lines that are not understood, as worked out" % (
        len(script.lines), operations, script.not_understood())


def parted_sections():
    """Each section of the kept script by its title: its lines and their kept answers."""
    return sections.parted(split_lines(kept_bytes(SCRIPT)), split_lines(kept_bytes(ANSWERS)))
