"""The program desk: ten spaces for tables, and one answer line for each line of a script.

Commands, answers and the reasons for which a line is not understood are those of docs/DESK.md.
A list that is lent to an operation has nothing around it, so ` outside` is never said here.
"""

import re
from functools import lru_cache

import door
import fixed_point
import tables
from draws import I64_MAX, I64_MIN, MASK
from gtm_model import GTM
from model import CUMULUS, TABLE_LENGTH

SPACE_COUNT = 10
MOST_NUMBERS = 320
LONGEST_LINE = 256
PATTERN = 1234567890123456789

TOO_LONG = b"? a line has at most 256 bytes"
NO_COMMAND = b"? no such command"
NO_SPACE = b"? the spaces are 0 to 9"
NO_ROOM = b"? there is room for 320 numbers"
NO_PLACE = b"? no such place"


# ----------------------------------------------------------------------- words

# Written for bytes: the digit class then means the ten ASCII digits only.
DIGITS = re.compile(rb"[0-9]+")
SIGNED_DIGITS = re.compile(rb"-?[0-9]+")
HEX_DIGITS = re.compile(rb"[0-9a-f]+")


def natural(word):
    """The number of a word, or None where it is not one; so the next two."""
    return number_within(word, DIGITS, 10, 0, MASK)


def whole(word):
    return number_within(word, SIGNED_DIGITS, 10, I64_MIN, I64_MAX)


def pattern(word):
    return number_within(word, HEX_DIGITS, 16, 0, MASK)


def number_within(word, form, base, lowest, highest):
    if not form.fullmatch(word):
        return None
    number = int(word, base)
    return number if lowest <= number <= highest else None


def words_of(line):
    return [word for word in line.split(b" ") if word]


# ---------------------------------------------------------- draws and checksums

def stepped(s):
    s ^= s << 13 & MASK
    s ^= s >> 7
    return s ^ s << 17 & MASK


def drawn_number(s, size):
    magnitude = s % (1 << 63) % size if size else 0
    return -magnitude if s >= 1 << 63 else magnitude


@lru_cache(maxsize=64)
def checksum(numbers):
    s = 1
    for number in numbers:
        s = stepped(s) + number & MASK
    return s


def filled(numbers, place, step, size, seed):
    changed, s = list(numbers), seed
    places = range(place, len(numbers), step) if step else [place]
    for at in places:
        s = stepped(s)
        changed[at] = drawn_number(s, size)
    return tuple(changed)


# ------------------------------------------------------------------------ desk

def lent(length):
    """A room that is filled with a pattern, so that writing shows."""
    return [PATTERN + place for place in range(length)]


def refusal(number, *rooms):
    """What is said after a refusal of an operation that was lent these rooms."""
    return "%d %s" % (number, "untouched" if all(room == lent(len(room)) for room in rooms) else "touched")


def spaced(numbers):
    return " ".join(map(str, numbers))


def in_hexadecimal(patterns):
    return " ".join("%x" % bits for bits in patterns)


class Desk:
    def __init__(self):
        self.spaces = [(0,) * TABLE_LENGTH] * SPACE_COUNT

    # operations

    def write(self, into, operation, *others):
        """Lend a room as long as the space, which becomes what was written with a 0; others are rooms that were lent besides."""
        room = lent(len(self.spaces[into]))
        number = operation(room)
        if number != tables.DONE:
            return refusal(number, room, *others)
        self.spaces[into] = tuple(room)
        return "0 wrote %d sum %d" % (len(room), checksum(self.spaces[into]))

    def published(self, shape, into):
        return self.write(into, lambda room: tables.publish(shape, room))

    def moved(self, shape, space, variable, shift, into):
        table = self.spaces[space]
        return self.write(into, lambda room: tables.move(shape, table, variable, shift, room))

    def values(self, length, operation):
        """Lend a room of the given length, and tell what was written with a 0."""
        if length > MOST_NUMBERS:
            return NO_ROOM
        room = lent(length)
        number = operation(room)
        return refusal(number, room) if number != tables.DONE else spaced([number] + room)

    def values_read(self, shape, space, length, readings):
        return self.values(length, lambda room: tables.read(shape, self.spaces[space], readings, room))

    def publish(self, into):
        return self.published(CUMULUS, into)

    def move(self, space, variable, shift, into):
        return self.moved(CUMULUS, space, variable, shift, into)

    def read(self, space, length, *readings):
        return self.values_read(CUMULUS, space, length, readings)

    def floats(self, space, *reading_bits):
        number, six, handed_back = door.read_floats(self.spaces[space], reading_bits)
        return "%d %s" % (number, in_hexadecimal([handed_back] + six))

    def microradians(self, length, *readings):
        return self.values(length, lambda room: fixed_point.read(readings, room))

    def many(self, space, states, count, into):
        """What was written, and with a 0 the number of each state behind it."""
        if count > MOST_NUMBERS:
            return NO_ROOM
        table, readings, numbers = self.spaces[space], self.spaces[states], lent(count)
        answer = self.write(into, lambda room: tables.read_many(CUMULUS, table, readings, numbers, room), numbers)
        return spaced([answer, "gave"] + numbers) if answer.startswith("0 ") else answer

    def gtm_publish(self, into):
        return self.published(GTM, into)

    def gtm_move(self, space, variable, shift, into):
        return self.moved(GTM, space, variable, shift, into)

    def gtm_read(self, space, length, *readings):
        return self.values_read(GTM, space, length, readings)

    # spaces

    def length(self, space, count):
        if count > MOST_NUMBERS:
            return NO_ROOM
        kept = self.spaces[space][:count]
        self.spaces[space] = kept + (0,) * (count - len(kept))
        return "ok"

    def set(self, space, place, number):
        numbers = self.spaces[space]
        if place >= len(numbers):
            return NO_PLACE
        self.spaces[space] = numbers[:place] + (number,) + numbers[place + 1:]
        return "ok"

    def fill(self, space, place, step, size, seed):
        if place >= len(self.spaces[space]):
            return NO_PLACE
        self.spaces[space] = filled(self.spaces[space], place, step, size, seed)
        return "ok"

    def copy(self, space, into):
        self.spaces[into] = self.spaces[space]
        return "ok"

    def show(self, space, place, count):
        if place + count > len(self.spaces[space]):
            return NO_PLACE
        return spaced(self.spaces[space][place:place + count])

    def sum(self, space):
        return "%d sum %d" % (len(self.spaces[space]), checksum(self.spaces[space]))

    # lines

    def answer(self, line):
        """The answer to one line; both without their newlines."""
        if len(line) > LONGEST_LINE:
            return TOO_LONG
        words = words_of(line)
        if not words:
            return b""
        if words[0].startswith(b"#"):
            return line
        if words[0] not in COMMANDS:
            return NO_COMMAND
        return self.obey(COMMANDS[words[0]], words[1:])

    def obey(self, command, words):
        values = command.values(words)
        if values is None:
            return command.usage
        if any(value >= SPACE_COUNT for value in command.spaces_in(values)):
            return NO_SPACE
        answer = getattr(self, command.name)(*values)
        return answer if isinstance(answer, bytes) else answer.encode()


# what words stand for spaces
SPACE_WORDS = ("SPACE", "STATES", "INTO")


class Command:
    """One command: its name, which is that of what runs it, and its words with what each has to be."""

    def __init__(self, name, names, readings=whole):
        self.name = name
        self.names = names.split()
        kinds = {"SHIFT": whole, "NUMBER": whole}
        kinds.update(dict.fromkeys(("ALPHA", "BETA", "XI", "ETA", "ZETA"), readings))
        self.kinds = [kinds.get(name, natural) for name in self.names]
        self.usage = ("? use: %s %s" % (name, names)).encode()

    def values(self, words):
        """The numbers of the words, or None where they do not fit."""
        if len(words) != len(self.kinds):
            return None
        values = [kind(word) for kind, word in zip(self.kinds, words)]
        return None if None in values else values

    def spaces_in(self, values):
        return [value for name, value in zip(self.names, values) if name in SPACE_WORDS]


COMMANDS = {command.name.encode(): command for command in (
    Command("publish", "INTO"),
    Command("move", "SPACE VARIABLE SHIFT INTO"),
    Command("read", "SPACE ROOM ALPHA BETA XI ETA ZETA"),
    Command("floats", "SPACE ALPHA BETA XI ETA ZETA", pattern),
    Command("microradians", "ROOM ALPHA BETA XI ETA ZETA"),
    Command("many", "SPACE STATES COUNT INTO"),
    Command("gtm_publish", "INTO"),
    Command("gtm_move", "SPACE VARIABLE SHIFT INTO"),
    Command("gtm_read", "SPACE ROOM ALPHA ETA"),
    Command("length", "SPACE COUNT"),
    Command("set", "SPACE PLACE NUMBER"),
    Command("fill", "SPACE PLACE STEP SIZE SEED"),
    Command("copy", "SPACE INTO"),
    Command("show", "SPACE PLACE COUNT"),
    Command("sum", "SPACE"),
)}


def split_lines(data):
    """Lines without their newline; what follows the last newline counts if any."""
    lines = data.split(b"\n")
    if lines[-1] == b"":
        lines.pop()
    return lines


def run(data):
    desk = Desk()
    return b"".join(desk.answer(line) + b"\n" for line in split_lines(data))
