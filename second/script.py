"""A script for the desk, answered while it is written.

A line that is added is answered at once by this program's own desk, so that what follows can look at the spaces.
A section begins with a title, a line that starts with `## `, and sets every space that it uses. The operations are those of one
shape, and of another in the same script told by of().
"""

from copy import copy

from desk import Desk
from gtm_model import GTM
from model import CUMULUS, READ_LENGTH

TITLE = b"## "
OPERATIONS = ("publish", "move", "read", "floats", "microradians", "many", "gtm_publish", "gtm_move", "gtm_read")
# what the names of a shape's operations begin with
PREFIXES = {CUMULUS: "", GTM: "gtm_"}


class Script:
    def __init__(self):
        self.shape = CUMULUS
        self.desk = Desk()
        self.lines = []
        self.answers = []

    def of(self, shape):
        """The same script, with the operations and tables of another shape."""
        other = copy(self)
        other.shape = shape
        return other

    def line(self, line):
        """Add a line of any bytes, and give its answer."""
        answer = self.desk.answer(line)
        self.lines.append(line)
        self.answers.append(answer)
        return answer

    def title(self, text):
        self.line(TITLE + text.encode())

    def comment(self, text):
        self.line(b"# " + text.encode())

    def tell(self, *words):
        return self.line(" ".join(map(str, words)).encode())

    def table(self, space):
        return self.desk.spaces[space]

    # operations

    def operate(self, name, *words):
        return self.tell(PREFIXES[self.shape] + name, *words)

    def publish(self, into):
        self.operate("publish", into)

    def move(self, space, variable, shift, into):
        """Whether the move was accepted."""
        return self.operate("move", space, variable, shift, into).startswith(b"0 ")

    def read(self, space, readings, room=None):
        self.operate("read", space, self.shape.read_length if room is None else room, *readings)

    def floats(self, space, patterns):
        self.tell("floats", space, *("%x" % bits for bits in patterns))

    def microradians(self, readings, room=READ_LENGTH):
        self.tell("microradians", room, *readings)

    def many(self, space, states, count, into):
        self.tell("many", space, states, count, into)

    # spaces

    def length(self, space, count):
        self.tell("length", space, count)

    def set(self, space, place, number):
        self.tell("set", space, place, number)

    def fill(self, space, place, step, size, seed):
        self.tell("fill", space, place, step, size, seed)

    def copy(self, space, into):
        self.tell("copy", space, into)

    def show(self, space, place, count):
        self.tell("show", space, place, count)

    def sum(self, space):
        self.tell("sum", space)

    def zeros(self, space, length=None):
        """A space of zeros; the length of 0 in between clears what stood there."""
        length = self.shape.table_length if length is None else length
        self.length(space, 0)
        if length:
            self.length(space, length)

    def limits(self, space, limits):
        """A table of zeros with the given limits."""
        self.zeros(space)
        for place, limit in enumerate(limits):
            if limit:
                self.set(space, place, limit)

    def published(self, space):
        """The published table, whatever length the space had."""
        self.length(space, self.shape.table_length)
        self.publish(space)

    # the whole

    def operations(self):
        """How many lines were understood as operations."""
        return sum(1 for line, answer in zip(self.lines, self.answers)
                   if line.lstrip(b" ").split(b" ")[0].decode("latin-1") in OPERATIONS and not answer.startswith(b"?"))

    def not_understood(self):
        return sum(1 for answer in self.answers if answer.startswith(b"?"))

    def written(self):
        """The script; its last line has no newline."""
        return b"\n".join(self.lines)

    def answered(self):
        return b"".join(answer + b"\n" for answer in self.answers)
