"""The line program: bytes of five-number lines in, bytes of answer lines out."""

import re

from desk import split_lines
from model import CUMULUS, PUBLISHED_TABLE, READ_LENGTH
from tables import read

MALFORMED = 31

# Written for bytes: the digit class then means the ten ASCII digits only.
NUMBER = rb"-?[0-9]{1,4}"
LINE = re.compile(NUMBER + rb"(?: " + NUMBER + rb"){4}")


def answer_line(line):
    answers = [0] * READ_LENGTH
    if LINE.fullmatch(line):
        number = read(CUMULUS, PUBLISHED_TABLE, [int(part) for part in line.split(b" ")], answers)
    else:
        number = MALFORMED
    return b" ".join(b"%d" % value for value in [number] + answers) + b"\n"


def run(data):
    return b"".join(answer_line(line) for line in split_lines(data))
