"""The whole script: every section in its order, each with its own generator."""

from zlib import crc32

import commands
import drawn
import floats
import gtm
import listed
import many
import microradians
from draws import Generator
from script import TITLE, Script

SECTIONS = (listed.SECTIONS + drawn.SECTIONS + floats.SECTIONS + microradians.SECTIONS + many.SECTIONS + gtm.SECTIONS
            + commands.SECTIONS)


def seeded_by(title):
    """A section's generator, which stays the same when other sections come or go."""
    return Generator(crc32(title.encode()))


def build():
    script = Script()
    script.comment("Cases for the desk. Each section sets the spaces that it uses.")
    for title, section in SECTIONS:
        script.title(title)
        section(script, seeded_by(title))
    return script


def parted(lines, answers):
    """Each section's title with its lines and their answers."""
    starts = [at for at, line in enumerate(lines) if line.startswith(TITLE)] + [len(lines)]
    return {lines[start][len(TITLE):].decode(): (lines[start:end], answers[start:end]) for start, end in zip(starts, starts[1:])}
