"""Shows that the script notices: each wrong model has to differ in its section from the kept answers, and the right one in none."""

from contextlib import contextmanager
from itertools import zip_longest

import kept
import tables
import wrong_gtm
import wrong_many
from desk import SPACE_COUNT, Desk
from wrong_models import DESKS, MODELS, Wrong, wrong_signs, wrong_signs_of_rows


@contextmanager
def replaced(changes):
    """Each holder's attribute replaced, and nothing remembered from before, until the end of the block."""
    before = [(holder, name, getattr(holder, name)) for holder, name, _ in changes]
    try:
        for holder, name, replacement in changes:
            setattr(holder, name, replacement)
        tables.forget()
        yield
    finally:
        for holder, name, right in before:
            setattr(holder, name, right)
        tables.forget()


def littered_desk():
    """Spaces of odd lengths and numbers: a section that does not set what it uses answers otherwise."""
    desk = Desk()
    desk.spaces = [(7 - space,) * (31 * space % 300) for space in range(SPACE_COUNT)]
    return desk


def first_difference(section, command):
    """The first line with the command (any where it is None) whose answer is another than the kept one, or None."""
    desk = littered_desk()
    for line, kept_answer in zip_longest(*section):
        answer = desk.answer(line)
        if answer != kept_answer and command in (None, line.split(b" ")[0].decode("latin-1")):
            return line
    return None


def is_noticed(model, sections):
    with replaced(model.changes):
        return first_difference(sections[model.section], model.command) is not None


def right_model(title):
    """The model as it is, which no line of a section may notice."""
    return Wrong("the right model in " + title, title, None)


def check():
    """Whether every wrong model is noticed and the right one is not, and what to say about it."""
    sections = kept.parted_sections()
    models, desks = MODELS + wrong_many.MODELS + wrong_gtm.MODELS, DESKS + wrong_many.DESKS
    signs = wrong_signs() + wrong_signs_of_rows() + wrong_gtm.wrong_signs()
    faults = ["noticed: " + model.name for model in map(right_model, sections) if is_noticed(model, sections)]
    faults += ["not noticed: " + model.name for model in models + desks + signs if not is_noticed(model, sections)]
    if faults:
        return False, "\n".join(faults)
    return True, "%d wrong models, %d wrong desks and %d wrong signs are noticed, the right model in none of %d sections" % (
        len(models), len(desks), len(signs), len(sections))
