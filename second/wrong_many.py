"""Wrong models of many states: what each gets wrong, and where the script has to notice it."""

import desk
import tables
from model import CUMULUS, READ_LENGTH
from shapes import ALPHA
from tables import DONE, LIMITS_NOT_GOOD, TOO_HEAVY, WRONG_OUTPUT_LENGTH, WRONG_TABLE_LENGTH
from wrong_models import Wrong, changed_after_refusal, in_tables, low_half, right_read, with_test

VARIABLES = CUMULUS.variable_count
FIT = "Wrong lengths of many states"
REFUSED = "States refused among others"
DEFECTS = "Mixed defects of many states"

right_answer_at = tables.answer_at
right_answer_states = tables.answer_states
right_read_many = tables.read_many
right_read_or_zeros = tables.read_or_zeros
right_state_at = tables.state_at


def wrong(name, section, *changes):
    return Wrong(name, section, "many", *changes)


def answering(answer_states):
    return in_tables("answer_states", answer_states)


def reading(read_or_zeros):
    return in_tables("read_or_zeros", read_or_zeros)


# -------------------------------------------------------------- refused states

def six_left(shape, table, states, numbers, output):
    """The room of a refused state's six stays as it was lent."""
    before = list(output)
    right_answer_states(shape, table, states, numbers, output)
    for k, number in enumerate(numbers):
        if number:
            output[right_answer_at(shape, k)] = before[right_answer_at(shape, k)]


def six_of_the_state_before(shape, table, states, numbers, output):
    """One room for the six of all states, which a refused one does not change."""
    six = [0] * shape.read_length
    for k in range(len(numbers)):
        numbers[k] = right_read(shape, table, right_state_at(shape, states, k), six)
        output[right_answer_at(shape, k)] = six


def six_all_the_same(shape, table, readings):
    """The six of a refused state worked out in spite of it."""
    number, six = right_read_or_zeros(shape, table, readings)
    return number, tables.all_coefficients(shape, table, readings) if number else six


def six_of_minus_one(shape, table, readings):
    number, six = right_read_or_zeros(shape, table, readings)
    return number, [-1] * shape.read_length if number else six


def only_the_first_is_zero(shape, table, readings):
    """Of a refused state's six only the first is made zero."""
    number, six = right_read_or_zeros(shape, table, readings)
    return number, [0] + [number] * (shape.read_length - 1) if number else six


def first_refused(numbers):
    return next((k for k, number in enumerate(numbers) if number), len(numbers))


def rest_left(more):
    """A refused state is the last that is answered; with `more` even that is left out."""
    def answer_states(shape, table, states, numbers, output):
        room, six = list(numbers), list(output)
        right_answer_states(shape, table, states, room, six)
        end = min(first_refused(room) + 1 - more, len(room))
        numbers[:end] = room[:end]
        output[:shape.read_length * end] = six[:shape.read_length * end]
    return answer_states


def rest_zeros(shape, table, states, numbers, output):
    """All that follow a refused state are given its number and zeros."""
    right_answer_states(shape, table, states, numbers, output)
    at = first_refused(numbers)
    for k in range(at, len(numbers)):
        numbers[k] = numbers[at]
        output[right_answer_at(shape, k)] = [0] * shape.read_length


def state_gives_the_call(write):
    """The call is refused by the number of its first refused state, after writing or before."""
    def read_many(shape, table, states, numbers, output):
        room, six = list(numbers), list(output)
        number = right_read_many(shape, table, states, room, six)
        at = first_refused(room) if number == DONE else len(room)
        if number == DONE and (write or at == len(room)):
            numbers[:], output[:] = room, six
        return room[at] if at < len(room) else number
    return read_many


def refused_counted(shape, table, states, numbers, output):
    """The call gives back how many states were refused."""
    number = right_read_many(shape, table, states, numbers, output)
    return sum(1 for each in numbers if each) if number == DONE else number


def only_that_it_is_refused(shape, table, readings):
    number, six = right_read_or_zeros(shape, table, readings)
    return min(number, 1), six


def last_number_for_all(shape, table, states, numbers, output):
    right_answer_states(shape, table, states, numbers, output)
    numbers[:] = [max(numbers, default=0)] * len(numbers)


# ---------------------------------------------------------------------- places

def at_or_last(states, start):
    """Five readings from a place on, or the last five."""
    start = max(0, min(start, len(states) - VARIABLES))
    return states[start:start + VARIABLES]


def states_by(step):
    return in_tables("state_at", lambda shape, states, k: at_or_last(states, step * k))


def states_by_variable(shape, states, k):
    """All alphas first, then all betas, and so on."""
    return [states[k + v * (len(states) // VARIABLES)] for v in range(VARIABLES)]


def states_backwards(shape, states, k):
    return right_state_at(shape, states, len(states) // VARIABLES - 1 - k)


def answers_by(step):
    """The six of each state a step behind those before, as far as there is room."""
    def answer_states(shape, table, states, numbers, output):
        for k in range(len(numbers)):
            numbers[k], six = right_read_or_zeros(shape, table, right_state_at(shape, states, k))
            for at, answer in enumerate(six, step * k):
                if at < len(output):
                    output[at] = answer
    return answer_states


def answers_by_coefficient(shape, table, states, numbers, output):
    """The first coefficients of all states, then the second ones."""
    right_answer_states(shape, table, states, numbers, output)
    output[:] = [answer for block in range(shape.read_length) for answer in output[block::shape.read_length]]


def all_but(first, last):
    """Some states at the ends are left out."""
    def answer_states(shape, table, states, numbers, output):
        room, six = list(numbers), list(output)
        right_answer_states(shape, table, states, room, six)
        for k in range(first, len(numbers) - last):
            numbers[k] = room[k]
            output[right_answer_at(shape, k)] = six[right_answer_at(shape, k)]
    return answer_states


def numbers_left(shape, table, states, numbers, output):
    right_answer_states(shape, table, states, list(numbers), output)


def piece_of_the_first(shape, table, states, numbers, output):
    """Every state is read in the piece of the first."""
    right_answer_states(shape, table, states, numbers, output)
    for k, number in enumerate(numbers):
        if number == DONE:
            piece = tables.piece_at(table, states[ALPHA])
            output[right_answer_at(shape, k)] = tables.sums(shape, table, piece, right_state_at(shape, states, k))


def readings_cut(shape, table, readings):
    return right_read_or_zeros(shape, table, [low_half(reading) for reading in readings])


def at_most_in_states(most):
    """So many states are answered at most."""
    def answer_states(shape, table, states, numbers, output):
        room, six = list(numbers), list(output)
        right_answer_states(shape, table, states, room, six)
        numbers[:most] = room[:most]
        output[:shape.read_length * most] = six[:shape.read_length * most]
    return answer_states


# --------------------------------------------------------------------- lengths

def as_far_as_there_is_room(count_of, fits):
    """Lengths looked at otherwise: so many states are answered, zeros read past the end of the states, and nothing written past a room."""
    def read_many(shape, table, states, numbers, output):
        tests = tables.table_tests(shape, table)
        tests[WRONG_OUTPUT_LENGTH] = lambda: not fits(len(states), len(numbers), len(output))
        number = tables.first_that_holds(tables.MANY_ORDER, tests)
        if number == DONE:
            count = count_of(len(states), len(numbers), len(output))
            room, six = desk.lent(count), desk.lent(READ_LENGTH * count)
            right_answer_states(shape, table, tuple(states) + (0,) * (VARIABLES * count), room, six)
            numbers[:count] = room[:len(numbers)]
            output[:READ_LENGTH * count] = six[:len(output)]
        return number
    return in_tables("read_many", read_many)


def by_numbers(fits):
    return as_far_as_there_is_room(lambda states, numbers, output: numbers, fits)


def by_states(fits):
    return as_far_as_there_is_room(lambda states, numbers, output: states // VARIABLES, fits)


def by_output(fits):
    return as_far_as_there_is_room(lambda states, numbers, output: output // READ_LENGTH, fits)


def fewest(states, numbers, output):
    return min(states // VARIABLES, numbers, output // READ_LENGTH)


# -------------------------------------------------------------------- refusals

def in_order(*order):
    return in_tables("MANY_ORDER", order)


def table_for_each_state(shape, table, states, numbers, output):
    """An unsound table refuses each state and not the call."""
    number = right_read_many(shape, table, states, numbers, output)
    if number in (LIMITS_NOT_GOOD, TOO_HEAVY):
        numbers[:], output[:] = [number] * len(numbers), [0] * len(output)
        return DONE
    return number


def written_on_refusal(of_number, of_output):
    """Zeros are written before the table is looked at."""
    def read_many(shape, table, states, numbers, output):
        number = right_read_many(shape, table, states, numbers, output)
        if number in (LIMITS_NOT_GOOD, TOO_HEAVY):
            if of_number:
                numbers[:] = [0] * len(numbers)
            if of_output:
                output[:] = [0] * len(output)
        return number
    return read_many


def nothing_to_look_at(shape, table, states, numbers, output):
    """With no state the table is not looked at."""
    fine = len(table) == shape.table_length and tables.lengths_fit(shape, states, numbers, output)
    return DONE if fine and not numbers else right_read_many(shape, table, states, numbers, output)


def none_refused(shape, table, states, numbers, output):
    return right_read_many(shape, table, states, numbers, output) if numbers else WRONG_OUTPUT_LENGTH


def weight_not_looked_at(shape, table, states, numbers, output):
    """A read of many states that takes every weight."""
    number = right_read_many(shape, table, states, numbers, output)
    if number != TOO_HEAVY:
        return number
    for k in range(len(numbers)):
        readings = right_state_at(shape, states, k)
        outside = [of for v, of in enumerate(shape.reading_outside) if tables.is_outside(shape, table, v, readings[v])]
        numbers[k] = outside[0] if outside else DONE
        output[right_answer_at(shape, k)] = [0] * READ_LENGTH if outside else tables.all_coefficients(shape, table, readings)
    return DONE


MODELS = (
    # refused states
    wrong("a refused state's six left as they were", REFUSED, answering(six_left)),
    wrong("a refused state's six those of the state before", REFUSED, answering(six_of_the_state_before)),
    wrong("a refused state's six worked out in spite of it", REFUSED, reading(six_all_the_same)),
    wrong("a refused state's six of minus one", REFUSED, reading(six_of_minus_one)),
    wrong("of a refused state's six only the first zero", REFUSED, reading(only_the_first_is_zero)),
    wrong("a refused state the last that is answered", REFUSED, answering(rest_left(0))),
    wrong("a refused state and the rest left out", REFUSED, answering(rest_left(1))),
    wrong("a refused state's number and zeros for the rest", REFUSED, answering(rest_zeros)),
    wrong("the call refused by its first refused state", REFUSED, in_tables("read_many", state_gives_the_call(False))),
    wrong("the first refused state's number given back after all is written", REFUSED, in_tables("read_many", state_gives_the_call(True))),
    wrong("the number of refused states given back", REFUSED, in_tables("read_many", refused_counted)),
    wrong("1 for every refused state", REFUSED, reading(only_that_it_is_refused)),
    wrong("one number for all states", REFUSED, answering(last_number_for_all)),
    wrong("the last reading of a state outside given", REFUSED,
          in_tables("readings_order", lambda shape: shape.reading_outside[::-1])),
    wrong("a refused state the last answered of as many as fit", "States refused among as many as fit", answering(rest_left(0))),
    # which state, and where its answers stand
    wrong("states every six numbers", REFUSED, states_by(6)),
    wrong("states every four numbers", REFUSED, states_by(4)),
    wrong("the first state for all", REFUSED, states_by(0)),
    wrong("states by variable", REFUSED, in_tables("state_at", states_by_variable)),
    wrong("states from the last one", REFUSED, in_tables("state_at", states_backwards)),
    wrong("answers every five numbers", REFUSED, answering(answers_by(5))),
    wrong("answers every seven numbers", REFUSED, answering(answers_by(7))),
    wrong("answers by coefficient", REFUSED, answering(answers_by_coefficient)),
    wrong("the last state left out", "Many states, none to as many as fit", answering(all_but(0, 1))),
    wrong("the first state left out", "Many states, none to as many as fit", answering(all_but(1, 0))),
    wrong("the numbers of states not written", "Many states, none to as many as fit", answering(numbers_left)),
    wrong("52 states at most", "Many states, none to as many as fit", answering(at_most_in_states(52))),
    wrong("every state in the piece of the first", "Many states in either piece", answering(piece_of_the_first)),
    wrong("a state's reading cut to 32 bits", "Many states at the ends of 64 bits", reading(readings_cut)),
    # lengths
    wrong("the length of the states not looked at", FIT, by_numbers(lambda states, numbers, output: output == 6 * numbers)),
    wrong("the length of the answers not looked at", FIT, by_numbers(lambda states, numbers, output: states == 5 * numbers)),
    wrong("the number of states not looked at", FIT, by_states(lambda states, numbers, output: 6 * states == 5 * output)),
    wrong("only the states counted", FIT, by_states(lambda states, numbers, output: states % 5 == 0)),
    wrong("only the answers counted", FIT, by_output(lambda states, numbers, output: output % 6 == 0)),
    wrong("states with a part of one more taken", FIT,
          by_numbers(lambda states, numbers, output: states // 5 == numbers and output == 6 * numbers)),
    wrong("answers with a part of one more taken", FIT,
          by_numbers(lambda states, numbers, output: states == 5 * numbers and output // 6 == numbers)),
    wrong("states with a part of one less taken", FIT,
          by_numbers(lambda states, numbers, output: -(-states // 5) == numbers and output == 6 * numbers)),
    wrong("longer states taken", FIT, by_numbers(lambda states, numbers, output: states >= 5 * numbers and output == 6 * numbers)),
    wrong("longer answers taken", FIT, by_numbers(lambda states, numbers, output: states == 5 * numbers and output >= 6 * numbers)),
    wrong("as many states as all lengths have room for", FIT,
          as_far_as_there_is_room(fewest, lambda states, numbers, output: True)),
    wrong("the lengths of states and answers exchanged", FIT,
          by_numbers(lambda states, numbers, output: states == 6 * numbers and output == 5 * numbers)),
    wrong("the sum of all lengths looked at", FIT, by_numbers(lambda states, numbers, output: states + output == 11 * numbers)),
    wrong("no state refused", FIT, in_tables("read_many", none_refused)),
    wrong("a longer table taken for many states", "Lengths of tables of many states",
          with_test(WRONG_TABLE_LENGTH, lambda table: len(table) < CUMULUS.table_length)),
    # the refusals of the call
    wrong("many states' lengths before the table's", DEFECTS, in_order(2, 1, 3, 4)),
    wrong("many states' lengths behind the limits", DEFECTS, in_order(1, 3, 2, 4)),
    wrong("many states' lengths behind the weights", DEFECTS, in_order(1, 3, 4, 2)),
    wrong("many states' weights before the limits", DEFECTS, in_order(1, 2, 4, 3)),
    wrong("the table's number given to each state", "Unsound tables of many states", in_tables("read_many", table_for_each_state)),
    wrong("an unsound table that leaves numbers behind", "Unsound tables of many states",
          in_tables("read_many", written_on_refusal(True, False))),
    wrong("an unsound table that leaves answers behind", "Unsound tables of many states",
          in_tables("read_many", written_on_refusal(False, True))),
    wrong("the table not looked at where there is no state", "Unsound tables of many states",
          in_tables("read_many", nothing_to_look_at)),
    wrong("the weights of many states' table not looked at", "Unsound tables of many states",
          in_tables("read_many", weight_not_looked_at)),
)


# ---------------------------------------------------------------------- desks

def answered_into_the_table(self, space, states, count, into):
    """The answers are written where the table stands, whatever the line says."""
    return right_many(self, space, states, count, space)


def states_from_the_table(self, space, states, count, into):
    return right_many(self, space, space, count, into)


def refused_alone_told(self, space, states, count, into):
    """Behind `gave` only the numbers of refused states stand."""
    answer = right_many(self, space, states, count, into)
    if not answer.startswith("0 "):
        return answer
    told, _, numbers = answer.partition(" gave")
    return told + " gave" + "".join(" " + number for number in numbers.split() if number != "0")


right_many = desk.Desk.many
DESKS = (
    wrong("many states answered into the table's space", "Many states in the same spaces", (desk.Desk, "many", answered_into_the_table)),
    wrong("many states taken from the table's space", "Many states in the same spaces", (desk.Desk, "many", states_from_the_table)),
    wrong("only the numbers of refused states told", REFUSED, (desk.Desk, "many", refused_alone_told)),
    Wrong("a space changed by a refusal of many states", FIT, "sum", (desk.Desk, "write", changed_after_refusal)),
    wrong("room for 321 numbers of many states", "Counts of many states", (desk, "MOST_NUMBERS", 321)),
)
