"""Sections about the desk itself: what its commands do with the spaces, and every kind of line that it does not understand."""

from desk import COMMANDS, LONGEST_LINE, MOST_NUMBERS, SPACE_COUNT, SPACE_WORDS, natural, pattern, whole
from draws import I64_MAX, I64_MIN, MASK
from gtm_model import GTM
from makers import ZEROS
from model import TABLE_LENGTH

FINE_WORDS = {natural: b"0", whole: b"-1", pattern: b"3fe0000000000000"}
# what is no number of its kind, the first number past its range among it
NOT_NUMBERS = {
    natural: (b"-1", b"-0", b"-", b"+1", b"x", b"1x", b"x1", b"0x1", b"1.0", b"1e3", b"1_0", b"1,0", b"a", b"18446744073709551616",
              b"100000000000000000000", b"99999999999999999999999", b"\xff", b"1\t", b"0\r", b"1\x00", b"#1", b"/", b":"),
    whole: (b"-", b"--1", b"+1", b"1-", b"-+1", b"x", b"-x", b"1x", b"-1x", b"0x1", b"1.0", b"9223372036854775808",
            b"-9223372036854775809", b"18446744073709551616", b"-18446744073709551616", b"99999999999999999999999", b"\xff", b"-\xb1",
            b"1\t", b"0\r", b"1\x00", b"#1", b"/", b":"),
    pattern: (b"-1", b"-", b"+1", b"g", b"A", b"3FE0000000000000", b"0x1", b"3fg", b"1.0", b"10000000000000000", b"fffffffffffffffff",
              b"\xff", b"1\t", b"0\r", b"1\x00", b"#1", b"/", b":", b"`"),
}
ENDS_IN_WORDS = {
    natural: (b"18446744073709551615", b"18446744073709551614", b"9223372036854775808"),
    whole: (b"9223372036854775807", b"-9223372036854775808", b"-0", b"-00", b"0"),
    pattern: (b"ffffffffffffffff", b"7fffffffffffffff", b"0"),
}


def fine_line(name):
    return [name] + [FINE_WORDS[kind] for kind in COMMANDS[name].kinds]


def with_word(words, place, word):
    return b" ".join(words[:place] + [word] + words[place + 1:])


def known_spaces(script):
    """Every space as it is at the start of a script."""
    for space in range(SPACE_COUNT):
        script.zeros(space)


def sum_all(script):
    for space in range(SPACE_COUNT):
        script.sum(space)


# ------------------------------------------------------------------ spaces

def lengths(script, _):
    """Numbers that are kept stay, new ones are 0, the others' spaces stay as they are."""
    known_spaces(script)
    for space in range(SPACE_COUNT):
        script.fill(space, 0, 1, MASK, space + 1)
    sum_all(script)
    for length in (312, 320, 0, 1, 0, 320, 319, 320, 50, 51, 312):
        script.length(5, length)
        script.sum(5)
        script.fill(5, 0, 3, 1000, 7)
        script.show(5, 0, min(length, 8))
    for length in (321, 322, 512, 1 << 32, (1 << 32) + 1, 1 << 63, MASK):
        script.length(5, length)
    sum_all(script)


def single_places(script, _):
    known_spaces(script)
    for length in (320, 312, 12, 1, 0):
        script.length(3, length)
        for place in (0, 1, length - 1, length, length + 1, 319, 320, 321, 1 << 32, (1 << 32) + 1, 1 << 63, MASK):
            if place >= 0:
                script.set(3, place, I64_MIN + place % 1000)
                script.fill(3, place, 0, 1000, 99)
                script.show(3, place, 1)
                script.show(3, place, 0)
        for number in (0, 1, -1, I64_MIN, I64_MAX):
            script.set(3, 0, number)
            script.sum(3)
    sum_all(script)


def drawn_numbers(script, _):
    """Steps, sizes and seeds of fill, at their ends too."""
    known_spaces(script)
    for size in (0, 1, 2, 3, 10, 1 << 32, I64_MAX - 1, I64_MAX, 1 << 63, (1 << 63) + 1, MASK):
        script.fill(1, 0, 1, size, 1)
        script.sum(1)
        script.show(1, 0, 6)
    for seed in (0, 1, 2, 1 << 32, 1 << 63, I64_MAX, MASK):
        script.fill(1, 0, 1, MASK, seed)
        script.sum(1)
        script.show(1, 307, 5)
    for step in (0, 1, 2, 50, 155, 311, 312, 313, 1 << 32, 1 << 63, MASK - 1, MASK):
        for place in (0, 1, 155, 311):
            script.zeros(1)
            script.fill(1, place, step, 1000, 12345)
            script.sum(1)
    script.comment("one after the other")
    script.zeros(1, MOST_NUMBERS)
    for seed in range(1, 21):
        script.fill(1, seed, seed, 10**seed if seed < 20 else MASK, seed * 10**11)
        script.sum(1)


def longest_answer(script, _):
    """As many numbers as a space has at most, each of the most digits."""
    script.zeros(1, MOST_NUMBERS)
    for place in range(MOST_NUMBERS):
        script.set(1, place, I64_MIN)
    script.show(1, 0, MOST_NUMBERS)
    script.sum(1)


def copies_and_shows(script, _):
    known_spaces(script)
    script.length(0, 7)
    script.fill(0, 0, 1, 100, 5)
    script.length(1, MOST_NUMBERS)
    script.fill(1, 0, 1, MASK, 6)
    for space, into in ((0, 2), (1, 3), (0, 1), (3, 0), (4, 4), (2, 9), (9, 8), (8, 8), (3, 2), (0, 4)):
        script.copy(space, into)
        script.sum(space)
        script.sum(into)
    for place, count in ((0, 0), (0, 7), (0, 8), (7, 0), (8, 0), (6, 1), (6, 2), (3, 4), (3, 5), (0, 1), (7, MASK), (1, MASK), (0, MASK),
                         (MASK, 0), (MASK, 1), (MASK, 8), (MASK, MASK), (1 << 63, 1 << 63), (1 << 32, 0), (0, 1 << 32)):
        script.show(1, place, count)
        script.show(9, place, count)
    sum_all(script)


def same_space(script, _):
    """A move into the space that it is read from, accepted and refused; a space changes only with a 0."""
    known_spaces(script)
    script.publish(0)
    for v, shift in ((0, 100), (1, -50), (2, 30), (3, 77), (4, -99), (0, 3000), (3, 10**6), (5, 0), (2, 1500),
                     (0, -100), (1, 50), (2, -30), (3, -77), (4, 99)):
        script.move(0, v, shift, 0)
        script.sum(0)
        script.show(0, 0, 16)
        script.read(0, ZEROS)


def rooms_that_are_wrong(script, _):
    """Refusals leave a space that holds other numbers as it was."""
    known_spaces(script)
    script.publish(0)
    for length in (311, 312, 313):
        script.zeros(1, length)
        script.fill(1, 0, 1, 1000, 4)
        script.move(0, 9, 5, 1)
        script.sum(1)
        script.move(1, 0, 5, 1)
        script.sum(1)
        if length != TABLE_LENGTH:
            script.publish(1)
            script.sum(1)
    script.comment("rooms of reads, some of more numbers than there is room for")
    for room in (0, 1, 5, 7, 312, 319, 320, 321, 322, 1 << 32, (1 << 32) + 6, 1 << 63, MASK):
        script.read(0, ZEROS, room)
        script.read(2, ZEROS, room)
        script.microradians(ZEROS, room)
    gtm_rooms_that_are_wrong(script.of(GTM))


def gtm_rooms_that_are_wrong(script):
    """The same for GTM tables."""
    script.comment("the same for GTM tables")
    script.published(0)
    script.zeros(2)
    for length in (64, 65, 66):
        script.zeros(1, length)
        script.fill(1, 0, 1, 1000, 4)
        script.move(0, 9, 5, 1)
        script.sum(1)
        script.move(1, 0, 5, 1)
        script.sum(1)
        if length != GTM.table_length:
            script.publish(1)
            script.sum(1)
    for room in (0, 1, 2, 4, 6, 65, 319, 320, 321, 322, 1 << 32, (1 << 32) + 3, 1 << 63, MASK):
        script.read(0, [0, 0], room)
        script.read(2, [0, 0], room)


# ------------------------------------------------------------------- lines

def words_too_few_and_too_many(script, _):
    known_spaces(script)
    for name in COMMANDS:
        words = fine_line(name)
        for count in range(1, len(words)):
            script.line(b" ".join(words[:count]))
        for more in (b"0", b"0 0", b"x", b"#", b"# 0", b"-1"):
            script.line(b" ".join(words + [more]))
        script.line(b" ".join(words))
    sum_all(script)


def every_word():
    """For each word of each command: a fine line, the word's place in it, its name and its kind."""
    return [(fine_line(name), place, word_name, kind)
            for name, command in COMMANDS.items() for place, (word_name, kind) in enumerate(zip(command.names, command.kinds), 1)]


def words_that_are_no_numbers(script, _):
    """And numbers at the ends of their range, and with zeros in front."""
    known_spaces(script)
    for words, place, _, kind in every_word():
        for word in NOT_NUMBERS[kind] + ENDS_IN_WORDS[kind] + (b"0" * 40 + FINE_WORDS[natural],):
            script.line(with_word(words, place, word))


def spaces_that_are_none(script, _):
    known_spaces(script)
    for words, place, word_name, _ in every_word():
        if word_name in SPACE_WORDS:
            for space in (b"9", b"10", b"11", b"256", b"4294967296", b"18446744073709551615", b"09", b"010"):
                script.line(with_word(words, place, space))
    sum_all(script)


def reasons_in_their_order(script, _):
    """Lines with two and three reasons; the first in the order is given."""
    known_spaces(script)
    for line in (
        b"publish 10 x", b"publish x", b"publsh 10",
        b"move 10 x 0 0", b"move 10 9 0 10", b"move 0 x 0 10", b"move 10 0 0", b"move 10 0 0 0 0",
        b"read 10 321 0 0 0 0 0", b"read 0 321 0 0 0 0 0", b"read 10 321 0 0 0 0 x", b"read 10 321 0 0 0 0",
        b"floats 10 0 0 0 0 x", b"floats 10 7ff0000000000000 0 0 0 0",
        b"microradians 321 0 0 0 0 0", b"microradians 321 1000001 0 0 0 0", b"microradians 321 0 0 0 0 x", b"microradians 321 0 0 0 0",
        b"microradian 321 0 0 0 0 0",
        b"many 10 0 321 0", b"many 0 10 321 0", b"many 0 0 321 10", b"many 0 0 321 0", b"many 10 0 x 0", b"many 0 10 321",
        b"many 0 0 321 10 0", b"mnay 10 0 321 0",
        b"gtm_publish 10 x", b"gtm_publish x", b"gtm_publsh 10",
        b"gtm_move 10 x 0 0", b"gtm_move 10 9 0 10", b"gtm_move 0 x 0 10", b"gtm_move 10 0 0", b"gtm_move 10 0 0 0 0",
        b"gtm_read 10 321 0 0", b"gtm_read 0 321 0 0", b"gtm_read 0 321 1001 0", b"gtm_read 10 321 0 x", b"gtm_read 10 321 0",
        b"gtm_read 10 321 0 0 0 0 0", b"gtm_raed 10 321 0 0",
        b"length 10 321", b"length 10 x", b"length 0 321 0",
        b"set 10 400 1", b"set 10 400 x", b"set 0 400 x", b"set 0 400 1",
        b"fill 10 400 1 1 1", b"fill 0 400 1 1 x", b"fill 0 312 1 1 1",
        b"copy 10 x", b"copy 10 10", b"copy x 10",
        b"show 10 0 313", b"show 0 313 x", b"show 0 0 313",
        b"sum 10 0", b"sum x", b"sum 10", b"smu 10",
        b"sum 10" + b" " * 250, b"sum 10" + b" " * 251, b"smu" + b" " * 253, b"smu" + b" " * 254,
    ):
        script.line(line)
    sum_all(script)


def padded(line, length, with_byte=b" "):
    return line + with_byte * (length - len(line))


def long_lines(script, _):
    """Lines of as many bytes as a line has at most, one more, and thousands."""
    known_spaces(script)
    script.publish(0)
    for length in (LONGEST_LINE - 1, LONGEST_LINE, LONGEST_LINE + 1, LONGEST_LINE + 2, 511, 512, 513, 4096, 9000):
        script.line(padded(b"sum 0", length))
        script.line(b" " * (length - 5) + b"sum 0")
        script.line(padded(b"# a comment ", length, b"."))
        script.line(b" " * length)
        script.line(padded(b"sum ", length, b"0"))
        script.line(padded(b"x", length, b"x"))
        script.line(padded(b"sum 0", length, b"\xff"))
        script.line(b"read  0  6 " + b"0" * (length - 24) + b"100 0 -0 00 0")
    script.line(b" ".join([b"sum"] + [b"0"] * 126))
    script.line(b" ".join([b"sum"] + [b"0"] * 127))
    script.line(b"set 0 0 1" + b" " * 300)
    script.line(b"set 0 0 1" + b" " * 4000 + b"\xfe")
    script.sum(0)


def lines_without_words(script, _):
    known_spaces(script)
    for line in (
        b"", b" ", b"  ", b" " * 100, b"",
        b"#", b"##", b"# ", b"#x", b"# a comment", b" # a comment", b"   #   a   comment   ", b"#sum 0", b" #sum 0 ",
        b"sum 0 # no comment", b"sum # 0",
        b"# \xff\x80\x00\x01 bytes \t of any kind \r", b"# caf\xc3\xa9", b"#\t",
        b"\t", b"\t# no comment", b"\r", b"\x00", b"\x00sum 0", b"\x0b", b"\x0c", b"\xa0", b"\xc2\xa0", b"\xef\xbb\xbfsum 0", b"\x85",
        b"\x1f", b"!", b"?", b"-", b"0",
    ):
        script.line(line)


def names_of_commands(script, _):
    """Names that are none, and words parted otherwise than by spaces."""
    known_spaces(script)
    for name in COMMANDS:
        words = fine_line(name)
        line = b" ".join(words)
        for odd in (name[:-1], name + b"s", name.upper(), name.capitalize(), name[1:], b"x" + name, name + b"\x00", name + b"\r",
                    name + b"\xff", b"?" + name, bytes([name[0] | 0x80]) + name[1:]):
            script.line(with_word(words, 0, odd))
        for parted in (line.replace(b" ", b"\t"), line.replace(b" ", b"  "), b"  " + line + b"   ", line.replace(b" ", b"\xa0"),
                       line + b"\r", line + b"\t", b"\t" + line, line.replace(b" ", b", "), line.replace(b" ", b"\x00", 1),
                       line.replace(b" ", b"", 1)):
            script.line(parted)
    for line in (b"gtm", b"gtm 0", b"gtm_", b"gtm_ 0", b"gtm publish 0", b"gtm _publish 0", b"gtm_ publish 0", b"gtmpublish 0",
                 b"gtm-publish 0", b"GTM_publish 0", b"_publish 0", b"publish_gtm 0", b"gtm_floats 0 0 0", b"gtm_microradians 3 0 0",
                 b"gtm_many 0 0 0 0", b"gtm_sum 0", b"gtm_gtm_read 0 3 0 0"):
        script.line(line)
    script.line(b"sum 00000000000000000000000000000000000000009")
    script.line(b"   sum    9")
    sum_all(script)


def every_byte(script, _):
    """Each byte behind a word, in front of a line, and in place of a digit, of a sign and of a hexadecimal digit."""
    known_spaces(script)
    for byte in range(256):
        if byte != 10:
            one = bytes([byte])
            script.line(b"sum 0" + one)
            script.line(one + b"sum 0")
            script.line(b"set 0 0 " + one + b"1")
            script.line(b"floats 0 1" + one + b" 0 0 0 0")
    script.sum(0)


def last_line(script, _):
    """The last line of all has no newline, and counts."""
    known_spaces(script)
    script.line(b"")
    script.line(b"# the next line is the last, without a newline")
    script.line(b"publish 9")


SECTIONS = (
    ("Lengths of spaces", lengths),
    ("Single places of spaces", single_places),
    ("Drawn numbers", drawn_numbers),
    ("The longest answer", longest_answer),
    ("Copies and shows", copies_and_shows),
    ("Moves into the same space", same_space),
    ("Rooms that are wrong", rooms_that_are_wrong),
    ("Words too few and too many", words_too_few_and_too_many),
    ("Words that are no numbers", words_that_are_no_numbers),
    ("Spaces that are none", spaces_that_are_none),
    ("Reasons in their order", reasons_in_their_order),
    ("Long lines", long_lines),
    ("Lines without words", lines_without_words),
    ("Names of commands", names_of_commands),
    ("Every byte", every_byte),
    ("The last line", last_line),
)
