"""A test input for the line program: good lines at every edge, and bad ones."""

from draws import Generator
from makers import ZEROS, corners, inside_state, spoil_state, with_reading
from model import CUMULUS, HIGHEST, LOWEST, PUBLISHED_TABLE


def number_line(readings):
    return b" ".join(b"%d" % reading for reading in readings)


def edge_lines():
    t = PUBLISHED_TABLE
    lines = [number_line(ZEROS)]
    for v in range(5):
        for value in (t[LOWEST[v]] - 1, t[LOWEST[v]], -1, 1, t[HIGHEST[v]],
                      t[HIGHEST[v]] + 1, -9999, 9999):
            lines.append(number_line(with_reading(v, value)))
    for alpha in (312, 313, 314, 315):
        lines.append(number_line(with_reading(0, alpha)))
    lines += map(number_line, corners(CUMULUS, t))
    lines.append(number_line([1001, 501, 201, 401, 501]))
    lines.append(number_line([0, 0, -201, 0, 501]))
    return lines


def unusual_but_good_lines():
    return [
        b"-0 -0 -0 -0 -0", b"-0000 0000 -000 00 -00", b"0100 007 -005 0003 -0002",
        b"1000 0500 0200 0400 0500", b"-0150 -500 -200 -400 -0500",
        b"0313 0 0 0 0", b"0314 0 0 0 0", b"-0151 0 0 0 0",
    ]


def malformed_lines():
    good = b"1 2 3 4 5"
    lines = [
        b"", b" ", b"-", b"0", b"1 2", b"1 2 3", b"1 2 3 4", b"1 2 3 4 5 6",
        b"1 2 3 4 5 6 7", b"12345",
        b" " + good, good + b" ", b"  " + good, good + b"  ", b"1  2 3 4 5",
        b"1 2 3 4  5", b"1 2  3 4 5", b"1  2 3 4", b"1 2 3 4 ", b" 2 3 4 5",
        b"1\t2\t3\t4\t5", b"1 2 3\t4 5", b"\t" + good, good + b"\t",
        b"+1 2 3 4 5", b"1 2 3 4 +5", b"1 2 +0 4 5", b"1 2 -+3 4 5",
        b"10000 0 0 0 0", b"-10000 0 0 0 0", b"00000 0 0 0 0", b"-00000 0 0 0 0",
        b"0 0 0 0 00001", b"0 0 0 0 -00001", b"0 0 12345 0 0",
        b"9223372036854775808 0 0 0 0", b"-9223372036854775809 0 0 0 0",
        b"- 0 0 0 0", b"0 - 0 0 0", b"0 0 0 0 -", b"- 1 2 3 4 5", b"- - - - -",
        b"--1 2 3 4 5", b"1- 2 3 4 5", b"1 2-3 4 5", b"1-2 3 4 5", b"1 2 3 4 5-",
        b"-1-1 2 3 4 5",
        good + b"\r", b"\r", b"1 2 3\r4 5", b"\r" + good,
        good + b"\x0b", good + b"\x0c", b"1\x0b2 3 4 5", b"1\x0c2 3 4 5",
        b"\x00", good + b"\x00", b"\x00" + good, b"1\x002 3 4 5", b"1 2 3 4 \x00",
        b"1,2,3,4,5", b"1, 2, 3, 4, 5", b"1;2;3;4;5", b"1.0 2 3 4 5", b"1e2 0 0 0 0",
        b"0x1 0 0 0 0", b"1_0 0 0 0 0", b"a b c d e", b"1 2 3 4 x", b"NaN 0 0 0 0",
        b"inf 0 0 0 0", b"# comment", b"'1' 2 3 4 5", b"1 2 3 4 5#",
        b"/ 0 0 0 0", b": 0 0 0 0", b"0 0 0 0 /", b"0 0 0 0 :",
        b". 0 0 0 0", b"0 0 0 0 !", b"0!0 0 0 0", b"0\x1f0 0 0 0",
        "\u0661 2 3 4 5".encode(), "\uff11 2 3 4 5".encode(),
        "\u22121 2 3 4 5".encode(), "1\u00a02 3 4 5".encode(),
        "1\u20032 3 4 5".encode(), "1\u20282 3 4 5".encode(),
        "\ufeff1 2 3 4 5".encode(), "1\u00852 3 4 5".encode(),
        b"\xff 2 3 4 5", b"1 2 3 4 \xc3\x28", b"1\xa02 3 4 5", b"1 2 3 4 5\x85",
        b"\xb1 2 3 4 5", b"1 2 3 4 \xb5", b"\x80\x81\xfe\xff", b"1 2 3 4 5\xc3",
        b"0" * 100000 + b" 0 0 0 0", b"0 0 0 0 " + b"1" * 100000,
        good + b" " * 70000, b" " * 65536, b"-" * 70000, b"1 " * 50000,
        good + b" 0" * 40000, b"\xff" * 70000, b"\x00" * 70000,
    ]
    # every single byte after a good line, and in place of the first blank
    for byte in range(256):
        if byte != 10:
            lines.append(good + bytes([byte]))
            lines.append(b"1" + bytes([byte]) + b"2 3 4 5")
    return lines


def generated_lines():
    gen = Generator(11)
    lines = []
    for turn in range(300):
        state = inside_state(gen, CUMULUS, PUBLISHED_TABLE)
        if turn % 4 == 3:
            state = spoil_state(gen, CUMULUS, PUBLISHED_TABLE, state)
        lines.append(number_line(state))
    return lines


def build():
    """All lines; the last one is good and has no newline."""
    lines = edge_lines() + unusual_but_good_lines()
    for bad in malformed_lines():
        lines.append(bad)
        lines.append(number_line([len(bad) % 1000, -7, 5, -3, 2]))
    lines += generated_lines()
    lines += [b"", b"", b"314 -500 200 -400 500"]
    return b"\n".join(lines)
