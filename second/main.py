"""Command line of the second program.

    python3 main.py desk-script        write the script of cases for the desk
    python3 main.py desk               answer a script from standard input
    python3 main.py desk-cases         compare the script and the answers that are kept with what is worked out
    python3 main.py wrong              show that each wrong model is noticed
    python3 main.py trimcard           answer lines from standard input
    python3 main.py trimcard-input     write a test input for the line program
"""

import sys

import desk
import kept
import sections
import trimcard
import trimcard_input
import wrong

WRITES = {
    "desk-script": lambda: sections.build().written(),
    "desk": lambda: desk.run(sys.stdin.buffer.read()),
    "trimcard": lambda: trimcard.run(sys.stdin.buffer.read()),
    "trimcard-input": trimcard_input.build,
}
CHECKS = {"desk-cases": kept.check, "wrong": wrong.check}


def main(arguments):
    name = arguments[0] if len(arguments) == 1 else None
    if name in WRITES:
        sys.stdout.buffer.write(WRITES[name]())
        return 0
    if name in CHECKS:
        fine, said = CHECKS[name]()
        print(said)
        return 0 if fine else 1
    sys.stderr.write(__doc__)
    return 2


if __name__ == "__main__":
    sys.exit(main(sys.argv[1:]))
