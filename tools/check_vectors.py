#!/usr/bin/env python3
"""Runs reference.py over every day file of vectors/ and compares what it prints (.out) and, where
the day is settled, the whole statement (.statement: one number a line, in statement order) with the
files that stand there. Exits 1 on any difference.
"""

import sys
from pathlib import Path

sys.dont_write_bytecode = True  # running a tool leaves nothing behind in the repository

import arguments
import reference

VECTORS = Path(__file__).resolve().parent.parent / "vectors"


def statement_text(file_bytes):
    """The statement of a day in exactly the numbers needed, or None if it is refused."""
    number, place, _ = reference.settle(file_bytes, [])
    # Without any room an acceptable day is refused with 13, whose place is the numbers needed.
    if number != 13:
        return None
    number, _, statement = reference.settle(file_bytes, [0] * place)
    if number != 0:
        return None
    return "".join("%d\n" % cents for cents in statement)


def text_of(path):
    return path.read_text() if path.exists() else None


def main():
    arguments.parser_of(__doc__).parse_args()
    days = sorted(VECTORS.glob("*.day"))
    if not days:
        sys.exit("vectors/ has no day file.")
    differences, statements = 0, 0
    for day in days:
        file_bytes = day.read_bytes()
        statement = statement_text(file_bytes)
        statements += statement is not None
        for suffix, made in ((".out", reference.program(file_bytes)), (".statement", statement)):
            if made != text_of(day.with_suffix(suffix)):
                differences += 1
                print("vectors/%s differs." % day.with_suffix(suffix).name)
    print(
        "%d day files: %d outputs and %d statements compared, %d differences"
        % (len(days), len(days), statements, differences)
    )
    sys.exit(1 if differences else 0)


if __name__ == "__main__":
    main()
