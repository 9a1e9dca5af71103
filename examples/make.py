#!/usr/bin/env python3
"""Writes sluices.bin, the registers below, and questions.bin, the same with the questions behind them, beside this
file: numbers of four bytes each, low byte first, and one byte in front of each question."""
import pathlib
import struct
from typing import NamedTuple

# The kinds of test: the column is the number, is not, is at least, is at most.
IS, IS_NOT, AT_LEAST, AT_MOST = range(4)


class Question(NamedTuple):
    """A question to a register: its tests, each a column, a kind and a number; its further questions, each a column
    and the question to which that column's number is a key."""

    register: int
    tests: list
    further: list


# Each register: how many columns, and under each key the rows that the boards report.
SLUICES = [
    (2, {1: [(10, 4)], 2: [(10, 6), (11, 6)], 3: [(12, 5)], 4: [(11, 9), (11, 8)]}),
    (2, {10: [(3, 7)], 11: [(3, 7), (5, 7)], 12: [(2, 8)]}),
    (1, {7: [(1,)], 8: [(1,), (0,)]}),
]

# Sluices in a polder of level 3 at most whose board is at work; sluices of width 6 at least.
AT_WORK = Question(2, [(0, IS, 1)], [])
LOW = Question(1, [(0, AT_MOST, 3)], [(1, AT_WORK)])
IN_LOW = Question(0, [], [(0, LOW)])
WIDE = Question(0, [(1, AT_LEAST, 6)], [])

# Each question, and the column to be summed: the widths.
QUESTIONS = [(IN_LOW, 1), (WIDE, 1)]


def numbers(registers):
    """The registers as numbers: their count; each one's blocks, columns and blocks; a block's key, rows and rows."""
    yield len(registers)
    for columns, blocks in registers:
        yield from (len(blocks), columns)
        for key, rows in blocks.items():
            yield from (key, len(rows))
            for row in rows:
                yield from row


def signs(question):
    """The question as signs in reading order, each a list of 19 numbers; room that is not used is 0."""
    tests = [number for test in question.tests for number in test]
    columns = [column for column, _ in question.further]
    yield [question.register, len(question.tests), *filled(tests, 12), len(columns), *filled(columns, 4)]
    for _, further in question.further:
        yield from signs(further)


def filled(used, room):
    """So much room, with these numbers at its beginning."""
    return used + [0] * (room - len(used))


def packed_numbers(values):
    """The numbers as bytes."""
    return b"".join(struct.pack("<I", number) for number in values)


def packed_question(count, written, column):
    """A question as bytes: how many signs it says that it has, the signs that it has, and the column to be summed."""
    return bytes([count]) + b"".join(packed_numbers(sign) for sign in written) + packed_numbers([column])


def packed(registers, questions=()):
    """The registers as bytes, and the questions behind them, each with the column to be summed."""
    data = packed_numbers(numbers(registers))
    for question, column in questions:
        written = list(signs(question))
        data += packed_question(len(written), written, column)
    return data


if __name__ == "__main__":
    pathlib.Path(__file__).with_name("sluices.bin").write_bytes(packed(SLUICES))
    pathlib.Path(__file__).with_name("questions.bin").write_bytes(packed(SLUICES, QUESTIONS))
