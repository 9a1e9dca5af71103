#!/usr/bin/env python3
"""Writes registers drawn from a seed, and what ./ask says of them: random_registers.py SEED REGISTERS ANSWER."""
import pathlib
import random
import sys

sys.dont_write_bytecode = True
sys.path.insert(0, str(pathlib.Path(__file__).resolve().parent.parent / "examples"))
from make import packed


def drawn(source):
    """One to eight registers: their columns, and rows under each key."""
    registers = []
    for _ in range(source.randint(1, 8)):
        columns = source.randint(1, 8)
        keys = source.sample(range(2**32), source.randint(0, 400))
        rows = {key: [drawn_row(source, columns) for _ in range(source.randint(1, 4))] for key in keys}
        registers.append((columns, rows))
    return registers


def drawn_row(source, columns):
    """A row of so many columns."""
    return tuple(source.randrange(2**32) for _ in range(columns))


def count(number, word):
    """So many of what the word stands for."""
    return f"{number} {word}" if number == 1 else f"{number} {word}s"


def answer(registers):
    """The lines that are printed of the registers."""
    for place, (columns, blocks) in enumerate(registers):
        rows = [len(under) for under in blocks.values()]
        contested = sum(1 for under in rows if under > 1)
        size = f"{count(len(blocks), 'key')}, {count(columns, 'column')}, {count(sum(rows), 'row')}"
        have = "has" if contested == 1 else "have"
        yield f"register {place}: {size}; {count(contested, 'key')} {have} more than one row\n"


if __name__ == "__main__":
    seed, registers_file, answer_file = sys.argv[1:]
    registers = drawn(random.Random(int(seed)))
    pathlib.Path(registers_file).write_bytes(packed(registers))
    pathlib.Path(answer_file).write_text("".join(answer(registers)))
