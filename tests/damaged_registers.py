#!/usr/bin/env python3
"""Damages registers at random and holds ./ask to a plain reading of each: damaged_registers.py ASK."""
import random
import struct
import subprocess
import sys

sys.dont_write_bytecode = True
from random_registers import answer, drawn_row
from reading import Refused, read, unpacked

SEED = 1
CASES = 350


def drawn(source):
    """Small registers that nothing is wrong with: each one's columns, and its keys with their rows."""
    registers = []
    for _ in range(source.randint(1, 8)):
        columns = source.randint(1, 3)
        keys = source.sample(range(20), source.randint(0, 6))
        registers.append((columns, [(key, drawn_rows(source, columns, source.randint(1, 3))) for key in keys]))
    return registers


def drawn_rows(source, columns, count):
    """So many rows."""
    return [drawn_row(source, columns) for _ in range(count)]


# What is done to the registers before they are written as numbers. Each but the first two goes to a limit or past it.


def double_key(source, registers):
    """A block more, under a key that has one, at any place."""
    columns, blocks = source.choice(registers)
    if blocks:
        key, _ = source.choice(blocks)
        blocks.insert(source.randint(0, len(blocks)), (key, drawn_rows(source, columns, 1)))


def empty_block(source, registers):
    """A block more, without a row."""
    _, blocks = source.choice(registers)
    blocks.insert(source.randint(0, len(blocks)), (source.randint(20, 30), []))


def add_registers(source, registers):
    """No register, or eight or nine."""
    count = source.choice([0, 8, 9])
    registers += [(1, []) for _ in range(count - len(registers))]
    del registers[count:]


def add_blocks(source, registers):
    """4,096 or 4,097 blocks."""
    place = source.randrange(len(registers))
    columns, _ = registers[place]
    registers[place] = (columns, [(key, [(0,) * columns]) for key in range(source.choice([4096, 4097]))])


def add_rows(source, registers):
    """64 or 65 rows."""
    columns, blocks = source.choice(registers)
    blocks.append((source.randint(20, 30), drawn_rows(source, columns, source.choice([64, 65]))))


def add_columns(source, registers):
    """No columns, or eight or nine."""
    columns = source.choice([0, 8, 9])
    registers[source.randrange(len(registers))] = (columns, [(5, drawn_rows(source, columns, 2))])


# What is done to the numbers.


def change(source, numbers):
    """One number is another."""
    numbers[source.randrange(len(numbers))] = source.choice([0, 1, 2, 5, 64, 65, 4096, 4097, 2**32 - 1])


def nudge(source, numbers):
    """One number is one more or less."""
    place = source.randrange(len(numbers))
    numbers[place] = (numbers[place] + source.choice([-1, 1])) % 2**32


def remove(source, numbers):
    """One number is missing."""
    del numbers[source.randrange(len(numbers))]


def add(source, numbers):
    """One number more, at any place."""
    numbers.insert(source.randint(0, len(numbers)), source.randint(0, 9))


def cut(source, numbers):
    """The numbers end early."""
    del numbers[source.randrange(len(numbers)) :]


TO_REGISTERS = [double_key, empty_block, add_registers, add_blocks, add_rows, add_columns]
TO_NUMBERS = [change, nudge, remove, add, cut]


def flat(registers):
    """The registers as numbers."""
    numbers = [len(registers)]
    for columns, blocks in registers:
        numbers += [len(blocks), columns]
        for key, rows in blocks:
            numbers += [key, len(rows), *(cell for row in rows for cell in row)]
    return numbers


def damaged(source):
    """The bytes of registers with no damage, one or several; now and then they end within a number."""
    registers = drawn(source)
    for damage in source.choices(TO_REGISTERS, k=source.randint(0, 2)):
        if registers:
            damage(source, registers)
    numbers = flat(registers)
    for damage in source.choices(TO_NUMBERS, k=source.choice([0, 0, 1, 2])):
        if numbers:
            damage(source, numbers)
    data = struct.pack(f"<{len(numbers)}I", *numbers)
    return data[: len(data) - source.choice([0, 0, 0, 0, 0, 0, 1, 3])]


def expected(data):
    """What must be printed of the bytes."""
    try:
        return "".join(answer(read(unpacked(data))))
    except Refused as refusal:
        return f"{refusal}\n"


def outcome(text):
    """The refusal with its place, or that there is none."""
    return text.strip() if text.startswith("refused") else "accepted"


def difference(ask, data, text):
    """What ./ask says of the bytes, if it is not this text."""
    run = subprocess.run([ask], input=data, capture_output=True, check=False)
    if (run.returncode, run.stdout, run.stderr) == (0, text.encode(), b""):
        return None
    return f"status {run.returncode}\n{run.stdout.decode()}{run.stderr.decode()}"


def main(ask):
    """Tries all cases; the first that differs ends the run. Every refusal must come up at every place."""
    source = random.Random(SEED)
    missing = {"accepted", *(f"refused 1 {place}" for place in range(9)), *(f"refused 2 {place}" for place in range(8))}
    for case in range(CASES):
        data = damaged(source)
        text = expected(data)
        told = difference(ask, data, text)
        if told:
            sys.exit(f"case {case}: {data[:400].hex(' ', 4)}\n{told}but expected was\n{text}")
        missing.discard(outcome(text))
    if missing:
        sys.exit(f"no case was {', '.join(sorted(missing))}")


if __name__ == "__main__":
    main(sys.argv[1])
