"""A plain reading of registers, number by number: what they hold, or why they are refused."""
import struct

LIMIT = 2**32


class Refused(Exception):
    """Registers that are refused: the number of the reason, and the register at which it is so."""

    def __init__(self, number, place):
        super().__init__(f"refused {number} {place}")


def unpacked(data):
    """The numbers of four bytes each, low byte first; bytes at the end that make no number are left out."""
    return [number for (number,) in struct.iter_unpack("<I", data[: len(data) // 4 * 4])]


def read(numbers):
    """The registers, each with its columns and the rows under each key. What is cut short or past a limit is refused
    before what has two blocks under a key or a block without a row."""
    left = iter(numbers)
    count = next_number(left, 8, range(1, 9))
    registers = [read_register(left, place) for place in range(count)]
    if any(number >= LIMIT for number in left):
        raise Refused(1, 8)
    for place, (_, blocks) in enumerate(registers):
        keys = [key for key, _ in blocks]
        if len(set(keys)) < len(keys) or not all(rows for _, rows in blocks):
            raise Refused(2, place)
    return [(columns, dict(blocks)) for columns, blocks in registers]


def read_register(left, place):
    """The columns of the register, and its keys with their rows."""
    size = next_number(left, place, range(4096 + 1))
    columns = next_number(left, place, range(1, 9))
    return columns, [read_block(left, place, columns) for _ in range(size)]


def read_block(left, place, columns):
    """A key, with its rows."""
    key = next_number(left, place)
    height = next_number(left, place, range(64 + 1))
    return key, [tuple(next_number(left, place) for _ in range(columns)) for _ in range(height)]


def next_number(left, place, allowed=range(LIMIT)):
    """The next number, which belongs to the register; it must be there and be allowed."""
    number = next(left, None)
    if number is None or number not in allowed:
        raise Refused(1, place)
    return number
