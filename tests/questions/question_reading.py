"""A plain reading of registers, and of the questions behind them: what they hold, or why they are refused."""
import pathlib
import sys

sys.dont_write_bytecode = True
# Registers are read as they are for ./ask.
sys.path.append(str(pathlib.Path(__file__).resolve().parent.parent))
from reading import Refused, read, unpacked

SIGN = 19 * 4
COLUMN = 4
KINDS = ["is", "is not", "at least", "at most"]


def read_all(data):
    """The registers, and for each question behind them its words or its refusal."""
    registers = read(unpacked(data))
    widths = [columns for columns, _ in registers]
    return registers, list(said(data[4 * length(registers) :], widths))


def length(registers):
    """How many numbers the registers take, with their count in front."""
    return 1 + sum(2 + sum(2 + columns * len(rows) for rows in blocks.values()) for columns, blocks in registers)


def said(data, widths):
    """For each question its words, or its refusal. The byte that a question begins with says where the next begins."""
    begin = 0
    while begin < len(data):
        end = begin + 1 + SIGN * data[begin] + COLUMN
        try:
            yield read_question(data[begin:end], widths)
        except Refused as refusal:
            yield str(refusal)
        begin = end


def read_question(data, widths):
    """The words of a question that has these bytes, to registers of these widths. What cannot be read is refused
    before what goes to a register twice."""
    count = data[0]
    if count > 8:
        raise Refused(3, 8)
    signs = data[1 : 1 + SIGN * count]
    visited = []
    words = read_sign(iter([unpacked(signs[at : at + SIGN]) for at in range(0, len(signs), SIGN)]), widths, visited)
    if len(visited) < count or len(data) < 1 + SIGN * count + COLUMN:
        raise Refused(3, len(visited))
    for place, register in enumerate(visited):
        if register in visited[:place]:
            raise Refused(4, register)
    return words


def read_sign(left, widths, visited):
    """The words of the next sign, with those of its further questions. Each sign that can be read adds its register to
    those visited, so their number is the place of the next sign."""
    sign = next(left, [])
    if not readable(sign, widths):
        raise Refused(3, len(visited))
    visited.append(sign[0])
    words = [f"column {column} {KINDS[kind]} {number}" for column, kind, number in tests(sign)]
    words += [f"column {column} is a key of ({read_sign(left, widths, visited)})" for column in further(sign)]
    return f"register {sign[0]}: {', '.join(words) or 'any row'}"


def readable(sign, widths):
    """The sign is all there, and what is used of it is allowed."""
    if len(sign) < 19 or sign[0] >= len(widths) or sign[1] > 4 or sign[14] > 4:
        return False
    columns = [column for column, _, _ in tests(sign)] + further(sign)
    return all(column < widths[sign[0]] for column in columns) and all(kind < len(KINDS) for _, kind, _ in tests(sign))


def tests(sign):
    """The tests of a sign that are used: column, kind and number."""
    return [tuple(sign[at : at + 3]) for at in range(2, 2 + 3 * sign[1], 3)]


def further(sign):
    """The columns of the further questions of a sign."""
    return sign[15 : 15 + sign[14]]
