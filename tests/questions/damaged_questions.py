#!/usr/bin/env python3
"""Damages questions at random and holds ./ask_questions to a plain reading of each: damaged_questions.py PROGRAM."""
import itertools
import pathlib
import random
import sys

sys.dont_write_bytecode = True
sys.path.append(str(pathlib.Path(__file__).resolve().parent.parent.parent / "examples"))
from comparison import compare
from make import Question, packed, packed_question, signs
from random_registers import drawn_row

SEED = 1
CASES = 320


def drawn_number(source):
    """A number of a test, or in room that is not used: small, large, or any."""
    return source.choice([0, 1, 4, 5, 9, 10, 255, 256, 2**31 - 1, 2**31, 2**32 - 2, 2**32 - 1, source.randrange(2**32)])


def drawn_registers(source):
    """Small registers; now and then one of them has a block without a row."""
    registers = []
    for _ in range(source.choice([1, 2, 3, 5, 7, 8, 8, 8])):
        columns = source.randint(1, 8)
        keys = source.sample(range(20), source.randint(0, 3))
        registers.append((columns, {key: [drawn_row(source, columns)] * source.randint(1, 2) for key in keys}))
    if source.random() < 0.03:
        source.choice(registers)[1][20] = []
    return registers


# A question is drawn from the registers that it goes to.


def drawn_route(source, count):
    """The registers that a question goes to, of so many: each once, or some twice, so that there may be ten signs."""
    route = source.sample(range(count), source.choice([source.randint(1, count), count]))
    for _ in range(source.choice([0, 0, 0, 1, 1, 2])):
        repeat(source, route)
    return route


def repeat(source, route):
    """A register comes once more, next to where it stands or far behind it, besides or in place of another."""
    place = source.randrange(len(route))
    later = source.choice([place + 1, source.randint(place + 1, len(route)), len(route)])
    route[later : later + source.choice([0, 1])] = [route[place]]


def drawn_question(source, widths, route):
    """A question that goes to these registers: a chain, or with as many further questions at a sign as there may be,
    or with any branches."""
    shape = source.choice(["chain", "full", "any"])
    questions = []
    for register in route:
        question = Question(register, drawn_tests(source, widths[register]), [])
        if questions:
            free = [other for other in questions if len(other.further) < 4]
            above = {"chain": free[-1], "full": free[0], "any": source.choice(free)}[shape]
            above.further.append((source.randrange(widths[above.register]), question))
        questions.append(question)
    return questions[0]


def drawn_tests(source, width):
    """Tests of a register with so many columns."""
    return [
        (source.randrange(width), source.randrange(4), drawn_number(source))
        for _ in range(source.choice([0, 0, 1, 2, 3, 4]))
    ]


def drawn_signs(source, widths):
    """The signs of a drawn question. Room that is not used has any numbers."""
    written = list(signs(drawn_question(source, widths, drawn_route(source, len(widths)))))
    for sign in written:
        for place in [*range(2 + 3 * sign[1], 14), *range(15 + sign[14], 19)]:
            sign[place] = drawn_number(source)
    return written


# What is done to one sign. Each but the first two goes to a limit or past it.


def change(source, sign, _):
    """One number is another."""
    sign[source.randrange(19)] = drawn_number(source)


def nudge(source, sign, _):
    """One number is one more or less."""
    place = source.randrange(19)
    sign[place] = (sign[place] + source.choice([-1, 1])) % 2**32


def many_tests(source, sign, widths):
    """Four or five tests."""
    for place in range(2, 14, 3):
        sign[place : place + 2] = [source.randrange(widths[sign[0]]), source.randrange(4)]
    sign[1] = source.choice([4, 5])


def many_further(source, sign, widths):
    """Four or five further questions."""
    sign[15:19] = [source.randrange(widths[sign[0]]) for _ in range(4)]
    sign[14] = source.choice([4, 5])


def kind_limit(source, sign, _):
    """A test of kind 3 or 4."""
    if sign[1] > 0:
        sign[3 + 3 * source.randrange(sign[1])] = source.choice([3, 4])


def test_column_limit(source, sign, widths):
    """A test of the last column or of the one behind it."""
    if sign[1] > 0:
        sign[2 + 3 * source.randrange(sign[1])] = widths[sign[0]] - source.choice([0, 1])


def further_column_limit(source, sign, widths):
    """A further question at the last column or at the one behind it."""
    if sign[14] > 0:
        sign[15 + source.randrange(sign[14])] = widths[sign[0]] - source.choice([0, 1])


def register_limit(source, sign, widths):
    """The last register, or the one behind it."""
    sign[0] = len(widths) - source.choice([0, 1])


TO_SIGN = [change, nudge, many_tests, many_further, kind_limit, test_column_limit, further_column_limit, register_limit]


# What is done to the signs of a question.


def remove_sign(source, written):
    """One sign is missing."""
    del written[source.randrange(len(written))]


def add_sign(source, written):
    """One sign more, at any place: like another, or with no test and no further question."""
    sign = list(source.choice(written))
    if source.random() < 0.5:
        sign[1] = sign[14] = 0
    written.insert(source.randint(0, len(written)), sign)


def cut_sign(source, written):
    """One sign has too few numbers, so those behind it begin too early."""
    del source.choice(written)[source.randrange(19) :]


TO_SIGNS = [remove_sign, add_sign, cut_sign]


# What is done to the byte that says how many signs there are.


def off_by_one(source, count):
    """One more or less."""
    return max(0, count + source.choice([-1, 1]))


def none(_, __):
    """No sign."""
    return 0


def too_many(source, _):
    """Eight, nine or more."""
    return source.choice([8, 9, 9, 10, 11, 128, 255])


TO_COUNT = [off_by_one, none, too_many]


def fitted(source, written, count):
    """The signs, as many as the byte says: some left out at the end, or more of any numbers."""
    more = [[source.randrange(5) for _ in range(19)] for _ in range(count - len(written))]
    return written[:count] + more


def damaged_question(source, widths):
    """The bytes of a question with no damage, one or several. Where the byte does not say how many signs there are,
    there are often made as many as it says, so that the next question begins at its place."""
    written = drawn_signs(source, widths)
    for sign in source.sample(written, min(len(written), source.choice([0, 0, 1, 1, 2]))):
        source.choice(TO_SIGN)(source, sign, widths)
    if source.random() < 0.15:
        source.choice(TO_SIGNS)(source, written)
    count = min(len(written), source.choice([8, 9]))
    if source.random() < 0.15:
        count = source.choice(TO_COUNT)(source, count)
    if source.random() < 0.85:
        written = fitted(source, written, count)
    return packed_question(count, written, drawn_number(source))


def cut(source, data, begin):
    """The input ends within what begins there: in the last number, in one near the end, or anywhere."""
    least = source.choice([len(data) - 4, len(data) - 24, begin])
    return data[: source.randrange(max(begin, least), len(data))]


def damaged(source):
    """The bytes of registers with several questions behind them; often they end within the last question, and now and
    then one byte is another."""
    registers = drawn_registers(source)
    widths = [columns for columns, _ in registers]
    data = packed(registers)
    begin = len(data)
    for _ in range(source.choice([0, 1, 2, 3, 4, 5, 6])):
        begin = len(data)
        data += damaged_question(source, widths)
    if source.random() < 0.05:
        data += source.randbytes(source.randint(1, 700))
    if begin < len(data) and source.random() < 0.4:
        data = cut(source, data, begin)
    if source.random() < 0.05:
        place = source.randrange(len(data))
        data = data[:place] + bytes([source.randrange(256)]) + data[place + 1 :]
    return data


# Questions of which one number is changed, each in its turn.


def full(widths, register, *further):
    """A question to the register with these further questions, and four tests; each number in it is at its limit."""
    last = widths[register] - 1
    return Question(register, [(last, 3, 2**32 - 1)] * 4, [(last, question) for question in further])


def tree(widths):
    """A question of eight signs, the first with four further questions and the second with three."""
    second = full(widths, 1, *(full(widths, register) for register in (2, 3, 4)))
    return full(widths, 0, second, *(full(widths, register) for register in (5, 6, 7)))


def chain(widths, registers):
    """A question that goes to these registers, with one further question at each sign but the last."""
    *others, last = registers
    question = full(widths, last)
    for register in reversed(others):
        question = full(widths, register, question)
    return question


def changed(widths, question, changes):
    """The bytes of registers of these widths, and behind them the question once for each change: a sign, one of its
    places, and the number that is there."""
    data = packed([(width, {}) for width in widths])
    for sign, place, number in changes:
        written = list(signs(question))
        written[sign][place] = number
        data += packed_question(len(written), written, 0)
    return data


def past_limits():
    """For each sign an input: each number of the sign is one more, or the number of registers, or the largest."""
    widths = [3, 5, 1, 2, 7, 4, 6, 8]
    question = tree(widths)
    for place, sign in enumerate(signs(question)):
        more = [(place, at, (number + 1) % 2**32) for at, number in enumerate(sign)]
        yield changed(widths, question, more + [(place, at, number) for at in range(19) for number in (8, 2**32 - 1)])


def twice():
    """For a tree and for a chain an input: each sign goes to the register of each earlier one."""
    widths = [8] * 8
    for question in (tree(widths), chain(widths, [3, 7, 0, 5, 1, 6, 2, 4])):
        registers = [sign[0] for sign in signs(question)]
        pairs = itertools.combinations(range(8), 2)
        yield changed(widths, question, [(later, 0, registers[earlier]) for earlier, later in pairs])


def ends():
    """Chains of each length, to as many registers or to the first once more, that end in the column's number or in one
    of the last two before it."""
    widths = [8] * 8
    for size in range(1, 9):
        for registers in (range(size), [*range(size - 1), 0]):
            data = packed([(width, {}) for width in widths], [(chain(widths, registers), 0)])
            yield from (data[:-missing] for missing in (1, 2, 3, 4, 5, 8, 9))


def outcomes(_, questions):
    """For each question its refusal with its place, or how many signs it has."""
    return {
        line.strip() if line.startswith("refused") else f"accepted with {line.count('register')} signs"
        for line in questions
    }


def main(ask):
    """Tries all cases. Every refusal must come up at every place, and questions of every size must be accepted."""
    missing = {
        *(f"refused 3 {place}" for place in range(9)),
        *(f"refused 4 {place}" for place in range(8)),
        *(f"accepted with {size} signs" for size in range(1, 9)),
    }
    source = random.Random(SEED)
    drawn = (damaged(source) for _ in range(CASES))
    compare(ask, itertools.chain(past_limits(), twice(), ends(), drawn), outcomes, missing)


if __name__ == "__main__":
    main(sys.argv[1])
