"""What ./ask_questions must print of bytes, by the plain reading of them, and whether it does."""
import subprocess
import sys

sys.dont_write_bytecode = True
from question_reading import Refused, read_all  # and the folder of the next one to the path
from random_registers import answer


def expected(data):
    """The lines that must be printed of the bytes: those of the registers, and those of the questions."""
    try:
        registers, questions = read_all(data)
        return list(answer(registers)), [f"{words}\n" for words in questions]
    except Refused as refusal:
        return [f"{refusal}\n"], []


def difference(ask, data, text):
    """What ./ask_questions says of the bytes, if it is not this text."""
    run = subprocess.run([ask], input=data, capture_output=True, check=False)
    if (run.returncode, run.stdout, run.stderr) == (0, text.encode(), b""):
        return None
    return f"status {run.returncode}\n{run.stdout.decode(errors='replace')}{run.stderr.decode(errors='replace')}"


def compare(ask, inputs, outcomes, missing):
    """Tries all inputs; the first that differs ends the run. Each outcome that is missing must come up."""
    for case, data in enumerate(inputs):
        registers, questions = expected(data)
        text = "".join(registers + questions)
        told = difference(ask, data, text)
        if told:
            sys.exit(f"case {case}: {data[:4000].hex(' ', -4)}\n{told}but expected was\n{text}")
        missing = missing - outcomes(registers, questions)
    if missing:
        sys.exit(f"no case was {', '.join(sorted(missing))}")
