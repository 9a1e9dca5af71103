#!/usr/bin/env python3
"""Damages registers at random and holds ./ask_questions to a plain reading of each: damaged_registers.py PROGRAM."""
import pathlib
import random
import sys

sys.dont_write_bytecode = True
from comparison import compare

# The registers are those of which ./ask is tried.
sys.path.insert(0, str(pathlib.Path(__file__).resolve().parent.parent))
from damaged_registers import CASES, SEED, damaged


def outcomes(registers, _):
    """The refusal with its place, or that there is none."""
    return {registers[0].strip() if registers[0].startswith("refused") else "accepted"}


def main(program):
    """Tries all cases. Every refusal must come up at every place."""
    missing = {"accepted", *(f"refused 1 {place}" for place in range(9)), *(f"refused 2 {place}" for place in range(8))}
    source = random.Random(SEED)
    compare(program, (damaged(source) for _ in range(CASES)), outcomes, missing)


if __name__ == "__main__":
    main(sys.argv[1])
