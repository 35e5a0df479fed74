"""The stack language of the example `stack_adapter`, written apart from it: what a text says, and what its steps do."""
from __future__ import annotations

import re
from typing import NamedTuple

VARIABLES = "abcdefghijklmnopqrstuvwxyz"
MOST = 1000  # numbers on the stack, and calls that are alive
SMALLEST, LARGEST = -(2**63), 2**63 - 1
NUMBER = re.compile(r"[+-]?[0-9]+\Z", re.ASCII)
LINE = re.compile(r"\+?[0-9]+\Z", re.ASCII)
PLAIN = ("add", "sub", "mul", "div", "print", "ret")
NUMBERS, NAMES, LINES = ("push",), ("load", "store"), ("jump", "jzero", "call")


class Mistake(Exception):
    """A line, counted from 1, is no instruction."""


class Instruction(NamedTuple):
    name: str
    operand: int = 0


def read(text: str) -> list[Instruction | None]:
    """The instructions of a text by their lines; None where a line has none."""
    lines = text.split("\n")
    if lines[-1] == "":
        lines.pop()
    return [read_line(line.removesuffix("\r"), number) for number, line in enumerate(lines, 1)]


def read_line(line: str, number: int) -> Instruction | None:
    words = line.split()
    if not words or words[0].startswith(";"):
        return None
    if len(words) == 1 and words[0] in PLAIN:
        return Instruction(words[0])
    if len(words) == 2:
        name, word = words
        if name in NUMBERS and NUMBER.match(word) and SMALLEST <= int(word) <= LARGEST:
            return Instruction(name, int(word))
        if name in NAMES and len(word) == 1 and word in VARIABLES:
            return Instruction(name, VARIABLES.index(word))
        if name in LINES and LINE.match(word) and 1 <= int(word) < 2**64:
            return Instruction(name, int(word) - 1)
    raise Mistake(number)


class State(NamedTuple):
    """The line that comes next, of which the first is 0; the numbers, the top one last; the lines to which the calls
    that are alive return, the newest last; and the values of the variables."""

    line: int = 0
    numbers: tuple[int, ...] = ()
    returns: tuple[int, ...] = ()
    values: tuple[int, ...] = (0,) * len(VARIABLES)

    def lines(self) -> list[int]:
        """The lines where the frames stand, the newest first."""
        return [self.line, *(line - 1 for line in reversed(self.returns))]


class Told(NamedTuple):
    """What a step tells: the text that it prints, whether it ends the program, and why it can't be taken."""

    printed: str | None = None
    ends: bool = False
    fault: str | None = None


class Fault(Exception):
    """Why an instruction can't be carried out."""


def step(program: list[Instruction | None], state: State) -> tuple[Told, State]:
    """A step, and the state after it. One that can't be taken changes nothing."""
    if state.line >= len(program):
        return Told(ends=True), state
    try:
        return carry_out(program[state.line], state)
    except Fault as fault:
        return Told(fault=str(fault)), state


def carry_out(instruction: Instruction | None, state: State) -> tuple[Told, State]:
    after = state._replace(line=state.line + 1)
    if instruction is None:
        return Told(), after
    name, operand = instruction
    if name == "push":
        return Told(), put(after, operand)
    if name == "load":
        return Told(), put(after, state.values[operand])
    if name == "jump":
        return Told(), state._replace(line=operand)
    if name == "call":
        if len(state.returns) >= MOST:
            raise Fault("there are too many numbers or calls")
        return Told(), state._replace(line=operand, returns=(*state.returns, state.line + 1))
    if name == "ret":
        if not state.returns:
            return Told(ends=True), state
        return Told(), state._replace(line=state.returns[-1], returns=state.returns[:-1])
    if name in ("store", "print", "jzero"):
        return with_top(name, operand, after, *take(state, 1))
    left, right = take(state, 2)
    return Told(), put(after._replace(numbers=state.numbers[:-2]), calculate(name, left, right))


def with_top(name: str, operand: int, after: State, top: int) -> tuple[Told, State]:
    """What an instruction does that takes one number."""
    after = after._replace(numbers=after.numbers[:-1])
    if name == "print":
        return Told(printed=f"{top}\n"), after
    if name == "jzero":
        return Told(), after._replace(line=operand) if top == 0 else after
    values = (*after.values[:operand], top, *after.values[operand + 1:])
    return Told(), after._replace(values=values)


def take(state: State, count: int) -> tuple[int, ...]:
    if len(state.numbers) < count:
        raise Fault("a number is missing on the stack")
    return state.numbers[-count:]


def put(state: State, number: int) -> State:
    if len(state.numbers) >= MOST:
        raise Fault("there are too many numbers or calls")
    return state._replace(numbers=(*state.numbers, number))


def calculate(name: str, left: int, right: int) -> int:
    if name == "div":
        if right == 0:
            raise Fault("division by zero")
        result = abs(left) // abs(right) * (1 if (left < 0) == (right < 0) else -1)
    else:
        result = {"add": left + right, "sub": left - right, "mul": left * right}[name]
    if not SMALLEST <= result <= LARGEST:
        raise Fault("overflow")
    return result
