"""Reads FORMATS, "Commands" and "Text": which command words spell, and its input and output."""

import re
import sys
from collections.abc import Callable
from typing import BinaryIO

from model import answers
from model.answers import Answer
from model.check import check
from model.clones import clone
from model.limits import GENERATED_PACKETS, GENERATED_WRITERS, MOST_INPUT, MOST_NUMBER, TUNING_TURNS, TUNING_USERS
from model.replay import replay
from model.run import run
from model.stream import stream
from model.summary import read
from model.tune import tune
from model.workload import workload

OF_INPUT: dict[str, Callable[[bytes], Answer]] = {'replay': replay, 'run': run, 'read': read, 'check': check, 'stream': stream, 'clone': clone}
# What the program is to have, and hasn't yet. These words are read here all the same; the usage line doesn't name them.
TO_COME: dict[str, Callable[[bytes], Answer]] = {}
NUMERAL = re.compile(r'0|[1-9][0-9]*', re.ASCII)


def numbers_in(words: list[str], ranges: tuple[range, ...]) -> list[int] | None:
    """The numbers that the words spell, where each is in its range."""
    if len(words) != len(ranges) or not all(NUMERAL.fullmatch(word) and len(word) <= 20 for word in words):
        return None
    numbers = list(map(int, words))
    return numbers if all(number in allowed for number, allowed in zip(numbers, ranges)) else None


def command_of(words: list[str]) -> Callable[[BinaryIO], Answer] | None:
    """What the words spell, as what is done with standard input."""
    if len(words) == 1 and words[0] in OF_INPUT | TO_COME:
        return lambda source: on_input((OF_INPUT | TO_COME)[words[0]], source)
    if words[:1] == ['gen']:
        numbers = numbers_in(words[1:], (range(MOST_NUMBER + 1), GENERATED_WRITERS, GENERATED_PACKETS))
        return (lambda _: workload(*numbers)) if numbers else None
    if words[:1] == ['tune']:
        numbers = numbers_in(words[1:], (TUNING_USERS, TUNING_TURNS))
        return (lambda _: tune(*numbers)) if numbers else None
    return None


def on_input(command: Callable[[bytes], Answer], source: BinaryIO) -> Answer:
    try:
        data = source.read(MOST_INPUT + 1)
    except OSError:
        return Answer(answers.READ_FAULT, text=b'read fault\n')
    if len(data) > MOST_INPUT:
        return Answer(answers.TOO_LONG, text=b'input too long\n')
    return command(data)


def answer_to(words: list[str], source: BinaryIO) -> Answer:
    command = command_of(words)
    if command is None:
        return Answer(answers.USAGE, text=answers.USAGE_LINE)
    try:
        return command(source)
    except MemoryError:
        return Answer(answers.OUT_OF_MEMORY, text=b'out of memory\n')


def written(sink: BinaryIO, data: bytes) -> bool:
    try:
        sink.write(data)
        sink.flush()
        return True
    except OSError:
        return False


def main(words: list[str]) -> int:
    answer = answer_to(words, sys.stdin.buffer)
    status, text = answer.status, answer.text
    if not written(sys.stdout.buffer, answer.output):
        status, text = answers.WRITE_FAULT, b'write fault\n'
    if not written(sys.stderr.buffer, text) and status == 0:
        status = answers.WRITE_FAULT
    return status
