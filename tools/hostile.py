#!/usr/bin/env python3
"""Plays the inputs of examples/hostile/: each reason of a refusal, each status, and corners that random inputs reached.

    tools/hostile.py PROGRAM              on a built `tracesmb`, or a command in one word
    tools/hostile.py                      on the second reading in tools/model
    tools/hostile.py --branches           which branches of the second reading the inputs take; fails where one is left but those below
    tools/hostile.py --gather KIND SEEDS  adds random inputs that take a further branch, of a kind of tools/compare.py, made short
    tools/hostile.py --write              writes expected.txt anew, by the second reading; look at what changed

An input is a file NAME.COMMAND. What is expected stands in expected.txt: under each file's name its status, the lines of standard error,
and the bytes of standard output in hexadecimal, or of many bytes their count and SHA-256. Statuses that no file brings about are tried with
other words and streams: no command, an input that is too long, a folder as standard input, a full device as standard output, and little
memory. Inputs of a command that the program hasn't yet (TO_COME in tools/model/commands.py) are played on the second reading alone.
"""

import hashlib
import io
import os
import resource
import subprocess
import sys
from collections.abc import Callable, Container, Iterator
from shlex import split
from types import SimpleNamespace

HERE = os.path.dirname(os.path.abspath(__file__))
sys.path.insert(0, HERE)

from branches import Tracer         # noqa: E402
from compare import KINDS, seeds_in     # noqa: E402
from model.answers import USAGE_LINE, Answer    # noqa: E402
from model.commands import OF_INPUT, TO_COME, answer_to, main as main_of_model  # noqa: E402
from model.limits import MOST_INPUT     # noqa: E402

FOLDER = os.path.join(os.path.dirname(HERE), 'examples', 'hostile')
EXPECTED = os.path.join(FOLDER, 'expected.txt')
MOST_SHOWN = 320            # bytes of an output that are shown
OF_A_LINE = 32
LITTLE_MEMORY = 60_000_000      # bytes, of which the program's own are a few
WORDS = ([], ['gen', '0', '1', '1'], ['gen', '0', '1'], ['tune', '1', '2'], ['tune', '8', '100'], ['tune', '9', '1'])   # that read no input

# Branches that no input takes: a part has fewer fragments than its chunk has in the end, and no chunk that a writer holds is too far ahead.
OUT_OF_REACH = {('buffers.py', 'note_arrival', 'if self.cursor[0] == position and self.cursor[1] >= count:', 'holds'),
                ('buffers.py', 'arrive_partial_placed', 'if chunk.chunk_id >= sequence.least_missing + IDS_AHEAD:', 'holds')}
SMALL = b'buffer 4 ring\nproducer 1 4096 14\nwriter 1 1 drop\np 1\n'
SMALL_TRACE = bytes.fromhex('0a055002d00201')


def names(commands: Container[str] = OF_INPUT | TO_COME) -> list[str]:
    return sorted(name for name in os.listdir(FOLDER) if name.rpartition('.')[2] in commands)


def input_of(name: str) -> bytes:
    with open(os.path.join(FOLDER, name), 'rb') as file:
        return file.read()


def words_of(name: str) -> list[str]:
    return [name.rpartition('.')[2]]


# What is expected

def shown(answer: Answer) -> Iterator[str]:
    """An answer as lines."""
    yield f'status {answer.status}'
    for line in answer.text.decode('latin-1').splitlines():
        yield f'text {line}'
    if len(answer.output) > MOST_SHOWN:
        yield f'output {len(answer.output)} bytes, SHA-256 {hashlib.sha256(answer.output).hexdigest()}'
    else:
        for at in range(0, len(answer.output), OF_A_LINE):
            yield f'output {answer.output[at:at + OF_A_LINE].hex(" ")}'


def expected() -> dict[str, list[str]]:
    found: dict[str, list[str]] = {}
    with open(EXPECTED) as lines:
        for line in lines.read().splitlines():
            if line.startswith('  '):
                found[name].append(line.strip())
            elif line:
                name = line
                found[name] = []
    return found


def write_expected() -> None:
    with open(EXPECTED, 'w') as out:
        for name in names():
            answer = answer_to(words_of(name), io.BytesIO(input_of(name)))
            out.write('\n'.join([name, *(f'  {line}' for line in shown(answer))]) + '\n\n')


def answer_of(program: list[str], name: str) -> Answer:
    done = subprocess.run([*program, *words_of(name)], input=input_of(name), capture_output=True, check=False)
    return Answer(done.returncode, done.stdout, done.stderr)


def play_all(program: list[str], commands: Container[str]) -> int:
    wanted, differing = expected(), 0
    for name in names(commands):
        found = list(shown(answer_of(program, name)))
        if found != wanted.get(name):
            differing += 1
            print(f'{name}: {found[:3]} in place of {wanted.get(name, ["nothing"])[:3]}')
    for name, fault in faults_of_streams(program):
        differing += 1
        print(f'{name}: {fault}')
    print(f'{len(names(commands))} inputs, {differing} differ')
    return 1 if differing else 0


# Other streams

def limited_memory() -> None:
    resource.setrlimit(resource.RLIMIT_AS, (LITTLE_MEMORY, LITTLE_MEMORY))


def tried_streams(program: list[str]) -> Iterator[tuple[str, subprocess.CompletedProcess, tuple[int, bytes | None, bytes]]]:
    """What is tried with other streams, what came of it, and what is to come: the status, the output, the text."""
    command = [*program, 'replay']
    with open('/dev/full', 'wb') as full:
        yield ('a full device as standard output', subprocess.run(command, input=SMALL, stdout=full, stderr=subprocess.PIPE, check=False),
               (5, None, b'write fault\n'))
        yield ('a full device as standard error', subprocess.run(command, input=SMALL, stdout=subprocess.PIPE, stderr=full, check=False),
               (5, SMALL_TRACE, b''))
    yield ('too long an input', subprocess.run(command, input=b'\n' * (MOST_INPUT + 1), capture_output=True, check=False),
           (7, b'', b'input too long\n'))
    yield 'no command', subprocess.run(program, capture_output=True, check=False), (2, b'', USAGE_LINE)
    if is_program(program):
        folder = os.open(FOLDER, os.O_RDONLY)
        yield ('a folder as standard input', subprocess.run(command, stdin=folder, capture_output=True, check=False),
               (4, b'', b'read fault\n'))
        os.close(folder)
        large = b'buffer 4 ring\nproducer 1 4096 14\nwriter 1 1 drop\n' + b'p 1 1:1\n' * 8_000_000
        yield ('little memory', subprocess.run(command, input=large, capture_output=True, preexec_fn=limited_memory, check=False),
               (1, b'', b'out of memory\n'))


def is_program(program: list[str]) -> bool:
    """The program is one of its own: an interpreter wants no folder as standard input, and needs memory for itself."""
    return len(program) == 1


def faults_of_streams(program: list[str]) -> Iterator[tuple[str, str]]:
    for name, done, (status, output, text) in tried_streams(program):
        if done.returncode != status or (output is not None and done.stdout != output) or (done.stderr or b'') != text:
            yield name, f'status {done.returncode}, {done.stderr}, in place of status {status}, {text}'


# Branches

def traced(tracer: Tracer, words: list[str], data: bytes) -> None:
    tracer.during(lambda: answer_to(words, io.BytesIO(data)))


class FullDevice(io.RawIOBase):
    """A stream that takes nothing."""

    def write(self, data):
        raise OSError('full')


def traced_with_streams(tracer: Tracer, words: list[str], data: bytes, output: io.RawIOBase, text: io.RawIOBase) -> None:
    """A whole run of the second reading, with these as its standard streams."""
    streams = sys.stdin, sys.stdout, sys.stderr
    sys.stdin, sys.stdout, sys.stderr = (SimpleNamespace(buffer=stream) for stream in (io.BytesIO(data), output, text))
    try:
        tracer.during(lambda: main_of_model(words))
    finally:
        sys.stdin, sys.stdout, sys.stderr = streams


def taken_by_all() -> Tracer:
    tracer = Tracer()
    for name in names():
        traced(tracer, words_of(name), input_of(name))
    for words in WORDS:
        traced(tracer, words, b'')
    traced(tracer, ['read'], b'\n' * (MOST_INPUT + 1))
    traced_with_streams(tracer, ['replay'], SMALL, FullDevice(), io.BytesIO())
    traced_with_streams(tracer, ['replay'], SMALL, io.BytesIO(), FullDevice())
    return tracer


def list_branches() -> int:
    tracer = taken_by_all()
    left = {branch for branch in tracer.all() - tracer.taken if branch.told() not in OUT_OF_REACH}
    for branch in sorted(tracer.all()):
        print(f'{"taken" if branch in tracer.taken else "NOT TAKEN" if branch in left else "out of reach"} {branch}')
    print(f'{len(tracer.taken)} branches taken, {len(left)} not, {len(tracer.all() - tracer.taken - left)} out of reach')
    return 1 if left else 0


def takes(words: list[str], data: bytes, branches: set) -> bool:
    tracer = Tracer()
    traced(tracer, words, data)
    return branches <= tracer.taken


def made_short(words: list[str], data: bytes, branches: set) -> bytes:
    """The input with lines left out as long as it takes these branches."""
    lines = data.splitlines(keepends=True)
    size = max(1, len(lines) // 2)
    while size:
        at = 0
        while at < len(lines):
            fewer = lines[:at] + lines[at + size:]
            if takes(words, b''.join(fewer), branches):
                lines = fewer
            else:
                at += size
        size //= 2
    return b''.join(lines)


def gather(kind: str, seeds: range) -> None:
    tracer = taken_by_all()
    for seed in seeds:
        words, data = KINDS[kind](seed, True)
        before = set(tracer.taken)
        traced(tracer, words, data)
        further = tracer.taken - before
        if not further or len(words) > 1:
            continue
        if words[0] != 'read':
            data = made_short(words, data, further)
        name = f'corner-{kind}-{seed}.{words[0]}'
        with open(os.path.join(FOLDER, name), 'wb') as out:
            out.write(data)
        print(f'{name}: {", ".join(map(str, sorted(further)))}')


def main(words: list[str]) -> int:
    actions: dict[str, Callable[[], int | None]] = {
        '--write': write_expected, '--branches': list_branches, '--gather': lambda: gather(words[1], seeds_in(words[2]))}
    if words and words[0] in actions:
        return actions[words[0]]() or 0
    if words:
        return play_all(split(words[0]), OF_INPUT)
    return play_all([sys.executable, os.path.join(HERE, 'model')], OF_INPUT | TO_COME)


if __name__ == '__main__':
    sys.exit(main(sys.argv[1:]))
