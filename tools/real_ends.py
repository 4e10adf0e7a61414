#!/usr/bin/env python3
"""Runs the built program on ends that are real: files, pipes, a full disk, closed descriptors, little memory.

    tools/real_ends.py PROGRAM [WORD]      all tries, or those whose name has the word

No contract can speak of what a file or a pipe does, so this holds the program's exit status, what it says on standard error and
what it wrote against what the second reading in tools/model answers. Where an end fails, that is cut: an output to a front part,
and a report to a front part with the line of the fault behind it. Each end is tried under every command, with an outcome that no
thread decides. A try prints one line; the exit status is 1 where one went wrong.
"""
import io
import os
import resource
import signal
import subprocess
import sys
import tempfile
import threading
import time
from dataclasses import dataclass

HERE = os.path.dirname(os.path.abspath(__file__))
sys.path.insert(0, HERE)

from model.answers import Answer    # noqa: E402
from model.commands import answer_to    # noqa: E402

TOP = os.path.dirname(HERE)
MOST = 67_108_864
READING = ('replay', 'run', 'read', 'check', 'stream', 'clone')
REPORTING = ('replay', 'run', 'stream', 'clone')
SET = b'buffer 4096 ring\nproducer 64 65536 1\nwriter 1 1 drop\n'
STALLS = b'buffer 64 ring\nproducer 1 4096 1\nwriter 1 1 stall\nwriter 1 1 stall\n'
CONFIG = b'buffers { size_kb: 4096 }\nproducers { page_size_kb: 64 shm_size_kb: 64 }\ndata_sources { config { } }\n==\n'
CLOSE = bytes.fromhex('01 00 00 00 03')
READ_FAULT, WRITE_FAULT, NO_MEMORY = b'read fault\n', b'write fault\n', b'out of memory\n'
SIZES = (0, 1, 4096, 100_000)       # the most bytes that a file may have
MEGABYTES = range(10, 501, 10)


@dataclass(frozen=True)
class Case:
    """A command's words and input, and what the second reading answers."""
    name: str
    words: list[str]
    input: bytes
    wanted: Answer

    @property
    def reports(self) -> bool:
        return self.words[:1] and self.words[0] in REPORTING and self.wanted.status == 0 and self.wanted.text != b''


def case(name: str, words: list[str], text: bytes = b'') -> Case:
    return Case(name, words, text, answer_to(words, io.BytesIO(text)))


def varint(number: int) -> bytes:
    return bytes([number]) if number < 128 else bytes([number & 127 | 128]) + varint(number >> 7)


def record(packet: bytes) -> bytes:
    return b'\x0a' + varint(len(packet)) + packet


def commit(number: int, packet: bytes) -> bytes:
    """A frame: a commit of a chunk with one fragment."""
    frame = bytes([1, 1]) + number.to_bytes(4, 'little') + bytes([1, 0, 1, 0, 0]) + varint(len(packet)) + packet
    return len(frame).to_bytes(4, 'little') + frame


def large_cases() -> list[Case]:
    """Each command with more output than a pipe holds, but `check` and `tune`, which write little."""
    lines = SET + b''.join(b'p 1 %d:"xy"*%d\n' % (101 + i, 20_000 + i) for i in range(12))
    replayed = case('replay', ['replay'], lines)
    sequences = b''.join(record(b'\x50' + varint(2 + i)) for i in range(6000))
    frames = b''.join(commit(i, b'\x0a' + varint(4000) + bytes([i]) * 4000) for i in range(100))
    return [replayed, case('run', ['run'], lines), case('clone', ['clone'], lines + b'f 1\nc 1\nk 1\n'),
            case('read', ['read'], sequences), case('check', ['check'], lines + b'==\n' + replayed.wanted.output),
            case('gen', ['gen', '7', '8', '1000']), case('stream', ['stream'], CONFIG + frames + CLOSE), case('tune', ['tune', '1', '2'])]


def short_cases() -> list[Case]:
    """Each command that reads with a few bytes of input."""
    played = [case(word, [word], b'buffer 4 ring\n') for word in ('replay', 'run', 'clone')]
    return [*played, case('read', ['read'], b'\x0a\x02\x50\x02'), case('check', ['check'], b'==\n\x0a\x02\x50\x07'),
            case('stream', ['stream'], b'==\n' + CLOSE)]


def ended_cases() -> list[Case]:
    """Each command that ends with a line, under each status that inputs and words alone bring about, but 7."""
    none = (b'p 1\n', b'x 1\n', b'k 1\n')
    refused = [case(f'{word}, refused', [word], text) for word, text in zip(('replay', 'run', 'clone'), none)]
    refused += [case('read, refused', ['read'], b'\x0a\x02\x50'), case('check, refused', ['check'], b'buffer 4 ring\n'),
                case('stream, refused', ['stream'], b'==\n' + CLOSE[:-1])]
    stalled = [case(f'{word}, stalled', [word], STALLS + b'p 1 8:1\nf 1\nc 1\nr 1\np 1 8:2\np 2 8:3\n') for word in ('replay', 'clone')]
    return [case('no command', ['play']), *refused, *stalled]


def roomy_cases() -> list[Case]:
    """Each command with buffers of 256 MB, or with an input of 30 MB, where it has any."""
    lines = b'buffer 65536 ring\n' * 4 + b'producer 64 65536 1\nwriter 1 4 drop\np 1 8:1\n'
    config = b'buffers { size_kb: 65536 }\n' * 4 + b'data_sources { config { target_buffer: 3 } }\n==\n'
    records = record(b'\x0a' + varint(1_000_000) + bytes(1_000_000) + b'\x50\x02') * 30
    frame = commit(0, b'\x40\x05').replace(b'\x01\x01', b'\x01\x04', 1)      # to the last buffer
    return [case('replay', ['replay'], lines), case('run', ['run'], lines), case('clone', ['clone'], lines + b'f 1\nc 1\nk 4\n'),
            case('read', ['read'], records), case('check', ['check'], b'#' + b'x' * 30_000_000 + b'\n==\n'),
            case('gen', ['gen', '7', '8', '1000']), case('stream', ['stream'], config + frame + CLOSE), case('tune', ['tune', '1', '2'])]


def example(name: str) -> bytes:
    with open(os.path.join(TOP, 'examples', name), 'rb') as file:
        return file.read()


def limited(kind: int, most: int, wanted: int | None = None, ignored: bool = True):
    """What sets a limit in the process before the program begins, and what becomes of a signal there."""
    def set_up():
        if wanted is not None:
            signal.signal(wanted, signal.SIG_IGN if ignored else signal.SIG_DFL)
        if kind >= 0:
            resource.setrlimit(kind, (most, most))
    return set_up


class Tries:
    def __init__(self, program: str, wanted: str):
        self.program, self.wanted, self.wrong, self.count = program, wanted, 0, 0
        self.large, self.short, self.ended, self.roomy = large_cases(), short_cases(), ended_cases(), roomy_cases()

    def run(self, words, text=b'', **how) -> Answer:
        if 'stdin' not in how:
            how['input'] = text
        how = {'stdout': subprocess.PIPE, 'stderr': subprocess.PIPE, **how}
        done = subprocess.run([self.program, *words], timeout=110, check=False, **how)
        return Answer(done.returncode, done.stdout or b'', done.stderr or b'')

    def run_by_shell(self, words, text, ends) -> Answer:
        shell = ['sh', '-c', f'exec "$0" "$@" {ends}', self.program, *words]
        done = subprocess.run(shell, input=text, capture_output=True, timeout=60, check=False)
        return Answer(done.returncode, done.stdout, done.stderr)

    def is_tried(self, name: str) -> bool:
        return self.wanted in name

    def say(self, name: str, found: Answer, *right: Answer) -> None:
        """One line a try: what was found is to be one of these."""
        self.say_whether(name, found in right, found, right[0])

    def say_whether(self, name: str, good: bool, found: Answer, right: object = '') -> None:
        self.wrong, self.count = self.wrong + (not good), self.count + 1
        shown = '' if good else f': found {str(found)[:300]}, wanted {str(right)[:300]}'
        print(f"{'right' if good else 'WRONG'}  {name}{shown}", flush=True)


def each_status(tries: Tries) -> None:
    """Each status with its line, by words and inputs that ask for it; all words of the process count, and their order."""
    hello, trace = example('hello.scenario'), example('hello.trace')
    words = [[], ['play'], ['help'], ['--help'], ['replay', 'read'], ['read', ''], ['gen'], ['gen', '1', '2'], ['gen', '1', '0', '1'],
             ['gen', '1', '1', '1', '1'], ['stream', '1'], ['tune', '9', '1'], ['tune', '1'], ['gen', '0', '1', '2'], ['tune', '1', '2']]
    cases = [case(' '.join(line) or 'no word', line, hello) for line in words]
    cases += [case(f'{word}, hello', [word], hello) for word in ('replay', 'run', 'clone')]
    cases += [case('read, hello', ['read'], trace), case('check, hello', ['check'], hello + b'==\n' + trace)]
    for one in [*cases, *tries.large, *tries.short, *tries.ended]:
        name = f'status {one.wanted.status}: {one.name}'
        if tries.is_tried(name):
            tries.say(name, tries.run(one.words, one.input), one.wanted)
    for word in READING:
        if tries.is_tried(f'status 7: {word}'):
            tries.say(f'status 7: {word}', tries.run([word], b'\n' * (MOST + 1)), Answer(7, b'', b'input too long\n'))
    if tries.is_tried('the most that may be read'):
        tries.say('the most that may be read', tries.run(['replay'], b'\n' * MOST), Answer(0))


def inputs(tries: Tries) -> None:
    """Inputs that can't be read: a command that reads none goes on."""
    for one in tries.large:
        right = Answer(4, b'', READ_FAULT) if one.words[0] in READING else one.wanted
        if tries.is_tried(f'a folder as input: {one.name}'):
            folder = os.open(TOP, os.O_RDONLY)
            tries.say(f'a folder as input: {one.name}', tries.run(one.words, stdin=folder), right)
            os.close(folder)
        if tries.is_tried(f'a closed input: {one.name}'):
            tries.say(f'a closed input: {one.name}', tries.run_by_shell(one.words, b'', '<&-'), right)


def slow_inputs(tries: Tries) -> None:
    """Inputs that come a byte at a time: a few bytes a second apart, and more of them faster."""
    for seconds, cases in [(1, tries.short), (0.005, tries.ended)]:
        named = [(f'a byte each {seconds} s: {one.name}', one) for one in cases if one.words[0] in READING]
        tasks = [threading.Thread(target=slow_input, args=(tries, name, one, seconds)) for name, one in named if tries.is_tried(name)]
        for task in tasks:
            task.start()
        for task in tasks:
            task.join()


def slow_input(tries: Tries, name: str, one: Case, seconds: float) -> None:
    child = subprocess.Popen([tries.program, *one.words], stdin=subprocess.PIPE, stdout=subprocess.PIPE, stderr=subprocess.PIPE)
    for byte in one.input:
        child.stdin.write(bytes([byte]))
        child.stdin.flush()
        time.sleep(seconds)
    output, text = child.communicate(timeout=60)
    tries.say(name, Answer(child.returncode, output, text), one.wanted)


def full_disks(tries: Tries) -> None:
    """A disk that is full from the start, under the trace and under the text."""
    with open('/dev/full', 'wb') as full:
        for one in [*tries.large, *tries.ended]:
            if tries.is_tried(f'a full disk: {one.name}'):
                right = Answer(5, b'', WRITE_FAULT) if one.wanted.output else one.wanted
                tries.say(f'a full disk: {one.name}', tries.run(one.words, one.input, stdout=full), right)
            if tries.is_tried(f'a full disk under the text: {one.name}'):
                right = Answer(5 if one.reports else one.wanted.status, one.wanted.output)
                tries.say(f'a full disk under the text: {one.name}', tries.run(one.words, one.input, stderr=full), right)


def growing_files(tries: Tries) -> None:
    """A file that may not grow past a limit: the trace takes what there is room for. The signal ends the program, unless it is ignored."""
    for one in tries.large:
        for most in [*(size for size in SIZES if size < len(one.wanted.output)), len(one.wanted.output) - 1]:
            for ignored in (True, False):
                name = f"a file of at most {most} bytes, its signal {'ignored' if ignored else 'not ignored'}: {one.name}"
                if tries.is_tried(name):
                    front = one.wanted.output[:most]
                    right = Answer(5, front, WRITE_FAULT) if ignored else Answer(-signal.SIGXFSZ, front)
                    limit = limited(resource.RLIMIT_FSIZE, most, signal.SIGXFSZ, ignored)
                    tries.say(name, into_file(tries, one, preexec_fn=limit, restore_signals=False), right)


def into_file(tries: Tries, one: Case, folder: str | None = None, **how) -> Answer:
    with tempfile.TemporaryFile(dir=folder) as file:
        done = tries.run(one.words, one.input, stdout=file, **how)
        file.seek(0)
        return Answer(done.status, file.read(), done.text)


def small_disks(tries: Tries) -> None:
    """A disk of 16 KB, where one can be mounted."""
    name = 'a disk of 16 KB'
    if not any(tries.is_tried(f'{name}: {one.name}') for one in tries.large):
        return
    with tempfile.TemporaryDirectory() as folder:
        if subprocess.run(['mount', '-t', 'tmpfs', '-o', 'size=16k', 'tmpfs', folder], capture_output=True, check=False).returncode != 0:
            print(f'left   {name}: it takes the rights to mount one', flush=True)
            return
        try:
            for one in [one for one in tries.large if len(one.wanted.output) > 16_384]:
                found = into_file(tries, one, folder)
                good = (found.status, found.text) == (5, WRITE_FAULT) and 0 < len(found.output) <= 16_384
                good = good and one.wanted.output.startswith(found.output)
                tries.say_whether(f'{name}: {one.name}', good, found, 'a front part')
        finally:
            subprocess.run(['umount', folder], check=False)


def closed_ends(tries: Tries) -> None:
    """Standard output and standard error that are closed from the start."""
    for one in [*tries.large, *tries.ended]:
        if tries.is_tried(f'a closed output: {one.name}'):
            right = Answer(5, b'', WRITE_FAULT) if one.wanted.output else one.wanted
            tries.say(f'a closed output: {one.name}', tries.run_by_shell(one.words, one.input, '>&-'), right)
        if tries.is_tried(f'a closed text: {one.name}'):
            right = Answer(5 if one.reports else one.wanted.status, one.wanted.output)
            tries.say(f'a closed text: {one.name}', tries.run_by_shell(one.words, one.input, '2>&-'), right)
        if tries.is_tried(f'both closed: {one.name}'):
            right = Answer(5 if one.reports or one.wanted.output else one.wanted.status)
            tries.say(f'both closed: {one.name}', tries.run_by_shell(one.words, one.input, '>&- 2>&-'), right)


def pipes(tries: Tries) -> None:
    """Pipes whose reader is gone, from the start or behind ten bytes. The program ignores the signal, whoever started it."""
    for one in [*tries.large, *tries.ended]:
        for ignored in (True, False):
            signalled = f"its signal {'ignored' if ignored else 'not ignored'}"
            start = {'preexec_fn': limited(-1, 0, signal.SIGPIPE, ignored), 'restore_signals': False}
            if tries.is_tried(f'a pipe without reader, {signalled}: {one.name}'):
                right = Answer(5, b'', WRITE_FAULT) if one.wanted.output else one.wanted
                tries.say(f'a pipe without reader, {signalled}: {one.name}', into_shut_pipe(tries, one, 'stdout', start), right)
            name = f'a pipe without reader under the text, {signalled}: {one.name}'
            if tries.is_tried(name):
                right = Answer(5 if one.reports else one.wanted.status, one.wanted.output)
                tries.say(name, into_shut_pipe(tries, one, 'stderr', start), right)
            if len(one.wanted.output) > 200_000 and tries.is_tried(f'a pipe that is read for ten bytes, {signalled}: {one.name}'):
                right = Answer(5, one.wanted.output[:10], WRITE_FAULT)
                tries.say(f'a pipe that is read for ten bytes, {signalled}: {one.name}', into_short_pipe(tries, one, start), right)


def into_shut_pipe(tries: Tries, one: Case, end: str, start: dict) -> Answer:
    reader, writer = os.pipe()
    os.close(reader)
    found = tries.run(one.words, one.input, **{end: writer}, **start)
    os.close(writer)
    return found


def into_short_pipe(tries: Tries, one: Case, start: dict) -> Answer:
    child = subprocess.Popen([tries.program, *one.words], stdin=subprocess.PIPE, stdout=subprocess.PIPE, stderr=subprocess.PIPE, **start)
    feeder = threading.Thread(target=feed, args=(child.stdin, one.input))
    feeder.start()
    output = os.read(child.stdout.fileno(), 10)
    child.stdout.close()
    feeder.join()
    text = child.stderr.read()
    child.stderr.close()
    return Answer(child.wait(timeout=60), output, text)


def signals(tries: Tries) -> None:
    """A signal that ends the program while it writes: no line, and a front part of the output."""
    for one in tries.large:
        for wanted in (signal.SIGINT, signal.SIGTERM, signal.SIGKILL):
            name = f'{wanted.name} while it writes: {one.name}'
            if len(one.wanted.output) > 200_000 and tries.is_tried(name):
                found = ended_by(tries, one, wanted)
                good = (found.status, found.text) == (-wanted, b'') and 0 < len(found.output) < len(one.wanted.output)
                tries.say_whether(name, good and one.wanted.output.startswith(found.output), found, 'a front part')


def ended_by(tries: Tries, one: Case, wanted: int) -> Answer:
    """The program waits for its reader, behind what the pipe holds."""
    child = subprocess.Popen([tries.program, *one.words], stdin=subprocess.PIPE, stdout=subprocess.PIPE, stderr=subprocess.PIPE)
    feed(child.stdin, one.input)
    first = child.stdout.read(1)
    child.send_signal(wanted)
    status = child.wait(timeout=60)
    return Answer(status, first + child.stdout.read(), child.stderr.read())


def feed(pipe, text: bytes) -> None:
    try:
        pipe.write(text)
        pipe.close()
    except BrokenPipeError:
        pass


def little_memory(tries: Tries) -> None:
    """An address space of so many MB: out of memory with nothing written, as where a thread can't be started, or all of it."""
    for one in tries.roomy:
        statuses, wrong = [], []
        if not tries.is_tried(f'10 to 500 MB: {one.name}'):
            continue
        for megabytes in MEGABYTES:
            found = tries.run(one.words, one.input, preexec_fn=limited(resource.RLIMIT_AS, megabytes * 1_000_000))
            statuses.append(found.status)
            if found not in (one.wanted, Answer(1, b'', NO_MEMORY)):
                wrong.append(found)
        counts = ', '.join(f'{statuses.count(status)} of status {status}' for status in sorted(set(statuses)))
        tries.say_whether(f'10 to 500 MB: {one.name}, {counts}', not wrong, wrong[:1], 'all, or out of memory')


def main() -> int:
    if len(sys.argv) < 2:
        sys.exit(__doc__)
    tries = Tries(os.path.abspath(sys.argv[1]), sys.argv[2] if len(sys.argv) > 2 else '')
    for part in [each_status, inputs, slow_inputs, full_disks, growing_files, small_disks, closed_ends, pipes, signals, little_memory]:
        part(tries)
    print(f'{tries.count} tries, {tries.wrong} wrong')
    return 1 if tries.wrong else 0


if __name__ == '__main__':
    sys.exit(main())
