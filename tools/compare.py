#!/usr/bin/env python3
"""Compares a program with the second reading in tools/model, on random inputs.

    tools/compare.py PROGRAM                              100 inputs of each kind
    tools/compare.py PROGRAM --seeds 0-9999 --kinds replay,broken --keep FOLDER

PROGRAM is the path of a built `tracesmb`, or a command in one word. Of each kind the seeds are the inputs: what is compared is the status,
standard output and standard error, byte for byte.

    replay    random scenarios                      read, damaged   traces of any fields, and records with some bytes wrong
    broken    scenarios with something wrong        check           scenarios with their traces, some of them spoilt
    gen       small workloads                       words           words of every command, and others
    tune      turns of users, by the sums that any order has to keep
    clone     scenarios whose lines make clones of buffers
    raw       scenarios whose lines commit chunks that no writer made
    stream    configuration texts and frames, some of them broken
    settled   `run` of scenarios whose outcome no thread decides
    run       `run` of any: that the trace tells of the scenario, by the second reading's `check`, that each line of the report adds up,
              and that it counts the trace's records; of a refused one the line

What differs is kept in FOLDER, a folder of its own for each input, if one is named.
"""

import argparse
import io
import os
import random
import shlex
import subprocess
import sys
from collections import Counter

HERE = os.path.dirname(os.path.abspath(__file__))
sys.path.insert(0, HERE)

import random_inputs as inputs      # noqa: E402
import random_streams               # noqa: E402
from model.answers import Answer    # noqa: E402
from model.check import check       # noqa: E402
from model.commands import TO_COME, answer_to   # noqa: E402
from model.replay import replay     # noqa: E402
from model.run import run           # noqa: E402
from model.scenario import read_scenario    # noqa: E402
from model.tracefile import BadTrace, read_trace    # noqa: E402

MOST_SECONDS = 120
LIVELY = 'csrq'             # the service's lines that `run` plays


def made_replay(seed, tries):
    return ['replay'], inputs.scenario(seed, tries)


def made_broken(seed, tries):
    return [random.Random(seed).choice(['replay', 'replay', 'replay', 'run', 'check', 'clone'])], inputs.broken(seed, tries)


def made_read(seed, _):
    return ['read'], inputs.trace(seed)


def made_damaged(seed, tries):
    data = inputs.trace(seed) if seed % 3 == 0 else replay(inputs.scenario(seed, tries)).output
    return ['read'], inputs.damaged(seed, data)


def made_check(seed, tries):
    text = inputs.scenario(seed, tries)
    if seed % 4 == 0:
        text += text[text.index(b'writer'):].replace(b'writer', b'#') if b'writer' in text else b''
    records = read_trace(replay(text).output)
    return ['check'], text + b'==\n' + inputs.spoilt(seed, records, text.count(b'writer'))


def made_gen(seed, _):
    chooser = random.Random(seed)
    number = chooser.choice([0, 1, 7, 2 ** 64 - 1, chooser.randrange(2 ** 64)])
    return ['gen', str(number), str(chooser.choice([1, 2, 3, 8, 64])), str(chooser.choice([1, 2, 10, 100]))], b''


def made_words(seed, _):
    chooser = random.Random(seed)
    odd = ['', '0', '1', '01', '-1', '+1', '64', '65', '100000', '100001', '18446744073709551615', '18446744073709551616', '1 ', '٣',
           '1.0', '9' * 40, 'help', '--help', '-h', '--version', 'Replay', 'replay', 'run', 'read', 'check', 'gen', 'stream', 'clone', 'tune', '--']
    words = [chooser.choice(['replay', 'run', 'read', 'check', 'stream', 'clone', 'gen', 'gen', 'gen', *odd])]
    count = chooser.choice([0, 0, 1, 3, 3, 3, 4]) if words != ['gen'] else chooser.choice([0, 2, 3, 3, 3, 3, 3, 4])
    words += [chooser.choice(odd if chooser.random() < .3 else ['0', '1', '2', '7']) for _ in range(count)]
    return words, b''


def made_clone(seed, tries):
    return [random.Random(seed).choice(['clone'] * 20 + ['replay', 'run', 'check'])], inputs.with_clones(seed, tries)


def made_raw(seed, tries):
    return [random.Random(seed).choice(['clone'] if seed % 5 == 4 else ['replay'] * 12 + ['clone', 'run', 'check'])], inputs.with_raws(seed, tries)


def made_stream(seed, _):
    return ['stream'], random_streams.stream(seed)


def made_settled(seed, tries):
    return ['run'], inputs.settled(seed, tries)


def made_run(seed, tries):
    return ['run'], inputs.scenario(seed, tries, LIVELY if seed % 10 else LIVELY + 'x')


def made_tune(seed, _):
    chooser = random.Random(seed)
    return ['tune', str(chooser.choice([1, 1, 2, 3, 8])), str(chooser.choice([1, 2, 3, 10, 100, 2000]))], b''


KINDS = {'replay': made_replay, 'broken': made_broken, 'read': made_read, 'damaged': made_damaged, 'check': made_check, 'gen': made_gen,
         'words': made_words, 'clone': made_clone, 'raw': made_raw, 'stream': made_stream, 'settled': made_settled, 'run': made_run, 'tune': made_tune}


def answer_of(program: list[str], words: list[str], data: bytes) -> Answer:
    try:
        done = subprocess.run([*program, *words], input=data, capture_output=True, timeout=MOST_SECONDS, check=False)
    except subprocess.TimeoutExpired:
        return Answer(-1, text=b'no answer\n')
    return Answer(done.returncode, done.stdout, done.stderr)


def faults_of_run(data: bytes, found: Answer, model: Answer) -> list[str]:
    """What is wrong with the answer of a run whose order nobody knows."""
    if model.status != 0 or found.status != 0:
        return [] if found == model else ['another status or text']
    faults = []
    try:
        records = read_trace(found.output)
    except BadTrace as fault:
        return [f'the trace has a fault: {fault}']
    if check(data + b'==\n' + found.output).text or check(data + b'==\n' + found.output).output != f'agrees {len(records)}\n'.encode():
        faults.append('the trace does not tell of the scenario')
    delivered = Counter(record.sequence for record in records)
    begun = [line for line in model.text.decode().splitlines() if line.startswith('sequence')]
    lines = [line for line in found.text.decode(errors='replace').splitlines() if line.startswith('sequence')]
    for line, other in zip(lines, begun, strict=False):
        words = line.split()
        counts = dict(zip(words[::2], map(int, words[1::2])))
        if sum(counts.values()) - counts['sequence'] != 2 * counts['begun'] or line.split()[:4] != other.split()[:4]:
            faults.append(f'the line does not add up: {line}')
        if counts['delivered'] != delivered[counts['sequence']]:
            faults.append(f'the trace has {delivered[counts["sequence"]]} records: {line}')
    return [*faults, *faults_of_flushes(found, model)] if len(lines) == len(begun) else [*faults, 'lines of the report are missing']


def flush_lines(answer: Answer) -> list[list[str]]:
    return [line.split() for line in answer.text.decode(errors='replace').splitlines() if line.startswith('flush')]


def faults_of_flushes(found: Answer, model: Answer) -> list[str]:
    """A line for each request; a writer never answers a later one with fewer chunks."""
    lines, others = flush_lines(found), flush_lines(model)
    if [line[:3] for line in lines] != [line[:3] for line in others]:
        return ['other lines of flush requests']
    sums = [int(line[3]) for line in lines]
    return [] if sums == sorted(sums) else [f'the chunks of flush requests fall: {sums}']


def faults_of_tune(words: list[str], found: Answer, model: Answer) -> list[str]:
    """What is wrong with the lines of users whose order nobody knows: their words, their turns, and the sums."""
    lines, others = ([line.split() for line in answer.output.decode(errors='replace').splitlines()] for answer in (found, model))
    if (found.status, found.text, len(lines)) != (0, b'', len(others)) or any(a[::2] != b[::2] for a, b in zip(lines, others)):
        return ['another status, text, or other words']
    faults, sums = [], Counter()
    for line, other in zip(lines, others):
        counts, wanted = (dict(zip(words[::2], map(int, words[1::2]))) for words in (line, other))
        sums.update({word: counts[word] for word in counts if word not in ('user', 'page', 'chunks')})
        for kind in (('claimed', 'none'), ('retiled', 'refused')):
            if sum(counts.get(word, 0) for word in kind) != sum(wanted.get(word, 0) for word in kind):
                faults.append(f'the turns do not add up: {" ".join(line)}')
    if sums['claimed'] != sums['taken'] or sums['retiled'] != sums['generation']:
        faults.append(f'the sums differ: {dict(sums)}')
    # (of one user's first two turns nothing is left to an order)
    return faults if words[1] != '1' or int(words[2]) > 2 or found == model else [*faults, 'the answers differ']


def complete_by_lines(data: bytes) -> set[int]:
    """The sequences of writers that stall and never drop."""
    scenario = read_scenario(data)
    return {number + 1 for number, writer in enumerate(scenario.writers, 1) if writer.policy == 'stall' and writer.tries is None}


def faults_of_stalls(data: bytes, found: Answer) -> list[str]:
    """A writer that stalls drops nothing."""
    lines = [line.split() for line in found.text.decode(errors='replace').splitlines() if line.startswith('sequence')]
    stalls = complete_by_lines(data)
    return [f'a writer that stalls dropped a packet: {" ".join(words)}' for words in lines if int(words[1]) in stalls and words[7] != '0']


def compared(kind: str, seed: int, program: list[str], tries: bool) -> tuple[list[str], bytes, Answer, Answer, list[str]]:
    words, data = KINDS[kind](seed, tries)
    found = answer_of(program, words, data)
    if words == ['run'] and kind != 'settled':
        model = run(data, seed)
        faults = faults_of_run(data, found, model)
        if found.status == 0 and not faults:
            faults = faults_of_stalls(data, found)
        return words, data, found, model, faults
    model = answer_to(words, io.BytesIO(data))
    if words[:1] == ['tune'] and model.status == 0:
        return words, data, found, model, faults_of_tune(words, found, model)
    return words, data, found, model, [] if found == model else ['the answers differ']


def keep(folder: str, words: list[str], data: bytes, found: Answer, model: Answer, faults: list[str]) -> None:
    os.makedirs(folder, exist_ok=True)
    parts = {'input': data, 'words': shlex.join(words).encode() + b'\n', 'faults': '\n'.join(faults).encode() + b'\n'}
    for name, answer in (('program', found), ('model', model)):
        parts |= {f'{name}.status': f'{answer.status}\n'.encode(), f'{name}.output': answer.output, f'{name}.text': answer.text}
    for name, content in parts.items():
        with open(os.path.join(folder, name), 'wb') as out:
            out.write(content)


def seeds_in(text: str) -> range:
    first, _, last = text.partition('-')
    return range(int(first), int(last or first) + 1)


def main() -> int:
    parser = argparse.ArgumentParser(description=__doc__, formatter_class=argparse.RawDescriptionHelpFormatter)
    parser.add_argument('program')
    parser.add_argument('--seeds', type=seeds_in, default=seeds_in('0-99'), help='FIRST-LAST (0-99)')
    parser.add_argument('--kinds', default=','.join(kind for kind in KINDS if kind not in TO_COME), help='some of ' + ','.join(KINDS))
    parser.add_argument('--keep', metavar='FOLDER', help='where what differs is kept')
    parser.add_argument('--without-tries', action='store_true', help='no writer has the policy stall:N')
    options = parser.parse_args()
    program, differing = shlex.split(options.program), 0
    for kind in options.kinds.split(','):
        statuses = Counter()
        for seed in options.seeds:
            words, data, found, model, faults = compared(kind, seed, program, not options.without_tries)
            statuses[model.status] += 1
            if faults:
                differing += 1
                print(f'{kind} {seed}: {"; ".join(faults)}', flush=True)
                if options.keep:
                    keep(os.path.join(options.keep, f'{kind}-{seed}'), words, data, found, model, faults)
        of_statuses = ', '.join(f'{count} of status {status}' for status, count in sorted(statuses.items()))
        print(f'{kind}: {sum(statuses.values())} inputs, {of_statuses}', flush=True)
    print(f'{differing} differ')
    return 1 if differing else 0


if __name__ == '__main__':
    sys.exit(main())
