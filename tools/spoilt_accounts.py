"""Whole scenarios with one thing wrong: in the trace, in the report, or in what the service noted. Each is to be refused, and for each
the proof is the nearest one to a right one."""

import random
from collections import Counter, namedtuple

import account_proofs
import worlds
from accounts import account_specs, event_term, look_term, noted_term, outcome_term
from antt_text import Statement, listed, octets, record
from model.chunks import read_fragments
from model.wire import MARK, record as trace_record

# A spoilt list: what stands in place of so many elements from a place on, and the whole list then. `sequence` is the one to look at.
Splice = namedtuple('Splice', 'sequence at count new whole')

INVENTED = b'\x08\xad\xfb\x03'


def spliced(sequence, whole, at, count, new):
    return Splice(sequence, at, count, new, whole[:at] + new + whole[at + count:])


def body_of(one, sequence):
    """The bytes of a record's packet with its marks in front, and whether the service marked it."""
    for marked in (False, True):
        tail = len(trace_record(b'', sequence, marked)) - 2
        for head in range(2, 6):
            body = one[head:len(one) - tail]
            if trace_record(body, sequence, marked) == one:
                return body, marked
    raise AssertionError('no record')


def with_body(one, sequence, change):
    body, marked = body_of(one, sequence)
    return trace_record(change(body), sequence, marked)


def unmarked(one, sequence):
    body, _ = body_of(one, sequence)
    return trace_record(body[len(MARK):] if body.startswith(MARK) else body, sequence, False)


# The trace.

def single_spoils(account):
    """One record changed, doubled, taken away or put in."""
    records = account.records
    for at, (sequence, one) in enumerate(records):
        others = [other for other in account.writers if other.sequence != sequence]
        body, marked = body_of(one, sequence)
        yield 'a packet twice', spliced(sequence, records, at, 0, [(sequence, one)])
        yield 'a packet missing', spliced(sequence, records, at, 1, [])
        yield 'an invented packet', spliced(sequence, records, at, 0, [(sequence, trace_record(INVENTED, sequence, False))])
        yield 'a mark too many', spliced(sequence, records, at, 1, [(sequence, trace_record(body, sequence, True))])
        yield 'a mark missing', spliced(sequence, records, at, 1, [(sequence, unmarked(one, sequence))])
        if body and body != MARK:
            torn = with_body(one, sequence, lambda body: body[:-1] + bytes([body[-1] ^ 1]))
            yield 'another byte', spliced(sequence, records, at, 1, [(sequence, torn)])
            yield 'a packet cut short', spliced(sequence, records, at, 1, [(sequence, with_body(one, sequence, lambda body: body[:-1]))])
        for other in others:
            yield 'the number of another sequence', spliced(other.sequence, records, at, 1, [(other.sequence, one)])
            for packet in other.emitted:
                foreign = trace_record(packet, sequence, marked)
                yield 'a packet of another sequence', spliced(sequence, records, at, 1, [(sequence, foreign)])


def swap_spoils(account):
    records = account.records
    for at, (sequence, one) in enumerate(records):
        behind = next((i for i in range(at + 1, len(records)) if records[i][0] == sequence), None)
        if behind is not None:
            swapped = [records[behind], *records[at + 1:behind], records[at]]
            yield 'two packets out of order', spliced(sequence, records, at, len(swapped), swapped)
            # (each bears the mark that its new place asks for)
            first, later = body_of(one, sequence), body_of(records[behind][1], sequence)
            moved = [(sequence, trace_record(later[0], sequence, first[1])), *records[at + 1:behind],
                     (sequence, trace_record(first[0], sequence, later[1]))]
            yield 'two packets out of order, with marks in order', spliced(sequence, records, at, len(moved), moved)


def nearest_places(emitted, records, sequence):
    """Of each record the place of a packet that it tells of as nearly as any."""
    places, following = [], 0
    for k, one in enumerate(records):
        ways = [(at, front, behind) for at in range(len(emitted)) for front in (False, True) for behind in (False, True)
                if trace_record((MARK if front else b'') + emitted[at], sequence, behind) == one]
        best = min(ways, default=(min(following, max(len(emitted) - 1, 0)), False, False), key=lambda way: (
            way[0] < following, (way[1] or way[2]) != (k == 0 or way[0] != following), way))
        places.append(best)
        following = best[0] + 1
    return places


def trace_fact(account, splice):
    """The fact that a spoilt trace tells of the packets, and its proof; None where it does."""
    writer = account.of(splice.sequence)
    own = [one for number, one in splice.whole if number == splice.sequence]
    if worlds.told_places(writer.emitted, own, splice.sequence) is not None:
        return None
    new = listed(record(sequence=number, bytes=octets(one)) for number, one in splice.new)
    fact = (f'Told (emitted_in world_{account.name}) '
            f'(spliced {splice.at} {splice.count} ({new}) records_{account.name}) {writer.place}')
    return fact, worlds.told_term(nearest_places(writer.emitted, own, splice.sequence))


def stranger_spoils(account):
    """A record whose sequence is no writer's: the service's own, or the one behind the last writer's."""
    for at, (_, one) in enumerate(account.records):
        yield 'a record of the service\'s sequence', at, (1, one)
        yield 'a record of no sequence', at, (len(account.writers) + 2, one)


def stranger_fact(account, at, one):
    records = f'spliced {at} 0 {listed([record(sequence=one[0], bytes=octets(one[1]))])} records_{account.name}'
    return (f'IsFaithful (emitted_in world_{account.name}) ({records})',
            account_proofs.faithful_proof(account, len(account.records) + 1, records))


# The report.

def count_spoils(account):
    """One count changed, or one packet counted elsewhere."""
    causes = ('dropped', 'overwritten', 'discarded', 'cut')
    for writer in account.writers:
        for word in ('delivered', *causes):
            value = writer.counts[word]
            if value:
                yield 'a count one too low', writer, {word: value - 1}
                yield 'a packet counted twice', writer, {word: value + 1}
                for other in ('delivered', *causes):
                    if other != word:
                        yield 'a packet under another cause', writer, {word: value - 1, other: writer.counts[other] + 1}


def count_facts(account, name, writer, changes):
    """The facts that a changed report is balanced, where its sum is another, and that it counts the packets' outcomes."""
    counts = record(**dict(writer.counts, **changes))
    refls = record(begun='refl', delivered='refl', dropped='refl', overwritten='refl', discarded='refl', cut='refl')
    if name != 'a packet under another cause':
        yield f'IsBalanced ({counts})', record(sum='refl')
    yield (f'CountsOutcomes (buffer_at setup_{account.name} buffers_{account.name} {writer.buffer}).policy '
           f'{listed(map(outcome_term, writer.outcomes))} ({counts})'), refls


# What the service noted.

def ends_in_drop_mark(event):
    count, _, payload = event[3]
    return read_fragments(payload, count)[-1].dropped


def part_of(event):
    """An arrival as the arrival of a part with all fragments."""
    _, sequence, position, (count, flags, payload), outcome = event
    return 'partial', sequence, position, (count, flags & 1, payload), outcome


def event_spoils(account):
    """One event put in, doubled or taken away."""
    events = account.events
    for at, event in enumerate(events):
        kind, sequence = event[:2]
        if kind == 'patched':
            before = 'a chunk' if events[at + 1][0] == 'arrive' else 'a read, a close or a part'
            yield f'patches left out before {before}', spliced(sequence, events, at, 1, [])
        if kind != 'arrive':
            continue
        later = [other for other in events[at + 1:] if other[:2] == ('arrive', sequence)]
        if not ends_in_drop_mark(event):
            yield 'a part with all fragments', spliced(sequence, events, at, 0, [part_of(event)])
        yield 'a chunk twice', spliced(sequence, events, at, 0, [event])
        close = next(i for i in range(at, len(events)) if events[i] == ('close', sequence))
        yield 'a chunk behind its close', spliced(sequence, events, at, close + 1 - at, [events[close], *events[at:close]])
        if later:
            behind = [other for other in events[at + 1:at + 2] if other[0] == 'patched']
            yield 'a chunk left out', spliced(sequence, events, at, 1 + len(behind), [])
        elif event[2]:
            yield 'a chunk at another position', spliced(sequence, events, at, 1, [('arrive', sequence, event[2] - 1, *event[3:])])


def event_facts(account, splice):
    """The facts that spoilt events, and the notes that they come from, are in order for the writer's sequence."""
    writer, name = account.of(splice.sequence), account.name
    yield (f'InOrder (sheets_of (newest_goes_on (packets_of calls_{writer.name})) pages_{writer.name}) {writer.sequence} 0 false [] '
           f'(spliced {splice.at} {splice.count} {listed(map(event_term, splice.new))} events_{name})',
           account_proofs.chosen(account_proofs.buffer_steps(splice.whole, writer), 'refl'))
    looks = f'world_{name}.service.looks'
    for event in splice.new:
        if event[0] == 'partial':
            looks = f'({look_term(event)}) ∷ {looks}'
    service = f'record world_{name}.service {{ looks = {looks} }}'
    yield (f'accounts.InOrder (accounts.all_images view_{writer.name} held_{writer.name}) ({service}) {writer.sequence} 0 false [] '
           f'(spliced {splice.at} {splice.count} {listed(map(noted_term, splice.new))} world_{name}.service.events)',
           account_proofs.chosen(account_proofs.noted_steps(splice.whole, writer), 'refl'))


# All ways.

WAYS = ('a packet twice', 'a packet missing', 'an invented packet', 'a mark too many', 'a mark missing', 'another byte',
        'a packet cut short', 'the number of another sequence', 'a packet of another sequence', 'two packets out of order',
        'two packets out of order, with marks in order', 'a record of the service\'s sequence', 'a record of no sequence',
        'a count one too low', 'a packet counted twice', 'a packet under another cause', 'patches left out before a chunk',
        'patches left out before a read, a close or a part', 'a part with all fragments', 'a chunk twice', 'a chunk behind its close',
        'a chunk left out', 'a chunk at another position')


def facts_of(account, ways=WAYS, most=1):
    """Of each of these ways that can be made in the scenario, at most so often: its name, and facts with proofs, each of which is to be
    refused."""
    options = [(name, lambda splice=splice: [trace_fact(account, splice)])
               for spoils in (single_spoils, swap_spoils) for name, splice in spoils(account)]
    options += [(name, lambda rest=rest: [stranger_fact(account, *rest)]) for name, *rest in stranger_spoils(account)]
    options += [(name, lambda name=name, rest=rest: list(count_facts(account, name, *rest)))
                for name, *rest in count_spoils(account)]
    options += [(name, lambda splice=splice: list(event_facts(account, splice))) for name, splice in event_spoils(account)]
    random.Random(account.name).shuffle(options)
    made = Counter()
    for name, facts in options:
        if name not in ways or made[name] == most:
            continue
        found = [fact for fact in facts() if fact]
        if found:
            made[name] += 1
            yield name, found


def statements_of(account, counts, *chosen):
    """The spoilt statements of a scenario, of which the first has the scenario's definitions in front."""
    words = ('calls', 'pages', 'contents', 'held', 'view')
    uses = [f'{word}_{writer.name}' for writer in account.writers for word in words] \
        + [f'{word}_{account.name}' for word in ('setup', 'buffers', 'world', 'held', 'events', 'records')]
    front, number = account_specs(account), 0
    for name, facts in facts_of(account, *chosen):
        counts[f'spoilt: {name}'] += 1
        for fact, proof in facts:
            title = f'Run{account.name}_{number}'
            specs = f'{front}abbrev pub {title} : Type 0\n{title} = {fact}\n\n'
            yield Statement(title, specs, proof, uses=uses if number == 0 else ())
            front, number = '', number + 1
