"""Whole scenarios: all sequences of all buffers at once. Of each, what the writers did, what the service noted and the records of the
trace; of each writer, what became of each packet, and the report's line."""

from collections import Counter
from functools import cached_property

import histories
import recorder
import worlds
import writer_scripts
from account_proofs import proof_of, proofs_of_cuts
from account_words import HEAD, LEMMAS, WORDS
from antt_text import Statement, flag, listed, octets, record
from model import service
from model.chunks import read_fragments
from model.geometry import record_size
from model.limits import MOST_NUMBER

__all__ = ['HEAD', 'LEMMAS', 'PROOF_HEAD', 'WORDS', 'statements']

PROOF_HEAD = '''use Rattle.std.proofs.Common.{◌≡◌, ◌<◌, ◌≤◌, ℕ, true, false, List, [], ◌∷◌, ◌++◌, replicate, refl, arith}
use Rattle.std.proofs.lemmas.List.Elements.{All-from_recursion}
use Rattle.std.specs.Prelude.{slice_index_or}
use Rattle.trace_model.specs.Packets.{packets_of}
use Rattle.trace_model.specs.Cut.{IsWellFormedPage, CutsInto}
use Rattle.trace_model.specs.Delivery.{Delivered, sequence_of}
use Rattle.chunk_plain.specs.World.{writer}
use Rattle.world_model.specs.FirstBuffers.{payload_at}
use Rattle.world_model.specs.Accounts.{HasCut, InOrder, all_images}
use Rattle.computed.specs.Words.{Told, emitted_in, spliced}
use Rattle.computed.proofs.Everywhere.{at_each, told_at}
'''

MOST_SEEDS = 5000       # seeds that are looked at for a kind
MOST_EVENTS = 120       # of a scenario
MOST_CHARACTERS = 50000
MOST_READ = MOST_NUMBER // 2     # packets that a limit of a line allows
TIMES_CHARACTERS = 5    # the generated files are so many times as long as others

# What some of the scenarios have.
KINDS = ('scenarios of several writers', 'scenarios of several producers', 'scenarios of several buffers',
         'reads with a limit', 'parts of chunks', 'bodies with patches', 'closes before the end', 'chunks that are held at the end',
         'chunks that are held behind others', 'writers without a chunk',
         'packets delivered', 'packets dropped', 'packets overwritten', 'packets discarded', 'packets cut', 'front marks')


class Account:
    """A finished world of the model as lists: its writers, its events, its records and the report."""

    def __init__(self, name, world):
        self.name, self.world, self.scenario = name, world, world.scenario
        self.writers = [AccountOfWriter(self, place, writer) for place, writer in enumerate(world.service.writers)]
        self.events = events_in(recorder.WHOLE.events)
        self.records = [(event[1], one) for event in self.events if event[0] == 'read' for one in event[3]]
        assert [one for _, one in self.records] == world.out
        for writer in self.writers:
            writer.counts = worlds.reported(world, writer.writer)

    @cached_property
    def things(self):
        return things_of(self)

    def of(self, sequence):
        return self.writers[sequence - 2]


class AccountOfWriter:
    """What one writer did, and what became of each of its packets."""

    def __init__(self, account, place, writer):
        self.place, self.sequence, self.writer = place, place + 2, writer
        self.name = f'{account.name}_{place}'
        self.buffer = writer.spec.buffer
        self.size = writer.payload_size
        self.packets = writer_scripts.packets_of(writer.calls)      # the newest first
        self.pages = writer.pages()
        self.completed = len(writer.images)
        self.emitted = [packet.body()[len(packet.front):] for packet in self.packets[::-1] if packet.finished]
        self.taken = account.world.service.taken[place]
        notes = recorder.notes_of(account.world.service.buffers[self.buffer - 1])
        self.outcomes = list(outcomes_of(self, notes.fixed.get(self.sequence, [])))

    def images(self):
        return [record(sequence=self.sequence, chunk_id=number, count=page.count, flags=page.flags, payload=octets(page.payload))
                for number, page in enumerate(self.pages)]


def outcomes_of(writer, fixed):
    """What became of each packet, in the order of their begins: what was fixed first of the place at which it begins."""
    first = {}
    for position, passed, outcome in fixed:
        first.setdefault((position, passed), outcome)
    places = [(number, passed) for number, page in enumerate(writer.pages) for passed in range(page.count)
              if not (passed == 0 and page.flags & 1)]
    for packet in writer.packets[::-1]:
        yield first.get(places.pop(0), 'Absent Cut') if packet.kept else 'Absent Dropped'
    assert not places


def events_in(noted):
    """The events of all buffers in their order, in which the patches of a commit body are one event behind its chunk."""
    events, at = [], 0
    while at < len(noted):
        kind, number, *rest = noted[at]
        at += 1
        events.append((kind, number, *rest))
        if kind == 'arrive':
            patches = []
            while at < len(noted) and noted[at][0] == 'patch':
                patches.append(noted[at][3])
                at += 1
            if patches:
                events.append(('patched', number, rest[0], patches))
    return events


# Terms.

def sealed_ends(count, payload):
    """Where the first fragments of a payload end, so many."""
    return [one.end for one in read_fragments(payload, count)]


def event_term(event):
    kind, number, *rest = event
    if kind == 'arrive':
        return f'Arrives {number} {rest[0]} {histories.chunk_of(*rest[1])}'
    if kind == 'partial':
        count, flags, payload = rest[1]
        return f'ArrivesInPart {number} {rest[0]} {histories.chunk_of(count, flags, payload)}'
    if kind == 'patched':
        return f'Patched {number} {listed(histories.patch_of(patch.chunk_id, patch) for patch in rest[1])}'
    if kind == 'close':
        return f'Closed {number}'
    return f'Read {number} {histories.limit_term(rest[0])}'


def noted_term(event):
    """The event as the service notes it, with its content elsewhere."""
    kind, number, *rest = event
    if kind == 'arrive':
        return f'views.Arrive {number} {rest[0]}'
    if kind == 'partial':
        return f'views.Partial {number} {rest[0]} {rest[1][0]}'
    if kind == 'patched':
        return f'views.Patched {number} {rest[0]}'
    if kind == 'close':
        return f'views.Closed {number}'
    if kind == 'commit':
        return f'views.Commit {rest[0]}'
    return f'views.Read {number} {histories.limit_term(rest[0])}'


def look_term(event):
    """What the service found of a chunk that was being written."""
    _, number, position, (count, flags, payload), _ = event
    ends = sealed_ends(count, payload)
    found = record(place=number - 2, position=position, head=f'record {{ count = {count + 1}; flags = {flags} }}',
                   ends=listed(map(str, ends)), sealed=octets(payload[:ends[-1]]))
    return record(chunk=0, word=0, header=0, found=f'Some ({found})', taken='[]')


def setup_terms(account):
    full = {'ring': 'Ring', 'discard': 'Discard'}
    scenario = account.scenario
    setup = record(pages=0, spots='[]', ranges='[]', sizes=listed(str(producer.payload()) for producer in scenario.producers),
                   writers=listed(map(worlds.spec_term, scenario.writers)))
    buffers = listed(record(size=buffer.size(), policy=full[buffer.policy]) for buffer in scenario.buffers)
    return setup, buffers


def define(name, kind, term):
    return f'abbrev pub {name} : {kind}\n{name} = {term}\n\n'


def writer_specs(writer):
    """The definitions of a writer's part: its calls, its pages and what it began."""
    name = writer.name
    patches = listed(listed(map(writer_scripts.patch_term, page.patches)) for page in writer.pages)
    images = writer.images()
    return (define(f'calls_{name}', 'List Call', listed(map(writer_scripts.call_term, writer.writer.calls)))
            + define(f'pages_{name}', 'List Page', listed(page.term() for page in writer.pages))
            + define(f'contents_{name}', 'List views.Content',
                     f'contents_of {writer.buffer} {listed(images[:writer.completed])} {patches}')
            + define(f'held_{name}', 'List Image', listed(images[writer.completed:]))
            + define(f'view_{name}', 'views.WriterView',
                     record(asked='[]', claimed='[]', stamped='None', begun=f'begun_of contents_{name}', calls=f'calls_{name}',
                            letters='views.no_letters')))


def account_specs(account):
    """The definitions of a scenario: its set-up, its world, its events and its records."""
    name = account.name
    setup, buffers = setup_terms(account)
    looks = listed(look_term(event) for event in account.events if event[0] == 'partial')
    taken = listed(f'taken_first {writer.taken} contents_{writer.name}' for writer in account.writers)
    service = record(looks=looks, taken=taken, reading='[]', events=listed(map(noted_term, account.events)), commits='[]', letters='[]')
    views = listed(f'view_{writer.name}' for writer in account.writers)
    held = listed(f'held_{writer.name}' for writer in account.writers)
    records = listed(record(sequence=number, bytes=octets(one)) for number, one in account.records)
    return (''.join(map(writer_specs, account.writers)) + define(f'setup_{name}', 'Setup', setup)
            + define(f'buffers_{name}', 'List BufferSpec', buffers)
            + define(f'world_{name}', 'World', record(chunks='[]', writers=views, service=service))
            + define(f'held_{name}', 'ℕ → List Image', f'λ place. slice_index_or {held} place []')
            + define(f'events_{name}', 'List Event', listed(map(event_term, account.events)))
            + define(f'records_{name}', 'List Delivered', records))


def outcome_term(outcome):
    return 'Shown' if outcome == 'Delivered' else outcome


def asked_bytes(account, number):
    """The bytes of all records that a buffer's events ask for."""
    return sum(record_size(account.of(event[1]).size) for event in account.events
               if event[0] in ('arrive', 'partial') and account.of(event[1]).buffer == number and event[-1] in ('kept', 'discarded'))


def facts_of(account, counts_of):
    """The facts of a scenario, where the counts are those that are given for each writer."""
    name = account.name
    of_all = f'setup_{name} buffers_{name} world_{name}'
    yield f'IsComputed setup_{name} buffers_{name} world_{name} held_{name} events_{name} records_{name}'
    for number in range(1, len(account.scenario.buffers) + 1):
        yield f'(asked (buffer_at setup_{name} buffers_{name} {number}) events_{name} ≡ {asked_bytes(account, number)})'
    for writer in account.writers:
        yield (f'IsReported {of_all} {writer.place} {writer.buffer} pages_{writer.name} events_{name} '
               f'{listed(map(outcome_term, writer.outcomes))} ({record(**counts_of(writer))})')


def statement_of(account, counts):
    proof = proof_of(account)
    counts.update(account.things)

    def specs(counts_of):
        return account_specs(account) + define(f'Run{account.name}', 'Type 0', '\n    × '.join(facts_of(account, counts_of)))

    def spoilt(writer):
        wrong = writer is account.writers[-1]
        return dict(writer.counts, cut=writer.counts['cut'] + wrong, begun=writer.counts['begun'] + wrong)

    words = ('calls', 'pages', 'contents', 'held', 'view')
    uses = [f'{word}_{writer.name}' for writer in account.writers for word in words] \
        + [f'{word}_{account.name}' for word in ('setup', 'buffers', 'world', 'held', 'events', 'records')]
    lemmas = list(proofs_of_cuts(account))
    wrong = Statement(f'Run{account.name}', specs(spoilt), proof, uses=uses, lemmas=lemmas)
    return Statement(f'Run{account.name}', specs(lambda writer: writer.counts), proof, wrong, uses=uses, lemmas=lemmas, has=account.things)


def things_of(account):
    """How often the scenario has what few have, and other things."""
    scenario, counts = account.scenario, Counter()
    counts['scenarios'] += 1
    for word, parts in (('writers', scenario.writers), ('producers', scenario.producers), ('buffers', scenario.buffers)):
        counts[f'scenarios of several {word}'] += len(parts) > 1
    counts['closes before the end'] += sum(line.kind == 'x' for line in scenario.lines)
    for event in account.events:
        counts['reads with a limit'] += event[0] == 'read' and event[2] < MOST_READ
        counts['parts of chunks'] += event[0] == 'partial'
        counts['bodies with patches'] += event[0] == 'patched'
    for writer in account.writers:
        held = len(writer.pages) - writer.completed
        counts['chunks that are held at the end'] += held
        counts['chunks that are held behind others'] += held if writer.completed else 0
        counts['writers without a chunk'] += not writer.pages
        counts['front marks'] += sum(bool(packet.front) for packet in writer.packets)
        for word, value in writer.counts.items():
            counts[f'packets {word}'] += value
    return +counts


def accounts(first, wanted):
    """At least so many whole scenarios of the model with a packet, from this seed on, and more until each of the kinds is among them."""
    recorder.record_all()
    service.Writer = writer_scripts.Recorded
    made, seed, lacking = 0, first, set(KINDS)
    while made < wanted or (lacking and seed < first + MOST_SEEDS):
        seed += 1
        world = histories.played(seed - 1)
        if not world or not world.is_whole or len(recorder.WHOLE.events) > MOST_EVENTS or not any(writer.begun for writer in world.service.writers):
            continue
        account = Account(str(seed - 1), world)
        if len(account_specs(account)) > MOST_CHARACTERS or (made >= wanted and not lacking & set(account.things)):
            continue
        lacking -= set(account.things)
        made += 1
        yield account


def statements(first, wanted, counts):
    for account in accounts(first, wanted):
        yield statement_of(account, counts)
