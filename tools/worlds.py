"""Whole scenarios: writers, service and report. Of each writer: the report's line, one outcome for each packet, and the
records of its sequence, which tell of the packets that it emitted."""

from itertools import pairwise

import histories
import recorder
import writer_scripts
from antt_text import Statement, flag, listed, octets, record
from model import service
from model.fields import length_of
from model.geometry import record_size
from model.report import counts_of
from model.wire import MARK, record as trace_record

WORDS = '''-- What a writer of a whole scenario is compared in.
use Rattle.std.specs.Prelude.{◌≡◌, ℕ, Bool, true, false, not, ◌&&◌, IsTrue, List, [], ◌∷◌, map}
use Rattle.std.specs.List.{list_any}
use Rattle.trace_model.specs.Calls.{Call}
use Rattle.trace_model.specs.Images.{Image, Patch}
use Rattle.trace_model.specs.Packets.{emissions_of, AreCalls}
use Rattle.trace_model.specs.Pages.{Page}
use Rattle.trace_model.specs.Cut.{IsCut}
use Rattle.trace_model.specs.Sequences.{Cursor, sequence_in}
use Rattle.trace_model.specs.Buffers.{Buffer}
use Rattle.trace_model.specs.History.{Event, state_after, records_after}
use Rattle.trace_model.specs.Delivery.{records_of}
use Rattle.trace_model.specs.Tells.{Tells}
use Rattle.trace_model.specs.Causes.{Fixed, fixed_after, is_same_place}
use Rattle.trace_model.specs.Balance.{PacketCounts, IsBalanced, CountsOutcomes, counts_of, packet_outcomes}
use Rattle.trace_model.specs.Enough.{ChunkRoom, WriterLoad, has_chunks_enough, has_bytes_enough}

abbrev pub are_distinct : List Cursor → Bool
are_distinct [] = true
are_distinct (at ∷ others) = not (list_any (λ other. is_same_place other at) others) && are_distinct others

pub record IsComputed (size sequence : ℕ) (calls : List Call) (images : List Image) (patches : List (List Patch)) (b : Buffer)
    (events : List Event) (records : List (List ℕ)) (counts : PacketCounts) : Type 0 where
  pub possible : AreCalls calls
  pub cut : IsCut size sequence calls images patches
  pub written : records_of sequence (records_after (b ∷ []) events) ≡ records
  pub told : Tells (emissions_of calls) sequence records
  pub reported : counts_of b.policy calls (sequence_in (state_after b events).sequences sequence) ≡ counts
  pub balanced : IsBalanced counts
  pub caused : CountsOutcomes b.policy (packet_outcomes (fixed_after sequence b events) calls cut.pages) counts
  pub once : IsTrue (are_distinct (map (λ (fixed : Fixed). fixed.at) (fixed_after sequence b events)))

-- whether chunks and bytes are enough
abbrev pub are_enough : List ℕ → List ChunkRoom → List WriterLoad → Bool
are_enough buffers producers loads = has_chunks_enough producers loads && has_bytes_enough buffers producers loads
'''

HEAD = '''-- Writers of whole scenarios.
use Rattle.std.specs.Prelude.{◌≡◌, ℕ, ◌-◌, ◌^◌, Bool, true, false, List, [], ◌∷◌, ◌++◌, replicate}
use Rattle.trace_base.specs.declared.policy.FullPolicy.TheVariants.{Ring, Discard}
use Rattle.trace_model.specs.Calls.{Call, Begun, Number, Bytes, Nested, Ended, GivenUp, Finished, Flushed}
use Rattle.trace_model.specs.Images.{Fragment, Image, Chunk, Patch}
use Rattle.trace_model.specs.Pages.{Page}
use Rattle.trace_model.specs.Sequences.{fresh}
use Rattle.trace_model.specs.Buffers.{Buffer, empty_buffer}
use Rattle.trace_model.specs.History.{Event, Arrives, ArrivesInPart, Patched, Committed, Closed, Read}
use Rattle.trace_model.specs.Balance.{PacketCounts}
use Rattle.trace_base.specs.declared.policy.WriterPolicy.TheVariants.{Drops, Stalls}
use Rattle.trace_model.specs.Enough.{ChunkRoom, WriterLoad}
use Rattle.computed.specs.Words.{IsComputed, are_enough}

abbrev pub no_limit : ℕ
no_limit = 2 ^ 64 - 1

'''

PROOF_HEAD = writer_scripts.PROOF_HEAD


MOST_SEEDS = 5000           # seeds that are looked at for a thing
MOST_CHARACTERS = 12000     # of a writer's calls and its buffer's events

# What some of the writers have.
THINGS = ('enough', 'enough but for one chunk of each packet', 'enough but for half of the bytes', 'packets that a read passed as cut',
          'packets of which nothing is fixed', 'a record right behind the one before', 'a record behind a missing packet',
          *(f'writers with packets {word}' for word in ('delivered', 'dropped', 'overwritten', 'discarded', 'cut')))


def told_places(emitted, records, sequence):
    """The places of the records among the emitted packets, with their marks in front and behind; None where there are none."""
    def found(k, following):
        if k == len(records):
            return []
        for at in range(following, len(emitted)):
            for front in (False, True):
                for behind in (False, True):
                    body = (MARK if front else b'') + emitted[at]
                    if (front or behind) == (k == 0 or at != following) \
                            and trace_record(body, sequence, behind) == records[k]:
                        rest = found(k + 1, at + 1)
                        if rest is not None:
                            return [(at, front, behind), *rest]
        return None

    return found(0, 0)


def told_term(places):
    """The places as a proof that the records tell of the packets."""
    proof = 'tt'
    for at, front, behind in reversed(places):
        one = record(packet='_', emitted_there='refl', not_before='omega arith', front=flag(front),
                     behind=flag(behind), exact='refl', marked='refl')
        proof = f'({at}, {one}, {proof})'
    return proof


def most_chunks(payload, lengths):
    """At most so many chunks hold packets of these lengths: a full one has all its payload but seven bytes of them at least."""
    return sum(1 + length // (payload - 7) for length in lengths)


def is_enough(world, first=False, chunks_of=most_chunks, bytes_of=record_size):
    """Chunks and bytes are enough, so that no packet can be absent; or they would be if each writer had the packets of the first."""
    scenario, loads = world.scenario, list(loads_of(world))
    if first:
        loads = [(spec, loads[0][1]) for spec, _ in loads]
    for number, producer in enumerate(scenario.producers, 1):
        own = [(spec, lengths) for spec, lengths in loads if spec.producer == number]
        chunks = sum(chunks_of(producer.payload(), lengths) for _, lengths in own)
        if any(spec.policy != 'stall' or spec.tries for spec, _ in own) and chunks > producer.pages * producer.chunks:
            return False
    for number, buffer in enumerate(scenario.buffers, 1):
        payloads = [(scenario.producers[spec.producer - 1].payload(), lengths) for spec, lengths in loads if spec.buffer == number]
        if sum(chunks_of(payload, lengths) * bytes_of(payload) for payload, lengths in payloads) > buffer.size():
            return False
    return True


def loads_of(world):
    """Of each writer its specification, and the lengths of the packets that it finishes."""
    for number, spec in enumerate(world.scenario.writers, 1):
        lengths, length = [], 0
        for line in world.scenario.lines:
            if line.kind not in ('p', 'b', 'a', 'n', 'e') or line.of != number:
                continue
            length = (0 if line.kind in ('p', 'b') else length) + sum(map(length_of, line.parts))
            lengths += [length] if line.kind in ('p', 'e') else []
        yield spec, lengths


def enough_of(world):
    """The sizes of buffers, the chunks of producers and the packets of writers, as terms."""
    scenario = world.scenario
    buffers = listed(str(buffer.size()) for buffer in scenario.buffers)
    producers = listed(record(chunks=producer.pages * producer.chunks, payload=producer.payload()) for producer in scenario.producers)
    loads = listed(record(spec=spec_term(spec), emitted=listed(f'(replicate {length} 0)' for length in lengths))
                   for spec, lengths in loads_of(world))
    return f'{buffers} {producers} {loads}'


def spec_term(spec):
    return record(producer=spec.producer, buffer=spec.buffer, policy={'drop': 'Drops', 'stall': 'Stalls'}[spec.policy],
                  **{'from': spec.first_id})


def things_of(writer, world, reported, places):
    """What a writer has that few have: in what is enough, in what became of its packets, and in the places of its records."""
    yield from (f'writers with packets {word}' for word, value in reported.items() if value)
    if is_enough(world):
        yield 'enough'
    else:
        if is_enough(world, chunks_of=lambda payload, lengths: most_chunks(payload, lengths) - len(lengths)):
            yield 'enough but for one chunk of each packet'
        if is_enough(world, bytes_of=lambda payload: payload // 2):
            yield 'enough but for half of the bytes'
    passed = world.service.buffer_of(writer).sequences[writer.number + 1].cut
    if passed:
        yield 'packets that a read passed as cut'
    if reported['cut'] > passed:
        yield 'packets of which nothing is fixed'
    for (before, *_), (at, *_) in pairwise(places):
        yield 'a record right behind the one before' if at == before + 1 else 'a record behind a missing packet'


def statement_of(name, writer, world, reported):
    spec = writer.spec
    buffer = world.service.buffers[spec.buffer - 1]
    sequence = writer.number + 1
    notes = recorder.notes_of(buffer)
    history = notes.events
    events, *_ = histories.events_of(notes, lambda position: False)
    records = [one for kind, number, *rest in history if kind == 'read' and number == sequence for one in rest[1]]
    packets, pages = writer_scripts.packets_of(writer.calls), writer.pages()
    emitted = [packet.body()[len(packet.front):] for packet in packets[::-1] if packet.finished]
    calls = listed(map(writer_scripts.call_term, writer.calls))
    if len(listed(events)) + len(calls) > MOST_CHARACTERS or not packets:
        return None
    images = [record(sequence=sequence, chunk_id=number, count=page.count, flags=page.flags, payload=octets(page.payload))
              for number, page in enumerate(pages)]
    patches = listed(listed(map(writer_scripts.patch_term, page.patches)) for page in pages)
    fresh = listed(f'fresh {one.number} {one.record_size} {one.first_id}' for one in buffer.sequences.values())
    policy = {'ring': 'Ring', 'discard': 'Discard'}[buffer.policy]

    enough = is_enough(world)
    places = told_places(emitted, records, sequence)
    has = set(things_of(writer, world, reported, places))

    def specs(numbers):
        return (f'abbrev pub calls_{name} : List Call\ncalls_{name} = {calls}\n\n'
                f'abbrev pub pages_{name} : List Page\npages_{name} = {listed(page.term() for page in pages)}\n\n'
                f'abbrev pub events_{name} : List Event\nevents_{name} = {listed(events)}\n\n'
                f'abbrev pub Run{name} : Type 0\nRun{name} = (are_enough {enough_of(world)} ≡ {flag(enough)}) × '
                f'IsComputed {writer.payload_size} {sequence} calls_{name} '
                f'{listed(images)} {patches} (empty_buffer {buffer.size} {policy} {fresh}) events_{name} '
                f'{listed(map(octets, records))} ({record(**numbers)})\n')

    pages_name = f'pages_{name}'
    outcomes = record(begun='refl', delivered='refl', dropped='refl', overwritten='refl', discarded='refl', cut='refl')
    proof = '(refl, ' + record(
        possible='refl',
        cut=record(pages=pages_name, images_are='refl', patches_are='refl',
                   cut=writer_scripts.cut_proof(writer.payload_size, packets, pages, pages_name)),
        written='refl', told=told_term(places), reported='refl', balanced=record(sum='refl'),
        caused=outcomes, once='refl') + ')'
    spoilt = dict(reported, cut=reported['cut'] + 1, begun=reported['begun'] + 1)
    return Statement(f'Run{name}', specs(reported), proof, Statement(f'Run{name}', specs(spoilt), proof, uses=[pages_name]),
                     uses=[pages_name], has=has)


def reported(world, writer):
    """The counts of the report's line of a writer."""
    return dict(begun=writer.begun, **counts_of(writer, world.service.buffer_of(writer)))


def statements(first, wanted, counts):
    """At least so many writers, and more until each thing that few have is had by some."""
    recorder.record_all()
    service.Writer = writer_scripts.Recorded
    made, seed, lacking = 0, first, set(THINGS)
    while made < wanted or (lacking and seed < first + MOST_SEEDS):
        world = histories.played(seed)
        seed += 1
        for writer in world.service.writers if world and world.is_whole else ():
            statement = statement_of(f'{seed}_{writer.number}', writer, world, reported(world, writer))
            if statement and (made < wanted or lacking & statement.has):
                made += 1
                lacking -= statement.has
                counts.update(statement.has)
                yield statement
    counts['writers'] += made
