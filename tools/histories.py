"""Histories of buffers: each outcome, count, cause, place and byte of the trace. Some are those of random scenarios; others are made of
random images, also such as no writer leaves. Beside random ones, histories are chosen so that each branch of the definitions is taken by
some."""

import random

import random_inputs
import recorder
from antt_text import Statement, flag, listed, octets, record
from model import replay
from model.chunks import Chunk, Patch, read_fragments
from model.geometry import record_size
from model.limits import MOST_NUMBER
from model.scenario import Refused, read_scenario
from model.service import Service
from model.wire import DROP_MARK, four_bytes
from model.writers import Stalled

PRELUDE = 'ℕ, ◌+◌, ◌-◌, ◌^◌, Bool, true, false, List, [], ◌∷◌, ◌++◌, replicate'

WORDS = '''-- What a history is compared in.
use Rattle.std.specs.Prelude.{◌≡◌, ℕ, List, [], ◌∷◌, ◌++◌, map}
use Rattle.trace_model.specs.Images.{Patch}
use Rattle.trace_model.specs.Counts.{one_if}
use Rattle.trace_model.specs.Sequences.{Sequence, Cursor, base_of, sequence_in, is_known}
use Rattle.trace_model.specs.Buffers.{Buffer, BufferRecord}
use Rattle.trace_model.specs.Causes.{Fixed, fixed_after}
use Rattle.trace_model.specs.Reads.{ReadEnd, read_end}
use Rattle.trace_model.specs.Row.{row_from_cursor}
use Rattle.trace_model.specs.Arrivals.{Arrived, arrival_of, partial_arrival_of, image_arrival_of, with_image}
use Rattle.trace_model.specs.Patches.{PatchAnswer, patch_answer, with_patch}
use Rattle.trace_model.specs.History.{Event, Arrives, ArrivesInPart, Patched, Committed, Closed, Read, event_sequence, buffer_after, state_after, records_after}
use Rattle.trace_model.specs.Delivery.{Delivered, trace_of}

-- what an event answered
pub data Answer : Type 0 where
  Outcome : Arrived → Answer
  Tried : PatchAnswer → Answer
  Nothing : Answer

abbrev pub patch_answers : Buffer → ℕ → List Patch → List Answer
patch_answers b sequence [] = []
patch_answers b sequence (patch ∷ others) =
    Tried (patch_answer b sequence patch) ∷ patch_answers (with_patch b sequence patch) sequence others

abbrev pub answers_at : Buffer → Event → List Answer
answers_at b (Arrives sequence chunk_id chunk) = Outcome (arrival_of b sequence chunk_id) ∷ []
answers_at b (ArrivesInPart sequence chunk_id chunk) = Outcome (partial_arrival_of b sequence chunk_id (length chunk.fragments)) ∷ []
answers_at b (Patched sequence patches) = patch_answers b sequence patches
answers_at b (Committed image patches) = Outcome (image_arrival_of b image) ∷ patch_answers (with_image b image) image.sequence patches
answers_at b (Closed sequence) = []
answers_at b (Read sequence limit) = []

abbrev pub answers_of : Buffer → List Event → List Answer
answers_of b [] = []
answers_of b (event ∷ events) = answers_at b event ++ answers_of (buffer_after b event) events

abbrev pub ends_at : Buffer → Event → List ReadEnd
ends_at b (Read sequence limit) = read_end limit (row_from_cursor b (sequence_in b.sequences sequence)) ∷ []
ends_at b event = []

abbrev pub ends_of : Buffer → List Event → List ReadEnd
ends_of b [] = []
ends_of b (event ∷ events) = ends_at b event ++ ends_of (buffer_after b event) events

-- where the cursor of its sequence stands behind each event
abbrev pub cursors_of : Buffer → List Event → List (List ℕ)
cursors_of b [] = []
cursors_of b (event ∷ events) =
    (let cursor : Cursor = (sequence_in (buffer_after b event).sequences (event_sequence event)).cursor in cursor.chunk_id ∷ cursor.passed ∷ [])
    ∷ cursors_of (buffer_after b event) events

abbrev pub counts_of : Buffer → List ℕ
counts_of b =
    b.placed ∷ b.rewritten ∷ b.overwritten ∷ b.discarded ∷ b.unpatched ∷ b.padding ∷ b.next ∷ one_if b.shut ∷ []

-- base, delivered and the causes; where the cursor stands, and whether the next delivery is marked
abbrev pub state_of : Sequence → List ℕ
state_of s =
    s.number ∷ base_of s ∷ s.delivered ∷ s.dropped ∷ s.lost ∷ s.cut
    ∷ s.cursor.chunk_id ∷ s.cursor.passed ∷ one_if s.missing ∷ one_if s.closed ∷ []

-- of which chunk a record is, and where it lies
abbrev pub place_of : BufferRecord → List ℕ
place_of stored = stored.sequence ∷ stored.chunk_id ∷ stored.at ∷ []

pub record IsComputed (b : Buffer) (events : List Event) (answers : List Answer) (records : List (List ℕ)) (counts : List ℕ)
    (sequences places cursors : List (List ℕ)) (ends : List ReadEnd) (fixed : List (List Fixed)) : Type 0 where
  pub answered : answers_of b events ≡ answers
  pub written : map (λ (d : Delivered). d.bytes) (records_after (b ∷ []) events) ≡ records
  pub counted : counts_of (state_after b events) ≡ counts
  pub known : map state_of (state_after b events).sequences ≡ sequences
  pub placed : map place_of (state_after b events).live ≡ places
  pub stands : cursors_of b events ≡ cursors
  pub ended : ends_of b events ≡ ends
  pub caused : map (λ (s : Sequence). fixed_after s.number b events) b.sequences ≡ fixed
'''.replace('◌++◌, map}', '◌++◌, length, map}')

HEAD = f'''-- Histories of buffers.
use Rattle.std.specs.Prelude.{{{PRELUDE}}}
use Rattle.trace_model.specs.Images.{{Fragment, Image, Chunk, Patch}}
use Rattle.trace_model.specs.Sequences.{{fresh}}
use Rattle.trace_base.specs.declared.policy.FullPolicy.TheVariants.{{Ring, Discard}}
use Rattle.trace_model.specs.Buffers.{{Buffer, empty_buffer}}
use Rattle.trace_model.specs.Arrivals.{{Kept, Rewritten, Duplicate, Discarded, TooFar, BadChunk}}
use Rattle.trace_model.specs.Patches.{{Applied, NoChunk, BadOffset}}
use Rattle.trace_model.specs.History.{{Event, Arrives, ArrivesInPart, Patched, Committed, Closed, Read}}
use Rattle.trace_model.specs.Causes.{{Fixed, Delivered, Absent}}
use Rattle.trace_model.specs.Reads.{{Dropped, Lost, Cut, AtLimit, Stopped}}
use Rattle.trace_model.specs.Row.{{Missing, Partial, Unpatched, End}}
use Rattle.computed.specs.Words.{{IsComputed, Outcome, Tried}}

abbrev pub no_limit : ℕ
no_limit = 2 ^ 64 - 1

'''

PROOF_HEAD = 'use Rattle.std.proofs.Common.{refl}\n'

LEAST = 2               # histories that take a branch
MOST_SEEDS = 20000      # seeds that are looked at for a branch
MOST_EVENTS = 150       # of a history

OUTCOMES = {'kept': 'Kept', 'rewritten': 'Rewritten', 'duplicate': 'Duplicate', 'discarded': 'Discarded',
            'too far': 'TooFar'}


def outcome_of(text):
    if text.startswith('bad chunk '):
        return f'(BadChunk {text.split()[2]})'
    return OUTCOMES[text]


def fragment(payload, one):
    return record(bytes=octets(payload[one.offset:one.end]), dropped=flag(one.dropped), offset=one.offset)


def chunk_of(count, flags, payload, partial=False):
    fragments = listed(fragment(payload, one) for one in read_fragments(payload, count))
    return '(' + record(continues=flag(flags & 1), runs_on=flag(flags & 2), awaits=flag(flags & 4),
                        partial=flag(partial), fragments=fragments) + ')'


def patch_of(position, patch):
    return record(chunk_id=position, offset=patch.offset, bytes=octets(patch.bytes), last=flag(patch.last))


def patches_behind(history, at, number):
    """The patches of this sequence that follow an arrival, as far as no other event stands between."""
    end = at + 1
    while end < len(history) and history[end][0] == 'patch' and history[end][1] == number:
        end += 1
    return history[at + 1:end]


def events_of(notes, choose):
    """The events of a buffer's history as terms, their answers, the records of its reads and where these end, the cursors
    behind the events, and whether one is a commit with patches."""
    events, answers, records, ends, cursors = [], [], [], [], []
    at, commits, history = 0, False, notes.events
    while at < len(history):
        kind, number, *rest = history[at]
        cursors.append(notes.cursors[at])
        at += 1
        if kind == 'arrive':
            position, (count, flags, payload), outcome = rest
            answers.append(f'Outcome {outcome_of(outcome)}')
            if outcome.startswith('bad chunk') or choose(position):
                patches = patches_behind(history, at - 1, number)
                at += len(patches)
                commits |= bool(patches)
                answers += [f'Tried {patch[-1]}' for patch in patches]
                image = record(sequence=number, chunk_id=position, count=count, flags=flags, payload=octets(payload))
                events.append(f'Committed ({image}) {listed(patch_of(patch[2], patch[3]) for patch in patches)}')
            else:
                events.append(f'Arrives {number} {position} {chunk_of(count, flags, payload)}')
        elif kind == 'partial':
            position, image, outcome = rest
            answers.append(f'Outcome {outcome_of(outcome)}')
            events.append(f'ArrivesInPart {number} {position} {chunk_of(*image, partial=True)}')
        elif kind == 'patch':
            position, patch, answer = rest
            answers.append(f'Tried {answer}')
            events.append(f'Patched {number} ({patch_of(position, patch)} ∷ [])')
        elif kind == 'close':
            events.append(f'Closed {number}')
        else:
            limit, written, end = rest
            events.append(f'Read {number} {limit_term(limit)}')
            records += written
            ends.append(end)
    return events, answers, records, ends, cursors, commits


def limit_term(limit):
    return 'no_limit' if limit == MOST_NUMBER else str(limit)


class World:
    """A scenario that is played, with its service and the records of its reads. It is whole where no writer stalled."""

    def __init__(self, scenario):
        self.scenario, self.service, self.out = scenario, Service(scenario), []
        try:
            replay.play_lines(self.service, scenario.lines, self.out)
            self.out += self.service.finish()
            self.is_whole = True
        except Stalled:
            self.is_whole = False


def played(seed):
    """The world of a random scenario, whose buffers have their notes; None where the scenario is refused."""
    recorder.forget()
    try:
        return World(read_scenario(random_inputs.scenario(seed, tries=False)))
    except Refused:
        return None


class HistoryMaker:
    """A small buffer, and random images, patches and reads for it; nothing comes behind a close of its sequence."""

    def __init__(self, seed):
        recorder.forget()
        self.random = random.Random(f'history {seed}')
        self.buffer = recorder.Buffer(self.pick(112, 128, 176, 208, 256), self.pick('ring', 'ring', 'discard'))
        self.payloads = {}
        for number in range(2, 2 + self.pick(1, 1, 2)):
            self.payloads[number] = self.pick(16, 24, 40)
            self.buffer.add_sequence(number, record_size(self.payloads[number]))
        for _ in range(self.pick(5, 15, 30)):
            self.step(self.pick(*self.payloads))
        for number in self.payloads:
            if not self.buffer.sequences[number].closed and self.chance(.7):
                self.buffer.close_sequence(number)
            self.read(number)

    def pick(self, *choices):
        return self.random.choice(choices)

    def chance(self, of):
        return self.random.random() < of

    def step(self, number):
        sequence, roll = self.buffer.sequences[number], self.random.random()
        if roll < .2 or sequence.closed:
            self.read(number)
        elif roll < .3:
            self.buffer.patch(number, self.patch(sequence))
        elif roll < .33:
            self.buffer.close_sequence(number)
        elif roll < .5:
            part = self.chunk(number)
            if self.is_readable(part):
                self.buffer.arrive_partial(number, part.first_fragments(part.count))
        else:
            chunk = self.chunk(number)
            if self.buffer.arrive(number, chunk).startswith('bad chunk'):
                return
            for _ in range(self.pick(0, 0, 0, 1, 2)):
                self.buffer.patch(number, self.patch(sequence))

    def is_readable(self, chunk):
        """Of a chunk that is still held only readable fragments are taken, and none with a drop mark."""
        try:
            return not any(one.dropped for one in read_fragments(chunk.payload, chunk.count))
        except Exception:
            return False

    def read(self, number):
        recorder.reading.read_sequence(self.buffer.sequences[number], self.pick(MOST_NUMBER, MOST_NUMBER, 0, 1, 2))

    def chunk_id(self, sequence):
        near = sequence.least_missing
        return max(0, self.pick(near, near, near, near, near, near + 1, near + 2, near - 1, sequence.cursor[0], near + 1_023, near + 1_024))

    def body(self):
        """The bytes of a fragment: fields mostly, which may be cut short, or the service's own."""
        return self.random.choice(random_inputs.CONTENTS) if self.chance(.8) else self.random.randbytes(self.pick(0, 1, 2, 4, 5))

    def chunk(self, number):
        """An image of some fragments, which may be wrong."""
        size, payload = self.payloads[number], b''
        count = self.pick(0, 1, 1, 1, 2, 2, 3) if self.chance(.1) else self.pick(1, 1, 2, 2, 3)
        for at in range(count):
            body = self.body()
            if at == count - 1 and self.chance(.15):
                payload += DROP_MARK
                break
            payload += (four_bytes(len(body)) if self.chance(.8) else bytes([len(body)])) + body
        if self.chance(.04):
            payload = payload[:-1] + b'\xff\xff\xff\xff\xff'
        payload = (payload + bytes(size))[:size]
        return Chunk(self.chunk_id(self.buffer.sequences[number]), count, self.pick(0, 0, 0, 1, 2, 3, 6, 7, 4), bytearray(payload))

    def patch(self, sequence):
        """A patch for a record that is there, mostly."""
        live = list(sequence.live.values())
        record = self.random.choice(live) if live and self.chance(.9) else None
        if record is None:
            return Patch(self.chunk_id(sequence), 4, four_bytes(self.random.randrange(300)), self.chance(.6))
        last = record.fragments[-1]
        return Patch(record.position, last.offset + self.pick(0, 0, 0, 1, -1, 2), four_bytes(self.random.randrange(300)), self.chance(.6))


def buffers_of(seed):
    """The buffers of a seed, by their names: of a made history, and of a scenario."""
    yield f'{seed}_0', HistoryMaker(seed).buffer
    world = played(seed)
    for number, buffer in enumerate(world.service.buffers if world else [], 1):
        yield f'{seed}_{number}', buffer


def statements(first, wanted, counts):
    """At least so many histories, and more until each branch of the definitions was taken by some."""
    recorder.record_all()
    made, seed = 0, first
    while made < wanted or (seed < first + MOST_SEEDS and lacking(counts)):
        for name, buffer in buffers_of(seed):
            notes = recorder.NOTES.get(id(buffer))
            if notes is None or not notes.events or len(notes.events) > MOST_EVENTS:
                continue
            if made >= wanted and not notes.branches & set(lacking(counts)):
                continue
            statement = statement_of(name, buffer, notes, counts)
            if statement:
                made += 1
                yield statement
        seed += 1
    counts['histories'] += made


def lacking(counts):
    """The branches that too few histories have taken."""
    return [branch for branch in recorder.BRANCHES if counts[branch] < LEAST]


def fixed_term(fixed):
    position, passed, outcome = fixed
    outcome = outcome if ' ' not in outcome else f'({outcome})'
    return record(at=record(chunk_id=position, passed=passed), outcome=outcome)


def statement_of(name, buffer, notes, counts):
    # (every third chunk comes by a commit, with the patches behind it)
    events, answers, records, ends, cursors, commits = events_of(notes, lambda position: position % 3 == 1)
    text = listed(events)
    if len(text) > 30000:
        return None
    for answer in answers:
        counts[answer.split()[1].strip('(')] += 1
    for branch in notes.branches | ({'a commit with patches'} if commits else set()):
        counts[branch] += 1
    numbers = [buffer.placed, buffer.rewritten, buffer.overwritten, buffer.discarded, buffer.unpatched, buffer.padding, buffer.next,
               int(buffer.shut)]
    states = [[one.number, one.least_missing, one.delivered, one.dropped, one.lost, one.cut, *one.cursor, int(one.missing), int(one.closed)]
              for one in buffer.sequences.values()]
    for state in states:
        for word, value in zip(('delivered', 'dropped', 'lost', 'cut'), state[2:]):
            counts[word] += value
    places = [[one.sequence.number, one.position, one.at] for one in buffer.live]
    fixed = [notes.fixed.get(one.number, []) for one in buffer.sequences.values()]
    fresh = listed(f'fresh {one.number} {one.record_size} {one.first_id}' for one in buffer.sequences.values())
    policy = {'ring': 'Ring', 'discard': 'Discard'}[buffer.policy]

    def specs(states):
        return (f'abbrev pub buffer_{name} : Buffer\nbuffer_{name} = empty_buffer {buffer.size} {policy} {fresh}\n\n'
                f'abbrev pub events_{name} : List Event\nevents_{name} = {text}\n\n'
                f'abbrev pub Run{name} : Type 0\nRun{name} = IsComputed buffer_{name} events_{name} {listed(answers)} '
                f'{listed(map(octets, records))} {listed(map(str, numbers))} {numbers_of(states)} {numbers_of(places)} {numbers_of(cursors)} '
                f'{listed(ends)} {listed(listed(map(fixed_term, one)) for one in fixed)}\n')

    proof = record(answered='refl', written='refl', counted='refl', known='refl', placed='refl', stands='refl', ended='refl', caused='refl')
    spoilt = [list(state) for state in states]
    spoilt[-1][5] += 1
    return Statement(f'Run{name}', specs(states), proof, Statement(f'Run{name}', specs(spoilt), proof), has=notes.branches)


def numbers_of(rows):
    return listed(listed(map(str, row)) for row in rows)
