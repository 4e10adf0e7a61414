"""Small scenarios that are played with all that was done noted: the acts of a replay in their order and what stood before and behind each,
what each writer was asked, its claims, and, of a run, its answers and what the service read of them."""

import random
from collections import Counter
from dataclasses import dataclass, field

import recorder
import writer_scripts
from model import replay, run, service
from model.chunks import SIZE, Chunk, Patch, id_of
from model.clones import clone_of
from model.geometry import AWAITS
from model.limits import MOST_NUMBER
from model.reading import read_buffer
from model.scenario import Refused, read_scenario
from model.wire import CONTENT, HOLE, four_bytes, tag
from model.writers import OutOfChunks, Stalled
from random_inputs import RawMaker, ScenarioMaker, raw_line

PAGES = [(1, 4096, 1), (2, 4096, 1), (1, 4096, 2), (1, 4096, 14), (1, 4096, 7), (1, 4096, 4)]
MOST_LINES = 28
LAYOUT_BIT, CLAIM_BIT = 28, 32          # of a page word
LAYOUTS = (1, 2, 4, 7, 14)


class SmallMaker(ScenarioMaker):
    """A scenario with few lines and short texts, in which chunks and bytes are scarce."""

    def __init__(self, seed, kinds):
        super().__init__(f'noted {seed}', True, kinds)
        self.depth = 2

    def set_up(self):
        self.buffers = [self.pick(4, 4, 5) for _ in range(self.pick(1, 1, 2))]
        self.producers = [self.random.choice(PAGES) for _ in range(self.pick(1, 1, 2))]
        for kb in self.buffers:
            self.lines.append(f'buffer {kb} {self.pick("ring", "ring", "discard")}')
        for producer in self.producers:
            self.lines.append('producer {} {} {}'.format(*producer))
        for _ in range(self.pick(1, 2, 2, 3)):
            self.add_writer(self.random.randrange(len(self.producers)), self.random.randrange(len(self.buffers)),
                            self.pick('drop', 'drop', 'stall', 'stall:1', 'stall:2'))

    def text(self, payload):
        is_long = self.chance(.25 if payload < 600 else .1)
        length = payload - self.random.randrange(-4, 40) if is_long else self.random.randrange(6)
        return f'"{self.pick("x", "ab")}"*{max(1, length)}' if self.chance(.8) else '"' + 'z#:'[:length % 4] + '"'

    def line_of_service(self):
        if 'k' in self.kinds and self.chance(.15):
            number = self.random.randrange(len(self.buffers)) + 1
            self.lines += [f'r {number} 1'] if self.chance(.4) else []
            self.lines.append(f'k {number}')
            return
        # (closes and requests are rarer elsewhere)
        if 'q' in self.kinds and self.chance(.25):
            self.lines.append('q')
        elif 'x' in self.kinds and self.chance(.1):
            number = self.random.randrange(len(self.producers)) + 1
            if number not in self.closed:
                self.closed.add(number)
                self.lines.append(f'x {number}')
        else:
            super().line_of_service()


class SmallRawMaker(RawMaker, SmallMaker):
    """One in which chunks are committed in the names of some of its writers, also such as they hold."""

    def __init__(self, seed, kinds):
        SmallMaker.__init__(self, f'raws {seed}', kinds)
        self.first_ids, self.targets = [], []

    def line_of_service(self):
        if self.chance(.2):
            producer = self.random.randrange(len(self.producers)) + 1
            self.lines += [f's {producer}'] if producer not in self.closed else []
        else:
            super().line_of_service()

    def commit(self, place):
        if self.writers[place][0] in self.closed or self.chance(.7):
            super().commit(place)
        else:
            self.lines.append(raw_line(place + 1, self.targets[place], awaiting(self.random, self.first_ids[place])))


def awaiting(chooser, first_id):
    """A chunk that awaits the patch which it brings: the length of a nested message, of which nothing follows."""
    head = tag(900, CONTENT)
    chunk_id = id_of(first_id, chooser.randrange(3))
    patch = Patch(chunk_id, SIZE + len(head), four_bytes(0), chooser.random() < .7)
    return Chunk(chunk_id, 1, AWAITS, bytearray(four_bytes(len(head + HOLE)) + head + HOLE), [patch])


@dataclass(frozen=True)
class Ask:
    chunk: int
    found: int          # the page word
    won: bool
    calls: int          # that were noted by then


class NotedClaims:
    """The claims of one writer among those of its producer's chunks, which begin with this number."""

    def __init__(self, writer, claims, first, chunks):
        self.writer, self.claims, self.first, self.chunks = writer, claims, first, chunks

    @property
    def claimed(self):
        return self.claims.claimed

    def word_at(self, slot):
        """The page word of a chunk, with the claim bits that are set."""
        page = slot // self.chunks * self.chunks
        bits = sum(1 << CLAIM_BIT + place for place in range(self.chunks) if self.claims.claimed[page + place])
        return bits | (LAYOUTS.index(self.chunks) + 1) << LAYOUT_BIT if bits else 0

    def claim(self):
        """Asks for each chunk in turn until one is free."""
        for slot, claimed in enumerate(self.claims.claimed):
            self.writer.asks.append(Ask(self.first + slot, self.word_at(slot), not claimed, self.writer.at_call))
            if not claimed:
                break
        return self.claims.claim()


class Writer(writer_scripts.Recorded):
    """A writer that notes what it is asked, its claims and the chunks that it gets, and of a run its answers."""

    def __init__(self, number, spec, payload_size, claims, help):
        super().__init__(number, spec, payload_size, claims, help)
        self.asked, self.asks, self.slots, self.answers = [], [], [], []
        self.at_call = 0        # calls that were noted before this one
        self.is_busy = False    # with a call, or with an answer to a flush request

    def do(self, call, method):
        """A call, which it is asked where it isn't busy."""
        self.at_call = len(self.calls)
        if self.is_busy:
            method()
            return
        self.asked.append(call)
        self.service.act(('Ask', self.number - 1, call))
        self.is_busy = True
        self.service.within(method)
        self.is_busy = False

    def begin(self):
        self.do(('Begun', True), super().begin)

    def write(self, part):
        self.do(writer_scripts.call_of(part), lambda: super(Writer, self).write(part))

    def finish(self):
        self.do(('Finished',), super().finish)

    def flush(self):
        if self.is_beginning:
            super().flush()
        else:
            self.do(('Flushed',), super().flush)

    def claim(self):
        """As the page says it: one that stalls and then drops asks so often, whatever that takes."""
        slot, left = self.claims.claim(), self.spec.tries
        while slot is None:
            if self.spec.policy == 'drop' or left == 0:
                raise OutOfChunks
            if not self.help() and left is None:
                raise Stalled(self.number)
            left = None if left is None else left - 1
            slot = self.claims.claim()
        return slot

    def hold(self, slot, continues):
        self.slots.append(self.claims.first + slot)
        super().hold(slot, continues)


@dataclass
class Moment:
    """What stood between two acts: of each writer its calls, the chunks that it completed, and the head of what it held; how many events
    were noted, and how many chunks were taken of each."""
    calls: list
    completed: list
    held: list
    events: int
    taken: list


class Service(service.Service):
    """A service that notes the acts of a replay. What is done within one is none of its own."""

    def __init__(self, scenario):
        self.acts, self.moments, self.depth, self.letters = [], [], 0, []
        self.commits = self.applied = 0         # so far, and how many of their patches were put in
        super().__init__(scenario)
        first = 0
        for number, (producer, claims) in enumerate(zip(scenario.producers, self.claims), 1):
            for writer in self.writers_of(number):
                writer.claims = NotedClaims(writer, claims, first, producer.chunks)
                writer.service = self
            first += len(claims.claimed)

    def moment(self):
        held = [(writer.held.count, int(writer.held.continues)) if writer.held else None for writer in self.writers]
        return Moment([len(writer.calls) for writer in self.writers], [writer.completed for writer in self.writers], held,
                      len(recorder.WHOLE.events), list(self.taken))

    def act(self, one):
        """An act begins, where none is going on."""
        if self.depth == 0:
            self.acts.append(one)
            self.moments.append(self.moment())

    def within(self, call, *given):
        self.depth += 1
        try:
            return call(*given)
        finally:
            self.depth -= 1

    def collect(self, producer):
        self.act(('Collect', producer))
        return self.within(super().collect, producer)

    def scrape(self, producer):
        self.act(('Scrape', producer))
        self.within(super().scrape, producer)

    def close(self, producer):
        self.act(('CloseProducer', producer))
        self.within(super().close, producer)

    def read(self, buffer, limit):
        self.act(('ReadAll', buffer, limit))
        return self.within(super().read, buffer, limit)

    def commit(self, number, of, target, asked):
        self.act(('CommitRaw', of - 1, target, asked))
        self.within(super().commit, number, of, target, asked)

    def answer_to(self, writer, target, asked):
        """What comes by a commit is one event, which has its place among all that came so."""
        at = len(recorder.WHOLE.events)
        answer = super().answer_to(writer, target, asked)
        if target == writer.spec.buffer:
            (_, sequence, position, image, _), *patches = recorder.WHOLE.events[at:]
            recorder.WHOLE.events[at:] = [('commit', sequence, self.commits, position, image, [patch[3] for patch in patches], answer)]
            del recorder.WHOLE.cursors[at + 1:]
            self.commits += 1
            self.applied += sum(patch[4] == 'Applied' for patch in patches)
        return answer

    def request_flush(self):
        self.act(('Request',))
        super().request_flush()

    def answer(self, writer):
        if self.requests and writer.number not in self.requests[-1].answers:
            self.act(('Answer', writer.number - 1))
            writer.is_busy = True
            self.within(super().answer, writer)
            writer.is_busy = False

    # Of a run

    def note_request(self):
        self.letters.append(('Asked', len(recorder.WHOLE.events)))
        super().note_request()

    def poll(self, writer):
        before, writer.is_busy = self.given.get(writer.number), True
        self.within(super().poll, writer)
        writer.is_busy = False
        if self.given.get(writer.number) != before:
            writer.answers.append((*self.given[writer.number], len(writer.calls)))

    def read_answers(self):
        self.letters += [('Heard', writer.number - 1, *self.given.get(writer.number, (0, 0))) for writer in self.writers]
        super().read_answers()


@dataclass(frozen=True)
class Clone:
    """A clone: behind how many acts it is made, of which buffer, what is read of it, and whether the buffer's own reader had other marks."""
    at: int
    of: int
    trace: bytes
    marks_anew: bool


@dataclass
class Played:
    """A scenario that was played, in the form that whole scenarios have (accounts.py)."""
    scenario: object
    service: Service
    out: list = field(default_factory=list)
    is_whole: bool = True
    clones: list = field(default_factory=list)


LEAST = 2               # of each thing that all together are to have
MOST_SEEDS = 5000


def chosen(made, wanted, kinds, counts, counted):
    """So many of what is made, and behind them those that have something of which there is too little yet."""
    taken = 0
    for one in made:
        own = Counter()
        counted(one, own)
        lacking = [kind for kind in kinds if counts[kind] < LEAST]
        if taken >= wanted and not lacking:
            return
        if taken < wanted or any(own[kind] for kind in lacking):
            taken += 1
            counts.update(own)
            yield one


def noting():
    """Has the second reading note what it does."""
    recorder.record_all()
    service.Writer = Writer


def scenario_of(maker):
    """A small scenario, or none where it is refused."""
    try:
        return read_scenario(maker.make(MOST_LINES))
    except Refused:
        return None


def read_clone(service, number):
    """A clone of the buffer with this number. Nothing of what is read is noted."""
    buffer, count = service.buffers[number - 1], len(recorder.WHOLE.events)
    records, same = read_buffer(clone_of(buffer), MOST_NUMBER), clone_of(buffer)
    for one, sequence in buffer.sequences.items():
        same.sequences[one].delivered = sequence.delivered
    marks_anew = records != read_buffer(same, MOST_NUMBER)
    del recorder.WHOLE.events[count:], recorder.WHOLE.cursors[count:]
    return Clone(len(service.acts), number, b''.join(records), marks_anew)


def replayed(maker):
    """A replay of a small scenario, and its clones; none where it is refused or a writer stalls."""
    recorder.forget()
    scenario = scenario_of(maker)
    if scenario is None:
        return None
    played = Played(scenario, Service(scenario))
    try:
        for line in scenario.lines:
            if line.kind == 'k':
                played.clones.append(read_clone(played.service, line.of))
            else:
                replay.play_lines(played.service, [line], played.out)
        played.out += played.service.finish()
    except Stalled:
        return None
    played.service.moments.append(played.service.moment())
    return played


class Jobs(run.Jobs):
    """The jobs of a run, over a service that notes."""

    def __init__(self, scenario, order):
        plain, run.Service = run.Service, Service
        try:
            super().__init__(scenario, order)
        finally:
            run.Service = plain


def ran(seed):
    """A run of a small scenario in some order, up to its end; none where it is refused."""
    recorder.forget()
    scenario = scenario_of(SmallMaker(seed, 'csrq'))
    if scenario is None:
        return None
    jobs = Jobs(scenario, random.Random(f'order {seed}').randrange(2 ** 32))
    while jobs.ready():
        jobs.step()
    jobs.answer_at_end()
    played = Played(scenario, jobs.service, jobs.records)
    played.done = jobs.service.moment()             # once the threads are done
    played.out += jobs.service.finish()
    return played
