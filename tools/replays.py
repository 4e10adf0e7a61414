"""Replays of small scenarios: the schedule of their lines, what each act did, the records and the report."""

import accounts
import noted
import recorder
import scenario_terms
import worlds
import writer_scripts
from account_proofs import chosen, noted_steps
from accounts import Account, define
from antt_text import Statement, flag, listed, nested, octets, record
from model.limits import MOST_NUMBER
from model.report import counts_read, report_of
from scenario_terms import asked_term, calls_term, each, limit_term, policy_term, scenario_term, service_spec, setup_term, specs_term, \
    text_term, view_specs, with_wrong_placed, world_term

WORDS = f'''-- What a replay is compared in.
{scenario_terms.USES}use Rattle.std.specs.Prelude.{{◌==◌, false, Option, None, Some, slice_index_or}}
use Rattle.std.specs.List.{{list_any}}
use Rattle.trace_base.specs.declared.limits.TheConstants.{{BYTES_PER_KB}}
use Rattle.trace_model.specs.Buffers.{{Buffer}}
use Rattle.trace_model.specs.Delivery.{{records_of}}
use Rattle.trace_model.specs.Tells.{{Tells}}
use Rattle.trace_model.specs.Enough.{{has_chunks_enough, has_bytes_enough}}
use Rattle.scenario_text.specs.declared.scenario.BufferLine.{{BufferLine}}
use Rattle.scenario_text.specs.declared.scenario.NumberedLine.{{NumberedLine}}
use Rattle.scenario_text.specs.Clones.{{clones_in, without_clones}}
use Rattle.scenario_text.specs.Emissions.{{emitted_in}}
use Rattle.scenario_text.specs.Raws.{{is_raw}}
use Rattle.buffer_clone.specs.Clones.{{clone_records}}
use Rattle.chunk_plain.specs.Setup.{{sequence_of}}
use Rattle.chunk_plain.specs.Views.{{Committed}}
use Rattle.world_model.specs.Accounts.{{InOrder, NoneCommitted, all_images}}
use Rattle.replay_model.specs.Acts.{{Act, calls_in}}
use Rattle.replay_model.specs.ActNotes.{{ActNote, act_notes}}
use Rattle.replay_model.specs.Clones.{{clone_in}}
use Rattle.replay_model.specs.Does.{{Does, dropped_call}}
use Rattle.replay_model.specs.Enough.{{closed_from, loads_from, room_of}}
use Rattle.replay_model.specs.Flushes.{{flush_sums}}
use Rattle.replay_model.specs.Played.{{buffers_of, records_in, report_of}}
use Rattle.replay_model.specs.Schedule.{{schedule_of}}

{scenario_terms.WORDS}-- what stands in a list from one place up to another
abbrev pub slice_between : {{A : Type 0}} → (from to : ℕ) → List A → List A
slice_between from to xs = drop from (take to xs)

-- a writer's view when it had noted so many calls and completed so many chunks, and held this
abbrev pub by_then : WriterView → (calls completed : ℕ) → List BegunChunk → WriterView
by_then view calls completed held = record view {{ calls = take calls view.calls; begun = take completed view.begun ++ held }}

-- what each act left for the report, where these worlds stood before, between and behind them, and the buffers were these at first
abbrev pub noted_by : Setup → List Buffer → List Act → List World → List ActNote
noted_by setup buffers (act ∷ acts) (old ∷ new ∷ worlds) = act_notes setup buffers act old new ++ noted_by setup buffers acts (new ∷ worlds)
noted_by setup buffers acts worlds = []

-- what acts ask of so many
abbrev pub acted_of_each : List Act → (place : ℕ) → List WriterSpec → List (List Call)
acted_of_each acts place [] = []
acted_of_each acts place (spec ∷ specs) = calls_in acts place ∷ acted_of_each acts (suc place) specs

-- whether chunks and bytes are enough for all that the lines have writers emit
abbrev pub is_enough_by : Parts → Bool
is_enough_by scenario =
    has_chunks_enough (map room_of scenario.producers) (loads_from scenario.lines 1 scenario.writers)
    && has_bytes_enough (map (λ (line : BufferLine). line.kb * BYTES_PER_KB) scenario.buffers) (map room_of scenario.producers)
    (loads_from scenario.lines 1 scenario.writers)

-- A replay: what its lines ask, its schedule, what was noted for the report, its trace and its report.
pub record IsReplayed (scenario : Parts) (specs : List ProducerSpec) (setup : Setup) (world : World) (worlds : List World) (acts : List Act)
    (asked acted : List (List Call)) (emitted : List (List (List ℕ))) (clones : List ℕ) (notes : List ActNote) (sums trace text closed : List ℕ)
    (enough commits : Bool) : Type 0 where
  pub laid : setup_of specs scenario.writers ≡ setup
  pub clones_are : clones_in scenario.lines ≡ clones
  pub none_without : clones_in (without_clones scenario).lines ≡ []
  pub schedule : schedule_of (without_clones scenario) ≡ acts
  pub asks : asked_of_each scenario 1 scenario.writers ≡ asked
  pub acts_ask : acted_of_each acts 0 scenario.writers ≡ acted
  pub emits : emitted_in scenario ≡ emitted
  pub noted : noted_by setup (buffers_of scenario setup) acts worlds ≡ notes
  pub summed : flush_sums notes world.service.taken ≡ sums
  pub written : trace_of (records_in scenario setup world) ≡ trace
  pub reported : report_of scenario setup world notes ≡ text
  pub closes : closed_from scenario.lines 1 scenario.producers ≡ closed
  pub suffices : is_enough_by scenario ≡ enough
  pub has_raws : list_any (λ (line : NumberedLine). is_raw line.what) scenario.lines ≡ commits

-- the records of the clone of this buffer in a world
abbrev pub cloned_in : Parts → Setup → World → (number : ℕ) → List ℕ
cloned_in scenario setup world number = trace_of (clone_records (clone_in scenario setup world number))

-- Nothing comes by a commit in the name of the writer at this place, which holds these images at the end: what is noted of its sequence is in
-- order, and the sequence's records tell of the packets that its lines have it emit.
pub record IsPlain (scenario : Parts) (setup : Setup) (world : World) (place : ℕ) (held : List Image) : Type 0 where
  pub none : NoneCommitted world.service (sequence_of place)
  pub order : InOrder (all_images (writer world place) held) world.service (sequence_of place) 0 false [] world.service.events
  pub told : Tells (slice_index_or (emitted_in scenario) place []) (sequence_of place)
      (records_of (sequence_of place) (records_in scenario setup world))

-- the image that came by the commit is of this sequence
abbrev pub is_of : (sequence : ℕ) → Option Committed → Bool
is_of sequence None = false
is_of sequence (Some committed) = committed.image.sequence == sequence

-- none of these is
abbrev pub AllElsewhere : (sequence : ℕ) → List Committed → Type 0
AllElsewhere sequence [] = ⊤
AllElsewhere sequence (one ∷ others) = (is_of sequence (Some one) ≡ false) × AllElsewhere sequence others

-- what an act made of a world
abbrev pub Did : Parts → Setup → Act → World → World → Type 0
Did scenario setup act old new = Does setup (buffers_of scenario setup) act old new

-- a call at which the writer at this place lost its packet
abbrev pub Lost : (place : ℕ) → Call → World → World → Type 0
Lost place call old new = (writer new place).calls ≡ (writer old place).calls ++ dropped_call call
'''

LEMMAS = '''use Rattle.std.proofs.Common.{◌∙◌, ◌==◌, false, List, [], ◌∷◌, Option, Some, ap}
use Rattle.std.specs.Prelude.{slice_get}
use Rattle.chunk_plain.specs.Views.{Committed}
use Rattle.computed.specs.Words.{AllElsewhere, is_of}
''' + scenario_terms.LEMMAS + '''
pub none_among : (sequence : ℕ) (commits : List Committed) → AllElsewhere sequence commits
    → (place : ℕ) (committed : Committed) → slice_get commits place ≡ Some committed → (committed.image.sequence == sequence) ≡ false
none_among sequence [] all place committed is = absurd (cc)
none_among sequence (one ∷ others) (here, there) zero committed is = ap (is_of sequence) (sym is) ∙ here
none_among sequence (one ∷ others) (here, there) (suc place) committed is = none_among sequence others there place committed is
'''

HEAD = f'''-- Replays.
{scenario_terms.HEAD}use Rattle.loss_report.specs.declared.raws.RawAnswer.TheVariants as answer
use Rattle.replay_model.specs.Acts.{{Act, Ask, Request, Answer, Collect, Scrape, CloseProducer, ReadAll, CommitRaw}}
use Rattle.replay_model.specs.ActNotes.{{ActNote, Requested, Answered, Told}}
use Rattle.computed.specs.Words.{{IsReplayed, IsPlain, Did, Lost, begun_of, cloned_in, contents_of, taken_first, by_then, served_by}}
{scenario_terms.LIMIT}'''

PROOF_HEAD = '''use Rattle.std.proofs.Common.{◌≡◌, ◌<◌, ◌≤◌, ℕ, suc, ◌+◌, true, false, List, [], ◌∷◌, ◌++◌, refl, inl, inr, arith}
use Rattle.std.specs.Fmt.{digits}
use Rattle.page_geometry.specs.declared.chunk_header.ChunkHeader.{ChunkHeader}
use Rattle.chunk_plain.specs.Setup.{Setup, producer_of, sequence_of, IsChunkOf}
use Rattle.chunk_plain.specs.Views.{taken_of}
use Rattle.replay_model.specs.Does.{is_shut}
use Rattle.service_core.specs.Taking.{ShowsOther}
use Rattle.computed.specs.Words.{served_by, contents_of, slice_between}
use Rattle.computed.proofs.Everywhere.{at_each, from_first, none_among}
'''

HIDDEN, TIMES_CHARACTERS = scenario_terms.HIDDEN, scenario_terms.TIMES_CHARACTERS
MOST_ACTS = 60
MOST_CHARACTERS = 20000
MOST_WRITTEN = 3000     # bytes of a trace
MOST_LOOKED = 4         # chunks of a producer of which each look is written out

# What some of the replays have.
RAWS = ('kept', 'rewritten', 'duplicate', 'too far', 'discarded', 'bad chunk', 'wrong target')
KINDS = ('Ask', 'Request', 'Answer', 'Collect', 'Scrape', 'CloseProducer', 'ReadAll', 'CommitRaw', *(f'raws that are {answer}' for answer in RAWS),
         'raws with a patch', 'patches of raws that are put in', 'packets of sequences with raws', 'chunks that come behind a raw of theirs',
         'clones with raws', 'plain writers beside raws', 'plain writers of which no read tells all', 'packets that the check refuses',
         'answers behind a packet', 'answers to several requests that say less than was taken', 'requests that a closed producer leaves open',
         'reads with a limit', 'parts of chunks',
         'packets that are lost', 'taken chunks with patches', 'clones', 'clones with packets',
         'clones that mark anew', 'enough', 'enough for the packets of the first writer alone', 'several buffers', 'several producers',
         'delivered', 'dropped', 'overwritten', 'discarded', 'cut', 'drop', 'stall', 'stall:N')


# Terms

def act_term(act):
    kind, *rest = act
    if kind == 'Ask':
        return f'Ask {rest[0]} ({writer_scripts.call_term(rest[1])})'
    if kind == 'ReadAll':
        return f'ReadAll {rest[0]} {limit_term(rest[1])}'
    if kind == 'CommitRaw':
        return f'CommitRaw {rest[0]} {asked_term(*rest[1:])}'
    return ' '.join([kind, *map(str, rest)])


def answer_term(answer):
    """The answer to a line `raw`."""
    words = [word for word in answer.split() if not word.isdigit()]
    numbers = [word for word in answer.split() if word.isdigit()]
    return ' '.join(['answer.' + ''.join(word.capitalize() for word in words), *numbers])


# A replay

class Replay(Account):
    """A replay as lists, with where each act stands among events, looks and taken chunks."""

    def __init__(self, name, played):
        super().__init__(name, played)
        self.service, self.acts = played.service, played.service.acts
        self.asked = [writer.writer.asked for writer in self.writers]
        self.looks, self.moments = [], []
        for at, moment in enumerate(self.service.moments):
            events = len(accounts.events_in(accounts.recorder.WHOLE.events[:moment.events]))
            if at:
                self.note_looks(self.acts[at - 1], self.moments[-1], events, moment.taken)
            self.moments.append((events, len(self.looks), moment))

    def places_of(self, producer):
        return [place for place, spec in enumerate(self.scenario.writers) if spec.producer == producer]

    def range_of(self, producer):
        counts = [one.pages * one.chunks for one in self.scenario.producers]
        return sum(counts[:producer - 1]), counts[producer - 1]

    def note_looks(self, act, before, events, taken):
        """The looks of an act that collects: at each chunk once behind what was taken of each writer, and at what is scraped."""
        if act[0] in ('Collect', 'Scrape', 'CloseProducer'):
            first, count = self.range_of(act[1])
            for place in self.places_of(act[1]) if count <= MOST_LOOKED else ():
                self.looks += [record(chunk=first + k, word=0, header=0, found='None', taken=listed(map(str, taken))) for k in range(count)]
        self.looks += [accounts.look_term(event) for event in self.events[before[0]:events] if event[0] == 'partial']

    def worlds(self):
        """What stood before, between and behind the acts."""
        for events, looks, moment in self.moments:
            views = []
            for place, (calls, completed, held) in enumerate(zip(moment.calls, moment.completed, moment.held)):
                draft = held and record(head=record(count=held[0], flags=held[1]), words='[]', ends='[]')
                views.append(f'by_then view_{self.name}_{place} {calls} {completed} ' + (f'(views.Held 0 ({draft}) ∷ [])' if held else '[]'))
            service = f'served_by service_{self.name} {events} {looks} {listed(map(str, moment.taken))}'
            yield record(chunks='[]', writers=listed(views), service=service)

    def act_notes(self):
        """What the acts left for the report."""
        answers = iter(self.service.raws)
        for act, moment, behind in zip(self.acts, self.service.moments, self.service.moments[1:]):
            if act[0] == 'Request':
                yield 'Requested'
            elif act[0] == 'Answer' and behind.calls != moment.calls:
                yield f'Answered {act[1]} {behind.completed[act[1]]}'
            elif act[0] == 'CommitRaw':
                yield f'Told ({answer_term(next(answers)[1])})'

    def acted(self):
        return [[act[2] for act in self.acts if act[0] == 'Ask' and act[1] == place] for place in range(len(self.writers))]


def asked_by_lines(replay):
    """What the lines ask of each writer: all that it was asked but the flush of the end."""
    for place, calls in enumerate(replay.acted()):
        yield calls if replay.scenario.writers[place].producer in closed_by(replay.scenario) else calls[:-1]


def replay_specs(replay):
    name = replay.name
    between = ''.join(define(f'world_{name}_{at}', 'World', term) for at, term in enumerate(replay.worlds()))
    return (''.join(view_specs(writer, '[]', writer.writer.calls, 'views.no_letters') for writer in replay.writers) + service_spec(replay, replay.looks, '[]')
            + define(f'scenario_{name}', 'Parts', scenario_term(replay.scenario)) + define(f'setup_{name}', 'Setup', setup_term(replay.scenario))
            + define(f'world_{name}', 'World', world_term(replay)) + between + define(f'acts_{name}', 'List Act', listed(map(act_term, replay.acts))))


# Facts, each with its proof

def whole_fact(replay, text):
    """The lines, the schedule, the trace and the report, where this is the report's text."""
    name = replay.name
    between = listed(f'world_{name}_{at}' for at in range(len(replay.moments)))
    asked = listed(map(calls_term, asked_by_lines(replay)))
    acted = listed(map(calls_term, replay.acted()))
    emitted = listed(listed(map(octets, writer.emitted)) for writer in replay.writers)
    clones = listed(str(line.of) for line in replay.scenario.lines if line.kind == 'k')
    sums = listed(str(replay.service.chunks_of(request)) for request in replay.service.requests)
    trace = octets(b''.join(replay.world.out))
    fact = (f'IsReplayed scenario_{name} {specs_term(replay.scenario)} setup_{name} world_{name} {between} acts_{name} {asked} {acted} {emitted} {clones} '
            f'{listed(replay.act_notes())} {sums} {trace} {text_term(text)} {listed(map(str, sorted(closed_by(replay.scenario))))} '
            f'{flag(worlds.is_enough(replay.world))} {flag(replay.service.raws)}')
    fields = ('laid', 'clones_are', 'none_without', 'schedule', 'asks', 'acts_ask', 'emits', 'noted', 'summed', 'written', 'reported', 'closes', 'suffices',
              'has_raws')
    return fact, record(**{one: 'refl' for one in fields})


def closed_by(scenario):
    return {line.of for line in scenario.lines if line.kind == 'x'}


def clone_facts(replay):
    """What each clone has."""
    for clone in replay.world.clones:
        yield f'(cloned_in scenario_{replay.name} setup_{replay.name} world_{replay.name}_{clone.at} {clone.of} ≡ {octets(clone.trace)})', 'refl'


def plain_facts(replay):
    """Where chunks are committed: of each writer in whose name none is, that all is as if none were."""
    commits = sum(event[0] == 'commit' for event in replay.events)
    for writer in replay.writers if commits else ():
        if not replay.scenario.has_raw(writer.place + 1):
            none = f'none_among {writer.sequence} service_{replay.name}.commits {nested(["refl"] * commits)}'
            records = [one for number, one in replay.records if number == writer.sequence]
            order = chosen(noted_steps(replay.events, writer, none), 'refl')
            yield (f'IsPlain scenario_{replay.name} setup_{replay.name} world_{replay.name} {writer.place} {listed(writer.images()[writer.completed:])}',
                   record(none=none, order=order, told=worlds.told_term(worlds.told_places(writer.emitted, records, writer.sequence))))


def act_facts(replay):
    """What each act made of the world before it, as far as that can be computed."""
    name = replay.name
    for at, act in enumerate(replay.acts):
        old, new = f'world_{name}_{at}', f'world_{name}_{at + 1}'
        did = f'Did scenario_{name} setup_{name} ({act_term(act)}) {old} {new}'
        kind, before, behind = act[0], replay.service.moments[at], replay.service.moments[at + 1]
        if kind == 'Request' or (kind == 'Answer' and before.calls == behind.calls):
            yield did, 'refl'
        elif kind == 'ReadAll':
            yield did, record(writers='refl', notes='refl')
        elif kind == 'CommitRaw':
            yield did, record(opened='refl', writers='refl', notes='refl')
        elif takes_few(replay, act):
            yield did, collect_proof(replay, at)
        elif kind == 'Ask' and calls_behind(replay, at)[1:] or kind == 'Ask' and calls_behind(replay, at) == [('Begun', False)]:
            yield f'Lost {act[1]} ({writer_scripts.call_term(act[2])}) {old} {new}', 'refl'


def takes_few(replay, act):
    """The act has chunks taken, of so few that all of it is computed."""
    return act[0] in ('Collect', 'CloseProducer', 'Scrape') and replay.range_of(act[1])[1] <= MOST_LOOKED


def calls_behind(replay, at):
    """The calls that an act has its writer note."""
    place = replay.acts[at][1]
    before, behind = replay.service.moments[at].calls[place], replay.service.moments[at + 1].calls[place]
    return replay.writers[place].writer.calls[before:behind]


def opened_proof(replay, at):
    """No sequence of the producer's writers is closed."""
    name, producer, (events, *_) = replay.name, replay.acts[at][1], replay.moments[at]
    closed = {event[1] for event in replay.events[:events] if event[0] == 'close'}
    fact = f'(λ (place : ℕ). producer_of setup_{name} place ≡ {producer} → is_shut (sequence_of place) world_{name}_{at}.service.events ≡ false)'
    shown = ['λ own. absurd (omega (arith, own))' if place + 2 in closed else 'λ own. refl' for place in range(len(replay.writers))]
    return f'λ place below own. at_each {fact} {len(replay.writers)} place {each(shown)} below own'


def takes_proof(replay, at):
    """What is taken of the producer's writers, one behind another; and the service behind it."""
    name, producer = replay.name, replay.acts[at][1]
    (events, looks, before), (_, _, behind) = replay.moments[at], replay.moments[at + 1]
    first, count = replay.range_of(producer)
    taken, at_events, at_looks, steps = list(before.taken), events, looks, []
    for place in replay.places_of(producer):
        new = behind.taken[place]
        steps.append((place, new - taken[place]))
        at_events += notes_of(replay.events[at_events:], new - taken[place])
        at_looks += count
        taken[place] = new
        steps[-1] += (f'(served_by service_{name} {at_events} {at_looks} {listed(map(str, taken))})', at_looks - count, before.taken[place], new)
    proof = '(refl, refl)'
    for number in range(len(steps) - 1, -1, -1):
        place, one, between, look, old, new = steps[number]
        others = sum(step[1] for step in steps[number + 1:])
        writer = replay.writers[place]
        contents = f'(slice_between {old} {new} (contents_of {writer.buffer} images_{writer.name} patches_{writer.name}))'
        proof = (f'({one}, {others}, {between}, refl, ' + record(
            most='omega arith', looks=f'(slice_between {look} {look + count} service_{name}.looks)', contents=contents, many='refl', view='refl',
            leaves=f'inr (inl ({none_proof(replay, place, first, count, look, new)}))') + f', {proof})')
    return sum(step[1] for step in steps), proof, (at_events, at_looks, taken)


def notes_of(events, chunks):
    """How many events the arrivals of so many chunks are, with the patches that they bring."""
    count = 0
    while chunks or (count < len(events) and events[count][0] == 'patched'):
        chunks -= events[count][0] == 'arrive'
        count += 1
    return count


def none_proof(replay, place, first, count, look, taken):
    """Each chunk was looked at, and found free."""
    name, producer = replay.name, replay.scenario.writers[place].producer
    looks = f'(slice_between {look} {look + count} service_{name}.looks)'
    other = record(header=record(chunk_id=0, writer_id=0, count=0, flags=0), header_is='refl', id_fits='omega arith', writer_fits='omega arith',
                   other='λ state mine is. absurd (omega (arith, state))')
    shows = each(record(n=k, look='_', at='refl', chunk_is='refl', since='refl', shows=other) for k in range(count))
    fact = f'(λ (one : ℕ). ShowsOther setup_{name} {place} {taken} one {looks})'
    return f'λ one is. from_first {fact} {first} {count} one {shows} is.least is.below'


def collect_proof(replay, at):
    kind, producer = replay.acts[at]
    taken, takes, (events, looks, counts) = takes_proof(replay, at)
    opened, left = opened_proof(replay, at), 'λ place below own chunk content is few ready. absurd (cc)'
    between = f'(served_by service_{replay.name} {events} {looks} {listed(map(str, counts))})'
    if kind == 'Collect':
        return record(opened=opened, writers='refl', taken=taken, takes=takes, none_left=left)
    if kind == 'CloseProducer':
        closes = record(between=between, takes=takes, view='refl')
        return record(opened=opened, writers='refl', taken=taken, closes=closes, none_left=left)
    behind = replay.moments[at + 1]
    parts = ''.join('((_, refl), ' for _ in replay.events[events:behind[0]])
    known = parts + 'tt' + ')' * (len(replay.events[events:behind[0]]))
    return record(opened=opened, writers='refl', taken=taken, between=between, takes=takes,
                  looks=f'(slice_between {looks} {behind[1]} service_{replay.name}.looks)', notes='refl', found=known, none_left=left)


def statement_of(replay):
    text = report_of(replay.service)
    whole, proof = whole_fact(replay, text)
    facts = [*plain_facts(replay), *clone_facts(replay), *act_facts(replay)]
    spoilt, _ = whole_fact(replay, with_wrong_placed(text))

    def specs(first):
        return replay_specs(replay) + define(f'Run{replay.name}', 'Type 0', '\n    × '.join([first, *(fact for fact, _ in facts)]))

    uses = [f'{word}_{writer.name}' for writer in replay.writers for word in ('images', 'patches', 'view')] \
        + [f'{word}_{replay.name}' for word in ('service', 'setup', 'world', 'scenario', 'acts')] \
        + [f'world_{replay.name}_{at}' for at in range(len(replay.moments))]
    term = '(' + ', '.join([proof, *(shown for _, shown in facts)]) + ')' if facts else proof
    return Statement(f'Run{replay.name}', specs(whole), term, Statement(f'Run{replay.name}', specs(spoilt), term, uses=uses), uses=uses)


def counted(replay, counts):
    """Counts what the replay has, so that none of it is missing in all of them."""
    scenario, seen = replay.scenario, set()
    counts['replays'] += 1
    for at, act in enumerate(replay.acts):
        counts[act[0]] += 1
        counts['answers behind a packet'] += act[0] == 'Answer' and replay.acts[at - 1][0] == 'Ask'
        counts['reads with a limit'] += act[0] == 'ReadAll' and act[2] != MOST_NUMBER
        counts['packets that are lost'] += act[0] == 'Ask' and any(call in (('Begun', False), ('GivenUp',)) for call in calls_behind(replay, at))
        seen |= {act[1]} & closed_by(scenario) if act[0] == 'CloseProducer' else set()
        taken = replay.events[replay.moments[at][0]:replay.moments[at + 1][0]] if takes_few(replay, act) else []
        counts['parts of chunks'] += sum(event[0] == 'partial' for event in taken)
        counts['taken chunks with patches'] += sum(event[0] == 'patched' for event in taken)
        counts['requests that a closed producer leaves open'] += act[0] == 'Request' and bool(seen)
    counted_raws(replay, counts)
    counts['answers to several requests that say less than was taken'] += sum(late_answers(replay))
    counts['clones'] += len(replay.world.clones)
    counts['clones with packets'] += sum(bool(clone.trace) for clone in replay.world.clones)
    counts['clones that mark anew'] += sum(clone.marks_anew for clone in replay.world.clones)
    counts['enough'] += worlds.is_enough(replay.world)
    counts['enough for the packets of the first writer alone'] += not worlds.is_enough(replay.world) and worlds.is_enough(replay.world, True)
    counts['several buffers'] += len(scenario.buffers) > 1
    counts['several producers'] += len(scenario.producers) > 1
    for writer in replay.writers:
        counts[{'Drops': 'drop', 'Stalls': 'stall'}.get(policy_term(writer.writer.spec), 'stall:N')] += 1
        for word, value in writer.counts.items() if not scenario.has_raw(writer.place + 1) else ():
            counts[word] += value


def late_answers(replay):
    """Of each answer, whether it is to several requests, and says less chunks than were taken in the end."""
    due = [0] * len(replay.writers)
    for act, moment, behind in zip(replay.acts, replay.service.moments, replay.service.moments[1:]):
        if act[0] == 'Request':
            due = [one + 1 for one in due]
        elif act[0] == 'Answer' and behind.calls != moment.calls:
            yield due[act[1]] > 1 and behind.completed[act[1]] < replay.service.taken[act[1]]
            due[act[1]] = 0


def counted_raws(replay, counts):
    """Counts what comes of lines `raw`, and of packets that the check refuses."""
    for _, answer in replay.service.raws:
        counts[f'raws that are {answer.rstrip("0123456789 ")}'] += 1
    raws = [event for event in replay.events if event[0] == 'commit']
    counts['raws with a patch'] += sum(bool(event[5]) for event in raws)
    counts['patches of raws that are put in'] += replay.service.applied
    for clone in replay.world.clones:
        counts['clones with raws'] += any(act[0] == 'CommitRaw' and act[2] == clone.of for act in replay.acts[:clone.at])
    for buffer in replay.service.buffers:
        counts['packets that the check refuses'] += bool(recorder.notes_of(buffer).branches & recorder.REFUSED)
    for writer in replay.writers if raws else ():
        read = counts_read(writer.sequence, replay.service.buffers[writer.buffer - 1])
        if replay.scenario.has_raw(writer.place + 1):
            before = {event[3] for event in raws if event[1] == writer.sequence}
            doubles = {event[2] for event in replay.events if event[:2] == ('arrive', writer.sequence) and event[4] == 'duplicate'}
            counts['packets of sequences with raws'] += read['delivered']
            counts['chunks that come behind a raw of theirs'] += len(before & doubles)
        else:
            counts['plain writers beside raws'] += read['delivered'] and any(replay.of(event[1]).buffer == writer.buffer for event in raws)
            counts['plain writers of which no read tells all'] += any(writer.counts[word] != value for word, value in read.items())


def replays(first):
    """Replays with a packet, from this seed on."""
    noted.noting()
    for seed in range(first, first + noted.MOST_SEEDS):
        maker = noted.SmallRawMaker if seed % 2 else noted.SmallMaker
        played = noted.replayed(maker(seed, 'csrxqk'))
        if not played or len(played.service.acts) > MOST_ACTS or not any(writer.begun for writer in played.service.writers):
            continue
        replay = Replay(str(seed), played)
        if len(replay_specs(replay)) <= MOST_CHARACTERS and len(b''.join(played.out)) <= MOST_WRITTEN:
            yield replay


def statements(first, wanted, counts):
    for replay in noted.chosen(replays(first), wanted, KINDS, counts, counted):
        yield statement_of(replay)
