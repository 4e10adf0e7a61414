"""Runs of small scenarios in some order: what the writers noted beside what the lines ask, their claims in vain, the reads of the lines, the
answers to flush requests, the records and the report."""

import accounts
import noted
import scenario_terms
from accounts import Account, define
from antt_text import Statement, listed, octets, record
from model.limits import MOST_NUMBER
from model.report import report_of
from scenario_terms import calls_term, each, scenario_term, service_spec, setup_term, specs_term, text_term, view_specs, with_wrong_placed, world_term

WORDS = f'''-- What a run is compared in.
{scenario_terms.USES}use Rattle.replay_model.specs.Played.{{buffers_of, records_in, report_with}}
use Rattle.chunk_plain.specs.Histories.{{history_of}}
use Rattle.chunk_plain.specs.Owned.{{won_chunks}}
use Rattle.chunk_plain.specs.Views.{{chunk_of}}
use Rattle.run_model.specs.Answered.{{HasAnsweredAll, answered_out, run_sums}}
use Rattle.run_model.specs.Collected.{{CollectedByLines}}
use Rattle.run_model.specs.Noted.{{done_calls}}
use Rattle.run_model.specs.Reads.{{GoesByReads}}
use Rattle.run_model.specs.Scraped.{{ScrapedByLines}}
use Rattle.run_model.specs.Settled.{{last_flushes}}
use Rattle.run_model.specs.Vain.{{EndsInVain, GoesOnInTurn}}
use Rattle.trace_writer.specs.Helping.{{rounds_for}}
use Rattle.service_core.specs.Agreement.{{spec_at}}

{scenario_terms.WORDS}-- what a writer has noted, but for the flushes of its answers, as what it was asked
abbrev pub done_by : List WriterView → List (List Call)
done_by views = map (λ (view : WriterView). done_calls (answered_out view)) views

-- the chunks that each began, and those that its claims won
abbrev pub begun_by : List WriterView → List (List ℕ)
begun_by views = map (λ (view : WriterView). map chunk_of view.begun) views

abbrev pub won_by : List WriterView → List (List ℕ)
won_by views = map (λ (view : WriterView). won_chunks view.asked) views

-- A run: what its lines ask and what was noted, the answers to its flush requests, its reads, its trace and its report.
pub record IsComputed (scenario : Parts) (specs : List ProducerSpec) (setup : Setup) (world : World) (done : ServiceView)
    (asked : List (List Call)) (sums trace text : List ℕ) : Type 0 where
  pub laid : setup_of specs scenario.writers ≡ setup
  pub asks : asked_of_each scenario 1 scenario.writers ≡ asked
  pub has_done : done_by world.writers ≡ map (λ calls. calls ++ last_flushes) asked
  pub in_turn : won_by world.writers ≡ begun_by world.writers
  pub summed : run_sums (length setup.writers) world.service.letters ≡ sums
  pub answered : HasAnsweredAll scenario setup world.service
  pub collected : CollectedByLines setup scenario.lines done
  pub scraped : ScrapedByLines setup scenario.lines done
  pub reads : GoesByReads setup (buffers_of scenario setup) scenario.lines [] (history_of done)
  pub written : trace_of (records_in scenario setup world) ≡ trace
  pub reported : report_with scenario setup world (run_sums (length setup.writers) world.service.letters) ≡ text

-- the writer at this place when it had noted so many calls, made so many claims and begun so many chunks
abbrev pub front_of : WriterView → (calls asks begun : ℕ) → WriterView
front_of view calls asks begun = record view {{ calls = take calls view.calls; asked = take asks view.asked; begun = take begun view.begun }}

-- A packet of the writer at this place is lost in the call that was made when so many were noted: its claims end in vain then, and it went on from there.
pub record IsLost (scenario : Parts) (setup : Setup) (place calls : ℕ) (front view : WriterView) : Type 0 where
  pub rounds : EndsInVain setup (spec_at scenario.writers place).producer (rounds_for (spec_at scenario.writers place).policy) front.asked calls
  pub goes_on : GoesOnInTurn front view
'''

LEMMAS = scenario_terms.LEMMAS

HEAD = f'''-- Runs.
{scenario_terms.HEAD}use Rattle.computed.specs.Words.{{IsComputed, IsLost, begun_of, contents_of, taken_first, served_by, front_of}}
{scenario_terms.LIMIT}'''

PROOF_HEAD = '''use Rattle.std.proofs.Common.{◌≡◌, ◌<◌, ◌≤◌, ℕ, suc, ◌+◌, ◌-◌, ◌*◌, ◌^◌, true, false, List, [], ◌∷◌, ◌++◌, length, take, drop, refl, inl, inr, arith}
use Rattle.std.specs.Prelude.{slice_index}
use Rattle.std.specs.Int.{bit_at}
use Rattle.std.specs.Fmt.{digits}
use Rattle.std.proofs.lemmas.List.Elements.{All-from_recursion}
use Rattle.page_geometry.specs.declared.page_word.TheConstants.{CLAIM_BIT}
use Rattle.chunk_plain.specs.Setup.{Setup, spot, producer_of, range_of, sequence_of}
use Rattle.chunk_plain.specs.Views.{Ask, At, Heard, taken_of}
use Rattle.chunk_plain.specs.Histories.{history_of}
use Rattle.claim_arbiter.specs.Claiming.{AllClaimed}
use Rattle.run_model.specs.Collected.{has_asker, taken_by_lines, times_in}
use Rattle.run_model.specs.Scraped.{has_part, is_scraped_by}
use Rattle.computed.specs.Words.{served_by, contents_of, front_of}
use Rattle.computed.proofs.Everywhere.{at_each}
'''

HIDDEN, TIMES_CHARACTERS = scenario_terms.HIDDEN, scenario_terms.TIMES_CHARACTERS
MOST_CHARACTERS = 20000

# What some of the runs have.
KINDS = ('flush requests', 'answers', 'reads of lines', 'reads with a limit', 'packets dropped at their begin', 'packets given up', 'claims in vain',
         'rounds behind asks', 'collected by nobody', 'collected by a line', 'scraped by a line', 'parts of chunks', 'chunks taken for a writer that asks',
         'delivered', 'dropped', 'overwritten', 'discarded')


class Run(Account):
    """A run as lists: what the writers and the service had done when the threads were done, and its end."""

    def __init__(self, name, played):
        super().__init__(name, played)
        self.service, self.done = played.service, played.done
        self.done_events = events_before(played.done.events)
        self.letters = [('Asked', events_before(rest[0])) if kind == 'Asked' else (kind, *rest) for kind, *rest in played.service.letters]
        for writer, count in zip(self.writers, played.done.calls):
            writer.calls = writer.writer.calls[:count]      # (the end flushes once more)

    def lines_of(self, kind):
        return [line for line in self.scenario.lines if line.kind == kind]


def events_before(noted):
    """How many events there were when so many lines of them were noted."""
    return len(accounts.events_in(accounts.recorder.WHOLE.events[:noted]))


def asked_by_lines(run):
    """What the lines ask of each writer: all that it was asked but the flushes of the end."""
    return [writer.writer.asked[:-3] for writer in run.writers]


def ask_term(ask):
    return record(chunk=ask.chunk, found=ask.found, won='true' if ask.won else 'false', calls=ask.calls)


def letters_term(writer):
    """What a writer knows of flush requests, and its answers."""
    answers = listed(record(flush=flush, chunks=chunks, calls=calls) for flush, chunks, calls in writer.answers)
    return record(known=writer.answers[-1][0] if writer.answers else 0, answers=answers)


def letter_term(letter):
    """What the service knows of flush requests: a request that it made behind so many events, or an answer that it read."""
    kind, *rest = letter
    if kind == 'Asked':
        return f'views.Asked {rest[0]}'
    return f'views.Heard {rest[0]} {rest[1]} {rest[2]}'


def run_specs(run):
    name = run.name
    looks = [accounts.look_term(event) for event in run.events if event[0] == 'partial']
    letters = listed(map(letter_term, run.letters))
    done_looks = sum(event[0] == 'partial' for event in run.events[:run.done_events])
    views = ''.join(view_specs(writer, listed(map(ask_term, writer.writer.asks)), writer.calls, letters_term(writer.writer)) for writer in run.writers)
    return (views + service_spec(run, looks, letters) + define(f'scenario_{name}', 'Parts', scenario_term(run.scenario))
            + define(f'setup_{name}', 'Setup', setup_term(run.scenario)) + define(f'world_{name}', 'World', world_term(run))
            + define(f'done_{name}', 'views.ServiceView', f'served_by service_{name} {run.done_events} {done_looks} {listed(map(str, run.done.taken))}'))


# Proofs

def answered_proof(run):
    """Of each writer the service has read an answer to the last request."""
    letters, requests = run.letters, len(run.service.requests)
    if not requests:
        return record(requests='refl', last='λ some place below. absurd (omega (arith, some))')
    shown = []
    for place in range(len(run.writers)):
        at = next(n for n, one in enumerate(letters) if one[:3] == ('Heard', place, requests))
        shown.append(f'({at}, {letters[at][3]}, refl)')
    fact = (f'(λ (place : ℕ). (n : ℕ) × (chunks : ℕ) × At service_{run.name}.letters n (Heard place {requests} chunks))')
    return record(requests='refl', last=f'λ some place below. at_each {fact} {len(run.writers)} place {each(shown)} below')


def has_asker(run, producer):
    """A writer of this producer asks for help where it finds no free chunk."""
    return any(spec.producer == producer and spec.policy != 'drop' and any(line.kind in 'pb' and line.of == number for line in run.scenario.lines)
               for number, spec in enumerate(run.scenario.writers, 1))


def allowed(run, producer):
    """How many chunks of a writer of this producer its lines have taken at most."""
    spec = run.scenario.producers[producer - 1]
    return sum(line.kind in 'cs' and line.of == producer for line in run.scenario.lines) * spec.pages * spec.chunks


def collected_proof(run):
    name = run.name
    producer = f'(producer_of setup_{name} place)'
    most = f'times_in {producer} (taken_by_lines scenario_{name}.lines) * (range_of setup_{name} {producer}).count'
    fact = (f'(λ (place : ℕ). has_asker setup_{name} scenario_{name}.lines {producer} ≡ false '
            f'→ (taken_of done_{name} place).count ≤ {most})')
    shown = ['λ none. absurd (cc)' if has_asker(run, spec.producer) else f'λ none. (let most : {run.done.taken[place]} ≤ {allowed(run, spec.producer)} = omega arith in most)'
             for place, spec in enumerate(run.scenario.writers)]
    return f'λ place below. at_each {fact} {len(shown)} place {each(shown)} below'


def scraped_proof(run):
    name = run.name
    fact = (f'(λ (place : ℕ). is_scraped_by scenario_{name}.lines (producer_of setup_{name} place) ≡ false '
            f'→ has_part (sequence_of place) done_{name}.events ≡ false)')
    shown = ['λ none. absurd (cc)' if any(line.of == spec.producer for line in run.lines_of('s')) else 'λ none. refl' for spec in run.scenario.writers]
    return f'λ place below. at_each {fact} {len(shown)} place {each(shown)} below'


def reads_proof(run):
    """The history goes by the reads of the lines, each as many as its buffer has sequences."""
    history, at, steps = f'(history_of done_{run.name})', 0, []
    for line in run.scenario.lines:
        count = sum(spec.buffer == line.of for spec in run.scenario.writers) if line.kind == 'r' else 0
        begins = at
        if count:
            while run.events[begins][0] != 'read':
                begins += 1
        unread = record(others=f'(drop {at} (take {begins} {history}))', goes='refl', unread='refl')
        steps.append(f'(take {begins} {history}, {unread}, ')
        at = begins + count
    last = record(others=f'(drop {at} {history})', goes='refl', unread='refl')
    return ''.join(steps) + last + ')' * len(steps)


def losses(writer):
    """Where a packet is lost: how many calls were noted when the call was made, and how many behind it."""
    for index, call in enumerate(writer.calls):
        if call == ('Begun', False):
            yield index, index + 1
        elif call == ('GivenUp',):
            yield index - 1, index + 1


def loss_facts(run):
    """Each loss stands behind whole rounds of claims in vain."""
    for writer in run.writers:
        spec, asks = writer.writer.spec, writer.writer.asks
        rounds = 1 if spec.tries is None else spec.tries + 1
        producer = run.scenario.producers[spec.producer - 1]
        count = producer.pages * producer.chunks
        for at, behind in losses(writer):
            made = sum(ask.calls <= at for ask in asks)
            begun = sum(ask.won for ask in asks[:made])
            front = f'(front_of view_{writer.name} {behind} {made} {begun})'
            words = [[ask.found for ask in asks[made - (number + 1) * count:made - number * count]] for number in range(rounds - 1, -1, -1)]
            yield (f'IsLost scenario_{run.name} setup_{run.name} {writer.place} {at} {front} view_{writer.name}',
                   loss_proof(run, writer, made - rounds * count, words, (behind, made, begun)))


def loss_proof(run, writer, before, words, front):
    calls, asks, begun = front
    producer, setup = writer.writer.spec.producer, f'setup_{run.name}'
    view = f'view_{writer.name}'
    first = f'(range_of {setup} {producer}).first'
    claimed = []
    for found in words:
        term = listed(map(str, found))
        fact = f'(λ (k : ℕ). bit_at (slice_index {term} k) (CLAIM_BIT + (spot {setup} ({first} + k)).place) ≡ 1)'
        claimed.append(f'(refl, λ k below. at_each {fact} {len(found)} k {each("refl" for _ in found)} below)')
    each_round = f'(λ (words : List ℕ). (length words ≡ (range_of {setup} {producer}).count) × AllClaimed {setup} {first} words)'
    rounds = listed(listed(map(str, found)) for found in words)
    proofs = ''.join(f'({one}, ' for one in claimed) + 'tt' + ')' * len(claimed)
    vain = record(before=f'(take {before} {view}.asked)', rounds=rounds, count_is='refl', each=f'All-from_recursion {each_round} {rounds} {proofs}', asks_are='refl')
    later = writer.writer.asks[asks:]
    after = f'(drop {asks} {view}.asked)'
    goes = record(calls=f'(drop {calls} {view}.calls)', asks=after, calls_are='refl', asks_are='refl', chunks_are='refl',
                  later=f'All-from_recursion (λ (ask : Ask). {calls} ≤ ask.calls) {after} '
                        + ''.join('(omega arith, ' for _ in later) + 'tt' + ')' * len(later))
    return record(rounds=vain, goes_on=goes)


def whole_fact(run, text):
    name = run.name
    sums = listed(str(run.service.chunks_of(request)) for request in run.service.requests)
    asked = listed(map(calls_term, asked_by_lines(run)))
    return (f'IsComputed scenario_{name} {specs_term(run.scenario)} setup_{name} world_{name} done_{name} {asked} {sums} '
            f'{octets(b"".join(run.world.out))} {text_term(text)}')


def statement_of(run):
    text = report_of(run.service)
    plain = ('laid', 'asks', 'has_done', 'in_turn', 'summed', 'written', 'reported')
    whole = record(**{one: 'refl' for one in plain}, answered=answered_proof(run), collected=collected_proof(run), scraped=scraped_proof(run),
                   reads=reads_proof(run))
    losses_of = list(loss_facts(run))

    def specs(text):
        facts = [whole_fact(run, text), *(fact for fact, _ in losses_of)]
        return run_specs(run) + define(f'Run{run.name}', 'Type 0', '\n    × '.join(facts))

    proof = '(' + ', '.join([whole, *(shown for _, shown in losses_of)]) + ')' if losses_of else whole
    uses = [f'{word}_{writer.name}' for writer in run.writers for word in ('images', 'patches', 'view')] \
        + [f'{word}_{run.name}' for word in ('service', 'setup', 'world', 'scenario', 'done')]
    spoilt = specs(with_wrong_placed(text))
    return Statement(f'Run{run.name}', specs(text), proof, Statement(f'Run{run.name}', spoilt, proof, uses=uses), uses=uses)


def counted(run, counts):
    """Counts what the run has, so that none of it is missing in all of them."""
    scenario = run.scenario
    counts['runs'] += 1
    counts['flush requests'] += len(run.service.requests)
    counts['reads of lines'] += len(run.lines_of('r'))
    counts['reads with a limit'] += sum(line.limit != MOST_NUMBER for line in run.lines_of('r'))
    counts['collected by a line'] += bool(run.lines_of('c'))
    counts['scraped by a line'] += bool(run.lines_of('s'))
    counts['parts of chunks'] += sum(event[0] == 'partial' for event in run.events)
    counts['collected by nobody'] += sum(not allowed(run, number) and not has_asker(run, number) for number in range(1, len(scenario.producers) + 1))
    counts['chunks taken for a writer that asks'] += not run.lines_of('c') and not run.lines_of('s') and any(run.done.taken)
    for writer in run.writers:
        counts['answers'] += len(writer.writer.answers)
        counts['packets dropped at their begin'] += writer.calls.count(('Begun', False))
        counts['packets given up'] += writer.calls.count(('GivenUp',))
        counts['claims in vain'] += sum(not ask.won for ask in writer.writer.asks)
        counts['rounds behind asks'] += writer.writer.spec.tries is not None and any(losses(writer))
        for word, value in writer.counts.items():
            counts[word] += value


def runs(first):
    """Runs with a packet, from this seed on."""
    noted.noting()
    for seed in range(first, first + noted.MOST_SEEDS):
        played = noted.ran(seed)
        if not played or not any(writer.begun for writer in played.service.writers):
            continue
        run = Run(str(seed), played)
        if len(run_specs(run)) <= MOST_CHARACTERS:
            yield run


def statements(first, wanted, counts):
    for run in noted.chosen(runs(first), wanted, KINDS, counts, counted):
        yield statement_of(run)
