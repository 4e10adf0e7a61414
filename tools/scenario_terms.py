"""What replays and runs are said in: scenarios and tables as terms, the views of their seats, and words and lemmas that both rest on."""

import accounts
import histories
import noted
import writer_scripts
from accounts import define
from antt_text import flag, listed, octets, record
from model.fields import Begin, End, Number
from model.limits import MOST_NUMBER

USES = '''use Rattle.std.specs.Prelude.{◌≡◌, ℕ, zero, suc, ◌+◌, ◌-◌, ◌*◌, ◌<◌, ◌≤◌, Bool, ◌&&◌, List, [], ◌∷◌, ◌++◌, length, map, take, drop, ⊤}
use Rattle.trace_base.specs.declared.policy.WriterSpec.{WriterSpec}
use Rattle.trace_model.specs.Calls.{Call}
use Rattle.trace_model.specs.Delivery.{trace_of}
use Rattle.trace_model.specs.Images.{Image, Patch}
use Rattle.scenario_text.specs.Scenario.{Parts}
use Rattle.scenario_text.specs.Accepted.{calls_asked}
use Rattle.chunk_plain.specs.declared.setup.ProducerSpec.{ProducerSpec}
use Rattle.chunk_plain.specs.Laying.{setup_of}
use Rattle.chunk_plain.specs.Setup.{Setup}
use Rattle.chunk_plain.specs.Views.{BegunChunk, Commit, Completed, Content, Noted, ServiceView, Taken, WriterView}
use Rattle.chunk_plain.specs.World.{World, writer}
'''

WORDS = '''-- the chunks that a writer began and completed, with these numbers, images and patches, all for one buffer
abbrev pub begun_of : ℕ → List ℕ → List Image → List (List Patch) → List BegunChunk
begun_of target (chunk ∷ chunks) (image ∷ images) (own ∷ patches) =
    Completed chunk (record { image = image; patches = own; target = target }) ∷ begun_of target chunks images patches
begun_of target chunks images patches = []

-- the contents of these images and patches
abbrev pub contents_of : ℕ → List Image → List (List Patch) → List Content
contents_of target (image ∷ images) (own ∷ patches) = record { image = image; patches = own; target = target } ∷ contents_of target images patches
contents_of target images patches = []

-- so many of the contents, taken
abbrev pub taken_first : ℕ → List Content → Taken
taken_first count contents = record { count = count; contents = take count contents }

-- the chunks that were taken of each writer when they were so many
abbrev pub taken_by : List ℕ → List Taken → List Taken
taken_by (count ∷ counts) (taken ∷ others) = taken_first count taken.contents ∷ taken_by counts others
taken_by counts others = []

-- how many of these notes are of commits
abbrev pub commits_in : List Noted → ℕ
commits_in [] = 0
commits_in (Commit place ∷ notes) = suc (commits_in notes)
commits_in (note ∷ notes) = commits_in notes

-- the service's view when it had noted so many events and looks, and taken so many chunks
abbrev pub served_by : ServiceView → (events looks : ℕ) → List ℕ → ServiceView
served_by view events looks counts = record view {
  looks = take looks view.looks;
  taken = taken_by counts view.taken;
  events = take events view.events;
  commits = take (commits_in (take events view.events)) view.commits;
}

-- what the lines ask of so many writers
abbrev pub asked_of_each : Parts → (number : ℕ) → List WriterSpec → List (List Call)
asked_of_each scenario number [] = []
asked_of_each scenario number (spec ∷ specs) = calls_asked number scenario.lines ∷ asked_of_each scenario (suc number) specs

-- what holds at each of so many places, from 0 on
abbrev pub Each : (ℕ → Type 0) → ℕ → Type 0
Each P zero = ⊤
Each P (suc count) = Each P count × P count

'''

LEMMAS = '''-- From facts at each place to facts at all.
use Rattle.std.proofs.Common.{◌≡◌, ℕ, zero, suc, ◌+◌, ◌-◌, ◌<◌, ◌≤◌, sym, subst, arith, inl, inr}
use Rattle.std.specs.Prelude.{◌⊎◌}
use Rattle.std.proofs.lemmas.Bool.{cases_eq}
use Rattle.computed.specs.Words.{Each}

pub at_each : (P : ℕ → Type 0) (count place : ℕ) → Each P count → place < count → P place
at_each P zero place each below = absurd (omega (arith, below))
at_each P (suc count) place (each, last) below =
    by_place (λ e. subst P (sym e) last) (λ d. at_each P count place each (omega (arith, below, d))) (cases_eq place count)
  where
    by_place : (place ≡ count → P place) → ((place ≡ count → ⊥) → P place) → ((place ≡ count) ⊎ (place ≡ count → ⊥)) → P place
    by_place here before (inl e) = here e
    by_place here before (inr d) = before d

pub from_first : (P : ℕ → Type 0) (first count one : ℕ) → Each (λ k. P (first + k)) count → first ≤ one → one < first + count → P one
from_first P first count one each least below =
    subst P (omega (arith, least)) (at_each (λ k. P (first + k)) count (one - first) each (omega (arith, least, below)))
'''

HEAD = '''use Rattle.std.specs.Prelude.{◌≡◌, ℕ, ◌-◌, ◌^◌, Bool, true, false, List, [], ◌∷◌, ◌++◌, replicate, None, Some, codes}
use Rattle.trace_base.specs.declared.policy.FullPolicy.TheVariants.{Ring, Discard}
use Rattle.trace_base.specs.declared.policy.WriterPolicy.TheVariants.{Drops, Stalls, StallsThenDrops}
use Rattle.trace_base.specs.declared.policy.WriterSpec.{WriterSpec}
use Rattle.trace_model.specs.Calls.{Call, Begun, Number, Bytes, Nested, Ended, GivenUp, Finished, Flushed}
use Rattle.trace_model.specs.Images.{Image, Patch}
use Rattle.field_tree.specs.declared.node.FieldNode.TheVariants as node
use Rattle.scenario_text.specs.declared.scenario.LineKind.TheVariants as line
use Rattle.scenario_text.specs.declared.scenario.NumberedLine.{NumberedLine}
use Rattle.scenario_text.specs.Scenario.{Parts}
use Rattle.chunk_plain.specs.declared.setup.ProducerSpec.{ProducerSpec}
use Rattle.page_geometry.specs.declared.geometry.Geometry.{Geometry}
use Rattle.chunk_plain.specs.Setup.{Setup}
use Rattle.chunk_plain.specs.Views as views
use Rattle.chunk_plain.specs.World.{World}
'''

LIMIT = '''
abbrev pub no_limit : ℕ
no_limit = 2 ^ 64 - 1

'''

HIDDEN = ('digits',)        # definitions of the standard library that a proof has to name
TIMES_CHARACTERS = 5        # the generated files are so many times as long as others


def policy_term(spec):
    if spec.tries is not None:
        return f'StallsThenDrops {spec.tries}'
    return {'drop': 'Drops', 'stall': 'Stalls'}[spec.policy]


def spec_term(spec):
    return record(producer=spec.producer, buffer=spec.buffer, policy=policy_term(spec), **{'from': spec.first_id})


def node_term(part):
    if isinstance(part, Begin):
        return f'(node.Begin {part.field}, [])'
    if isinstance(part, End):
        return '(node.End, [])'
    if isinstance(part, Number):
        return f'(node.Number {part.field} {part.value}, [])'
    return f'(node.Bytes {part.field} {part.times}, {octets(part.text)})'


def limit_term(limit):
    return 'no_limit' if limit == MOST_NUMBER else str(limit)


def asked_term(target, chunk):
    """A chunk that a line asks to be committed for this buffer."""
    patch = 'None'
    for one in chunk.patches:
        patch = f'Some ({record(chunk_id=one.chunk_id, offset=one.offset, bytes=octets(one.bytes), last=flag(one.last))})'
    return '(' + record(chunk_id=chunk.chunk_id, count=chunk.count, flags=chunk.flags, buffer=target, payload=octets(chunk.payload), patch=patch) + ')'


def line_term(line):
    if line.kind == 'raw':
        return record(line=line.number, what=f'line.Raw {line.of} {asked_term(line.target, line.chunk)}')
    nodes = listed(map(node_term, line.parts))
    what = {'p': f'Packet {line.of} {nodes}', 'b': f'Begin {line.of}', 'a': f'Add {line.of} {nodes}',
            'n': f'Nest {line.of} {line.parts[0].field if line.kind == "n" else 0}', 'u': f'Unnest {line.of}', 'e': f'End {line.of}',
            'f': f'Flush {line.of}', 'c': f'Collect {line.of}', 's': f'Scrape {line.of}', 'x': f'Close {line.of}',
            'r': f'Read {line.of} {limit_term(line.limit)}', 'q': 'Request', 'k': f'CloneBuffer {line.of}'}[line.kind]
    return record(line=line.number, what=f'line.{what}')


def scenario_term(scenario):
    full = {'ring': 'Ring', 'discard': 'Discard'}
    return record(buffers=listed(record(kb=one.kb, policy=full[one.policy]) for one in scenario.buffers),
                  producers=listed(record(pages=one.pages, page_size=one.page_size, chunks=one.chunks) for one in scenario.producers),
                  writers=listed(map(spec_term, scenario.writers)), lines=listed(map(line_term, scenario.lines)))


def specs_term(scenario):
    return listed(record(pages=one.pages, geometry=record(page_size=one.page_size, chunks=one.chunks)) for one in scenario.producers)


def setup_term(scenario):
    """The table of a scenario: each chunk's spot, and where each producer's begin."""
    spots, ranges, page = [], [], 0
    for producer in scenario.producers:
        ranges.append(record(first=len(spots), count=producer.pages * producer.chunks))
        for _ in range(producer.pages):
            spots += [record(page=page, place=place, chunks=producer.chunks, layout=noted.LAYOUTS.index(producer.chunks) + 1,
                             payload_size=producer.payload()) for place in range(producer.chunks)]
            page += 1
    sizes = listed(str(producer.payload()) for producer in scenario.producers)
    return record(pages=page, spots=listed(spots), ranges=listed(ranges), sizes=sizes, writers=listed(map(spec_term, scenario.writers)))


def text_term(text):
    """A report, a line each."""
    lines = [f'codes "{line}\\n"' for line in text.decode().splitlines()]
    return f'({" ++ ".join(lines)})' if lines else '[]'


def calls_term(calls):
    return listed(map(writer_scripts.call_term, calls))


def each(terms):
    """A fact at each place, the first place innermost."""
    proof = 'tt'
    for term in terms:
        proof = f'({proof}, {term})'
    return proof


def view_specs(writer, asked, calls, letters):
    """The definitions of a writer's part, with these claims, calls and answers."""
    name, images = writer.name, writer.images()[:writer.completed]
    patches = listed(listed(map(writer_scripts.patch_term, page.patches)) for page in writer.pages[:writer.completed])
    slots = listed(map(str, writer.writer.slots[:writer.completed]))
    return (define(f'images_{name}', 'List Image', listed(images)) + define(f'patches_{name}', 'List (List Patch)', patches)
            + define(f'view_{name}', 'views.WriterView',
                     record(asked=asked, claimed='[]', stamped='None', begun=f'begun_of {writer.buffer} {slots} images_{name} patches_{name}',
                            calls=calls_term(calls), letters=letters)))


def committed_term(event):
    """What came by a commit."""
    _, sequence, _, position, (count, flags, payload), patches, _ = event
    image = record(sequence=sequence, chunk_id=position, count=count, flags=flags, payload=octets(payload))
    return record(image=image, patches=listed(histories.patch_of(patch.chunk_id, patch) for patch in patches))


def service_spec(account, looks, letters):
    """The definition of the service's part."""
    taken = listed(f'taken_first {writer.taken} (contents_of {writer.buffer} images_{writer.name} patches_{writer.name})' for writer in account.writers)
    return define(f'service_{account.name}', 'views.ServiceView',
                  record(looks=listed(looks), taken=taken, reading='[]', events=listed(map(accounts.noted_term, account.events)),
                         commits=listed(committed_term(event) for event in account.events if event[0] == 'commit'), letters=letters))


def world_term(account):
    views = listed(f'view_{writer.name}' for writer in account.writers)
    return record(chunks='[]', writers=views, service=f'service_{account.name}')


def with_wrong_placed(text):
    """A report with a wrong number."""
    return text.replace(b' placed ', b' placed 1', 1)
