"""Scripts of one writer's calls: its images are a cut of its packets, whose bodies are the model's; and the same images
spoilt in one place are none."""

import random

from antt_text import Statement, flag, listed, nested, octets, record
from model import writers
from model.chunks import Claims, position_of
from model.fields import Begin, End, Number, Text
from model.geometry import CONTINUES
from model.scenario import Writer as WriterSpec
from model.wire import CONTENT, DROP_MARK, HOLE, MARK, four_bytes, number_field, tag, text_head

SEQUENCE = 2

WORDS = '''-- What a script of a writer's calls is compared in.
use Rattle.std.specs.Prelude.{◌≡◌, ℕ, List, map}
use Rattle.trace_model.specs.Calls.{Call}
use Rattle.trace_model.specs.Images.{Image, Patch}
use Rattle.trace_model.specs.Reading.{Reading, Fragments, reading_of}
use Rattle.trace_model.specs.Packets.{bodies_of, emissions_of, begun_count, dropped_at_begin, packets_of, AreCalls}
use Rattle.trace_model.specs.Pages.{Page, chunk_of}
use Rattle.trace_model.specs.Cut.{IsCut}

pub record IsComputed (size : ℕ) (calls : List Call) (images : List Image) (patches : List (List Patch))
    (bodies emissions : List (List ℕ)) (begun dropped : ℕ) : Type 0 where
  pub possible : AreCalls calls
  pub cut : IsCut size 2 calls images patches
  pub kept : bodies_of calls ≡ bodies
  pub emitted : emissions_of calls ≡ emissions
  pub counted : begun_count calls ≡ begun
  pub refused : dropped_at_begin calls ≡ dropped
  pub read :
    map (λ (image : Image). reading_of image.count image.payload) images
    ≡ map (λ (page : Page). Fragments (chunk_of page).fragments) cut.pages
'''

HEAD = '''-- Scripts of a writer's calls.
use Rattle.std.specs.Prelude.{ℕ, Bool, true, false, List, [], ◌∷◌, ◌++◌, replicate}
use Rattle.trace_model.specs.Calls.{Call, Begun, Number, Bytes, Nested, Ended, GivenUp, Finished, Flushed}
use Rattle.trace_model.specs.Images.{Image, Patch}
use Rattle.trace_model.specs.Pages.{Page}
use Rattle.computed.specs.Words.{IsComputed}

'''

PROOF_HEAD = '''use Rattle.std.proofs.Common.{ℕ, true, false, List, [], ◌∷◌, ◌++◌, replicate, refl, arith}
use Rattle.std.proofs.lemmas.List.Elements.{All-from_recursion}
use Rattle.trace_model.specs.Cut.{IsWellFormedPage}
'''

LEAST = 2               # scripts that take a branch
MOST_SEEDS = 20000      # seeds that are looked at for a branch

# Branches of the definitions that few scripts take.
BRANCHES = (
    'a packet that begins at twelve bytes left', 'a packet that begins no more at eleven bytes left',
    'a nested length that moves on over 1', 'a nested length that moves on over 2', 'a nested length that moves on over 3',
    'a packet that is given up with 1 left', 'a packet that is given up with 2 left', 'a packet that is given up with 3 left',
    'a packet kept behind a lost one where room was left', 'a packet dropped behind a lost one where room was left',
)


# The packets that a list of calls makes, the newest first.

def flat_text(four, levels):
    if len(levels) == 1:
        return levels[0]
    return flat_text(four, levels[1:]) + four + levels[0]


def open_places(levels):
    return [len(flat_text(HOLE, levels[i:])) for i in range(1, len(levels))]


class Packet:
    def __init__(self, kept, front):
        self.kept, self.front = kept, front
        self.levels = [front]
        self.given_up = None
        self.finished = False

    def lost(self):
        return not self.kept or self.given_up is not None

    def body(self):
        return flat_text(HOLE, self.levels)


def packets_of(calls):
    packets = []
    for kind, *rest in calls:
        if kind == 'Begun':
            front = MARK if rest[0] and packets and packets[0].lost() else b''
            packets.insert(0, Packet(rest[0], front))
            continue
        newest = packets[0] if packets else None
        if kind == 'Number':
            newest.levels[0] += number_field(*rest)
        elif kind == 'Bytes':
            newest.levels[0] += text_head(rest[0], len(rest[1]) * rest[2]) + rest[1] * rest[2]
        elif kind == 'Nested':
            newest.levels[0] += tag(rest[0], CONTENT)
            newest.levels.insert(0, b'')
        elif kind == 'Ended':
            level = newest.levels.pop(0)
            newest.levels[0] += four_bytes(len(level)) + level
        elif kind == 'GivenUp':
            newest.given_up = list(newest.levels)
        elif kind == 'Finished':
            newest.finished = True
    return packets


# Pages.

class Page:
    def __init__(self, count, flags, payload, patches):
        self.count, self.flags, self.payload, self.patches = count, flags, bytes(payload), patches
        self.fragments, self.dropped, at = [], False, 0
        for number in range(count):
            size = self.payload[at:at + 4]
            if size == DROP_MARK:
                assert number == count - 1
                self.dropped = True
                self.fragments.append(self.payload[at + 4:])
                at = len(self.payload)
                break
            length = sum((byte & 127) << 7 * i for i, byte in enumerate(size))
            self.fragments.append(self.payload[at + 4:at + 4 + length])
            at += 4 + length
        self.rest = self.payload[at:]

    def term(self):
        return record(continues=flag(self.flags & 1), runs_on=flag(self.flags & 2), awaits=flag(self.flags & 4),
                      fragments=listed(map(octets, self.fragments)), dropped=flag(self.dropped),
                      rest=octets(self.rest), patches=listed(map(patch_term, self.patches)))


def patch_term(patch):
    chunk_id, offset, data, last = patch
    return record(chunk_id=chunk_id, offset=offset, bytes=listed(map(str, data)), last=flag(last))


def chains_of(pages):
    """The bytes of each chain with all patches put in, the newest first."""
    payloads = [bytearray(page.payload) for page in pages]
    for page in pages:
        for chunk_id, offset, data, _ in page.patches:
            payloads[chunk_id][offset:offset + 4] = data
    chains = []
    for page, payload in zip(pages, payloads):
        at = 0
        for number, fragment in enumerate(page.fragments):
            piece = bytes(payload[at + 4:at + 4 + len(fragment)])
            at += 4 + len(fragment)
            if number == 0 and page.flags & 1:
                chains[0] += piece
            else:
                chains.insert(0, piece)
    return chains


# Playing.

class Recorded(writers.Writer):
    """A writer that notes its calls, the images of the chunks that it completes, and which branches it takes."""

    def __init__(self, *setup):
        super().__init__(*setup)
        self.calls = []
        self.images = []
        self.is_beginning = False
        self.branches = set()
        self.left_room = False      # a packet might have begun in the chunk that was completed last

    def begin(self):
        self.is_beginning = True
        # (a flush behind the lost packet would have the next one begin a chunk anyway)
        behind_lost = self.lost_before and self.left_room and self.calls[-1] != ('Flushed',)
        if self.held and self.held.left() in (11, 12):
            self.branches.add(f'a packet that begins {"no more at eleven" if self.held.left() == 11 else "at twelve"} bytes left')
        super().begin()
        if behind_lost:
            self.branches.add(f'a packet {"dropped" if self.thrown_away else "kept"} behind a lost one where room was left')
        self.is_beginning = False
        self.calls.append(('Begun', not self.thrown_away))

    def begin_nested(self, field):
        was = self.next_position
        super().begin_nested(field)
        if self.next_position > was and self.images[-1].rest:
            self.branches.add(f'a nested length that moves on over {len(self.images[-1].rest)}')

    def give_up(self):
        if self.held.left():
            self.branches.add(f'a packet that is given up with {self.held.left()} left')
        super().give_up()

    def write(self, part):
        """A call on the begun packet, which is noted before a stall, and its giving up behind it."""
        was = self.thrown_away
        self.calls.append(call_of(part))
        super().write(part)
        if self.thrown_away and not was:
            self.calls.append(('GivenUp',))

    def finish(self):
        super().finish()
        self.calls.append(('Finished',))

    def flush(self):
        """(The chunk that a begin completes is no call of its own.)"""
        if not self.is_beginning:
            self.calls.append(('Flushed',))
        super().flush()

    def complete_chunk(self, runs_on):
        self.left_room = self.has_room_to_begin()
        super().complete_chunk(runs_on)
        _, chunk = self.complete[-1]
        self.images.append(Page(chunk.count, chunk.flags, chunk.payload, [patch_of(patch, self.spec.first_id) for patch in chunk.patches]))

    def pages(self):
        """The completed images, and the held chunk as the last one."""
        held = self.held
        if held is None or not held.count:
            return list(self.images)
        payload = bytearray(held.payload)
        if self.in_packet and not self.thrown_away:
            payload[held.fragment_at:held.fragment_at + 4] = four_bytes(held.size_of_fragment())
        return [*self.images, Page(held.count, CONTINUES if held.continues else 0, payload, [patch_of(patch, self.spec.first_id) for patch in self.patches])]


def call_of(part):
    if isinstance(part, Begin):
        return 'Nested', part.field
    if isinstance(part, End):
        return ('Ended',)
    if isinstance(part, Number):
        return 'Number', part.field, part.value
    return 'Bytes', part.field, part.text, part.times


def patch_of(patch, first_id):
    return position_of(first_id, patch.chunk_id), patch.offset, patch.bytes, patch.last


class Run:
    """A writer on a producer of a few chunks, with a service that takes chunks now and then."""

    def __init__(self, size, chunks, policy, seed):
        self.random = random.Random(seed)
        self.size = size
        self.claims = Claims(chunks)
        self.writer = Recorded(1, WriterSpec(1, 1, policy, None), size, self.claims, self.help)
        self.depth = 0
        # (some services take seldom, and some writers flush often: then packets are dropped at their begin)
        self.taking, self.flushing = self.random.choice([(.3, .15), (.3, .15), (.02, .5)])

    @property
    def calls(self):
        return self.writer.calls

    def help(self):
        return self.random.random() >= .1 and self.take()

    def take(self):
        if not self.writer.complete:
            return False
        slot, _ = self.writer.complete.popleft()
        self.claims.release(slot)
        return True

    def begin(self):
        self.writer.begin()
        self.depth = 0

    def play(self, steps):
        roll = self.random.random
        pick = self.random.choice
        try:
            for _ in range(steps):
                x = roll()
                if not self.writer.in_packet:
                    self.writer.flush() if x < self.flushing else self.begin()
                elif x < .25:
                    self.writer.write(Number(pick([1, 2, 900]), pick([7, 300, 2 ** 40])))
                elif x < .45:
                    text = bytes(self.random.randrange(256) for _ in range(pick([0, 1, 2, 3])))
                    self.writer.write(Text(pick([1, 900]), text, pick([0, 1, 2, self.size // 2])))
                elif x < .65 and self.depth < 5:
                    self.depth += 1
                    self.writer.write(Begin(pick([1, 900])))
                elif self.depth:
                    self.depth -= 1
                    self.writer.write(End())
                elif x < .9:
                    self.writer.finish()
                if roll() < self.taking:
                    self.take()
                    self.take()
        except writers.Stalled:
            pass

    def pages(self):
        return self.writer.pages()


# Statements.

def call_term(call):
    kind, *rest = call
    if kind == 'Begun':
        return f'Begun {flag(rest[0])}'
    if kind == 'Bytes':
        return f'Bytes {rest[0]} {octets(rest[1])} {rest[2]}'
    return ' '.join([kind, *map(str, rest)])


def bytes_proof(packet, bytes_written):
    """That the bytes of a chain are those of its packet."""
    if packet.given_up is not None:
        whole = flat_text(four_bytes(0), packet.given_up)
        same = 0
        while same < min(len(bytes_written), len(whole)) and bytes_written[same] == whole[same]:
            same += 1
        places = open_places(packet.given_up)
        for part in range(same, -1, -1):
            unused = bytes_written[part:]
            if part < len(whole) and len(unused) <= 3 and (not unused or part in places):
                break
        return record(part=octets(bytes_written[:part]), unused=octets(unused), lost=octets(whole[part:]), cut='refl',
                      whole='refl', proper='omega arith', few='omega arith',
                      next='λ h. refl' if unused else 'λ h. absurd (omega arith)')
    if packet.finished:
        return 'refl'
    return f'({octets(packet.body()[len(bytes_written):])}, refl)'


def cut_proof(size, packets, pages, pages_term):
    kept = [packet for packet in packets if packet.kept]
    chains = chains_of(pages)
    full = nested(record(some='omega arith', most='omega arith', whole='refl',
                         dropped='λ h. (refl, refl)' if page.dropped else 'λ h. absurd (cc)') for page in pages)
    goes_on = bool(packets) and not packets[0].lost() and not packets[0].finished
    refls = nested('refl' for _ in pages)
    return record(
        full=f'All-from_recursion (IsWellFormedPage {size}) {pages_term} {full}', flags=refls,
        last='λ h. refl' if goes_on else 'λ h. absurd (cc)',
        chains=nested(record(marked='refl', bytes=bytes_proof(packet, chain), ends='refl', goes_on='refl', lengths='refl')
                      for packet, chain in zip(kept, chains)),
        patches=record(sent=refls, lasts=nested('refl' for page in pages for _ in page.patches), awaits=refls,
                       placed='refl', behind=nested(nested('omega arith' for _ in page.patches) for page in pages)),
        begins='refl')


def statement_of(name, run, pages, counts):
    packets = packets_of(run.calls)
    counts.update(run.writer.branches)
    counts['packets'] += len(packets)
    counts['dropped at begin'] += sum(not packet.kept for packet in packets)
    counts['given up'] += sum(packet.given_up is not None for packet in packets)
    counts['patches'] += sum(len(page.patches) for page in pages)
    counts['images'] += len(pages)
    return run_statement(name, run, packets, pages)


def run_statement(name, run, packets, pages):
    """That these pages are a cut of the packets, with all else that is said of a script."""
    oldest = packets[::-1]
    bodies = [packet.body() for packet in oldest if packet.kept]
    emissions = [packet.body()[len(packet.front):] for packet in oldest if packet.finished]
    images = listed(record(sequence=SEQUENCE, chunk_id=number, count=page.count, flags=page.flags,
                           payload=octets(page.payload)) for number, page in enumerate(pages))
    patches = listed(listed(map(patch_term, page.patches)) for page in pages)
    specs = (f'abbrev pub calls_{name} : List Call\ncalls_{name} = {listed(map(call_term, run.calls))}\n\n'
             f'abbrev pub pages_{name} : List Page\npages_{name} = {listed(page.term() for page in pages)}\n\n'
             f'abbrev pub Run{name} : Type 0\nRun{name} = IsComputed {run.size} calls_{name} {images} {patches} '
             f'{listed(map(octets, bodies))} {listed(map(octets, emissions))} {len(packets)} '
             f'{sum(not packet.kept for packet in packets)}\n')
    proof = record(possible='refl', cut=record(pages=f'pages_{name}', images_are='refl', patches_are='refl',
                                               cut=cut_proof(run.size, packets, pages, f'pages_{name}')),
                   kept='refl', emitted='refl', counted='refl', refused='refl', read='refl')
    return Statement(f'Run{name}', specs, proof, uses=[f'pages_{name}'], has=run.writer.branches)


def made_run(seed):
    pick = random.Random(seed).choice
    run = Run(pick([16, 20, 24, 30, 37, 50, 64, 90]), pick([2, 3, 5, 8]), pick(['drop', 'drop', 'stall']), seed)
    run.play(pick([10, 25, 40]))
    return run


def statements(first, wanted, counts):
    """At least so many scripts, and more until each branch of the definitions was taken by some."""
    made, seed = 0, first
    while made < wanted or (seed < first + MOST_SEEDS and lacking(counts)):
        run = made_run(seed)
        if made < wanted or run.writer.branches & set(lacking(counts)):
            pages = run.pages()
            assert len(chains_of(pages)) == sum(packet.kept for packet in packets_of(run.calls)), seed
            made += 1
            yield statement_of(str(seed), run, pages, counts)
        seed += 1
    counts['scripts'] += made


def lacking(counts):
    """The branches that too few scripts have taken."""
    return [branch for branch in BRANCHES if counts[branch] < LEAST]


# Spoilt runs: each is wrong in one place, and is to be refused.

def with_page(pages, at, **changes):
    old = pages[at]
    fields = dict(count=old.count, flags=old.flags, payload=old.payload, patches=old.patches)
    fields.update(changes)
    return pages[:at] + [Page(**fields)] + pages[at + 1:]


def with_patch(pages, at, number, **changes):
    chunk_id, offset, data, last = pages[at].patches[number]
    fields = dict(chunk_id=chunk_id, offset=offset, data=data, last=last)
    fields.update(changes)
    patch = (fields['chunk_id'], fields['offset'], fields['data'], fields['last'])
    return with_page(pages, at, patches=pages[at].patches[:number] + [patch] + pages[at].patches[number + 1:])


def with_byte(payload, at):
    return payload[:at] + bytes([payload[at] ^ 1]) + payload[at + 1:]


def flag_spoils(pages):
    """Each flag of each page turned. That the last page doesn't run on is never wrong of a cut."""
    names = {1: 'says that a page goes on from the one before', 2: 'says that a page runs on', 4: 'says that a page awaits'}
    for at, page in enumerate(pages):
        for bit, name in names.items():
            if not (bit == 2 and page.flags & 2 and at == len(pages) - 1):
                yield name, with_page(pages, at, flags=page.flags ^ bit)


def patch_spoils(pages):
    for at, page in enumerate(pages):
        for number, (chunk_id, offset, data, last) in enumerate(page.patches):
            yield 'turns `last`', with_patch(pages, at, number, last=not last)
            yield 'patches another length in', with_patch(pages, at, number, data=bytes([data[0] ^ 1]) + bytes(data[1:]))
            yield 'patches beside the length', with_patch(pages, at, number, offset=offset + 1)
            yield 'patches another chunk', with_patch(pages, at, number, chunk_id=chunk_id + 1)
            yield 'leaves a patch out', with_page(pages, at, patches=page.patches[:number] + page.patches[number + 1:])
            yield 'sends a patch twice', with_page(pages, at, patches=page.patches[:number + 1] + page.patches[number:])
        if page.patches and at + 1 < len(pages):
            later = with_page(pages, at, patches=[])
            yield 'sends patches a page later', with_page(later, at + 1, patches=page.patches + pages[at + 1].patches)


def byte_spoils(pages):
    """A byte of a fragment turned, and a fragment a byte shorter."""
    for at, page in enumerate(pages):
        place = 0
        for number, fragment in enumerate(page.fragments):
            last = number == len(page.fragments) - 1
            if fragment and not (page.dropped and last):
                yield 'writes another byte', with_page(pages, at, payload=with_byte(page.payload, place + 4))
                # (the last packet may end anywhere behind what was written of it)
                if last and at + 1 < len(pages):
                    shorter = four_bytes(len(fragment) - 1)
                    yield 'cuts the last byte of a fragment off', with_page(
                        pages, at, payload=page.payload[:place] + bytes(shorter) + page.payload[place + 4:])
            place += 4 + len(fragment)


def page_spoils(pages):
    """Two pages joined as one, one left out, one twice, and one that ends a fragment too early."""
    for at, page in enumerate(pages):
        yield 'leaves a page out', pages[:at] + pages[at + 1:]
        yield 'sends a page twice', pages[:at + 1] + pages[at:]
        if page.count > 1:
            yield 'counts a fragment less', with_page(pages, at, count=page.count - 1)
        if at + 1 < len(pages) and page.term() != pages[at + 1].term():
            yield 'swaps two pages', pages[:at] + [pages[at + 1], page] + pages[at + 2:]


def is_plain_end(pages, spoilt):
    """The last page of a script may end anywhere behind what its packet has written: such a run isn't wrong."""
    return len(spoilt) == len(pages) - 1 and spoilt == pages[:-1]


def spoilt_statements(first, wanted, counts):
    """So many runs for each way to spoil one; a run that would be as right as the one before isn't among them."""
    made = {}
    for seed in range(first, first + 2000):
        run = made_run(seed)
        pages, packets = run.pages(), packets_of(run.calls)
        for makers in (flag_spoils, patch_spoils, byte_spoils, page_spoils):
            options = list(makers(pages))
            random.Random(seed).shuffle(options)
            for name, spoilt in options:
                if made.get(name, 0) >= wanted:
                    continue
                statement = spoilt_statement(f'{seed}_{sum(made.values())}', run, packets, pages, spoilt)
                if statement:
                    made[name] = made.get(name, 0) + 1
                    counts[f'spoilt: {name}'] += 1
                    yield statement
                    break
        if len(made) == len(SPOILS) and all(count >= wanted for count in made.values()):
            return


def spoilt_statement(name, run, packets, pages, spoilt):
    """The statement of a spoilt run, or None where it can't be written or isn't wrong."""
    if is_plain_end(pages, spoilt) or len(run.calls) > 25:
        return None
    try:
        return run_statement(name, run, packets, spoilt)
    except (AssertionError, IndexError):
        return None


SPOILS = ('says that a page goes on from the one before', 'says that a page runs on', 'says that a page awaits', 'turns `last`',
          'patches another length in', 'patches beside the length', 'patches another chunk', 'leaves a patch out', 'sends a patch twice',
          'sends patches a page later', 'writes another byte', 'cuts the last byte of a fragment off', 'leaves a page out',
          'sends a page twice', 'counts a fragment less', 'swaps two pages')
