"""Proofs about whole scenarios: what is computed is `refl`, and what is a choice is written out."""

import worlds
import writer_scripts
from antt_text import listed, nested, record


def proofs_of_cuts(account):
    """Each writer's pages are a cut of its packets, as facts of their own, which two facts of a scenario rest on."""
    for writer in account.writers:
        pages = f'pages_{writer.name}'
        yield (f'cut_{writer.name}', f'CutsInto {writer.size} (packets_of calls_{writer.name}) {pages}',
               writer_scripts.cut_proof(writer.size, writer.packets, writer.pages, pages))


def chosen(terms, last):
    """The terms as a tuple that a fact by recursion on the events computes to."""
    front = ''.join(f'({term}, ' for term in terms)
    return front + last + ')' * (front.count('(') - front.count(')'))


def buffer_steps(events, writer):
    """That the events are in order for the writer's sequence: of each event, what is to be shown before the rest."""
    for event in events:
        kind, own = event[0], event[1] == writer.sequence
        if kind == 'arrive':
            yield 'refl, (refl, refl, _, refl, refl' if own else 'refl'
        elif kind == 'partial':
            shows = nested('refl, λ h. refl' for _ in range(event[3][0]))
            part = record(sheet='_', there='refl', continues='refl', shows=shows, some='omega arith')
            yield f'refl, (refl, refl, {part}' if own else 'refl'
        elif kind == 'close':
            yield 'refl, (refl' if own else 'refl'
        else:
            yield 'refl'


def noted_steps(events, writer, elsewhere=''):
    """The same of the notes of the service. What comes by a commit is of another sequence, which this term shows of each place."""
    front = record(continues='refl', rest='_', begins='refl', some='omega arith', more='omega arith')
    scraped = record(found='_', looked='refl', image='_', there='refl', front=front)
    for event in events:
        kind, own = event[0], event[1] == writer.sequence
        if kind == 'arrive':
            yield 'refl, (refl, refl, _, refl' if own else 'refl'
        elif kind == 'partial':
            yield f'refl, (refl, refl, {scraped}' if own else 'refl'
        elif kind == 'patched':
            yield '_, refl, refl' if own else 'refl'
        elif kind == 'commit':
            yield f'refl, {elsewhere} {event[2]}'
        elif kind == 'close':
            yield 'refl, (refl' if own else 'refl'
        else:
            yield 'refl'


def has_cut(writer):
    held = writer.pages[writer.completed:]
    cut = record(pages=f'pages_{writer.name}', images_are='refl', patches_are='refl', cut=f'cut_{writer.name}')
    unsent = listed(listed(map(writer_scripts.patch_term, page.patches)) for page in held)
    return record(unsent=unsent, cut=cut, ends='λ h. absurd (cc)' if held else 'λ h. refl', possible='refl', small='omega arith')


def each(terms):
    """A fact at each place, the first place innermost."""
    proof = 'tt'
    for term in terms:
        proof = f'({proof}, {term})'
    return proof


def account_fields(account):
    """That each writer has cut its packets, and that the service noted what it did with them in order."""
    name, writers = account.name, account.writers
    cuts = f'(λ (place : ℕ). HasCut (payload_at setup_{name} place) place (writer world_{name} place) (held_{name} place))'
    order = (f'(λ (place : ℕ). InOrder (all_images (writer world_{name} place) (held_{name} place)) world_{name}.service '
             f'(sequence_of place) 0 false [] world_{name}.service.events)')
    orders = each(chosen(noted_steps(account.events, writer), 'refl') for writer in writers)
    return dict(writers='refl', cuts=f'λ place below. at_each {cuts} {len(writers)} place {each(map(has_cut, writers))} below',
                order=f'λ place below. at_each {order} {len(writers)} place {orders} below')


def told_proof(account, writer):
    records = [one for number, one in account.records if number == writer.sequence]
    return worlds.told_term(worlds.told_places(writer.emitted, records, writer.sequence))


def faithful_proof(account, count, records):
    """That so many records, which this term has, are faithful, where each sequence's are those of the scenario."""
    known = nested('(omega arith, omega arith)' for _ in range(count))
    told = each(told_proof(account, writer) for writer in account.writers)
    of_writers = f'λ (d : Delivered). (2 ≤ d.sequence) × (d.sequence < sequence_of {len(account.writers)})'
    return record(known=f'All-from_recursion ({of_writers}) ({records}) {known}',
                  told=f'told_at (emitted_in world_{account.name}) ({records}) {told}')


def reported_proof(account, writer):
    own = record(possible='refl', cut=f'cut_{writer.name}', known='refl', start='refl',
                 order=chosen(buffer_steps(account.events, writer), 'refl'))
    outcomes = record(begun='refl', delivered='refl', dropped='refl', overwritten='refl', discarded='refl', cut='refl')
    return record(account=own, became='refl', once='refl', reported='refl', balanced=record(sum='refl'), caused=outcomes)


def proof_of(account):
    faithful = faithful_proof(account, len(account.records), f'records_{account.name}')
    whole = record(happened='refl', written='refl', faithful=faithful, **account_fields(account))
    asked = ['refl' for _ in account.scenario.buffers]
    return '(' + ', '.join([whole, *asked, *(reported_proof(account, writer) for writer in account.writers)]) + ')'
