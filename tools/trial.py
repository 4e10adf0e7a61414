"""Checks of generated files: statements that are to be proved, and such as are to be refused."""

import re
import subprocess
import time

from scratch import put

# What is said of a statement that isn't well formed: its refusal shows nothing.
ILL_FORMED = ('not in scope', 'this tuple has', 'use a typed `let`', 'syntax')


def grouped(statements, characters):
    """The statements in groups of about so many characters."""
    taken = []
    for statement in statements:
        taken.append(statement)
        if sum(one.size() for one in taken) >= characters:
            yield taken
            taken = []
    if taken:
        yield taken


def proofs_text(one, unfolding):
    proofs = [*one.lemmas, (one.name.lower(), one.name, one.proof)]
    return ''.join(f'{name} : {fact}\n{unfolding}{name} = {proof}\n\n' for name, fact, proof in proofs)


def checked(crate, makers, group):
    """Checks one generated file: whether it was proved, the facts that were refused, and what was said."""
    put(crate, 'specs/Runs.antt', makers.HEAD + '\n'.join(one.specs for one in group)
        + '\nabbrev pub Holds : Type 0\nHolds = ' + '\n    × '.join(one.name for one in group) + '\n')
    names = ', '.join(name for one in group for name in [one.name, *one.uses])
    put(crate, 'proofs/holds/Answers.antt', makers.PROOF_HEAD
        + f'use Rattle.computed.specs.Runs.{{{names}}}\nuse Rattle.computed.proofs.holds.Goals as goal\n\n'
        + ''.join(proofs_text(one, makers.UNFOLDING) for one in group)
        + 'pub returns : goal.returns\nreturns c = (' + ', '.join(one.name.lower() for one in group) + ')\n')
    answer = subprocess.run(['rt', 'check', '--jobs', '1'], cwd=crate, capture_output=True, text=True)
    text = answer.stdout + answer.stderr
    refused = set(re.findall(r'error: `(run\w+)`', text)) & {one.name.lower() for one in group}
    return answer.returncode == 0 and 'computed::holds: proved' in text, refused, text


def is_as_wanted(crate, name, makers, group, right):
    """Checks one generated file; whether it was proved exactly where it is to be."""
    began = time.time()
    proved, _, text = checked(crate, makers, group)
    print(f'{name}: {len(group)} runs, {"computed" if proved else "refused"} in {time.time() - began:.0f} s', flush=True)
    if proved != right or not right:
        wanted = [line for line in text.splitlines() if ': error: ' in line or 'two types' in line]
        print('\n'.join(line[:400] for line in wanted[:8]), flush=True)
    return proved == right


def passed_among(crate, makers, group):
    """Checks a file of spoilt statements: the names of those that weren't refused for what they say."""
    _, refused, text = checked(crate, makers, group)
    reasons = re.findall(r'error: `(run\w+)`: ([^\n]*)', text)
    ill = {name for name, reason in reasons if any(word in reason for word in ILL_FORMED)}
    return [one.name for one in group if one.name.lower() not in refused - ill]


def all_refused(crate, name, makers, group):
    """Whether each of these spoilt statements is refused."""
    began = time.time()
    passed = passed_among(crate, makers, group)
    print(f'{name}: {len(group) - len(passed)} of {len(group)} refused in {time.time() - began:.0f} s', flush=True)
    if passed:
        print(f'not refused: {", ".join(passed)}', flush=True)
    return not passed
