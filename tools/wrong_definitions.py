"""Tries wrong definitions: each is to refuse some run that the right ones compute, or to take one that is spoilt and that they refuse."""

import os
import re
import time
from collections import Counter, namedtuple
from contextlib import contextmanager
from itertools import islice

import accounts
import mutations
import spoilt_accounts
from slices import flat
from trial import ILL_FORMED, checked, grouped

MOST_INPUTS = 4         # that are tried for a definition of which it is said what tells
MOST_SPOILT = 6         # spoilt in one way, of a scenario

# A generated file that is tried: statements of a kind of run, which hold or are spoilt.
Trial = namedtuple('Trial', 'title kind statements right')


@contextmanager
def changed(path, old, new):
    """The file with another text in the place of this one."""
    right = open(path).read()
    assert right.count(old) == 1, (path, old, right.count(old))
    with open(path, 'w') as out:
        out.write(right.replace(old, new))
    try:
        yield
    finally:
        with open(path, 'w') as out:
            out.write(right)


class Trials:
    def __init__(self, kinds, options):
        self.kinds, self.options = kinds, options
        self.made = {}          # the statements of each kind that was tried
        self.scenarios = None   # whole ones
        self.rightly = {}       # of each file: whether the right definitions answer as they should

    def all_refused(self):
        """Whether each wrong definition is refused."""
        agreed, meant = True, list(filter(self.is_meant, mutations.ALL))
        self.confirm(meant)
        for mutation in meant:
            began = time.time()
            by = self.refused_by(mutation)
            print(f'{mutation.name}: {"refused by " + by if by else "NOT REFUSED"} in {time.time() - began:.0f} s', flush=True)
            agreed &= by is not None
        return agreed

    def is_meant(self, mutation):
        """It is of this kind, or has these words in its name; and there are runs to try it."""
        named = [words == mutation.runs[0] if words in self.kinds else words in mutation.name for words in self.options.mutate]
        return (any(named) or not named) and any(self.kinds[name].wanted for name in mutation.runs)

    def refused_by(self, mutation):
        """What refuses a wrong definition."""
        for trial in self.trials_of(mutation):
            if not self.is_right(trial):
                return None
            with changed(self.file_of(mutation, trial.kind), mutation.old, mutation.new):
                refused, said = self.refused_in(trial)
            if said:
                print(said)
            elif trial.right and refused:
                return f'{len(refused)} of {len(trial.statements)} runs in {trial.title}'
            elif not trial.right and len(refused) < len(trial.statements):
                return f'{len(trial.statements) - len(refused)} of {len(trial.statements)} runs in {trial.title}, which it takes'
        return None

    def file_of(self, mutation, kind):
        """The slice with the definition that is changed."""
        path = f'Rattle.{mutation.crate}.specs.{mutation.file.removesuffix(".antt")}'
        return os.path.join(kind.crate, 'specs', f'{flat(path)}.antt')

    # What is tried

    def trials_of(self, mutation):
        """The files for a wrong definition."""
        for name in mutation.runs:
            if self.kinds[name].wanted:
                yield from self.right_trials(name, mutation.tells)
                if name == 'accounts':
                    yield from self.spoilt_trials(mutation.tells)

    def right_trials(self, name, tells):
        """The smallest runs with what tells, or all; none where such tell that are spoilt."""
        kind, statements = self.kinds[name], self.statements_of(name)
        if set(tells) & set(spoilt_accounts.WAYS):
            return
        if tells:
            telling = [one for one in statements if one.has & set(tells)]
            for one in sorted(telling, key=lambda one: one.size())[:MOST_INPUTS]:
                yield Trial(f'{kind.title} {one.name}', kind, [one], True)
            return
        for number, group in enumerate(grouped(statements, self.options.characters * kind.makers.TIMES_CHARACTERS), 1):
            yield Trial(f'{kind.title} {number}', kind, group, True)

    def statements_of(self, name):
        kind = self.kinds[name]
        if name not in self.made and name == 'accounts':
            self.made[name] = [accounts.statement_of(account, Counter()) for account in self.whole_scenarios()]
        if name not in self.made:
            self.made[name] = list(kind.makers.statements(self.options.first, kind.wanted, Counter()))
        return self.made[name]

    def whole_scenarios(self):
        """The scenarios, the smallest first."""
        if self.scenarios is None:
            made = accounts.accounts(self.options.first, self.kinds['accounts'].wanted)
            self.scenarios = sorted(made, key=lambda account: len(accounts.account_specs(account)))
        return self.scenarios

    def spoilt_trials(self, tells):
        """Scenarios that are spoilt in the ways that tell, the smallest ones that have what else is named; or all, in all ways."""
        ways = [way for way in spoilt_accounts.WAYS if way in tells or not tells]
        having = [account for account in self.whole_scenarios() if ways and set(tells) <= {*ways, *account.things}]
        made = (self.spoilt_trial(account, ways, MOST_SPOILT if tells else 1) for account in having)
        yield from islice(filter(None, made), MOST_INPUTS if tells else None)

    def spoilt_trial(self, account, ways, most):
        statements = list(spoilt_accounts.statements_of(account, Counter(), ways, most))
        title = f'Spoilt scenario {account.name}: {", ".join(ways)}'
        return Trial(title, self.kinds['accounts'], statements, False) if statements else None

    # What is answered

    def confirm(self, meant):
        """Computes together, by the right definitions, the runs that are tried first where it is said what tells."""
        wanted = [(name, mutation.tells) for mutation in meant if mutation.tells for name in mutation.runs if self.kinds[name].wanted]
        trials = {trial.title: trial for name, tells in wanted for trial in islice(self.right_trials(name, tells), 1)}
        for kind in [kind for kind in self.kinds.values() if kind.wanted]:
            own = {trial.statements[0].name.lower(): trial.title for trial in trials.values() if trial.kind is kind}
            statements = [trial.statements[0] for trial in trials.values() if trial.kind is kind]
            for number, group in enumerate(grouped(statements, self.options.characters * kind.makers.TIMES_CHARACTERS), 1):
                began = time.time()
                refused, said = self.refused_in(Trial(f'{kind.title} {number}', kind, group, True))
                print(said or f'{kind.title} {number}: {len(group)} runs, {len(refused)} refused in {time.time() - began:.0f} s', flush=True)
                self.rightly |= {own[one.name.lower()]: not said and one.name.lower() not in refused for one in group}

    def is_right(self, trial):
        """The right definitions take the file, or refuse all that is spoilt in it."""
        if trial.title not in self.rightly:
            refused, said = self.refused_in(trial)
            self.rightly[trial.title] = not said and len(refused) == (0 if trial.right else len(trial.statements))
            if not self.rightly[trial.title]:
                print(f'{trial.title}: not as it should be with the right definitions')
        return self.rightly[trial.title]

    def refused_in(self, trial):
        """Which statements of a file are refused for what they say; and what was said, where it tells nothing of them: where none is refused by its
        name, or where one that is spoilt isn't well formed."""
        proved, refused, text = checked(trial.kind.crate, trial.kind.makers, trial.statements)
        reasons = re.findall(r'error: `run\w+`: ([^\n]*)', text)
        is_ill = not trial.right and any(word in reason for reason in reasons for word in ILL_FORMED)
        if is_ill or (not refused and not proved):
            return set(), '\n'.join(line[:300] for line in text.splitlines() if 'error' in line)[:1500] or 'nothing was said'
        return refused, ''
