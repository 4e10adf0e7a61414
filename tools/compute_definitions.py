#!/usr/bin/env python3
"""Turns random runs of the second reading (tools/model) into statements that the checker computes.

A wrong definition is shown by nothing else than a wrong number. This script plays random histories of buffers, random scenarios, and random
scripts of one writer's calls, on a program that was written apart from these definitions, and says of each run in their words what it
answered: each outcome, count, cause, place and byte of the trace, and that a writer's images are a cut of its packets. Of whole scenarios
it says too that writers, service and trace are an account, and that the account is faithful and balanced; and of replays and runs the
schedule, what each act did, what was asked, noted and answered, the trace and the report. Each statement is proved by computing both sides.
Wrong numbers, and runs that are spoilt in one place, are tried too, and must be refused. Beside so many runs as are wanted others are chosen, until
each branch of the definitions is taken and each thing that few runs have is had. The script fails where one isn't, or a way to spoil a run
wasn't tried.

How it runs: for each kind of run `compute_definitions.py` copies the definitions alone that it rests on (slices.py) to a crate `computed` in
a scratch folder, adds the generated files, some runs in each, and calls `rt check` there, file by file. Nothing of it is kept. `--mutate` changes
one definition after another, in the ways that mutations.py lists, and wants each to refuse some run, or to take one that is spoilt.
"""

import argparse
import os
import shutil
import sys
import tempfile
from collections import Counter, namedtuple

HERE = os.path.dirname(os.path.abspath(__file__))
sys.path.insert(0, HERE)

from scratch import make_slices    # noqa: E402
from trial import all_refused, grouped, is_as_wanted     # noqa: E402
from wrong_definitions import Trials     # noqa: E402

# A kind of run: the title of its files, its module, how many are wanted, and the folder of the crate in which they are checked.
Kind = namedtuple('Kind', 'title makers wanted crate')


def main():
    parser = argparse.ArgumentParser(description=__doc__, formatter_class=argparse.RawDescriptionHelpFormatter)
    parser.add_argument('--histories', type=int, default=200, help='how many histories of buffers at least (200)')
    parser.add_argument('--scripts', type=int, default=500, help='how many scripts of a writer at least (500)')
    parser.add_argument('--writers', type=int, default=100, help='how many writers of whole scenarios at least (100)')
    parser.add_argument('--scenarios', type=int, default=200, help='how many whole scenarios at least (200)')
    parser.add_argument('--replays', type=int, default=40, help='how many replays at least (40)')
    parser.add_argument('--runs', type=int, default=40, help='how many runs at least (40)')
    parser.add_argument('--first', type=int, default=0, help='the first seed (0)')
    parser.add_argument('--characters', type=int, default=60000, help='about the size of a generated file (60,000)')
    parser.add_argument('--keep', metavar='FOLDER', help='leave the scratch folder there')
    parser.add_argument('--spoilt', type=int, default=4, help='how many scripts for each way to spoil one (4)')
    parser.add_argument('--mutate', metavar='WORDS', nargs='*',
                        help='try wrong definitions: all, or those that are tried by this kind of run first, or have these words in their names')
    options = parser.parse_args()
    scratch = options.keep or tempfile.mkdtemp(prefix='computed-')
    try:
        kinds = kinds_of(options, scratch)
        agreed = computed(kinds, options) if options.mutate is None else Trials(kinds, options).all_refused()
        return 0 if agreed else 1
    finally:
        if not options.keep:
            shutil.rmtree(scratch, ignore_errors=True)


def kinds_of(options, scratch):
    """The kinds of run, by the name that mutations have for them."""
    import accounts
    import histories
    import replays
    import runs
    import worlds
    import writer_scripts
    kinds = (('histories', 'Histories', histories, options.histories), ('scripts', 'Scripts', writer_scripts, options.scripts),
             ('worlds', 'Worlds', worlds, options.writers), ('accounts', 'Scenarios', accounts, options.scenarios),
             ('replays', 'Replays', replays, options.replays), ('runs', 'Runs', runs, options.runs))
    found = {}
    for name, title, makers, wanted in kinds:
        folder, sliced = make_slices(os.path.join(scratch, name), makers) if wanted else (None, makers)
        found[name] = Kind(title, sliced, wanted, folder)
    return found


def of_sliced(options):
    """What some of the replays and runs have."""
    import replays
    import runs
    return {name: makers.KINDS for name, makers, wanted in (('replays', replays, options.replays), ('runs', runs, options.runs)) if wanted}


def computed(kinds, options):
    """Whether all runs agree with the definitions, and take each branch of them."""
    import accounts
    import recorder
    import spoilt_accounts
    import worlds
    import writer_scripts
    counts, own = Counter(), {name: Counter() for name in of_sliced(options)}
    agreed = True
    for name, kind in kinds.items():
        for file in files_of(kind, options, own.get(name, counts)) if kind.wanted else ():
            agreed &= is_as_wanted(kind.crate, *file)
    for name, wanted in of_sliced(options).items():
        agreed &= none_lacks(name, wanted, own[name])
        counts.update({f'{name}: {one}': count for one, count in own[name].items()})
    if options.scenarios:
        agreed &= none_lacks('scenarios', accounts.KINDS, counts)
        for file in spoilt_files(kinds['accounts'], options, counts):
            agreed &= all_refused(kinds['accounts'].crate, *file)
        agreed &= none_lacks('spoilt scenarios', [f'spoilt: {way}' for way in spoilt_accounts.WAYS], counts)
    if options.scripts:
        agreed &= none_lacks('scripts', writer_scripts.BRANCHES, counts)
    if options.writers:
        agreed &= none_lacks('writers', worlds.THINGS, counts)
    if options.scripts and options.spoilt:
        group = list(writer_scripts.spoilt_statements(options.first, options.spoilt, counts))
        agreed &= all_refused(kinds['scripts'].crate, 'Spoilt scripts', kinds['scripts'].makers, group)
        agreed &= none_lacks('spoilt scripts', [f'spoilt: {name}' for name in writer_scripts.SPOILS], counts)
    if options.histories:
        agreed &= none_lacks('histories', recorder.BRANCHES, counts)
    print(', '.join(f'{name} {count}' for name, count in sorted(counts.items())))
    return agreed


def none_lacks(kind, names, counts):
    lacking = [name for name in names if not counts[name]]
    for name in lacking:
        print(f'{kind}: none for: {name}')
    return not lacking


def files_of(kind, options, counts):
    """The generated files: name, maker, statements, and whether they hold; the last one has a wrong number."""
    small, makers = None, kind.makers
    size = options.characters * makers.TIMES_CHARACTERS
    for number, group in enumerate(grouped(makers.statements(options.first, kind.wanted, counts), size), 1):
        small = min([one for one in [small, *group] if one and one.wrong], key=lambda one: one.size(), default=None)
        yield f'{kind.title} {number}', makers, group, True
    if small:
        yield f'{kind.title} with a wrong number', makers, [small.wrong], False


def spoilt_files(kind, options, counts):
    """The generated files of spoilt scenarios."""
    import accounts
    import spoilt_accounts
    taken, number = [], 1
    for account in accounts.accounts(options.first, options.scenarios):
        taken += spoilt_accounts.statements_of(account, counts)
        if sum(one.size() for one in taken) >= options.characters * kind.makers.TIMES_CHARACTERS:
            yield f'Spoilt scenarios {number}', kind.makers, taken
            taken, number = [], number + 1
    if taken:
        yield f'Spoilt scenarios {number}', kind.makers, taken


if __name__ == '__main__':
    sys.exit(main())
