"""The scratch repository in which statements of one kind are checked: one crate, with the definitions that they rest on."""

import os
import shutil
from types import SimpleNamespace

from slices import Slices, flat

CODE = '''//! Runs of a model, computed.
#![tactic(auto)]
ghost use Rattle.computed.specs.Runs.{Holds};

/// Each statement of the file holds.
pub fn holds()
    ensures { Holds }
{}
'''


def make_slices(scratch, makers):
    """A scratch repository of one crate, `computed`, with the definitions that this kind of statement rests on; its folder, and the kind as it
    names them there."""
    crate = os.path.join(scratch, 'crates', 'computed')
    shutil.rmtree(crate, ignore_errors=True)
    slices = Slices()
    texts = {name: getattr(makers, name, '') for name in ('WORDS', 'LEMMAS', 'HEAD', 'PROOF_HEAD')}
    for text in texts.values():
        slices.add_text(text)
    put(scratch, 'crates.txt', 'computed:\n')
    put(crate, 'src/lib.rt', CODE)
    for path in slices.taken:
        put(crate, f'specs/{flat(path)}.antt', slices.written(path))
    put(crate, 'specs/Lib.antt', ''.join(f'pub mod {name}\n' for name in sorted({'Runs', 'Words', *map(flat, slices.taken)})))
    texts = {name: slices.rewritten(text) for name, text in texts.items()}
    hidden = sorted((flat(path), name) for path, names in slices.taken.items() for name in names if slices.is_hidden(path, name))
    texts['PROOF_HEAD'] += ''.join(f'use Rattle.computed.specs.{module}.{{{name}}}\n' for module, name in hidden)
    texts['UNFOLDING'] = f'unfolding {" ".join([*getattr(makers, "HIDDEN", ()), *(name for _, name in hidden)])}\n'
    put(crate, 'specs/Words.antt', texts['WORDS'])
    if texts['LEMMAS']:
        put(crate, 'proofs/Lib.antt', 'pub mod Everywhere\n')
        put(crate, 'proofs/Everywhere.antt', texts['LEMMAS'])
    return crate, SimpleNamespace(statements=makers.statements, TIMES_CHARACTERS=getattr(makers, 'TIMES_CHARACTERS', 1), **texts)


def put(crate, path, text):
    os.makedirs(os.path.dirname(os.path.join(crate, path)), exist_ok=True)
    with open(os.path.join(crate, path), 'w') as out:
        out.write(text)
