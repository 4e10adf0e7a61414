#!/usr/bin/env python3
"""Refuses allocations of a run, and compares with what the second reading in tools/model answers.

    tools/refuse_memory.py PROGRAM                    each command, on small inputs and on the larger ones of examples/
    tools/refuse_memory.py PROGRAM INPUT COMMAND..    this command on this input

The allocator of a second process answers "no memory" to its Nth call alone, or to its Nth call and all behind it, for each N that a run
reaches. A run must then end as the second reading does, to the byte, or with status 1, one line and no output. Needs a C compiler (cc).
For `run` and `tune`, where threads decide, what is compared is what any order has to keep (as tools/compare.py does).
"""
import io
import os
import subprocess
import sys
import tempfile

HERE = os.path.dirname(os.path.abspath(__file__))
sys.path.insert(0, HERE)

from compare import faults_of_run, faults_of_tune   # noqa: E402
from model.answers import Answer    # noqa: E402
from model.commands import answer_to    # noqa: E402

EXAMPLES = os.path.join(os.path.dirname(HERE), 'examples')
REFUSED = Answer(1, b'', b'out of memory\n')
QUIET = 20          # so many runs on end that notice nothing end a series
SET = b'buffer 4 ring\nproducer 1 4096 14\nwriter 1 1 drop\n'
STALLS = b'buffer 4 ring\nproducer 1 4096 1\nwriter 1 1 stall\nwriter 1 1 stall\n'
# The program takes memory by these calls of the C library alone.
REFUSER = r"""
#define _GNU_SOURCE
#include <dlfcn.h>
#include <errno.h>
#include <stdatomic.h>
#include <stdlib.h>
static atomic_long calls;
static int refused(void) {
    const char *nth = getenv("REFUSED_CALL"), *from = getenv("REFUSED_FROM");
    long call = atomic_fetch_add(&calls, 1) + 1;
    return (nth && call == atol(nth)) || (from && call >= atol(from));
}
#define NEXT(type, name) static type real; if (!real) real = (type)dlsym(RTLD_NEXT, name)
typedef void *(*one)(size_t);
typedef void *(*two)(size_t, size_t);
typedef void *(*more)(void *, size_t);
typedef int (*aligned)(void **, size_t, size_t);
void *malloc(size_t n) { NEXT(one, "malloc"); if (refused()) { errno = ENOMEM; return 0; } return real(n); }
void *realloc(void *p, size_t n) { NEXT(more, "realloc"); if (refused()) { errno = ENOMEM; return 0; } return real(p, n); }
void *aligned_alloc(size_t a, size_t n) { NEXT(two, "aligned_alloc"); if (refused()) { errno = ENOMEM; return 0; } return real(a, n); }
int posix_memalign(void **p, size_t a, size_t n) { NEXT(aligned, "posix_memalign"); if (refused()) return ENOMEM; return real(p, a, n); }
"""


def played(program, words, text, shim, which, nth) -> Answer:
    env = dict(os.environ, LD_PRELOAD=shim, **{which: str(nth)})
    done = subprocess.run([program, *words], input=text, capture_output=True, env=env, timeout=60, check=False)
    return Answer(done.returncode, done.stdout, done.stderr)


def is_untroubled(words, text, found, wanted) -> bool:
    if words == ['run']:
        return not faults_of_run(text, found, wanted)
    return not faults_of_tune(words, found, wanted) if words[:1] == ['tune'] else found == wanted


def refuse_each(program, words, text, shim, which):
    """Up to which call a run notices a refusal, how many it notices, and what went wrong."""
    wanted = answer_to(words, io.BytesIO(text))
    wrong, noticed, nth, quiet, last = [], 0, 1, 0, 0
    # Behind the last call of a run nothing is refused: a stretch of untroubled runs ends it.
    while quiet < QUIET:
        found = played(program, words, text, shim, which, nth)
        if found == REFUSED:
            noticed, quiet, last = noticed + 1, 0, nth
        elif is_untroubled(words, text, found, wanted):
            quiet += 1
        else:
            wrong.append((nth, found))
            quiet, last = 0, nth
        nth += 1
    return last, noticed, wrong


def example(name: str) -> bytes:
    with open(os.path.join(EXAMPLES, name), 'rb') as file:
        return file.read()


def each_command():
    """Small inputs, an outcome of each status among them, and the larger ones of examples/."""
    packets = SET + b'p 1 8:1\np 1 900{1:"x"*400}\n'
    raw = SET + b"raw 1 0 1 0 1 x'024005'\nraw 1 0 1 0 1 x'024006'\nq\n"
    yield from [(['play'], b''), (['gen', '0', '1', '1'], b''),
                (['gen', '7', '8', '200'], b''), (['tune', '1', '2'], b''), (['tune', '8', '100'], b'')]
    yield from [(['replay'], text) for text in (
        packets, raw, b'p 1\n', STALLS + b'p 1 8:1\nf 1\nc 1\nr 1\np 1 8:2\np 2 8:3\n', example('day.scenario'), example('slow.scenario'))]
    yield from [(['run'], text) for text in (
        packets, b'producer 1 4096 14\nx 1\n', STALLS + b'p 1 8:1\np 1 8:2\nf 1\np 2 8:3\n', example('timeline.scenario'))]
    yield from [(['read'], text) for text in (b'\x0a\x02\x50\x02', b'\x0a\x02\x50', example('day.trace'))]
    yield from [(['check'], text) for text in (packets + b'==\n', packets, example('day.scenario') + b'==\n' + example('day.trace'))]
    yield from [(['stream'], text) for text in (
        example('out_of_order.stream'), example('hostile/two-sources.stream'), b'buffers { size_kb: 3 }\n==\n')]
    yield from [(['clone'], text) for text in (
        packets + b'f 1\nc 1\nk 1\n', raw + b'k 1\n', STALLS + b'p 1 8:1\nk 1\np 2 8:2\n', example('crash.clone'))]


def given(words):
    with open(words[0], 'rb') as file:
        return [(words[1:], file.read())]


def main() -> int:
    if len(sys.argv) < 2:
        sys.exit(__doc__)
    program, bad = os.path.abspath(sys.argv[1]), 0
    with tempfile.TemporaryDirectory() as folder:
        source, shim = os.path.join(folder, 'refuser.c'), os.path.join(folder, 'refuser.so')
        with open(source, 'w') as file:
            file.write(REFUSER)
        subprocess.run(['cc', '-O1', '-shared', '-fPIC', '-o', shim, source, '-ldl'], check=True)
        for words, text in given(sys.argv[2:]) if len(sys.argv) > 3 else each_command():
            for which, said in [('REFUSED_CALL', 'alone'), ('REFUSED_FROM', 'with all behind')]:
                last, noticed, wrong = refuse_each(program, words, text, shim, which)
                name = f"{' '.join(words)}, {len(text)} bytes, each call {said}"
                print(f'{name}: {noticed} noticed up to the call {last}, {len(wrong)} wrong', flush=True)
                for nth, found in wrong[:12]:
                    print(f'  call {nth}: {str(found)[:300]}')
                bad += len(wrong)
    print(f'{bad} wrong')
    return 1 if bad else 0


if __name__ == '__main__':
    sys.exit(main())
