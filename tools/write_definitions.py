#!/usr/bin/env python3
"""Writes docs/DEFINITIONS.md from the comments of the definitions themselves.

    tools/write_definitions.py            writes the page
    tools/write_definitions.py --check    says what lacks a comment, and whether the page is fresh; status 1 where not

Each crate of crates.txt has a section, each file of its specs/ a part with the comment at the file's head, and each public
definition an entry: how it is written, and the comment in front of it. Laws (`*Laws` files) and worked rows are listed too. The
last section has the names that stand in more than one crate.
"""
import os
import re
import sys

TOP = os.path.dirname(os.path.dirname(os.path.abspath(__file__)))
PAGE = os.path.join(TOP, 'docs', 'DEFINITIONS.md')
HEAD = '''# Definitions

Each public definition of `specs/`, by crates, lowest first, in the words of the comment that stands in front of it. This page is written by
`tools/write_definitions.py`: change the comment, and write the page again. "The encoding" is the protocol-buffers encoding document;
"the ABI" is the header of Perfetto's shared memory ABI; "the buffers document" is Perfetto's "Buffers and dataflow". What none of
them fixes is this project's profile.
'''
SHARED = '''
## Names that stand in several crates

Each of these {} names is defined in each of the crates behind it. What a page or a contract cites is that of the crate which it names.

'''
DEFINES = re.compile(r'^(?:(?:abbrev|unfoldable|opaque)\s+)?pub\s+(?:(record|data)\s+)?([^\s:({]+)')


def crates():
    with open(os.path.join(TOP, 'crates.txt')) as lines:
        for line in lines:
            words = line.split('#')[0].replace(':', ' : ').split()
            if words:
                yield words[0]


def files(crate):
    folder = os.path.join(TOP, 'crates', crate, 'specs')
    lib = os.path.join(folder, 'Lib.antt')
    if not os.path.isfile(lib):
        return
    with open(lib) as text:
        for name in re.findall(r'^pub mod (\w+)', text.read(), re.M):
            path = os.path.join(folder, name + '.antt')
            if os.path.isfile(path):
                yield name, path


def said(comment):
    """A comment's lines as one paragraph."""
    text = ' '.join(line.lstrip('- ').strip() for line in comment)
    return re.sub(r'\s+', ' ', text).strip()


def written(name, kind, line, following):
    """How a definition is written: with the parameters of its record, or with the names in its first equation."""
    if kind:
        names = [word for group in re.findall(r'\(([^():]+):', line.split(' : Type')[0]) for word in group.split()]
        return ' '.join([name, *names])
    for later in following:
        found = re.match(re.escape(name) + r'\s*((?:[a-z_]\w*\s+)*)=', later)
        if found:
            return ' '.join([name, *found[1].split()])
        if later.strip() == '' or later.startswith('--'):
            break
    return name


def entries(path):
    """The comment at the head of a file, and (name as it is written, comment) of each public definition."""
    with open(path) as text:
        lines = text.read().split('\n')
    at, head = 0, []
    while at < len(lines) and lines[at].startswith('--'):
        head.append(lines[at])
        at += 1
    found, comment, inside = [], [], None
    for i in range(at, len(lines)):
        line = lines[i].strip()
        depth = len(lines[i]) - len(lines[i].lstrip())
        if line and inside is not None and depth > inside:
            continue
        if line.startswith('--'):
            if comment and comment[-1].startswith('-- ----'):
                comment = []  # a heading tells of an entry only where it has no comment of its own
            comment.append(line)
            continue
        define = DEFINES.match(line)
        if line and not line.startswith('module'):
            # (what stands deeper are a record's fields, a type's constructors or an equation's further lines)
            inside = depth
        if define and not re.match(r'pub (mod|use)\b', line):
            found.append((define[2], written(define[2], define[1], line, [it.strip() for it in lines[i + 1:i + 12]]), said(comment)))
        if line:
            comment = []
    return said(head), found


def shared(places):
    """The section of the names that several crates define."""
    rows = [f'- `{name}`: {", ".join(f"`{crate}`" for crate in found)}' for name, found in sorted(places.items()) if len(found) > 1]
    return SHARED.format(len(rows)) + '\n'.join(rows) + '\n'


def page():
    parts, lacking, places = [HEAD], [], {}
    for crate in crates():
        listed = [(name, path, *entries(path)) for name, path in files(crate)]
        if not any(found for _, _, _, found in listed):
            continue
        parts.append(f'\n## {crate}\n')
        for name, path, head, found in listed:
            if not found:
                continue
            parts.append(f'\n### `crates/{crate}/specs/{name}.antt`\n\n{head}\n' if head else f'\n### `crates/{crate}/specs/{name}.antt`\n')
            rows, names = [], []
            for short, way, comment in found:
                if crate not in places.setdefault(short, []):
                    places[short].append(crate)
                names.append(way)
                if comment:
                    rows.append('- ' + ', '.join(f'`{it}`' for it in names) + f': {comment}')
                    names = []
                else:
                    lacking.append(f'crates/{crate}/specs/{name}.antt: {short}')
                    rows.append(f'- `{way}`')
                    names = []
            parts.append('\n' + '\n'.join(rows) + '\n')
    parts.append(shared(places))
    return ''.join(parts), lacking


def main():
    text, lacking = page()
    if '--check' not in sys.argv[1:]:
        with open(PAGE, 'w') as out:
            out.write(text)
        return 0
    for it in lacking:
        print(f'no comment: {it}')
    with open(PAGE) as old:
        stale = old.read() != text
    if stale:
        print('docs/DEFINITIONS.md is older than the comments: run tools/write_definitions.py')
    return 1 if lacking or stale else 0


if __name__ == '__main__':
    sys.exit(main())
