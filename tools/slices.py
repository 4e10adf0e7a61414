"""The definitions that some statements rest on, cut out of the crates, and no others. A change of one of them is then checked without the
proofs and the code of its crate.

A module `Rattle.NAME.specs.MODULE` becomes one of the crate `computed`; a type that is declared in a crate's code becomes plain data, in which
each kind of number is a number. Definitions are taken to the letter.
"""

import os
import re
from dataclasses import dataclass, field

TOP = os.path.dirname(os.path.dirname(os.path.abspath(__file__)))

HEADER = re.compile(r'^(?:abbrev|unfoldable|pub|record|data)\b.*$', re.M)
NAMED = re.compile(r'^(?:(?:abbrev|unfoldable|pub|record|data) )+(\S+)')
CONSTRUCTOR = re.compile(r'^ {2}(\w+) :', re.M)
USE = re.compile(r'^use (\S+?)(?:\.\{(.*)\}| as (\w+))$')
WORD = re.compile(r"(?:(\w+)\.)?([^\W\d][\w']*)")
NUMBERS = ('u8', 'u16', 'u32', 'u64', 'usize')
# What a type of the code that hides its fields says: its values, and where these are defined.
VALUES = {'Fields': ('List Shown', 'Rattle.field_tree.specs.Nodes', 'Shown'),
          'RawChunk': ('AskedChunk', 'Rattle.scenario_text.specs.RawChunks', 'AskedChunk')}
PRELUDE = 'use Rattle.std.specs.Prelude.{ℕ, Bool, List, [], ◌∷◌, Option}\n'


@dataclass(frozen=True)
class Name:
    """A definition, by its module and its name there."""
    module: str
    name: str


@dataclass
class Module:
    """A module: its imports, and its definitions by each name that they give."""
    imports: dict[str, Name] = field(default_factory=dict)         # by the name that stands here
    aliases: dict[str, str] = field(default_factory=dict)          # modules that are named whole
    others: list[str] = field(default_factory=list)                # imports from the standard library, as they are
    definitions: dict[str, str] = field(default_factory=dict)      # texts, by their first names
    owners: dict[str, str] = field(default_factory=dict)           # the first name of the definition that gives a name

    def own(self, name: str) -> str | None:
        return self.owners.get(name)


def is_ours(path: str) -> bool:
    return path.startswith('Rattle.') and not path.startswith(('Rattle.std.', 'Rattle.computed.'))


def module_at(path: str) -> str:
    """The module that a path leads to; that of a declared type or of constants has no file in it."""
    return re.sub(r'\.declared\.(\w+\.)+(?=\w+$)', '.declared.', path.removesuffix('.TheVariants'))


def read_imports(module: Module, text: str) -> None:
    for line in text.splitlines():
        found = USE.match(line)
        if not found:
            continue
        path, names, alias = found.groups()
        if not is_ours(path):
            module.others.append(line)
        elif alias:
            module.aliases[alias] = module_at(path)
        else:
            for name in names.split(', '):
                old, _, new = name.partition(' as ')
                module.imports[new or old] = Name(module_at(path), old)


def read_definitions(module: Module, text: str) -> None:
    starts = [found.start() for found in HEADER.finditer(text)]
    for start, end in zip(starts, [*starts[1:], len(text)]):
        lines = text[start:end].rstrip().split('\n')
        while lines[-1].startswith('--') or not lines[-1]:
            lines.pop()                         # the comment of the next one
        body = '\n'.join(lines)
        first = NAMED.match(body)[1]
        module.definitions[first] = body
        module.owners[first] = first
        if re.match(r'(pub )?data ', body):
            module.owners |= {name: first for name in CONSTRUCTOR.findall(body)}


def module_of_text(text: str) -> Module:
    module = Module()
    read_imports(module, text)
    read_definitions(module, '\n'.join('' if line.startswith('use ') else line for line in text.split('\n')))
    return module


# Types of the code

def code_of(crate: str) -> dict[str, str]:
    folder = os.path.join(TOP, 'crates', crate, 'src')
    return {at: open(os.path.join(folder, at)).read() for at in sorted(os.listdir(folder)) if at.endswith('.rt')}


def without_comments(text: str) -> str:
    return re.sub(r'^\s*(///|//|#\[).*\n', '', text, flags=re.M)


def home_of(crate: str, kind: str, text: str) -> str:
    """The crate whose code has a type that this file of a crate names."""
    if re.search(rf'pub (struct|enum) {kind}\b', '\n'.join(code_of(crate).values())):
        return crate
    for path, names in re.findall(r'^use (\w+)[\w:]*::(\{[^}]*\}|\w+);', text, re.M):
        if re.search(rf'\b{kind}\b', names):
            return path
    raise ValueError(f'{crate}: no type {kind}')


class Types:
    """The declared types of crates as plain data, each as a module of its own."""

    def __init__(self):
        self.modules: dict[str, Module] = {}

    def module(self, path: str) -> Module:
        """Of `Rattle.NAME.specs.declared.TYPE`, or of all constants."""
        if path not in self.modules:
            crate, kind = re.match(r'Rattle\.(\w+)\.specs\.declared\.(\w+)$', path).groups()
            module = Module()
            self.modules[path] = module
            if kind == 'TheConstants':
                self.read_constants(module, crate)
            else:
                self.read_type(module, crate, kind)
        return self.modules[path]

    def term(self, module: Module, crate: str, text: str, kind: str) -> str:
        """A type of the code as a type of the definitions."""
        kind = re.sub(r"<'\w+>", '', kind.strip())
        if kind in NUMBERS:
            return 'ℕ'
        if kind == 'bool':
            return 'Bool'
        if re.fullmatch(r'\[u8; \d+\]', kind):
            return '(List ℕ)'
        option = re.fullmatch(r'Option<(.*)>', kind)
        if option:
            return f'(Option {self.term(module, crate, text, option[1])})'
        if kind in VALUES:
            term, path, name = VALUES[kind]
            module.imports[name] = Name(path, name)
            return f'({term})'
        home = home_of(crate, kind, text)
        module.imports[kind] = Name(f'Rattle.{home}.specs.declared.{kind}', kind)
        return kind

    def read_type(self, module: Module, crate: str, kind: str) -> None:
        for text in code_of(crate).values():
            found = re.search(rf"^pub (struct|enum) {kind}(?:<'\w+>)? \{{(.*?)^\}}", without_comments(text), re.S | re.M)
            if found:
                break
        else:
            raise ValueError(f'{crate}: no type {kind}')
        if found[1] == 'struct':
            fields = re.findall(r'pub (\w+): ([^,\n]+),', found[2])
            body = ''.join(f'\n  pub {name} : {self.term(module, crate, text, of)}' for name, of in fields)
            read_definitions(module, f'pub record {kind} : Type 0 where{body}\n')
            return
        body = ''
        for name, fields in re.findall(r'(\w+)(?: \{([^}]*)\})?,', found[2]):
            terms = ' '.join(f'({one} : {self.term(module, crate, text, of)})' for one, of in re.findall(r"(\w+): ([\w<>']+)", fields))
            body += f'\n  {name} : {terms + " → " if terms else ""}{kind}'
        read_definitions(module, f'pub data {kind} : Type 0 where{body}\n')

    def read_constants(self, module: Module, crate: str) -> None:
        for text in code_of(crate).values():
            for name, kind, value in re.findall(r'^pub const (\w+): ([^=]+) = ([^;]+);', text, re.M):
                value = re.sub(r'(?<=\d)_(?=\d)|(?<=\d)(u\d+|usize)\b', '', value)
                if kind.startswith('['):
                    values = [one.strip() for one in value.strip('[]').split(',') if one.strip()]
                    read_definitions(module, f'abbrev pub {name} : List ℕ\n{name} = {" ∷ ".join([*values, "[]"])}\n')
                elif re.fullmatch(r'[\w\s+*/-]+', value):
                    read_definitions(module, f'abbrev pub {name} : ℕ\n{name} = {value}\n')


# The closure

class Slices:
    """The definitions on which some texts rest."""

    def __init__(self):
        self.types, self.files = Types(), {}
        self.taken: dict[str, set[str]] = {}        # of each module the first names of definitions

    def module(self, path: str) -> Module:
        if '.declared.' in path:
            return self.types.module(path)
        if path not in self.files:
            _, crate, _, name = path.split('.')
            self.files[path] = module_of_text(open(os.path.join(TOP, 'crates', crate, 'specs', f'{name}.antt')).read())
        return self.files[path]

    def names_in(self, module: Module, text: str) -> list[Name]:
        """What a text in a module names of others, and of its own."""
        found = []
        for prefix, word in WORD.findall(re.sub(r'--.*', '', text)):
            if prefix in module.aliases:
                found.append(Name(module.aliases[prefix], word))
            for one in {prefix, word}:
                if one in module.imports:
                    found.append(module.imports[one])
        return found

    def add(self, name: Name) -> None:
        path = name.module
        module, todo = self.module(path), [name.name]
        while todo:
            first = module.own(todo.pop())
            if first is None or first in self.taken.setdefault(path, set()):
                continue
            self.taken[path].add(first)
            text = module.definitions[first]
            for one in self.names_in(module, text):
                self.add(one)
            todo += [word for pair in WORD.findall(re.sub(r'--.*', '', text)) for word in pair if word in module.owners]

    def add_text(self, text: str) -> None:
        module = module_of_text(text)
        for name in module.imports.values():
            self.add(name)
        for one in self.names_in(module, text):
            self.add(one)

    def is_hidden(self, path: str, first: str) -> bool:
        """A proof has to name this definition where it computes it."""
        return self.module(path).definitions[first].startswith('unfoldable')

    # What is written

    def written(self, path: str) -> str:
        """A module with the definitions that were taken, in their order."""
        module, taken = self.module(path), self.taken[path]
        body = '\n\n'.join(text for first, text in module.definitions.items() if first in taken)
        return '\n'.join([*(module.others or [PRELUDE.strip()]), *self.uses(module, body)]) + f'\n\n{body}\n'

    def uses(self, module: Module, body: str) -> list[str]:
        words = {word for pair in WORD.findall(re.sub(r'--.*', '', body)) for word in pair}
        lines, of = [], {}
        for here, name in module.imports.items():
            if here in words and self.module(name.module).own(name.name) in self.taken.get(name.module, ()):
                of.setdefault(name.module, []).append(name.name if name.name == here else f'{name.name} as {here}')
        lines += [f'use Rattle.computed.specs.{flat(path)}.{{{", ".join(names)}}}' for path, names in of.items()]
        lines += [f'use Rattle.computed.specs.{flat(path)} as {alias}' for alias, path in module.aliases.items()
                  if alias in words and path in self.taken]
        return lines

    def rewritten(self, text: str) -> str:
        """A text whose imports are those of the slices."""
        def line_of(line: str) -> str:
            found = USE.match(line)
            if not found or not is_ours(found[1]):
                return line
            behind = f'.{{{found[2]}}}' if found[2] else f' as {found[3]}'
            return f'use Rattle.computed.specs.{flat(module_at(found[1]))}{behind}'
        return '\n'.join(map(line_of, text.split('\n')))


def flat(path: str) -> str:
    """The name of a slice, for its module."""
    crate, rest = re.match(r'Rattle\.(\w+)\.specs\.(.*)$', path).groups()
    words = [word for part in [crate, *rest.split('.')[-1:]] for word in part.split('_')]
    return ''.join(word[:1].upper() + word[1:] for word in words)
