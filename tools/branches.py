"""Which branches of the model some inputs take: of each `if`, `while` and `for` of a module both ways."""

import ast
import os
import sys
from collections.abc import Callable, Iterator
from dataclasses import dataclass
from functools import cache

MODEL = os.path.join(os.path.dirname(os.path.abspath(__file__)), 'model')


@dataclass(frozen=True, order=True)
class Branch:
    module: str
    line: int
    function: str
    way: str            # `holds` or `fails`; of a loop that is `goes round` or `ends`
    text: str           # of its line

    def told(self) -> tuple[str, str, str, str]:
        """What names it where lines move."""
        return self.module, self.function, self.text, self.way

    def __str__(self) -> str:
        return f'{self.module}:{self.line} in {self.function}: {self.way}'


@dataclass(frozen=True)
class Fork:
    """A statement with two ways: the lines of its test, and those on which the first way begins."""
    line: int
    function: str
    test: range
    first: range
    ways: tuple[str, ...]
    text: str


def forks_in(source: str) -> Iterator[Fork]:
    for function in ast.walk(ast.parse(source)):
        if isinstance(function, ast.FunctionDef):
            yield from forks_of(function, source.splitlines())


def forks_of(function: ast.FunctionDef, lines: list[str]) -> Iterator[Fork]:
    for node in ast.walk(function):
        if isinstance(node, (ast.If, ast.While)):
            is_endless = isinstance(node.test, ast.Constant)
            ways = ('holds', 'fails') if isinstance(node, ast.If) else ('goes round',) if is_endless else ('goes round', 'ends')
            test = range(node.lineno, node.test.end_lineno + 1)
        elif isinstance(node, ast.For):
            ways, test = ('goes round', 'ends'), range(node.lineno, node.iter.end_lineno + 1)
        else:
            continue
        first = node.body[0]
        yield Fork(node.lineno, function.name, test, range(first.lineno, first.end_lineno + 1), ways, lines[node.lineno - 1].strip())


def branch_of(path: str, fork: Fork, way: str) -> Branch:
    return Branch(os.path.basename(path), fork.line, fork.function, way, fork.text)


@cache
def forks_of_model() -> dict[str, dict[int, Fork]]:
    """The forks of each file, by the lines of their tests."""
    found = {}
    for name in sorted(os.listdir(MODEL)):
        if name.endswith('.py'):
            with open(os.path.join(MODEL, name)) as source:
                forks = list(forks_in(source.read()))
            found[os.path.join(MODEL, name)] = {line: fork for fork in forks for line in fork.test}
    return found


class Tracer:
    """Follows the lines of the model, and notes which way each fork went."""

    def __init__(self):
        self.forks = forks_of_model()
        self.taken: set[Branch] = set()
        self.last: dict[object, int] = {}       # of each frame the line before

    def all(self) -> set[Branch]:
        return {branch_of(path, fork, way) for path, forks in self.forks.items() for fork in forks.values() for way in fork.ways}

    def during(self, call: Callable[[], object]) -> object:
        sys.settrace(self.enter)
        try:
            return call()
        finally:
            sys.settrace(None)
            self.last.clear()

    def enter(self, frame, event, _):
        return self.step if frame.f_code.co_filename in self.forks else None

    def step(self, frame, event, _):
        path, last = frame.f_code.co_filename, self.last.pop(frame, None)
        if event == 'exception':
            return self.step
        fork = self.forks[path].get(last)
        if fork and (event == 'return' or frame.f_lineno not in fork.test or frame.f_lineno in fork.first):
            is_first = event == 'line' and frame.f_lineno in fork.first
            way = fork.ways[0] if is_first else fork.ways[-1]
            self.taken.add(branch_of(path, fork, way))
        if event == 'line':
            self.last[frame] = frame.f_lineno
        return self.step
