"""Reads FORMATS, "Tuning": users that partition pages anew, beside a collector, in some order.

The page promises no order, so this is one of many: users and collector take turns by a number, and each turn is made whole. A turn that is
made whole leaves no chunk claimed, so a claim finds none free only where complete chunks wait for the collector.
"""

import random
from dataclasses import dataclass, field

from model.answers import Answer

PAGES = 4
LAYOUTS = (1, 2, 4, 7, 14)
MOST_GENERATIONS = 262_143


@dataclass
class Page:
    """A page: how many chunks it has, how often it was partitioned anew, and which chunks are complete."""
    chunks: int = LAYOUTS[-1]
    generation: int = 0
    complete: set[int] = field(default_factory=set)


@dataclass
class User:
    turn: int = 0
    claimed: int = 0
    none: int = 0
    retiled: int = 0
    refused: int = 0


class Table:
    def __init__(self):
        self.pages = [Page() for _ in range(PAGES)]
        self.taken = 0

    def collect(self) -> None:
        for page in self.pages:
            self.taken += len(page.complete)
            page.complete.clear()

    def claim(self) -> bool:
        """Claims the first free chunk, begins it and completes it."""
        for page in self.pages:
            free = set(range(page.chunks)) - page.complete
            if free:
                page.complete.add(min(free))
                return True
        return False

    def partition(self, number: int, layout: int) -> bool:
        page = self.pages[number]
        if page.complete or page.generation == MOST_GENERATIONS:
            return False
        page.chunks, page.generation = LAYOUTS[layout - 1], page.generation + 1
        return True


def take_turn(table: Table, user: User, number: int) -> None:
    user.turn += 1
    if (number + user.turn) % 3 == 0:
        if table.partition(user.turn % PAGES, (number + user.turn) % len(LAYOUTS) + 1):
            user.retiled += 1
        else:
            user.refused += 1
    elif table.claim():
        user.claimed += 1
    else:
        user.none += 1


def tune(users: int, turns: int, order: int = 0) -> Answer:
    chooser, table = random.Random(order), Table()
    made = {number: User() for number in range(1, users + 1)}
    left = {number: turns for number in range(users + 1)}       # of the collector, 0, and of each user
    while left:
        number = chooser.choice(list(left))
        if number == 0:
            table.collect()
        else:
            take_turn(table, made[number], number)
        left[number] -= 1
        if left[number] == 0:
            del left[number]
    table.collect()
    lines = [f'user {number} claimed {user.claimed} none {user.none} retiled {user.retiled} refused {user.refused}\n'
             for number, user in made.items()]
    lines.append(f'taken {table.taken}\n')
    lines += [f'page {number} generation {page.generation} chunks {page.chunks}\n' for number, page in enumerate(table.pages, 1)]
    return Answer(0, ''.join(lines).encode())
