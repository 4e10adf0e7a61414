"""Reads FORMATS, "What is played", of `run`: each writer's lines and the service's are a job, and the jobs go on in some order.

The page promises no order, so this is one of many. It is chosen by a number: line by line a job is drawn of those that have lines left. A
writer that finds no free chunk has the others go on until it gets one.
"""

import random

from model.answers import Answer, refused
from model.replay import is_of_service, play_of_service, play_of_writer
from model.report import report_of
from model.scenario import Line, Refused, Scenario, read_scenario, refuse_lines
from model.service import Service
from model.writers import Writer

NOT_PLAYED = {kind: 'not under run' for kind in ('x', 'k', 'raw')}
SERVICE = 0                 # the service's job; a writer's has its number


class Jobs:
    """The lines of the jobs that are left, and what has been written."""

    def __init__(self, scenario: Scenario, order: int):
        self.service = Service(scenario)
        self.random = random.Random(order)
        self.lines: dict[int, list[Line]] = {SERVICE: []}
        for writer in self.service.writers:
            self.lines[writer.number] = []
            writer.help = lambda writer=writer: self.help(writer)
        for line in scenario.lines:
            self.lines[SERVICE if is_of_service(line) else line.of].append(line)
        self.done = {job: False for job in self.lines}
        self.waiting: list[int] = []        # jobs in the midst of a line
        self.records: list[bytes] = []

    def help(self, writer: Writer) -> bool:
        """The service takes chunks; the others go on meanwhile, where the writer waits for one."""
        freed = self.service.collect(writer.spec.producer) > 0
        while not freed and writer.spec.tries is None:
            self.step()
            freed = self.service.collect(writer.spec.producer) > 0 or not all(writer.claims.claimed)
        return freed

    def ready(self) -> list[int]:
        return [job for job, done in self.done.items() if not done and job not in self.waiting]

    def step(self) -> None:
        """One line of a job, or the flush behind its last one."""
        job = self.random.choice(self.ready())
        self.waiting.append(job)
        line = self.lines[job].pop(0) if self.lines[job] else None
        if job == SERVICE:
            self.play_of_service(line)
        elif line:
            self.service.poll(self.service.writers[job - 1])
            play_of_writer(self.service.writers[job - 1], line)
        else:
            self.service.writers[job - 1].flush()
        self.done[job] = line is None
        self.waiting.remove(job)

    def play_of_service(self, line: Line | None) -> None:
        """A line of the service, before which it reads its writers' answers."""
        if not line:
            return
        self.service.read_answers()
        if line.kind == 'q':
            self.service.note_request()
        else:
            self.records += play_of_service(self.service, line)

    def answer_at_end(self) -> None:
        """Each writer flushes and answers the last request, and the service reads what it answered."""
        for writer in self.service.writers:
            writer.flush()
            self.service.poll(writer)
        self.service.read_answers()


def play(scenario: Scenario, order: int) -> Answer:
    jobs = Jobs(scenario, order)
    while jobs.ready():
        jobs.step()
    jobs.answer_at_end()
    jobs.records += jobs.service.finish()
    return Answer(0, b''.join(jobs.records), report_of(jobs.service))


def run(text: bytes, order: int = 0) -> Answer:
    try:
        scenario = read_scenario(text)
        refuse_lines(scenario, NOT_PLAYED)
    except Refused as fault:
        return refused(fault)
    return play(scenario, order)
