"""Reads FORMATS, "Workload": what `gen` writes."""

from model.answers import Answer

MULTIPLIER, ADDEND = 6_364_136_223_846_793_005, 1_442_695_040_888_963_407
LETTERS = 'abcdefghijklmnopqrstuvwxyz'


def workload(number: int, writers: int, packets: int) -> Answer:
    lines = ['buffer 65536 ring\n', 'producer 16 4096 14\n', *['writer 1 1 stall\n'] * writers]
    x = number
    for k in range(packets * writers):
        x = (x * MULTIPLIER + ADDEND) % 2 ** 64
        v = x >> 33
        letter = LETTERS[v // 24 % 26]
        lines.append(f'p {k % writers + 1} 8:{k * 100 + v % 100} 900{{1:"{letter}"*{v % 24 + 1} 2:{k // writers + 1}}}\n')
    return Answer(0, ''.join(lines).encode())
