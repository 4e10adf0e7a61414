"""A second reading of what `tracesmb` does, written from docs/FORMATS.md and docs/DEFINITIONS.md alone.

It proves nothing. It is plain and slow, and there so that a stranger can compare the program with the pages: where the two differ, the page
decides. Nothing of it is taken from the program's code. It needs Python 3.11 and its standard library.

    python3 tools/model replay|run|read|check|gen NUMBER WRITERS PACKETS|stream|clone|tune USERS TURNS

Each module is headed by the section of the page that it reads. To add a command, write a module with a function from the input's bytes to
an `Answer` (answers.py), and name it in commands.py, among those to come as long as the program doesn't have it; to add a kind of line, see
forms.py, scenario.py and replay.py.
"""
