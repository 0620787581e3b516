"""A second implementation of the whole program, in plain Python, written from docs/DEFINITIONS.md,
docs/FORMATS.md and docs/SESSION.md.

The tests compare the built program with it. It follows the definitions to the letter and keeps
whole states; nothing in it is made to be quick. `python3 tests/oracle WORDS` runs it as the program
is run.

    texts.py      lines, fields and numbers; what a judged text stands for
    network.py    networks, flows, paths; solving, draining, the smallest side
    changes.py    what a change makes of a state, and why it is refused
    problem.py    problem texts, read and written
    solution.py   solution texts and cuts, read and written
    session.py    command lines and their replies
    program.py    words, files, standard streams and statuses
"""
