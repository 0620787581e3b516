"""Cases that a fault was found by, which was in the program, in a copy of it or in the second
implementation, as small as they were made. Each case that fails is put at the end of the list."""

from __future__ import annotations

from built import PROBLEM, Case
from kept import Found

TWO = b"p max 2 1\nn 1 s\nn 2 t\na 1 2 0\n"
FOUND = [
    Found(Case("a node is shut that arcs enter", (b"session", PROBLEM), TWO, b"shut 2\nsolve\n")),
    Found(
        Case(
            "nothing to redo",
            (b"session", b"--history", b"0", b"--cut", PROBLEM),
            b"p max 5 0\nn 1 t\nn 3 s\n",
            b"redo 1\n",
        )
    ),
    Found(
        Case(
            "an option twice, at last without its value",
            (b"session", b"--history", b"2", PROBLEM, b"--history", b"--cut"),
            b"",
            b"",
        )
    ),
]
