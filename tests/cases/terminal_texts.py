"""What a row of tests/program/test_terminal.py has: a text, its fault, and what the program is to
say of it on a terminal."""

from dataclasses import dataclass

# What is said of a fault where the text cannot be read again, as from a pipe.
PROBLEM_PIPED = {
    "problem line expected": "a problem begins with p max NODES ARCS (tools/dmf-problem makes a "
    "problem of a table)",
    "second problem line": "a text has one problem: give each its own file",
    "unknown line": "a line of a problem begins with c, p, n or a",
    "not a max problem": "the problem line is p max NODES ARCS, in lower case",
    "wrong number of fields": "the lines are p max NODES ARCS, n ID s, n ID t and a SRC DST CAP",
    "not a number": "a number has digits alone: whole, without sign, from 0 to "
    "18446744073709551615",
    "number too large": "the largest number is 18446744073709551615",
    "count out of range": "NODES is from 2 to 16777216, ARCS at most 134217728",
    "no such node": "nodes are numbered from 1 to NODES of the problem line",
    "neither source nor sink": "in a node line s names the source, t the sink",
    "terminal named twice": "a second source or sink: join several by a node before or behind them "
    "(docs/FORMATS.md)",
    "source and sink are the same": "source and sink are two nodes",
    "arc before source and sink": "put both n lines (n ID s and n ID t) before the first a line",
    "too many arcs": "there are more a lines than ARCS of the problem line says",
    "too few arcs": "there are fewer a lines than ARCS of the problem line says",
    "source or sink missing": "a line n ID s names the source, and a line n ID t the sink",
    "capacities past 64 bits": "the sum of all capacities passes 2^64 - 1 here: write a smaller "
    'number for "no limit"',
}
SOLUTION_PIPED = {
    "unknown line": "a line of a solution begins with c, s or f",
    "wrong number of fields": "the lines are s VALUE and f SRC DST FLOW",
    "not a number": PROBLEM_PIPED["not a number"],
    "number too large": PROBLEM_PIPED["number too large"],
    "no such arc": "the problem has no arc from SRC to DST",
    "over capacity": "up to this line more flows than the arcs can carry from SRC to DST (their "
    "capacities "
    "together)",
    "second value line": "a solution has one line s VALUE, and this is its second",
    "value line missing": "the line s VALUE is missing: VALUE is what leaves the source",
    "flow not conserved at node 2": "what enters node 2 and what leaves it differ, and it is "
    "neither source nor sink",
    "value differs": "the s line says another value than the f lines make: what leaves the source, "
    "less what "
    "enters it",
}


@dataclass(frozen=True)
class Text:
    """A text with its fixed fault (none, where it has none), what is said of it where it is a file,
    from the line's number on, and the first line of its answer. What is said of it from a pipe is
    its advice itself, if the same is said.
    """

    name: str
    text: bytes
    fault: str
    advice: str
    piped: dict[str, str]
    first: str = ""

    def said(self, place: str | None) -> str:
        """The line that explains it: of a file by its name, with words before it; else by words
        alone, if there are some."""
        if not self.fault:
            return ""
        line, _, kind = self.fault.removeprefix("line ").partition(": ")
        if place is None:
            return f"line {line}: {self.piped[kind]}\n"
        if place.endswith(", line"):
            return f"{place} {line}: {self.piped[kind]}\n"
        return f"{place}:{line}{self.advice or ': ' + self.piped[kind]}\n"


def problem(name: str, text: bytes, fault: str, advice: str = "") -> Text:
    """A problem with a fault; its advice is that of a pipe, where it is left out."""
    return Text(name, text, fault, advice, PROBLEM_PIPED)


def solved(name: str, text: bytes, first: str = "s 4") -> Text:
    """A problem without a fault, and the first line of its solution."""
    return Text(name, text, "", "", {}, first)


def solution(name: str, text: bytes, fault: str, advice: str = "") -> Text:
    return Text(name, text, fault, advice, SOLUTION_PIPED)


HEAD = b"p max 3 2\nn 1 s\nn 3 t\n"
ARCS = b"a 1 2 5\na 2 3 4\n"
TEXT = HEAD + ARCS
BOUNDS = "no whole number from 0 to 18446744073709551615"


def capacity(text: bytes) -> bytes:
    """The problem with this capacity of its first arc."""
    return HEAD + b"a 1 2 " + text + b"\na 2 3 4\n"
