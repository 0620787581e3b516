"""The first word of each docstring of a function: a verb in the imperative or, for a property, a
noun phrase. The verbs are listed here, since D401 of pydocstyle lets "Whether ..", "How many .."
and "As .." pass."""

from __future__ import annotations

import ast
from collections.abc import Iterator
from pathlib import Path
from typing import Union

import pytest
from conftest import ROOT
from sources import PYTHON

VERBS = frozenset(
    """
    Add Answer Ask Begin Bring Build Call Carry Change Check Choose Claim Close Compare Compile
    Copy Count Cut Delete Do Draw Drop End Fetch Fill Find Finish Follow Forget Free Give Go
    Handle Hold Ignore Import Keep Kill Let Listen Load Lock Log Make Measure Move Name Note
    Number Open Place Print Put Raise Read Record Redo Refuse Remember Remove Rename Replace
    Return Rewrite Run Send Set Show Split Start Step Stop Store Take Tell Try Turn Undo Unlock
    Update Wait Write Yield
    """.split()
)
FUNCTIONS = (ast.FunctionDef, ast.AsyncFunctionDef)
Function = Union[ast.FunctionDef, ast.AsyncFunctionDef]
ARTICLES = frozenset(["A", "An", "The"])
PROPERTIES = frozenset(["property", "cached_property"])
# Docstrings under tests/ describe what is so: "A reply is seen before the next line is sent."
JUDGED = [path for path in PYTHON if not path.is_relative_to(ROOT / "tests")]


def is_property(function: Function) -> bool:
    names = (ast.unparse(it).rpartition(".")[2] for it in function.decorator_list)
    return any(name in PROPERTIES for name in names)


def is_generator(node: ast.AST) -> bool:
    """Return True if a function, without those inside it, has a `yield`."""
    return any(
        isinstance(it, (ast.Yield, ast.YieldFrom))
        or not isinstance(it, (*FUNCTIONS, ast.Lambda))
        and is_generator(it)
        for it in ast.iter_child_nodes(node)
    )


def is_right(words: list[str], function: Function) -> bool:
    """Return True if a function's docstring may begin with these words."""
    returned = ast.unparse(function.returns) if function.returns else ""
    if words[0] == "Return":
        return returned not in ("None", "NoReturn") and not is_generator(function)
    # With "of" behind it, "Number" or "Name" is a noun.
    is_verb = words[0] in VERBS and words[1:2] != ["of"]
    return is_verb or is_property(function) and words[0] in ARTICLES


def wrong_words(text: str) -> Iterator[tuple[int, str]]:
    """Yield the line and the first word of each docstring of a function that begins wrongly."""
    for node in ast.walk(ast.parse(text)):
        if isinstance(node, FUNCTIONS) and (docstring := ast.get_docstring(node)):
            words = docstring.split()
            if not is_right(words, node):
                yield node.lineno, words[0]


@pytest.mark.parametrize(
    "begun", ["The arcs of", "Whether", "Returns", "How many", "As", "`arcs` has", "Number of"]
)
def test_wrong_words_are_found(begun: str) -> None:
    text = f'def first():\n    """Return a node."""\n\ndef second():\n    """{begun} a node."""\n'
    assert [*wrong_words(text)] == [(4, begun.split()[0])]


@pytest.mark.parametrize(
    "head, body",
    [
        ("def given() -> None:", "pass"),
        ("async def never() -> NoReturn:", "raise ValueError"),
        ("def each() -> Iterator[int]:", "if 1:\n        yield 1"),
    ],
)
def test_nothing_is_returned(head: str, body: str) -> None:
    text = f'{head}\n    """Return a node."""\n    {body}\n'
    assert [*wrong_words(text)] == [(1, "Return")]
    assert not [*wrong_words(text.replace("Return", "Yield"))]


def test_a_generator_inside_may_be_returned() -> None:
    text = (
        'def all():\n    """Return them."""\n    def each():\n        yield 1\n    return each()\n'
    )
    assert not [*wrong_words(text)]


@pytest.mark.parametrize("kind", ["property", "functools.cached_property"])
def test_properties_may_be_noun_phrases(kind: str) -> None:
    text = '@{}\ndef number():\n    """The number."""\n'
    assert not [*wrong_words(text.format(kind))]
    assert [*wrong_words(text.format("classmethod"))] == [(2, "The")]


def test_imperative() -> None:
    """If a verb is a new one, add it to `VERBS`."""
    found = [
        f"{path.relative_to(ROOT)}:{line}: {word}"
        for path in JUDGED
        for line, word in wrong_words(Path(path).read_text())
    ]
    assert not found, "\n".join(found)
