"""Compares what stands twice in the repository, and looks for definitions and lemmas that nothing
uses:

- each file of definitions and of lemmas begins with a comment, and one of definitions says whether
  it is public or private;
- each link between pages leads to a file, and to a heading of it where it names one;
- each name of code and of a file that a page has in backquotes stands in the repository;
- no page has more words than its bound, and each names its reader in its first lines;
- the page of the Python package names each module;
- the pictures of docs/ that have a source are those of their sources;
- the index of docs/DECISIONS.md has each decision, and no page breaks a line within a sentence;
- each definition and lemma is named by the rest of its file, or by a file that names its file."""

from __future__ import annotations

import re
import subprocess
from collections.abc import Iterator
from itertools import takewhile
from pathlib import Path

import pytest

# A definition or lemma begins in the first column with its name and its type.
HEAD = re.compile(r"^(?:[a-z]+ )*([^\s:(]+)(?= *[:(])")
LINK = re.compile(r"\]\((?![a-z]+:)([^)#]*)#?([^)]*)\)")
WORD = re.compile(r"[^\s(){}\[\],;.`\"]+")
# The most words of a page. Pages that only grow, by a line for each release or decision, have no
# bound.
MOST_WORDS = 1_800
MORE_WORDS = {
    "CONTRIBUTING.md": 1_900,
    "bench/README.md": 1_900,
    "docs/DEFINITIONS.md": 4_200,
    "docs/LIBRARY.md": 1_950,
    "docs/PROVED.md": 2_000,
    "docs/SEARCH.md": 2_950,
}
GROWING = {"CHANGELOG.md", "docs/DECISIONS.md"}


def is_general(file: Path) -> bool:
    """Whether it has definitions or lemmas, and not what else the proof of one function or type
    needs."""
    return file.stem not in ("Lib", "Answers", "Invariants", "Proof", "Send")


def headless_files() -> Iterator[str]:
    """The files of definitions and of lemmas that do not say what they are."""
    for file in sorted(
        it
        for part in ("specs", "proofs")
        for it in Path("crates").glob(f"*/{part}/**/*.antt")
        if is_general(it)
    ):
        comment = "".join(takewhile(lambda line: line.startswith("--"), file.open()))
        if not comment:
            yield f"{file} begins with no comment"
        elif file.parent.name == "specs" and not re.search(
            "^-- (Public|Private): ", comment, re.MULTILINE
        ):
            yield f"{file} does not say whether it is public or private"


def test_heads() -> None:
    assert not [*headless_files()]


def headings(page: Path) -> Iterator[str]:
    """The names of the headings of a page in links."""
    for heading in re.findall(r"^#+ (.*)$", page.read_text(), re.MULTILINE):
        yield re.sub(r"[^\w -]", "", heading.lower()).replace(" ", "-")


def dead_links() -> Iterator[str]:
    """The links between pages that lead nowhere."""
    for page in pages():
        for path, heading in LINK.findall(page.read_text()):
            file = page.parent / path if path else page
            if not file.exists() or heading and heading not in headings(file):
                yield f"{page}: nothing is at {path}{heading and '#' + heading}"


def test_links() -> None:
    assert not [*dead_links()]


def pages() -> list[Path]:
    return sorted(it for it in Path().rglob("*.md") if not {"out", ".git"} & set(it.parts))


def names(page: Path) -> list[str]:
    """What stands in backquotes on a page, but in its examples."""
    prose = re.sub(
        r"^    [^\n]*$|^```.*?^```$", "", page.read_text(), flags=re.MULTILINE | re.DOTALL
    )
    return sorted(set(re.findall(r"`([^`\n]+)`", prose)))


def dead_names() -> Iterator[str]:
    """The names of code and of files that pages have in backquotes, and that stand nowhere else in
    the repository."""
    tracked = subprocess.run(
        ["git", "ls-files"], capture_output=True, text=True, check=True
    ).stdout.splitlines()
    files = [Path(it) for it in tracked if Path(it).is_file()]
    places = {f"/{place}" for file in files for place in (file, *file.parents)}
    code = [
        file.read_text()
        for file in files
        if file.suffix in (".rt", ".antt", ".py", ".sh", ".cpp", ".hpp", "")
    ]
    said: set[str] = set().union(*(re.findall(r"\w+", text) for text in [*code, *places]))
    # What was there before stands in CHANGELOG.md, and words in capitals stand for something else.
    for page in pages():
        for name in names(page) if page.name != "CHANGELOG.md" else ():
            if re.search(r"[*!]|\bout/|[A-Z]{3}", name):
                continue
            is_place = any(
                place.endswith("/" + name.removeprefix("./").rstrip("/")) for place in places
            )
            if re.fullmatch(r"[\w./-]+\.(rt|antt|py|sh|cpp|hpp|max|csv)", name):
                is_there = is_place
            else:
                is_there = (
                    is_place
                    or not re.search("[_/]|::|[a-z][A-Z]", name)
                    or said.issuperset(re.findall(r"[A-Za-z]\w*", name))
                )
            if not is_there:
                yield f"{page}: nothing is called {name}"


def test_names() -> None:
    assert not [*dead_names()]


def long_pages() -> Iterator[str]:
    """The pages with more words than their bound."""
    for page in pages():
        count, most = len(page.read_text().split()), MORE_WORDS.get(str(page), MOST_WORDS)
        if count > most and str(page) not in GROWING:
            yield f"{page} has {count} words, and {most} are the most"


def test_length() -> None:
    assert not [*long_pages()]


def test_decisions() -> None:
    """The index names each decision once, in the order of the page and by its first words; a
    decision that another one has replaced begins with that."""
    page = Path("docs/DECISIONS.md").read_text()
    index, *entries = re.split(r"^### ", page, flags=re.MULTILINE)
    found = {}
    for entry in entries:
        number, _, text = entry.partition("\n\n")
        superseded, title = re.findall(r"\A(Superseded [^*]*)?\*\*(.*?)\.?\*\*", text)[0]
        found[number] = title[:1].lower() + title[1:]
        assert bool(superseded) == (
            "superseded" in index.partition(f"[{number}]")[2].split("\n")[0]
        )
    listed = re.findall(
        r"^- \[(\d+)\]\(#\1\): (.*?)(?: \([a-z ]*superseded\))?$", index, re.MULTILINE
    )
    assert [number for number, _ in listed] == [*found]
    assert {number: title[:1].lower() + title[1:] for number, title in listed} == found
    assert len(found) > 80 and len(re.findall(r"^## ", page, re.MULTILINE)) == 5


def broken_sentences() -> Iterator[str]:
    """The lines of pages that end within a sentence."""
    for page in pages():
        prose = re.sub(r"^```.*?^```$", "", page.read_text(), flags=re.MULTILINE | re.DOTALL)
        lines = prose.split("\n")
        for line, below in zip(lines, lines[1:]):
            is_code = line.startswith("    ") or below.startswith("    ")
            is_other = re.match(r" *([-*#|<!]|\d+\. )", below) or line.startswith(("#", "|", "<"))
            if line and below.strip() and not is_code and not is_other:
                if not re.search(r"[.!?:;][)*\"`]*$", line):
                    yield f"{page}: {line}"


def test_sentences() -> None:
    assert not [*broken_sentences()]


def test_modules() -> None:
    """The page of the Python package names each of its modules."""
    package = Path("clients/python")
    assert {it.stem for it in (package / "dmf").glob("[!_]*.py")} - {
        *names(package / "README.md")
    } == set()


def test_readers() -> None:
    reader = re.compile("planner|Python user|[Ee]ngineer|sceptic|everyone")
    assert not [page for page in pages() if not reader.search("".join(page.open().readlines()[:8]))]


@pytest.mark.parametrize(
    "source",
    sorted(Path(__file__).parents[2].glob("docs/pictures/*.dot")),
    ids=lambda source: str(source.stem),
)
def test_picture(source: Path) -> None:
    """A picture says what its source says. Versions of Graphviz place things differently."""
    drawn = subprocess.run(
        ["dot", "-Tsvg", source], capture_output=True, text=True, check=True
    ).stdout
    texts = re.compile("<text[^>]*>(.*?)</text>")
    assert texts.findall(source.with_suffix(".svg").read_text()) == texts.findall(drawn)


def words(text: str) -> set[str]:
    """The words of a text, those of its comments left out."""
    return set(WORD.findall(re.sub(r"^\s*(--|//).*$", "", text, flags=re.MULTILINE)))


def definitions(text: str) -> Iterator[tuple[str, int, str]]:
    """Each definition of a file, with the number of its line and the rest of the file."""
    lines = text.split("\n")
    firsts = [
        at
        for at, line in enumerate(lines)
        if re.match(r"[^\s-]", line) and not line.startswith("use ")
    ]
    name, begin = "", 0
    for at in [*firsts, len(lines)]:
        line = lines[at] if at < len(lines) else ""
        # The clauses of a definition begin with its name.
        if name and line.split(" ")[0] == name:
            continue
        if name not in ("", "_"):
            yield name, begin + 1, "\n".join(lines[:begin] + lines[at:])
        head = HEAD.match(line)
        name, begin = head[1] if head else "", at


def sources() -> Iterator[Path]:
    for part in "src", "specs", "proofs":
        for end in "rt", "antt":
            yield from Path("crates").glob(f"*/{part}/**/*.{end}")


def unused() -> Iterator[str]:
    """The definitions and lemmas that nothing names."""
    texts = {file: file.read_text() for file in sources()}
    said = {file: words(text) for file, text in texts.items()}
    for file in sorted(texts):
        if file.suffix != ".antt" or not is_general(file):
            continue
        near = [other for other in said if other != file and file.stem in said[other]]
        for name, line, rest in definitions(texts[file]):
            if name not in words(rest) and not any(name in said[other] for other in near):
                yield f"nothing uses {name} ({file}:{line})"


@pytest.mark.seconds(10)
def test_unused() -> None:
    assert not [*unused()]
