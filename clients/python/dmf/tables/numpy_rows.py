"""Many rows of a table without quotes at once, by numpy: where each cell begins and ends, the
places that cells name, and the numbers in a column. No object is made for a cell that is not asked
for, which takes a third of the time of lists of cells."""

from __future__ import annotations

from array import array
from collections.abc import Iterator, Sequence
from functools import partial
from itertools import zip_longest
from typing import Any, NamedTuple, Optional, Protocol

from ..quantity import LARGEST, SIGNS
from ..text.lexical import AMOUNTS, NODES
from .plain_numbers import PLAIN_LENGTH, Plain
from .sheet import AmountSink, PlaceSink, Rows

# The longest name that is compared as numbers, in bytes; and how often names are looked up in the
# table of their hashes.
LONGEST, MOST_ROUNDS = 64, 100
_ODD = 0x9E3779B97F4A7C15


class ByteBlock(Protocol):
    """Whole lines of a table without quotes, from one byte of its file on; `line` is the number of
    the first."""

    @property
    def data(self) -> bytes:
        ...

    @property
    def begin(self) -> int:
        ...

    @property
    def line(self) -> int:
        ...

    @property
    def encoding(self) -> str:
        ...

    @property
    def delimiter(self) -> str:
        ...

    def rows(self) -> Iterator[Rows]:
        """Return the rows without numpy."""

    def column(self, place: int) -> list[str]:
        """Return the cells of a column."""

    def from_byte(self, begin: int) -> ByteBlock:
        """Return the lines from the second one on, which begins at this byte of the file."""


class Spans(Rows):
    """Rows of one width. `arrays` has the bytes of their lines, with more after the last one, and
    the start and the size of each cell, row by row."""

    def __init__(self, np: Any, block: ByteBlock, arrays: tuple[Any, Any, Any]) -> None:
        self._letters, self._starts, self._sizes = arrays
        super().__init__(range(block.line, block.line + len(self._starts)))
        self._np = np
        self._block = block
        self._whole: list[Sequence[str]] = []

    def widths(self) -> set[int]:
        return {self._starts.shape[1]}

    def columns(self) -> Sequence[Sequence[str]]:
        if not self._whole:
            text = (
                self._block.data.decode(self._block.encoding)
                .replace("\r\n", "\n")
                .removesuffix("\n")
            )
            (width,) = self.widths()
            cells = text.replace("\n", self._block.delimiter).split(self._block.delimiter)
            self._whole = [cells[place::width] for place in range(width)]
        return self._whole

    @property
    def cells(self) -> list[list[str]]:
        return [[*row] for row in zip(*self.columns())]

    def after_first(self) -> Rows:
        if len(self) == 1:
            return Rows(self.lines[1:], [])
        begin = int(self._starts[1, 0])
        left = self._letters[begin:], self._starts[1:] - begin, self._sizes[1:]
        return Spans(self._np, self._block.from_byte(self._block.begin + begin), left)

    def smaller(self) -> Iterator[Rows]:
        return self._block.rows()

    def has(self, place: int, cell: str) -> bool:
        wanted = cell.encode(self._block.encoding)
        starts = self._starts[self._sizes[:, place] == len(wanted), place]
        for at, letter in enumerate(wanted):
            starts = starts[self._letters[starts + at] == letter]
        return len(starts) > 0

    def column(self, place: int) -> list[str]:
        return self.text(place).split("\n") if place < self._starts.shape[1] else [""] * len(self)

    def text(self, place: int) -> str:
        if place >= self._starts.shape[1]:
            return super().text(place)
        return self._text(self._starts[:, place], self._sizes[:, place])

    def _text(self, starts: Any, sizes: Any) -> str:
        """Return these cells, one below the other."""
        np, sizes = self._np, sizes + 1
        # From a byte to the next it is one on, but from the end of a cell to the beginning of the
        # next one.
        ends = np.cumsum(sizes)
        steps = np.ones(int(ends[-1]), np.int32)
        steps[0] = starts[0]
        steps[ends[:-1]] = starts[1:] - starts[:-1] - sizes[:-1] + 1
        letters = self._letters[np.cumsum(steps, dtype=np.int32)]
        letters[ends - 1] = ord("\n")
        text: str = letters[:-1].tobytes().decode(self._block.encoding)
        return text

    def has_something(self, place: int) -> bool:
        return bool(self.text(place).strip())

    def put_amounts(self, amounts: AmountSink, place: int) -> None:
        if plain := self._plain(place):
            amounts.add_plain(plain, len(self), partial(self._block.column, place))
        else:
            amounts.add(self.column(place))

    def _plain(self, place: int) -> Optional[Plain]:
        """Return the numbers of a column; None if its cells are not plain, or too long."""
        np, starts, sizes = self._np, self._starts[:, place].copy(), self._sizes[:, place].copy()
        if not 0 < int(sizes.min()) <= int(sizes.max()) <= PLAIN_LENGTH:
            return None
        numbers = np.zeros(len(self), np.uint64)
        # The sign of each cell, which is 0 as long as there is none, as is a letter past the end of
        # a cell.
        signs, decimals = np.zeros(len(self), np.uint8), np.zeros(len(self), np.uint8)
        for at in range(int(sizes.max())):
            letters = np.where(sizes > at, self._letters[starts + at], np.uint8(0))
            digits = letters - np.uint8(ord("0"))
            is_digit = digits < 10
            is_sign = (letters > 0) & ~is_digit
            if is_sign.any():
                if signs[is_sign].any():
                    return None
                signs[is_sign] = letters[is_sign]
            decimals += is_digit & (signs > 0)
            numbers = np.where(is_digit, numbers * np.uint64(10) + digits, numbers)
        sign = chr(signs.max()) if signs.any() else ""
        if (
            sign not in ("", *SIGNS)
            or (signs[signs > 0] != signs.max()).any()
            or (sizes == (signs > 0)).any()
        ):
            return None
        most = int(decimals.max())
        more = np.array([10**count for count in range(most + 1)], np.uint64)[most - decimals]
        if (numbers > np.uint64(LARGEST) // more).any():
            return None
        return Plain(
            array(AMOUNTS, (numbers * more).tobytes()),
            most,
            sign,
            self._telling(place, signs > 0, decimals) if sign else (0, ""),
        )

    def _telling(self, place: int, is_signed: Any, decimals: Any) -> tuple[int, str]:
        """Return the row and the text of the first cell in which the sign cannot be a thousands
        separator or, if there is none, of the first with the sign."""
        starts, sizes = self._starts[:, place], self._sizes[:, place]
        is_grouped = (
            (decimals == 3) & (sizes > 4) & (sizes < 8) & (self._letters[starts] != ord("0"))
        )
        is_telling = is_signed & ~is_grouped
        row = int((is_telling if is_telling.any() else is_signed).argmax())
        return row, self._text(starts[row : row + 1], sizes[row : row + 1])

    def numbered(
        self, places: tuple[int, int], numbers: PlaceSink
    ) -> Optional[tuple[array[int], array[int]]]:
        np = self._np
        starts, sizes = self._starts[:, places].ravel(), self._sizes[:, places].ravel()
        if int(sizes.max()) > LONGEST:
            return super().numbered(places, numbers)
        seen: Seen = numbers.seen or Seen([], np.zeros(0, NODES))
        known = len(seen.numbers)
        words = seen.before(np, self._words(starts, sizes))
        firsts = first_alike(np, words)
        if firsts is None:
            return super().numbered(places, numbers)
        new = np.flatnonzero(firsts[known:] == np.arange(known, len(firsts)))
        found = numbers.of(self._text(starts[new], sizes[new]).split("\n")) if len(new) else []
        if found is None:
            return None
        by_cell = np.zeros(len(firsts), NODES)
        by_cell[:known], by_cell[known + new] = seen.numbers, found
        kept = np.concatenate([np.arange(known), known + new])
        numbers.seen = Seen([word[kept] for word in words], by_cell[kept])
        by_row = by_cell[firsts[known:]]
        tails, heads = (array(NODES, by_row[column::2].tobytes()) for column in (0, 1))
        return tails, heads

    def _words(self, starts: Any, sizes: Any) -> list[Any]:
        """Return the bytes of cells as numbers of eight bytes each."""
        np, count = self._np, -(-int(sizes.max()) // 8) or 1
        # Each place of the text is the beginning of a number here.
        numbers = np.ndarray((len(self._letters) - 7,), "<u8", self._letters.data, 0, (1,))
        masks = np.array([(1 << 8 * size) - 1 for size in range(9)], np.uint64)
        return [
            numbers[starts + 8 * word] & masks[np.clip(sizes - 8 * word, 0, 8)]
            for word in range(count)
        ]


class Seen(NamedTuple):
    """The different cells so far: their bytes, as columns of numbers of eight bytes each, and the
    numbers of the places that they name."""

    words: list[Any]
    numbers: Any

    def before(self, np: Any, words: list[Any]) -> list[Any]:
        """Return the bytes of these cells and of others after them."""
        none = [np.zeros(len(column), np.uint64) for column in (self.numbers, words[0])]
        both = zip_longest(self.words, words)
        return [
            np.concatenate(
                [none[0] if mine is None else mine, none[1] if theirs is None else theirs]
            )
            for mine, theirs in both
        ]


def first_alike(np: Any, columns: list[Any]) -> Any:
    """Return for each row of these columns of numbers the first row that is the same, by a table of
    hashes; None if too many rows come to one place in it."""
    hashes = np.zeros(len(columns[0]), np.uint64)
    for column in columns:
        hashes = (hashes ^ column) * np.uint64(_ODD)
        hashes ^= hashes >> np.uint64(32)
    bits = (2 * len(hashes)).bit_length()
    places, steps = (hashes & np.uint64((1 << bits) - 1)).astype(np.int32), (
        hashes >> np.uint64(32)
    ).astype(np.int32) | 1
    table = np.full(1 << bits, -1, np.int32)
    rows = np.arange(len(hashes), dtype=np.int32)
    firsts, left = rows.copy(), rows
    for _ in range(MOST_ROUNDS):
        # Rows of one hash go on together. Of those that come to a free place the first gets it, as
        # the last that writes.
        is_free = table[places] < 0
        table[places[is_free][::-1]] = left[is_free][::-1]
        found = table[places]
        is_same = hashes[found] == hashes[left]
        firsts[left[is_same]] = found[is_same]
        left, places, steps = (
            left[~is_same],
            (places + steps)[~is_same] & ((1 << bits) - 1),
            steps[~is_same],
        )
        if not len(left):
            is_right = (firsts <= rows).all() and all(
                (column[firsts] == column).all() for column in columns
            )
            return firsts if is_right else None
    return None


def spans_of(np: Any, block: ByteBlock) -> Spans | None:
    """Return the rows of whole lines; None if not all have as many cells, or they have just one."""
    # The last line may lack its end, and numbers are read from the last cell on.
    data = block.data
    letters = np.frombuffer(data + b"\n" + bytes(LONGEST + 8), np.uint8)
    told = letters[: len(data) + (data[-1:] != b"\n")]
    # A piece of a file is far below 2^31 bytes.
    ends = np.flatnonzero((told == ord(block.delimiter)) | (told == ord("\n"))).astype(np.int32)
    is_line = letters[ends] == ord("\n")
    width = int(np.argmax(is_line)) + 1
    if (
        width == 1
        or len(ends) % width
        or int(is_line.sum()) * width != len(ends)
        or not is_line[width - 1 :: width].all()
    ):
        return None
    starts = np.empty(len(ends), np.int32)
    starts[0] = 0
    starts[1:] = ends[:-1] + 1
    starts, sizes = starts.reshape(-1, width), (ends - starts).reshape(-1, width)
    if b"\r" in data:
        # A carriage return stands before each end of a line, and nowhere else; the last line may
        # lack both.
        sizes[:, -1] -= letters[starts[:, -1] + sizes[:, -1] - 1] == ord("\r")
    return Spans(np, block, (letters, starts, sizes))
