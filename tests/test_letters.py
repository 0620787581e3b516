"""How wide texts are taken to be in pictures that no browser measures: as wide as DejaVu Sans is,
whose fonts are read by another library."""

from __future__ import annotations

import string
from typing import Any

import pytest
from dmf.desk.pictures.letters import width
from packages import load

fonts: Any = load("matplotlib.font_manager")
reader: Any = load("matplotlib.ft2font")
# Texts of pictures: with spaces, digits, capitals and accents.
TEXTS = ("New pipe", "80/90", "Straße 12", "Müller & Söhne", "WWW", "illicit", "Ångström – Čapek")


@pytest.mark.parametrize("is_bold", [False, True])
def test_widths(is_bold: bool) -> None:
    """Each printable sign of ASCII, and texts as the sums of their signs."""
    named = fonts.FontProperties(family="DejaVu Sans", weight="bold" if is_bold else "normal")
    font = reader.FT2Font(fonts.findfont(named, fallback_to_default=False))

    def advance(sign: str) -> float:
        glyph = font.load_char(ord(sign), flags=reader.LOAD_NO_SCALE)
        return float(glyph.horiAdvance) / float(font.units_per_EM)

    for sign in string.printable:
        if sign.isprintable():
            assert width(sign, is_bold) == pytest.approx(advance(sign), abs=0.0006), sign
    for text in TEXTS:
        wide = sum(map(advance, text))
        # What is no ASCII letter with an accent is taken as wider than it is.
        assert wide - 0.001 * len(text) <= width(text, is_bold) < 1.15 * wide, text


def test_unknown_signs_have_room() -> None:
    """A sign of another script is taken as wide as letters are high."""
    assert width("水道") == 2.0
