"""How wide texts are in pictures that no browser measures.

A picture is drawn with Helvetica or the font that a browser has in its place. DejaVu Sans is the
widest of those, so a text that has room by its widths has room by the others.
"""

from __future__ import annotations

import unicodedata

# The widths of the printable signs of ASCII in DejaVu Sans, and in its bold, if letters have the
# size 1000.
# fmt: off
_PLAIN = (
    318, 401, 460, 838, 636, 950, 780, 275, 390, 390, 500, 838, 318, 361, 318, 337, 636, 636, 636,
    636, 636, 636, 636, 636, 636, 636, 337, 337, 838, 838, 838, 531, 1000, 684, 686, 698, 770, 632,
    575, 775, 752, 295, 295, 656, 557, 863, 748, 787, 603, 787, 695, 635, 611, 732, 684, 989, 685,
    611, 685, 390, 337, 390, 838, 500, 500, 613, 635, 550, 635, 615, 352, 635, 634, 278, 278, 579,
    278, 974, 634, 612, 635, 635, 411, 521, 392, 634, 592, 818, 592, 592, 525, 636, 337, 636, 838,
)
_BOLD = (
    348, 456, 521, 838, 696, 1002, 872, 306, 457, 457, 523, 838, 380, 415, 380, 365, 696, 696, 696,
    696, 696, 696, 696, 696, 696, 696, 400, 400, 838, 838, 838, 580, 1000, 774, 762, 734, 830, 683,
    683, 821, 837, 372, 372, 775, 637, 995, 837, 850, 733, 850, 770, 720, 682, 812, 774, 1103, 771,
    724, 725, 457, 365, 457, 838, 500, 500, 675, 716, 593, 716, 678, 435, 716, 712, 343, 343, 665,
    343, 1042, 712, 687, 716, 716, 493, 595, 478, 712, 652, 924, 645, 652, 582, 712, 365, 712, 838,
)
# fmt: on
# The width of a sign that is not known and that no ASCII letter with an accent is.
_OTHER = 1000


def width(text: str, is_bold: bool = False) -> float:
    """Return how wide a text is if its letters have the size 1."""
    widths = _BOLD if is_bold else _PLAIN
    return sum(_width_of(sign, widths) for sign in text) / 1000


def _width_of(sign: str, widths: tuple[int, ...]) -> int:
    if not sign.isascii():
        # An accent adds nothing to the width of its letter.
        sign = unicodedata.normalize("NFD", sign)[0]
    return widths[ord(sign) - ord(" ")] if " " <= sign <= "~" else _OTHER
