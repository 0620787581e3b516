"""A table of pipes, of which some lead both ways, and the desk of such a table."""

from __future__ import annotations

from dmf.desk.workspace import Desk
from dmf.tables.loader import TableOptions, subject_of

# All that comes to D goes over Main, from B to C, or over `by`.
MAIN = """\
from,to,capacity,name,direction
A,B,5,one,->
C,B,3,Main,<->
A,C,2,by,->
C,D,7,out,<->
"""


def desk_of(text: str, *, source: str = "S", sink: str = "T") -> Desk:
    wanted = TableOptions(source=[source], sink=[sink])
    return Desk(subject_of(wanted, "drawn.csv", text.encode()), with_solve=True)
