"""What `dmf.read_table` says of a table names its own keywords, and no option of the tools."""

from __future__ import annotations

import pickle
import re
from pathlib import Path
from typing import Any

import pytest
from client_shared import dmf

# Tables with a fault, with keywords of the call, and what the message has.
FAULTS: list[tuple[str, dict[str, Any], list[str]]] = [
    (
        "tail,head,x,y's\na,b,1,3\nb,c,2,5\n",
        {},
        ["columns={'capacity': 'x'}    as in 1, 2", """columns={'capacity': "y's"}  as in 3, 5"""],
    ),
    (
        "from,to,Pipe's width\na,b,\nb,c,3\n",
        {"columns": {"tail": "from", "head": "to", "capacity": "Pipe's width"}},
        ['Give missing=0 to read such cells as 0, or missing="unlimited" to read them as'],
    ),
    (
        "tail,head,capacity\na,b,1.25\n",
        {"scale": 10},
        ["times 10 is not a whole number; scale=100?"],
    ),
    (
        "tail,head,capacity,status\na,b,3,windy\n",
        {},
        ["or give ignore=['status'] to keep the column as a remark"],
    ),
]


@pytest.mark.parametrize(("text", "options", "said"), FAULTS)
def test_faults(text: str, options: dict[str, Any], said: list[str], tmp_path: Path) -> None:
    path = tmp_path / "t.csv"
    path.write_text(text)
    with pytest.raises(dmf.TableFault) as caught:
        dmf.read_table(path, source="a", sink="b", **options)
    message = str(caught.value)
    assert [part for part in said if part not in message] == [], message
    assert not re.search(r"--[a-z]", message + "".join(map(str, caught.value.args)))
    again = pickle.loads(pickle.dumps(caught.value))
    assert (type(again), str(again)) == (type(caught.value), message)


def test_a_cell_stays(tmp_path: Path) -> None:
    """A cell that reads as an option is the table's."""
    path = tmp_path / "t.csv"
    path.write_text("tail,head,capacity\na,b,--scale 10\n")
    with pytest.raises(dmf.TableFault, match="'--scale 10' is not a number"):
        dmf.read_table(path, source="a", sink="b")
