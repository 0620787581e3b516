"""Fields, lines and bytes that a text should not have, or that look as if it should not."""

from __future__ import annotations

from commands import odd_lines

ODD_FIELDS = (
    [
        b"0",
        b"1",
        b"2",
        b"3",
        b"-1",
        b"+1",
        b"1.5",
        b"1e3",
        b"0x1",
        b"x",
        b"s",
        b"t",
        b"max",
        b"min",
        b"c",
        b"cx",
    ]
    + [
        b"9223372036854775808",
        b"18446744073709551615",
        b"18446744073709551616",
        b"99999999999999999999",
    ]
    + [
        b"184467440737095516150",
        b"1" * 5000,
        b"0" * 30 + b"1",
        b"0" * 30 + b"x",
        b"1\r",
        b"\r",
        b"\0",
        b"\x0b1",
        b"1\xff",
    ]
    + [
        b"16777216",
        b"16777217",
        b"134217728",
        b"134217729",
        b"4294967296",
        b"4294967297",
        "\u0661".encode(),
        b"\xa01",
    ]
)
ODD_LINES: list[list[bytes]] = [
    [b"p", b"max", b"2", b"0"],
    [b"p", b"max", b"4", b"5"],
    [b"p", b"min", b"4", b"5"],
    [b"n", b"1", b"s"],
    [b"n", b"2", b"t"],
    [b"n", b"1", b"t"],
    [b"n", b"0", b"x"],
    [b"a", b"1", b"2", b"1"],
    [b"a", b"1", b"2", b"0", b"3", b"5"],
    [b"a", b"1", b"2", b"18446744073709551615"],
    [b"s", b"0"],
    [b"s", b"1", b"1"],
    [b"f", b"1", b"2", b"0"],
    [b"f", b"1", b"2", b"1"],
    [b"f", b"2", b"1", b"1"],
    [b"f", b"1", b"2"],
    [b"P", b"max", b"2", b"0"],
    [b"c"],
    [b"cap", b"1", b"2"],
    [],
]
ODD_BYTES = [bytes([byte]) for byte in range(256)]
# Command lines that are refused by their form, and some that only look so: those that hypothesis
# draws, some beyond the table of commands, and all that come from it.
DRAWN_COMMANDS: list[list[bytes]] = [
    [b"wash"],
    [b"print", b"side"],
    [b"c", b"solve"],
    [b"undo", b"18446744073709551615"],
    [],
]
ODD_COMMANDS: list[list[bytes]] = [
    *DRAWN_COMMANDS,
    [b"Print", b"flow"],
    [b"solved"],
    [b"c"],
    [b"print", b"Flow"],
    [b"print", b"flow", b"flow"],
    [b"print", b"side", b"x"],
    [b"add", b"1", b"x", b"18446744073709551616"],
    [b"x" * 4096],
    [b"x" * 4097],
    [b"c", b"x" * 4094],
    [b"c", b"x" * 4095],
    [b"solve" + b" " * 4091],
    [b"solve" + b" " * 4091 + b"\r"],
    [b"solve" + b" " * 4090 + b"\r"],
    [b"solve" + b" " * 4092],
    [b"solve\r"],
    [b"\0"],
    [b"\x0bsolve"],
    *odd_lines(),
]
