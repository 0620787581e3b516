"""Random texts: lines as they are, with more space and comments than they need, or with faults.

A text is made as a list of lines, and a line as a list of fields. Faults are put into these, or
into the bytes at the end."""

from __future__ import annotations

from random import Random

from odd_texts import ODD_BYTES, ODD_FIELDS, ODD_LINES

Lines = list[list[bytes]]


def line(*fields: object) -> list[bytes]:
    return [str(field).encode() for field in fields]


def with_fault(lines: Lines, random: Random) -> Lines:
    """The lines with one thing changed. What is made need not be at fault."""
    lines = [list(fields) for fields in lines] or [[]]
    # The first three lines of a problem are at fault in most ways.
    place = random.randrange(random.choice([1, 3, len(lines), len(lines)])) % len(lines)
    fields = lines[place]
    kind = random.randrange(11)
    if kind == 0:
        del lines[place]
    elif kind == 10:
        del lines[place:]
    elif kind == 1:
        lines.insert(random.randint(0, len(lines)), fields)
    elif kind == 2:
        other = random.randrange(len(lines))
        lines[place], lines[other] = lines[other], lines[place]
    elif kind == 3 or not fields:
        lines.insert(random.randint(0, len(lines)), random.choice(ODD_LINES))
    elif kind == 4:
        fields.insert(random.randint(0, len(fields)), random.choice(ODD_FIELDS))
    elif kind == 5:
        fields.pop(random.randrange(len(fields)))
    else:
        at = random.randrange(len(fields))
        fields[at] = other_field(fields[at], lines, random)
    return lines


def other_field(field: bytes, lines: Lines, random: Random) -> bytes:
    """A field in place of this one: a number near it, a field of another line, or an odd one."""
    kind = random.randrange(3)
    if kind == 0 and field.isdigit() and len(field) < 100:
        return str(max(0, int(field) + random.choice([-1, 1]))).encode()
    if kind == 1:
        return random.choice(random.choice([fields for fields in lines if fields]))
    return random.choice(ODD_FIELDS)


def plain_text(lines: Lines) -> bytes:
    return b"".join(b" ".join(fields) + b"\n" for fields in lines)


def loose_text(lines: Lines, random: Random, comment: bytes) -> bytes:
    """The text of lines with more space than is needed, leading zeros, comments, blank lines and
    carriage returns."""
    text = b""
    odd_end = b"\r\r\n" if random.random() < 0.2 else b"\n"
    for fields in lines:
        spaced = [random.choice([b"", b"", b" ", b"\t \t"])]
        for field in fields:
            zeros = b"0" * random.choice([0, 0, 0, 1, 25]) if field.isdigit() else b""
            spaced += [zeros + field, random.choice([b" ", b" ", b"\t", b"   "])]
        text += b"".join(spaced if random.random() < 0.2 else spaced[:-1])
        text += random.choice(
            [b"\n", b"\n", b"\n", b"\r\n", odd_end if random.random() < 0.05 else b"\n"]
        )
        if random.random() < 0.1:
            text += random.choice(
                [b"\n", b" \t\n", b"\r\n", comment + b"\n", b" " + comment + b" \xff\0 p max\r\n"]
            )
    return text


def text_of(lines: Lines, random: Random, comment: bytes, fault_share: float) -> bytes:
    """The text of lines. This share of the texts is changed somewhere, which may be a fault."""
    is_changed = random.random() < fault_share
    if is_changed:
        for _ in range(random.choice([0, 1, 1, 2])):
            lines = with_fault(lines, random)
    text = plain_text(lines) if random.random() < 0.5 else loose_text(lines, random, comment)
    if random.random() < 0.1:
        text = text.removesuffix(b"\n")
    if is_changed and random.random() < 0.3:
        place = random.randint(0, len(text))
        text = random.choice(
            [
                text[:place],
                text[:place] + random.choice(ODD_BYTES) + text[place:],
                text[:place] + text[place + 1 :],
            ]
        )
    return text
