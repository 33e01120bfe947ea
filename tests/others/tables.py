"""Tables to write, and the files that the library makes of them."""

import random
import struct
import subprocess

ALPHABET = 'ab ,"\r\n;'
PLAIN, FULL = 0, 1


def contents(longest):
    """Every content of up to so many bytes of the alphabet."""
    found = level = [""]
    for _ in range(longest):
        level = [content + byte for content in level for byte in ALPHABET]
        found = found + level
    return found


def small_tables():
    """Every table of one or two fields of short contents, in a row and in a column."""
    for content in contents(3):
        yield [[content]]
    for first in contents(1):
        for second in contents(2):
            yield [[first, second]]
            yield [[first], [second]]


def random_tables(count, seed):
    chance = random.Random(seed)
    for _ in range(count):
        width = chance.randint(1, 5)
        longest = chance.choice([0, 1, 3, 12])
        yield [
            ["".join(chance.choice(ALPHABET) for _ in range(chance.randint(0, longest))) for _ in range(width)]
            for _ in range(chance.randint(0, 6))
        ]


def tables():
    yield from small_tables()
    yield from random_tables(4000, 4180)


def in_memory(table):
    """A table as text, ends and rows."""
    text, ends, rows = b"", [], []
    for record in table:
        for content in record:
            text += content.encode("ascii")
            ends.append(len(text))
        rows.append(len(ends))
    return text, ends, rows


def request(table, mode):
    text, ends, rows = in_memory(table)
    numbers = struct.pack("<4I", len(text), len(ends), len(rows), mode)
    return numbers + text + struct.pack(f"<{len(ends)}I", *ends) + struct.pack(f"<{len(rows)}I", *rows)


def written(command, wanted):
    """The files of tables, each with its mode, in order: text, with line breaks as they are."""
    asked = b"".join(request(table, mode) for table, mode in wanted)
    answers = subprocess.run(command, input=asked, stdout=subprocess.PIPE, check=True).stdout
    at = 0
    files = []
    for table, _ in wanted:
        refusal, length = struct.unpack_from("<2I", answers, at)
        if refusal != 0:
            raise SystemExit(f"the library refuses {table!r} by {refusal}")
        files.append(answers[at + 8 : at + 8 + length].decode("ascii"))
        at += 8 + length
    if at != len(answers):
        raise SystemExit("the library answers more than it was asked")
    return files


def has_blank_line(table, mode):
    """A record of one empty field is written, plain, as a blank line."""
    return mode == PLAIN and [""] in table
