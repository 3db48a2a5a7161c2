#!/usr/bin/env python3
"""Writes the stored layouts of the program trials, from its stored sheets.

A record has the length of a sheet and of a text in 32 bits each, the sheet, and the text: the sheet without gaps, or the
line of a refused sheet. Each stored sheet is there as it stands. Each accepted one comes twice more: without gaps, and with
some gaps and bytes behind the last item; some come with all of 16,384 bytes too. The text is worked here from the pairs alone.
"""

import pathlib
import random
import struct

DATA = pathlib.Path(__file__).parent.parent / "crates" / "trials" / "data"
SHEET_BYTES = 16_384
# One in so many sheets has all of its bytes.
WHOLE = 20


def records(content):
    """The sheets of a file with the text of each."""
    place = 0
    while place < len(content):
        sheet_size, text_size = struct.unpack_from("<II", content, place)
        place += 8
        yield content[place : place + sheet_size], content[place + sheet_size : place + sheet_size + text_size]
        place += sheet_size + text_size


def items(sheet):
    """The items of a sound sheet."""
    (count,) = struct.unpack_from("<H", sheet)
    pairs = (struct.unpack_from("<HH", sheet, 2 + 4 * i) for i in range(count))
    return [sheet[start : start + size] for start, size in pairs]


def laid_out(parts, gaps):
    """The sheet of some items, so many other bytes before each and behind the last."""
    place = 2 + 4 * len(parts)
    pairs, body = b"", b""
    for part, gap in zip(parts, gaps):
        pairs += struct.pack("<HH", place + gap, len(part))
        body += random.randbytes(gap) + part
        place += gap + len(part)
    return struct.pack("<H", len(parts)) + pairs + body + random.randbytes(gaps[-1])


def spread(parts):
    """Gaps that make the sheet as long as a sheet may be."""
    free = SHEET_BYTES - len(laid_out(parts, [0] * (len(parts) + 1)))
    cuts = sorted(random.randrange(free + 1) for _ in parts)
    return [end - start for start, end in zip([0] + cuts, cuts + [free])]


def layouts(number, sheet, text):
    """A stored sheet and its further layouts, each with its text."""
    if text.startswith(b"REFUSED"):
        return [(sheet, text)]
    parts = items(sheet)
    small = [random.choice((0, 0, 1, 2, 3, 40)) for _ in range(len(parts) + 1)]
    close = laid_out(parts, [0] * (len(parts) + 1))
    given = [sheet, close, laid_out(parts, small)]
    if number % WHOLE == 0:
        given.append(laid_out(parts, spread(parts)))
    return [(layout, close) for layout in given]


random.seed(10)
written = b""
for number, record in enumerate(records((DATA / "A9.bin").read_bytes())):
    for given, close in layouts(number, *record):
        written += struct.pack("<II", len(given), len(close)) + given + close
(DATA / "layouts.bin").write_bytes(written)
