"""PNG with a palette (ISO/IEC 15948): a page of text has few colours, so its picture becomes small.
Reads what Chromium writes: eight bits a channel, not interlaced."""
import struct
import zlib
from collections import Counter
from typing import Dict, Iterator, List, Tuple

from bbeq_tools.cli import Fault

SIGNATURE = b"\x89PNG\r\n\x1a\n"
COLOURS, APART = 16, 26  # Of a palette, and how far its colours are apart at least.
CHANNELS = {2: 3, 6: 4}  # Of colour types with and without alpha.


def chunks(data: bytes) -> Iterator[Tuple[bytes, bytes]]:
    place = len(SIGNATURE)
    while place + 12 <= len(data):
        length, = struct.unpack(">I", data[place:place + 4])
        yield data[place + 4:place + 8], data[place + 8:place + 8 + length]
        place += length + 12


def chunk(kind: bytes, body: bytes) -> bytes:
    return (struct.pack(">I", len(body)) + kind + body
            + struct.pack(">I", zlib.crc32(kind + body)))


def paeth(left: int, above: int, corner: int) -> int:
    guess = left + above - corner
    to_left, to_above, to_corner = abs(guess - left), abs(guess - above), abs(guess - corner)
    if to_left <= to_above and to_left <= to_corner:
        return left
    return above if to_above <= to_corner else corner


def unfiltered(kind: int, line: bytearray, above: bytes, size: int) -> None:
    """Undoes the filter of a line in its place; `size` is the bytes of a pixel."""
    if kind == 1:
        for at in range(size, len(line)):
            line[at] = line[at] + line[at - size] & 255
    elif kind == 2:
        line[:] = bytes(map(lambda pair: sum(pair) & 255, zip(line, above)))
    elif kind == 3:
        for at in range(len(line)):
            left = line[at - size] if at >= size else 0
            line[at] = line[at] + (left + above[at] >> 1) & 255
    elif kind == 4:
        for at in range(len(line)):
            left, corner = (line[at - size], above[at - size]) if at >= size else (0, 0)
            line[at] = line[at] + paeth(left, above[at], corner) & 255


def pixels(data: bytes) -> Tuple[int, int, List[bytes]]:
    """The width, the height, and the pixels of each line as bytes of red, green and blue."""
    parts = list(chunks(data))
    if data[:8] != SIGNATURE or not parts:
        raise Fault("the picture is no PNG")
    width, height, depth, kind, _, _, interlaced = struct.unpack(">IIBBBBB", parts[0][1])
    if depth != 8 or kind not in CHANNELS or interlaced:
        raise Fault("the picture is a PNG of another kind")
    size, raw = CHANNELS[kind], zlib.decompress(b"".join(body for name, body in parts
                                                         if name == b"IDAT"))
    lines, above, step = [], bytes(width * size), width * size + 1
    for row in range(height):
        line = bytearray(raw[row * step + 1:(row + 1) * step])
        unfiltered(raw[row * step], line, above, size)
        above = bytes(line)
        if size == 4:
            del line[3::4]
        lines.append(bytes(line))
    return width, height, lines


def palette_of(counts: "Counter[bytes]") -> Tuple[List[bytes], Dict[bytes, int]]:
    """The most frequent colours that are not much alike, and for each colour the nearest of
    them."""
    palette: List[bytes] = []
    for colour in sorted(counts, key=lambda colour: -weight(colour, counts[colour])):
        if len(palette) < COLOURS and all(distance(colour, other) > APART ** 2
                                          for other in palette):
            palette.append(colour)
    return palette, {colour: nearest(colour, palette) for colour in counts}


def weight(colour: bytes, count: int) -> int:
    """Colours that are no greys count for more."""
    return count * (4 + max(colour) - min(colour))


def nearest(colour: bytes, palette: List[bytes]) -> int:
    return min(range(len(palette)), key=lambda at: distance(colour, palette[at]))


def distance(left: bytes, right: bytes) -> int:
    return sum((one - other) ** 2 for one, other in zip(left, right))


def packed(line: List[int]) -> bytes:
    """Two pixels a byte."""
    line = line + [0] * (len(line) % 2)
    return bytes(left << 4 | right for left, right in zip(line[::2], line[1::2]))


def with_palette(data: bytes) -> bytes:
    """The picture with at most so many colours."""
    width, height, lines = pixels(data)
    triples = [[line[at:at + 3] for at in range(0, 3 * width, 3)] for line in lines]
    counts: "Counter[bytes]" = Counter()
    for line in triples:
        counts.update(line)
    palette, place = palette_of(counts)
    raw = b"".join(b"\0" + packed([place[colour] for colour in line]) for line in triples)
    header = struct.pack(">IIBBBBB", width, height, 4, 3, 0, 0, 0)
    return (SIGNATURE + chunk(b"IHDR", header) + chunk(b"PLTE", b"".join(palette))
            + chunk(b"IDAT", zlib.compress(raw, 9)) + chunk(b"IEND", b""))
