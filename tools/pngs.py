"""Pictures that a browser took, with few colours, so that they are small enough to be stored."""
import collections
import struct
import zlib

SIGNATURE = b"\x89PNG\r\n\x1a\n"
COLOURS = 256


def chunks(data):
    """The kinds and bytes of the parts of a PNG."""
    at = len(SIGNATURE)
    while at < len(data):
        length, kind = struct.unpack_from(">I4s", data, at)
        yield kind, data[at + 8 : at + 8 + length]
        at += length + 12


def chunk(kind, data):
    return struct.pack(">I", len(data)) + kind + data + struct.pack(">I", zlib.crc32(kind + data))


def nearest(left, up, corner):
    """Which of three bytes the sum of two without the third is nearest to."""
    to = left + up - corner
    return min((left, up, corner), key=lambda it: abs(to - it))


def unfiltered(row, before, kind, size):
    """The bytes of a row, which stand there as differences to bytes before them."""
    row = bytearray(row)
    for k in range(len(row)):
        left, corner = (row[k - size], before[k - size]) if k >= size else (0, 0)
        add = (0, left, before[k], (left + before[k]) // 2, 0)[kind]
        row[k] = row[k] + (nearest(left, before[k], corner) if kind == 4 else add) & 255
    return row


def rows_of(data):
    """The rows of a PNG with 8 bits for each of three colours, and perhaps for how it covers."""
    parts = list(chunks(data))
    width, height, depth, kind, _, _, woven = struct.unpack(">IIBBBBB", parts[0][1])
    if depth != 8 or kind not in (2, 6) or woven:
        raise ValueError("another kind of PNG was wanted")
    size = 3 if kind == 2 else 4
    whole = zlib.decompress(b"".join(part for name, part in parts if name == b"IDAT"))
    long, before = width * size + 1, bytes(width * size)
    for at in range(0, long * height, long):
        before = unfiltered(whole[at + 1 : at + long], before, whole[at], size)
        yield [tuple(before[k : k + 3]) for k in range(0, len(before), size)]


def distance(one, other):
    return sum((a - b) ** 2 for a, b in zip(one, other))


def chosen(colours):
    """At most so many of these colours, those that come first; none is far from all of them."""
    apart = 1
    while True:
        found = []
        for colour in colours:
            if all(distance(colour, it) >= apart for it in found):
                found.append(colour)
            if len(found) > COLOURS:
                break
        else:
            return found
        apart *= 2


def reduced(data: bytes) -> bytes:
    """The picture with few of its colours, in the place of each the nearest of them."""
    rows = list(rows_of(data))
    counts = collections.Counter(colour for row in rows for colour in row)
    palette = chosen([colour for colour, _ in counts.most_common()])
    places = {colour: place for place, colour in enumerate(palette)}
    for colour in counts.keys() - places.keys():
        places[colour] = min(range(len(palette)), key=lambda it: distance(palette[it], colour))
    body = b"".join(b"\0" + bytes(places[colour] for colour in row) for row in rows)
    head = struct.pack(">IIBBBBB", len(rows[0]), len(rows), 8, 3, 0, 0, 0)
    table = b"".join(map(bytes, palette))
    made = (b"IHDR", head), (b"PLTE", table), (b"IDAT", zlib.compress(body, 9)), (b"IEND", b"")
    return SIGNATURE + b"".join(chunk(*it) for it in made)
