"""The bytes of a book: read, judged and written as docs/IMAGE.md says. Shares nothing with the Rattle crates."""

from collections import namedtuple

Sailing = namedtuple("Sailing", "run leg start end dep arr")
Series = namedtuple("Series", "run leg start end first period count length")
Quay = namedtuple("Quay", "change name")

# What a book means: the change time of each quay, and a row of sailings by place.
Book = namedtuple("Book", "changes places")

DAY = 1440
MOST_QUAYS = 256
MOST_PLACES = 3072
MOST_SERIES = 512
MOST_RUN = 65535
PRINTED = 1
CLOCK_FACE = 2
QUAY = 3
SAILING = 4
SERIES = 5


class Fault(Exception):
    """The first wrong byte of an image: a refusal's number, and the byte."""

    def __init__(self, number, byte):
        super().__init__(number, byte)
        self.number = number
        self.byte = byte


def two(image, at):
    return image[at] + 256 * image[at + 1]


def expect(holds, number, byte):
    if not holds:
        raise Fault(number, byte)


def read_start(image, at, size, kinds):
    """The record due at `at`: whole, of this length and of one of these kinds."""
    expect(len(image) - at >= size, 1, at)
    expect(two(image, at) == size - 2, 2, at)
    expect(two(image, at + 2) in kinds, 2, at + 2)


def read_heading(image):
    read_start(image, 0, 16, (PRINTED, CLOCK_FACE))
    kind, quays, entries = (two(image, at) for at in (2, 4, 6))
    expect(1 <= quays <= MOST_QUAYS, 3, 4)
    expect(entries <= (MOST_SERIES if kind == CLOCK_FACE else MOST_PLACES), 3, 6)
    for at in range(8, 16):
        expect(image[at] == 0, 3, at)
    return kind, quays, entries


def read_quay(image, at):
    read_start(image, at, 16, (QUAY,))
    expect(two(image, at + 4) < DAY, 3, at + 4)
    for letter in range(at + 6, at + 16):
        expect(32 <= image[letter] <= 126, 3, letter)
    return Quay(two(image, at + 4), bytes(image[at + 6 : at + 16]))


def read_ends(image, at, quays, least):
    """The quays `from` and `to` of an entry; no entry leaves a quay below that of the entry before, `least`."""
    start, end = two(image, at + 8), two(image, at + 10)
    expect(start < quays, 3, at + 8)
    expect(start >= least, 4, at + 8)
    expect(end < quays and end != start, 3, at + 10)
    return start, end


def read_sailing(image, at, quays, least):
    read_start(image, at, 16, (SAILING,))
    start, end = read_ends(image, at, quays, least)
    for field in (12, 14):
        expect(two(image, at + field) < DAY, 3, at + field)
    return Sailing(two(image, at + 4), two(image, at + 6), start, end, two(image, at + 12), two(image, at + 14))


def read_series(image, at, quays, least, taken):
    """A series; the series before it have taken `taken` places."""
    read_start(image, at, 20, (SERIES,))
    start, end = read_ends(image, at, quays, least)
    run, leg, first, period, count, length = (two(image, at + field) for field in (4, 6, 12, 14, 16, 18))
    expect(first < DAY, 3, at + 12)
    expect(1 <= period < DAY, 3, at + 14)
    expect(1 <= count <= DAY, 3, at + 16)
    last = count - 1
    expect(first + last * period < DAY and run + last <= MOST_RUN and taken + count <= MOST_PLACES, 6, at + 16)
    expect(length < DAY, 3, at + 18)
    return Series(run, leg, start, end, first, period, count, length)


def members(series):
    for k in range(series.count):
        dep = series.first + k * series.period
        yield Sailing(series.run + k, series.leg, series.start, series.end, dep, (dep + series.length) % DAY)


def read_image(image):
    """The book that an image means, or its fault."""
    kind, quays, entries = read_heading(image)
    at = 16
    changes = []
    for _ in range(quays):
        changes.append(read_quay(image, at).change)
        at += 16
    places = []
    least = 0
    for _ in range(entries):
        if kind == PRINTED:
            entry = read_sailing(image, at, quays, least)
            places.append(entry)
            at += 16
        else:
            entry = read_series(image, at, quays, least, len(places))
            places.extend(members(entry))
            at += 20
        least = entry.start
    expect(at == len(image), 5, at)
    return Book(changes, places)


def numbers(*values):
    return b"".join(value.to_bytes(2, "little") for value in values)


def write_image(quays, entries):
    """The image of these quays and entries: sailings, or series. Judges nothing."""
    kind = CLOCK_FACE if entries and isinstance(entries[0], Series) else PRINTED
    image = [numbers(14, kind, len(quays), len(entries)), bytes(8)]
    for quay in quays:
        image += [numbers(14, QUAY, quay.change), quay.name.ljust(10)]
    for entry in entries:
        image.append(numbers(14, SAILING, *entry) if kind == PRINTED else numbers(18, SERIES, *entry))
    return b"".join(image)
