"""Makes books, scripts, damaged images and malformed lines from a random number generator that the caller has seeded."""

from layout import DAY, MOST_PLACES, Quay, Sailing, Series, numbers

CHANGES = (0, 0, 1, 5, 5, 10, 25, 30, 45, 120, 719, 1439)
LENGTHS = (0, 1, 5, 10, 15, 20, 30, 35, 45, 60, 90, 240, 720, 1380, 1438, 1439)
# what a two-byte field is overwritten with: the limits of fields, and their neighbours
BOUNDS = (0, 1, 2, 3, 4, 5, 13, 14, 15, 17, 18, 19, 31, 32, 126, 127, 128, 255, 256, 257, 511, 512, 513)
BOUNDS += (1438, 1439, 1440, 1441, 3071, 3072, 3073, 32767, 32768, 65534, 65535)
LONG_NUMBERS = (b"65535", b"65536", b"65537", b"70000", b"99999", b"100000", b"000001", b"131072", b"4294967296")
LONG_NUMBERS += (b"18446744073709551616", b"9" * 40, b"0" * 62, b"0" * 63)
ODD_BYTES = b"\0\xff\x80\t\r\x0b\x1b -+.,0123456789wrstoqdWRSTOQDE/:\x7f"


def other(rng, quays, quay):
    """A quay that is not this one."""
    found = rng.randrange(quays - 1)
    return found + (found >= quay)


def minute(rng):
    """Mostly round minutes, so that many are equal and many fit a change to the minute."""
    return rng.choice((rng.randrange(0, DAY, 30), rng.randrange(0, DAY, 5), rng.randrange(DAY), 0, DAY - 1))


def make_quays(rng, count):
    name = lambda: bytes(rng.choice(b"abcXYZ .-#~!09") for _ in range(rng.randrange(11)))
    few = rng.choice((1, 3, len(CHANGES)))
    palette = rng.sample(CHANGES, few)
    return [Quay(rng.choice(palette), name().strip(b" ")) for _ in range(count)]


def barge(rng, quays, run, legs):
    """A run that sails from quay to quay, waits a little at each, and may turn back."""
    found = []
    here, now = rng.randrange(quays), minute(rng)
    before = None
    for leg in range(legs):
        back = before is not None and rng.random() < 0.3
        there = before if back else other(rng, quays, here)
        length = rng.choice(LENGTHS[:10])
        found.append(Sailing(run, leg, here, there, now, (now + length) % DAY))
        now = (now + length + rng.choice((0, 0, 1, 5, 30))) % DAY
        before, here = here, there
    return found


def make_sailings(rng, quays, most):
    """Barges, single sailings and near copies of sailings, by the quay that they leave."""
    found = []
    runs = [rng.choice((rng.randrange(12), rng.randrange(65536), 65535)) for _ in range(6)]
    first_leg = rng.choice((0, 0, 0, 65530))
    while len(found) < most:
        choice = rng.random()
        if choice < 0.5:
            legs = barge(rng, quays, rng.choice(runs), rng.randrange(1, 6))
            found += [s._replace(leg=s.leg + first_leg) for s in legs]
        elif choice < 0.7 or not found:
            start, dep = rng.randrange(quays), minute(rng)
            arr = (dep + rng.choice(LENGTHS)) % DAY
            found.append(Sailing(rng.choice(runs), rng.randrange(3), start, other(rng, quays, start), dep, arr))
        else:
            like = rng.choice(found)
            dep = (like.dep + rng.choice((-30, -5, -1, 0, 0, 1, 5, 30))) % DAY
            arr = (like.arr + rng.choice((-30, -5, -1, 0, 0, 1, 5, 30))) % DAY
            found.append(like._replace(run=rng.choice(runs + [like.run]), dep=dep, arr=arr))
    found = found[:most]
    rng.shuffle(found)
    return sorted(found, key=lambda s: s.start)


def make_series(rng, quays, most, places):
    """Series that go on with one another's barges where they can, by the quay that they leave."""
    found = []
    taken = 0
    for _ in range(most):
        start = rng.randrange(quays)
        first, period = minute(rng), rng.choice((1, 5, 15, 30, 60, 90, 700, 1439, rng.randrange(1, DAY)))
        count = min(1 + (DAY - 1 - first) // period, rng.choice((1, 2, 5, 20, 1440)), places - taken)
        if count < 1:
            break
        run = rng.choice((rng.randrange(40), rng.randrange(65536 - count + 1), 65536 - count))
        series = Series(run, rng.randrange(3), start, other(rng, quays, start), first, period, count, rng.choice(LENGTHS))
        if found and rng.random() < 0.5:
            like = rng.choice(found)
            first = like.first + like.length + rng.choice((0, 1, 5, 30))
            onward = other(rng, quays, like.end)
            if first + (like.count - 1) * like.period < DAY and taken + like.count <= places:
                series = like._replace(leg=like.leg + 1, start=like.end, end=onward, first=first)
        found.append(series)
        taken += series.count
    return sorted(found, key=lambda s: s.start)


def make_book(rng, most_quays=8, most_entries=40):
    """Quays and entries: sailings, or series."""
    quays = rng.randint(1, most_quays)
    if quays == 1 or rng.random() < 0.05:
        entries = []
    elif rng.random() < 0.5:
        entries = make_series(rng, quays, rng.randint(1, most_entries // 4), most_entries * 2)
    else:
        entries = make_sailings(rng, quays, rng.randint(1, most_entries))
    return make_quays(rng, quays), entries


def spoilt(rng, good, bad):
    """Nearly always a good number."""
    return good if rng.random() < 0.96 else rng.choice(bad)


def make_command(rng, book):
    """A well typed command that mostly fits the book."""
    quays = len(book.changes)
    runs = [s.run for s in book.places] or [0]
    quay = lambda: spoilt(rng, rng.randrange(quays), (quays, 256, 65535))
    when = lambda: spoilt(rng, minute(rng), (1440, 1441, 65535))
    near = lambda: spoilt(rng, rng.choice(runs), (rng.randrange(65536), 0, 65535))
    letter = rng.choices("WRSOTQD", (14, 12, 6, 6, 10, 44, 8))[0]
    if letter in "WR":
        return f"{letter} {near()}"
    if letter in "SO":
        return f"{letter} {quay()}"
    if letter == "D":
        return f"D {quay()} {when()}"
    if letter == "Q":
        return f"Q {quay()} {quay()} {when()} {spoilt(rng, rng.randrange(8), (8, 9, 65535))}"
    return "T"


def make_script(rng, book, count):
    lines = []
    for _ in range(count):
        line = make_command(rng, book)
        lines.append(line)
        if line[0] == "T":  # routes right after a thinning, while its marks stand
            lines += [make_command(rng, book) for _ in range(3)]
        if line[0] in "WS" and rng.random() < 0.5:  # and most notices are taken back again
            lines.append({"W": "R", "S": "O"}[line[0]] + line[1:])
    return "\n".join(lines).encode() + b"\n"


def crowd_script(runs, quays):
    """As many notices as a board takes, and more."""
    lines = [f"W {run}" for run in range(runs, runs + 70)] + [f"S {quay}" for quay in range(quays)]
    lines += [f"R {run}" for run in range(runs + 60, runs + 70)] + [f"O {quay}" for quay in range(20, quays)]
    lines += [f"W {run}" for run in range(runs + 66, runs + 70)] + [f"S {quay}" for quay in range(30, quays)]
    return "\n".join(lines).encode() + b"\n"


def damage(rng, image):
    """The image with one to three kinds of damage; a few are no image from the start."""
    if rng.random() < 0.05:
        return rng.randbytes(rng.randrange(200))
    image = bytearray(image)
    for _ in range(rng.choice((1, 1, 1, 2, 3))):
        choice = rng.randrange(8)
        at = rng.randrange(len(image) or 1)
        if choice == 0 and image:
            image[at] ^= 1 << rng.randrange(8)
        elif choice == 1 and image:
            image[at] = rng.randrange(256)
        elif choice == 2:
            del image[at:]
        elif choice == 3:
            image += rng.choice((b"\0", b"\n", rng.randbytes(rng.randrange(1, 40)), image[-16:], image[-20:]))
        elif choice in (4, 5):
            field = 2 * rng.randrange(len(image) // 2 or 1)
            image[field : field + 2] = numbers(rng.choice(BOUNDS))
        elif choice == 6:
            size = rng.choice((1, 2, 4, 14, 16, 18, 20))
            image[at:at] = rng.choice((bytes(size), image[at - size : at], rng.randbytes(size)))
        else:
            start, there = 16 * rng.randrange(len(image) // 16 or 1), 16 * rng.randrange(len(image) // 16 or 1)
            record = image[start : start + 16]
            del image[start : start + 16]
            image[there:there] = record
    return bytes(image)


def malformed_line(rng, book):
    """A line that is mostly typed wrongly."""
    line = bytearray(make_command(rng, book).encode())
    choice = rng.randrange(10)
    at = rng.randrange(len(line) + 1)
    if choice == 0:
        line = bytearray(rng.randbytes(rng.choice((0, 1, 2, 5, 63, 64, 65, 66, 200))))
    elif choice == 1:
        line[at:at] = bytes([rng.choice(ODD_BYTES)])
    elif choice == 2:
        line[at : at + 1] = bytes([rng.choice(ODD_BYTES)])
    elif choice == 3:
        del line[at : at + rng.randrange(1, 4)]
    elif choice == 4:
        words = line.split(b" ")
        words[rng.randrange(len(words))] = rng.choice(LONG_NUMBERS)
        line = bytearray(b" ".join(words))
    elif choice == 5:
        line = bytearray(b" ".join(line.split(b" ")[:-1]))
    elif choice == 6:
        line += rng.choice((b" ", b" 0", b"\r", b"\0", b"\xff", b"x", b" 1 2 3 4 5"))
    elif choice == 7:
        line += rng.choice((b" ", b"0", b"x", b"\0")) * (rng.choice((63, 64, 65, 66)) - len(line))
    elif choice == 8:
        line[0:1] = bytes([rng.choice(ODD_BYTES)])
    else:
        line += rng.choice((b" ", b"7", b"\xff", b"\0")) * rng.choice((70, 300, 4095, 4096, 4097, 9000))
    return bytes(line).replace(b"\n", b"\x0b")


def malformed_script(rng, book):
    """Malformed lines, and between them routes and a run withheld twice: a changed board would be seen."""
    probe = lambda: make_command(rng, book).encode()
    lines = [probe() for _ in range(rng.randrange(3))]
    for _ in range(rng.randrange(2, 8)):
        lines.append(malformed_line(rng, book))
        if rng.random() < 0.5:
            lines.append(probe())
    run = rng.choice([s.run for s in book.places] or [7])
    lines += [b"W %d" % run, malformed_line(rng, book), b"W %d" % run, b"R %d" % run, probe()]
    if rng.random() < 0.3:
        lines.append(malformed_line(rng, book))
    return b"\n".join(lines) + rng.choice((b"\n", b"\n", b"", b"\n\n"))


def large_timetable():
    """64 quays around a basin and 1,536 sailings by 96 barges of 16 legs, by a formula: the same on every machine."""
    quays = [Quay((7 * q) % 41, b"Quay %d" % q) for q in range(64)]
    sailings = []
    for run in range(96):
        here, now, step = (37 * run) % 64, (53 * run) % DAY, (1, 63, 3, 61, 17)[run % 5]
        for leg in range(16):
            if run % 7 == 3 and leg == 8:  # a turn-back
                step = 64 - step
            there, minutes = (here + step) % 64, 11 + (run * 13 + leg * 29) % 67
            sailings.append(Sailing(run, leg, here, there, now, (now + minutes) % DAY))
            now, here = (now + minutes + 4 + (run + leg) % 9) % DAY, there
    return quays, sorted(sailings, key=lambda s: s.start)


def full_printed(rng):
    """The largest printed book."""
    return make_quays(rng, 256), make_sailings(rng, 256, MOST_PLACES)


def full_clock_face(rng):
    """A clock-face book of 3,072 places, with as many series as can be had."""
    quays = 256
    entries = []
    for number in range(512):
        start, first = number // 2, rng.randrange(0, 300)
        entries.append(Series(rng.randrange(600), number % 3, start, other(rng, quays, start), first, rng.randrange(1, 200), 6, rng.choice(LENGTHS)))
    return make_quays(rng, quays), entries
