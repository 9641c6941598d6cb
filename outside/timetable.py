"""Timetables as plain text: what bindbook must bind and print for a right one, and the text of given quays and sailings.

See docs/PROGRAMS.md. Right timetables only: bindbook's refusals are not modelled here."""

from layout import Quay, Sailing, write_image


def minute(time):
    hours, minutes = time.split(b":")
    return 60 * int(hours) + int(minutes)


def time(minute_of_day):
    return f"{minute_of_day // 60:02}:{minute_of_day % 60:02}"


def read_text(text):
    quays, sailings = [], []
    for line in text.replace(b"\r\n", b"\n").split(b"\n"):
        words = line.split(b" ", 2)
        if words[0] == b"quay":
            quays.append(Quay(int(words[1]), words[2] if len(words) == 3 else b""))
        elif words[0] == b"sailing":
            run, leg, start, end, dep, arr = line.split(b" ")[1:]
            sailings.append(Sailing(int(run), int(leg), int(start), int(end), minute(dep), minute(arr)))
    return quays, sailings


def write_text(quays, sailings):
    lines = [b"quay %d %s" % (quay.change, quay.name) if quay.name else b"quay %d" % quay.change for quay in quays]
    for s in sailings:
        lines.append(f"sailing {s.run} {s.leg} {s.start} {s.end} {time(s.dep)} {time(s.arr)}".encode())
    return b"\n".join(lines) + b"\n"


def listing(quays, sailings):
    """What bindbook prints of a book that it has bound."""
    image = write_image(quays, sailings)
    lines = [f"bound {len(quays)} quays and {len(sailings)} sailings into book.img: {len(image)} bytes"]
    for number, quay in enumerate(quays):
        name = quay.name.rstrip(b" ").decode("latin-1")
        lines.append(f'quay {number}: "{name}", change {quay.change}')
    for place, s in enumerate(sailings):
        minutes = (s.arr - s.dep) % 1440
        lines.append(
            f"place {place}: run {s.run}, leg {s.leg}, quay {s.start} to {s.end}, "
            f"{time(s.dep)} to {time(s.arr)}, {minutes} minutes"
        )
    return "\n".join(lines).encode("latin-1") + b"\n"
