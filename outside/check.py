"""The check of the two programs from outside: stored cases, random books, damaged images, malformed scripts.

    check.py BINARIES DIRECTORY              all of it; BINARIES has bindbook and canalroute, DIRECTORY is for the runs
    check.py BINARIES DIRECTORY GROUP N      one case of a group again, with what was asked and answered

Every case is made from its group's name and its number alone, so it is the same on every machine."""

import multiprocessing
import os
import random
import sys
import time
from collections import Counter

import makers
import planted
import timetable
from judge import LISTS, Wrong, judge
from layout import Fault, Series, read_image, write_image
from runner import Broken, Runner

HERE = os.path.dirname(os.path.abspath(__file__))
WORKERS = 2
CHUNK = 50
PLANTED_RUNS = 400
# every answer that canalroute has for a line, and every refusal of an image
ANSWERS = ["K", "T", "N", "A", "L"] + ["D"] * LISTS + [f"E {number}" for number in (11, 12, 14, *range(31, 37), *range(51, 55))]
IMAGE_ANSWERS = [f"E {number} byte" for number in range(1, 7)]
LEAST_SEEN = 25


def content(*path):
    with open(os.path.join(HERE, *path), "rb") as file:
        return file.read()


def kind_of(line):
    """What sort of answer a line is: its letter, and for a refusal its number."""
    words = line.split(" ")
    if words[0] != "E":
        return words[0]
    return " ".join(words[:2]) + (" byte" if len(words) == 3 else "")


class Bench:
    """The programs, and a directory to run them in."""

    def __init__(self, binaries, directory):
        self.bindbook = os.path.join(binaries, "bindbook")
        self.canalroute = os.path.join(binaries, "canalroute")
        self.runner = Runner(directory)
        self.seen = Counter()

    def bind(self, quays, sailings, text=None):
        """The image that bindbook writes, which must be the one that the layout says."""
        text = timetable.write_text(quays, sailings) if text is None else text
        told = self.runner.run(self.bindbook, text)
        image = write_image(quays, sailings)
        self.runner.image = image
        if self.runner.get("book.img") != image:
            raise Wrong("bindbook: book.img is not the image of the timetable")
        if told != timetable.listing(quays, sailings):
            raise Wrong("bindbook: what is printed is not what the timetable says")
        return image

    def image(self, quays, entries):
        """The image of a book: printed ones are bound, clock-face ones are written here."""
        if entries and isinstance(entries[0], Series):
            return write_image(quays, entries)
        return self.bind(quays, entries)

    def judged(self, image, commands):
        output = self.runner.answer(self.canalroute, image, commands)
        judge(image, commands, output)
        self.seen.update(kind_of(line) for line in output.decode().splitlines())
        return output


def without_choice(answers):
    """Answers without what is open: which of several equally early journeys is told."""
    lines = [line for line in answers.split(b"\n") if not line.startswith(b"L ")]
    return [line.split(b" ")[:2] if line.startswith(b"A ") else line for line in lines]


def stored_case(bench, name):
    if name == "large":
        quays, sailings = makers.large_timetable()
        text = timetable.write_text(quays, sailings)
    else:
        text = content("cases", name, "timetable")
        quays, sailings = timetable.read_text(text)
    image = bench.bind(quays, sailings, text)
    commands, answers = content("cases", name, "commands"), content("cases", name, "answers")
    output = bench.judged(image, commands)
    judge(image, commands, answers)
    if without_choice(output) != without_choice(answers):
        raise Wrong("the answers are not the stored ones")
    return len(commands.splitlines())


def book_case(bench, number):
    """A random book under random commands. Some are of the largest size, some see more notices than a board takes."""
    rng = random.Random(f"book {number}")
    if number < 2:
        quays, entries = (makers.full_printed, makers.full_clock_face)[number](rng)
        count = 12
    elif number < 8:
        quays, entries = makers.make_quays(rng, 40), makers.make_sailings(rng, 40, 400)
        count = 30
    else:
        quays, entries = makers.make_book(rng)
        count = 30
    image = bench.image(quays, entries)
    book = read_image(image)
    commands = makers.make_script(rng, book, count)
    if 2 <= number < 8:
        commands += makers.crowd_script(rng.randrange(65466), 40) + makers.make_script(rng, book, count)
    bench.judged(image, commands)
    return commands.count(b"\n")


def some_image(rng):
    quays, entries = makers.make_book(rng, rng.choice((2, 4, 8)), rng.choice((4, 12, 40)))
    return write_image(quays, entries)


def damaged_case(bench, number):
    """A damaged image: refused at the byte that the layout says, or else answered as the book that it still is."""
    rng = random.Random(f"damaged {number}")
    image = makers.damage(rng, some_image(rng))
    try:
        commands = makers.make_script(rng, read_image(image), 4)
        allowed = 1
    except Fault:
        commands = b"Q 0 1 0 0\nT\nW 1\n"
        allowed = 0
    bench.judged(image, commands)
    return allowed


def malformed_case(bench, number):
    """Malformed lines and probes of the board; the books change only now and then."""
    image = some_image(random.Random(f"malformed book {number // CHUNK}"))
    rng = random.Random(f"malformed {number}")
    commands = makers.malformed_script(rng, read_image(image))
    bench.judged(image, commands)
    return commands.count(b"\n")


def planted_input(attempt):
    """An image and commands of each sort in turn: random ones mostly, damaged, malformed, crowded."""
    rng = random.Random(f"planted {attempt}")
    if attempt % 2 == 0:
        image = write_image(*makers.make_book(rng))
        return image, makers.make_script(rng, read_image(image), 30)
    image = some_image(rng)
    if attempt % 6 == 1:
        return makers.damage(rng, image), b"T\n"
    if attempt % 6 == 3:
        return image, makers.malformed_script(rng, read_image(image))
    return image, makers.crowd_script(0, len(read_image(image).changes))


def planted_case(bench, number):
    """A fault in the answers, which the judge must see in one of the first runs at least."""
    name, fault = sorted(planted.FAULTS.items())[number]
    for attempt in range(PLANTED_RUNS):
        image, commands = planted_input(attempt)
        output = bench.judged(image, commands)
        try:
            judge(image, commands, fault(image, commands, output))
        except Wrong:
            return attempt + 1
    raise Wrong(f"the judge does not notice: {name}")


def stand_in_case(bench, number):
    """The stand-in of planted.py without a flaw, which the judge must accept: what it refuses are the flaws."""
    image, commands = planted_input(number)
    judge(image, commands, planted.StandIn(set()).printed(image, commands))
    return commands.count(b"\n")


# by name: how a case is run, how many there are, and what the sum of their answers counts
GROUPS = {
    "book": (book_case, 400, "commands"),
    "damaged": (damaged_case, 10000, "images still allowed"),
    "malformed": (malformed_case, 10000, "lines"),
    "stand-in": (stand_in_case, PLANTED_RUNS, "lines"),
    "planted": (planted_case, len(planted.FAULTS), "runs"),
}


def attempt(case, bench, argument):
    """The count of a case, and what is wrong with it, if anything."""
    try:
        return case(bench, argument), None
    except (Wrong, Broken) as wrong:
        return 0, f"{argument}: {wrong}"


def start_worker(binaries, directory):
    global bench
    bench = Bench(binaries, os.path.join(directory, str(os.getpid())))


def run_chunk(task):
    group, start, end = task
    bench.seen.clear()
    return [attempt(GROUPS[group][0], bench, number) for number in range(start, end)], Counter(bench.seen)


def stored_cases(bench):
    names = sorted(name for name in os.listdir(os.path.join(HERE, "cases")) if LISTS or "departures" not in name)
    return [attempt(stored_case, bench, name) for name in names]


def coverage(seen):
    """Whether the cases led to every sort of answer often enough."""
    due = ANSWERS + IMAGE_ANSWERS
    return [(seen[kind], None if seen[kind] >= LEAST_SEEN else f"{kind}: seen {seen[kind]} times") for kind in due]


def report(group, results, noun, since):
    wrong = [message for _, message in results if message is not None]
    for message in wrong[:5]:
        print(f"outside: {group} {message}")
    passed, failed = len(results) - len(wrong), len(wrong)
    counted = f"{sum(count for count, _ in results)} {noun}, {time.time() - since:.0f} s"
    print(f"outside: {group}: {passed} passed, {failed} failed ({counted})", flush=True)
    return passed, failed


def main(binaries, directory):
    began = time.time()
    home = os.path.join(directory, "main")
    counts = [report("stored", stored_cases(Bench(binaries, home)), "commands", began)]
    seen = Counter()
    with multiprocessing.Pool(WORKERS, start_worker, (binaries, directory)) as pool:
        for group, (_, cases, noun) in GROUPS.items():
            since = time.time()
            size = min(CHUNK, 1 + cases // 40)
            results = []
            for chunk, told in pool.imap(run_chunk, [(group, at, min(at + size, cases)) for at in range(0, cases, size)]):
                results += chunk
                seen += told
            counts.append(report(group, results, noun, since))
    counts.append(report("answers seen", coverage(seen), "lines", time.time()))
    passed, failed = (sum(column) for column in zip(*counts))
    print(f"outside: {passed} passed, {failed} failed ({time.time() - began:.0f} s)")
    return failed == 0


def again(binaries, directory, group, number):
    """One case once more; leaves its files in the directory, and shows them."""
    bench = Bench(binaries, directory)
    print(attempt(GROUPS[group][0], bench, int(number)))
    for name in ("book.img", "in", "out"):
        print(name, bench.runner.get(name))


if __name__ == "__main__":
    if len(sys.argv) == 5:
        again(*sys.argv[1:])
    else:
        sys.exit(0 if main(*sys.argv[1:]) else 1)
