"""Judges what canalroute printed for an image and its commands: a reader of typed lines, the plain board, and each answer.

Answers are compared exactly. Only the choice among equally early journeys is open: there the told legs are checked."""

import rules
from layout import DAY, Fault, Sailing, read_image

# Whether canalroute has the departure list: until it does, D is no letter.
LISTS = False

# The letters of commands, and how many numbers each has.
LETTERS = {ord("W"): 1, ord("R"): 1, ord("S"): 1, ord("O"): 1, ord("T"): 0, ord("Q"): 4}
if LISTS:
    LETTERS[ord("D")] = 2

MOST_BYTES = 64
MOST_NUMBER = 65535
MOST_WITHHELD = 64
MOST_SHUT = 32


class Wrong(Exception):
    """An answer that the rules do not allow."""


class Refused(Exception):
    """A refusal, by its number."""


def refuse_if(fits, number):
    if fits:
        raise Refused(number)


def typed_lines(commands):
    lines = commands.split(b"\n")
    if lines[-1] == b"":
        lines.pop()  # nothing after the final byte 10 is no line
    return lines


def read_number(line, at):
    """The number after one space, and the byte after it."""
    refuse_if(line[at : at + 1] != b" ", 52)
    end = at + 1
    while end < len(line) and 48 <= line[end] <= 57:
        end += 1
    digits = line[at + 1 : end]
    refuse_if(not 1 <= len(digits) <= 5 or int(digits) > MOST_NUMBER, 52)
    return int(digits), end


def read_command(line):
    refuse_if(len(line) > MOST_BYTES, 54)
    refuse_if(not line or line[0] not in LETTERS, 51)
    numbers = []
    at = 1
    for _ in range(LETTERS[line[0]]):
        number, at = read_number(line, at)
        numbers.append(number)
    refuse_if(at != len(line), 53)
    return chr(line[0]), numbers


class PlainBoard:
    """Keeps the withheld runs, the shut quays and the thin marks over an opened book."""

    def __init__(self, book):
        self.book = book
        self.withheld = set()
        self.shut = set()
        self.changed()

    def changed(self):
        """After an accepted notice: the sailings in force anew, and no marks."""
        self.in_force = [
            None if s.run in self.withheld or s.start in self.shut or s.end in self.shut else s for s in self.book.places
        ]
        self.unmarked = self.in_force
        self.known = {}

    def refuse_quay(self, quay):
        refuse_if(quay >= len(self.book.changes), 11)

    def withhold(self, run):
        refuse_if(run in self.withheld, 31)
        refuse_if(len(self.withheld) == MOST_WITHHELD, 33)
        self.withheld.add(run)
        self.changed()

    def release(self, run):
        refuse_if(run not in self.withheld, 32)
        self.withheld.remove(run)
        self.changed()

    def close(self, quay):
        self.refuse_quay(quay)
        refuse_if(quay in self.shut, 34)
        refuse_if(len(self.shut) == MOST_SHUT, 36)
        self.shut.add(quay)
        self.changed()

    def open(self, quay):
        self.refuse_quay(quay)
        refuse_if(quay not in self.shut, 35)
        self.shut.remove(quay)
        self.changed()

    def thin(self):
        marks = rules.dominated(self.book.changes, self.in_force)
        self.unmarked = [None if place in marks else s for place, s in enumerate(self.in_force)]
        return len(marks)

    def refuse_query(self, start, goal, minute, cargo):
        self.refuse_quay(start)
        self.refuse_quay(goal)
        refuse_if(minute >= DAY, 12)
        refuse_if(cargo >= len(rules.CLASS_MINUTES), 14)

    def earliest_arrival(self, *query):
        """By the book in force: thinning may lose no arrival."""
        if query not in self.known:
            start, goal, minute, cargo = query
            extra = rules.CLASS_MINUTES[cargo]
            self.known[query] = rules.earliest_arrival(self.book.changes, self.in_force, start, goal, minute, extra)
        return self.known[query]

    def departures(self, quay, minute):
        self.refuse_quay(quay)
        refuse_if(minute >= DAY, 12)
        return rules.departures(self.in_force, quay, minute)


class Answers:
    """The printed lines, taken one by one."""

    def __init__(self, output):
        self.lines = output.split(b"\n")
        if self.lines.pop() != b"":
            raise Wrong("the last answer line does not end with byte 10")
        self.at = 0

    def take(self):
        if self.at == len(self.lines):
            raise Wrong("an answer is missing")
        self.at += 1
        return self.lines[self.at - 1].decode("latin-1")

    def expect(self, wanted):
        told = self.take()
        if told != wanted:
            raise Wrong(f"answered {told!r} where {wanted!r} is due")

    def fields(self, letter, count):
        """The numbers of a line, spelled without needless zeros."""
        told = self.take()
        words = told.split(" ")[1:]
        spelled = all(word.isdigit() and word == str(int(word)) for word in words)
        if not spelled or len(words) != count or told != " ".join([letter] + words):
            raise Wrong(f"answered {told!r} where {letter!r} and {count} numbers are due")
        return [int(word) for word in words]

    def end(self):
        if self.at != len(self.lines):
            raise Wrong(f"{len(self.lines) - self.at} lines follow the last answer, the first of them {self.take()!r}")


def judge_route(board, query, answers):
    board.refuse_query(*query)
    best = board.earliest_arrival(*query)
    if best is None:
        answers.expect("N")
        return
    arrival, count = answers.fields("A", 2)
    if arrival != best:
        raise Wrong(f"arrives at {arrival}, the earliest arrival is {best}")
    legs = []
    for _ in range(count):
        run, leg, start, end, leaves, arrives = answers.fields("L", 6)
        legs.append((Sailing(run, leg, start, end, leaves % DAY, arrives % DAY), leaves, arrives))
    start, goal, minute, cargo = query
    extra = rules.CLASS_MINUTES[cargo]
    fault = rules.journey_fault(board.book.changes, board.unmarked, start, goal, minute, extra, legs)
    if fault is not None:
        raise Wrong(fault)
    if arrival != (legs[-1][2] if legs else minute):
        raise Wrong(f"arrives at {arrival}, but its last leg does not")


def judge_departures(board, quay, minute, answers):
    for sailing, leaves in board.departures(quay, minute):
        answers.expect(f"D {sailing.run} {sailing.leg} {sailing.end} {leaves}")
    answers.expect("K")


NOTICES = {"W": "withhold", "R": "release", "S": "close", "O": "open"}


def judge_line(board, line, answers):
    try:
        letter, numbers = read_command(line)
        if letter == "T":
            answers.expect(f"T {board.thin()}")
        elif letter == "Q":
            judge_route(board, tuple(numbers), answers)
        elif letter == "D":
            judge_departures(board, *numbers, answers)
        else:
            getattr(board, NOTICES[letter])(*numbers)
            answers.expect("K")
    except Refused as refusal:
        answers.expect(f"E {refusal.args[0]}")


def judge(image, commands, output):
    """Raises Wrong unless the output is what the rules allow for this image and these commands."""
    answers = Answers(output)
    try:
        board = PlainBoard(read_image(image))
    except Fault as fault:
        answers.expect(f"E {fault.number} {fault.byte}")
        answers.end()
        return
    for number, line in enumerate(typed_lines(commands), 1):
        try:
            judge_line(board, line, answers)
        except Wrong as wrong:
            raise Wrong(f"line {number} {line[:80]!r}: {wrong}") from None
    answers.end()
