"""Faults that the judge must notice: answers of canalroute with lines altered, and answers of a stand-in for canalroute
that gets one rule wrong. The stand-in without a flaw must pass."""

import re
from heapq import heappop, heappush
from unittest.mock import patch

import judge
import rules
from layout import DAY, Fault, read_image


class StandIn:
    """Answers as canalroute should, but for its flaws."""

    def __init__(self, flaws):
        self.flaws = flaws

    def ready(self, sailing, before, arrival, changes, extra):
        if rules.continues(sailing, before) and "charges a barge that sails on" not in self.flaws:
            return arrival
        if "forgets the change time" in self.flaws:
            return arrival + extra
        if "forgets the class" in self.flaws:
            extra = 0
        return arrival + changes[before.end] + extra

    def departure(self, sailing, minute):
        if "misses a barge at the very minute" in self.flaws:
            minute += 1
        return minute + (sailing.dep - minute) % DAY

    def route(self, board, start, goal, minute, cargo):
        """The arrival and the legs (place, leaves, arrives) of a journey, or None."""
        row, changes, extra = board.unmarked, board.book.changes, rules.CLASS_MINUTES[cargo]
        departing = rules.leaving(row)
        label, waiting, closed = {}, [], set()
        if start == goal:
            return minute, []

        def improve(place, earliest, before):
            leaves = self.departure(row[place], earliest)
            if "never sails on the next day" in self.flaws and leaves >= DAY:
                return
            arrives = leaves + rules.length(row[place])
            if place not in label or arrives < label[place][1]:
                label[place] = (leaves, arrives, before)
                heappush(waiting, (arrives, place))

        for place in departing[start]:
            improve(place, minute, None)
        while waiting:
            arrives, place = heappop(waiting)
            quay = row[place].end
            if arrives != label[place][1] or ("visits a quay once" in self.flaws and quay in closed):
                continue
            closed.add(quay)
            if quay == goal:
                break
            for later in departing[quay]:
                improve(later, self.ready(row[later], row[place], arrives, changes, extra), place)
        ends = [place for place in label if row[place].end == goal]
        if not ends:
            return None
        pick = max if "tells the latest arrival" in self.flaws else min
        place = pick(ends, key=lambda end: label[end][1])
        arrival, legs = label[place][1], []
        while place is not None:
            legs.append((place, *label[place][:2]))
            place = label[place][2]
        return arrival, legs[::-1]

    def answer(self, board, letter, numbers):
        if letter == "T":
            return [f"T {board.thin()}"]
        if letter == "D":
            rows = board.departures(*numbers)
            if "lists departures by run" in self.flaws:
                rows.sort(key=lambda row: (row[1], row[0].run))
            return [f"D {s.run} {s.leg} {s.end} {leaves}" for s, leaves in rows] + ["K"]
        if letter == "Q":
            board.refuse_query(*numbers)
            found = self.route(board, *numbers)
            if found is None:
                return ["N"]
            arrival, legs = found
            lines = [f"A {arrival} {len(legs)}"]
            for place, leaves, arrives in legs:
                s = board.unmarked[place]
                lines.append(f"L {s.run} {s.leg} {s.start} {s.end} {leaves} {arrives}")
            return lines
        kept = board.unmarked
        getattr(board, judge.NOTICES[letter])(*numbers)
        if "keeps marks through a notice" in self.flaws:
            board.unmarked = [None if k is None else s for k, s in zip(kept, board.in_force)]
        return ["K"]

    def printed(self, image, commands):
        try:
            board = judge.PlainBoard(read_image(image))
        except Fault as fault:
            return f"E {fault.number} {fault.byte}\n".encode()
        told = []
        for line in judge.typed_lines(commands):
            try:
                told += self.answer(board, *judge.read_command(line))
            except judge.Refused as refusal:
                told.append(f"E {refusal.args[0]}")
        return "".join(line + "\n" for line in told).encode()


def flaw(name):
    return lambda image, commands, output: StandIn({name}).printed(image, commands)


def wrong_rule(target, replacement):
    """A stand-in whose copy of a rule is replaced."""

    def printed(image, commands, output):
        with patch(target, replacement):
            return StandIn(set()).printed(image, commands)

    return printed


def altered(pattern, replacement):
    """The first line that fits is altered."""

    def printed(image, commands, output):
        return re.sub(pattern, replacement, output, count=1, flags=re.MULTILINE)

    return printed


def higher(group):
    """The number of a match that is the group of this index, plus one."""

    def replacement(match):
        start, end = (at - match.start() for at in match.span(group))
        text = match.group(0)
        return text[:start] + b"%d" % (int(text[start:end]) + 1) + text[end:]

    return replacement


def thins_by_times_alone(changes, row):
    """No margins: a barge that sails on is dropped for one that only arrives earlier."""
    return {
        q
        for q, s in enumerate(row)
        if s is not None
        for p, other in enumerate(row)
        if other is not None and p != q and (other.start, other.end) == (s.start, s.end)
        if rules.next_departure(other, s.dep) + rules.length(other) <= s.dep + rules.length(s)
        if not (q < p and (other.dep, other.arr) == (s.dep, s.arr))
    }


def shuts_what_leaves_alone(board):
    board.in_force = [None if s.run in board.withheld or s.start in board.shut else s for s in board.book.places]
    board.unmarked = board.in_force


def accepts_any_release(board, run):
    board.withheld.discard(run)
    board.changed()


def withholds_one_more(board, run):
    judge.refuse_if(run in board.withheld, 31)
    judge.refuse_if(len(board.withheld) == judge.MOST_WITHHELD + 1, 33)
    board.withheld.add(run)
    board.changed()


def minute_before_quay(board, start, goal, minute, cargo):
    judge.refuse_if(minute >= DAY, 12)
    board.refuse_quay(start)
    board.refuse_quay(goal)
    judge.refuse_if(cargo >= 8, 14)


def takes_six_digits(line, at):
    judge.refuse_if(line[at : at + 1] != b" ", 52)
    digits = re.match(rb"[0-9]*", line[at + 1 :]).group(0)
    judge.refuse_if(not digits or int(digits) > judge.MOST_NUMBER, 52)
    return int(digits), at + 1 + len(digits)


LEG = rb"^L (\d+) (\d+) (\d+) (\d+) (\d+) (\d+)$"

FAULTS = {
    name: flaw(name)
    for name in (
        "charges a barge that sails on",
        "forgets the change time",
        "forgets the class",
        "misses a barge at the very minute",
        "never sails on the next day",
        "visits a quay once",
        "tells the latest arrival",
        "keeps marks through a notice",
        "lists departures by run",
    )
}
FAULTS.update(
    {
        "thins by times alone": wrong_rule("rules.dominated", thins_by_times_alone),
        "adds less than the most of a class to margins": wrong_rule("rules.MOST_CLASS_MINUTES", 30),
        "shuts what leaves a quay alone": wrong_rule("judge.PlainBoard.changed", shuts_what_leaves_alone),
        "releases runs that are not withheld": wrong_rule("judge.PlainBoard.release", accepts_any_release),
        "takes 65 withheld runs": wrong_rule("judge.PlainBoard.withhold", withholds_one_more),
        "judges the minute before the quay": wrong_rule("judge.PlainBoard.refuse_query", minute_before_quay),
        "takes a line of 65 bytes": wrong_rule("judge.MOST_BYTES", 65),
        "takes six digits": wrong_rule("judge.read_number", takes_six_digits),
        "another byte of a refused image": altered(rb"^E \d+ (\d+)$", higher(1)),
        "another number of a refused image": altered(rb"^E (\d+) \d+$", higher(1)),
        "another number of a refusal": altered(rb"^E (\d+)$", higher(1)),
        "a count of thinned sailings too high": altered(rb"^T (\d+)$", higher(1)),
        "an arrival a minute late": altered(rb"^A (\d+) \d+$", higher(1)),
        "a number of legs too high": altered(rb"^A \d+ (\d+)$", higher(1)),
        "none where there is a journey": altered(rb"^A .*\n(L .*\n)*", b"N\n"),
        "a journey where there is none": altered(rb"^N$", b"A 0 0"),
        "another run of a leg": altered(LEG, higher(1)),
        "another leg of a run": altered(LEG, higher(2)),
        "another quay of a leg": altered(LEG, higher(3)),
        "a leg that leaves a minute late": altered(LEG, higher(5)),
        "a leg that arrives a minute late": altered(LEG, higher(6)),
        "a leg left out": altered(rb"^L .*\n", b""),
        "a leg told twice": altered(rb"^(L .*\n)", rb"\1\1"),
        "an answer left out": altered(rb"^K\n", b""),
        "an answer told twice": altered(rb"^K\n", b"K\nK\n"),
        "a needless zero": altered(rb"^A ", b"A 0"),
        "no final byte 10": altered(rb"\n\Z", b""),
        "a line too many": altered(rb"\Z", b"K\n"),
        "a departure left out": altered(rb"^D .*\n", b""),
        "another minute of a departure": altered(rb"^D \d+ \d+ \d+ (\d+)$", higher(1)),
    }
)

if not judge.LISTS:
    FAULTS = {name: fault for name, fault in FAULTS.items() if "departure" not in name}
