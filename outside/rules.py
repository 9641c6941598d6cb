"""The rules of docs/RULES.md, written to be read: what a row of sailings means for journeys, thinning and departures.

A row has a sailing or None (blank) at each place."""

from collections import Counter, defaultdict
from heapq import heappop, heappush

from layout import DAY

CLASS_MINUTES = (0, 5, 10, 15, 20, 25, 30, 45)
MOST_CLASS_MINUTES = 45


def length(sailing):
    return (sailing.arr - sailing.dep) % DAY


def next_departure(sailing, minute):
    return minute + (sailing.dep - minute) % DAY


def continues(sailing, before):
    return sailing.run == before.run and sailing.leg == before.leg + 1 and sailing.start == before.end


def ready(sailing, before, arrival, changes, extra):
    """The minute from which a load that arrived with one sailing can leave with the next."""
    return arrival if continues(sailing, before) else arrival + changes[before.end] + extra


def leaving(row):
    """The places of each quay's sailings."""
    places = defaultdict(list)
    for place, sailing in enumerate(row):
        if sailing is not None:
            places[sailing.start].append(place)
    return places


def earliest_arrival(changes, row, start, goal, minute, extra):
    """The arrival that no journey beats, or None where there is no journey."""
    if start == goal:
        return minute
    departing = leaving(row)
    aboard = {}  # by place, the least arrival of the journeys that end with its sailing
    waiting = []

    def improve(place, earliest_leave):
        arrival = next_departure(row[place], earliest_leave) + length(row[place])
        if place not in aboard or arrival < aboard[place]:
            aboard[place] = arrival
            heappush(waiting, (arrival, place))

    for place in departing[start]:
        improve(place, minute)
    while waiting:
        arrival, place = heappop(waiting)
        if arrival == aboard[place]:
            for later in departing[row[place].end]:
                improve(later, ready(row[later], row[place], arrival, changes, extra))
    return min((arrival for place, arrival in aboard.items() if row[place].end == goal), default=None)


def journey_fault(changes, row, start, goal, minute, extra, legs):
    """Why these legs (sailing, leaves, arrives) are no journey in the row, or None. No place may occur twice:
    legs tell no place, so no content may occur more often than at places of the row."""
    here, now, before = start, minute, None
    for sailing, leaves, arrives in legs:
        if sailing.start != here:
            return f"{sailing} does not leave quay {here}"
        if leaves < (minute if before is None else ready(sailing, before, now, changes, extra)):
            return f"{sailing} leaves too early at {leaves}"
        if leaves % DAY != sailing.dep or arrives != leaves + length(sailing):
            return f"{sailing} does not sail from {leaves} to {arrives}"
        here, now, before = sailing.end, arrives, sailing
    if here != goal:
        return f"the journey ends at quay {here}"
    told = Counter(sailing for sailing, _, _ in legs)
    kept = Counter(sailing for sailing in row if sailing is not None)
    for sailing, times in told.items():
        if times > kept[sailing]:
            return f"{sailing} is told {times} times and stands at {kept[sailing]} places"
    return None


def dominated(changes, row):
    """The places of the dominated sailings of a row."""
    here = [(place, sailing) for place, sailing in enumerate(row) if sailing is not None]
    reached = {(s.run, s.leg, s.end) for _, s in here}
    left = {(s.run, s.leg, s.start) for _, s in here}
    before, after = {}, {}
    between = defaultdict(list)
    for place, s in here:
        goes_on = (s.run, s.leg - 1, s.start) in reached
        gone_on = (s.run, s.leg + 1, s.end) in left
        before[place] = changes[s.start] + MOST_CLASS_MINUTES if goes_on else 0
        after[place] = changes[s.end] + MOST_CLASS_MINUTES if gone_on else 0
        between[s.start, s.end].append(place)

    def beats(p, q):
        arrival = next_departure(row[p], row[q].dep + before[q]) + length(row[p])
        return p != q and arrival + after[q] <= row[q].dep + length(row[q])

    return {
        q
        for places in between.values()
        for q in places
        if any(beats(p, q) and not (q < p and beats(q, p)) for p in places)
    }


def departures(row, quay, minute):
    """Every sailing that leaves the quay, by next departure and then by place: (sailing, leaves)."""
    found = [(next_departure(s, minute), place) for place, s in enumerate(row) if s is not None and s.start == quay]
    return [(row[place], leaves) for leaves, place in sorted(found)]
