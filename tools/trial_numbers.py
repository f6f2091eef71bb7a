#!/usr/bin/env python3
"""Computes what crates/trial must print, from the definitions of its generator, the rules and the search alone.

usage: python3 tools/trial_numbers.py [--counts] [TABLES]

It takes about half a minute. Without --counts it prints what crates/trial/stdout holds, and with it the other
figures of docs/TRIAL.md.

Nothing here is taken from the planner or from the generator's library. It also checks the definitions on each table:
schedules kept, dead only without one, the best end the least of all ends, at most 2W - 1 nodes.
"""

import argparse
import collections
import itertools
import math

HORIZON = 10_080
MOST_LOTS, MOST_CAPACITY, MOST_RUN, MOST_ROOM, MOST_AWAY = 4, 4, 5, 5, 7
MOST_BUDGETS = 60
SEED, STREAM = 42, 54
# The first words of the generator's published demonstration, which has this seed and this stream.
FIRST_WORDS = (0xA15C02B7, 0x7B47F409, 0xBA1D3330, 0x83D2F293, 0xBFA4784B, 0xCBED606E)


class Random:
    """PCG XSH RR 64/32: a congruential generator, of whose state a word is the upper part, xored and turned."""

    def __init__(self):
        self.increment = 2 * STREAM + 1
        self.state = SEED + self.increment
        self.step()
        self.draws = self.second_words = 0

    def step(self):
        self.state = (self.state * 6_364_136_223_846_793_005 + self.increment) % 2**64

    def word(self):
        mixed = ((self.state >> 18 ^ self.state) >> 27) % 2**32
        turn = self.state >> 59
        self.step()
        return (mixed >> turn | mixed << 32 - turn) % 2**32

    def between(self, least, most):
        """As rand draws from a range: the upper half of word × ways, and where the lower half is so near its end that
        the next word's could carry over, with that carry."""
        self.draws += 1
        ways = most - least + 1
        drawn, rest = divmod(self.word() * ways, 2**32)
        if rest > 2**32 - ways:
            self.second_words += 1
            drawn += rest + self.word() * ways // 2**32 >= 2**32
        return least + drawn


def make_lot(random, place, capacity):
    away = random.between(0, MOST_AWAY)
    p = random.between(1, MOST_RUN)
    c = random.between(1, capacity)
    length = p + random.between(0, MOST_ROOM)
    est = (away, HORIZON // 2 + away, HORIZON - away - length)[place]
    return est, est + length, p, c


def make_table(random, number):
    capacity = random.between(1, MOST_CAPACITY)
    place = number // (MOST_LOTS + 1) % 3
    return capacity, [make_lot(random, place, capacity) for _ in range(number % (MOST_LOTS + 1))]


def fits(capacity, lots, starts):
    load = collections.Counter()
    for (_, _, p, c), s in zip(lots, starts):
        for t in range(s, s + p):
            load[t] += c
    return all(trays <= capacity for trays in load.values())


def schedules(capacity, lots):
    ways = itertools.product(*[range(est, lct - p + 1) for est, lct, p, _ in lots])
    return [starts for starts in ways if fits(capacity, lots, starts)]


def minutes(lots):
    return range(min(x[0] for x in lots), max(x[1] for x in lots)) if lots else range(0)


def overflow(capacity, lots):
    over = 0
    for t in minutes(lots):
        available = sum(c for est, lct, _, c in lots if est <= t < lct)
        required = sum(c for est, _, p, c in lots if est <= t < est + p)
        over += required - min(required + over, available, capacity)
    return over


def raised(lots, bounds):
    new = [(max(est, b), lct, p, c) for (est, lct, p, c), b in zip(lots, bounds)]
    return None if any(est + p > lct for est, lct, p, _ in new) else new


def idle(capacity, lots):
    return lots


def overload(capacity, lots):
    due = ([k for k in lots if k[1] <= j[1]] for j in lots)
    return None if any(overflow(capacity, some) > 0 for some in due) else lots


def time_table(capacity, lots):
    def fixed(k, t):
        return k[3] if k[1] - k[2] <= t < k[0] + k[2] else 0

    if any(sum(fixed(k, t) for k in lots) > capacity for t in minutes(lots)):
        return None
    bounds = []
    for j, (est, _, p, c) in enumerate(lots):
        others = [k for i, k in enumerate(lots) if i != j]
        blocked = [t + 1 for t in range(est, est + p) if c + sum(fixed(k, t) for k in others) > capacity]
        bounds.append(max(blocked, default=est))
    return raised(lots, bounds)


def not_first(capacity, lots):
    bounds = []
    for i, (est, _, p, c) in enumerate(lots):
        bound = est
        for j, other in enumerate(lots):
            if j == i or est >= other[0] + other[2]:
                continue
            cut = [k for n, k in enumerate(lots) if n != i and est < k[0] + k[2] and k[1] <= other[1]]
            first, end = min(k[0] for k in cut), min(est + p, other[1])
            stand_in = [(first, end, end - first, c)] if end > first else []
            if overflow(capacity, cut + stand_in) > 0:
                bound = max(bound, min(k[0] + k[2] for k in cut))
        bounds.append(bound)
    return raised(lots, bounds)


def turned(rule):
    def turn(lots):
        return [(HORIZON - lct, HORIZON - est, p, c) for est, lct, p, c in lots]

    def apply(capacity, lots):
        new = rule(capacity, turn(lots))
        return None if new is None else turn(new)

    return apply


def house(capacity, lots):
    for rule in (overload, time_table, not_first, turned(time_table), turned(not_first)):
        lots = rule(capacity, lots)
        if lots is None:
            return None
    return lots


def settled(rule, capacity, lots):
    while True:
        new = rule(capacity, lots)
        if new is None or new == lots:
            return new
        lots = new


def end_of(lots, starts):
    return max((s + p for (_, _, p, _), s in zip(lots, starts)), default=0)


def search(rule, capacity, lots):
    """The best end, if there is one, and the number of nodes."""
    best, nodes, unvisited = None, 0, [lots]
    while unvisited:
        lots = unvisited.pop()
        nodes += 1
        if best is not None:
            lots = [(est, min(lct, best - 1), p, c) for est, lct, p, c in lots]
            if any(est + p > lct for est, lct, p, _ in lots):
                continue
        lots = settled(rule, capacity, lots)
        if lots is None:
            continue
        choice = [(est, k) for k, (est, lct, p, _) in enumerate(lots) if est < lct - p]
        if choice:
            k = min(choice)[1]
            est, lct, p, c = lots[k]
            unvisited.append(lots[:k] + [(est + 1, lct, p, c)] + lots[k + 1 :])
            unvisited.append(lots[:k] + [(est, est + p, p, c)] + lots[k + 1 :])
        elif fits(capacity, lots, [lot[0] for lot in lots]):
            best = end_of(lots, [lot[0] for lot in lots])
    return best, nodes


RULES = [idle, overload, time_table, not_first, turned(overload), turned(time_table), turned(not_first), house, turned(house)]
SEARCHED = {"idle": idle, "not-first": not_first, "turned not-first": turned(not_first), "house": house}


def ways_of(lots):
    """W, the number of ways to give each lot a start in its window."""
    return math.prod(lct - p - est + 1 for est, lct, p, _ in lots)


def compare_rule(rule, capacity, lots, found):
    """One application has 7 comparisons, tighten 10."""
    left = settled(rule, capacity, lots)
    assert not found if left is None else schedules(capacity, left) == found
    return 7 + 10


def compare_search(rule, capacity, lots, found):
    """A whole search has 6, a budget below the count 2, one that is enough 3, and 4 or 1 are refused.

    Answers how many comparisons there are, and how many nodes."""
    best, nodes = search(rule, capacity, lots)
    assert best == min((end_of(lots, s) for s in found), default=None) and nodes < 2 * ways_of(lots)
    below = sum(nodes <= MOST_BUDGETS or b in (1, nodes - 1) for b in range(1, nodes))
    return 6 + 2 * below + 2 * 3 + (4 if lots else 1), nodes


def verdict(lots, new):
    return "dead" if new is None else "still" if new == lots else "moved"


class Counts:
    """What the tables come to, counted one by one."""

    def __init__(self):
        self.tables = self.schedules = self.without = self.most_ways = self.most_nodes = 0
        self.of_narrowing = self.of_searches = 0
        self.applied, self.tightened, self.long = (collections.Counter() for _ in range(3))

    def add(self, capacity, lots):
        found = schedules(capacity, lots)
        assert not found or overflow(capacity, lots) == 0
        self.tables += 1
        self.schedules += len(found)
        self.without += not found
        self.most_ways = max(self.most_ways, ways_of(lots))
        self.applied[verdict(lots, house(capacity, lots))] += 1
        self.tightened[verdict(lots, settled(house, capacity, lots))] += 1
        self.of_narrowing += 3 + sum(compare_rule(rule, capacity, lots, found) for rule in RULES)
        for name, rule in SEARCHED.items():
            comparisons, nodes = compare_search(rule, capacity, lots, found)
            self.of_searches += comparisons
            self.long[name] += nodes > MOST_BUDGETS
            self.most_nodes = max(self.most_nodes, nodes)


def show(verdicts):
    return ", ".join(f"{verdicts[each]} {each}" for each in ("moved", "still", "dead"))


def main():
    reader = argparse.ArgumentParser(description="Computes what crates/trial must print.")
    reader.add_argument("--counts", action="store_true", help="print the other figures of docs/TRIAL.md")
    reader.add_argument("tables", nargs="?", type=int, default=2_100)
    asked = reader.parse_args()
    random = Random()
    assert tuple(random.word() for _ in FIRST_WORDS) == FIRST_WORDS
    random, counts = Random(), Counts()
    for number in range(asked.tables):
        counts.add(*make_table(random, number))
    if not asked.counts:
        print(f"{counts.tables} tables with {counts.schedules} schedules")
        print(f"{counts.of_narrowing + counts.of_searches} comparisons, 0 differences")
        return
    print(f"{random.draws} draws, {random.second_words} of them of two words")
    print(f"{counts.without} tables without a schedule, at most {counts.most_ways} ways")
    print(f"one application of house: {show(counts.applied)}")
    print(f"tighten by house: {show(counts.tightened)}")
    print(f"comparisons: {counts.of_narrowing} of the overflow, rules and tighten, {counts.of_searches} of searches")
    long = ", ".join(f"{count} by {name}" for name, count in counts.long.items())
    print(f"searches of more than {MOST_BUDGETS} nodes: {long}; at most {counts.most_nodes} nodes")


main()
