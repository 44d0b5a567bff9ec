#!/usr/bin/env python3
"""Writes what a program is to print: python3 expected.py drive > ../drive/stdout, and python3 expected.py drive_edges > ../drive_edges/stdout

The rules here (docs/RULES.md, R3 to R5 and R18) are worked lane by lane and with no group sets in the choice. Of the programs the script knows the list of
calls. A table is the state that it encodes, and a damaged one is only known to be damaged.
Where a clock is taken back the same calls are worked with an endless clock too, and must be answered alike.
"""

import copy
import sys

FAR = 2**61  # from here on a put takes the clock back
LAST = 2**62 + 2**44 - 1  # a good table's last clock
ROOM = 64  # records that a lane holds at most
TRAINS = 8  # trains of a shared lane, and records that each holds at most


class Lane:
    def __init__(self, weight, longest):
        self.weight, self.longest = weight, longest
        self.c = -(-1048576 // weight)
        self.group = next(i for i in range(64) if 2**i >= longest * self.c)
        self.slot = 2**self.group
        self.clear()

    def clear(self):
        self.start = self.finish = self.turn = 0
        self.queue = []

    def full(self, train):
        """The refusal of one record more."""
        return 13 if len(self.queue) == ROOM else None

    def knows(self, train):
        return train == 0

    def waiting(self, train):
        return len(self.queue)

    def first(self):
        return self.queue[0]

    def enter(self, record):
        self.queue.append(record)

    def hand_out(self):
        return self.queue.pop(0)

    def rounded(self):
        return self.start - self.start % self.slot

    def rounded_finish(self):
        return self.rounded() + 2 * self.slot


class SharedLane(Lane):
    """Deficit round robin inside a lane: in the queue of a shared lane stand the records of all its trains, in the order in which they came."""

    def clear(self):
        super().clear()
        self.deficits, self.round = [0] * TRAINS, []

    def of(self, train):
        return [r for r in self.queue if r[2] == train]

    def full(self, train):
        return 71 if len(self.of(train)) == TRAINS else None

    def knows(self, train):
        return train < TRAINS

    def waiting(self, train):
        return len(self.of(train))

    def first(self):
        record = self.of(self.round[0])[0]
        assert record[1] <= self.deficits[self.round[0]] < 2 * self.longest
        return record

    def begin(self):
        if self.round:
            self.deficits[self.round[0]] += self.longest

    def enter(self, record):
        train = record[2]
        self.queue.append(record)
        if train not in self.round:
            self.round.append(train)
            if len(self.round) == 1:
                self.begin()

    def hand_out(self):
        record = self.first()
        train = record[2]
        self.queue.remove(record)
        self.deficits[train] -= record[1]
        rest = self.of(train)
        if not rest:
            self.deficits[train] = 0
            self.round.pop(0)
            self.begin()
        elif self.deficits[train] < rest[0][1]:
            self.round.append(self.round.pop(0))
            self.begin()
        return record


class No(Exception):
    pass


class Table:
    """The plain rules."""

    def __init__(self, lanes):
        self.lanes, self.clock, self.turns = lanes, 0, 0
        self.ends, self.twin = True, None

    def holding(self):
        return [k for k, l in self.lanes.items() if l.queue]

    def eligible(self):
        return [k for k in self.holding() if self.lanes[k].rounded() <= self.clock]

    def got_start(self, lane, start):
        self.turns += 1
        lane.turn, lane.start = self.turns, start
        lane.finish = start + lane.first()[1] * lane.c

    def put(self, k, mark, length, train=0):
        if k not in self.lanes:
            raise No(11)
        lane = self.lanes[k]
        if not lane.knows(train):
            raise No(70)
        if length == 0 or length > lane.longest:
            raise No(12)
        if lane.full(train):
            raise No(lane.full(train))
        if self.ends and self.clock >= FAR:
            self.take_back()
        others = [j for j in self.holding() if j != k]
        ahead = lane.waiting(train)
        lane.enter((mark, length, train))
        if len(lane.queue) == 1:
            self.got_start(lane, max(lane.finish, self.clock))
            if not others and self.clock < lane.rounded():
                self.clock = lane.rounded()
        return f"put ok {ahead}"

    def take_back(self):
        k = (self.clock - 2**33) // 2**31 * 2**31
        self.clock -= k
        for lane in self.lanes.values():
            assert not lane.queue or lane.start >= k
            lane.start, lane.finish = max(lane.start - k, 0), max(lane.finish - k, 0)

    def chosen(self):
        if not self.holding():
            raise No(16)
        return min(self.eligible(), key=lambda k: (self.lanes[k].rounded_finish(), self.lanes[k].group, self.lanes[k].turn))

    def look(self, told=2):
        """Mark and length of the record, with 3 told its train too."""
        k = self.chosen()
        return " ".join(map(str, ("look", k, *self.lanes[k].first()[:told])))

    def take(self, told=2):
        k = self.chosen()
        lane = self.lanes[k]
        record = lane.hand_out()
        length = record[1]
        self.clock += 1024 * length
        if lane.queue:
            self.got_start(lane, lane.finish)
        if self.holding() and not self.eligible():
            self.clock = min(self.lanes[j].rounded() for j in self.holding())
        return " ".join(map(str, ("take", k, *record[:told])))

    def sets(self):
        groups = {}
        for k in self.holding():
            lane = self.lanes[k]
            start, finish = groups.get(lane.group, (2**64, 2**64))
            groups[lane.group] = (min(start, lane.rounded()), min(finish, lane.rounded_finish()))
        ready = {i: s <= self.clock for i, (s, f) in groups.items()}
        words = [0, 0, 0, 0]
        for i, (s, f) in groups.items():
            blocked = any(ready[j] and groups[j][1] < f for j in groups if j > i)
            words[2 * blocked + (not ready[i])] |= 1 << i
        return "sets %d %d %d %d" % tuple(words)

    def lag(self, k):
        if k not in self.lanes:
            raise No(11)
        lane = self.lanes[k]
        return "lag %d" % (self.clock - (lane.start if lane.queue else max(lane.finish, self.clock)))

    def restart(self):
        if self.holding():
            raise No(15)
        for lane in self.lanes.values():
            lane.clear()
        self.clock = self.turns = 0
        return "restart ok"


class Bad:
    """A table that is not good."""
    twin = None

    def __getattr__(self, name):
        def call(*args):
            raise No(10)
        return call


def answer(t, name, *args):
    try:
        return getattr(t, name)(*args)
    except No as n:
        return f"no {n}"


def say(t, name, *args):
    text = answer(t, name, *args)
    assert t.twin is None or answer(t.twin, name, *args) == text
    print(text)


def set_clock(t, v):
    """And from now on the same with an endless clock."""
    t.clock, t.twin = v, None
    t.twin = copy.deepcopy(t)
    t.twin.ends = False


def every(t):
    say(t, "put", 0, 9, 100)
    say(t, "take")
    say(t, "look")
    say(t, "sets")
    say(t, "lag", 0)
    say(t, "restart")


def fill(t, k, n):
    for i in range(n):
        say(t, "put", k, i, 100)


def fill_train(t, k, train, n):
    for i in range(n):
        say(t, "put", k, i, 100, train)


def served(t, n):
    for _ in range(n):
        say(t, "look", 3)
        say(t, "take", 3)


def drain(t, n):
    for _ in range(n):
        say(t, "take")


def at(t, k):
    """S of a lane that holds records, F of an idle one."""
    lane = t.lanes[k]
    return lane.start if lane.queue else lane.finish


def time(t):
    print("V %d, lane 0 at %d" % (t.clock, at(t, 0)))


def times(t):
    time(t)
    print("lane 1 at %d" % at(t, 1))


def setup():
    print("lanes 2")
    return Table({0: Lane(512, 1500), 1: Lane(256, 1500)})


def puts(t):
    say(t, "put", 0, 1, 1000)
    say(t, "put", 1, 2, 1000)
    say(t, "put", 0, 3, 500)


def session():
    print("- session")
    t = setup()
    puts(t)
    say(t, "sets")
    say(t, "look")
    say(t, "take")
    say(t, "lag", 1)
    say(t, "take")
    say(t, "take")
    assert (t.clock, t.lanes[0].finish, t.lanes[1].finish) == (2560000, 3072000, 4096000)  # M1
    times(t)
    say(t, "take")
    say(t, "put", 0, 4, 100)
    assert (t.clock, t.lanes[0].start, t.lanes[0].finish) == (2560000, 3072000, 3276800)  # M2
    times(t)
    say(t, "lag", 0)
    say(t, "lag", 1)
    say(t, "restart")
    say(t, "take")
    times(t)
    say(t, "restart")
    times(t)
    say(t, "look")
    say(t, "put", 1, 5, 1500)
    say(t, "put", 2, 5, 1500)
    say(t, "take")
    times(t)
    print("rest kept")


def one_lane():
    print("- one lane")
    print("lanes 1")
    t = Table({0: Lane(1, 64)})
    say(t, "put", 0, 7, 64)
    say(t, "take")
    assert t.clock == 65536  # M4
    time(t)
    say(t, "put", 0, 8, 64)
    assert t.clock == 67108864
    time(t)


def four_lanes():
    print("lanes 4")
    t = Table({0: Lane(600, 1500), 1: Lane(300, 64), 2: Lane(100, 199), 63: Lane(1, 1500)})
    assert [l.group for l in t.lanes.values()] == [22, 18, 21, 31]
    return t


def nine_puts(t):
    for put in [(63, 1, 1500), (63, 2, 64), (2, 3, 199), (2, 4, 199), (2, 5, 1), (1, 6, 64), (1, 7, 64), (0, 8, 1500), (0, 9, 1500)]:
        say(t, "put", *put)


def four_groups():
    print("- four groups")
    t = four_lanes()
    nine_puts(t)
    looks_and_takes(t, 10)
    times(t)
    print("rest kept")


def looks_and_takes(t, n):
    for _ in range(n):
        say(t, "sets")
        say(t, "lag", 0)
        say(t, "lag", 2)
        say(t, "look")
        say(t, "take")


def blocked_groups():
    for name, third in [("- a blocked group", []), ("- a blocked group that is eligible", [(2, 9, 64)])]:
        print(name)
        print("lanes 3")
        t = Table({0: Lane(16, 64), 1: Lane(976, 1500), 2: Lane(32, 64)})
        assert [l.group for l in t.lanes.values()] == [22, 21, 21]
        for put in [(0, 1, 64), (1, 2, 1500), (1, 3, 1500), (1, 4, 1500), (1, 5, 1500), (1, 6, 1500), (2, 7, 64), (2, 8, 64)] + third:
            say(t, "put", *put)
        looks_and_takes(t, 8 + len(third))


def making():
    """The setups are short enough to place by hand: number and place of each refusal."""
    print("- making refused")
    for n, place in [(1, 0), (1, 0), (1, 0), (1, 5), (2, 5), (3, 0)]:
        print("no", n, place)
    for n, place in [(4, 0), (4, 5), (4, 5), (4, 11), (4, 14)]:
        print("no", n, place)
    for n, place in [(50, 3), (51, 8), (52, 9), (53, 11), (54, 8), (6, 15)]:
        print("no", n, place)
    print("table kept")


def calls():
    print("- calls refused")
    t = setup()
    for put in [(2, 1, 100), (63, 1, 100), (64, 1, 100), (255, 1, 0), (0, 1, 0), (0, 1, 1501), (1, 1, 2**64 - 1)]:
        say(t, "put", *put)
    say(t, "take")
    say(t, "look")
    for k in [2, 64, 255]:
        say(t, "lag", k)
    print("table kept")
    say(t, "put", 0, 1, 1500)
    say(t, "restart")


def full():
    print("- a full lane")
    t = setup()
    fill(t, 0, ROOM)
    say(t, "put", 0, 64, 100)
    say(t, "put", 0, 64, 1501)
    say(t, "restart")
    print("table kept")
    say(t, "put", 1, 65, 100)
    say(t, "take")
    say(t, "put", 0, 66, 100)
    say(t, "put", 0, 67, 100)
    drain(t, ROOM + 2)


def sizes():
    print("- sizes")
    print("no 7 0")
    print("no 7 0")
    every(Bad())
    print("table kept")
    every(setup())


def looks(t):
    say(t, "put", 2, 1, 100)
    say(t, "put", 1, 1, 0)
    say(t, "look")
    say(t, "sets")
    say(t, "lag", 0)
    say(t, "lag", 1)


def anew(t):
    say(t, "restart")
    times(t)
    print("rest kept")


def far():
    print("- clock at its last value")
    t = setup()
    set_clock(t, LAST)
    looks(t)
    say(t, "take")
    print("table kept")
    say(t, "put", 0, 1, 100)
    assert 2**33 <= t.clock < 2**33 + 2**31
    times(t)
    say(t, "take")
    anew(t)
    print("- clock taken back")
    t = setup()
    say(t, "put", 0, 1, 100)
    say(t, "take")
    set_clock(t, FAR - 1)
    fill(t, 1, 3)
    times(t)
    say(t, "take")
    looks(t)
    say(t, "restart")
    times(t)
    assert t.clock >= FAR
    say(t, "put", 1, 3, 100)
    assert at(t, 0) == 0 and t.clock == t.twin.clock - (2**61 - 2**33)
    times(t)
    looks(t)
    say(t, "put", 0, 9, 100)
    times(t)
    drain(t, 5)
    anew(t)


def far_groups():
    print("- clock taken back with four groups")
    t = four_lanes()
    set_clock(t, FAR - 1000)
    nine_puts(t)
    looks_and_takes(t, 3)
    assert t.clock >= FAR
    say(t, "put", 1, 10, 64)
    assert t.clock < 2**34
    times(t)
    looks_and_takes(t, 8)
    set_clock(t, FAR + 12345)
    say(t, "put", 63, 11, 1500)
    say(t, "put", 0, 12, 1500)
    times(t)
    looks_and_takes(t, 3)
    print("rest kept")


def damaged():
    print("- never made")
    every(Bad())
    print("table kept")
    for name in ["clock past its end", "depth of an older table", "slot list left out", "setting gone", "record over the longest",
                 "place over the longest", "start too late"]:
        print("-", name)
        puts(setup())
        every(Bad())
        print("table kept")
    print("- unread word")
    t = setup()
    puts(t)
    every(t)
    print("table changed")
    print("- places of an idle lane")
    t = setup()
    puts(t)
    every(t)
    drain(t, 3)


def shared():
    print("lanes 2")
    return Table({0: SharedLane(512, 1500), 1: Lane(256, 1500)})


def train_puts(t):
    for put in [(0, 1, 1000, 3), (0, 2, 1000, 3), (0, 3, 400, 3), (0, 4, 1500), (0, 5, 64, 7), (1, 6, 100, 0)]:
        say(t, "put", *put)


def trains():
    print("- trains in turn")
    t = shared()
    train_puts(t)
    served(t, 4)
    for put in [(0, 7, 1500, 7), (0, 8, 1500, 3), (0, 9, 1, 0)]:
        say(t, "put", *put)
    served(t, 6)
    say(t, "restart")
    train_puts(t)
    served(t, 2)
    print("rest kept")
    print("- trains refused")
    t = shared()
    for put in [(2, 1, 100, 8), (0, 1, 100, 8), (0, 1, 0, 255), (1, 1, 0, 1), (0, 1, 0, 7), (0, 1, 1501, 7)]:
        say(t, "put", *put)
    print("table kept")


def full_train():
    print("- a full train")
    t = shared()
    fill_train(t, 0, 5, TRAINS)
    say(t, "put", 0, 8, 100, 5)
    say(t, "put", 0, 8, 1501, 5)
    say(t, "restart")
    print("table kept")
    fill(t, 0, 9)
    fill(t, 1, 9)
    served(t, 2)
    for mark in [10, 11, 12]:
        say(t, "put", 0, mark, 100, 5)
    served(t, 26)
    print("- no train in the round")
    train_puts(shared())
    every(Bad())
    print("table kept")


SCENES = {
    "drive": [session, one_lane, four_groups, blocked_groups, making, calls, full, sizes],
    "drive_edges": [far, far_groups, damaged, trains, full_train],
}

for scene in SCENES[sys.argv[1]]:
    scene()
