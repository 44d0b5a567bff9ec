#!/usr/bin/env python3
"""Writes the frames of session_vectors (stdin) and what is expected of them (stdout), in the folder that this file stands in.

What is expected is worked here from the rules alone (docs/RULES.md: R1 to R3, R8, R10, R14, R18). Nothing here runs, reads or was copied from the
program. Run it after a change of them, and compare what changed in stdout.

No put takes the clock back: 2^61 is out of reach of 1,000 requests.
"""
import pathlib
import random

TABLE = 65536   # the fixed size of a table, docs/TABLE.md
ROOM = 64       # records that a lane holds at most that is not shared
TRAINS = 8      # trains of a shared lane
TRAIN_ROOM = 8  # records that a train's queue holds at most there


class No(Exception):
    """A refusal: number, place or None."""


def u16(octets):
    high, low = octets
    return 256 * high + low


# ---- the setup

def read_setup(data):
    place, lanes, first, framing, before = 0, [], True, 0, None
    while True:
        left = data[place:]
        if len(left) < 3:
            raise No(1, place)
        tag, length = left[0], u16(left[1:3])
        if tag not in (0x01, 0x10, 0x11, 0x12, 0x7F):
            raise No(2, place)
        if length not in {0x01: (2,), 0x10: (3, 5), 0x11: (1,), 0x12: (1,), 0x7F: (0,)}[tag]:
            raise No(3, place)
        value = left[3:3 + length]
        if len(value) < length:
            raise No(1, place)
        if first != (tag == 0x01) or (tag == 0x10 and lanes and value[0] <= lanes[-1][0]) or (tag == 0x7F and not lanes):
            raise No(4, place)
        if tag == 0x11 and before != 0x01:
            raise No(4, place)
        if tag == 0x12:
            if before != 0x10 or value[0] != lanes[-1][0]:
                raise No(4, place)
            lanes[-1] = *lanes[-1][:3], True
        # each number's refusal, at its first byte
        if tag == 0x11:
            framing = value[0]
            if framing > 64:
                raise No(54, place + 3)
        if tag == 0x01:
            form = u16(value)
            if form not in (1, 2):
                raise No(50, place + 3)
        if tag == 0x10:
            lane, weight = value[0], u16(value[1:3])
            longest = u16(value[3:5]) if length == 5 else {1: 1500, 2: 576}[form]
            if lane > 63:
                raise No(51, place + 3)
            if not 1 <= weight <= 1024:
                raise No(52, place + 4)
            if not 64 <= longest <= 1500:
                raise No(53, place + 6)
            if sum(w for _, w, _, _ in lanes) + weight > 1024:
                raise No(6, place + 4)
            lanes.append((lane, weight, longest, False))
        place, first, before = place + 3 + length, False, tag
        if tag == 0x7F:
            return lanes, framing, place


# ---- the plain rules

class Waiting:
    """What waits in a lane: a queue for each train, served by deficit round robin. A lane that is not shared has one train, which is always in turn."""

    def __init__(self, longest, shared):
        self.longest = longest
        self.queues = [[] for _ in range(TRAINS if shared else 1)]
        self.deficits = [0 for _ in self.queues]
        self.round = []     # the trains that hold records, the one in turn first

    def turn(self):
        """A turn begins."""
        if self.round:
            self.deficits[self.round[0]] += self.longest

    def add(self, train, mark, length):
        self.queues[train].append((mark, length))
        if train not in self.round:
            self.round.append(train)
            if len(self.round) == 1:
                self.turn()

    def first(self):
        """The train, the mark and the length of the lane's first record."""
        train = self.round[0]
        return train, *self.queues[train][0]

    def hand_out(self):
        train, _, length = self.first()
        self.queues[train].pop(0)
        self.deficits[train] -= length
        if not self.queues[train]:
            self.deficits[train] = 0
            self.round.pop(0)
            self.turn()
        elif self.queues[train][0][1] > self.deficits[train]:
            self.round.append(self.round.pop(0))
            self.turn()


class Lane:
    def __init__(self, weight, longest, shared, framing):
        self.longest = longest
        self.shared = shared
        self.c = -(-1048576 // weight)
        self.group = 0
        while 2 ** self.group < (longest + framing) * self.c:
            self.group += 1
        self.slot = 2 ** self.group
        self.start = self.finish = self.since = 0
        self.waiting = Waiting(longest, shared)

    def holds(self):
        return bool(self.waiting.round)

    def rounded(self):
        return self.start - self.start % self.slot

    def rounded_finish(self):
        return self.rounded() + 2 * self.slot


class Unit:
    def __init__(self, lanes, framing):
        self.given = lanes
        self.framing = framing
        self.fresh()

    def fresh(self):
        self.lanes = {k: Lane(w, m, shared, self.framing) for k, w, m, shared in self.given}
        self.v = 0
        self.turns = 0

    def holding(self):
        return {k: l for k, l in self.lanes.items() if l.holds()}

    def begin(self, lane, start, length):
        lane.start, lane.finish = start, start + (length + self.framing) * lane.c
        self.turns += 1
        lane.since = self.turns

    def put(self, k, train, mark, length):
        if k not in self.lanes:
            return 'no 11'
        lane = self.lanes[k]
        if train >= len(lane.waiting.queues):
            return 'no 70'
        if not 1 <= length <= lane.longest:
            return 'no 12'
        ahead = len(lane.waiting.queues[train])
        if ahead == (TRAIN_ROOM if lane.shared else ROOM):
            return 'no 71' if lane.shared else 'no 13'
        others = any(j != k for j in self.holding())
        idle = not lane.holds()
        lane.waiting.add(train, mark, length)
        if idle:
            self.begin(lane, max(lane.finish, self.v), length)
            if not others:
                self.v = max(self.v, lane.rounded())
        return f'put ok {ahead}'

    def choice(self):
        eligible = [(l.rounded_finish(), l.group, l.since, k) for k, l in self.holding().items() if l.rounded() <= self.v]
        return min(eligible)[3] if eligible else None

    def look(self, word='look'):
        k = self.choice()
        if k is None:
            return 'no 16'
        train, mark, length = self.lanes[k].waiting.first()
        return f'{word} {k} {mark} {length}' + (f' {train}' if self.lanes[k].shared else '')

    def take(self):
        k, answer = self.choice(), self.look('take')
        if k is not None:
            lane = self.lanes[k]
            self.v += 1024 * (lane.waiting.first()[2] + self.framing)
            lane.waiting.hand_out()
            if lane.holds():
                self.begin(lane, lane.finish, lane.waiting.first()[2])
            if self.holding():
                self.v = max(self.v, min(l.rounded() for l in self.holding().values()))
        return answer

    def sets(self):
        groups = {}
        for lane in self.holding().values():
            s, f = groups.get(lane.group, (lane.rounded(), lane.rounded_finish()))
            groups[lane.group] = min(s, lane.rounded()), min(f, lane.rounded_finish())
        words = [0, 0, 0, 0]
        for i, (s, f) in groups.items():
            blocked = any(j > i and s2 <= self.v and f2 < f for j, (s2, f2) in groups.items())
            words[(0 if s <= self.v else 1) + (2 if blocked else 0)] |= 1 << i
        return 'sets %d %d %d %d' % tuple(words)

    def lag(self, k):
        if k not in self.lanes:
            return 'no 11'
        lane = self.lanes[k]
        return 'lag %d' % (self.v - (lane.start if lane.holds() else max(lane.finish, self.v)))

    def restart(self):
        if self.holding():
            return 'no 15'
        self.fresh()
        return 'restart ok'


# ---- a run

LENGTHS = {0x20: 7, 0x21: 0, 0x22: 0, 0x23: 0, 0x24: 1, 0x25: 0, 0x26: 8, 0x7F: 0}


def request(unit, tag, value):
    if tag == 0x20:
        return unit.put(value[0], 0, int.from_bytes(value[1:5], 'big'), u16(value[5:7]))
    if tag == 0x26:
        return unit.put(value[0], value[1], int.from_bytes(value[2:6], 'big'), u16(value[6:8]))
    if tag == 0x24:
        return unit.lag(value[0])
    return {0x21: unit.take, 0x22: unit.look, 0x23: unit.sets, 0x25: unit.restart}[tag]()


def walk(unit, data, place, limit, lines):
    """The requests from a place on; how many were answered, and why the walk stopped."""
    count = 0
    while count < limit:
        left = data[place:]
        if len(left) < 3:
            return count, No(1, place)
        tag, length = left[0], u16(left[1:3])
        if tag not in LENGTHS:
            return count, No(2, place)
        if length != LENGTHS[tag]:
            return count, No(3, place)
        if len(left) < 3 + length:
            return count, No(1, place)
        value = left[3:3 + length]
        place += 3 + length
        if tag == 0x7F:
            return count, No(4, place) if place < len(data) else 'end'
        lines.append(request(unit, tag, value))
        count += 1
    return count, 'limit'


def no_line(no):
    return 'no ' + ' '.join(str(x) for x in no.args if x is not None)


def expected(data, limit, table, area):
    lines, count = [], 0
    try:
        if limit > 1000 or area < 64 * (limit + 2):
            raise No(17, None)
        if table < TABLE:
            raise No(7, 0)
        try:
            lanes, framing, place = read_setup(data)
        except No as no:
            lines.append(no_line(no))
            raise
        lines.append('lanes %d' % len(lanes))
        count, why = walk(Unit(lanes, framing), data, place, limit, lines)
        if isinstance(why, No):
            lines.append(no_line(why))
        lines.append('end %d' % count)
    except No as no:
        why = no
    text = ''.join(line + '\n' for line in lines)
    assert all(len(line) < 64 for line in lines)
    return '= %d %d %s\n' % (count, len(text), why if isinstance(why, str) else no_line(why)) + text


# ---- sessions

def field(tag, value=b'', length=None):
    length = len(value) if length is None else length
    return bytes([tag]) + length.to_bytes(2, 'big') + value


def put(k, mark, length):
    return field(0x20, bytes([k]) + mark.to_bytes(4, 'big') + length.to_bytes(2, 'big'))


def put_train(k, train, mark, length):
    return field(0x26, bytes([k, train]) + mark.to_bytes(4, 'big') + length.to_bytes(2, 'big'))


def lag(k):
    return field(0x24, bytes([k]))


def lane_field(k, weight, longest, *shared):
    """A lane's field, and behind it the one that makes the lane shared."""
    return field(0x10, bytes([k]) + weight.to_bytes(2, 'big') + longest.to_bytes(2, 'big')) + (field(0x12, bytes([k])) if shared else b'')


def setup(*lanes, framing=b''):
    return field(0x01, b'\0\1') + framing + b''.join(lane_field(*lane) for lane in lanes) + END


TAKE, LOOK, SETS, RESTART, END = (field(t) for t in (0x21, 0x22, 0x23, 0x25, 0x7F))
TWO = setup((0, 512, 1500), (1, 256, 1500))
REQUESTS = put(0, 1, 1000) + put(1, 2, 1000) + put(0, 3, 500) + SETS + 4 * TAKE
SESSION = TWO + REQUESTS + END

frames = []


def add(data, limit=1000, table=TABLE, area=None):
    frames.append((bytes(data), limit, table, min(64 * (limit + 2), 64128) if area is None else area))


def inputs():
    add(SESSION)
    # the limit: reached at the end field (8), with bytes after it, at 0
    for limit in range(11):
        add(SESSION, limit)
    for limit in (0, 8, 9):
        add(SESSION + b'\0', limit)
        add(SESSION + END, limit)
        add(TWO + REQUESTS, limit)
    add(TWO + 1000 * TAKE + END)
    add(TWO + 1001 * TAKE + END)
    # 17, then 7
    for limit in (0, 8, 1000):
        for area in (64 * (limit + 2), 64 * (limit + 2) - 1):
            for table in (TABLE, TABLE - 1, TABLE + 20, 0):
                add(SESSION, limit, table, area)
    add(SESSION, 1001, TABLE, 64128)
    add(b'', 1001, 0, 0)
    # every cut, and a byte after each
    for n in range(len(SESSION)):
        add(SESSION[:n])
        add(SESSION[:n] + b'\x7f')
    # refused setups
    for data in (b'\2\0\0', field(0x10, b'\0\0\1\0\x40') + END, field(1, b'\0\1\0'), field(1, b'\0\3') + END, setup((0, 0, 64)), setup((0, 1, 63)),
                 setup((0, 1025, 64)), setup((64, 1, 64)), setup((3, 5, 64), (3, 5, 64)), setup((0, 1000, 64), (1, 25, 64)), setup(), field(1, b'\0\1') * 2):
        add(data + SESSION)
    # a longest that is left out, in both formats: 12 at its edge, and the sets by its group
    for form in (b'\0\1', b'\0\2', b'\1\1', b'\1\2'):
        short = field(0x01, form) + field(0x10, b'\5\0\1') + field(0x10, b'\7\1\0\0\x40') + END
        add(short + put(5, 1, 576) + put(5, 2, 577) + put(5, 3, 1500) + put(5, 4, 1501) + put(7, 5, 64) + SETS + lag(5) + 4 * TAKE + END)
    # tags and lengths among the requests
    for tag in range(256):
        if tag % 16 == 0 or tag < 0x30 or tag == 0x7E:
            add(TWO + TAKE + field(tag) + END)
    for tag in LENGTHS:
        for length in (0, 1, 2, 6, 7, 8, 256, 263):
            add(TWO + TAKE + field(tag, bytes(7), length))
    # 11, 12, 13, 15, 16
    add(TWO + b''.join(put(k, 9, 64) + lag(k) for k in (0, 1, 2, 63, 64, 255)) + END)
    add(TWO + b''.join(put(0, 4294967295, n) for n in (0, 1, 1500, 1501, 65535)) + RESTART + END)
    # M7: the lane's room, with a mark for each record; then the ring round its end
    full = b''.join(put(5, i, 64) for i in range(ROOM + 1))
    add(setup((5, 7, 64)) + full + TAKE + put(5, 2, 65) + put(5, 2, 64) + put(5, 3, 64) + RESTART + ROOM * TAKE + LOOK + TAKE + RESTART + SETS + END)
    more = b''.join(put(5, 1000 + i, 1 + i) for i in range(ROOM))
    add(setup((5, 7, 64)) + full + 40 * TAKE + more + 50 * TAKE + more + ROOM * TAKE + LOOK + END)
    add(setup((5, 7, 64), (6, 9, 1500)) + full + put(6, 1, 1500) + put(5, 1, 1) + TAKE + RESTART + ROOM * TAKE + SETS + lag(5) + lag(6) + END)
    # M2: a lag below zero; M4: the clock's jump
    add(TWO + REQUESTS[:-3] + put(0, 4, 100) + lag(0) + lag(1) + TAKE + lag(0) + RESTART + lag(0) + END)
    add(setup((0, 1, 64)) + put(0, 1, 64) + TAKE + lag(0) + put(0, 2, 64) + lag(0) + SETS + LOOK + END)
    # at random
    chance = random.Random(20261115)
    for _ in range(60):
        count = chance.randint(1, 6)
        lanes = [(k, chance.randint(1, 1024 // count), chance.randint(64, 1500)) for k in sorted(chance.sample(range(64), count))]
        some = [k for k, _, _ in lanes]
        requests = b''
        for _ in range(chance.randint(1, 60)):
            k = chance.choice(some)
            requests += chance.choice((put(k, chance.getrandbits(32), chance.randint(1, 1500)), put(k, 1, 64), TAKE, LOOK, SETS, lag(k), TAKE, put(k, 2, 64)))
        add(setup(*lanes) + requests + 5 * TAKE + RESTART + END, chance.choice((1000, 40)))

    # framing: both sides of its edge, each wrong place, and what is charged
    some = ((0, 512, 64), (1, 256, 1005))
    calls = put(0, 1, 64) + put(0, 2, 65) + put(1, 3, 1000) + SETS + TAKE + lag(0) + lag(1) + TAKE + lag(1) + RESTART + put(0, 4, 64) + TAKE + lag(0)
    for h in (0, 1, 20, 64, 65, 255):
        given = field(0x11, bytes([h]))
        add(setup(*some, framing=given) + calls + END)
        add(setup(*some, framing=2 * given) + calls + END)
        add(given + setup(*some) + calls + END)
        add(setup(*some)[:-3] + given + END + calls + END)
        add(setup(*some) + TAKE + given + END)
    for h in (0, 1, 7, 20, 40, 63, 64):
        for _ in range(3):
            count = chance.randint(1, 5)
            lanes = [(k, chance.randint(1, 1024 // count), chance.choice((64, 65, 200, 576, 1500))) for k in sorted(chance.sample(range(64), count))]
            requests = b''
            for _ in range(chance.randint(10, 40)):
                k = chance.choice(lanes)[0]
                requests += chance.choice((put(k, chance.getrandbits(32), chance.randint(1, 300)), put(k, 1, 64), TAKE, SETS, lag(k), TAKE, put(k, 2, 64)))
            add(setup(*lanes, framing=field(0x11, bytes([h]))) + requests + 5 * TAKE + RESTART + END)
    # deep lanes at random: three lanes that are full now and then, and all taken at the end
    lanes = ((0, 500, 1500), (31, 100, 300), (63, 3, 64))
    for _ in range(2):
        requests = b''
        for step in range(420):
            k, _, longest = chance.choice(lanes)
            requests += put(k, step, chance.randint(1, longest)) if chance.random() < 0.8 else TAKE
        add(setup(*lanes) + requests + 3 * ROOM * TAKE + TAKE + RESTART + END)
    trains(chance)


def trains(chance):
    """A lane that trains share, beside one that is not shared."""
    head, shared, plain, mark = field(0x01, b'\0\1'), (0, 512, 100, 'shared'), (1, 256, 100), field(0x12, b'\0')
    junction = setup(shared, plain)
    # turns: trains 5, 0 and 2 in lane 0, the second by 0x20; then a record of lane 1
    three = put_train(0, 5, 1, 100) + put_train(0, 5, 2, 100) + put(0, 3, 60) + put(0, 4, 60) + put_train(0, 2, 5, 80) + put(1, 6, 100)
    add(junction + three + SETS + LOOK + 3 * (TAKE + LOOK + lag(0)) + 5 * TAKE + RESTART + three + 4 * TAKE + END)
    # a train that starts, and one that starts again, go to the end of the round; a train that empties loses what it had left
    more = put_train(0, 1, 7, 10) + TAKE + put_train(0, 5, 8, 95) + put_train(0, 2, 9, 1)
    add(junction + three + more + TAKE + more + 3 * TAKE + more + 12 * TAKE + END)
    # a record that the turn covers to the byte, and one that is a byte longer
    for n in (60, 61):
        add(junction + put_train(0, 7, 1, 40) + put_train(0, 7, 2, n) + put_train(0, 6, 3, 100) + 4 * TAKE + END)
    # 0x12 elsewhere, twice, of another lane, of a lane that there is not; its length; among requests
    first, second = lane_field(*shared[:3]), lane_field(*plain)
    for fields in (mark + first + second, first + second + mark, first + mark + mark + second, first + field(0x12, b'\1') + second,
                   first + field(0x12, b'\x40') + second, first + second + mark + field(0x12, b'\1'), first + mark + second + field(0x12, b'\1'),
                   first + field(0x12) + second, first + field(0x12, b'\0\0') + second, first + mark[:3]):
        add(head + fields + END + put_train(1, 1, 1, 1) + TAKE + END)
    add(mark + head + first + END)
    add(head + mark + first + END)
    add(head + first + field(0x11, b'\0') + mark + END)
    add(junction + TAKE + mark + END)
    # 11, then 70, then 12, then 71 or 13
    for k in (0, 1, 2, 255):
        add(junction + b''.join(put_train(k, t, 9, n) for t in (0, 1, 7, 8, 255) for n in (0, 100, 101)) + 4 * TAKE + END)
    eight = b''.join(put_train(0, 3, i, 10) for i in range(TRAIN_ROOM))
    add(junction + eight + put_train(0, 3, 8, 10) + put_train(0, 3, 8, 101) + put(0, 9, 10) + TAKE + put_train(0, 3, 10, 10) + put_train(0, 3, 11, 10)
        + RESTART + END)
    add(junction + 9 * put(0, 1, 10) + put_train(0, 1, 2, 10) + TAKE + put(0, 3, 10) + put_train(0, 0, 4, 10) + END)
    add(junction + 9 * put(1, 1, 10) + put_train(1, 0, 2, 10) + put_train(1, 1, 2, 10) + 2 * TAKE + END)
    # every train's queue full
    add(junction + b''.join(put_train(0, t, 10 * t + i, 100 - t) for i in range(TRAIN_ROOM + 1) for t in range(TRAINS)) + (ROOM + 1) * TAKE + END)
    # every cut of a put with a train
    for n in range(12):
        add(junction + put_train(0, 3, 1, 64)[:n])
    # deficits count bare bytes: the same turns whatever h is
    for h in (0, 40):
        add(setup(shared, plain, framing=field(0x11, bytes([h]))) + three + SETS + 3 * (TAKE + lag(0)) + 4 * TAKE + END)
    # at random, two shared lanes and one that is not
    lanes = ((3, 300, 64, 'shared'), (7, 200, 1500), (63, 500, 200, 'shared'))
    for _ in range(6):
        requests = b''
        for step in range(30):
            k, _, longest, *several = chance.choice(lanes)
            length = chance.choice((chance.randint(1, longest), longest))
            record = put_train(k, chance.choice((0, 1, 1, 4)), step, length) if several else put(k, step, length)
            requests += chance.choice((record, record, record, TAKE, TAKE, LOOK))
        add(setup(*lanes) + requests + 20 * TAKE + RESTART + END)


inputs()
here = pathlib.Path(__file__).parent
stdin = b''.join(limit.to_bytes(2, 'big') + table.to_bytes(4, 'big') + area.to_bytes(2, 'big') + len(data).to_bytes(2, 'big') + data
                 for data, limit, table, area in frames)
assert len(stdin) <= 65536, len(stdin)
(here / 'stdin').write_bytes(stdin)
(here / 'stdout').write_text(''.join(expected(*frame) for frame in frames))
print(len(frames), 'frames,', len(stdin), 'bytes')
