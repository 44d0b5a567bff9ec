#!/usr/bin/env python3
"""Writes the vectors of plan_vectors (stdin) and the lines that are expected of them (stdout), in the folder that this file stands in.

The expected lines are worked here from the rules alone (docs/RULES.md: numbers R1, setups R8, refusals R14); nothing here runs, reads or was copied
from the program. Run it after a change of the rules, and compare what changed in stdout line by line.
"""
import itertools
import pathlib

# ---- the rules

LANES = range(0, 64)
WEIGHTS = range(1, 1024 + 1)
LONGEST = range(64, 1500 + 1)
MOST_WEIGHT = 1024
DEFAULT_LONGEST = {1: 1500, 2: 576}
FRAMING = range(0, 64 + 1)
LENGTHS = {0x01: [2], 0x10: [3, 5], 0x11: [1], 0x12: [1], 0x7F: [0]}


class No(Exception):
    """A refusal: number, place."""


def u16(octets):
    high, low = octets
    return 256 * high + low


def read(data, place):
    """The setup that stands at a place: its format, its lanes in the order of their fields, and the place after its 0x7F."""
    lanes = []
    form = None
    first = True
    framing = 0
    before = None
    while True:
        tag_place = min(place, len(data))
        left = data[place:]
        # 1 (header), 2, 3, 1 (value)
        if len(left) < 3:
            raise No(1, tag_place)
        tag, length = left[0], u16(left[1:3])
        if tag not in LENGTHS:
            raise No(2, place)
        if length not in LENGTHS[tag]:
            raise No(3, place)
        value = left[3:3 + length]
        if len(value) < length:
            raise No(1, place)
        # 4
        if first != (tag == 0x01):
            raise No(4, place)
        if tag == 0x10 and lanes and value[0] <= lanes[-1][0]:
            raise No(4, place)
        if tag == 0x7F and not lanes:
            raise No(4, place)
        if tag == 0x11 and before != 0x01:
            raise No(4, place)
        if tag == 0x12 and (before != 0x10 or value[0] != lanes[-1][0]):
            raise No(4, place)
        # 50 to 54, each at the first byte of its number, then 6 at the weight
        if tag == 0x11 and value[0] not in FRAMING:
            raise No(54, place + 3)
        if tag == 0x01:
            form = u16(value)
            if form not in DEFAULT_LONGEST:
                raise No(50, place + 3)
        if tag == 0x10:
            lane, weight = value[0], u16(value[1:3])
            longest = u16(value[3:5]) if length == 5 else DEFAULT_LONGEST[form]
            if lane not in LANES:
                raise No(51, place + 3)
            if weight not in WEIGHTS:
                raise No(52, place + 4)
            if longest not in LONGEST:
                raise No(53, place + 6)
            if weight + sum(w for _, w, *_ in lanes) > MOST_WEIGHT:
                raise No(6, place + 4)
            lanes.append((lane, weight, longest, framing))
        if tag == 0x12:
            lanes[-1] += ('shared',)
        if tag == 0x11:
            framing = value[0]
        first = False
        before = tag
        place += 3 + length
        if tag == 0x7F:
            return form, lanes, place


def whole(data):
    form, lanes, place = read(data, 0)
    if place < len(data):
        raise No(4, place)
    return form, lanes, place


def line_of(reader, *args):
    try:
        form, lanes, place = reader(*args)
    except No as no:
        return 'no %d %d' % no.args
    return 'format %d, lanes %d to %d,%s' % (form, len(lanes), place, ''.join(' ' + '/'.join(map(str, lane)) for lane in lanes))


# ---- building inputs

def field(tag, value=b'', length=None):
    length = len(value) if length is None else length
    return bytes([tag, length >> 8, length & 255]) + value


def number(n):
    return bytes([n >> 8, n & 255])


def lane(k, weight, longest=None):
    return field(0x10, bytes([k]) + number(weight) + (number(longest) if longest is not None else b''))


def framing(h):
    return field(0x11, bytes([h]))


def shared(k):
    return field(0x12, bytes([k]))


FORMAT = field(0x01, number(1))
END = field(0x7F)
GOOD = FORMAT + lane(0, 512, 1500) + lane(1, 256) + END

vectors = []


def add(note, data, place=0):
    vectors.append((note, bytes(data), place))


def setup(note, *fields):
    add(note, FORMAT + b''.join(fields) + END)


# ---- the vectors

add('the setup of the first session (R16.1)', FORMAT + lane(0, 512, 1500) + lane(1, 256, 1500) + END)
for cut in range(len(GOOD) + 1):
    add('a good setup cut at byte %d' % cut, GOOD[:cut])

for k in (0, 1, 62, 63, 64, 255):
    setup('lane %d' % k, lane(k, 1, 64))
    setup('lane %d, no longest' % k, lane(k, 1))
for w in (0, 1, 2, 255, 256, 1023, 1024, 1025, 1280, 65535):
    setup('weight %d' % w, lane(0, w, 64))
    setup('weight %d, no longest' % w, lane(0, w))
for n in (0, 1, 63, 64, 65, 255, 256, 1499, 1500, 1501, 65535):
    setup('longest %d' % n, lane(0, 1, n))
for v in (0, 1, 2, 3, 255, 256, 257, 258, 512, 513, 514, 65535):
    add('format %d' % v, field(0x01, number(v)) + lane(0, 1) + END)
# short and long fields, side by side in one setup, in both formats
for v in (1, 2):
    form = field(0x01, number(v))
    add('format %d, every longest left out' % v, form + b''.join(lane(k, 16) for k in range(64)) + END)
    add('format %d, every longest given' % v, form + b''.join(lane(k, 16, 64 + k) for k in range(64)) + END)
    add('format %d, both lengths' % v, form + lane(2, 10, 100) + lane(7, 20) + lane(31, 30, 1500) + lane(63, 40) + END)
    add('format %d, framing, both lengths' % v, form + framing(20) + lane(0, 1) + lane(1, 1, 576) + lane(2, 1, 1500) + END)
    for n in (63, 64, 575, 576, 577, 1500, 1501):
        add('format %d, longest %d beside a short field' % (v, n), form + lane(0, 1, n) + lane(1, 1) + END)
    for w in (0, 1024, 1025):
        add('format %d, weight %d, no longest' % (v, w), form + lane(9, w) + END)
    add('format %d, and no lane' % v, form + END)
    add('format %d twice' % v, form + form + lane(0, 1) + END)
    add('format 1 after format %d' % v, form + FORMAT + lane(0, 1) + END)
    add('format %d after a lane' % v, FORMAT + lane(0, 1) + form + END)
    add('format %d in one byte' % v, field(0x01, bytes([v])) + lane(0, 1) + END)
    add('format %d cut' % v, form[:-1])
    add('format %d in a longer input' % v, b'\x01\x02\x03' + form + lane(0, 1) + END + b'\x21', 3)

for h in (0, 1, 20, 63, 64, 65, 128, 255):
    setup('framing %d' % h, framing(h), lane(0, 512, 64), lane(63, 1))
    add('framing %d first' % h, framing(h) + FORMAT + lane(0, 1) + END)
    add('framing %d and no 0x01' % h, framing(h) + lane(0, 1) + END)
    setup('framing %d after a lane' % h, lane(0, 1), framing(h))
    setup('framing %d between lanes' % h, lane(0, 1), framing(h), lane(1, 1))
    setup('framing %d twice' % h, framing(h), framing(h), lane(0, 1))
    setup('framing 1, a lane, framing %d' % h, framing(1), lane(0, 1), framing(h), lane(1, 1))
    setup('framing %d and no lane' % h, framing(h))
    setup('framing %d, then 0x01 again' % h, framing(h), FORMAT, lane(0, 1))
    add('framing %d after 0x7F' % h, FORMAT + lane(0, 1) + END + framing(h))
    add('framing %d cut in its value' % h, FORMAT + framing(h)[:-1])
    add('framing %d cut in its header' % h, FORMAT + framing(h)[:2])
    add('format 3, then framing %d' % h, field(0x01, number(3)) + framing(h) + lane(0, 1) + END)
setup('no framing: the same plan as framing 0', lane(0, 512, 64), lane(63, 1))
for length in (0, 2, 3, 255, 256, 257):
    setup('framing of length %d' % length, field(0x11, bytes(min(length, 3)), length), lane(0, 1))

setup('weights sum to 1,023', lane(0, 1000, 64), lane(1, 23, 64))
setup('weights sum to 1,024', lane(0, 1000, 64), lane(1, 24, 64))
setup('weights sum to 1,025', lane(0, 1000, 64), lane(1, 25, 64))
setup('weights sum to 1,025 with the first of three', lane(0, 1024, 64), lane(1, 1, 64), lane(2, 1, 64))
setup('weights over by far, then a lane that is not rising', lane(3, 1024), lane(4, 1024), lane(0, 1))

setup('64 lanes, weights sum to 1,024', *[lane(k, 16, 64 + k) for k in range(64)])
setup('64 lanes, no longest', *[lane(k, 1) for k in range(64)])
setup('64 lanes, weights sum to 1,025 at the last', *[lane(k, 16 + (k == 63), 64) for k in range(64)])
setup('64 lanes and one more', *[lane(k, 1) for k in range(65)])
setup('64 lanes and the last again', *[lane(k, 1) for k in range(64)], lane(63, 1))
setup('lanes with gaps, of both lengths', lane(2, 10, 100), lane(7, 20), lane(31, 30, 1500), lane(63, 40))

setup('equal lanes', lane(5, 1), lane(5, 1))
setup('falling lanes', lane(5, 1), lane(4, 1))
setup('lane 0 after lane 1', lane(1, 1), lane(0, 1))
setup('0x01 again, after itself', FORMAT)
setup('0x01 again, after a lane', lane(0, 1), FORMAT)
setup('0x7F with no lane')
add('0x7F first', END)
add('0x7F first, and a byte after it', END + b'\0')
add('0x7F with no lane, and a byte after it', FORMAT + END + b'\0')
add('lane first', lane(0, 1) + END)
add('lane first, then 0x01', lane(0, 1) + FORMAT + END)
add('lane over 63 first', lane(64, 1) + END)
add('two setups, one after the other', GOOD + GOOD)
for after in (b'\0', b'\x7f', b'\x01\x00\x02', b'\x20' + bytes(9)):
    add('a byte after 0x7F, and %d more' % (len(after) - 1), GOOD + after)

# every other tag, as the first field and later
for tag in [t for t in (0x00, 0x02, 0x0F, 0x11, 0x12, 0x13, 0x20, 0x21, 0x25, 0x30, 0x7E, 0x80, 0xFF)]:
    add('tag %02X first' % tag, field(tag, number(1)) + lane(0, 1) + END)
    setup('tag %02X later' % tag, lane(0, 1), field(tag))
# every length near the right ones, and the high byte of the length
for tag in (0x01, 0x10, 0x11, 0x12, 0x7F):
    for length in (0, 1, 2, 3, 4, 5, 6, 255, 256, 258, 259, 261, 512, 768, 1280, 65535):
        value = (b'\x05' + number(1) + number(64) if tag == 0x10 else number(1)) + bytes(300)
        setup('tag %02X, length %d' % (tag, length), lane(0, 1), field(tag, value[:min(length, 6)], length))
        add('tag %02X first, length %d' % (tag, length), field(tag, value[:min(length, 6)], length))

# every set of faults in one lane field, which stands after 0x01 and lane 5 of weight 1,000
FAULTS = ('header cut', 'tag', 'length', 'value cut', 'not rising', 'weight', 'longest', 'over')
for bits in itertools.product((False, True), repeat=len(FAULTS)):
    faults = dict(zip(FAULTS, bits))
    k = 5 if faults['not rising'] else 6
    w = (1025 if faults['over'] else 0) if faults['weight'] else (25 if faults['over'] else 24)
    n = 1501 if faults['longest'] else 1500
    body = bytes([k]) + number(w) + number(n)
    f = field(0x13 if faults['tag'] else 0x10, body, 4 if faults['length'] else 5)
    data = FORMAT + lane(5, 1000, 64) + f
    if faults['value cut']:
        data = data[:-2] if not faults['length'] else data[:-3]
    if faults['header cut']:
        data = FORMAT + lane(5, 1000, 64) + f[:2]
    elif not faults['value cut']:
        data += END
    add('faults: ' + (', '.join(x for x in FAULTS if faults[x]) or 'none'), data)
# every set of faults in a lane field's own numbers
for lane_bad, weight_bad, longest_bad, first in itertools.product((False, True), repeat=4):
    f = lane(64 if lane_bad else 3, 0 if weight_bad else 9, 63 if longest_bad else 99)
    add('numbers: lane %d, weight %d, longest %d, first %d' % (lane_bad, weight_bad, longest_bad, first), (b'' if first else FORMAT) + f + END)
# each pair of faults of the numbers in one lane field, which stands after lane 5 of weight 1,000: with a longest and without
PAIRS = ('not rising', 'lane', 'weight', 'longest', 'over')
for pair in itertools.combinations(PAIRS, 2):
    # a lane over 63 rises above every lane that was read; a weight outside its numbers that goes over is 1,025
    if pair == ('not rising', 'lane'):
        continue
    k = 5 if 'not rising' in pair else (64 if 'lane' in pair else 6)
    w = (1025 if 'over' in pair else 0) if 'weight' in pair else (25 if 'over' in pair else 24)
    setup('two faults: ' + ', '.join(pair), lane(5, 1000, 64), lane(k, w, 63 if 'longest' in pair else 64))
    if 'longest' not in pair:
        setup('two faults, no longest: ' + ', '.join(pair), lane(5, 1000, 64), lane(k, w))
# a number that is off in its low byte alone, or in its high byte alone: the place is that of its first byte
for v in (0, 3, 257, 258):
    add('format %d, at its first byte' % v, field(0x01, number(v)) + END)
for w in (0, 1025, 2048):
    setup('weight %d, at its first byte' % w, lane(9, w, 64))
for n in (63, 1501, 1756):
    setup('longest %d, at its first byte' % n, lane(9, 1, n))
# 0x01: again, with another format, cut
for again, other, cut in itertools.product((False, True), repeat=3):
    f = field(0x01, number(3 if other else 1))
    data = (FORMAT + lane(0, 1) if again else b'') + (f[:-1] if cut else f)
    add('0x01: again %d, other format %d, cut %d' % (again, other, cut), data)
# two fields, each with a fault: the first decides, in both orders
KINDS = {
    2: field(0x13),
    3: field(0x10, bytes(4)),
    4: lane(5, 1, 64),
    51: lane(64, 1, 64),
    52: lane(40, 0, 64),
    53: lane(41, 1, 63),
    6: lane(42, 25, 64),
}
for (a, one), (b, two) in itertools.permutations(KINDS.items(), 2):
    setup('fault %d, then fault %d' % (a, b), lane(5, 1000, 64), one, two)
for a, one in KINDS.items():
    add('fault %d, then the input ends in a header' % a, FORMAT + lane(5, 1000, 64) + one + b'\x10')
    add('the input ends in the value of a field, after which fault %d would be' % a, FORMAT + lane(5, 1000, 64) + (lane(6, 1, 64) + one)[:6])

# shared lanes: the field directly after its lane's, of both lengths
SHARED = FORMAT + framing(20) + lane(3, 512, 1500) + shared(3) + lane(9, 256) + shared(9) + END
for cut in range(len(SHARED) + 1):
    add('a setup with shared lanes cut at byte %d' % cut, SHARED[:cut])
for v, longest in itertools.product((1, 2), (None, 64, 1500)):
    form = field(0x01, number(v))
    for k in (0, 1, 62, 63):
        add('format %d, lane %d shared' % (v, k), form + lane(k, 1, longest) + shared(k) + END)
setup('every lane shared', *[lane(k, 16, 64) + shared(k) for k in range(64)])
setup('every other lane shared', *[lane(k, 16) + shared(k) * (k % 2) for k in range(64)])
setup('the last lane alone shared', *[lane(k, 16) for k in range(64)], shared(63))
setup('a shared lane between others', lane(2, 10, 100), lane(7, 20), shared(7), lane(31, 30, 1500), lane(63, 40))
setup('framing and a shared lane', framing(64), lane(7, 20), shared(7), lane(8, 20))
# the field names another lane, one over 63 among them, with that lane in the setup or not
for k, other in ((5, 4), (5, 6), (5, 0), (5, 63), (5, 64), (5, 69), (5, 255), (0, 1), (0, 64), (0, 128), (63, 62), (63, 64), (63, 0), (63, 127), (63, 191)):
    setup('lane %d, then 0x12 of %d' % (k, other), lane(k, 1), shared(other))
    setup('lane %d with a longest, then 0x12 of %d' % (k, other), lane(k, 1, 64), shared(other))
setup('0x12 of the lane before the last', lane(0, 1), lane(1, 1), shared(0))
setup('0x12 of the lane to come', lane(0, 1), shared(1), lane(1, 1))
# the field elsewhere, or twice
for k in (0, 5, 63, 64, 255):
    add('0x12 of %d first' % k, shared(k) + FORMAT + lane(5, 1) + END)
    add('0x12 of %d alone' % k, shared(k))
    setup('0x12 of %d before its lane' % k, shared(k), lane(5, 1))
    setup('0x12 of %d after framing' % k, framing(1), shared(k), lane(5, 1))
    setup('0x12 of %d and no lane' % k, shared(k))
    setup('0x12 of %d after 0x12' % k, lane(5, 1), shared(5), shared(k))
    setup('0x12 of %d after 0x12, and a lane' % k, lane(5, 1), shared(5), shared(k), lane(6, 1))
    setup('0x12 of %d after a later lane and its own' % k, lane(5, 1), lane(63, 1), shared(63), shared(k))
    add('0x12 of %d after 0x7F' % k, FORMAT + lane(5, 1) + END + shared(k))
    add('0x12 of %d after 0x12 and 0x7F' % k, FORMAT + lane(5, 1) + shared(5) + END + shared(k))
    add('0x12 of %d cut in its value' % k, FORMAT + lane(5, 1) + shared(k)[:-1])
    add('0x12 of %d cut in its value, in no place' % k, FORMAT + shared(k)[:-1])
    add('0x12 of %d, then the input ends' % k, FORMAT + lane(5, 1) + shared(k))
# what follows a shared lane is judged as behind any lane
setup('the same lane again, shared', lane(5, 1), shared(5), lane(5, 1))
setup('the same lane again, shared twice', lane(5, 1), shared(5), lane(5, 1), shared(5))
setup('a lower lane after a shared one', lane(5, 1), shared(5), lane(4, 1))
setup('0x01 after a shared lane', lane(5, 1), shared(5), FORMAT)
setup('framing after a shared lane', lane(5, 1), shared(5), framing(0))
setup('weights over, behind a shared lane', lane(5, 1000), shared(5), lane(6, 25), shared(6))
setup('weights to 1,024, behind a shared lane', lane(5, 1000), shared(5), lane(6, 24), shared(6))
setup('an unknown tag after a shared lane', lane(5, 1), shared(5), field(0x13))
add('two setups with shared lanes, one after the other', SHARED + SHARED)
# a lane field's own fault goes before the 0x12 behind it; a fault of 0x12 before those of the next lane field
for note, f in (('lane', lane(64, 1, 64)), ('weight', lane(5, 0, 64)), ('longest', lane(5, 1, 63)), ('over', lane(5, 1025 - 1000, 64))):
    setup('a wrong %s, then 0x12 of it' % note, lane(4, 1000), f, shared(f[3]))
    setup('0x12 of another lane, then a wrong %s' % note, lane(4, 1000), shared(5), f)
for length in (0, 2, 3, 255, 256, 257, 65535):
    setup('0x12 of length %d' % length, lane(5, 1), field(0x12, b'\x05' * min(length, 3), length))
    setup('0x12 of length %d, in no place' % length, field(0x12, b'\x05' * min(length, 3), length), lane(5, 1))
    setup('0x12 of length %d, of another lane' % length, lane(5, 1), field(0x12, b'\x06' * min(length, 3), length))

# a setup that stands in a longer input: places count from the input's first byte
for before in (1, 3, 22, 200):
    data = bytes((7 * i + 1) % 256 for i in range(before))
    add('a good setup at %d' % before, data + GOOD, before)
    add('a good setup at %d, and more after it' % before, data + GOOD + b'\x20\x00\x07', before)
    add('lanes that do not rise, at %d' % before, data + FORMAT + lane(1, 1) + lane(1, 1) + END, before)
    add('a cut setup at %d' % before, data + GOOD[:-4], before)
    add('shared lanes at %d' % before, data + SHARED + b'\x12\x00\x01\x09', before)
    add('a lane shared twice, at %d' % before, data + FORMAT + lane(1, 1) + shared(1) + shared(1) + END, before)
    add('another lane shared, at %d' % before, data + FORMAT + lane(1, 1) + shared(0) + END, before)
add('the place is the end', GOOD, len(GOOD))
add('the place is one past the end', GOOD, len(GOOD) + 1)
add('the place is 100 past the end', GOOD, len(GOOD) + 100)
add('no byte, place 5', b'', 5)
add('the place is in the middle of a field', GOOD, 6)
add('the place is at the 0x7F', GOOD, len(GOOD) - 3)

# ---- the two files

def text_of(data, place):
    here = min(place, len(data))
    shown = data[:here].hex().upper() + ('@' + '+' * (place - here) if place else '') + data[here:].hex().upper()
    return shown


folder = pathlib.Path(__file__).parent
with open(folder / 'stdin', 'w') as given, open(folder / 'stdout', 'w') as wanted:
    for note, data, place in vectors:
        given.write(('%s # %s' % (text_of(data, place), note)).strip() + '\n')
        wanted.write('%s; %s\n' % (line_of(whole, data), line_of(read, data, place)))
