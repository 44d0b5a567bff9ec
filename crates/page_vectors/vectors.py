#!/usr/bin/env python3
"""Writes the frames of page_vectors (stdin) and the lines that are expected of them (stdout), in the folder that this file stands in.

The expected lines are worked here from the rules alone (docs/RULES.md: setups R8, refusals R14; pages as docs/DECISIONS.md reads them); nothing here
runs, reads or was copied from the program. Run it after a change of the rules, and compare what changed in stdout line by
line. `vectors.py -v` prints each vector with its note and its line.
"""
import itertools
import pathlib
import random
import sys


class No(Exception):
    """A refusal: number, place."""


def number(octets):
    return 256 * octets[0] + octets[1]


def field_at(data, place, end, lengths):
    """The field at a place of bytes that end at `end`: its tag, where its value is, and the next place. 1 (header), 2, 3, 1 (value)."""
    if end - place < 3:
        raise No(1, place)
    tag, length = data[place], number(data[place + 1:place + 3])
    right = lengths(tag)
    if right is None:
        raise No(2, place)
    if right and length not in right:
        raise No(3, place)
    if end - place - 3 < length:
        raise No(1, place)
    return tag, place + 3, place + 3 + length


# ---- a setup, which stands in a page from a place to an end

SETUP = {0x01: [2], 0x10: [3, 5], 0x11: [1], 0x12: [1], 0x7F: [0]}


def setup_at(data, place, end):
    form, framing, lanes, total, before = None, 0, [], 0, None
    while True:
        tag, value, behind = field_at(data, place, end, SETUP.get)
        if tag == 0x01:
            misplaced = before is not None
        elif tag == 0x11:
            misplaced = before != 0x01
        elif tag == 0x12:
            misplaced = before != 0x10 or data[value] != lanes[-1][0]
        elif tag == 0x10:
            misplaced = before is None or lanes and data[value] <= lanes[-1][0]
        else:
            misplaced = not lanes
        if misplaced:
            raise No(4, place)
        if tag == 0x01:
            form = number(data[value:])
            if form not in (1, 2):
                raise No(50, value)
        elif tag == 0x11:
            framing = data[value]
            if framing > 64:
                raise No(54, value)
        elif tag == 0x10:
            lane, weight = data[value], number(data[value + 1:])
            longest = number(data[value + 3:]) if behind - value == 5 else {1: 1500, 2: 576}[form]
            if lane > 63:
                raise No(51, value)
            if not 1 <= weight <= 1024:
                raise No(52, value + 1)
            if not 64 <= longest <= 1500:
                raise No(53, value + 3)
            total += weight
            if total > 1024:
                raise No(6, value + 1)
            lanes.append((lane, weight, longest, framing))
        elif tag == 0x12:
            lanes[-1] += ('shared',)
        else:
            if behind < end:
                raise No(4, behind)
            return form, lanes
        place, before = behind, tag


# ---- a page

def page_lengths(tag):
    if tag == 0x40:
        return [2]
    if tag == 0x7F:
        return [0]
    return [] if tag == 0x41 or tag >= 0x80 else None


def page(data):
    wanted, place = [0x40, 0x41, 0x7F], 0
    edition = plan = None
    while wanted:
        tag, value, behind = field_at(data, place, len(data), page_lengths)
        if tag >= 0x80 and len(wanted) < 3:
            pass
        elif tag != wanted[0]:
            raise No(4, place)
        else:
            wanted.pop(0)
            if tag == 0x40:
                edition = number(data[value:])
            if tag == 0x41:
                plan = setup_at(data, value, behind)
        place = behind
    if place < len(data):
        raise No(4, place)
    return edition, plan


def line_of(data):
    try:
        edition, (form, lanes) = page(data)
    except No as no:
        return 'no %d %d' % no.args
    return 'edition %d, format %d, lanes %d,%s' % (edition, form, len(lanes), ''.join(' ' + '/'.join(map(str, lane)) for lane in lanes))


# ---- building inputs

def two(n):
    return bytes([n >> 8, n & 255])


def field(tag, value=b'', length=None):
    return bytes([tag]) + two(len(value) if length is None else length) + value


def lane(k, weight, longest=None):
    return field(0x10, bytes([k]) + two(weight) + (two(longest) if longest is not None else b''))


def shared(k):
    return field(0x12, bytes([k]))


def edition(n):
    return field(0x40, two(n))


def settings(setup):
    return field(0x41, setup)


FORM = field(0x01, two(1))
END = field(0x7F)
SMALL = FORM + lane(3, 7) + END
GOOD = FORM + field(0x11, b'\x14') + lane(0, 512, 1500) + lane(1, 256) + END
SKIPPED = (field(0x80), field(0xFF, b'\x40\x00\x02\x00\x09'), field(0x81, END), field(0xC0, settings(SMALL)), field(0x90, bytes(300)))

vectors = []


def add(note, *fields):
    vectors.append((note, b''.join(fields)))


# ---- the vectors

add('a page', edition(1), settings(SMALL), END)
add('a page with framing', edition(2), settings(GOOD), END)
SHOWN = bytes.fromhex('400002 0007 C00002 AABB 410016 0100020002 100005 00 0200 05DC 100003 01 0100 7F0000 7F0000')
add('the page that docs/PAGES.md shows', SHOWN)
add('its weight of lane 1 made 0', SHOWN[:30] + bytes(2) + SHOWN[32:])
full = edition(513) + SKIPPED[1] + settings(SMALL) + SKIPPED[2] + END
for cut in range(len(full) + 1):
    add('a page with skipped fields, cut at byte %d' % cut, full[:cut])
add('64 lanes', edition(9), settings(FORM + b''.join(lane(k, 16, 64 + k) for k in range(64)) + END), END)
add('64 lanes, every other one shared', edition(9), settings(FORM + b''.join(lane(k, 16) + shared(k) * (k % 2) for k in range(64)) + END), END)
add('64 lanes, the sum over at the last', edition(9), SKIPPED[0], settings(FORM + b''.join(lane(k, 16 + (k == 63), 64) for k in range(64)) + END), END)
add('a skipped field of 4,000 bytes', edition(9), field(0xA5, bytes(4000)), settings(SMALL), END)

for n in (0, 1, 2, 255, 256, 257, 32767, 32768, 65534, 65535):
    add('edition %d' % n, edition(n), settings(SMALL), END)
for length in (0, 1, 2, 3, 256, 258, 512, 65535):
    add('0x40 of length %d' % length, field(0x40, bytes(min(length, 3)), length), settings(SMALL), END)
    add('0x7F of length %d' % length, edition(7), settings(SMALL), field(0x7F, bytes(min(length, 3)), length))
    add('0x7F of length %d, whole' % length, edition(7), settings(SMALL), field(0x7F, bytes(length % 600)))
    add('a skipped field of length %d' % length, edition(7), field(0x80, bytes(min(length, 3)), length), settings(SMALL), END)

# the value of 0x41 ends where its length says, and the setup inside with it
for off in range(-len(SMALL), 5):
    length = len(SMALL) + off
    add('0x41 longer than its setup by %d' % off, edition(7), field(0x41, SMALL[:length] + bytes(max(off, 0))), END)
    add('0x41, its length off by %d' % off, edition(7), field(0x41, SMALL, length), END)
    add('0x41, its length off by %d, behind skipped fields' % off, edition(7), SKIPPED[1], field(0x41, SMALL, length), SKIPPED[0], END)
add('an inner field that runs into the page', edition(7), field(0x41, FORM + lane(3, 7, 64)[:-2]), field(0x7F), END)
add('an inner 0x7F that is missing, and the page has one', edition(7), settings(SMALL[:-3]), END)
add('an inner 0x7F that is missing, behind skipped fields', edition(7), *SKIPPED[:3], settings(SMALL[:-3]), END)
add('two setups in one value', edition(7), settings(SMALL + SMALL), END)
add('a skipped field behind the inner 0x7F', edition(7), settings(SMALL + SKIPPED[0]), END)
add('a skipped field inside the setup', edition(7), settings(FORM + SKIPPED[0] + lane(3, 7) + END), END)
add('0x40 inside the setup', edition(7), settings(edition(7) + SMALL), END)
add('a page inside the setup', edition(7), settings(edition(7) + settings(SMALL) + END), END)
add('a bare setup for a page', SMALL)

# every tag near an edge, in each of the four places
for tag in (0x00, 0x01, 0x10, 0x20, 0x3F, 0x42, 0x7E, 0x80, 0x81, 0xFE, 0xFF):
    for value in (b'', b'\x00\x07', b'\x00\x00\x00'):
        f = field(tag, value)
        add('tag %02X first' % tag, f, edition(7), settings(SMALL), END)
        add('tag %02X behind 0x40' % tag, edition(7), f, settings(SMALL), END)
        add('tag %02X behind 0x41' % tag, edition(7), settings(SMALL), f, END)
        add('tag %02X behind 0x7F' % tag, edition(7), settings(SMALL), END, f)
for tag in (0x3F, 0x40, 0x41, 0x7F, 0x80):
    add('tag %02X, its value cut' % tag, edition(7), field(tag, b'\x00', 2))
    add('tag %02X first, its value cut' % tag, field(tag, b'\x00', 2))
    add('tag %02X, its header cut' % tag, edition(7), field(tag)[:2])

# every order of up to four fields
KINDS = {'E': edition(300), 'S': settings(SMALL), 'Z': END, 'X': SKIPPED[1]}
for count in range(5):
    for kinds in itertools.product(KINDS, repeat=count):
        add('fields ' + ' '.join(kinds), *(KINDS[k] for k in kinds))

# each fault of a setup, inside, behind skipped fields of several lengths, and with a later fault of the page
FAULTS = {
    'cut header': FORM + lane(3, 7) + b'\x7F\x00',
    'tag': FORM + field(0x13) + END,
    'length': FORM + field(0x10, bytes(4)) + END,
    'cut value': FORM + lane(3, 7)[:-1],
    'no format': lane(3, 7) + END,
    'format again': FORM + lane(3, 7) + FORM + END,
    'not rising': FORM + lane(3, 7) + lane(3, 7) + END,
    'no lane': FORM + END,
    'byte behind': SMALL + b'\x00',
    'format 3': field(0x01, two(3)) + lane(3, 7) + END,
    'lane 64': FORM + lane(64, 7) + END,
    'weight 0': FORM + lane(3, 0) + END,
    'weight 1,025': FORM + lane(3, 1025) + END,
    'longest 63': FORM + lane(3, 7, 63) + END,
    'longest 1,501': FORM + lane(3, 7, 1501) + END,
    'framing 65': FORM + field(0x11, b'\x41') + lane(3, 7) + END,
    'sum 1,025': FORM + lane(3, 1000) + lane(4, 25) + END,
    'shared elsewhere': FORM + shared(3) + lane(3, 7) + END,
    'shared twice': FORM + lane(3, 7) + shared(3) + shared(3) + END,
    'another lane shared': FORM + lane(3, 7) + shared(4) + END,
    'shared, its length 2': FORM + lane(3, 7) + field(0x12, bytes(2)) + END,
    'shared, cut': FORM + lane(3, 7) + shared(3)[:-1],
    'shared': FORM + lane(3, 1000) + shared(3) + lane(63, 24, 64) + shared(63) + END,
    'none': FORM + lane(3, 1000) + lane(63, 24, 64) + END,
    'empty': b'',
}
BEFORE = ((), SKIPPED[:1], SKIPPED[1:2], SKIPPED[:3])
BEHIND = ((END,), (SKIPPED[0], END), (field(0x42), END), (END, b'\x00'), (settings(SMALL), END), ())
for (name, setup), before in itertools.product(FAULTS.items(), BEFORE):
    add('inside: %s, behind %d skipped fields' % (name, len(before)), edition(7), *before, settings(setup), END)
for (name, setup), behind in itertools.product(FAULTS.items(), BEHIND):
    add('inside: %s, then %s' % (name, b''.join(behind).hex()), edition(7), settings(setup), *behind)
for (name, setup), first in itertools.product(FAULTS.items(), (field(0x42), field(0x40, b'\x07'), SKIPPED[0], settings(setup), b'')):
    add('inside: %s, after another first field' % name, first, settings(setup), END)

# whole pages and damaged ones, drawn
draw = random.Random(40)
for case in range(120):
    lanes = sorted(draw.sample(range(64), draw.randint(1, 4)))
    setup = field(0x01, two(draw.randint(1, 2)))
    if draw.random() < 0.3:
        setup += field(0x11, bytes([draw.randint(0, 64)]))
    setup += b''.join(lane(k, draw.randint(1, 256), draw.choice([None, 64, 576, 1500])) for k in lanes) + END

    def extras():
        return b''.join(field(draw.randint(128, 255), draw.randbytes(draw.randint(0, 6))) for _ in range(draw.randint(0, 3)))
    data = bytearray(edition(draw.randint(0, 65535)) + extras() + settings(setup) + extras() + END)
    if case % 2:
        for _ in range(draw.randint(1, 2)):
            data[draw.randrange(len(data))] = draw.choice([0, 1, 2, 3, 64, 65, 127, 128, 255, draw.randrange(256)])
    add('drawn %d' % case, bytes(data))

# ---- the two files

folder = pathlib.Path(__file__).parent
with open(folder / 'stdin', 'wb') as given, open(folder / 'stdout', 'w') as expected:
    for note, data in vectors:
        given.write(two(len(data)) + data)
        expected.write(line_of(data) + '\n')
        if '-v' in sys.argv:
            print('%s # %s: %s' % (data.hex().upper(), note, line_of(data)))
