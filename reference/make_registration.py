"""Makes the replay list of the table: opening, registration, removal, shares (crates/replay, registration).

Each section covers one rule of document 01 from both sides; the numbers expected are typed in beside the
calls, and everything else that a line shows is calculated by gateway.py.

    python3 reference/make_registration.py
"""

from gateway import COUNTER_TYPES, LARGEST_IOA, POINT_ELEMENT, record, table_octets
from script import Draw, Script

# Twelve octets of which none is zero: what lies past an element must be kept as zero.
FULL = bytes(range(0xF1, 0xFD))


def spread(count, reservation, ceiling, first=1, step=1):
    """A flat plan of so many stations that are alike."""
    return [number for i in range(count) for number in (first + i * step, reservation, ceiling)]


def opening(s):
    """Open: K, stations, CA, shares, memory, on both sides of each bound."""
    # "Capacity K is 1 to 4,096", also as numbers that fall into it when cut to sixteen bits
    s.lend_table(table_octets(4096, 64))
    for capacity in 0, 4097, 4352, 65535, 65536, 65537, 65544, 2**31, 2**32 - 1:
        s.open(capacity, [7, 0, 0], expect=10)
    for capacity in 1, 2, 4095, 4096:
        s.open(capacity, [7, 0, 0], expect=0)
        s.share(7, expect=0, free=capacity, unmet=0)
    s.lend_table(table_octets(100, 64) + 500)
    # "A plan lists 1 to 64 stations"
    s.open(100, [], expect=10)
    for stations in 1, 2, 63, 64:
        s.open(100, spread(stations, 1, 2), expect=0)
        s.share(stations, expect=0, unmet=stations)
        s.share(stations + 1, expect=12)
    s.open(100, spread(65, 1, 2), expect=10)
    s.open(100, spread(85, 1, 2), expect=10)
    # a length that is not a multiple of three is an invalid plan
    for numbers in 1, 2, 4, 5, 190, 191, 193, 194:
        s.open(100, spread(65, 1, 2)[:numbers], expect=10)
    # "CA strictly ascending, each 1 to 65,534"
    for ca, number in (0, 10), (1, 0), (65534, 0), (65535, 10):
        s.open(9, [ca, 0, 0], expect=number)
    for first, second, number in (
        (1, 2, 0), (2, 2, 10), (2, 1, 10), (0, 1, 10), (1, 65534, 0), (65534, 65534, 10), (65534, 65535, 10),
        (256, 1, 10), (255, 256, 0), (511, 512, 0), (512, 511, 10),
    ):
        s.open(9, [first, 1, 1, second, 1, 1], expect=number)
    for third, number in (2, 10), (3, 10), (4, 0):
        s.open(9, [1, 0, 0, 3, 0, 0, third, 0, 0], expect=number)
    # "r ≤ c ≤ K"
    for reservation, ceiling, number in (
        (0, 0, 0), (0, 9, 0), (0, 10, 10), (9, 9, 0), (10, 10, 10), (5, 5, 0), (6, 5, 10), (1, 0, 10),
        (0, 65535, 10), (65535, 65535, 10), (65535, 0, 10), (9, 8, 10), (256, 9, 10), (0, 265, 10),
    ):
        s.open(9, [7, reservation, ceiling], expect=number)
        s.open(9, [7, 0, 0, 8, reservation, ceiling], expect=number)
    # "the r adding up to at most K", also where the sum passes sixteen bits
    s.open(9, [1, 4, 9, 2, 5, 9], expect=0)
    s.open(9, [1, 5, 9, 2, 5, 9], expect=10)
    s.open(9, [1, 3, 3, 2, 3, 3, 3, 3, 3], expect=0)
    s.open(9, [1, 3, 3, 2, 3, 3, 3, 4, 4], expect=10)
    s.lend_table(table_octets(4096, 64))
    s.open(4096, spread(64, 64, 4096), expect=0)
    s.open(4096, spread(63, 64, 4096) + [100, 65, 65], expect=10)
    s.open(4096, spread(64, 1024, 1024), expect=10)
    s.open(4096, spread(64, 4096, 4096), expect=10)
    s.open(1, spread(64, 0, 1), expect=0)
    # "table memory below 48 × K + 8 × stations + 64 octets"
    for capacity, stations in (1, 1), (8, 1), (3, 64), (4096, 1), (4096, 64):
        needed = 48 * capacity + 8 * stations + 64
        for length, number in (needed - 1, 10), (needed, 0), (needed + 1, 0), (needed + 77, 0):
            s.lend_table(length)
            s.open(capacity, spread(stations, 0, 1), expect=number)
            s.share(1, expect=0 if number == 0 else 3)
    for length in 0, 1, 63, 64, 112, 119:
        s.lend_table(length)
        s.open(1, [7, 0, 1], expect=10)
    # "A refused opening leaves what was there, a table included"; one that is done starts afresh
    s.opened(4, [7, 1, 3, 9, 0, 2], more=30)
    s.batch([record(7, 1, 1), record(9, 2, 1)], expect=0)
    s.open(5, [7, 1, 3, 9, 0, 2], expect=10)
    s.open(0, [7, 1, 3], expect=10)
    s.share(9, expect=0, held=1)
    s.open(4, [9, 1, 3], expect=0)
    s.share(9, expect=0, held=0, free=4, unmet=1)
    s.share(7, expect=12)


def one_point(s):
    """Register one point: its own tests 11 to 15, and 17."""
    # each of the 256 types; octets past the element are ignored and kept as zero
    s.opened(40, [7, 0, 40, 300, 0, 40], more=5)
    for kind in range(256):
        s.register(record(7, kind, kind, FULL), expect=0 if kind in POINT_ELEMENT else 11)
    s.share(7, expect=0, held=30)
    s.clear(expect=0, place=30)
    # "IOA is 0 to 16,777,215."
    for ioa in 0, 1, 255, 256, 65535, 65536, LARGEST_IOA:
        s.register(record(300, ioa, 1, FULL), expect=0)
    for ioa in LARGEST_IOA + 1, LARGEST_IOA + 2, 2**25, 2**31, 2**32 - 1:
        s.register(record(300, ioa, 1, FULL), expect=11)
    # "CA not in the plan"
    for ca in 0, 1, 6, 8, 44, 256 + 7, 299, 301, 65534, 65535:
        s.register(record(ca, 5, 1), expect=12)
    # "interrogation group not 1 to 16"; no group is not group 0, and then the octet is not read
    for i, (group, number) in enumerate(((0, 13), (1, 0), (2, 0), (15, 0), (16, 0), (17, 13), (32, 13), (255, 13))):
        s.register(record(7, 100 + i, 1, FULL, group=group), expect=number)
    for i, has in enumerate((0, 1, 2, 128, 255)):
        for group in 0, 3, 17:
            octets = bytearray(record(7, 200 + 20 * i + group, 1, FULL))
            octets[7], octets[8] = has, group
            s.register(octets, expect=0 if has == 0 or group == 3 else 13)
    s.clear(expect=0)
    # "counter group not 1 to 4", "counter group on a point that is no counter", 14 before 15
    for kind in COUNTER_TYPES:
        for group, number in (0, 14), (1, 0), (2, 0), (3, 0), (4, 0), (5, 14), (255, 14):
            s.register(record(7, 256 * kind + group, kind, FULL, counter_group=group), expect=number)
        s.register(record(7, 256 * kind + 6, kind, FULL, group=9, counter_group=4), expect=0)
    for has in 0, 1, 2, 255:
        for group in 0, 4, 5:
            octets = bytearray(record(300, 20 * has + group, 15, FULL))
            octets[9], octets[10] = has, group
            s.register(octets, expect=0 if has == 0 or group == 4 else 14)
    for kind in sorted(POINT_ELEMENT):
        for group in 0, 1, 4, 5:
            if kind not in COUNTER_TYPES:
                s.register(record(7, 77, kind, counter_group=group), expect=15 if group in (1, 4) else 14)
    s.clear(expect=0)
    # the spare octet is ignored
    s.register(record(7, 1, 9, FULL, spare=255), expect=0)
    # "per point 11 to 17 in table order": each number before all that come after it
    s.register(record(7, 1, 9, FULL), expect=17)
    s.register(record(7, 1, 1, FULL), expect=17)
    s.register(record(300, 1, 9, FULL), expect=0)
    s.register(record(9, 1, 8, group=0, counter_group=0), expect=11)
    s.register(record(9, 2**24 + 1, 1, group=0, counter_group=0), expect=11)
    s.register(record(7, 2**24 + 1, 9), expect=11)
    s.register(record(9, 1, 1, group=0, counter_group=0), expect=12)
    s.register(record(7, 1, 1, group=0, counter_group=0), expect=13)
    s.register(record(7, 1, 1, group=1, counter_group=0), expect=14)
    s.register(record(7, 1, 1, group=1, counter_group=1), expect=15)
    s.register(record(7, 1, 15, group=1, counter_group=1), expect=17)
    # 17 before 19 and before 20; each own fault before 19
    s.opened(3, [7, 0, 1, 9, 0, 2, 11, 1, 3])
    s.register(record(7, 1, 1), expect=0)
    s.register(record(9, 1, 1), expect=0)
    s.register(record(7, 1, 1), expect=17)
    s.register(record(9, 1, 1), expect=17)
    s.register(record(7, 2, 1), expect=19)
    s.register(record(9, 2, 1), expect=20)
    s.register(record(7, 2, 8), expect=11)
    s.register(record(7, 2, 1, group=17), expect=13)
    s.register(record(9, 2, 1, counter_group=5), expect=14)
    s.register(record(9, 2, 1, counter_group=1), expect=15)
    # insertion at every place: IOAs in every order, stations before and after
    s.opened(12, [7, 0, 4, 9, 0, 4, 11, 0, 4], more=9)
    for ca in 9, 7, 11:
        for ioa in 30, 10, 20, 40:
            s.register(record(ca, ioa, 15, [ioa, ca, 1, 2, 3, 4], group=5, counter_group=2), expect=0)
            s.share(ca, expect=0)
    s.clear(expect=0, place=12)
    # IOAs that ascend in one octet and descend in another
    for ioa in 0x010200, 0x020100, 0x000003, 0x0000FF:
        s.register(record(9, ioa, 1), expect=0)


def shares(s):
    """19 and 20: ceilings, reservations met and exceeded, free equal to unmet."""
    # cases i and j of document 01
    s.opened(5, [1, 2, 5, 2, 2, 2])
    for ioa, number in enumerate((0, 0, 0, 20)):
        s.register(record(1, ioa, 1), expect=number)
    for ioa, number in enumerate((0, 0, 19)):
        s.register(record(2, ioa, 1), expect=number)
    s.unregister(2, 0, expect=0)
    s.register(record(1, 3, 1), expect=20)
    s.register(record(2, 0, 1), expect=0)
    # a ceiling of 0 takes nothing in; a reservation of 0 waits for free room
    s.opened(2, [1, 0, 0, 2, 0, 2, 3, 1, 1])
    s.register(record(1, 1, 1), expect=19)
    s.register(record(2, 1, 1), expect=0)
    s.register(record(2, 2, 1), expect=20)
    s.register(record(3, 1, 1), expect=0)
    s.register(record(3, 2, 1), expect=19)
    s.register(record(2, 2, 1), expect=20)
    s.unregister(3, 1, expect=0)
    s.register(record(2, 2, 1), expect=20)
    # K 1: the one place, reserved or not
    s.opened(1, [7, 0, 1])
    s.share(7, expect=0, free=1, unmet=0)
    s.register(record(7, 5, 1), expect=0)
    s.share(7, expect=0, free=0, unmet=0)
    s.register(record(7, 6, 1), expect=19)
    s.opened(1, [7, 0, 1, 8, 1, 1])
    s.register(record(7, 5, 1), expect=20)
    s.register(record(8, 5, 1), expect=0)
    s.register(record(7, 5, 1), expect=20)
    s.register(record(8, 6, 1), expect=19)
    # reservations that fill K: free is unmet from the start, and everyone gets just the reservation
    s.opened(6, [1, 1, 6, 2, 2, 6, 3, 3, 6])
    for ca in 3, 1, 2:
        for ioa in range(ca):
            s.share(ca, expect=0)
            s.register(record(ca, ioa, 1), expect=0)
        s.register(record(ca, 9, 1), expect=20)
    s.share(1, expect=0, held=1, free=0, unmet=0)
    s.register(record(3, 9, 1), expect=20)
    # a station above its reservation adds 0 to unmet: one over, one under
    s.opened(10, [1, 1, 9, 2, 4, 5])
    for ioa, number in enumerate((0, 0, 0, 0, 0, 0, 20)):
        s.register(record(1, ioa, 1), expect=number)
        s.share(1, expect=0)
    s.share(1, expect=0, held=6, free=4, unmet=4)
    for ioa in range(4):
        s.register(record(2, ioa, 1), expect=0)
    s.register(record(2, 5, 1), expect=20)
    s.unregister(1, 0, expect=0)
    s.register(record(2, 5, 1), expect=0)
    s.register(record(1, 0, 1), expect=20)
    s.register(record(2, 6, 1), expect=19)
    # free = unmet + 1, then free = unmet
    s.opened(4, [1, 0, 4, 2, 2, 3])
    s.register(record(1, 0, 1), expect=0)
    s.share(2, expect=0, free=3, unmet=2)
    s.register(record(1, 1, 1), expect=0)
    s.share(2, expect=0, free=2, unmet=2)
    s.register(record(1, 2, 1), expect=20)
    # the share of a station: 12 then
    for ca in 0, 3, 258, 65535:
        s.share(ca, expect=12)


def batches(s):
    """Batches: empty, one, a fault at each place, order of the faults, all or none."""
    plan = [7, 2, 4, 9, 1, 6, 300, 0, 3]
    s.opened(8, plan, more=11)
    s.batch([], expect=0)
    for octets in 1, 23:
        s.batch([record(7, 1, 8)[:octets]], expect=0)
    s.batch([record(7, 1, 1, FULL, group=3)], expect=0)
    # octets after the last whole record are ignored
    s.batch([record(7, 2, 3, FULL), record(7, 1, 8)[:23]], expect=0)
    s.clear(expect=0, place=2)
    # records in any order of station and address
    mixed = [record(300, 9, 5, FULL), record(7, 9, 1, FULL), record(9, 8, 15, FULL, counter_group=4),
             record(7, 3, 36, FULL, group=16), record(9, 9, 37, FULL), record(300, 1, 40, FULL)]
    s.batch(mixed, expect=0)
    s.share(9, expect=0, held=2, free=2, unmet=0)
    s.clear(expect=0, place=6)
    # a fault of each kind at each place of five: nothing is stored
    s.register(record(9, 50, 1), expect=0)
    good = [record(7, 1, 1), record(9, 2, 9), record(300, 3, 15, counter_group=1), record(9, 4, 1), record(7, 5, 1)]
    faults = (
        (record(7, 9, 16), 11), (record(7, 2**24, 1), 11), (record(8, 9, 1), 12), (record(65535, 9, 1), 12),
        (record(7, 9, 1, group=0), 13), (record(7, 9, 1, group=17), 13),
        (record(7, 9, 15, counter_group=0), 14), (record(7, 9, 37, counter_group=5), 14),
        (record(7, 9, 1, counter_group=5), 14), (record(7, 9, 1, counter_group=1), 15), (record(9, 50, 1), 17),
    )
    for place in range(5):
        for fault, number in faults:
            s.batch(good[:place] + [fault] + good[place + 1 :], expect=number, place=place)
    # 16: an address that stands earlier in the batch, whatever else the records say
    for first in range(5):
        for second in range(first + 1, 5):
            twice = list(good)
            twice[second] = good[first]
            s.batch(twice, expect=16, place=second)
    s.batch([record(7, 1, 1), record(7, 1, 3, FULL, group=2)], expect=16, place=1)
    s.batch([record(7, 1, 1), record(9, 1, 1), record(300, 1, 1)], expect=0)
    s.clear(expect=0, place=4)
    # the first faulty place is named, whatever the number: 17 at 1 before 16 at 2, 16 at 1 before 17 at 2,
    # 15 at 1 before 11 at 2; at one place 11 to 15 before 16
    s.register(record(9, 50, 1), expect=0)
    s.batch([record(7, 1, 1), record(9, 50, 1), record(7, 1, 1)], expect=17, place=1)
    s.batch([record(9, 50, 1), record(9, 50, 1)], expect=17, place=0)
    s.batch([record(7, 1, 1), record(7, 1, 1), record(9, 50, 1)], expect=16, place=1)
    s.batch([record(7, 1, 1), record(7, 2, 1, counter_group=1), record(7, 3, 8)], expect=15, place=1)
    s.batch([record(7, 1, 1), record(7, 1, 1, group=0)], expect=13, place=1)
    s.batch([record(7, 1, 1), record(7, 1, 8)], expect=11, place=1)
    # every point's own tests come before any point's 19 or 20
    many = [record(7, ioa, 1) for ioa in range(6)]
    s.batch(many, expect=19, place=4)
    s.batch(many + [record(7, 0, 1)], expect=16, place=6)
    s.batch(many + [record(9, 50, 1)], expect=17, place=6)
    s.batch(many + [record(9, 51, 8)], expect=11, place=6)
    s.share(7, expect=0, held=0)
    # 20 at place 3 before 19 at place 6, and the other way about
    s.opened(8, [1, 0, 8, 2, 3, 3, 3, 2, 2])
    a = [record(1, ioa, 1) for ioa in range(5)]
    b = [record(2, ioa, 1) for ioa in range(5)]
    s.batch([a[0], a[1], a[2], a[3], b[0], b[1], b[2], b[3]], expect=20, place=3)
    s.batch([a[0], a[1], b[0], b[1], b[2], b[3], a[2], a[3]], expect=19, place=5)
    s.batch([a[0], b[0], b[1], b[2], b[3], a[1], a[2], a[3]], expect=19, place=4)
    s.batch([b[0], b[1], b[2], a[0], a[1], a[2], a[3], b[3]], expect=20, place=6)
    s.batch([b[0], b[1], b[2], a[0], a[1], a[2]], expect=0)
    s.share(1, expect=0, held=3, free=2, unmet=2)
    # longer than K: the same rules
    s.opened(4, [7, 0, 4])
    longer = [record(7, ioa, 1) for ioa in range(9)]
    s.batch(longer, expect=19, place=4)
    s.batch(longer + [record(7, 3, 1)], expect=16, place=9)
    s.batch(longer + [record(8, 3, 1)], expect=12, place=9)
    s.series(4100, record(7, 16777215 - 4098, 1), expect=11, place=4099)
    s.series(4100, record(7, 16777215 - 4099, 1), expect=19, place=4)
    s.opened(4, [7, 0, 4, 9, 1, 2])
    s.batch(longer, expect=20, place=3)
    # a batch that fills the table just, then one more
    s.batch([record(9, 1, 1)] + longer[:3], expect=0)
    s.batch([], expect=0)
    s.batch([record(9, 2, 1)], expect=20, place=0)
    s.batch([record(9, 1, 1)], expect=17, place=0)


def removal(s):
    """Unregister one and all: 18, room free at once, the plan stays."""
    s.opened(7, [7, 2, 5, 9, 0, 3, 300, 1, 2], more=6)
    s.unregister(7, 1, expect=18)
    s.clear(expect=0, place=0)
    points = [record(ca, ioa, 33, FULL, group=1 + ioa) for ca in (7, 9, 300) for ioa in (2, 5)]
    s.batch(points, expect=0)
    # addresses that are not there, or cannot exist
    for ca in 7, 9, 300:
        for ioa in 0, 1, 3, 4, 6, 2**24 - 1, 2**24, 2**24 + 2, 2**31 + 5, 2**32 - 1:
            s.unregister(ca, ioa, expect=18)
    for ca in 0, 1, 8, 44, 256 + 7, 301, 65534, 65535:
        s.unregister(ca, 2, expect=18)
    # each point alone, and again
    s.keep()
    for ca in 7, 9, 300:
        for ioa in 2, 5:
            s.unregister(ca, ioa, expect=0)
            s.unregister(ca, ioa, expect=18)
            s.share(ca, expect=0, held=1)
            s.back()
    # in every order, the table well formed at each step
    for order in ((0, 1, 2, 3, 4, 5), (5, 4, 3, 2, 1, 0), (2, 0, 4, 1, 5, 3), (3, 5, 1, 4, 0, 2)):
        for index in order:
            s.unregister((7, 9, 300)[index // 2], (2, 5)[index % 2], expect=0)
            s.share(7, expect=0)
        s.clear(expect=0, place=0)
        s.back()
    # the room is free at once, and for whom the shares say
    s.register(record(7, 8, 1), expect=0)
    s.register(record(9, 8, 1), expect=20)
    s.unregister(7, 2, expect=0)
    s.register(record(9, 8, 1), expect=0)
    s.register(record(7, 2, 1), expect=20)
    s.unregister(300, 2, expect=0)
    s.register(record(7, 2, 1), expect=0)
    s.unregister(300, 5, expect=0)
    s.register(record(7, 3, 1), expect=20)
    s.clear(expect=0, place=6)
    s.share(7, expect=0, reservation=2, ceiling=5, held=0, free=7, unmet=3)


def every_entry(s, expect):
    """Each entry that tests the table, in a form that a well-formed table would not refuse before."""
    s.register(record(7, 2, 8), expect)
    s.batch([], expect)
    s.batch([record(7, 2, 8)], expect)
    s.unregister(7, 1, expect)
    s.clear(expect)
    s.share(7, expect)
    s.share(9, expect)


def damage(s):
    """Tables that are not well formed: every octet of a table changed, then each field in turn."""
    # The table: K 4, stations 7 (two points), 300 (one point), 301 (none), one place unused.
    plan = [7, 1, 3, 300, 1, 2, 301, 0, 4]
    s.opened(4, plan, more=3)
    points = [record(7, 256, 1, [5], group=1), record(7, 1000, 15, [1, 2, 3, 4, 5], group=16, counter_group=4),
              record(300, 7, 37, FULL)]
    s.batch(points, expect=0)
    s.keep()
    length = table_octets(4, 3)
    clean = s.machine.table[: length + 3]
    # every octet, of the rest too, in five ways; gateway.py says which tables are still well formed
    for at in range(length + 3):
        for octet in sorted({0, 1, clean[at] ^ 1, clean[at] ^ 0x80, (clean[at] + 1) % 256, 0xFF} - {clean[at]}):
            s.poke(at, octet)
            s.share(7, expect=None if at < length else 0)
            s.back()
    # a memory too short for its table, or for a head
    for short in 0, 1, 4, 10, 63, 64, 65, 64 + 48 * 4, length - 8, length - 1:
        s.lend_part(short)
        every_entry(s, 3)
    s.lend_part(length)
    s.share(7, expect=0)
    s.lend_part(length + 3)
    head, place, station = 0, 64, 64 + 48 * 4

    def spoilt(*changes, expect=3):
        for at, number, octets in changes:
            s.poke_number(at, number, octets)
        every_entry(s, expect) if expect == 3 else s.share(7, expect)
        s.back()

    # head: mark, K, stations, points, each setting, and the first and last spare octet
    for at in range(4):
        spoilt((head + at, clean[at] ^ 1, 1))
    for number in 0, 3, 5, 4096, 4097, 65535:
        spoilt((head + 4, number, 2))
    for number in 0, 1, 4, 64, 65, 65535:
        spoilt((head + 6, number, 2))
    spoilt((head + 6, 2, 2), expect=0)  # the last station has no points: without it this is a table too
    for number in 0, 2, 4, 5, 65535:
        spoilt((head + 8, number, 2))
    for at in 10, 11, 12, 13, 14, 63:
        spoilt((head + at, 1, 1))
    # place: type, CA, IOA, groups, freeze mark, octets past the element, frozen value, spare
    for number in 0, 8, 16, 22, 29, 41, 255:
        spoilt((place, number, 1))
    spoilt((place + 48, 1, 1))  # a counter group on a point that is no counter
    spoilt((place + 48, 37, 1), expect=0)
    for number in 0, 8, 300, 65535:
        spoilt((place + 1, number, 2))
    spoilt((place + 2 * 48 + 1, 7, 2))  # a point of another station
    spoilt((place + 3, 1000, 3))  # equal IOAs
    spoilt((place + 3, 1001, 3))  # descending IOAs
    spoilt((place + 3, 999, 3), expect=0)
    spoilt((place + 48 + 3, 255, 3))
    spoilt((place + 48 + 3, 256, 3))
    spoilt((place + 48 + 3, 257, 3), expect=0)
    spoilt((place + 2 * 48 + 3, 0, 3), expect=0)
    for number, given in (0, 0), (1, 0), (16, 0), (17, 3), (256, 3), (257, 3), (65535, 3):
        spoilt((place + 6, number, 2), expect=given)
    for number, given in (0, 0), (1, 0), (4, 0), (5, 3), (255, 3):
        spoilt((place + 48 + 8, number, 1), expect=given)
        spoilt((place + 8, number, 1), expect=0 if number == 0 else 3)
    for index in range(3):
        spoilt((place + 48 * index + 9, 1, 1))
        for at in range(22, 48):
            s.poke(place + 48 * index + at, 1)
            s.share(7, expect=3)
            s.back()
    spoilt((place + 10, 255, 1), expect=0)
    spoilt((place + 11, 255, 1))
    spoilt((place + 48 + 14, 255, 1), expect=0)
    spoilt((place + 48 + 15, 255, 1))
    spoilt((place + 48 + 21, 255, 1))
    spoilt((place + 2 * 48 + 21, 255, 1), expect=0)
    # each octet of the unused place
    for at in range(48):
        s.poke(place + 3 * 48 + at, 1)
        s.share(7, expect=3)
        s.back()
    # station: CA, reservation, ceiling, held
    for index, numbers in enumerate(((0, 6, 8, 300, 65535), (0, 7, 299, 301, 302), (300, 299, 65535, 0))):
        for number in numbers:
            spoilt((station + 8 * index, number, 2))
    spoilt((station + 16, 302, 2), expect=0)
    spoilt((station + 16, 65534, 2), expect=0)
    for index, number, given in (0, 4, 3), (0, 3, 0), (0, 0, 0), (1, 3, 3), (1, 2, 0), (2, 1, 0), (2, 2, 3), (2, 5, 3):
        spoilt((station + 8 * index + 2, number, 2), expect=given)
    for index, number, given in (0, 2, 0), (0, 1, 3), (0, 0, 3), (0, 4, 0), (0, 5, 3), (1, 1, 0), (1, 0, 3), (2, 0, 0), (2, 5, 3):
        spoilt((station + 8 * index + 4, number, 2), expect=given)
    for index, numbers in enumerate(((0, 1, 3, 65535), (0, 2, 65535), (1, 2, 65535))):
        for number in numbers:
            spoilt((station + 8 * index + 6, number, 2))
    # helds that add up but lie wrong: one point moved to the next station's count
    spoilt((station + 6, 1, 2), (station + 14, 2, 2))
    # reservations that add up to K, and past it; unmet just free, and more than free
    spoilt((station + 2, 2, 2), (station + 10, 2, 2), expect=0)
    spoilt((station + 2, 2, 2), (station + 18, 1, 2), expect=0)
    spoilt((station + 2, 2, 2), (station + 18, 2, 2), expect=3)
    spoilt((station + 2, 0, 2), (station + 18, 1, 2), expect=0)
    spoilt((station + 2, 0, 2), (station + 18, 2, 2), expect=3)
    # a place in use beyond the count, a hole before the last point, and two points exchanged
    spoilt((place + 3 * 48, 1, 1), (place + 3 * 48 + 1, 301, 2))
    spoilt((head + 8, 4, 2), (station + 22, 1, 2), (place + 3 * 48, 1, 1), (place + 3 * 48 + 1, 301, 2), expect=0)
    spoilt((head + 8, 4, 2), (station + 22, 1, 2))
    exchanged = [(place + i, clean[place + 48 + i], 1) for i in range(48)]
    exchanged += [(place + 48 + i, clean[place + i], 1) for i in range(48)]
    spoilt(*exchanged)
    s.share(7, expect=0, held=2)
    # K just past the bound with memory for it, and 64 and 65 stations
    s.opened(4096, spread(64, 0, 4096))
    s.lend_part(table_octets(4097, 65))
    s.share(1, expect=0, free=4096)
    s.keep()
    s.poke_number(4, 4097)
    s.share(1, expect=3)
    s.back()
    s.poke_number(6, 65)
    s.share(1, expect=3)
    # memory of one octet throughout
    for fill in 0, 0x4B, 0xFF:
        s.lend_table(400, fill)
        every_entry(s, 3)


def full_table(s):
    """K 4,096, filled by one batch over 64 stations' plan and emptied."""
    s.opened(4096, spread(63, 16, 64) + [1000, 64, 4096])
    s.series(4096, record(1000, 5, 15, FULL, group=7, counter_group=3), expect=20, place=4096 - 63 * 16)
    s.series(3088, record(1000, 5, 15, FULL, group=7, counter_group=3), expect=0)
    s.share(1000, expect=0, held=3088, free=1008, unmet=1008)
    for ca in 1, 32, 63:
        s.series(17, record(ca, 0, 33, FULL), expect=20, place=16)
        s.series(16, record(ca, 0, 33, FULL), expect=0)
        s.register(record(ca, 100, 1), expect=20)
    s.register(record(1000, 0, 1), expect=20)
    s.unregister(1000, 5, expect=0)
    s.register(record(2, 0, 1, FULL), expect=0)
    s.register(record(63, 100, 1, FULL), expect=0)
    s.unregister(1000, 3092, expect=0)
    s.unregister(1000, 1500, expect=0)
    s.series(3, record(1000, 0, 1), expect=20, place=2)
    s.clear(expect=0, place=3135)
    s.opened(4096, [7, 4096, 4096])
    s.series(4097, record(7, 16777215 - 4096, 40, FULL), expect=19, place=4096)
    s.series(4096, record(7, 16777215 - 4095, 40, FULL), expect=0)
    s.register(record(7, 0, 1), expect=19)
    s.unregister(7, 16777215, expect=0)
    s.register(record(7, 0, 1), expect=0)
    s.clear(expect=0, place=4096)


def drawn(s):
    """Calls drawn at random on small tables, so that refusals and grants of every kind follow one another."""
    draw = Draw(104)

    def a_record():
        kind = draw.of(sorted(POINT_ELEMENT)) if draw.below(20) else draw.below(256)
        ioa = draw.below(6) if draw.below(30) else 2**24 + draw.below(6)
        octets = bytearray(record(draw.of((7, 9, 300)) if draw.below(30) else draw.below(65536), ioa, kind))
        if draw.below(3) == 0:
            octets[7:9] = draw.below(2), draw.below(18)
        if draw.below(3) == 0:
            octets[9:11] = int(kind in COUNTER_TYPES or draw.below(9) == 0), draw.below(6)
        octets[11:24] = draw.octets(13)
        return octets

    for _ in range(12):
        capacity = 1 + draw.below(9)
        plan = []
        for ca in 7, 9, 300:
            ceiling = draw.below(capacity + 1)
            plan += [ca, draw.below(ceiling // 3 + 1), ceiling]
        s.opened(capacity, plan, more=draw.below(9), expect=None)
        for _ in range(90):
            choice = draw.below(20)
            if choice < 9:
                s.register(a_record())
            elif choice < 13:
                s.batch([a_record() for _ in range(draw.below(4))])
            elif choice < 18:
                s.unregister(draw.of((7, 9, 300)), draw.below(6))
            elif choice < 19 or draw.below(4):
                s.share(draw.of((7, 9, 300, 301)))
            else:
                s.clear()


def main():
    s = Script()
    opening(s)
    one_point(s)
    shares(s)
    batches(s)
    removal(s)
    damage(s)
    full_table(s)
    drawn(s)
    s.write("registration", ("open", "register", "batch", "unregister", "clear", "share"))


if __name__ == "__main__":
    main()
