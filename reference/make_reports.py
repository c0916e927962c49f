"""Makes the replay list of reports: packing, selection, order, start of a connection (crates/replay, reports).

Reports are asked for by interrogations. The octets that an answer has are typed in or reckoned here from the
paper's sentence on full ASDUs, by a sum and not by packing; which octets they are is calculated by gateway.py.

    python3 reference/make_reports.py
"""

from gateway import POINT_ELEMENT, low_first, most_objects, record, table_octets
from make_registration import FULL, spread
from script import Draw, Script

TYPES = sorted(POINT_ELEMENT)
EVERY = 65535

# A confirmation and a termination have ten octets each.
AROUND = 20


def interrogation(ca, qualifier=20):
    """A command of one object: type 100, cause 6."""
    return bytes([100, 1, 6, 0]) + low_first(ca, 2) + bytes([0, 0, 0, qualifier])


def run_octets(kind, count):
    """The octets of so many points of a type: an object each, and six octets for each ASDU begun."""
    most = most_objects(POINT_ELEMENT[kind])
    return count * (3 + POINT_ELEMENT[kind]) + 6 * ((count + most - 1) // most)


def packing(s):
    """For each of the 30 types: no points, one, most − 1, most, most + 1, 2 × most, 2 × most + 1."""
    for kind in TYPES:
        most = most_objects(POINT_ELEMENT[kind])
        s.opened(2 * most + 1, [7, 0, 2 * most + 1, 9, 0, 1])
        held = 0
        for count in 0, 1, most - 1, most, most + 1, 2 * most, 2 * most + 1:
            s.series(count - held, record(7, 1000 + 3 * held, kind, FULL, group=1 + held % 16), expect=0)
            held = count
            octets = AROUND + run_octets(kind, count)
            s.lend_answer(octets + 7)
            s.system(interrogation(7), expect=0, answer=octets)
            s.system(interrogation(9), expect=0, answer=AROUND)
        # room exact and one short, one octet only, none
        for room, number in (octets, 0), (octets - 1, 4), (octets - 10, 4), (AROUND, 4), (1, 4), (0, 4):
            s.lend_answer(room)
            s.system(interrogation(7), expect=number, answer=octets if number == 0 else 0)


def paper(s):
    """Cases g and h of document 01."""
    for kind, most, octets in (1, 60, 246), (17, 27, 249):
        s.opened(200, [7, 0, 200])
        s.lend_answer(300)
        s.series(most, record(7, 0, kind), expect=0)
        s.system(interrogation(7), expect=0, answer=20 + octets)
        s.series(1, record(7, 100, kind), expect=0)
        s.system(interrogation(7), expect=0, answer=20 + octets + 6 + 3 + POINT_ELEMENT[kind])


def groups(s):
    """All 16 groups and no group, in two stations; group 1 is qualifier 21."""
    s.opened(60, [7, 0, 60, 9, 0, 60])
    s.lend_answer(600)
    for group in (None, *range(1, 17)):
        s.register(record(7, 500 - (group or 0), 1, FULL, group=group), expect=0)
    # groups 1 to 8 have a second point, of another type and a smaller address
    for group in range(1, 9):
        s.register(record(7, 100 - group, 13, FULL, group=group), expect=0)
    # in station 9 only groups 3 and 16
    s.batch([record(9, 4, 5, FULL, group=3), record(9, 5, 5, FULL, group=16), record(9, 6, 5, FULL)], expect=0)
    one, other, third = 6 + 4, 6 + 8, 6 + 5
    for group in range(1, 17):
        octets = AROUND + one + (other if group <= 8 else 0)
        s.system(interrogation(7, 20 + group), expect=0, answer=octets)
        s.system(interrogation(9, 20 + group), expect=0, answer=AROUND + (third if group in (3, 16) else 0))
        s.system(interrogation(8, 20 + group), expect=0, answer=AROUND)
        s.system(interrogation(EVERY, 20 + group), expect=0, answer=octets + (third if group in (3, 16) else 0))
    s.system(interrogation(7), expect=0, answer=AROUND + run_octets(1, 17) + run_octets(13, 8))
    s.system(interrogation(9), expect=0, answer=AROUND + run_octets(5, 3))
    s.system(interrogation(EVERY), expect=0, answer=AROUND + run_octets(1, 17) + run_octets(5, 3) + run_octets(13, 8))
    for qualifier in 19, 37:
        s.system(interrogation(7, qualifier), expect=0, answer=10)


def mixed(s):
    """All types in one station, addresses against the types' order, other stations around it."""
    s.opened(100, [1, 0, 100, 7, 0, 100, 9, 0, 100])
    s.lend_answer(2000)
    for i, kind in enumerate(TYPES):
        s.batch(
            [record(7, 1000 - 7 * i, kind, FULL, group=1 + i % 3), record(7, 2000 + (i * 11) % 30, kind, FULL),
             record(1, 1000 - 7 * i, TYPES[29 - i], FULL)],
            expect=0,
        )
        s.system(interrogation(7), expect=0)
    two_of_each = sum(run_octets(kind, 2) for kind in TYPES)
    one_of_each = sum(run_octets(kind, 1) for kind in TYPES)
    three_of_each = sum(run_octets(kind, 3) for kind in TYPES)
    s.system(interrogation(7), expect=0, answer=AROUND + two_of_each)
    s.system(interrogation(1), expect=0, answer=AROUND + one_of_each)
    s.system(interrogation(9), expect=0, answer=AROUND)
    s.system(interrogation(EVERY), expect=0, answer=AROUND + three_of_each)
    for first in 0, 1, 2:
        octets = sum(run_octets(kind, 1) for kind in TYPES[first::3])
        s.system(interrogation(7, 21 + first), expect=0, answer=AROUND + octets)
    # removal takes a point out of the report
    for kind, i in (1, 0), (21, TYPES.index(21)), (40, 29):
        s.unregister(7, 1000 - 7 * i, expect=0)
        two_of_each -= 3 + POINT_ELEMENT[kind]
        s.system(interrogation(7), expect=0, answer=AROUND + two_of_each)


def broadcast(s):
    """Stations with equal IOAs under CA 65,535: one run for each type over all stations, by IOA, then station."""
    s.opened(130, [2, 0, 130, 7, 0, 130, 300, 0, 130])
    s.lend_answer(1500)
    s.batch([record(300, 5, 1, [3]), record(2, 5, 1, [1]), record(7, 5, 1, [2])], expect=0)
    s.system(interrogation(EVERY), expect=0, answer=AROUND + 6 + 3 * 4)
    s.batch([record(7, 4, 1, [4]), record(2, 6, 1, [5]), record(300, 0, 33, FULL), record(2, 1, 15, FULL)], expect=0)
    s.system(interrogation(EVERY), expect=0, answer=AROUND + run_octets(1, 5) + run_octets(15, 1) + run_octets(33, 1))
    s.clear(expect=0)
    # equal IOAs of different types
    s.batch([record(300, 5, 1, [3]), record(2, 5, 3, [1]), record(7, 5, 2, FULL)], expect=0)
    s.system(interrogation(EVERY), expect=0, answer=AROUND + run_octets(1, 1) + run_octets(2, 1) + run_octets(3, 1))
    s.clear(expect=0)
    # two stations' objects share an ASDU: 61 points of type 1 in two stations, then 120, then 121
    s.series(40, record(7, 10, 1), expect=0)
    s.series(20, record(300, 20, 1, [128]), expect=0)
    s.system(interrogation(EVERY), expect=0, answer=AROUND + 246)
    s.register(record(2, 30, 1, [255]), expect=0)
    s.system(interrogation(EVERY), expect=0, answer=AROUND + 246 + 10)
    s.series(59, record(2, 31, 1, [255]), expect=0)
    s.system(interrogation(EVERY), expect=0, answer=AROUND + 246 + 246)
    s.register(record(7, 5, 1, [77]), expect=0)
    s.system(interrogation(EVERY), expect=0, answer=AROUND + 246 + 246 + 10)
    for ca, count in (2, 60), (7, 41), (300, 20):
        s.system(interrogation(ca), expect=0, answer=AROUND + run_octets(1, count))
    # CA 0 and unplanned addresses are no station
    for ca in 0, 1, 3, 65534:
        s.system(interrogation(ca), expect=0, answer=AROUND)


def full_table(s):
    """K 4,096: one station with all types in turn, then 64 stations with the same addresses."""
    s.opened(4096, [7, 0, 4096])
    for i, kind in enumerate(TYPES):
        s.series(136, record(7, 50000 - 200 * i, kind, FULL, group=1 + i % 16), expect=0)
    octets = AROUND + sum(run_octets(kind, 136) for kind in TYPES)
    s.lend_answer(octets)
    s.system(interrogation(7), expect=0, answer=octets)
    s.system(interrogation(EVERY), expect=0, answer=octets)
    s.lend_answer(octets - 1)
    s.system(interrogation(7), expect=4)
    s.system(interrogation(7, 21), expect=0, answer=AROUND + run_octets(TYPES[0], 136) + run_octets(TYPES[16], 136))
    s.opened(4096, spread(64, 0, 4096))
    for ca in range(1, 65):
        s.series(64, record(ca, 100 - ca, TYPES[ca % 4], [ca], group=1 + ca % 16), expect=0)
    octets = AROUND + sum(run_octets(kind, 16 * 64) for kind in TYPES[:4])
    s.lend_answer(octets)
    s.system(interrogation(EVERY), expect=0, answer=octets)
    s.system(interrogation(33), expect=0, answer=AROUND + run_octets(TYPES[1], 64))
    s.lend_answer(65536)
    s.opened(4096, [7, 0, 4096])
    s.series(4096, record(7, 0, 33, FULL), expect=0)
    s.system(interrogation(7), expect=0, answer=AROUND + 256 * 246)
    s.lend_answer(0)


def started(s):
    """Start of a connection: the smallest CA that holds a point, or 0; 3, then 4."""
    s.lend_answer(0)
    s.lend_table(500)
    s.started(expect=3)
    s.opened(9, [7, 1, 3, 300, 1, 3, 65534, 0, 3])
    for room, number in (0, 4), (1, 4), (9, 4), (10, 0), (11, 0), (30, 0):
        s.lend_answer(room)
        s.started(expect=number, octets=10 if number == 0 else 0)
    for ca in 65534, 300, 7:
        s.register(record(ca, 5, 33, FULL), expect=0)
        for room, number in (9, 4), (10, 0), (12, 0):
            s.lend_answer(room)
            s.started(expect=number, octets=10 if number == 0 else 0)
    s.unregister(7, 5, expect=0)
    s.started(expect=0, octets=10)
    s.keep()
    s.poke(0, 0)
    s.started(expect=3)
    s.lend_answer(9)
    s.started(expect=3)
    s.back()
    s.lend_part(table_octets(9, 3) - 1)
    s.started(expect=3)
    s.lend_part(table_octets(9, 3))
    s.started(expect=4)
    s.lend_answer(10)
    s.unregister(300, 5, expect=0)
    s.started(expect=0, octets=10)
    s.clear(expect=0)
    s.started(expect=0, octets=10)


def drawn(s):
    """Tables drawn at random, asked in every way."""
    draw = Draw(2026)
    for _ in range(15):
        capacity = 20 + draw.below(60)
        s.opened(capacity, [7, 0, capacity, 9, 0, capacity, 300, 0, capacity])
        s.lend_answer(1500)
        kinds = [draw.of(TYPES) for _ in range(1 + draw.below(6))]
        for _ in range(capacity):
            group = draw.of((None, 1, 2, 16))
            s.register(record(draw.of((7, 9, 300)), draw.below(40), draw.of(kinds), draw.octets(12), group=group))
        for ca in 7, 9, 300, EVERY:
            for qualifier in 20, 21, 22, 36:
                s.system(interrogation(ca, qualifier), expect=0)


def main():
    s = Script()
    paper(s)
    packing(s)
    groups(s)
    mixed(s)
    broadcast(s)
    started(s)
    drawn(s)
    full_table(s)
    s.write("reports", ("started",))


if __name__ == "__main__":
    main()
