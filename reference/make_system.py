"""Makes the replay list of system commands (crates/replay, system).

Every number expected is typed in beside its call from document 01; octets and memories are calculated by
gateway.py.

    python3 reference/make_system.py
"""

from gateway import POINT_ELEMENT, SYSTEM_ELEMENT, low_first, record, table_octets
from make_registration import FULL
from script import Draw, Script

INTERROGATION, COUNTERS, READ, CLOCK = 100, 101, 102, 103
SYSTEM_TYPES = sorted(SYSTEM_ELEMENT)
EVERY = 65535

# A time that no octet of is zero, and another.
TIME = bytes([0x11, 0x22, 0x33, 0x14, 0x95, 0x06, 0x1A])
LATER = bytes([0xFF] * 7)


def asdu(kind, objects, cause=6, ca=7, originator=0, structure=None):
    """A command of objects given as (IOA, element); cause is the whole third octet, and structure the second
    where it is not the number of objects."""
    octets = b"".join(low_first(ioa, 3) + bytes(element) for ioa, element in objects)
    structure = len(objects) if structure is None else structure
    return bytes([kind, structure, cause, originator]) + low_first(ca, 2) + octets


def element(kind):
    """An element that the command's type takes: everything for types 100 and 101, a time for the clock."""
    return {
        INTERROGATION: bytes([20]),
        COUNTERS: bytes([5]),
        READ: b"",
        CLOCK: TIME,
        104: bytes([0xAA, 0x55]),
        105: bytes([1]),
        107: bytes([0x34, 0x12]) + TIME,
    }[kind]


def usual(kind, count=1, **others):
    """A command that is served: so many objects at registered addresses of station 7."""
    addresses = (10, 3, 5, 900)
    return asdu(kind, [(addresses[i % 4], element(kind)) for i in range(count)], **others)


def gateway_of_three(s):
    """K 16; station 7 with points of several types and counters of all groups, station 9 with equal addresses,
    station 300 with one counter; station 301 with none. The table is kept for `back`."""
    s.opened(16, [7, 2, 16, 9, 1, 8, 300, 0, 4, 301, 0, 4], more=5)
    s.batch(
        [
            record(7, 10, 1, [1], group=1),
            record(7, 3, 1, [0]),
            record(7, 5, 15, [0x2A, 0, 0, 0, 3], counter_group=1),
            record(7, 900, 37, FULL, group=1, counter_group=1),
            record(7, 901, 37, FULL, counter_group=2),
            record(7, 4, 15, FULL, counter_group=3),
            record(7, 6, 15, FULL, group=16, counter_group=4),
            record(7, 7, 15, FULL),
            record(7, 8, 33, FULL, group=2),
            record(9, 5, 15, FULL, counter_group=1),
            record(9, 900, 37, FULL, group=16, counter_group=4),
            record(9, 10, 30, FULL, group=1),
            record(300, 5, 37, FULL, counter_group=2),
        ],
        expect=0,
    )
    s.keep()
    s.lend_answer(400)
    s.set_clock(bytes(8))


def paper(s):
    """Cases a to f of document 01."""
    s.opened(8, [7, 2, 4])
    s.register(record(7, 10, 1, [1], group=1), expect=0)
    s.register(record(7, 3, 1, [0]), expect=0)
    s.register(record(7, 5, 15, [0x2A, 0, 0, 0, 3], counter_group=1), expect=0)
    command = bytes.fromhex("64 01 06 00 07 00 00 00 00 14")
    for room, number, octets in (48, 0, 48), (47, 4, 0), (100, 0, 48):
        s.lend_answer(room)
        s.system(command, expect=number, answer=octets)
    s.system(command[:9] + b"\x15", expect=0, answer=30)
    s.system(command[:9] + b"\x01", expect=0, answer=10)
    s.system(command[:9] + b"\x00", expect=1)
    s.system(bytes.fromhex("64 01 06 00 09 00 00 00 00 14"), expect=0, answer=20)
    s.system(bytes.fromhex("65 01 06 00 07 00 00 00 00 C5"), expect=0, answer=34)
    s.system(command, expect=0, answer=48)


def types(s):
    """Every type octet: those that the entry serves, and the others, which are 1 whatever follows."""
    for kind in range(256):
        if kind in SYSTEM_ELEMENT:
            s.system(usual(kind), expect=0)
        else:
            s.system(asdu(kind, [(10, b"\x14")]), expect=1)
            for length, number in (5, 2), (6, 1), (7, 1), (249, 1), (250, 2):
                if kind in (0, 1, 45, 64, 70, 99, 106, 108, 127, 228, 255):
                    s.system(asdu(kind, [(10, b"\x14")], structure=0x81), expect=number, length=length)
        s.back()


def causes(s):
    """Every third octet of a command: causes 0 to 63, each with the negative and the test bit."""
    for kind in SYSTEM_TYPES:
        for octet in range(256):
            taken = (6,) if kind == INTERROGATION else (5, 6)
            s.system(usual(kind, cause=octet), expect=0 if octet & 63 in taken else 1)
            s.back()
            if octet & 63 == 6:
                s.set_clock(bytes(8))


def qualifiers(s):
    """All 256 qualifiers of interrogations and counter commands, to a station and to every station; after each
    counter command the counters are reported once more."""
    for ca in 7, EVERY:
        for qualifier in range(256):
            confirmed = 20 <= qualifier <= 36
            answer = None if confirmed else (0 if qualifier == 0 else 10)
            s.system(asdu(INTERROGATION, [(0, [qualifier])], ca=ca), expect=1 if qualifier == 0 else 0, answer=answer)
        for qualifier in range(256):
            confirmed = 1 <= qualifier & 63 <= 5
            s.system(asdu(COUNTERS, [(0, [qualifier])], ca=ca), expect=0, answer=None if confirmed else 10)
            if qualifier & 63 <= 6:
                s.system(asdu(COUNTERS, [(0, [5])], ca=EVERY), expect=0)
                s.system(asdu(INTERROGATION, [(0, [20])], ca=7), expect=0)
            s.back()
    # resets that follow one another
    for qualifier in 0x81, 0xC2, 0x43, 0x83, 0x04, 0x85, 0xC5:
        for ca in 7, 9, 8:
            s.system(asdu(COUNTERS, [(1, [qualifier])], ca=ca), expect=0)
    s.back()


def counts(s):
    """Counts 0, 1, 2, the most that fit and one more; the sequence flag; a length one off."""
    for kind in SYSTEM_TYPES:
        size = 3 + SYSTEM_ELEMENT[kind]
        most = 243 // size
        s.lend_answer(3000)
        # "a command with no first object is answered by number 1"; the sequence flag with count 0 is 2
        s.system(usual(kind, 0), expect=1)
        s.system(usual(kind, 0, cause=5), expect=1)
        s.system(usual(kind, 0, cause=7), expect=1)
        s.system(usual(kind, 0, structure=0x80), expect=2)
        s.system(usual(kind, 0, structure=1), expect=2)
        for count in 1, 2, 3, most - 1, most:
            command = usual(kind, count)
            s.system(command, expect=0)
            s.system(command, length=len(command) - 1, expect=2)
            s.system(command, length=len(command) + 1, expect=2)
            for octet in count - 1, count + 1, count + 0x80, count ^ 0x40:
                s.system(usual(kind, count, structure=octet), expect=2)
            s.back()
        s.system(usual(kind, most + 1), expect=2)
        s.system(usual(kind, 0, structure=127), expect=2)
    s.set_clock(bytes(8))
    s.lend_answer(400)


def lengths(s):
    """Every length from 0 to 260, of each type with one object, with none, and with the most that fit."""
    for kind in SYSTEM_TYPES:
        size = 3 + SYSTEM_ELEMENT[kind]
        for length in range(261):
            s.system(usual(kind), length=length, expect=0 if length == 6 + size else 2)
        for count in 0, 2, 243 // size:
            command = usual(kind, count)
            for length in sorted({0, 5, 6, 7, 248, 249, 250, *range(len(command) - 2, len(command) + 3)} - {len(command)}):
                s.system(command, length=length, expect=2)
        s.back()
    s.set_clock(bytes(8))


def addresses(s):
    """CA planned, unplanned, 0 and 65,535; originator, test and negative bits; what a confirmation copies."""
    for kind in SYSTEM_TYPES:
        for ca in 0, 6, 7, 8, 9, 300, 301, 302, 256 + 7, 65534, EVERY:
            s.system(usual(kind, ca=ca), expect=0)
            s.back()
        for originator in 0, 1, 200, 255:
            for bits in 0, 0x40, 0x80, 0xC0:
                s.system(usual(kind, 2, ca=0x0107, cause=6 | bits, originator=originator), expect=0)
                s.system(usual(kind, 2, cause=6 | bits, originator=originator), expect=0)
                s.back()
    # negative confirmations copy the same, and the negative bit is the gateway's own
    for bits in 0, 0x40, 0x80, 0xC0:
        s.system(asdu(INTERROGATION, [(70000, [99])], cause=6 | bits, originator=33), expect=0, answer=10)
        s.system(asdu(COUNTERS, [(70000, [99])], cause=5 | bits, originator=33), expect=0, answer=10)
        s.system(asdu(READ, [(70000, b"")], cause=5 | bits, originator=33), expect=0, answer=9)
    # the object of an interrogation is copied, its address too
    for ioa in 0, 1, 256, 65536, 16777215:
        s.system(asdu(INTERROGATION, [(ioa, [21])]), expect=0)
        s.system(asdu(COUNTERS, [(ioa, [1])]), expect=0)


def first_object(s):
    """Only the first object of an interrogation or counter command counts."""
    for first in 0, 1, 20, 21, 36, 37:
        for second in 0, 1, 20, 22:
            number = 1 if first == 0 else 0
            s.system(asdu(INTERROGATION, [(1, [first]), (2, [second])]), expect=number)
            s.system(asdu(INTERROGATION, [(1, [first]), (2, [second]), (3, [20])]), expect=number)
    for first in 0, 5, 0x81, 6:
        for second in 0, 5, 0x82, 6:
            s.system(asdu(COUNTERS, [(1, [first]), (2, [second])]), expect=0)
            s.back()
    s.set_clock(bytes(8))
    s.system(asdu(CLOCK, [(1, TIME), (2, LATER)]), expect=0, answer=26)
    s.system(asdu(CLOCK, [(1, LATER), (2, TIME), (3, bytes(7))]), expect=0, answer=36)


def rooms(s):
    """Room exact, one octet short, and less: number 4 writes, resets and remembers nothing."""
    commands = [usual(kind) for kind in SYSTEM_TYPES] + [usual(kind, 3) for kind in SYSTEM_TYPES]
    commands += [asdu(INTERROGATION, [(0, [qualifier])], ca=ca) for qualifier in (1, 20, 21, 36, 40) for ca in (7, 8, 9, EVERY)]
    commands += [
        asdu(COUNTERS, [(0, [qualifier])], ca=ca)
        for qualifier in (0, 5, 0x81, 0x82, 0xC5, 0x85, 0x45)
        for ca in (7, 9, 301, EVERY)
    ]
    commands += [asdu(READ, [(ioa, b"") for ioa in chosen]) for chosen in ((10,), (900, 8, 10), (10, 11), (11,))]
    for command in commands:
        s.lend_answer(400)
        s.set_clock([9, 8, 7, 6, 5, 4, 3, 0])
        octets = s.system(command, expect=0).octets
        s.back()
        s.set_clock([9, 8, 7, 6, 5, 4, 3, 0])
        for room, number in (octets - 1, 4), (octets // 2, 4), (0, 4), (octets, 0), (octets + 1, 0):
            s.lend_answer(room)
            s.system(command, expect=number, answer=octets if number == 0 else 0)
            if number == 0:
                s.back()
    s.lend_answer(400)


def reads(s):
    """Read: in command order, repeats included; one missing address makes the whole confirmation negative."""

    def read(ca, *chosen, **others):
        return s.system(asdu(READ, [(ioa, b"") for ioa in chosen], ca=ca, cause=5), expect=0, **others)

    s.lend_answer(2500)
    for ioa in 10, 3, 5, 900, 901, 4, 6, 7, 8:
        read(7, ioa)
    # confirmation 9 octets; IOA 10 has type 1: 10 octets
    read(7, 10, answer=9 + 10)
    read(7, 10, 3, answer=12 + 20)
    read(7, 3, 10, answer=12 + 20)
    read(7, 10, 10, 10, answer=15 + 30)
    read(7, 900, 3, 8, 5, 900, 4)
    read(7, *([900, 8, 10] * 27), answer=249 + 27 * (21 + 21 + 10))
    # missing: at each place, of another station, of no station
    for chosen in (11,), (11, 10), (10, 11), (10, 11, 3), (11, 11), (0,), (16777215,), (65536 + 10,), (900, 902):
        read(7, *chosen, answer=6 + 3 * len(chosen))
    read(9, 5, 900, 10)
    read(9, 3, answer=9)
    read(300, 5)
    read(300, 900, answer=9)
    for ca in 0, 8, 301, 65534, EVERY:
        read(ca, 5, answer=9)
        read(ca, 5, 10, answer=12)
    # a read shows the value as it stands now
    s.system(asdu(COUNTERS, [(0, [0xC5])]), expect=0)
    read(7, 5, 900, 4)
    s.unregister(7, 10, expect=0)
    read(7, 10, answer=9)
    s.back()
    # a value of each of the 30 types
    s.opened(30, [7, 0, 30])
    for ioa, kind in enumerate(sorted(POINT_ELEMENT)):
        s.register(record(7, ioa, kind, FULL), expect=0)
    for ioa, kind in enumerate(sorted(POINT_ELEMENT)):
        read(7, ioa, answer=9 + 9 + POINT_ELEMENT[kind])
    read(7, *range(30))
    gateway_of_three(s)


def clocks(s):
    """The clock: the first object's time of any command answered with 0, whatever its CA and its octets."""
    s.set_clock(bytes(8))
    s.system(asdu(CLOCK, [(0, TIME)], cause=5), expect=0, answer=16)
    s.system(asdu(CLOCK, [(0, LATER)], ca=EVERY), expect=0, answer=16)
    s.system(asdu(CLOCK, [(5, bytes(7))], ca=8), expect=0, answer=16)
    s.system(asdu(CLOCK, [(5, TIME)], ca=0), expect=0, answer=16)
    # others leave it, and so do refusals and silence
    for kind in SYSTEM_TYPES:
        if kind != CLOCK:
            s.system(usual(kind), expect=0)
    s.back()
    s.system(asdu(CLOCK, [(0, LATER)], cause=7), expect=1)
    s.system(asdu(CLOCK, []), expect=1)
    s.system(asdu(CLOCK, [(0, LATER)], structure=2), expect=2)
    s.lend_answer(15)
    s.system(asdu(CLOCK, [(0, LATER)]), expect=4)
    s.lend_answer(400)
    s.poke(0, 0)
    s.system(asdu(CLOCK, [(0, LATER)]), expect=3)
    s.back()
    # a clock that was known, or holds something, and is set again
    for before in ([1, 2, 3, 4, 5, 6, 7, 1], [0xFF] * 7 + [0], [0] * 7 + [1]):
        s.set_clock(before)
        s.system(usual(104), expect=0)
        s.system(asdu(CLOCK, [(0, TIME)]), expect=0)


def spoilt(s):
    """3 comes before everything else."""
    for at, octet in (0, 0x4A), (8, 12), (64 + 9, 1), (table_octets(16, 4) - 1, 1):
        s.poke(at, octet)
        for kind in SYSTEM_TYPES:
            s.system(usual(kind), expect=3)
            s.system(usual(kind, cause=7), expect=3)
            s.system(usual(kind, structure=5), expect=3)
        s.system(b"", expect=3)
        s.system(bytes(250), expect=3)
        s.system(asdu(1, []), expect=3)
        s.back()
    s.lend_part(table_octets(16, 4) - 1)
    s.system(usual(INTERROGATION), expect=3)
    s.lend_part(table_octets(16, 4))
    s.system(usual(INTERROGATION), expect=0)
    s.lend_part(table_octets(16, 4) + 5)


def drawn(s):
    """Commands drawn at random, one after another on one table."""
    draw = Draw(60870)
    for turn in range(700):
        kind = draw.of(SYSTEM_TYPES)
        choices = {
            INTERROGATION: lambda: [draw.of((0, 1, 20, 20, 21, 22, 36, 37))],
            COUNTERS: lambda: [draw.below(4) * 64 + draw.below(7)],
            READ: lambda: [],
        }
        objects = [
            (draw.of((3, 5, 10, 900, 4, 8, 11)), choices.get(kind, lambda: draw.octets(SYSTEM_ELEMENT[kind]))())
            for _ in range(draw.of((0, 1, 1, 1, 2, 3)))
        ]
        cause = draw.of((5, 6, 6, 6, 6, 7)) + draw.of((0, 0, 64, 128))
        command = asdu(kind, objects, cause, draw.of((7, 7, 9, 300, 301, 8, EVERY)), draw.of((0, 5)))
        s.lend_answer(draw.of((400, 400, 20, 30, 60, 100)))
        s.system(command, length=len(command) + (1 if draw.below(30) == 0 else 0))
        if turn % 25 == 24:
            s.back()
    s.back()


def main():
    s = Script()
    paper(s)
    gateway_of_three(s)
    types(s)
    causes(s)
    qualifiers(s)
    counts(s)
    lengths(s)
    addresses(s)
    first_object(s)
    rooms(s)
    reads(s)
    clocks(s)
    spoilt(s)
    drawn(s)
    s.write("system", ("system",))


if __name__ == "__main__":
    main()
