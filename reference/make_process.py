"""Makes the replay list of process commands (crates/replay, process).

Every number expected is typed in beside its call from document 01; octets and memories are calculated by
gateway.py.

    python3 reference/make_process.py
"""

from gateway import POINT_ELEMENT, PROCESS_ELEMENT, low_first, record, table_octets
from make_registration import FULL
from make_system import asdu
from script import Draw, Script

PROCESS_TYPES = sorted(PROCESS_ELEMENT)
TYPES = sorted(POINT_ELEMENT)
EVERY = 65535

# Other twelve octets than FULL, none of them zero.
OTHER = bytes(range(0x21, 0x2D))


def usual(kind=45, count=1, **others):
    """A command that is taken: so many objects of the type's size."""
    objects = [(10 + i, OTHER[: PROCESS_ELEMENT[kind]]) for i in range(count)]
    return asdu(kind, objects, **others)


def reply(kind, count=1):
    """So many whole reply objects of a type."""
    return b"".join(low_first(60000 + i, 3) + FULL[: PROCESS_ELEMENT[kind]] for i in range(count))


def update(ca, ioa, kind, value=OTHER):
    """An update of 18 octets: CA 2, IOA 3, type 1, value 12."""
    value = bytes(value)
    return low_first(ca, 2) + low_first(ioa, 3) + bytes([kind]) + value + bytes(12 - len(value))


def gateway_of_two(s):
    """K 40; station 7 with a point of each type at IOA 100 + type, station 9 with three. Kept for `back`."""
    s.opened(40, [7, 2, 35, 9, 1, 8, 300, 0, 4], more=5)
    s.batch(
        [record(7, 100 + kind, kind, FULL, group=1 + kind % 16) for kind in TYPES]
        + [record(9, 101, 1, FULL), record(9, 102, 1, FULL, group=3), record(9, 5, 15, FULL, counter_group=2)],
        expect=0,
    )
    s.keep()
    s.lend_answer(260)
    s.lend_spontaneous(300)


def types(s):
    """Every type octet: those that the entry serves, and the others, which are 1 whatever follows."""
    for kind in range(256):
        if kind in PROCESS_ELEMENT:
            s.process(usual(kind), reply_type=kind, reply=reply(kind), expect=0, answer=9 + PROCESS_ELEMENT[kind], told=0)
        else:
            s.process(asdu(kind, [(10, b"\x14")]), expect=1)
            for length, number in (5, 2), (6, 1), (7, 1), (249, 1), (250, 2):
                if kind in (0, 1, 44, 52, 57, 65, 100, 103, 105, 173, 255):
                    s.process(asdu(kind, [(10, b"\x14")], structure=0x81), expect=number, length=length)


def causes(s):
    """Every third octet of a command: causes 0 to 63, each with the negative and the test bit; 9 for 8."""
    told = update(7, 101, 1)
    for kind in PROCESS_TYPES:
        for octet in range(256 if kind in (45, 64) else 64):
            taken = octet & 63 in (5, 6, 8)
            s.process(usual(kind, cause=octet), updates=told, expect=0 if taken else 1, told=10 if taken else 0)
            s.back()
        for octet in 5, 6 + 64, 8 + 128, 8 + 192:
            s.process(usual(kind, cause=octet, originator=77), negative=1, updates=told, expect=0, answer=6, told=0)


def lengths(s):
    """Counts, the sequence flag and every length around each boundary. No objects is allowed here."""
    for kind in PROCESS_TYPES:
        size = 3 + PROCESS_ELEMENT[kind]
        most = 243 // size
        for count in 0, 1, 2, most:
            command = usual(kind, count)
            s.process(command, expect=0, answer=6)
            for length in sorted({0, 1, 5, 6, 7, 249, 250, *range(len(command) - 2, len(command) + 3)} - {len(command)}):
                s.process(command, length=length, expect=2)
            for structure in (count + 1) % 128, count + 0x80, count ^ 0x40:
                s.process(usual(kind, count, structure=structure), expect=2)
        s.process(usual(kind, most + 1), expect=2)
        s.process(usual(kind, 0, structure=127), expect=2)
    for length in range(261):
        s.process(usual(50), length=length, expect=0 if length == 14 else 2)


def proposals(s):
    """Bad proposals of each kind and their neighbours."""
    # "the type is no process type"
    for kind in range(256):
        s.process(usual(), reply_type=kind, expect=0 if kind in PROCESS_ELEMENT else 6, told=0)
        if kind not in PROCESS_ELEMENT:
            s.process(usual(), reply_type=kind, reply=bytes(4), expect=6)
    # "or the reply octets are over 243 or not whole objects"
    for kind in PROCESS_TYPES:
        size = 3 + PROCESS_ELEMENT[kind]
        most = 243 // size
        for count in 0, 1, 2, most:
            octets = reply(kind, count)
            s.process(usual(46, 2), reply_type=kind, reply=octets, expect=0, answer=6 + len(octets))
            s.process(usual(46, 2), reply_type=kind, reply=octets + b"\x01", expect=6)
            if count > 0:
                s.process(usual(46, 2), reply_type=kind, reply=octets[:-1], expect=6)
        for length in 242, 243, 244, 245, 249, 250, size * (most + 1):
            good = length <= 243 and length % size == 0
            s.process(usual(), reply_type=kind, reply=bytes([7]) * length, expect=0 if good else 6)
    for length in range(261):
        good = length <= 243 and length % 8 == 0
        s.process(usual(), reply_type=50, reply=bytes([7]) * length, expect=0 if good else 6)
    s.process(usual(), reply_type=47, reply=bytes(4096), expect=6)
    # a negative proposal is tested for 6 too; a bad one stores and tells nothing
    for negative in 0, 1, 2, 128, 255:
        s.process(usual(), negative=negative, reply_type=44, updates=update(7, 101, 1), expect=6)
        s.process(usual(), negative=negative, reply=bytes(3), updates=update(7, 101, 1), expect=6)
        s.process(usual(), negative=negative, reply=reply(45), updates=update(7, 101, 1), expect=0, answer=10,
                  told=10 if negative == 0 else 0)
        s.back()
    # a silent or malformed command never looks at the proposal; 6 comes before 5 and 4
    s.process(usual(cause=7), reply_type=44, expect=1)
    s.process(usual(46, cause=10), reply=bytes(3), expect=1)
    s.process(asdu(100, [(0, [20])]), reply_type=44, expect=1)
    s.process(usual(structure=2), reply_type=44, expect=2)
    s.lend_answer(0)
    s.lend_spontaneous(0)
    s.process(usual(), reply_type=44, updates=update(7, 101, 1), expect=6)
    s.process(usual(cause=7), updates=update(7, 101, 1), expect=1)
    s.lend_answer(260)
    s.lend_spontaneous(300)


def updates(s):
    """Updates known, unknown, of another type, repeated, of another station; what lies past the element."""
    # one of each type; then all at once
    for kind in TYPES:
        s.process(usual(), updates=update(7, 100 + kind, kind), expect=0, told=9 + POINT_ELEMENT[kind])
    s.back()
    s.lend_spontaneous(600)
    everything = b"".join(update(7, 100 + kind, kind) for kind in TYPES)
    s.process(usual(), updates=everything, expect=0, told=sum(9 + POINT_ELEMENT[kind] for kind in TYPES))
    s.back()
    s.lend_spontaneous(300)
    one = update(7, 101, 1, [0x5A] * 12)
    # skipped: another type, unknown address, unplanned CA, a type that is no point's, an IOA of another station
    skipped = [update(7, 101, kind) for kind in range(256) if kind != 1]
    for octets in skipped:
        s.process(usual(), updates=octets, expect=0, told=0)
    others = [update(7, ioa, 1) for ioa in (0, 1, 102, 16777215, 65536 + 101)]
    others += [update(ca, 101, 1) for ca in (0, 6, 8, 300, 301, 65534, EVERY, 256 + 7)]
    others += [update(9, 5, 37), update(9, 103, 1), update(300, 5, 15)]
    for octets in others:
        s.process(usual(), updates=octets, expect=0, told=0)
        s.process(usual(), updates=octets + one, expect=0, told=10)
        s.process(usual(), updates=one + octets, expect=0, told=10)
        s.back()
    s.process(usual(), updates=b"".join(others) + one + b"".join(others), expect=0, told=10)
    # repeated: stored in order, told one by one; the last stands
    s.process(usual(), updates=update(7, 101, 1, [1]) + update(7, 101, 1, [2]), expect=0, told=20)
    s.process(usual(), updates=update(7, 101, 1, [2]) + update(7, 101, 1, [1]), expect=0, told=20)
    s.process(usual(), updates=one + update(9, 5, 15) + one + update(9, 102, 1) + one, expect=0, told=10 + 14 + 10 + 10 + 10)
    s.back()
    # the update's own CA, whatever the command's
    for ca in 0, 7, 8, 9, EVERY:
        s.process(usual(ca=ca), updates=update(9, 101, 1) + one, reply=reply(45), expect=0, answer=10, told=20)
        s.back()
    # octets after the last whole update are ignored
    for octets in 1, 5, 6, 7, 17:
        s.process(usual(), updates=one[:octets], expect=0, told=0)
        s.process(usual(), updates=one + update(9, 5, 15)[:octets], expect=0, told=10)
        s.back()
    # a deactivation and an activation with updates; a negative proposal reads none, and never gives 5
    for cause in 5, 6, 8:
        s.process(usual(cause=cause), updates=one, expect=0, told=10)
        s.back()
    s.lend_spontaneous(0)
    for negative in 1, 2, 64, 255:
        s.process(usual(), negative=negative, updates=one, reply=reply(45, 2), expect=0, answer=14, told=0)
    s.lend_spontaneous(300)
    # two updates of one counter, then a counter command's reset, then another update
    s.process(usual(), updates=update(7, 115, 15) + update(7, 137, 37), expect=0, told=14 + 21)
    s.system(asdu(101, [(0, [0xC5])]), expect=0)
    s.process(usual(), updates=update(7, 115, 15, FULL), expect=0, told=14)
    s.system(asdu(101, [(0, [5])]), expect=0)
    # a point that was removed is unknown
    s.unregister(7, 101, expect=0)
    s.process(usual(), updates=one, expect=0, told=0)
    s.register(record(7, 101, 3, FULL), expect=0)
    s.process(usual(), updates=one + update(7, 101, 3), expect=0, told=10)
    s.back()


def rooms(s):
    """Both memories exact, one short and empty, in all combinations: 5 before 4, and nothing stored."""
    commands = (
        (b"", b""),
        (reply(45), update(7, 101, 1)),
        (reply(45, 60), update(7, 101, 1)),
        (reply(45, 3), update(7, 133, 33) + update(7, 8, 1) + update(9, 102, 1) + update(7, 133, 33, FULL)),
        (reply(45), update(7, 101, 1) * 40),
    )
    for octets, changes in commands:
        s.lend_answer(260)
        s.lend_spontaneous(1000)
        done = s.process(usual(), reply=octets, updates=changes, expect=0)
        s.back()
        for answer_room in sorted({done.octets, done.octets - 1, 0, 5, done.octets + 3}):
            for room in sorted({done.spontaneous, max(done.spontaneous - 1, 0), 0, done.spontaneous + 3}):
                s.lend_answer(answer_room)
                s.lend_spontaneous(room)
                number = 5 if room < done.spontaneous else 4 if answer_room < done.octets else 0
                s.process(usual(), reply=octets, updates=changes, expect=number)
                s.process(usual(), negative=1, reply=octets, updates=changes, expect=4 if answer_room < done.octets else 0)
                s.back()
    s.lend_answer(260)
    s.lend_spontaneous(300)


def confirmations(s):
    """What a confirmation copies: originator, CA and test; the negative bit as proposed; reply type and objects."""
    for ca in 0, 7, 8, 300, 0x1234, EVERY:
        for bits in 0, 0x40, 0x80, 0xC0:
            for negative in 0, 1:
                for cause in 5, 8:
                    command = usual(58, 2, ca=ca, cause=cause | bits, originator=ca % 251)
                    s.process(command, negative=negative, reply_type=64, reply=reply(64, 3), expect=0, answer=48)


def spoilt(s):
    """3 comes before everything else."""
    for at, octet in (0, 0x4A), (8, 12), (64 + 9, 1), (table_octets(40, 3) - 1, 1):
        s.poke(at, octet)
        for kind in PROCESS_TYPES:
            s.process(usual(kind), updates=update(7, 101, 1), expect=3)
            s.process(usual(kind, cause=7), expect=3)
            s.process(usual(kind, structure=5), reply_type=44, expect=3)
        s.process(b"", expect=3)
        s.process(bytes(250), expect=3)
        s.process(asdu(1, []), expect=3)
        s.back()
    s.lend_part(table_octets(40, 3) - 1)
    s.process(usual(), expect=3)
    s.lend_part(table_octets(40, 3))
    s.process(usual(), expect=0)
    s.lend_part(table_octets(40, 3) + 5)


def drawn(s):
    """Proposals drawn at random, one after another on one table."""
    draw = Draw(45)
    for turn in range(500):
        kind = draw.of(PROCESS_TYPES)
        reply_type = draw.of(PROCESS_TYPES) if draw.below(12) else draw.below(256)
        octets = reply(reply_type, draw.below(4)) if reply_type in PROCESS_ELEMENT else b""
        if draw.below(12) == 0:
            octets += draw.octets(1 + draw.below(3))
        changes = b""
        for _ in range(draw.below(6)):
            point_type = draw.of(TYPES)
            changes += update(
                draw.of((7, 7, 7, 9)),
                100 + point_type if draw.below(4) else draw.of((5, 101, 102)),
                point_type if draw.below(4) else 1,
                draw.octets(12),
            )
        command = usual(kind, draw.below(4), cause=draw.of((5, 6, 6, 8, 7)) + draw.of((0, 0, 64, 128)), ca=draw.of((7, 9, 8)))
        s.lend_answer(draw.of((260, 260, 10, 20)))
        s.lend_spontaneous(draw.of((300, 300, 0, 12, 40)))
        s.process(command, negative=draw.of((0, 0, 0, 1)), reply_type=reply_type, reply=octets, updates=changes,
                  length=len(command) + (1 if draw.below(40) == 0 else 0))
        if turn % 40 == 39:
            s.back()
    s.back()


def main():
    s = Script()
    gateway_of_two(s)
    types(s)
    causes(s)
    lengths(s)
    proposals(s)
    updates(s)
    rooms(s)
    confirmations(s)
    spoilt(s)
    drawn(s)
    s.write("process", ("process",))


if __name__ == "__main__":
    main()
