"""Makes the replay list of the two forms over records (crates/replay, forms): batches as slices of point records, and
system commands with the clock lent.

The program takes batches of no, one and three records to the entry over a slice of records; what is expected is what
document 01 asks of any batch, the numbers typed in beside the calls.

    python3 reference/make_forms.py
"""

from gateway import record
from make_registration import FULL
from make_system import CLOCK, INTERROGATION, LATER, TIME, asdu, usual
from script import Script


def faults(s):
    """Tests 11 to 17 of the record in the middle, first and last; the first faulty place is named, nothing is stored."""
    good = record(7, 1, 1, [1]), record(7, 2, 3, [2])
    bad = {
        11: record(7, 5, 8, [0]),
        12: record(8, 5, 1, [0]),
        13: record(7, 5, 1, [0], group=17),
        14: record(7, 5, 15, FULL, counter_group=5),
        15: record(7, 5, 1, [0], counter_group=1),
        16: record(7, 1, 1, [0]),
    }
    for number, faulty in bad.items():
        s.batch([good[0], faulty, good[1]], expect=number, place=1)
        s.batch([good[0], good[1], faulty], expect=number, place=2)
        if number != 16:
            s.batch([faulty, good[0], good[1]], expect=number, place=0)
            s.batch([faulty], expect=number, place=0)
    # "No group" is not group 0
    s.batch([record(7, 5, 1, [0], group=0)], expect=13, place=0)
    s.batch([record(7, 5, 15, FULL, counter_group=0)], expect=14, place=0)
    # two faults: the first place is named, and at one place the first test
    s.batch([bad[15], good[0], bad[11]], expect=15, place=0)
    s.batch([good[0], record(8, 5, 8, [0]), bad[13]], expect=11, place=1)
    s.share(7, expect=0, held=0)


def batches(s):
    """Empty, one, three, one already registered, more than fit, a ceiling, room that is reserved for another."""
    s.opened(8, [7, 2, 5, 9, 2, 8], more=3)
    s.batch([], expect=0)
    faults(s)
    s.batch([record(7, 10, 1, [1], group=1)], expect=0)
    s.batch([record(7, 10, 1, [1])], expect=17, place=0)
    s.batch([record(7, 3, 1, [0]), record(9, 3, 37, FULL, group=16, counter_group=4), record(7, 5, 15, FULL, counter_group=1)], expect=0)
    s.batch([record(7, 4, 1, [0]), record(7, 10, 1, [1]), record(7, 6, 1, [0])], expect=17, place=1)
    s.share(7, expect=0, held=3)
    s.share(9, expect=0, held=1)
    s.batch([record(7, 20, 17, FULL), record(7, 21, 40, FULL), record(7, 22, 1, [1])], expect=19, place=2)
    s.batch([record(9, 20, 17, FULL), record(9, 21, 40, FULL), record(9, 22, 1, [1])], expect=0)
    s.batch([record(7, 23, 1, [1]), record(9, 23, 1, [1]), record(7, 24, 1, [1])], expect=20, place=1)
    s.batch([record(7, 23, 1, [1])], expect=0)
    s.batch([record(9, 24, 1, [1])], expect=20, place=0)
    s.batch([], expect=0)
    s.unregister(7, 23, expect=0)
    s.batch([record(9, 24, 1, [1])], expect=0)


def damaged(s):
    """No table: number 3, whatever the batch or the command."""
    s.keep()
    s.poke(0, 0)
    s.batch([], expect=3)
    s.batch([record(7, 1, 1, [1])], expect=3, place=0)
    s.batch([record(7, 1, 8, [1]), record(7, 2, 1, [1]), record(7, 3, 1, [1])], expect=3, place=0)
    s.system(usual(CLOCK), expect=3)
    s.back()


def clocks(s):
    """A fresh clock; set by an accepted clock command alone, whatever its CA; every refusal leaves it as it was."""
    s.set_clock(bytes(8))
    s.lend_answer(100)
    s.system(usual(INTERROGATION), expect=0)
    s.system(asdu(CLOCK, [(0, TIME)], cause=9), expect=1)
    s.system(asdu(CLOCK, [(0, TIME)], structure=0x81), expect=2)
    s.system(asdu(CLOCK, []), expect=1)
    s.system(asdu(CLOCK, [(0, TIME)]) + b"\0", expect=2)
    s.lend_answer(15)
    s.system(asdu(CLOCK, [(0, TIME)]), expect=4)
    damaged(s)
    s.lend_answer(16)
    s.system(asdu(CLOCK, [(0, TIME)]), expect=0, answer=16)
    s.system(asdu(CLOCK, [(0, LATER)], cause=9), expect=1)
    s.lend_answer(100)
    s.system(asdu(CLOCK, [(1, LATER), (2, TIME)], ca=65535), expect=0, answer=26)
    s.system(asdu(CLOCK, [(1, bytes(7))], cause=5, ca=0), expect=0, answer=16)
    s.system(usual(104), expect=0)
    s.lend_answer(9)
    s.system(asdu(CLOCK, [(0, TIME)]), expect=4)


def main():
    s = Script(forms={"b": "l", "s": "k"})
    batches(s)
    clocks(s)
    s.write("forms", ("batch", "system"))


if __name__ == "__main__":
    main()
