#!/usr/bin/env python3
"""Writes what the program crate `sizes` must print: python3 reference/sizes.py > crates/sizes/stdout

An independent calculation. The lists are typed in from document 01, 'Octets of an ASDU', sentence by sentence, and nothing here
reads or runs the Rattle code. Most objects are found by adding objects until the next one does not fit; the octets of a run are
found by cutting a list of objects into ASDUs and adding up the octets of each."""

# "types 1, 3: 1. 2, 4: 4. 5: 2. 6: 5. 7: 5. 9, 11: 3. 10, 12: 6. 13: 5. 14: 8. 15: 5. 17: 6. 18, 19: 7. 20: 5. 21: 2.
#  30, 31: 8. 32: 9. 33: 12. 34, 35: 10. 36, 37: 12. 38: 10. 39, 40: 11."
POINTS = [
    ([1, 3], 1), ([2, 4], 4), ([5], 2), ([6], 5), ([7], 5), ([9, 11], 3), ([10, 12], 6), ([13], 5), ([14], 8), ([15], 5),
    ([17], 6), ([18, 19], 7), ([20], 5), ([21], 2), ([30, 31], 8), ([32], 9), ([33], 12), ([34, 35], 10), ([36, 37], 12),
    ([38], 10), ([39, 40], 11),
]
# "100 interrogation 1, 101 counters 1, 102 read 0, 103 clock 7, 104 test 2, 105 reset process 1, 107 timed test 9."
SYSTEM = [([100], 1), ([101], 1), ([102], 0), ([103], 7), ([104], 2), ([105], 1), ([107], 9)]
# "45, 46, 47: 1. 48, 49: 3. 50: 5. 51: 4. 58 to 64: those of 45 to 51 plus 7."
PROCESS = [([45, 46, 47], 1), ([48, 49], 3), ([50], 5), ([51], 4)]
TIMED = [([kind + 58 - 45 for kind in kinds], octets + 7) for kinds, octets in PROCESS]
# "type 70, cause 4, .. octet 0": one octet.
END = [([70], 1)]

CLASSES = [("point", POINTS), ("system", SYSTEM), ("process", PROCESS + TIMED), ("end", END)]


def looked_up(kind):
    """The class and the element octets of a type."""
    found = [(name, octets) for name, rows in CLASSES for kinds, octets in rows if kind in kinds]
    assert len(found) <= 1, kind
    return found[0] if found else ("unknown", 0)


def most_objects(octets):
    """Objects are added while the ASDU, with the four control octets, stays within 253 and the count within seven bits."""
    count = 0
    while count + 1 < 128 and 4 + 6 + sum(3 + octets for _ in range(count + 1)) <= 253:
        count += 1
    return count


def run_octets(octets, number):
    """The octets of a run: objects go into an ASDU until it is full, and a new one is begun for the next object."""
    most = most_objects(octets)
    asdus = []
    for _ in range(number):
        if not asdus or asdus[-1] == most:
            asdus.append(0)
        asdus[-1] += 1
    total = 0
    for objects in asdus:
        assert 1 <= objects <= most
        length = 6 + objects * (3 + octets)
        assert 6 <= length <= 249
        total += length
    return total


def main():
    for kind in range(256):
        name, octets = looked_up(kind)
        print("type", kind, name, octets, most_objects(octets))
    points = sorted(kind for kinds, _ in POINTS for kind in kinds)
    assert len(points) == 30
    for kind in points:
        _, octets = looked_up(kind)
        most = most_objects(octets)
        numbers = [0, 1, most - 1, most, most + 1, 2 * most, 2 * most + 1, 4096]
        print("run", kind, *[run_octets(octets, number) for number in numbers])


main()
