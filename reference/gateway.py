"""The gateway of document 01, calculated independently of the Rattle code.

It is written from the documents alone: document 01 (docs/01-scope.md), the table's memory and the
interface of DESIGN.md sections 3 and 5, and the readings of docs/DECISIONS.md.  It is simple and
slow on purpose: every entry reads the whole table out of its memory into lists and dictionaries,
decides there, and prints the whole table back.  The sentences in quotation marks are document 01's.

    python3 reference/gateway.py --self-test     runs document 01's cases a to j, and more
"""

import sys
from collections import namedtuple

# ---------------------------------------------------------------------------------------------
# Octets of an ASDU
# ---------------------------------------------------------------------------------------------

# "Element octets of the 30 point types: types 1, 3: 1. 2, 4: 4. 5: 2. 6: 5. 7: 5. 9, 11: 3.
# 10, 12: 6. 13: 5. 14: 8. 15: 5. 17: 6. 18, 19: 7. 20: 5. 21: 2. 30, 31: 8. 32: 9. 33: 12.
# 34, 35: 10. 36, 37: 12. 38: 10. 39, 40: 11. Types 8 and 16 are not points."
POINT_ELEMENT = {
    1: 1, 3: 1,
    2: 4, 4: 4,
    5: 2,
    6: 5,
    7: 5,
    9: 3, 11: 3,
    10: 6, 12: 6,
    13: 5,
    14: 8,
    15: 5,
    17: 6,
    18: 7, 19: 7,
    20: 5,
    21: 2,
    30: 8, 31: 8,
    32: 9,
    33: 12,
    34: 10, 35: 10,
    36: 12, 37: 12,
    38: 10,
    39: 11, 40: 11,
}

# "System types: 100 interrogation 1, 101 counters 1, 102 read 0, 103 clock 7, 104 test 2,
# 105 reset process 1, 107 timed test 9."
INTERROGATION, COUNTERS, READ, CLOCK, TEST, RESET_PROCESS, TIMED_TEST = 100, 101, 102, 103, 104, 105, 107
SYSTEM_ELEMENT = {
    INTERROGATION: 1,
    COUNTERS: 1,
    READ: 0,
    CLOCK: 7,
    TEST: 2,
    RESET_PROCESS: 1,
    TIMED_TEST: 9,
}

# "Process types: 45, 46, 47: 1. 48, 49: 3. 50: 5. 51: 4. 58 to 64: those of 45 to 51 plus 7."
PROCESS_ELEMENT = {
    45: 1, 46: 1, 47: 1,
    48: 3, 49: 3,
    50: 5,
    51: 4,
    58: 8, 59: 8, 60: 8,
    61: 10, 62: 10,
    63: 12,
    64: 11,
}

# "types 15 and 37 only, perhaps a counter group"
COUNTER_TYPES = (15, 37)

# "CA 65,535 matches every station"
EVERY_STATION = 65535

# "IOA is 0 to 16,777,215."
LARGEST_IOA = 16777215


def low_first(number, octets):
    """A number in so many octets, low first."""
    return bytes((number >> (8 * i)) & 255 for i in range(octets))


def number_of(octets):
    """The number that octets spell, low first."""
    return sum(octet << (8 * i) for i, octet in enumerate(octets))


def header(kind, count, cause, ca, originator=0, test=0, negative=0):
    """"Type; count (bits 0 to 6) with the sequence flag in bit 7; cause (bits 0 to 5), negative in
    bit 6, test in bit 7; originator; common address (CA), two octets, low first."

    The sequence flag is clear in all that the gateway says.
    """
    assert 0 <= count <= 127 and 0 <= cause <= 63
    return bytes([kind, count, cause | (negative << 6) | (test << 7), originator]) + low_first(ca, 2)


def object_of(ioa, element):
    """"Then objects: address (IOA), three octets, low first, and the element.\""""
    return low_first(ioa, 3) + bytes(element)


def most_objects(element):
    """"Most objects in one ASDU: 243 divided by (3 + element octets), rounded down, at most 127.\""""
    return min(243 // (3 + element), 127)


def run(kind, objects, cause, ca):
    """"A run of objects fills each ASDU to that number but the last; no ASDU of data is empty."
    "Data has originator 0, test 0, negative 0.\""""
    most = most_objects(POINT_ELEMENT[kind])
    octets = b""
    while objects:
        piece, objects = objects[:most], objects[most:]
        octets += header(kind, len(piece), cause, ca) + b"".join(piece)
    return octets


# ---------------------------------------------------------------------------------------------
# Points, stations and shares, as lists and dictionaries
#
#   table    {"capacity": K, "stations": [station, ..]}
#   station  {"ca": .., "reservation": r, "ceiling": c, "points": [point, ..]}
#   point    {"ioa": .., "type": .., "value": 12 octets, "group": 1 to 16 or None,
#             "counter_group": 1 to 4 or None}
# ---------------------------------------------------------------------------------------------


def plan_is_valid(capacity, plan):
    """Whether K and a list of (CA, reservation, ceiling) are a valid K and plan."""
    # "Capacity K is 1 to 4,096."
    if not 1 <= capacity <= 4096:
        return False
    # "A plan lists 1 to 64 stations,"
    if not 1 <= len(plan) <= 64:
        return False
    for ca, reservation, ceiling in plan:
        # "each 1 to 65,534,"
        if not 1 <= ca <= 65534:
            return False
        # "with reservation r and ceiling c, r ≤ c ≤ K,"
        if not reservation <= ceiling <= capacity:
            return False
    # "CA strictly ascending,"
    for (before, _, _), (after, _, _) in zip(plan, plan[1:]):
        if not before < after:
            return False
    # "the r adding up to at most K."
    return sum(reservation for _, reservation, _ in plan) <= capacity


def held(station):
    """"Held is a station's number of points.\""""
    return len(station["points"])


def free(table):
    """"Free is K minus all held.\""""
    return table["capacity"] - sum(held(station) for station in table["stations"])


def unmet(table):
    """"Unmet is the sum, over stations with held < r, of r − held. A station above its reservation
    adds 0.\""""
    return sum(
        station["reservation"] - held(station)
        for station in table["stations"]
        if held(station) < station["reservation"]
    )


def is_admitted(table, station):
    """"One more point of station s is admitted exactly if held < c, and held < r or free > unmet.\""""
    return held(station) < station["ceiling"] and (
        held(station) < station["reservation"] or free(table) > unmet(table)
    )


def station_of(table, ca):
    """The planned station with this CA, or None."""
    for station in table["stations"]:
        if station["ca"] == ca:
            return station
    return None


def point_of(table, ca, ioa):
    """The registered point with this address, or None."""
    station = station_of(table, ca)
    if station is None:
        return None
    for point in station["points"]:
        if point["ioa"] == ioa:
            return point
    return None


def value_of(kind, octets):
    """"A point has a type, its octets (any past the element are ignored and kept as zero)": twelve
    octets, the element and then zeros."""
    element = bytes(octets[: POINT_ELEMENT[kind]])
    return element + bytes(12 - len(element))


def element_of(point):
    """The octets of a point that an ASDU shows."""
    return point["value"][: POINT_ELEMENT[point["type"]]]


def point_is_described(point):
    """Whether a point is "as described": IOA, type, octets, groups."""
    if point["type"] not in POINT_ELEMENT:
        return False
    if not 0 <= point["ioa"] <= LARGEST_IOA:
        return False
    # "any past the element are ignored and kept as zero"
    if point["value"] != value_of(point["type"], point["value"]):
        return False
    # "perhaps an interrogation group 1 to 16"
    if point["group"] is not None and not 1 <= point["group"] <= 16:
        return False
    # "and, types 15 and 37 only, perhaps a counter group 1 to 4."
    if point["counter_group"] is not None:
        if point["type"] not in COUNTER_TYPES or not 1 <= point["counter_group"] <= 4:
            return False
    return True


def table_is_good(table):
    """Document 01's list of what makes a table well formed, its memory aside."""
    # "A table is well formed if its plan and K are valid"
    plan = [(s["ca"], s["reservation"], s["ceiling"]) for s in table["stations"]]
    if not plan_is_valid(table["capacity"], plan):
        return False
    # "its points are at most K,"
    if sum(held(station) for station in table["stations"]) > table["capacity"]:
        return False
    for station in table["stations"]:
        # "strictly ascending by CA then IOA," (the CA ascend in a valid plan)
        for before, after in zip(station["points"], station["points"][1:]):
            if not before["ioa"] < after["ioa"]:
                return False
        # "each as described with a planned CA;"
        if not all(point_is_described(point) for point in station["points"]):
            return False
        # "no station is above its ceiling;"
        if held(station) > station["ceiling"]:
            return False
    # "and free ≥ unmet."
    return free(table) >= unmet(table)


# ---------------------------------------------------------------------------------------------
# The table's memory (DESIGN.md, section 3)
# ---------------------------------------------------------------------------------------------

HEAD, PLACE, STATION = 64, 48, 8
MARK = bytes([0x4B, 0x48, 0x56, 0x01])


def table_octets(capacity, stations):
    """"48 × K + 8 × stations + 64 octets\""""
    return 48 * capacity + 8 * stations + 64


def place_image(ca, point):
    """A place: 0 type; 1–2 CA; 3–5 IOA; 6–7 interrogation group, 0 none; 8 counter group, 0 none;
    9 freeze mark, later; 10–21 value; 22–33 frozen value, later; 34–47 zero."""
    image = bytes([point["type"]]) + low_first(ca, 2) + low_first(point["ioa"], 3)
    image += low_first(point["group"] or 0, 2) + bytes([point["counter_group"] or 0])
    image += bytes(1) + point["value"]
    return image + bytes(PLACE - len(image))


def station_image(station):
    """A station: 0–1 CA; 2–3 reservation; 4–5 ceiling; 6–7 held."""
    numbers = station["ca"], station["reservation"], station["ceiling"], held(station)
    return b"".join(low_first(number, 2) for number in numbers)


def table_image(table):
    """The whole table as octets: head, K places (the stations' points one station after another, then
    zeros), stations."""
    capacity, stations = table["capacity"], table["stations"]
    # head: 0–3 mark; 4–5 K; 6–7 stations; 8–9 points; the rest zero
    head = MARK + low_first(capacity, 2) + low_first(len(stations), 2)
    head += low_first(sum(held(station) for station in stations), 2)
    head += bytes(HEAD - len(head))
    places = b"".join(place_image(s["ca"], point) for s in stations for point in s["points"])
    places += bytes(PLACE * capacity - len(places))
    return head + places + b"".join(station_image(station) for station in stations)


def table_in(memory):
    """The table that a memory holds, or None if it is not well formed (number 3)."""
    # A memory too short to hold a head is 3.
    if len(memory) < HEAD or memory[0:4] != MARK:
        return None
    capacity, count = number_of(memory[4:6]), number_of(memory[6:8])
    # "its memory is no shorter than number 10 asks": K and stations are those in the table, the length
    # is the one lent to this call.
    if len(memory) < table_octets(capacity, count):
        return None
    table = {"capacity": capacity, "stations": []}
    place = 0
    for index in range(count):
        at = HEAD + PLACE * capacity + STATION * index
        ca, reservation, ceiling, points = (number_of(memory[at + i : at + i + 2]) for i in (0, 2, 4, 6))
        station = {"ca": ca, "reservation": reservation, "ceiling": ceiling, "points": []}
        for _ in range(points):
            # "its points are at most K"
            if place == capacity:
                return None
            octets = memory[HEAD + PLACE * place : HEAD + PLACE * (place + 1)]
            station["points"].append(
                {
                    "type": octets[0],
                    "ioa": number_of(octets[3:6]),
                    "group": number_of(octets[6:8]) or None,
                    "counter_group": octets[8] or None,
                    "value": bytes(octets[10:22]),
                }
            )
            place += 1
        table["stations"].append(station)
    if not table_is_good(table):
        return None
    # What has not been read above is as printed: the number of points, the CA of each place, and the
    # spare octets and unused places, which are zero.
    if memory[: table_octets(capacity, count)] != table_image(table):
        return None
    return table


def store(memory, table):
    """Prints a table over the front of its memory; what lies after is the caller's."""
    image = table_image(table)
    memory[: len(image)] = image


# ---------------------------------------------------------------------------------------------
# Numbers given back
# ---------------------------------------------------------------------------------------------

DONE = 0  # "done"
SILENT = 1  # "silent: nothing is said, nothing changes"
MALFORMED = 2  # "ASDU malformed"
NOT_WELL_FORMED = 3  # "table not well formed"
ANSWER_SHORT = 4  # "answer memory shorter than the answer"
SPONTANEOUS_SHORT = 5  # "spontaneous memory shorter than what goes in it"
BAD_PROPOSAL = 6  # "bad proposal"
BAD_PLAN = 10  # "invalid plan or K, or table memory below 48 × K + 8 × stations + 64 octets"
BAD_POINT = 11  # "unknown point type, or IOA too large"
NOT_PLANNED = 12  # "CA not in the plan"
BAD_GROUP = 13  # "interrogation group not 1 to 16"
BAD_COUNTER_GROUP = 14  # "counter group not 1 to 4"
NO_COUNTER = 15  # "counter group on a point that is no counter"
TWICE_IN_BATCH = 16  # "address stands earlier in the batch"
REGISTERED = 17  # "already registered"
NOT_REGISTERED = 18  # "not registered (removal)"
CEILING = 19  # "ceiling: held = c"
NOT_ADMITTED = 20  # "held < c, not admitted"

# DESIGN.md section 5: octets and spontaneous are 0 unless number is 0; place is the faulty point of a
# refused batch, or the number of points that remove all removed, else 0.
Reply = namedtuple("Reply", "number place octets spontaneous", defaults=(0, 0, 0))
ShareReply = namedtuple("ShareReply", "number reservation ceiling held free unmet", defaults=(0,) * 5)


# ---------------------------------------------------------------------------------------------
# Opening, registration, removal, shares
# ---------------------------------------------------------------------------------------------


def open_table(memory, capacity, plan):
    """khuvelter_open: "Opening gives only 10". The plan is CA, reservation, ceiling for each station."""
    # a length that is not a multiple of three is an invalid plan
    if len(plan) % 3 != 0:
        return Reply(BAD_PLAN)
    plan = [tuple(plan[i : i + 3]) for i in range(0, len(plan), 3)]
    if not plan_is_valid(capacity, plan):
        return Reply(BAD_PLAN)
    # "or table memory below 48 × K + 8 × stations + 64 octets"
    if len(memory) < table_octets(capacity, len(plan)):
        return Reply(BAD_PLAN)
    # "freshly opened it is well formed and has no points"
    stations = [{"ca": ca, "reservation": r, "ceiling": c, "points": []} for ca, r, c in plan]
    store(memory, {"capacity": capacity, "stations": stations})
    return Reply(DONE)


def record_in(octets):
    """A record of 24 octets: CA 2, IOA 4, type 1, has interrogation group 1 (0 no, else yes), group 1,
    has counter group 1, counter group 1, spare 1 (ignored), value 12."""
    assert len(octets) == 24
    return {
        "ca": number_of(octets[0:2]),
        "ioa": number_of(octets[2:6]),
        "type": octets[6],
        "group": octets[8] if octets[7] != 0 else None,
        "counter_group": octets[10] if octets[9] != 0 else None,
        "value": bytes(octets[12:24]),
    }


def own_fault(table, record):
    """The tests 11 to 15 of one point, "in table order"; 0 if it passes."""
    if record["type"] not in POINT_ELEMENT or record["ioa"] > LARGEST_IOA:
        return BAD_POINT
    if station_of(table, record["ca"]) is None:
        return NOT_PLANNED
    # "'No group' is not group 0."
    if record["group"] is not None and not 1 <= record["group"] <= 16:
        return BAD_GROUP
    if record["counter_group"] is not None and not 1 <= record["counter_group"] <= 4:
        return BAD_COUNTER_GROUP
    if record["counter_group"] is not None and record["type"] not in COUNTER_TYPES:
        return NO_COUNTER
    return DONE


def is_registered(table, record):
    return point_of(table, record["ca"], record["ioa"]) is not None


def share_fault(table, record):
    """19, 20, or 0 for one more point of the record's station."""
    station = station_of(table, record["ca"])
    # "ceiling: held = c"
    if held(station) == station["ceiling"]:
        return CEILING
    # "held < c, not admitted"
    if not is_admitted(table, station):
        return NOT_ADMITTED
    return DONE


def take_in(table, record):
    """Puts a record's point among its station's, IOA ascending."""
    points = station_of(table, record["ca"])["points"]
    points.append(
        {
            "ioa": record["ioa"],
            "type": record["type"],
            "value": value_of(record["type"], record["value"]),
            "group": record["group"],
            "counter_group": record["counter_group"],
        }
    )
    points.sort(key=lambda point: point["ioa"])


def register_point(memory, octets):
    """khuvelter_register_point: "Tests run: 3, then per point 11 to 17 in table order, then 19 and 20".
    A single registration names no place."""
    table = table_in(memory)
    if table is None:
        return Reply(NOT_WELL_FORMED)
    record = record_in(octets)
    number = own_fault(table, record)
    if number == DONE and is_registered(table, record):
        number = REGISTERED
    if number == DONE:
        number = share_fault(table, record)
    # "Every number but 0 writes nothing anywhere."
    if number != DONE:
        return Reply(number)
    take_in(table, record)
    store(memory, table)
    return Reply(DONE)


def register_points(memory, octets):
    """khuvelter_register_points: "Every point passes its own tests in list order, then the share rule as
    if registered one by one; all or none. An empty batch succeeds." "A batch also names the first
    point, counted from 0, that has the fault." Octets after the last whole record are ignored."""
    table = table_in(memory)
    if table is None:
        return Reply(NOT_WELL_FORMED)
    records = [record_in(octets[i : i + 24]) for i in range(0, len(octets) - 23, 24)]
    # "then per point 11 to 17 in table order"
    earlier = set()
    for place, record in enumerate(records):
        number = own_fault(table, record)
        address = record["ca"], record["ioa"]
        if number == DONE and address in earlier:
            number = TWICE_IN_BATCH
        if number == DONE and is_registered(table, record):
            number = REGISTERED
        if number != DONE:
            return Reply(number, place)
        earlier.add(address)
    # "then 19 and 20 over the batch": the table here is a copy, so that a refusal stores nothing
    for place, record in enumerate(records):
        number = share_fault(table, record)
        if number != DONE:
            return Reply(number, place)
        take_in(table, record)
    store(memory, table)
    return Reply(DONE)


def unregister_point(memory, ca, ioa):
    """khuvelter_unregister_point: "removal of a point 3 then 18". "Removing one point frees its room at
    once." An address that cannot exist is 18."""
    table = table_in(memory)
    if table is None:
        return Reply(NOT_WELL_FORMED)
    point = point_of(table, ca, ioa)
    if point is None:
        return Reply(NOT_REGISTERED)
    station_of(table, ca)["points"].remove(point)
    store(memory, table)
    return Reply(DONE)


def unregister_all(memory):
    """khuvelter_unregister_all: "removal of all 3". "Removing all gives back their number and keeps the
    plan.\""""
    table = table_in(memory)
    if table is None:
        return Reply(NOT_WELL_FORMED)
    removed = sum(held(station) for station in table["stations"])
    for station in table["stations"]:
        station["points"] = []
    store(memory, table)
    return Reply(DONE, removed)


def share(memory, ca):
    """khuvelter_share: number 3, 12 or 0; reservation, ceiling and held of the station; free and unmet
    of the table."""
    table = table_in(memory)
    if table is None:
        return ShareReply(NOT_WELL_FORMED)
    station = station_of(table, ca)
    if station is None:
        return ShareReply(NOT_PLANNED)
    return ShareReply(
        DONE, station["reservation"], station["ceiling"], held(station), free(table), unmet(table)
    )


# ---------------------------------------------------------------------------------------------
# Start of a connection
# ---------------------------------------------------------------------------------------------


def connection_started(memory, answer):
    """khuvelter_connection_started: "start of a connection 3 then 4". "Start of a connection: type 70,
    cause 4, originator 0, IOA 0, octet 0, CA the smallest with a point, or 0.\""""
    table = table_in(memory)
    if table is None:
        return Reply(NOT_WELL_FORMED)
    with_a_point = [station["ca"] for station in table["stations"] if held(station) > 0]
    ca = min(with_a_point) if with_a_point else 0
    said = header(70, 1, 4, ca) + object_of(0, [0])
    if len(answer) < len(said):
        return Reply(ANSWER_SHORT)
    answer[: len(said)] = said
    return Reply(DONE, 0, len(said))


# ---------------------------------------------------------------------------------------------
# Commands
# ---------------------------------------------------------------------------------------------


def read_command(asdu, elements):
    """The tests that both entries make of an ASDU, "3" aside: the number, and the command's parts."""
    # "then length below 6 or above 249 is 2;"
    if len(asdu) < 6 or len(asdu) > 249:
        return MALFORMED, None
    # "a type the entry doesn't serve is 1;"
    kind = asdu[0]
    if kind not in elements:
        return SILENT, None
    # "sequence flag set, or length not 6 + count × (3 + element) is 2;"
    count, sequence, size = asdu[1] & 127, asdu[1] >> 7, 3 + elements[kind]
    if sequence or len(asdu) != 6 + count * size:
        return MALFORMED, None
    command = {
        "type": kind,
        "cause": asdu[2] & 63,
        # "The command's own negative bit is not read."
        "test": asdu[2] >> 7,
        "originator": asdu[3],
        "ca": number_of(asdu[4:6]),
        "objects": [bytes(asdu[6 + i * size : 6 + (i + 1) * size]) for i in range(count)],
    }
    return DONE, command


def mirror(command, objects, cause, negative=0, kind=None):
    """A confirmation or termination: "Confirmations and terminations copy originator, CA and test from
    the command, with the sequence flag clear, and the negative bit too unless said.\""""
    return header(
        command["type"] if kind is None else kind,
        len(objects),
        cause,
        command["ca"],
        command["originator"],
        command["test"],
        negative,
    ) + b"".join(objects)


def matching(table, ca):
    """"Data are points of the CA": the points as (IOA, CA of the station, point), IOA ascending. "CA
    65,535 matches every station; equal IOAs go by ascending station.\""""
    chosen = [
        (point["ioa"], station["ca"], point)
        for station in table["stations"]
        if ca == EVERY_STATION or station["ca"] == ca
        for point in station["points"]
    ]
    return sorted(chosen, key=lambda entry: entry[:2])


def data(points, types, cause, ca):
    """"types ascending, then IOA ascending", "and data keep CA 65,535"."""
    octets = b""
    for kind in types:
        objects = [object_of(ioa, element_of(p)) for ioa, _, p in points if p["type"] == kind]
        octets += run(kind, objects, cause, ca)
    return octets


def interrogation(table, command):
    """What an interrogation says, or None if it is silent."""
    # "Interrogation uses the first object only; confirmation and termination carry that object alone."
    first = command["objects"][0]
    qualifier = first[3]
    # "Qualifier 0: 1."
    if qualifier == 0:
        return None
    # "Other: one negative confirmation, cause 7."
    if not 20 <= qualifier <= 36:
        return mirror(command, [first], 7, negative=1)
    # "all for 20, those of group qualifier − 20 otherwise;"
    points = [
        entry
        for entry in matching(table, command["ca"])
        if qualifier == 20 or entry[2]["group"] == qualifier - 20
    ]
    # "confirmation (cause 7), data with cause equal to the qualifier, termination (cause 10)."
    return (
        mirror(command, [first], 7)
        + data(points, sorted(POINT_ELEMENT), qualifier, command["ca"])
        + mirror(command, [first], 10)
    )


def counters(table, command):
    """What a counter command says; it resets counters in the table that is handed in."""
    # "Counters: first object, confirmation, termination, and the data's CA and order are as for
    # interrogation."
    first = command["objects"][0]
    # "Qualifier bits 0 to 5 choose (5 all, 1 to 4 a group), bits 6 and 7 act"
    choice, action = first[3] & 63, first[3] >> 6
    # "Choice 0 or above 5: a negative confirmation alone."
    if not 1 <= choice <= 5:
        return mirror(command, [first], 7, negative=1)
    points = [
        entry
        for entry in matching(table, command["ca"])
        if entry[2]["type"] in COUNTER_TYPES and (choice == 5 or entry[2]["counter_group"] == choice)
    ]
    # "types 15 then 37 with cause 37 (all) or 37 + group"
    cause = 37 if choice == 5 else 37 + choice
    said = (
        mirror(command, [first], 7)
        + data(points, COUNTER_TYPES, cause, command["ca"])
        + mirror(command, [first], 10)
    )
    # "Data show values before the reset. Actions 2 and 3 set the reading (first four octets) of the
    # reported counters to 0; the fifth octet stays. 0 and 1 change nothing."
    if action in (2, 3):
        for _, _, point in points:
            point["value"] = bytes(4) + point["value"][4:]
    return said


def read(table, command):
    """"Read: confirmation echoing all objects, cause 7, negative if any address is missing and then no
    data; else one ASDU per object in command order, cause 5, repeats included.\""""
    ca = command["ca"]
    addresses = [number_of(octets[0:3]) for octets in command["objects"]]
    # CA 65,535 is no station: a read to it is a missing address
    points = [point_of(table, ca, ioa) for ioa in addresses]
    if None in points:
        return mirror(command, command["objects"], 7, negative=1)
    said = mirror(command, command["objects"], 7)
    for ioa, point in zip(addresses, points):
        said += header(point["type"], 1, 5, ca) + object_of(ioa, element_of(point))
    return said


def system_command(memory, clock, asdu, answer):
    """khuvelter_system_command: 3; the tests of every ASDU; the silent rules; then 4. The clock is seven
    octets of time and the known flag."""
    assert len(clock) == 8
    table = table_in(memory)
    if table is None:
        return Reply(NOT_WELL_FORMED)
    number, command = read_command(asdu, SYSTEM_ELEMENT)
    if number != DONE:
        return Reply(number)
    # "a command with no first object is answered by number 1."
    if not command["objects"]:
        return Reply(SILENT)
    # "Causes taken: 6 for type 100; 5 or 6 for the others; else 1."
    if command["cause"] not in ((6,) if command["type"] == INTERROGATION else (5, 6)):
        return Reply(SILENT)
    if command["type"] == INTERROGATION:
        said = interrogation(table, command)
    elif command["type"] == COUNTERS:
        said = counters(table, command)
    elif command["type"] == READ:
        said = read(table, command)
    else:
        # "Clock: .. all objects echoed." "Tests and reset process: the same echo."
        # "A system confirmation has cause 7."
        said = mirror(command, command["objects"], 7)
    if said is None:
        return Reply(SILENT)
    if len(answer) < len(said):
        return Reply(ANSWER_SHORT)
    answer[: len(said)] = said
    store(memory, table)
    # "Clock: the first object's time is remembered"
    if command["type"] == CLOCK:
        clock[0:7] = command["objects"][0][3:10]
        clock[7] = 1
    return Reply(DONE, 0, len(said))


def proposal_is_bad(reply_type, reply):
    """"It is bad exactly if the type is no process type, or the reply octets are over 243 or not whole
    objects.\""""
    if reply_type not in PROCESS_ELEMENT:
        return True
    return len(reply) > 243 or len(reply) % (3 + PROCESS_ELEMENT[reply_type]) != 0


def process_command(memory, asdu, negative, reply_type, reply, updates, answer, spontaneous):
    """khuvelter_process_command: 3; the tests of every ASDU; the silent rules; "then 6, 5, 4". An update
    has 18 octets: CA 2, IOA 3, type 1, value 12; octets after the last whole one are ignored."""
    table = table_in(memory)
    if table is None:
        return Reply(NOT_WELL_FORMED)
    number, command = read_command(asdu, PROCESS_ELEMENT)
    if number != DONE:
        return Reply(number)
    # "Process commands take causes 5, 6, 8; else 1." "No objects is allowed here."
    if command["cause"] not in (5, 6, 8):
        return Reply(SILENT)
    if proposal_is_bad(reply_type, reply):
        return Reply(BAD_PROPOSAL)
    told = b""
    # "If not negative, updates go in order:"
    if negative == 0:
        for i in range(0, len(updates) - 17, 18):
            ca, ioa, kind = number_of(updates[i : i + 2]), number_of(updates[i + 2 : i + 5]), updates[i + 5]
            point = point_of(table, ca, ioa)
            # "an unknown address or another type is skipped;"
            if point is None or point["type"] != kind:
                continue
            # "else the value is stored and an ASDU with cause 3, one object and the update's own CA goes
            # to the spontaneous memory."
            point["value"] = value_of(kind, updates[i + 6 : i + 18])
            told += header(kind, 1, 3, ca) + object_of(ioa, element_of(point))
    # "Then the confirmation, cause 9 for 8, else 7."
    size = 3 + PROCESS_ELEMENT[reply_type]
    objects = [bytes(reply[i : i + size]) for i in range(0, len(reply), size)]
    cause = 9 if command["cause"] == 8 else 7
    said = mirror(command, objects, cause, negative=1 if negative != 0 else 0, kind=reply_type)
    if len(spontaneous) < len(told):
        return Reply(SPONTANEOUS_SHORT)
    if len(answer) < len(said):
        return Reply(ANSWER_SHORT)
    spontaneous[: len(told)] = told
    answer[: len(said)] = said
    store(memory, table)
    return Reply(DONE, 0, len(said), len(told))


# ---------------------------------------------------------------------------------------------
# Self-test: document 01's cases a to j, typed in from the paper
# ---------------------------------------------------------------------------------------------


def record(ca, ioa, kind, value=b"", group=None, counter_group=None, spare=0):
    """The 24 octets of a point's record."""
    octets = low_first(ca, 2) + low_first(ioa, 4) + bytes([kind])
    for given in (group, counter_group):
        octets += bytes([0, 0]) if given is None else bytes([1, given])
    value = bytes(value)
    return octets + bytes([spare]) + value + bytes(12 - len(value))


def paper_gateway():
    """"K = 8; station 7, r 2, c 4. Points: IOA 10 type 1 octet 01 group 1; IOA 3 type 1 octet 00; IOA 5
    type 15 octets 2A 00 00 00 03, counter group 1.\""""
    memory = bytearray(table_octets(8, 1))
    assert open_table(memory, 8, [7, 2, 4]) == Reply(DONE)
    assert register_point(memory, record(7, 10, 1, [0x01], group=1)) == Reply(DONE)
    assert register_point(memory, record(7, 3, 1, [0x00])) == Reply(DONE)
    five = bytes.fromhex("2A 00 00 00 03")
    assert register_point(memory, record(7, 5, 15, five, counter_group=1)) == Reply(DONE)
    return memory


def asked(memory, command, room=1000):
    """Number and answer of a system command given in hex; what lies past the answer must stay."""
    answer, clock, before = bytearray([0xEE] * room), bytearray(8), bytes(memory)
    reply = system_command(memory, clock, bytes.fromhex(command), answer)
    assert answer[reply.octets :] == bytes([0xEE] * (room - reply.octets))
    if reply.number != DONE:
        assert reply == Reply(reply.number) and bytes(memory) == before
    return reply.number, bytes(answer[: reply.octets])


def asdus(octets):
    """An answer cut into its ASDUs."""
    sizes = {**POINT_ELEMENT, **SYSTEM_ELEMENT}
    found = []
    while octets:
        length = 6 + (octets[1] & 127) * (3 + sizes[octets[0]])
        found.append(octets[:length])
        octets = octets[length:]
    return found


def test_gateway_on_paper():
    memory = paper_gateway()
    case_a = "64 01 06 00 07 00 00 00 00 14"
    answer_a = bytes.fromhex(
        """
        64 01 07 00 07 00 00 00 00 14
        01 02 14 00 07 00 03 00 00 00 0A 00 00 01
        0F 01 14 00 07 00 05 00 00 2A 00 00 00 03
        64 01 0A 00 07 00 00 00 00 14
        """
    )
    assert asked(memory, case_a) == (0, answer_a)
    # "48 octets; with 47 it is number 4."
    assert len(answer_a) == 48
    assert asked(memory, case_a, 48) == (0, answer_a)
    assert asked(memory, case_a, 47) == (4, b"")
    # "b. Qualifier 15 hex: only IOA 10, cause 15 hex, 30 octets in all."
    number, answer = asked(memory, "64 01 06 00 07 00 00 00 00 15")
    assert number == 0 and len(answer) == 30
    assert answer[10:20] == bytes.fromhex("01 01 15 00 07 00 0A 00 00 01")
    # "c. Qualifier 01: ten octets, third 47 hex."
    number, answer = asked(memory, "64 01 06 00 07 00 00 00 00 01")
    assert number == 0 and len(answer) == 10 and answer[2] == 0x47
    # "d. Qualifier 0: 1."
    assert asked(memory, "64 01 06 00 07 00 00 00 00 00") == (1, b"")
    # "f. CA 9, not planned: confirmation and termination, 20 octets."
    number, answer = asked(memory, "64 01 06 00 09 00 00 00 00 14")
    assert number == 0 and len(answer) == 20
    assert [piece[2] for piece in asdus(answer)] == [7, 10]
    # "e. 65 01 06 00 07 00 00 00 00 C5: 34 octets, data cause 25 hex with 2A; afterwards 00 00 00 00 03."
    number, answer = asked(memory, "65 01 06 00 07 00 00 00 00 C5")
    assert number == 0 and len(answer) == 34
    assert answer[10:24] == bytes.fromhex("0F 01 25 00 07 00 05 00 00 2A 00 00 00 03")
    assert point_of(table_in(memory), 7, 5)["value"] == bytes.fromhex("00 00 00 00 03") + bytes(7)


def filled(kind, count):
    """One station with so many points of one type, K and shares large enough."""
    memory = bytearray(table_octets(200, 1))
    assert open_table(memory, 200, [7, 0, 200]).number == DONE
    batch = b"".join(record(7, ioa, kind) for ioa in range(count))
    assert register_points(memory, batch) == Reply(DONE)
    return memory


def test_packing_on_paper():
    everything = "64 01 06 00 07 00 00 00 00 14"
    # "g. 60 points of type 1: one ASDU of 246 octets; 61: 60 and 1. h. 27 of type 17: 249 octets; 28: 27
    # and 1."
    for kind, most, octets in (1, 60, 246), (17, 27, 249):
        pieces = asdus(asked(filled(kind, most), everything)[1])
        assert len(pieces) == 3 and len(pieces[1]) == octets and pieces[1][1] == most
        pieces = asdus(asked(filled(kind, most + 1), everything)[1])
        assert [piece[1] for piece in pieces] == [1, most, 1, 1]


def test_shares_on_paper():
    # "i. K 5, A (r 2, c 5) and B (r 2, c 2): A gets 3 points, its fourth is 20, B still gets 2, B's third
    # is 19."
    a, b = 1, 2
    memory = bytearray(table_octets(5, 2))
    assert open_table(memory, 5, [a, 2, 5, b, 2, 2]).number == 0
    numbers = [register_point(memory, record(a, ioa, 1)).number for ioa in range(4)]
    assert numbers == [0, 0, 0, 20]
    numbers = [register_point(memory, record(b, ioa, 1)).number for ioa in range(3)]
    assert numbers == [0, 0, 19]
    # "j. B lets one go: A's fourth is still 20, B's next is 0."
    assert unregister_point(memory, b, 0).number == 0
    assert register_point(memory, record(a, 3, 1)).number == 20
    assert register_point(memory, record(b, 0, 1)).number == 0


def test_elements():
    """The sums that the paper's lists imply."""
    assert len(POINT_ELEMENT) == 30 and 8 not in POINT_ELEMENT and 16 not in POINT_ELEMENT
    for kind in range(45, 52):
        assert PROCESS_ELEMENT[kind + 13] == PROCESS_ELEMENT[kind] + 7
    assert max(most_objects(size) for size in POINT_ELEMENT.values()) == 60


def test_memory():
    """A table comes back from its image; a memory one octet short is not well formed, nor is one with any
    octet changed that is no value and no IOA that may rise."""
    memory = paper_gateway()
    table = table_in(memory)
    assert table_image(table) == memory
    assert table_in(memory + b"\x99" * 5) == table
    assert table_in(memory[:-1]) is None and table_in(memory[:63]) is None and table_in(b"") is None
    # The places in the order of the memory: IOA 3, type 1; IOA 5, type 15; IOA 10, type 1.
    values = [HEAD + PLACE * i + 10 + j for i, element in enumerate((1, 5, 1)) for j in range(element)]
    last_address = [HEAD + PLACE * 2 + j for j in (3, 4, 5)]
    for at in range(len(memory)):
        spoilt = bytearray(memory)
        spoilt[at] ^= 0x80
        assert (table_in(spoilt) is not None) == (at in values + last_address), at


def self_test():
    for test in (
        test_elements,
        test_gateway_on_paper,
        test_packing_on_paper,
        test_shares_on_paper,
        test_memory,
    ):
        test()
        print("passed:", test.__name__[5:].replace("_", " "))


if __name__ == "__main__":
    if sys.argv[1:] == ["--self-test"]:
        self_test()
    else:
        sys.exit(__doc__)
