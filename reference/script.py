"""Scripts of calls, and the lines that replaying one must print.

A list of calls is a script, octets.  The program crates/replay reads the scripts in its data/ and makes the
calls on the proved entries; the machine here makes the same calls on gateway.py.  Both print a line `list NAME`
for each list, and one for each call:

    NAME number place octets spontaneous CHECKSUM            every entry but share
    share number reservation ceiling held free unmet CHECKSUM

The checksum runs over all of the table's, the clock's, the answer's and the spontaneous memory after the
call, so a refusal that writes, or a writer that leaves its part, shows.

A step of a script is one letter and what follows it; numbers are low octet first.  CALLS has the steps that
call; the others set memory:

    T length:4 fill:1      lend table memory of this length, filled with this octet
    L length:4             lend this length of the table memory as it is
    A length:4 fill:1      the same as T for the answer memory
    S length:4 fill:1      the same as T for the spontaneous memory
    C octets:8             set the clock: seven octets and the known flag
    P at:4 octet:1         set one octet of the table memory
    K                      keep a copy of the table memory that is lent
    B                      put the kept copy back over the table memory that is lent
"""

import fcntl
import os
from collections import namedtuple

import gateway
from gateway import low_first, number_of

# What the program has room for.
TABLE_ROOM = 200000
ANSWER_ROOM = 65536
SPONTANEOUS_ROOM = 65536
ASDU_ROOM = 512
PLAN_ROOM = 256
SERIES_ROOM = 4100
SCRIPT_ROOM = 524288

# The program's crate: data/ has the scripts, args their names in order, stdout the lines.
RUNNER = os.path.join(os.path.dirname(os.path.abspath(__file__)), "..", "crates", "replay")

# The checksum's multiplier and its modulus, the greatest prime below 2^32.
MULTIPLIER = 16777619
MODULUS = 4294967291


def checksum(*memories):
    """A polynomial over all octets of the memories in order; each octet counts one more than it is, so that
    zeros count too."""
    result = 0
    for memory in memories:
        for octet in memory:
            result = (result * MULTIPLIER + octet + 1) % MODULUS
    return result


def series(count, record):
    """A batch of records like the one given: to the IOA and to each octet of the value the record's place in
    the batch is added."""
    assert count <= SERIES_ROOM
    batch = bytearray()
    for i in range(count):
        ioa = (number_of(record[2:6]) + i) % 2**32
        value = bytes((octet + i) % 256 for octet in record[12:24])
        batch += record[0:2] + low_first(ioa, 4) + record[6:12] + value
    return bytes(batch)


# What can follow the letter of a call: how the machine reads it, and how a script has it written.
Part = namedtuple("Part", "read write")


def number(octets):
    return Part(lambda m: m.number(octets), lambda value: low_first(value, octets))


def counted(octets):
    """Octets after their number."""
    return Part(lambda m: m.octets(m.number(octets)), lambda part: low_first(len(part), octets) + bytes(part))


def read_plan(machine):
    count = machine.number(2)
    assert count <= PLAN_ROOM
    return [machine.number(2) for _ in range(count)]


def read_asdu(machine):
    length, given = machine.number(2), machine.number(2)
    assert given <= length <= ASDU_ROOM
    return machine.octets(given) + bytes(length - given)


def write_asdu(asdu):
    given = asdu.rstrip(b"\0")
    return low_first(len(asdu), 2) + low_first(len(given), 2) + given


# A plan: its length, then numbers of two octets. An ASDU: its length, how many octets are given, these; the rest
# is zeros.
RECORD = Part(lambda m: m.octets(24), bytes)
PLAN = Part(read_plan, lambda plan: low_first(len(plan), 2) + b"".join(low_first(n, 2) for n in plan))
ASDU = Part(read_asdu, write_asdu)


# A step that calls: the name in its line, what follows its letter, the call on the memory of a machine, and the
# numbers that it can give (document 01, "Numbers given back").
Call = namedtuple("Call", "name parts make numbers")

CALLS = {
    "o": Call("open", (number(4), PLAN), lambda m, *a: gateway.open_table(m.lent, *a), {0, 10}),
    "r": Call("register", (RECORD,), lambda m, *a: gateway.register_point(m.lent, *a),
              {0, 3, 11, 12, 13, 14, 15, 17, 19, 20}),
    "b": Call("batch", (counted(4),), lambda m, *a: gateway.register_points(m.lent, *a),
              {0, 3, 11, 12, 13, 14, 15, 16, 17, 19, 20}),
    "u": Call("unregister", (number(2), number(4)), lambda m, *a: gateway.unregister_point(m.lent, *a), {0, 3, 18}),
    "x": Call("clear", (), lambda m: gateway.unregister_all(m.lent), {0, 3}),
    "h": Call("share", (number(2),), lambda m, *a: gateway.share(m.lent, *a), {0, 3, 12}),
    "c": Call("started", (), lambda m: gateway.connection_started(m.lent, m.answer), {0, 3, 4}),
    "s": Call("system", (ASDU,), lambda m, *a: gateway.system_command(m.lent, m.clock, *a, m.answer), {0, 1, 2, 3, 4}),
    # negative, type and objects of the reply, updates
    "p": Call("process", (ASDU, number(1), number(1), counted(2), counted(4)),
              lambda m, *a: gateway.process_command(m.lent, *a, m.answer, m.spontaneous), {0, 1, 2, 3, 4, 5, 6}),
}
# A batch of a number of records like the one given.
CALLS["n"] = CALLS["b"]._replace(parts=(number(2), RECORD), make=lambda m, *a: gateway.register_points(m.lent, series(*a)))
# The two forms over records: a batch of none, one or three records as a slice of point records; the clock lent as a record.
CALLS["l"] = CALLS["b"]
CALLS["k"] = CALLS["s"]

NUMBERS = {call.name: call.numbers for call in CALLS.values()}


class Machine:
    """Replays a script on gateway.py."""

    def __init__(self):
        self.table = bytearray(TABLE_ROOM)
        self.table_length = 0
        self.kept = bytearray(TABLE_ROOM)
        self.answer = bytearray()
        self.spontaneous = bytearray()
        self.clock = bytearray(8)
        self.lines = []
        self.replies = []

    def replay(self, script):
        """Makes every step of a script."""
        self.script, self.at = script, 0
        while self.at < len(script):
            letter = chr(self.number(1))
            if letter in CALLS:
                self.call(CALLS[letter])
            else:
                getattr(self, "step_" + letter)()

    def number(self, octets):
        return number_of(self.octets(octets))

    def octets(self, count):
        part = self.script[self.at : self.at + count]
        assert len(part) == count
        self.at += count
        return bytes(part)

    def call(self, call):
        """Makes one call on the table memory that is lent and prints its line."""
        arguments = [part.read(self) for part in call.parts]
        self.lent = self.table[: self.table_length]
        reply = call.make(self, *arguments)
        self.table[: self.table_length] = self.lent
        total = checksum(self.lent, self.clock, self.answer, self.spontaneous)
        self.replies.append((call.name, reply))
        self.lines.append(" ".join([call.name, *map(str, reply), str(total)]))

    # The steps that set memory.

    def step_T(self):
        length, fill = self.number(4), self.number(1)
        assert length <= TABLE_ROOM
        self.table_length = length
        self.table[:length] = bytes([fill]) * length

    def step_L(self):
        self.table_length = self.number(4)
        assert self.table_length <= TABLE_ROOM

    def step_A(self):
        length, fill = self.number(4), self.number(1)
        assert length <= ANSWER_ROOM
        self.answer = bytearray([fill]) * length

    def step_S(self):
        length, fill = self.number(4), self.number(1)
        assert length <= SPONTANEOUS_ROOM
        self.spontaneous = bytearray([fill]) * length

    def step_C(self):
        self.clock[:] = self.octets(8)

    def step_P(self):
        at, octet = self.number(4), self.number(1)
        assert at < self.table_length
        self.table[at] = octet

    def step_K(self):
        self.kept[: self.table_length] = self.table[: self.table_length]

    def step_B(self):
        self.table[: self.table_length] = self.kept[: self.table_length]


class Script:
    """Writes a script, and holds each call to what its writer expects.

    Every call takes `expect`, the number that document 01 asks there, typed in by the writer of the list,
    and for a refused batch or a removal of all `place`; a call without `expect` leaves it to gateway.py.
    """

    def __init__(self, forms={}):
        """Forms: the letters that some calls have in this list, another form of the same calls."""
        self.octets = bytearray()
        self.machine = Machine()
        self.forms = forms

    def step(self, letter, *parts):
        step = letter.encode() + b"".join(parts)
        self.octets += step
        self.machine.replay(step)

    def call(self, letter, *arguments, expect=None, **others):
        """A call, held to the number expected and to what else of its reply is."""
        parts = CALLS[letter].parts
        assert len(parts) == len(arguments)
        self.step(self.forms.get(letter, letter), *(part.write(a) for part, a in zip(parts, arguments)))
        name, reply = self.machine.replies[-1]
        for field, value in {"number": expect, **others}.items():
            assert value is None or getattr(reply, field) == value, (len(self.machine.replies), name, reply, "expected", field, value)
        return reply

    def lend_table(self, length, fill=0xA5):
        self.step("T", low_first(length, 4), bytes([fill]))

    def lend_part(self, length):
        self.step("L", low_first(length, 4))

    def lend_answer(self, length, fill=0xEE):
        self.step("A", low_first(length, 4), bytes([fill]))

    def lend_spontaneous(self, length, fill=0xDD):
        self.step("S", low_first(length, 4), bytes([fill]))

    def set_clock(self, octets):
        self.step("C", bytes(octets))

    def poke(self, at, octet):
        self.step("P", low_first(at, 4), bytes([octet]))

    def poke_number(self, at, number, octets=2):
        for i, octet in enumerate(low_first(number, octets)):
            self.poke(at + i, octet)

    def keep(self):
        self.step("K")

    def back(self):
        self.step("B")

    def open(self, capacity, plan, expect=None):
        """Plan: a flat list of numbers."""
        return self.call("o", capacity, plan, expect=expect)

    def opened(self, capacity, plan, more=0, expect=0):
        """Opens in memory of just the length asked, or so much more."""
        self.lend_table(gateway.table_octets(capacity, len(plan) // 3) + more)
        return self.open(capacity, plan, expect)

    def register(self, record, expect=None):
        return self.call("r", record, expect=expect)

    def batch(self, records, expect=None, place=None):
        return self.call("b", b"".join(bytes(record) for record in records), expect=expect, place=place)

    def series(self, count, record, expect=None, place=None):
        return self.call("n", count, record, expect=expect, place=place)

    def unregister(self, ca, ioa, expect=None):
        return self.call("u", ca, ioa, expect=expect)

    def clear(self, expect=None, place=None):
        return self.call("x", expect=expect, place=place)

    def share(self, ca, expect=None, **others):
        return self.call("h", ca, expect=expect, **others)

    def started(self, expect=None, octets=None):
        return self.call("c", expect=expect, octets=octets)

    @staticmethod
    def asdu(octets, length=None):
        """Cut to the length, or gone on with zeros up to it."""
        return bytes(octets) if length is None else bytes(octets[:length]).ljust(length, b"\0")

    def system(self, octets, expect=None, answer=None, length=None):
        return self.call("s", self.asdu(octets, length), expect=expect, octets=answer)

    def process(self, octets, negative=0, reply_type=45, reply=b"", updates=b"", expect=None, answer=None,
                told=None, length=None):
        asdu = self.asdu(octets, length)
        return self.call("p", asdu, negative, reply_type, reply, updates, expect=expect, octets=answer, spontaneous=told)

    def numbers_seen(self, name):
        return {reply.number for called, reply in self.machine.replies if called == name}

    def write(self, name, entries):
        """Stores the list under a name, after a second look: every number that these entries can give was given,
        and the script read from its start prints the same lines."""
        for entry in entries:
            assert self.numbers_seen(entry) == NUMBERS[entry], (entry, self.numbers_seen(entry))
        again = Machine()
        again.replay(bytes(self.octets))
        assert again.lines == self.machine.lines
        store(name, self.octets, self.machine.lines)


def lists(stdout):
    """The lines under each heading of what the program writes."""
    sections = {}
    for line in stdout.splitlines():
        if line.startswith("list "):
            lines = sections.setdefault(line.removeprefix("list "), [])
        else:
            lines.append(line)
    return sections


def store(name, script, lines):
    """Puts a list into the program's crate: its script, its lines under its heading, and its name if it is new. Lists
    may be stored side by side."""
    assert len(script) <= SCRIPT_ROOM
    os.makedirs(os.path.join(RUNNER, "data"), exist_ok=True)
    with open(os.path.join(RUNNER, "data", name), "wb") as file:
        file.write(script)
    with open(os.path.join(RUNNER, "args"), "a+") as args, open(os.path.join(RUNNER, "stdout"), "a+") as stdout:
        fcntl.flock(args, fcntl.LOCK_EX)
        args.seek(0)
        names = args.read().split()
        if name not in names:
            names.append(name)
            args.write(name + "\n")
        stdout.seek(0)
        sections = {**lists(stdout.read()), name: lines}
        stdout.truncate(0)
        for listed in names:
            if listed in sections:
                stdout.write("".join(line + "\n" for line in [f"list {listed}", *sections[listed]]))
        args.flush()
        stdout.flush()
    print(f"{name}: {len(lines)} calls in {len(script)} octets")


class Draw:
    """A small generator of numbers that look drawn at random, the same in every run."""

    def __init__(self, seed):
        self.state = seed

    def below(self, bound):
        self.state = (self.state * 6364136223846793005 + 1442695040888963407) % 2**64
        return (self.state >> 33) % bound

    def of(self, choices):
        return choices[self.below(len(choices))]

    def octets(self, count):
        return bytes(self.below(256) for _ in range(count))
