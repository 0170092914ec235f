"""Reads a case file from start to end, as FORMAT.md says, and compares it with the reference.

    python3 replay.py FILE           replays all records
    python3 replay.py FILE RECORD    shows record number RECORD (from 1) and what was in hand there

It is the pattern for any other reader: one record at a time, each compared as soon as it is read.
"""

import struct
import sys

import generate
import model
import viewer
from generate import checksum, pattern

NAMES = (
    "end", "list", "table fill", "table bytes", "table byte", "table lent", "build", "log fill",
    "log lent", "log check", "start", "state", "step", "conversion", "entry", "refusal", "logged",
    "drive", "quick", "write", "file",
)


class Replay:
    def __init__(self, file):
        self.file = file
        self.number = 0
        self.expected, self.found = [], []
        self.tasks, self.supply = (), 0
        self.table, self.table_lent = bytearray(), 0
        self.log, self.log_lent = bytearray(), 0
        self.state = model.State()
        self.totals = [0] * len(NAMES)
        if file.read(8) != generate.MAGIC:
            raise SystemExit("not a case file")

    def take(self, layout):
        layout = "<" + layout
        return struct.unpack(layout, self.file.read(struct.calcsize(layout)))

    def compare(self, expected, found):
        self.expected.append(expected)
        self.found.append(found)

    def record(self):
        """Reads one record and does what it says; returns its tag and given numbers."""
        self.number += 1
        self.expected, self.found = [], []
        tag, = self.take("B")
        self.totals[tag] += 1
        given = getattr(self, "read_" + NAMES[tag].replace(" ", "_"))()
        return tag, given

    def read_end(self):
        totals = tuple(self.totals[tag] for tag in generate.COUNTED.values())
        self.compare(self.take("I" * len(totals)), totals)

    def take_list(self):
        supply, count = self.take("II")
        return supply, tuple(model.Task(*self.take("IIII")) for _ in range(count))

    def read_list(self):
        self.supply, self.tasks = self.take_list()
        self.compare(self.take(generate.ANSWER), tuple(model.verdict(self.tasks, self.supply)))
        return self.supply, self.tasks

    def read_table_fill(self):
        self.table_lent, fill = self.take("IB")
        self.table = pattern(self.table_lent, fill)
        return self.table_lent, fill

    def read_table_bytes(self):
        self.table_lent, = self.take("I")
        self.table = bytearray(self.file.read(self.table_lent))
        return self.table_lent, bytes(self.table)

    def read_table_byte(self):
        place, byte = self.take("IB")
        self.table[place] = byte
        return place, byte

    def read_table_lent(self):
        self.table_lent, = self.take("I")
        return self.table_lent

    def read_build(self):
        answer = model.build(self.tasks, self.supply, self.table)
        self.compare(self.take(generate.ANSWER), tuple(answer))
        self.compare(self.take("I"), (checksum(self.table),))

    def read_log_fill(self):
        self.log_lent, fill = self.take("IB")
        self.log = pattern(self.log_lent, fill)
        return self.log_lent, fill

    def read_log_lent(self):
        self.log_lent, = self.take("I")
        return self.log_lent

    def read_log_check(self):
        self.compare(self.take("I"), (checksum(self.log[: self.log_lent]),))

    def read_start(self):
        mode, clock = self.take("BI")
        answer, self.state = model.start(self.tasks, self.supply, mode, clock, self.log)
        self.compare(self.take(generate.ANSWER), tuple(answer))
        self.compare(self.take("I"), (checksum(self.state.to_bytes()),))
        self.compare(self.take("I"), (checksum(self.log),))
        return mode, clock

    def read_state(self):
        self.state = model.State.from_bytes(self.file.read(model.State.LAYOUT.size))

    def read_step(self):
        clock, report = self.take("IB")
        table, log = self.table[: self.table_lent], self.log[: self.log_lent]
        self.compare(self.take("BB"), model.who(self.state, table))
        refusal, self.state = model.step(self.state, table, log, clock, report)
        self.compare(self.take("B"), (refusal,))
        hashed = self.state.to_bytes() + (bytes(log) if len(log) <= generate.SHORT_LOG else b"")
        self.compare(self.take("I"), (checksum(hashed),))
        changes, = self.take("B")
        for _ in range(changes):
            place, byte = self.take("IB")
            self.compare((place, byte), (place, log[place]))
        self.log[: self.log_lent] = log
        return clock, report

    def read_conversion(self):
        kind, = self.take("B")
        convert = (model.runtime_in_slices, model.period_in_slices, model.deadline_in_slices)[kind]
        given = self.take(("III", "II", "II")[kind])
        self.compare(self.take("BI"), convert(*given))
        return (kind, *given)

    def read_entry(self):
        byte, count = self.take("BQ")
        self.compare(self.take("BI"), model.read_entry(byte, count))
        return byte, count

    def read_refusal(self):
        number, = self.take("I")
        self.compare(self.take("BI"), model.read_refusal(number))
        return number

    def read_logged(self):
        byte, = self.take("B")
        self.compare(self.take("BI"), model.read_logged(byte))
        return byte

    def read_drive(self):
        mode, clock, count = self.take("BII")
        needs = self.take("%dI" % count)
        ends = [1] * self.take("I")[0]
        built, begun, self.state = model.drive_lent(
            self.tasks, self.supply, mode, clock, needs, self.table, self.log, ends
        )
        self.compare(self.take(generate.ANSWER), tuple(built))
        self.compare(self.take(generate.ANSWER), tuple(begun))
        self.compare(self.take("I"), (checksum(self.state.to_bytes()),))
        self.compare(self.file.read(len(self.table)), bytes(self.table))
        self.compare(self.file.read(len(self.log)), bytes(self.log))
        self.compare(self.take("%dI" % len(ends)), tuple(ends))
        return mode, clock, needs

    def read_quick(self):
        supply, tasks = self.take_list()
        self.compare(self.take("BB"), model.quick(tasks, supply))
        return supply, tasks


    def take_bytes(self):
        return self.file.read(self.take("I")[0])

    def read_write(self):
        run = self.take_bytes()
        length, fill = self.take("IB")
        lent = pattern(length, fill)
        viewed = viewer.write(self.tasks, self.supply, list(run), lent)
        self.compare(self.take(generate.VIEWED), tuple(viewed))
        self.compare(self.take("I"), (checksum(lent),))
        return run, length, fill

    def read_file(self):
        file = self.take_bytes()
        length, fill, jobs = self.take("IBI")
        entries, needs = pattern(length, fill), [7] * jobs
        read = viewer.read(self.tasks, self.supply, file, entries)
        self.compare(self.take(generate.VIEWED), tuple(read))
        self.compare(self.take("I"), (checksum(entries),))
        explained = viewer.explain(self.tasks, self.supply, file, needs)
        self.compare(self.take(generate.VIEWED), tuple(explained))
        self.compare(self.take("%dI" % jobs), tuple(needs))
        return file, length, fill, jobs


def show(replay, tag, given, state):
    tasks = " ".join("(%d,%d,%d,%d)" % task for task in replay.tasks)
    print("list: %s supply %d" % (tasks, replay.supply))
    print("state before: count %d cycle %d position %d clock %d mode %d" % (
        state.count, state.cycle, state.position, state.clock, state.mode))
    for i, place in enumerate(state.places, 1):
        print("  task %d: period %d deadline %d run-time %d used %d ended %d" % (
            i, place.period, place.deadline, place.runtime, place.used, place.ended))
    print("table lent %d: %s" % (replay.table_lent, list(replay.table)))
    print("log lent %d, after: %s" % (replay.log_lent, list(replay.log)))
    print("record %d, %s, given %s, expected %s" % (
        replay.number, NAMES[tag], given, replay.expected))


def main(arguments):
    if len(arguments) not in (1, 2):
        print(__doc__)
        return 2
    wanted = int(arguments[1]) if len(arguments) == 2 else 0
    with open(arguments[0], "rb") as file:
        replay = Replay(file)
        tag = None
        while tag != generate.END:
            state = replay.state
            tag, given = replay.record()
            if replay.number == wanted or replay.expected != replay.found:
                show(replay, tag, given, state)
            if replay.expected != replay.found:
                print("found %s" % replay.found)
                return 1
            if replay.number == wanted:
                return 0
        if file.read(1):
            print("bytes after the end record")
            return 1
    print("%d records, each as expected" % replay.number)
    return 0


if __name__ == "__main__":
    sys.exit(main(sys.argv[1:]))
