"""Cases and expected answers from the reference, in one binary file (see FORMAT.md).

    python3 generate.py OUT            writes the file
    python3 generate.py --check FILE   makes it again and compares

The same bytes come out every time: the dice are seeded and use whole numbers alone.

Where a deadline stands, all numbers u32 where nothing else is said:

    list (1), quick (18)   of each task: period, run-time, memory, deadline
    state (11)             293 bytes: count u64, cycle, position, clock, mode u8; for each of the 16 places period,
                           deadline, run-time; for each of them used, ended u8. Every checksum of a state is of these.
    conversion (13)        kind u8 (0 run-time, 1 period, 2 deadline), microseconds, slice length, of a run-time the
                           tick cost; then refusal u8 (0 or 17), slices
    refusal (15)           20 reads as a bound of the list: case u8 1, number 20
"""

import struct
import sys
from collections import Counter

import model
import sheets
import viewer
from model import CLOCK_ROUND, FILLING, LONGEST, NONE_NAMED, TABLE
from model import Place, State, Task, bare, rounded_up
from viewer import HEADER, run_of, text, time_line, value_line

SEED = 0x0B5E55ED51ACE5
# Their own seeds, so that what stands beside them stays as it is.
CLASHES_SEED = 0x0C1A54E55EED
TICKS_SEED = 0x071C45EED
DRIVES_SEED = 0x0D21FE5EED5
QUICK_SEED = 0x0A5CED5EED
VIEWER_SEED = 0x0D1A12A35EED
DUE_SEED = 0x0DEAD11E5EED
STEPS_WANTED = 202000  # accepted steps in all

# Record tags.
END, LIST, TABLE_FILL, TABLE_BYTES, TABLE_BYTE, TABLE_LENT, BUILD = range(7)
LOG_FILL, LOG_LENT, LOG_CHECK, START, STATE, STEP, CONVERSION = range(7, 14)
ENTRY, REFUSAL, LOGGED, DRIVE, QUICK, WRITE, FILE = range(14, 21)

RUNTIME, PERIOD, DEADLINE = range(3)  # kinds of conversion

# What the end record counts, in its order.
COUNTED = {
    "list": LIST, "build": BUILD, "start": START, "step": STEP, "conversion": CONVERSION,
    "entry": ENTRY, "refusal": REFUSAL, "logged": LOGGED, "drive": DRIVE, "quick": QUICK,
    "write": WRITE, "file": FILE,
}

MAGIC = b"SLICES07"
ANSWER = "BBiIIII"  # the numbers of model.Answer
VIEWED = "BIiII"  # those of viewer.Viewed
SHORT_LOG = 64  # a lent log up to this long is part of every step's checksum
MOST_TABLE, MOST_LOG, MOST_LIST = 4200, 66000, 272
MOST_NEEDS = 4200  # and ends
MOST_FILE = 66000  # and run, and what a file is written into
TOP = CLOCK_ROUND - 1


def checksum(data, h=2166136261):
    for byte in data:
        h = ((h ^ byte) * 16777619) & 0xFFFFFFFF
    return h


def pattern(length, fill):
    """What lent memory holds before the first call."""
    return bytearray((fill + j) % 256 for j in range(length))


class Dice:
    """The xorshift64* generator."""

    def __init__(self, seed):
        self.x = seed

    def roll(self):
        x = self.x
        x ^= x >> 12
        x ^= (x << 25) & 0xFFFFFFFFFFFFFFFF
        x ^= x >> 27
        self.x = x
        return (x * 2685821657736338717 & 0xFFFFFFFFFFFFFFFF) >> 32

    def below(self, n):
        return self.roll() % n

    def between(self, low, high):
        return low + self.below(high - low + 1)

    def pick(self, things):
        return things[self.below(len(things))]

    def one_in(self, n):
        return self.below(n) == 0

    def shuffled(self, things):
        rest, out = list(things), []
        while rest:
            out.append(rest.pop(self.below(len(rest))))
        return out


class Cases:
    """Writes records, and holds what a reader of the file holds: list, table, log and state."""

    def __init__(self):
        self.out = bytearray(MAGIC)
        self.tasks, self.supply = (), 0
        self.table, self.table_lent = bytearray(), 0
        self.log, self.log_lent = bytearray(), 0
        self.state = State()
        self.counts = Counter()
        self.due = False  # whether the list in hand has a deadline other than its period
        self.unnamed = False  # whether the state in hand comes of a start with no mode named

    def put(self, tag, layout="", *numbers):
        self.out += struct.pack("<B" + layout, tag, *numbers)

    def count(self, what, refusal, due=False):
        """Those of lists with deadlines ahead of the period once more by themselves."""
        self.counts[what] += 1
        self.counts[what, refusal] += 1
        self.counts["due", what, refusal] += due

    def put_list(self, tag, tasks, supply):
        assert len(tasks) <= MOST_LIST
        self.put(tag, "II", supply, len(tasks))
        for task in tasks:
            self.out += struct.pack("<IIII", *task)

    def list(self, tasks, supply):
        self.tasks, self.supply = tuple(tasks), supply
        self.put_list(LIST, tasks, supply)
        answer = model.verdict(self.tasks, supply)
        assert model.quick(self.tasks, supply) == model.without_margin(answer)  # asked here too
        self.out += struct.pack("<" + ANSWER, *answer)
        self.due = has_deadlines(tasks)
        self.count("list", answer.refusal, self.due)
        for trait in list_traits(self.tasks, supply, answer) if self.due else ():
            self.counts["list trait", trait] += 1
        if answer.reached:
            self.counts["clash at", answer.task] += 1
            self.counts["clash of several"] += all(task.period != answer.reached for task in tasks)
        return answer

    def table_fill(self, length, fill):
        assert length <= MOST_TABLE
        self.table, self.table_lent = pattern(length, fill), length
        self.put(TABLE_FILL, "IB", length, fill)

    def table_bytes(self, data):
        assert len(data) <= MOST_TABLE
        self.table, self.table_lent = bytearray(data), len(data)
        self.put(TABLE_BYTES, "I", len(data))
        self.out += data

    def table_byte(self, place, byte):
        self.table[place] = byte
        self.put(TABLE_BYTE, "IB", place, byte)

    def lend_table(self, length):
        assert length <= len(self.table)
        self.table_lent = length
        self.put(TABLE_LENT, "I", length)

    def build(self):
        assert self.table_lent == len(self.table)
        before = bytes(self.table)
        answer = model.build(self.tasks, self.supply, self.table)
        assert self.table[answer.cycle :] == before[answer.cycle :]
        self.put(BUILD, ANSWER + "I", *answer, checksum(self.table))
        self.count("build", answer.refusal, self.due)
        return answer

    def log_fill(self, length, fill):
        assert length <= MOST_LOG
        self.log, self.log_lent = pattern(length, fill), length
        self.put(LOG_FILL, "IB", length, fill)

    def lend_log(self, length):
        assert length <= len(self.log)
        self.log_lent = length
        self.put(LOG_LENT, "I", length)

    def log_check(self):
        self.put(LOG_CHECK, "I", checksum(self.log[: self.log_lent]))
        self.counts["log check"] += 1

    def start(self, mode, clock):
        assert self.log_lent == len(self.log)
        before = bytes(self.log)
        answer, self.state = model.start(self.tasks, self.supply, mode, clock, self.log)
        assert self.log[answer.jobs :] == before[answer.jobs :]
        self.put(START, "BI", mode, clock)
        hashes = checksum(self.state.to_bytes()), checksum(self.log)
        self.out += struct.pack("<" + ANSWER + "II", *answer, *hashes)
        self.count("start", answer.refusal, self.due)
        self.unnamed = mode == NONE_NAMED
        if not answer.refusal:
            self.counts["started in mode", mode] += 1
            self.counts["due", "started in mode", mode] += self.due
        return answer

    def set_state(self, state):
        self.state = state.copy()
        self.unnamed = False
        self.put(STATE)
        self.out += state.to_bytes()
        self.counts["state"] += 1
        for trait in state_traits(state):
            self.counts["state trait", trait] += 1

    def step(self, clock, report):
        """Asks who runs, then steps."""
        table = self.table[: self.table_lent]
        log = self.log[: self.log_lent]
        before = self.state
        who_refusal, task = model.who(before, table)
        refusal, self.state = model.step(before, table, log, clock, report)
        changes = []
        if log != self.log[: self.log_lent]:
            changes = [(j, log[j]) for j in range(len(log)) if log[j] != self.log[j]]
        assert not refusal or (self.state is before and not changes)
        self.log[: self.log_lent] = log
        hashed = self.state.to_bytes() + (bytes(log) if len(log) <= SHORT_LOG else b"")
        self.put(STEP, "IB", clock, report)
        self.out += struct.pack(
            "<BBBIB", who_refusal, task, refusal, checksum(hashed), len(changes)
        )
        for change in changes:
            self.out += struct.pack("<IB", *change)
        self.count("step", refusal, has_deadlines(before.places[: before.count]))
        self.counts["who", who_refusal] += 1
        if self.unnamed:
            assert 11 not in (who_refusal, refusal)
            by_table = before.copy()
            by_table.mode = TABLE
            self.counts["no mode named", model.who(by_table, table)[0]] += 1
        if not refusal:
            self.counts["accepted in mode", before.mode] += 1
            for trait in step_traits(before, table, task, log):
                self.counts["step trait", before.mode, trait] += 1
        for _, byte in changes:
            self.counts["log byte", byte] += 1
        return refusal

    def conversion(self, kind, given, answer):
        self.put(CONVERSION, "B%dI" % len(given), kind, *given)
        self.out += struct.pack("<BI", *answer)
        self.count("conversion", answer[0])

    def runtime(self, microseconds, slice_length, tick_cost):
        given = microseconds, slice_length, tick_cost
        self.conversion(RUNTIME, given, model.runtime_in_slices(*given))
        self.counts["tick cost", min(tick_cost, 1), model.runtime_in_slices(*given)[0]] += 1

    def period(self, microseconds, slice_length):
        given = microseconds, slice_length
        self.conversion(PERIOD, given, model.period_in_slices(*given))

    def deadline(self, microseconds, slice_length):
        given = microseconds, slice_length
        answer = model.deadline_in_slices(*given)
        self.conversion(DEADLINE, given, answer)
        exact = slice_length and microseconds % slice_length == 0
        self.counts["deadline converted", answer[0], exact] += 1

    def entry(self, byte, count):
        self.put(ENTRY, "BQBI", byte, count, *model.read_entry(byte, count))
        self.count("entry", model.read_entry(byte, count)[0])

    def refusal(self, number):
        self.put(REFUSAL, "IBI", number, *model.read_refusal(number))
        self.count("refusal", model.read_refusal(number)[0])

    def logged(self, byte):
        self.put(LOGGED, "BBI", byte, *model.read_logged(byte))
        self.count("logged", model.read_logged(byte)[0])

    def drive(self, mode, clock, needs, length):
        """A cycle of the list in hand, with so many ends."""
        assert len(needs) <= MOST_NEEDS and length <= MOST_NEEDS
        assert self.table_lent == len(self.table) and self.log_lent == len(self.log)
        ends = [7] * length
        built, begun, self.state = model.drive_lent(
            self.tasks, self.supply, mode, clock, needs, self.table, self.log, ends
        )
        self.put(DRIVE, "BII%dII" % len(needs), mode, clock, len(needs), *needs, length)
        self.out += struct.pack("<" + ANSWER + ANSWER, *built, *begun)
        self.out += struct.pack("<I", checksum(self.state.to_bytes()))
        self.out += self.table + self.log + struct.pack("<%dI" % length, *ends)
        self.count("drive", begun.refusal, self.due)
        self.counts["driven in mode", mode] += 1
        self.counts["drive built", built.refusal] += 1
        self.counts["whole drives"] += 0 < self.state.position == self.state.cycle
        return ends

    def quick(self, tasks, supply):
        """The quick question about a list of its own; the one in hand stays."""
        answer = model.quick(tasks, supply)
        assert answer == model.without_margin(model.verdict(tasks, supply))
        self.put_list(QUICK, tasks, supply)
        self.out += struct.pack("<BB", *answer)
        self.count("quick", answer[0], has_deadlines(tasks))
        for trait in quick_traits(tasks) if answer[0] in (0, 7) else ():
            self.counts["quick trait", trait] += 1
            self.counts["due", "quick trait", trait] += has_deadlines(tasks)

    def put_bytes(self, data):
        assert len(data) <= MOST_FILE
        self.out += struct.pack("<I", len(data)) + bytes(data)

    def put_viewed(self, what, viewed):
        self.out += struct.pack("<" + VIEWED, *viewed)
        self.count(what, viewed.refusal, self.due)

    def write(self, run, length, fill):
        """A run of the list in hand, written into so many bytes."""
        assert length <= MOST_FILE
        self.put(WRITE)
        self.put_bytes(run)
        self.out += struct.pack("<IB", length, fill)
        lent = pattern(length, fill)
        viewed = viewer.write(self.tasks, self.supply, list(run), lent)
        self.put_viewed("write", viewed)
        self.out += struct.pack("<I", checksum(lent))
        return viewed

    def file(self, file, length, fill, jobs):
        """A file read back into so many bytes and explained by so many needs, for the list in hand."""
        assert length <= MOST_FILE and jobs <= MOST_NEEDS
        self.put(FILE)
        self.put_bytes(file)
        self.out += struct.pack("<IBI", length, fill, jobs)
        entries, needs = pattern(length, fill), [7] * jobs
        read = viewer.read(self.tasks, self.supply, file, entries)
        self.put_viewed("read", read)
        self.out += struct.pack("<I", checksum(entries))
        explained = viewer.explain(self.tasks, self.supply, file, needs)
        self.put_viewed("explain", explained)
        self.out += struct.pack("<%dI" % jobs, *needs)
        self.counts["file"] += 1
        for trait in file_traits(self.tasks, self.supply, file, explained, needs):
            self.counts["file trait", trait] += 1
        return read, explained

    def end(self):
        self.put(END, "I" * len(COUNTED), *(self.counts[what] for what in COUNTED))


# What is counted of lists, states and steps with deadlines


def has_deadlines(tasks):
    return any(task.deadline != task.period for task in tasks)


def out_of_bounds(task):
    """Which of 3, 4 and 20 the task would meet if it were the only number."""
    numbers = []
    if not 1 <= task.period <= LONGEST:
        numbers.append(3)
    if not 1 <= task.runtime <= task.period:
        numbers.append(4)
    if not task.runtime <= task.deadline <= task.period:
        numbers.append(20)
    return numbers


# Of refusal 20 what else there was to refuse, and of 3 and 4 that 20 was there too; of others what the deadline does.
LIST_TRAITS = (
    "20 below the run-time", "20 above the period", "20 before a later 3", "20 before a later 4",
    "20 before a later 20", "20 before the memory", "20 before a clash", "20 of a later task than the first",
    "3 before 20 of one task", "4 before 20 of one task", "3 before a later 20", "4 before a later 20",
    "2 before 20", "5 with deadlines", "6 with deadlines",
    "deadline at the run-time", "deadline at the period", "deadline in between",
    "ranked otherwise than by period", "late, and in time by the period's end",
    "late, another than by the period's end", "another tightest than by the period's end",
    "margin tie", "lateness tie of other periods", "accepted with every deadline ahead",
)


def list_traits(tasks, supply, answer):
    """Which of them a list with deadlines has."""
    traits, refusal = set(), answer.refusal
    here, later = tasks[answer.task - 1 : answer.task], tasks[answer.task :]
    if refusal in (3, 4, 20):
        for number in (3, 4, 20) if refusal == 20 else (20,):
            if any(number in out_of_bounds(task)[:1] for task in later):
                traits.add("%d before a later %d" % (refusal, number))
        if refusal != 20 and 20 in out_of_bounds(*here):
            traits.add("%d before 20 of one task" % refusal)
    if refusal == 20:
        below = here[0].deadline < here[0].runtime
        traits.add("20 below the run-time" if below else "20 above the period")
        if answer.task > 1:
            traits.add("20 of a later task than the first")
        if sum(task.memory for task in tasks) > supply:
            traits.add("20 before the memory")
        periods = [task.period for task in tasks]
        if 0 not in periods and common_multiple(periods) > LONGEST:
            traits.add("20 before a clash")
    if refusal == 2 and any(20 in out_of_bounds(task) for task in tasks):
        traits.add("2 before 20")
    if refusal in (5, 6):
        traits.add("%d with deadlines" % refusal)
    if refusal not in (0, 7):
        return traits
    for task in tasks:
        at = "at the run-time" if task.deadline == task.runtime else "in between"
        traits.add("deadline " + ("at the period" if task.deadline == task.period else at))
    by_period = [at_period(task) for task in tasks]
    otherwise = model.verdict(by_period, supply)
    if model.ranking(tasks) != model.ranking(by_period):
        traits.add("ranked otherwise than by period")
    if refusal == 7:
        if otherwise.refusal == 0:
            traits.add("late, and in time by the period's end")
        elif otherwise.task != answer.task:
            traits.add("late, another than by the period's end")
        late = first_late(tasks, supply)
        if len({tasks[job.i].period for job in late}) > 1:
            traits.add("lateness tie of other periods")
    else:
        if otherwise.task != answer.task:
            traits.add("another tightest than by the period's end")
        if has_margin_tie(tasks, supply):
            traits.add("margin tie")
        if all(task.deadline < task.period for task in tasks):
            traits.add("accepted with every deadline ahead")
    return traits


STATE_TRAITS = (
    "deadline below the run-time", "deadline above the period", "open after the deadline",
    "sound, ended after the deadline", "sound, open just before it", "sound, open at the release after it",
    "sound, any deadline beyond the count",
)


def state_traits(state):
    """What the deadlines of a state that is handed in are like: of one that is not sound, the only reason."""
    if not 1 <= state.count <= 16:
        return []
    places, traits = state.places[: state.count], set()
    for place in places:
        if place.deadline < place.runtime:
            traits.add("deadline below the run-time")
        if place.deadline > place.period:
            traits.add("deadline above the period")
        if place.period and not place.ended and state.position % place.period >= place.deadline:
            traits.add("open after the deadline")
    if traits:
        mended = state.copy()
        for place in mended.places[: state.count]:
            place.deadline = place.period
        assert not model.is_sound(state)
        return traits if len(traits) == 1 and model.is_sound(mended) else []
    if not model.is_sound(state):
        return []
    for place in places:
        age = state.position % place.period
        if place.deadline < place.period:
            if age >= place.deadline:
                traits.add("sound, ended after the deadline")
            if age + 1 == place.deadline and not place.ended:
                traits.add("sound, open just before it")
            if age == 0 < state.position and not place.ended:
                traits.add("sound, open at the release after it")
    if any(not place.runtime <= place.deadline <= place.period for place in state.places[state.count :]):
        traits.add("sound, any deadline beyond the count")
    return traits


# Of accepted steps, by the table and filling.
STEP_TRAITS = (
    "late before the period's end, and closed", "late at the period's end", "ended before its deadline ahead",
    "idle from its deadline on", "fresh after late ahead", "fresh after in time ahead",
)


def step_traits(before, table, runs, log):
    """What an accepted step does at deadlines, where some are ahead of the period. The log is as it left it."""
    traits, places = set(), before.places[: before.count]
    for i, place in enumerate(places if has_deadlines(places) else []):
        age = before.position % place.period + 1
        late = log[model.log_place(before, i)] == model.LATE
        if place.deadline == place.period:
            if age == place.period and late:
                traits.add("late at the period's end")
            continue
        if age == place.deadline:
            late_here = late and not place.ended
            traits.add("late before the period's end, and closed" if late_here else "ended before its deadline ahead")
        if age > place.deadline and runs == 0:
            if before.mode == FILLING or table[before.position] == i + 1:
                traits.add("idle from its deadline on")
        if age == place.period:
            traits.add("fresh after late ahead" if late else "fresh after in time ahead")
    return traits


# Lists


def divisors(n):
    return [d for d in range(1, n + 1) if n % d == 0]


SMALL = [n for n in range(2, 100) if len(divisors(n)) >= 3]
MIDDLE = [n for n in range(100, 520, 4) if len(divisors(n)) >= 8]
LARGE = [1024, 1260, 1680, 2048, 2310, 2520, 3600, 3840, 4032, 4080, 4095, 4096]


def random_tasks(dice, cycle, count, percent):
    """Periods dividing the cycle, run-times for about this load, memory 0."""
    dividing = divisors(cycle)
    tasks = []
    for _ in range(count):
        period = max(dice.pick(dividing) for _ in range(1 + count // 4))
        share = period * percent * dice.between(50, 150) // (count * 10000)
        tasks.append(Task(period, min(max(share, 1), period), 0))
    return tasks


def at_period(task):
    return task._replace(deadline=task.period)


def any_periods(dice, most, count):
    periods = [dice.between(1, most) for _ in range(count)]
    return [Task(period, dice.between(1, rounded_up(period, 3)), 0) for period in periods]


def with_memory(dice, tasks):
    """The list with some memory, and a supply that may or may not do."""
    kind = dice.below(8)
    if kind < 3 or not tasks:
        return tasks, dice.pick([0, 65536, TOP])
    most = [100, 65536, TOP][dice.below(3)] if kind < 7 else TOP // len(tasks)
    tasks = [task._replace(memory=dice.between(0, most)) for task in tasks]
    total = sum(task.memory for task in tasks)
    supplies = [total, total, total, total + 1, total - 1, total // 2, total % CLOCK_ROUND, TOP, 0]
    return tasks, min(max(dice.pick(supplies), 0), TOP)


def edge_pair(dice, tasks):
    """The list with one run-time as long as is accepted, and with one slice more; or nothing."""
    i = dice.below(len(tasks))

    def with_runtime(runtime):
        return tasks[:i] + [tasks[i]._replace(runtime=runtime)] + tasks[i + 1 :]

    if model.verdict(with_runtime(1), 0).refusal:
        return []
    low, high = 1, tasks[i].period + 1  # low is accepted, high is not
    while low + 1 < high:
        middle = (low + high) // 2
        if model.verdict(with_runtime(middle), 0).refusal:
            high = middle
        else:
            low = middle
    return [with_runtime(low), with_runtime(high)]


def full_load(dice, cycle, count):
    """Each period divides the next; the last task fills what the others leave."""
    periods = [cycle]
    while len(periods) < count:
        periods.insert(0, dice.pick(divisors(periods[0])))
    left, tasks = cycle, []
    for period in periods[:-1]:
        most = left * period // cycle
        if most == 0:
            continue
        runtime = dice.between(1, max(1, most // 2))
        left -= runtime * (cycle // period)
        tasks.append(Task(period, runtime, 0))
    if left:
        tasks.append(Task(cycle, left, 0))
    return dice.shuffled(tasks)


def load_and_cycle(tasks):
    """Slices wanted in the cycle, and slices in it."""
    cycle = model.check_bounds(tasks, 0)[1]
    return sum(task.runtime * (cycle // task.period) for task in tasks), cycle


def has_margin_tie(tasks, supply=0):
    answer = model.verdict(tasks, supply)
    if answer.refusal:
        return False
    _, jobs = model.slice_rule(tasks, answer.cycle)
    margins = [task.deadline - row[0].end for task, row in zip(tasks, jobs)]
    tied = [i + 1 for i, margin in enumerate(margins) if margin == answer.margin]
    return len(tied) > 1 and tied[0] != answer.task


def first_late(tasks, supply=0):
    """The jobs that miss the earliest deadline that is missed."""
    refusal, cycle = model.check_bounds(tasks, supply)
    if refusal:
        return []
    _, jobs = model.slice_rule(tasks, cycle)
    missed = [job for row in jobs for job in row if job.received < job.runtime]
    earliest = min([job.deadline for job in missed], default=0)
    late = [job for job in missed if job.deadline == earliest]
    # Nothing is late before, so these are first jobs (the first is the worst).
    assert all(job.release == 0 for job in late)
    return late


def has_lateness_tie(tasks):
    return len(first_late(tasks)) > 1


def bound_lists():
    """Lists at and over every bound, with their supplies."""
    lists = [(tasks, 0) for tasks, _, _ in model.WORKED]
    one, full = Task(16, 1, 0), Task(1, 1, 0)
    for count in (0, 1, 2, 15, 16, 17, 18, 32, 100, 256, 257, 259, 272):
        lists += [([one] * count, 0), ([Task(0, 0, TOP)] * count, 0), ([full] * count, 5)]
        lists.append(([Task(4096, 256, 1)] * count, 16))
    for period in (0, 1, 2, 4095, 4096, 4097, 8192, 65536, 2 ** 31, TOP):
        for runtime in (0, 1, period - 1, period, period + 1, 4096, 4097, TOP):
            if 0 <= runtime <= TOP:
                lists.append(([Task(period, runtime, 0)], 0))
                lists.append(([Task(12, 1, 0), Task(6, 2, 0), Task(period, runtime, 0)], TOP))
    # Refusals 3 and 4 go task by task, before 5 and 6.
    bad = [Task(0, 1, 0), Task(4097, 1, 0), Task(4, 0, 0), Task(4, 5, 0), Task(0, 0, TOP)]
    for first in bad:
        for second in bad:
            lists.append(([Task(64, 1, 9), first, Task(65, 1, TOP), second], 3))
            lists.append(([first, second], 0))
    # 5 before 6 before 7.
    clash = [Task(64, 64, 7), Task(65, 65, 8), Task(3, 3, 1)]
    lists += [(clash, supply) for supply in (0, 6, 7, 14, 15, 16, TOP)]
    lists += [([Task(2, 2, 7), Task(3, 3, 8)], supply) for supply in (0, 7, 14, 15, 16)]
    # Memory near the ends of 32 and 36 bits.
    for memories in (
        [TOP], [TOP, 0], [TOP, 1], [1, TOP], [TOP - 1, 1], [TOP - 1, 1, 1], [2 ** 31, 2 ** 31],
        [2 ** 31, 2 ** 31 - 1], [0, 0, 0], [TOP] * 16, [TOP, 1] * 8, [2 ** 28] * 16,
        [2 ** 28 - 1] * 16, [2 ** 28] * 15 + [2 ** 28 - 1], [0] * 15 + [TOP], [0] * 14 + [TOP, 1],
    ):
        tasks = [Task(32, 1, memory) for memory in memories]
        total = sum(memories)
        for supply in (0, 1, total - 1, total, total + 1, total % CLOCK_ROUND, TOP - 1, TOP):
            if 0 <= supply <= TOP:
                lists.append((tasks, supply))
    # Cycles at and about the longest; 4,097 is 17 times 241.
    for periods in (
        (63, 65), (65, 63), (5, 7, 9, 13), (4095,), (4096, 1), (4096, 2048, 4096), (17, 241),
        (241, 17), (4096, 3), (3, 4096), (4096, 4095), (4095, 4096), (64, 63, 65), (2, 2049),
        (2049, 2), (1024, 4), (4, 1366), (3, 1365), (5, 819), (5, 820), (16, 256, 4096, 4095),
        (63, 64, 2), (2, 3, 5, 7, 11), (2, 3, 5, 7, 11, 13), (7, 8, 9, 5), (9, 8, 7, 13), (61, 67),
        (59, 61), (67, 61, 2), (4, 4, 4), (1, 1), (2048, 1024, 512, 3), (1, 4096, 1, 4096),
        tuple(range(1, 17)), (4093, 2), (4093,), (4091, 1, 4093), (2, 4, 8, 16, 32, 64, 128) * 2,
    ):
        lists.append(([Task(period, 1, 0) for period in periods], 0))
        lists.append(([Task(period, max(1, period // 3), 0) for period in periods], 0))
    # A whole load on one task, and a second one that gets nothing.
    for period in (1, 2, 3, 64, 4096):
        lists.append((bare((period, period)), 0))
        lists.append((bare((period, period), (period, 1)), 0))
        lists.append((bare((4096, 1), (period, period)), 0))
    return lists


def random_lists(dice):
    """Lists from easy to overloaded, with their supplies."""
    for _ in range(800):
        cycle = dice.pick(dice.pick([SMALL, SMALL, SMALL, MIDDLE]))
        count = dice.between(1, dice.pick([3, 5, 8, 16]))
        tasks = random_tasks(dice, cycle, count, dice.between(20, 140))
        yield with_memory(dice, tasks)
    for _ in range(40):
        cycle = dice.pick(LARGE)
        yield random_tasks(dice, cycle, dice.between(1, 16), dice.between(20, 120)), 0
    for _ in range(150):  # any periods: the cycle is often too long
        most = dice.pick([6, 10, 20, 70, 100, 1000, LONGEST])
        yield with_memory(dice, any_periods(dice, most, dice.between(1, 5)))
    for _ in range(200):  # faults strewn over good lists
        tasks = random_tasks(dice, dice.pick(SMALL), dice.between(1, 18), 60)
        for _ in range(dice.between(1, 3)):
            i = dice.below(len(tasks))
            period = tasks[i].period
            fault = dice.pick([
                {"period": 0}, {"period": 4097}, {"period": dice.roll()}, {"runtime": 0},
                {"runtime": period + 1}, {"runtime": dice.roll()}, {"memory": dice.roll()},
                {"period": 4093}, {"runtime": period},
            ])
            tasks[i] = at_period(tasks[i]._replace(**fault))
        yield tasks, dice.pick([0, TOP, dice.roll()])
    for _ in range(320):  # lists that just pass and just fail
        cycle = dice.pick(dice.pick([SMALL, SMALL, MIDDLE]))
        tasks = random_tasks(dice, cycle, dice.between(1, 6), dice.between(30, 90))
        for edge in edge_pair(dice, tasks):
            yield edge, 0
    for _ in range(120):  # full load, and one slice more
        cycle = dice.pick(dice.pick([SMALL, SMALL, MIDDLE]))
        tasks = full_load(dice, cycle, dice.between(1, 7))
        yield tasks, 0
        i = dice.below(len(tasks))
        yield tasks[:i] + [tasks[i]._replace(runtime=tasks[i].runtime + 1)] + tasks[i + 1 :], 0
    for tie, percents in ((has_margin_tie, (40, 100)), (has_lateness_tie, (120, 250))):
        found = 0
        while found < 80:
            count = dice.between(2, 6)
            tasks = random_tasks(dice, dice.pick(SMALL), count, dice.between(*percents))
            if tie(tuple(tasks)):
                found += 1
                yield tasks, 0
    late, full = 0, 0
    while late < 120 or full < 60:  # late at no more than full load; full load without chains
        tasks = any_periods(dice, 24, dice.between(2, 4))
        refusal = model.verdict(tasks, 0).refusal
        load, cycle = load_and_cycle(tasks)
        if refusal == 7 and load <= cycle and late < 120:
            late += 1
            yield tasks, 0
        if refusal == 0 and load < cycle < 300 and full < 60:
            full += 1
            yield dice.shuffled(tasks + [Task(cycle, cycle - load, 0)]), 0


def clash(dice, place):
    """A list that clashes at this place; from the third on with a multiple that is no period."""
    while True:
        dividing = divisors(dice.pick(MIDDLE + LARGE))[1:-1]
        periods = [dice.pick(dividing) for _ in range(place - 1)]
        reached = model.common_multiple(tuple(periods))
        if place == 2 or reached not in periods:
            break
    multiples = {t: reached // model.gcd(reached, t) * t for t in range(2, LONGEST + 1)}
    above = [t for t in multiples if multiples[t] > LONGEST]
    periods.append(dice.pick([min(above, key=multiples.get), dice.pick(above)]))
    periods += [dice.between(1, LONGEST) for _ in range(dice.below(17 - place))]
    share = dice.pick([2, place])
    return [Task(t, dice.between(1, rounded_up(t, share)), dice.between(1, 9)) for t in periods]


def clash_lists(dice):
    """A clash at each place, the same with memory short there or at the end, and cut before it."""
    for place in list(range(2, 17)) * 2:
        tasks = clash(dice, place)
        total = sum(task.memory for task in tasks)
        up_to = sum(task.memory for task in tasks[:place])
        for supply in (total, total - 1, up_to - 1):
            yield tasks, supply
        yield tasks[: place - 1], total


# Runs


def some_clock(dice, cycle):
    """A clock reading for a start; often one that comes round to 0 within the run."""
    near = CLOCK_ROUND - dice.between(1, cycle + 1)
    return dice.pick([0, TOP, near, near, dice.roll()])


def next_reading(state):
    return (state.clock + 1) % CLOCK_ROUND


def some_needs(dice, tasks, cycle):
    """needs[i][k]: below, at or above the run-time."""
    flavour = dice.below(4)
    needs = []
    for task in tasks:
        row = []
        for _ in range(cycle // task.period):
            c = task.runtime
            anything = dice.between(1, c + 1)
            row.append([anything, c, dice.pick([1, anything]), dice.pick([c, c + 1])][flavour])
        needs.append(row)
    return needs


def good_report(state, table, needs):
    refusal, task = model.who(state, table)
    if refusal or task == 0:
        return 0
    place = state.places[task - 1]
    need = needs[task - 1][state.position // place.period]
    return 1 if place.used + 1 == need else 0


FAULTS = ("short table", "no entry", "short log", "clock", "report", "finished while idle")


def faulty_call(cases, dice, report):
    """A step with one or more faults. It may still be accepted: filling looks at no table."""
    state = cases.state
    clock = next_reading(state)
    chosen = [dice.pick(FAULTS) for _ in range(dice.pick([1, 1, 2, 4]))]
    old_byte = None
    if "short table" in chosen:
        longest = min(state.cycle, cases.table_lent)
        cases.lend_table(dice.pick([0, max(longest, 1) - 1, dice.below(longest + 1)]))
    if "no entry" in chosen and state.position < len(cases.table):
        old_byte = cases.table[state.position]
        above = min(state.count, 254) + 1
        byte = dice.pick([above, 17, 255, dice.between(above, 255)])
        cases.table_byte(state.position, byte)
    if "short log" in chosen:
        jobs = sum(state.cycle // place.period for place in state.places if place.period)
        jobs = min(jobs, len(cases.log))
        cases.lend_log(dice.pick([0, max(jobs, 1) - 1, dice.below(jobs + 1)]))
    if "clock" in chosen:
        near = [(state.clock + off) % CLOCK_ROUND for off in (-1, 0, 2)]
        clock = dice.pick(near + [0, 1, TOP, dice.roll()])
    if "report" in chosen:
        report = dice.pick([2, 3, 128, 254, 255])
    elif "finished while idle" in chosen:
        if model.who(state, cases.table[: cases.table_lent]) == (0, 0):
            report = 1
    cases.step(clock, report)
    if cases.table_lent != len(cases.table):
        cases.lend_table(len(cases.table))
    if old_byte is not None:
        cases.table_byte(state.position, old_byte)
    if cases.log_lent != len(cases.log):
        cases.lend_log(len(cases.log))


def run(cases, dice, mode, own_table, stop_at=None):
    """A run of the list in hand to the cycle's end or to stop_at, faulty calls in between."""
    answer = model.verdict(cases.tasks, cases.supply)
    spare = dice.pick([0, 0, 1, 7, 30])
    cases.log_fill(answer.jobs + spare, dice.below(256))
    cases.start(mode, some_clock(dice, answer.cycle))
    needs = some_needs(dice, cases.tasks, answer.cycle)
    faulty = dice.pick([0, 6, 20, 100])
    stop = answer.cycle if stop_at is None else stop_at
    while cases.state.position < stop:
        table = cases.table[: cases.table_lent]
        if faulty and dice.one_in(faulty):
            faulty_call(cases, dice, good_report(cases.state, table, needs))
        else:
            report = good_report(cases.state, table, needs)
            if cases.step(next_reading(cases.state), report) == 11:
                break  # a foreign table with no entry here
        if len(cases.log) > SHORT_LOG and dice.one_in(40):
            cases.log_check()
    if stop_at is None:
        cases.step(next_reading(cases.state), 0)  # refused: the run is over
        if dice.one_in(3):
            faulty_call(cases, dice, 1)
    if len(cases.log) > SHORT_LOG:
        cases.log_check()
    if own_table and stop_at is None:
        assert list(cases.log[: answer.jobs]) == model.expected_log(cases.tasks, needs)
        assert cases.state.position == cases.state.cycle


def list_and_builds(cases, dice, tasks, supply):
    """Verdict, and tables too short, then long enough; the last is left in hand."""
    answer = cases.list(tasks, supply)
    cycle = answer.cycle
    if answer.refusal:
        cases.table_fill(dice.pick([0, 1, dice.below(100)]), dice.below(256))
        cases.build()
        return answer
    if dice.one_in(2):
        cases.table_fill(dice.pick([0, cycle - 1, dice.below(cycle)]), dice.below(256))
        cases.build()
    longer = dice.pick([cycle, cycle, cycle + 1, cycle + dice.below(100)])
    length = dice.pick([4096, MOST_TABLE]) if dice.one_in(60) else longer
    cases.table_fill(length, dice.below(256))
    cases.build()
    return answer


def refused_start(cases, dice, answer):
    """A start that is refused, and a step on the state it gives."""
    length = dice.below(40)
    if answer.jobs:
        length = dice.pick([0, answer.jobs - 1, dice.below(answer.jobs)])
    cases.log_fill(length, dice.below(256))
    cases.start(dice.below(3), dice.roll())
    cases.step(dice.pick([1, dice.roll()]), dice.below(3))
    if len(cases.log) > SHORT_LOG:
        cases.log_check()


def foreign_table(dice, count, cycle, tables):
    """Another list's table, or bytes within the count, or a few above it."""
    if tables and dice.one_in(2):
        other = dice.pick(tables)
        times = rounded_up(cycle, len(other))
        return bytes(other * times)[: cycle + dice.below(3)]
    data = bytearray(dice.below(count + 1) for _ in range(cycle))
    if dice.one_in(3):
        data[dice.below(cycle)] = dice.pick([count + 1, 255])
    return bytes(data)


def run_in_modes(cases, dice, cycle, tables):
    """Runs of the list in hand: by the table, filling, with none named, and by a foreign table."""
    run(cases, dice, TABLE, True)
    own = bytes(cases.table)
    if dice.one_in(3):
        run(cases, dice, NONE_NAMED, True)
    if dice.one_in(3):
        cases.table_bytes(b"")
    run(cases, dice, FILLING, True)
    if dice.one_in(4):
        cases.table_bytes(foreign_table(dice, len(cases.tasks), cycle, tables))
        run(cases, dice, dice.pick([TABLE, TABLE, NONE_NAMED]), False)
    if len(tables) < 200 and cycle <= 60:
        tables.append(own[:cycle])


# States


def altered(state, **numbers):
    other = state.copy()
    for name, number in numbers.items():
        setattr(other, name, number)
    return other


def placed(state, i, **numbers):
    """With other numbers at a place; where a period comes without a deadline, that is the deadline too."""
    numbers.setdefault("deadline", numbers.get("period", state.places[i].deadline))
    other = state.copy()
    for name, number in numbers.items():
        setattr(other.places[i], name, number)
    return other


def damaged_states(dice, state):
    """Each condition of soundness broken in turn, and what stands just inside it."""
    n, cycle = state.count, state.cycle
    for count in (0, n - 1, n + 1, 16, 17, 255, 256 + n, 65536 + n):
        yield altered(state, count=count)
    for count in (2 ** 32, 2 ** 32 + n, 2 ** 63, 2 ** 64 - 1):
        yield altered(state, count=count)
    for other in (0, 1, cycle - 1, cycle + 1, 2 * cycle, 4096, 4097, 8192, 2 ** 31, TOP):
        yield altered(state, cycle=other)
    for position in (0, cycle - 1, cycle, cycle + 1, 4096, 4097, TOP):
        yield altered(state, position=position)
    yield altered(state, cycle=0, position=0)
    yield altered(state, mode=1 - state.mode)
    for i in sorted({0, n - 1, dice.below(n)}):
        here = state.places[i]
        not_dividing = [t for t in range(1, cycle + 2) if cycle % t != 0]
        for period in (0, cycle, not_dividing[0], not_dividing[-1], 4097, 8192, TOP):
            yield placed(state, i, period=period)
        yield altered(placed(state, i, period=8192), cycle=8192)
        for runtime in (0, 1, here.period, here.period + 1, TOP):
            yield placed(state, i, runtime=runtime)
        yield placed(state, i, runtime=0, used=0, ended=True)
        for used in (0, here.runtime - 1, here.runtime, here.runtime + 1, TOP):
            for ended in (False, True):
                yield placed(state, i, used=used, ended=ended)
    for i in sorted({min(n, 15), 15}):
        if i >= n:  # beyond the task count: not looked at, and handed on
            yield placed(state, i, period=0, runtime=TOP, used=7, ended=True)
            yield placed(state, i, period=1, runtime=1, used=0, ended=False)
            yield placed(state, i, period=TOP, runtime=0, used=TOP, ended=False)


def broken_off(cases, dice, mode, at, states_of, calls_a_fault):
    """A run broken off, states made of the one it left handed in, and the run taken up again."""
    run(cases, dice, mode, True, stop_at=at)
    kept = cases.state
    for state in states_of(dice, kept):
        cases.set_state(state)
        if dice.one_in(calls_a_fault):
            faulty_call(cases, dice, dice.below(2))
        else:
            cases.step(next_reading(state), dice.pick([0, 0, 0, 1]))
    cases.set_state(kept)
    while cases.state.position < cases.state.cycle:
        cases.step(next_reading(cases.state), 0)
    if len(cases.log) > SHORT_LOG:
        cases.log_check()


def damaged_runs(cases, dice, accepted):
    """Runs broken off, and damaged states handed in."""
    sixteen = [tasks for tasks in accepted if len(tasks) == 16]
    for number in range(14):
        tasks = dice.pick(sixteen if number % 5 == 1 else accepted)
        answer = list_and_builds(cases, dice, tasks, 0)
        at = 0 if number == 0 else dice.below(answer.cycle)
        broken_off(cases, dice, dice.below(3), at, damaged_states, 4)


def made_up_state(dice, cycle):
    """A sound state that perhaps no run leads to; places beyond the count hold anything."""
    state = State()
    state.count = dice.between(1, 16)
    state.cycle = cycle
    state.position = dice.pick([0, cycle - 1, dice.below(cycle), dice.below(cycle)])
    state.clock = dice.pick([TOP, TOP - 1, dice.roll()])
    state.mode = dice.below(2)
    for i in range(16):
        if i < state.count:
            period = dice.pick(divisors(cycle))
            runtime = dice.between(1, dice.pick([period, 1 + period // 3]))
            ended = dice.one_in(3)
            used = dice.between(0, runtime if ended else runtime - 1)
            state.places[i] = Place(period, runtime, used, ended)
        elif dice.one_in(3):
            state.places[i] = Place(dice.roll(), dice.roll(), dice.roll(), dice.one_in(2))
    assert model.is_sound(state)
    return state


def take_up(cases, dice, state):
    """A run in a made-up state, with some table and a log long enough."""
    cases.table_bytes(foreign_table(dice, state.count, state.cycle, []))
    cases.log_fill(model.job_count(state) + dice.below(3), dice.below(256))
    cases.set_state(state)


def go_on(cases, dice, calls_a_fault, reports):
    """One call of such a run."""
    if dice.one_in(calls_a_fault):
        faulty_call(cases, dice, dice.below(2))
    else:
        idle = model.who(cases.state, cases.table)[1] == 0
        cases.step(next_reading(cases.state), 0 if idle else dice.pick(reports))


def made_up_runs(cases, dice):
    for number in range(240):
        cycle = dice.pick(SMALL) if number % 12 else dice.pick(MIDDLE)
        take_up(cases, dice, made_up_state(dice, cycle))
        for _ in range(12):
            go_on(cases, dice, 6, [0, 1])
        if len(cases.log) > SHORT_LOG:
            cases.log_check()


# Full size


def full_size_lists(dice):
    """Accepted lists of 16 tasks with a cycle of 4,095 or 4,096, and a mode for each."""
    yield [Task(4 << min(i, 10), 1 + i // 4, 0) for i in range(16)], TABLE
    yield [Task(4096, 256, 1)] * 16, FILLING  # full load, one period
    for cycle, mode in ((4096, NONE_NAMED), (4096, FILLING), (4095, TABLE)):
        tasks = []
        while model.verdict(tasks, 0).cycle != cycle:
            tasks = random_tasks(dice, cycle, 16, 95)
        yield tasks, mode


def full_size(cases, dice):
    for tasks, mode in full_size_lists(dice):
        answer = list_and_builds(cases, dice, tasks, 16)
        assert answer.refusal == 0 and answer.cycle >= 4095
        run(cases, dice, mode, True)
    # The fullest list has no accepted run; a made-up state shows all its 65,536 jobs.
    answer = list_and_builds(cases, dice, [Task(1, 1, 0)] * 16, 0)
    assert answer.refusal == 7
    state = State()
    state.count, state.cycle, state.clock = 16, 4096, TOP - 20
    state.places = [Place(1, 1, 0, False) for _ in range(16)]
    assert model.job_count(state) == 65536
    for mode, length in ((TABLE, 65536), (FILLING, MOST_LOG)):
        state.mode = mode
        cases.table_bytes(bytes(dice.below(17) for _ in range(MOST_TABLE)))
        cases.log_fill(length, dice.below(256))
        for position in (0, 2000, 4060):
            state.position = position
            state.clock = TOP - 20
            cases.set_state(state)
            for _ in range(36):
                report = 1 if model.who(cases.state, cases.table)[1] and dice.one_in(2) else 0
                cases.step(next_reading(cases.state), report)
            cases.log_check()
        assert cases.state.position == 4096
        cases.step(next_reading(cases.state), 0)
        cases.set_state(state)
        cases.lend_log(65535)  # one byte short
        cases.step(next_reading(state), 0)
        cases.log_check()


# Microseconds


MICROS = [0, 1, 2, 3, 499, 500, 501, 1000, 65535, 65536, 2 ** 31 - 1, 2 ** 31, 2 ** 31 + 1]
MICROS += [TOP - 2, TOP - 1, TOP]


def about_whole(dice, part):
    """Microseconds that are so many parts, and one more and one less."""
    whole = dice.below(TOP // part + 1) * part
    return whole, min(whole + 1, TOP), max(whole, 1) - 1


def conversions(cases, dice):
    """Run-times without a tick cost, and periods."""
    for convert in (lambda *given: cases.runtime(*given, 0), cases.period):
        for microseconds in MICROS:
            for slice_length in MICROS:
                convert(microseconds, slice_length)
        for _ in range(250):
            slice_length = 1 + dice.below(dice.pick([10, 1000, 2 ** 20, TOP]))
            for microseconds in about_whole(dice, slice_length):
                convert(microseconds, slice_length)


def ticked_runtimes(cases, dice):
    """Run-times with a tick cost that is small, about half, just below, at or above the slice length."""
    for microseconds in MICROS:
        for slice_length in MICROS:
            for tick_cost in MICROS[1:]:
                cases.runtime(microseconds, slice_length, tick_cost)
    for _ in range(250):
        slice_length = 2 + dice.below(dice.pick([10, 1000, 2 ** 20, TOP - 1]))
        some = dice.pick([1, 20, slice_length // 2, slice_length - 1, 1 + dice.below(slice_length)])
        tick_cost = min(some, slice_length - 1)
        for microseconds in about_whole(dice, slice_length - tick_cost):
            cases.runtime(microseconds, slice_length, tick_cost)
        for too_much in (slice_length, min(slice_length + 1, TOP)):
            cases.runtime(dice.below(TOP), slice_length, too_much)


# Readings


def readings(cases):
    """Every byte as an entry and as a log byte, every number of refusal and others like it."""
    counts = list(range(18)) + [20, 255, 256, 257, 65536 + 5, 2 ** 32 + 5, 2 ** 64 - 1]
    for count in counts:
        for byte in range(256):
            cases.entry(byte, count)
    for high in (0, 2 ** 8, 2 ** 16, 2 ** 31, 2 ** 32 - 32):
        for low in range(32):
            cases.refusal(high + low)
    for byte in range(256):
        cases.logged(byte)


# Drives


def drive(cases, dice, mode, table_length, log_length, needs, length):
    cases.table_fill(table_length, dice.below(256))
    cases.log_fill(log_length, dice.below(256))
    return cases.drive(mode, some_clock(dice, table_length), needs, length)


def whole_drive(cases, dice, mode, answer, needs):
    """Long enough in everything, and compared with the ends worked without states and steps."""
    spare = dice.pick([0, 0, 1, 7])
    flat = [need for row in needs for need in row] + [1] * dice.below(3)
    length = answer.jobs + dice.pick([0, 0, spare])
    ends = drive(cases, dice, mode, answer.cycle + spare, answer.jobs + spare, flat, length)
    no_memory = tuple(task._replace(memory=0) for task in cases.tasks)
    by_jobs = model.ends_by_jobs(no_memory, mode, needs)
    assert ends[: answer.jobs] == [end for row in by_jobs for end in row]
    assert list(cases.log[: answer.jobs]) == model.expected_log(cases.tasks, needs)


def odd_drive(cases, dice, mode, answer, needs):
    """Lent something short, or with needs that are 0 or missing, or fewer ends than jobs."""
    flat = [need for row in needs for need in row]
    table_length, log_length, length = answer.cycle, answer.jobs + dice.below(3), answer.jobs
    kind = dice.below(5)
    if kind == 0:
        table_length = dice.below(answer.cycle)
    elif kind == 1:
        log_length = dice.below(answer.jobs)
    elif kind == 2:
        flat = [dice.pick([0, need, TOP]) for need in flat]
    elif kind == 3:
        flat = flat[: dice.below(len(flat))]
    else:
        length = dice.below(answer.jobs)
    drive(cases, dice, mode, table_length, log_length, flat, length)


def drives(cases, dice):
    """Cycles driven by a caller: accepted lists in each mode, refused lists, short tables and logs."""
    modes = (TABLE, FILLING, NONE_NAMED)
    for tasks, answer, _ in model.WORKED:
        cases.list(tasks, 0)
        for mode in modes:
            if answer.refusal:
                drive(cases, dice, mode, dice.below(20), dice.below(20), [1, 2], dice.below(9))
            elif answer.cycle < 100:
                whole_drive(cases, dice, mode, answer, some_needs(dice, tasks, answer.cycle))
            if tasks == model.LIST_A:
                whole_drive(cases, dice, mode, answer, [[1, 1, 1], [1, 5], [3]])
    while cases.counts["drive"] < 300:
        tasks = random_tasks(dice, dice.pick(SMALL), dice.between(1, 16), dice.between(40, 110))
        tasks, supply = with_memory(dice, tasks)
        answer = cases.list(tasks, supply)
        if answer.refusal:
            drive(cases, dice, dice.below(3), dice.below(100), dice.below(100), [], dice.below(9))
            continue
        for mode in dice.shuffled(modes)[:2]:
            whole_drive(cases, dice, mode, answer, some_needs(dice, tasks, answer.cycle))
            odd_drive(cases, dice, mode, answer, some_needs(dice, tasks, answer.cycle))
    for tasks, mode in full_size_lists(dice):
        answer = cases.list(tasks, 16)
        whole_drive(cases, dice, mode, answer, some_needs(dice, tasks, answer.cycle))
    for place in (2, 3, 5, 16):
        cases.list(clash(dice, place), TOP)
        drive(cases, dice, dice.below(3), dice.below(100), dice.below(100), [1, 2], dice.below(9))


# The quick question


# What a wrong quick answer would stumble over. How it is told stands in quick_traits.
QUICK_TRAITS = (
    "ranked otherwise than listed", "passes at the last of several points", "not at the deadline",
    "at one inner point alone", "first at no point", "late by one slice",
    "late, and others too", "late, and another before it in the list", "late between equals",
    "late within the load",
)
# And with deadlines ahead of the period, beside those.
DUE_QUICK_TRAITS = (
    "no point but the deadline", "at the deadline alone, which is no multiple", "at a multiple, not at such a deadline",
    "ranked otherwise than by period", "late, but for points behind the deadline", "named otherwise than by period",
)


def common_multiple(periods):
    """The model's looks for it, which is too slow for the lists of a search."""
    multiple = 1
    for period in periods:
        multiple = multiple // model.gcd(multiple, period) * period
    return multiple


def quick_traits(tasks):
    """Which of them a list that keeps all bounds has."""
    order = model.ranking(tasks)
    points = [model.points_to_try(tasks, i) for i in range(len(tasks))]
    passing = [model.passing_points(tasks, i, points[i]) for i in range(len(tasks))]
    late = [i for i in order if not passing[i]]
    traits = set()
    if order != sorted(order):
        traits.add("ranked otherwise than listed")
    for i, task in enumerate(tasks):
        if passing[i] and len(points[i]) > 2 and passing[i] == points[i][-1:]:
            traits.add("passes at the last of several points")
        if passing[i] and task.deadline not in passing[i]:
            traits.add("not at the deadline")
            if len(points[i]) > 2 and len(passing[i]) == 1:
                traits.add("at one inner point alone")
        if passing[i] and model.passing_points(tasks, i, range(1, passing[i][0])):
            traits.add("first at no point")
    if has_deadlines(tasks):
        traits |= due_quick_traits(tasks, order, points, passing, late)
    if not late:
        return traits
    named = late[0]
    lighter = list(tasks)
    lighter[named] = lighter[named]._replace(runtime=lighter[named].runtime - 1)
    if model.passing_points(lighter, named, points[named]):
        traits.add("late by one slice")
    if len(late) > 1:
        traits.add("late, and others too")
    if min(late) < named:
        traits.add("late, and another before it in the list")
    equals = [i for i in range(len(tasks)) if tasks[i].deadline == tasks[named].deadline]
    if equals[0] < named < equals[-1]:
        traits.add("late between equals")
    cycle = common_multiple([task.period for task in tasks])
    if sum(task.runtime * (cycle // task.period) for task in tasks) <= cycle:
        traits.add("late within the load")
    return traits


def due_quick_traits(tasks, order, points, passing, late):
    """Those that deadlines ahead of the period bring."""
    traits = set()
    for i, task in enumerate(tasks):
        if all(task.deadline % tasks[j].period for j in model.summed(tasks, i)):
            if points[i] == [task.deadline] == passing[i]:
                traits.add("no point but the deadline")
            elif passing[i] == [task.deadline]:
                traits.add("at the deadline alone, which is no multiple")
            elif passing[i] and task.deadline not in passing[i]:
                traits.add("at a multiple, not at such a deadline")
    by_period = [at_period(task) for task in tasks]
    if order != model.ranking(by_period):
        traits.add("ranked otherwise than by period")
    if late:
        named = tasks[late[0]]
        if model.passing_points(tasks, late[0], range(named.deadline + 1, named.period + 1)):
            traits.add("late, but for points behind the deadline")
        others = [i for i in model.ranking(by_period) if not passing[i]]
        if others[0] != late[0]:
            traits.add("named otherwise than by period")
    return traits


def lists_of_traits(dice, wanted, of_traits=QUICK_TRAITS, due=lambda task: task):
    """Lists until each trait has been met so often; each list has one that was still wanted."""
    met = Counter()
    while any(met[trait] < wanted for trait in of_traits):
        count = dice.between(2, dice.pick([3, 5, 8]))
        short = [t for t in divisors(dice.pick([60, 72, 84, 90, 120, 210, 420])) if 1 < t < 40]
        periods = [dice.pick(short) for _ in range(count)]
        tasks = [due(Task(t, dice.between(1, rounded_up(2 * t, count + 1)), 0)) for t in periods]
        traits = [trait for trait in quick_traits(tasks) if met[trait] < wanted]
        met.update(traits)
        if traits:
            yield tasks


def bench_lists():
    """The bench's lists, and what two chambers were tried with."""
    night, calibration = sheets.example("night"), sheets.example("calibration")
    lists = [night, calibration, sheets.example("two-chambers"), night + calibration]
    for tasks in lists[:2]:
        for i, task in enumerate(tasks):
            more = task._replace(runtime=min(2 * task.runtime, task.period))
            lists.append(tasks[:i] + (more,) + tasks[i + 1 :])
    return lists


def quick_lists(dice):
    """Lists of every kind, with their supplies."""
    for tasks, supply in bound_lists():
        if len(tasks) <= 18:
            yield tasks, supply
    for tasks, _, _ in model.WORKED:  # turned round, so that other numbers are named
        yield tasks[::-1], 0
    for count in (17, 18, 32, 272):
        yield any_periods(dice, 12, count), 0
    for tasks in bench_lists():
        memory = sum(task.memory for task in tasks)
        for supply in (sheets.SUPPLY, memory, memory - 1):
            yield tasks, supply
    for _ in range(500):
        cycle = dice.pick(dice.pick([SMALL, SMALL, SMALL, MIDDLE]))
        count = dice.between(1, dice.pick([3, 5, 8, 16]))
        tasks = random_tasks(dice, cycle, count, dice.between(20, 140))
        yield with_memory(dice, tasks)
    for _ in range(150):  # any periods: the cycle is often too long
        most = dice.pick([6, 10, 20, 70, 100, 1000, LONGEST])
        yield with_memory(dice, any_periods(dice, most, dice.between(1, 5)))
    for place in list(range(2, 17)) * 4:
        tasks = clash(dice, place)
        yield tasks, sum(task.memory for task in tasks) - dice.below(2)
    for tasks in lists_of_traits(dice, 250):
        yield tasks, 0
    for _ in range(300):  # lists that just pass and just fail
        cycle = dice.pick(dice.pick([SMALL, SMALL, MIDDLE]))
        tasks = random_tasks(dice, cycle, dice.between(2, 8), dice.between(30, 90))
        for edge in edge_pair(dice, tasks):
            yield edge, 0
    for _ in range(150):  # full load, and one slice more
        tasks = full_load(dice, dice.pick(dice.pick([SMALL, SMALL, MIDDLE])), dice.between(2, 8))
        yield tasks, 0
        i = dice.below(len(tasks))
        yield tasks[:i] + [tasks[i]._replace(runtime=tasks[i].runtime + 1)] + tasks[i + 1 :], 0
    for _ in range(40):
        yield random_tasks(dice, dice.pick(LARGE), dice.between(2, 16), dice.between(60, 120)), 0
    for tasks, _ in full_size_lists(dice):
        yield tasks, 16


# The viewer


# What a file can be like. How it is told stands in file_traits.
FILE_TRAITS = (
    "cut short", "unlike in the header", "in a time", "in a value", "behind the end", "every job whole",
    "some job short", "a job with nothing", "a job with too much", "idle while one waits",
    "another before the first in rank", "a slice behind the deadline",
)


def file_traits(tasks, supply, file, explained, needs):
    """Where a bad file stops being like a good one; how a run is explained, or why it is not."""
    if explained.refusal == 18:
        at = explained.number
        if at == len(file):
            return ["cut short"]
        if at < len(HEADER):
            return ["unlike in the header"]
        if run_of(file[:at]):
            return ["behind the end"]
        return ["in a time" if (at - len(HEADER)) % 15 < 6 else "in a value"]
    if explained.refusal not in (0, viewer.NO):
        return []
    cycle = model.verdict(tasks, supply).cycle
    runtimes = [task.runtime for task in tasks for _ in range(cycle // task.period)]
    if explained.refusal == 0:
        return ["every job whole" if needs[: len(runtimes)] == runtimes else "some job short"]
    run = run_of(file)
    counted = viewer.counted(tasks, cycle, run)
    if 0 in counted:
        return ["a job with nothing"]
    if any(slices > runtime for slices, runtime in zip(counted, runtimes)):
        return ["a job with too much"]
    filled = viewer.filled(tasks, cycle, counted)
    at = next(t for t in range(cycle) if run[t] != filled[t])
    traits = ["another before the first in rank" if run[at] else "idle while one waits"]
    served = ((t, tasks[entry - 1]) for t, entry in enumerate(run) if entry)
    if any(t % task.period >= task.deadline for t, task in served):
        traits.append("a slice behind the deadline")
    return traits


def some_filled(dice, tasks, cycle):
    return viewer.filled(tasks, cycle, [need for row in some_needs(dice, tasks, cycle) for need in row])


def by_the_table(dice, tasks, cycle):
    """Who runs where slices that a job leaves over stay idle."""
    left, run = some_needs(dice, tasks, cycle), []
    for t, entry in enumerate(model.plan(tasks, TOP)[1]):
        job = t // tasks[entry - 1].period
        runs = entry > 0 and left[entry - 1][job] > 0
        left[entry - 1][job] -= runs
        run.append(entry if runs else 0)
    return run


def almost(dice, tasks, run):
    """The run with two tasks exchanged, a slice given to another or to nobody, or a job's all left idle."""
    run, t = list(run), dice.below(len(run))
    kind = dice.pick([0, 0, 1, 2, 3])
    others = [u for u in range(t + 1, len(run)) if run[t] and run[u] and run[u] != run[t]]
    if kind == 0 and others:
        run[t], run[others[0]] = run[others[0]], run[t]
    elif kind == 1:
        run[t] = dice.below(len(tasks) + 1)
    elif kind == 2:
        run[t] = 0
    else:
        number = dice.between(1, len(tasks))
        period = tasks[number - 1].period
        for t in range(t // period * period, t // period * period + period):
            run[t] = 0 if run[t] == number else run[t]
    return run


def enough(dice, most):
    return most + dice.pick([0, 0, 0, 1, 7])


def view(cases, dice, file):
    """With room enough for the list in hand."""
    answer = model.verdict(cases.tasks, cases.supply)
    cases.file(file, enough(dice, answer.cycle), dice.below(256), enough(dice, answer.jobs))


def written_runs(cases, dice, tasks, cycle):
    """Runs of the list in hand, and what is none, into room enough and one byte too short."""
    anything = [dice.below(len(tasks) + 1) for _ in range(cycle)]
    for run in (model.plan(tasks, TOP)[1], some_filled(dice, tasks, cycle), anything):
        long = len(text(run))
        cases.write(run, enough(dice, long), dice.below(256))
        cases.write(run, dice.pick([long - 1, long - 1, dice.below(long)]), dice.below(256))
        other = dice.pick([run[:-1], run + [0], run + run, [], run[:1] * dice.between(1, 40)])
        cases.write(other, 20 * len(other) + 200, dice.below(256))
        least = len(tasks) + 1
        above = dice.pick([least, least, 16, 17, 31, 32, 255, dice.between(least, 255)])
        for wrong in (run, other):
            wrong = list(wrong)
            if wrong:
                wrong[dice.pick([0, len(wrong) - 1, dice.below(len(wrong))])] = above
            cases.write(wrong, dice.pick([0, 20 * len(wrong) + 200]), dice.below(256))


def seen_runs(cases, dice, tasks, cycle, jobs):
    """Good files: runs that have needs, runs that have none, other lengths, entries above the count, short room."""
    own, run = model.plan(tasks, TOP)[1], some_filled(dice, tasks, cycle)
    other = some_filled(dice, tasks, cycle)
    for seen in (own, run, other, by_the_table(dice, tasks, cycle), by_the_table(dice, tasks, cycle)):
        view(cases, dice, text(seen))
    for _ in range(5):
        view(cases, dice, text(almost(dice, tasks, dice.pick([own, run, other]))))
    wrong = almost(dice, tasks, run)
    for seen in (run, wrong):  # entries, then needs, one too short
        cases.file(text(seen), cycle - 1, dice.below(256), jobs)
        cases.file(text(seen), cycle, dice.below(256), dice.pick([jobs - 1, jobs - 1, dice.below(jobs)]))
    other = dice.pick([run[:-1], run + [0], run + run[:1], run + run, run[:1]]) or [0, 0]
    above = list(dice.pick([run, other]))
    if len(tasks) < 16:
        above[dice.pick([0, -1, dice.below(len(above))])] = dice.pick([len(tasks) + 1, 16])
    for seen in (other, above):
        cases.file(text(seen), dice.pick([0, cycle]), dice.below(256), dice.pick([0, jobs]))


def cut_and_changed(dice, file, header):
    """The file cut at every byte; bytes changed, left out and doubled: in the header at every so many places."""
    start = len(HEADER)
    for at in range(len(file)):
        yield file[:at]
        if at < start and at % header:
            continue
        others = [file[at] ^ 1, file[at] ^ 32, dice.below(256), dice.pick(b"0123456789#b !\n$\r")]
        for other in others[: 4 if at >= start else 1]:
            yield file[:at] + bytes([other]) + file[at + 1 :]
        yield file[:at] + file[at + 1 :]
        yield file[: at + 1] + file[at:]


def bad_files(dice):
    """Files that are almost the text of a run."""
    end = text([1, 0])
    changes = end[len(HEADER) :]
    yield from cut_and_changed(dice, end, 4)
    for more in (
        b"\n", b" ", b"#", b"b", b"b0", b"b1", b"b11", b"b00001 !\n", b"b00000 !\n#0003\n", b"\0", b"x",
        changes, end,
    ):
        yield end + more
    for old, new in ((b"us", b"ns"), (b"1 us", b"1us"), (b"\n", b"\r\n"), (b"task", b"tasks"), (b"5", b"4")):
        yield HEADER.replace(old, new) + changes
    dated, dumped = b"$date $end\n" + HEADER, HEADER + b"$dumpvars\n"
    for header in (b"", HEADER * 2, dated, dumped, HEADER + b"\n", HEADER.upper()):
        yield header + changes
    yield end.replace(b"\n", b"\r\n")
    yield HEADER + b"#0000\nb00001 !\n#0000\n"  # an early end mark
    yield HEADER + b"#0000\n#0002\n"
    yield HEADER + b"#0001\nb00001 !\n#0002\n"
    yield HEADER + b"#0000\nb1 !\n#0001\nb0 !\n#0002\n"  # leading zeros left out, as other writers do
    yield HEADER + b"#0\nb00001 !\n#1\nb00000 !\n#2\n"


def after(*changes):
    return HEADER + b"".join(time_line(t) + value_line(entry) for t, entry in changes)


def next_times(dice):
    """Files that are good up to a change; then times that rise and times that do not."""
    for changes in (
        [(0, 3)], [(0, 0), (15, 1)], [(0, 1), (99, 0)], [(0, 0), (999, 1)], [(0, 1), (4094, 0)],
        [(0, 0), (4095, 1)],
    ):
        t = changes[-1][0]
        rounded = {t // 10 * 10, (t // 10 + 1) * 10, (t // 100 + 1) * 100, (t // 1000 + 1) * 1000}
        times = rounded | {t - 1, t, t + 1, t + 2, dice.below(10000)}
        for time in sorted(times | {0, 4089, 4095, 4096, 4097, 4100, 5000, 9999}):
            if 0 <= time <= 9999:
                file = after(*changes) + time_line(time)
                yield file
                yield file + dice.pick([b"b", value_line(2), time_line(time + 1)])
        for line in (b"#12\n", b"#00012\n", b"# 012\n", b"#+001\n", b"#-001\n", b"#\n", b"\n", b"$end\n"):
            yield after(*changes) + line


def next_values(dice):
    """The same with values that are another entry, the same one, or none."""
    for entry in (0, 1, 2, 7, 8, 15, 16):
        about = {entry - 1, entry, entry + 1, entry ^ 1, entry ^ 8, entry ^ 16, dice.below(32)}
        for value in sorted(about | {0, 15, 16, 17, 24, 31}):
            if 0 <= value <= 31:
                yield after((0, entry), (1, value)) + time_line(2)
    for value in range(32):
        yield after((0, value)) + time_line(1)


def small_accepted(dice):
    """A list with a cycle of at most 24, and mostly with a run-time of several slices."""
    while True:
        cycle = dice.pick([6, 8, 12, 12, 16, 20, 24])
        tasks = random_tasks(dice, cycle, dice.between(1, 4), dice.between(60, 110))
        long = any(task.runtime > 1 for task in tasks) or dice.one_in(8)
        if long and model.verdict(tasks, 0).refusal == 0:
            return tasks


def viewed_lists(dice):
    """Accepted lists that are small enough, with their supplies."""
    for tasks, answer, _ in model.WORKED:
        if not answer.refusal and answer.cycle < 100:
            yield tasks, 0
    for _ in range(40):
        yield small_accepted(dice), 0
    yield [Task(16, 1, 3)] * 16, 48  # no entry up to 16 is above the count
    yield [Task(16, 1, 3)] * 15, 45


def tiny_lists():
    """Accepted lists of which every run is tried."""
    return bare((1, 1)), bare((3, 2)), bare((3, 1), (3, 2)), bare((4, 2), (2, 1)), bare((2, 1), (4, 1))


def refused_lists():
    """A few for each number, with their supplies."""
    seen = Counter()
    for tasks, supply in bound_lists():
        refusal = len(tasks) <= 18 and model.verdict(tasks, supply).refusal
        if refusal and seen[refusal] < 5:
            seen[refusal] += 1
            yield tasks, supply


def any_run(dice):
    return [dice.below(dice.pick([3, 17, 256])) for _ in range(dice.below(9))]


def viewer_cases(cases, dice):
    for tasks, supply in refused_lists():
        cases.list(tasks, supply)
        for _ in range(2):
            cases.write(any_run(dice), dice.pick([0, 300]), dice.below(256))
        good = text([dice.below(17) for _ in range(dice.between(1, 5))])
        for file in (good, good[: dice.below(len(good))]):
            cases.file(file, dice.pick([0, 20]), dice.below(256), dice.pick([0, 20]))
    for tasks, supply in viewed_lists(dice):
        answer = cases.list(tasks, supply)
        written_runs(cases, dice, tasks, answer.cycle)
        seen_runs(cases, dice, tasks, answer.cycle, answer.jobs)
    for tasks in tiny_lists():
        cycle = cases.list(tasks, 0).cycle
        for number in range((len(tasks) + 1) ** cycle):
            run = [number // (len(tasks) + 1) ** t % (len(tasks) + 1) for t in range(cycle)]
            view(cases, dice, text(run))
    cases.list(bare((2, 1)), 0)
    for files in (bad_files(dice), next_values(dice)):
        for file in files:
            view(cases, dice, file)
    cases.list(bare((4096, 1)), 0)
    for file in next_times(dice):
        view(cases, dice, file)
    for run in ([1] + [0] * 4095, [0] * 4095 + [1], [0] * 4096, [1] * 4097, [0] * 4095, [1] * 9999):
        view(cases, dice, text(run))
    for run in ([0] * 4095 + [1], [0] * 4097):
        cases.write(run, 200, dice.below(256))
    # Full size: a change in every slice makes the longest file there is.
    for tasks in (bare((2, 1), (4096, 2048)), (Task(4096, 256, 1),) * 16, bare((63, 1), (64, 1))):
        answer = cases.list(tasks, 16)
        run = model.plan(tasks, 16)[1]
        file = text(run)
        for length in (len(file), len(file) - 1, MOST_FILE):
            cases.write(run, length, dice.below(256))
        view(cases, dice, file)
        if len(tasks) == 2 and answer.cycle == LONGEST:
            assert len(file) == viewer.LONGEST_TEXT
            cases.file(file + b"\n", 4096, dice.below(256), 0)


# Deadlines ahead of the period


def due_task(dice, task):
    """At the period, at the run-time, anywhere between, or in the later half."""
    first, last = task.runtime, task.period
    middle = dice.between((first + last) // 2, last)
    deadline = dice.pick([last, first, dice.between(first, last), middle, middle, middle])
    return task._replace(deadline=deadline)


def due_tasks(dice, tasks):
    return [due_task(dice, task) for task in tasks]


def deadline_edge(dice, tasks):
    """The list with one deadline as near as is accepted, and one slice nearer; or nothing."""
    i = dice.below(len(tasks))

    def due(deadline):
        return tasks[:i] + [tasks[i]._replace(deadline=deadline)] + tasks[i + 1 :]

    low, high = tasks[i].runtime - 1, tasks[i].period  # low is not accepted
    if model.verdict(due(high), 0).refusal:
        return []
    while low + 1 < high:
        middle = (low + high) // 2
        if model.verdict(due(middle), 0).refusal:
            low = middle
        else:
            high = middle
    return [due(high), due(low)]


def due_bound_lists():
    """Deadlines at and over their bounds, alone and in the way of other refusals, with the supplies."""
    lists = [(tasks, 0) for tasks, _, _ in model.DUE]
    for period, runtimes in ((1, (1,)), (2, (1, 2)), (12, (1, 5, 12)), (4095, (4000,)), (4096, (1, 256, 4096))):
        for c in runtimes:
            for deadline in sorted({0, 1, c - 1, c, c + 1, period - 1, period, period + 1, 4096, 4097, 2 ** 31, TOP}):
                lists.append(([Task(period, c, 0, deadline)], 0))
                lists.append((bare((12, 1), (6, 1, 3), (period, c, deadline)), TOP))
    # 3, 4, 20 of one task; then task by task; then memory, and a cycle that is too long.
    bad = [
        Task(0, 1, 0, 0), Task(4097, 1, 0, 4098), Task(4, 0, 0, 5), Task(4, 5, 0, 3), Task(4, 2, 0, 1), Task(4, 2, 0, 5),
        Task(4, 3, 0, 0), Task(4096, 4096, 0, 4095),
    ]
    for first in bad:
        for second in bad:
            lists.append(([Task(64, 1, 9, 5), first, Task(65, 1, TOP), second], 3))
            lists.append(([first, second], 0))
        lists.append(([Task(64, 1, 9, 5), Task(65, 1, TOP, 64), first], TOP))
        lists.append(([first] * 16, 0))
        lists += [([first] * 17, 0), ([Task(16, 1, 0, 3)] * 16 + [first], 0), ([first] + [Task(16, 1, 0, 3)] * 17, 0)]
    lists.append(([Task(16, 1, 1, 2)] * 15 + [Task(16, 2, 1, 1)], 15))
    # 5 before 6 before 7, all with deadlines.
    clash = [Task(64, 32, 7, 40), Task(65, 32, 8, 32), Task(3, 2, 1, 2)]
    lists += [(clash, supply) for supply in (0, 6, 7, 14, 15, 16, TOP)]
    lists += [(clash[:1] + clash[2:], supply) for supply in (0, 7, 8)]
    return lists


def due_lists(dice):
    """Random lists with deadlines, with their supplies: from easy to late, just in time and just not, with ties."""
    for _ in range(280):
        cycle = dice.pick(dice.pick([SMALL, SMALL, SMALL, MIDDLE]))
        count = dice.between(1, dice.pick([3, 5, 8, 16]))
        tasks = random_tasks(dice, cycle, count, dice.between(20, 100))
        yield with_memory(dice, due_tasks(dice, tasks))
    for _ in range(40):  # any periods: the cycle is often too long
        most = dice.pick([6, 10, 20, 70, 100, 1000, LONGEST])
        yield with_memory(dice, due_tasks(dice, any_periods(dice, most, dice.between(1, 5))))
    for _ in range(150):  # faults strewn over good lists
        tasks = due_tasks(dice, random_tasks(dice, dice.pick(SMALL), dice.between(1, 16), 60))
        for _ in range(dice.between(1, 3)):
            i = dice.below(len(tasks))
            period, runtime, due = tasks[i].period, tasks[i].runtime, tasks[i].deadline
            fault = dice.pick([
                {"deadline": max(runtime, 1) - 1}, {"deadline": period + 1}, {"deadline": dice.roll()}, {"deadline": 0},
                {"period": max(due, 1) - 1}, {"runtime": min(due, TOP - 1) + 1}, {"period": 0}, {"runtime": 0},
                {"memory": dice.roll()}, {"period": 4093},
            ])
            tasks[i] = tasks[i]._replace(**fault)
        yield tasks, dice.pick([0, TOP, dice.roll()])
    for _ in range(200):
        cycle = dice.pick(dice.pick([SMALL, SMALL, MIDDLE]))
        tasks = due_tasks(dice, random_tasks(dice, cycle, dice.between(1, 6), dice.between(20, 70)))
        for edge in dice.pick([edge_pair, deadline_edge, deadline_edge])(dice, tasks):
            yield edge, 0
    for wanted in ("margin tie", "lateness tie of other periods", "another tightest than by the period's end"):
        found = 0
        while found < 60:
            count = dice.between(2, 6)
            tasks = random_tasks(dice, dice.pick(SMALL), count, dice.between(30, 120))
            tasks = due_tasks(dice, tasks)
            if has_deadlines(tasks) and wanted in list_traits(tasks, 0, model.verdict(tasks, 0)):
                found += 1
                yield tasks, 0


def delayed(dice, table, cycle):
    """A table that comes some slices late, so that jobs are late at deadlines ahead of the period."""
    late = dice.between(1, 1 + cycle // 3)
    return bytes(dice.below(2) * table[0] for _ in range(late)) + bytes(table[: cycle - late])


def due_runs(cases, dice, cycle, tables):
    """Runs of the list in hand: by the table, filling or with none named, and by a table that is not its own."""
    run(cases, dice, TABLE, True)
    own = bytes(cases.table)
    if dice.one_in(3):
        cases.table_bytes(b"")
    run(cases, dice, dice.pick([FILLING, FILLING, NONE_NAMED]), True)
    foreign = foreign_table(dice, len(cases.tasks), cycle, tables)
    cases.table_bytes(dice.pick([delayed(dice, own, cycle), delayed(dice, own, cycle), foreign]))
    run(cases, dice, dice.pick([TABLE, TABLE, TABLE, NONE_NAMED]), False)
    if len(tables) < 200 and cycle <= 60:
        tables.append(own[:cycle])


def closed_where_due(state):
    """The jobs that are past their deadlines are closed."""
    for place in state.places[: state.count]:
        place.ended = place.ended or state.position % place.period >= place.deadline
    return state


def due_states(dice, state):
    """Deadlines below, at and above their bounds, and positions about a deadline and the release after it."""
    n, cycle = state.count, state.cycle
    for i in sorted({0, n - 1, dice.below(n)}):
        here = state.places[i]
        for deadline in (0, here.runtime - 1, here.runtime, here.period - 1, here.period, here.period + 1, 4096, TOP):
            yield placed(state, i, deadline=deadline)
            yield placed(state, i, deadline=deadline, used=0, ended=True)
        yield placed(state, i, runtime=here.deadline + 1, used=0)
        yield placed(state, i, period=cycle, deadline=here.deadline)
        yield placed(state, i, period=1, deadline=here.deadline)
        release = here.period * dice.below(cycle // here.period)
        for age in (0, here.deadline - 1, here.deadline, here.period - 1, here.period):
            there = closed_where_due(altered(state, position=release + age))
            for used, ended in ((0, False), (0, True), (here.runtime - 1, False), (here.runtime, True)):
                yield placed(there, i, used=used, ended=ended)
    yield closed_where_due(altered(state, mode=1 - state.mode))
    if n < 16:  # beyond the task count: not looked at, and handed on
        yield placed(state, n, period=3, deadline=9, runtime=5, used=1, ended=False)
        yield placed(state, 15, period=0, deadline=TOP, runtime=1, used=0, ended=False)


def due_damaged_runs(cases, dice, accepted):
    """Runs of lists with deadlines broken off, and states with deadlines about their bounds handed in."""
    for _ in range(9):
        answer = list_and_builds(cases, dice, dice.pick(accepted), 0)
        broken_off(cases, dice, dice.below(3), dice.below(answer.cycle), due_states, 6)


def due_made_up_state(dice, cycle):
    """A sound state with deadlines that perhaps no run leads to."""
    state = made_up_state(dice, cycle)
    for i, place in enumerate(state.places):
        if i < state.count:
            place.deadline = due_task(dice, Task(place.period, place.runtime, 0)).deadline
        elif dice.one_in(2):
            place.deadline = dice.roll()
    assert model.is_sound(closed_where_due(state))
    return state


def due_made_up_runs(cases, dice):
    """Taken up where more is open than can be in time, so that filling runs are late too."""
    for _ in range(200):
        cycle = dice.pick([n for n in SMALL if n >= 12])
        take_up(cases, dice, due_made_up_state(dice, cycle))
        for _ in range(40):
            go_on(cases, dice, 20, [0, 0, 1])
            if cases.state.position == cycle:
                break
        if len(cases.log) > SHORT_LOG:
            cases.log_check()


def due_accepted(dice, cycles, count, percents):
    """An accepted list with deadlines ahead of the period."""
    while True:
        tasks = due_tasks(dice, random_tasks(dice, dice.pick(cycles), dice.between(*count), dice.between(*percents)))
        if has_deadlines(tasks) and model.verdict(tasks, 0).refusal == 0:
            return tasks


def due_full_size(dice):
    """16 tasks, a cycle of 4,096 or near it, deadlines ahead of the period."""
    while True:
        tasks = due_accepted(dice, [4032, 4095, 4096], (16, 16), (50, 70))
        if model.verdict(tasks, 0).cycle >= 4032:
            return tasks


def due_drives(cases, dice):
    modes = (TABLE, FILLING, NONE_NAMED)
    lists = [tasks for tasks, _, _ in model.DUE] + [due_accepted(dice, SMALL, (1, 9), (30, 90)) for _ in range(36)]
    for tasks in lists:
        answer = cases.list(tasks, 0)
        for mode in dice.shuffled(modes)[:2]:
            if answer.refusal:
                drive(cases, dice, mode, dice.below(20), dice.below(20), [1, 2], dice.below(9))
            else:
                whole_drive(cases, dice, mode, answer, some_needs(dice, tasks, answer.cycle))
                odd_drive(cases, dice, mode, answer, some_needs(dice, tasks, answer.cycle))
    tasks = due_full_size(dice)
    answer = cases.list(tasks, 0)
    whole_drive(cases, dice, TABLE, answer, some_needs(dice, tasks, answer.cycle))


def due_quick_lists(dice):
    """Lists with deadlines of every kind, with their supplies."""
    yield from due_bound_lists()
    for tasks, _, _ in model.DUE:
        yield tasks[::-1], 0
    for tasks in bench_lists():
        yield due_tasks(dice, tasks), sheets.SUPPLY
    every = QUICK_TRAITS + DUE_QUICK_TRAITS
    for tasks in lists_of_traits(dice, 120, every, lambda task: due_task(dice, task)):
        yield tasks, 0
    for _ in range(120):  # lists that just pass and just fail
        tasks = due_tasks(dice, random_tasks(dice, dice.pick(SMALL), dice.between(2, 8), dice.between(20, 70)))
        for edge in dice.pick([edge_pair, deadline_edge])(dice, tasks):
            yield edge, 0
    for _ in range(3):
        yield due_full_size(dice), 0


def behind_the_deadline(dice, tasks, run):
    """The run with the last slice of a job moved behind its deadline, or the run itself where there is no room."""
    moves = []
    for number, task in enumerate(tasks, 1):
        for release in range(0, len(run), task.period):
            due, end = release + task.deadline, release + task.period
            had = [t for t in range(release, due) if run[t] == number]
            moves += [(had[-1], t) for t in range(due, end) if had and run[t] == 0]
    run = list(run)
    if moves:
        old, new = dice.pick(moves)
        run[old], run[new] = run[new], run[old]
    return run


def due_viewer_cases(cases, dice):
    """Written, read back and explained with deadlines; and lists refused by 20, whatever the run and the file."""
    for tasks, supply in (case for case in due_bound_lists() if model.verdict(*case).refusal == 20):
        if dice.one_in(8):
            cases.list(tasks, supply)
            cases.write(any_run(dice), dice.pick([0, 300]), dice.below(256))
            good = text([dice.below(17) for _ in range(dice.between(1, 5))])
            for file in (good, good[: dice.below(len(good))]):
                cases.file(file, dice.pick([0, 20]), dice.below(256), dice.pick([0, 20]))
    lists = [tasks for tasks, answer, _ in model.DUE if not answer.refusal]
    lists += [due_accepted(dice, [8, 12, 12, 16, 20, 24], (1, 4), (40, 90)) for _ in range(14)]
    for tasks in lists:
        answer = cases.list(tasks, 0)
        written_runs(cases, dice, tasks, answer.cycle)
        seen_runs(cases, dice, tasks, answer.cycle, answer.jobs)
        for _ in range(4):
            run = dice.pick([model.plan(tasks, 0)[1], some_filled(dice, tasks, answer.cycle)])
            view(cases, dice, text(behind_the_deadline(dice, tasks, run)))
    for tasks in (bare((4, 2, 2)), bare((4, 2, 3)), bare((3, 1), (3, 1, 1)), bare((4, 1), (2, 1, 1)), bare((2, 1), (4, 1, 1))):
        cycle = cases.list(tasks, 0).cycle
        for number in range((len(tasks) + 1) ** cycle):
            run = [number // (len(tasks) + 1) ** t % (len(tasks) + 1) for t in range(cycle)]
            view(cases, dice, text(run))


def due_conversions(cases, dice):
    for microseconds in MICROS:
        for slice_length in MICROS:
            cases.deadline(microseconds, slice_length)
    for _ in range(250):
        slice_length = 1 + dice.below(dice.pick([10, 1000, 2 ** 20, TOP]))
        for microseconds in about_whole(dice, slice_length):
            cases.deadline(microseconds, slice_length)


def due_cases(cases, dice):
    due_conversions(cases, dice)
    tables, accepted = [], []
    for tasks, supply in due_bound_lists():
        answer = list_and_builds(cases, dice, tasks, supply)
        if dice.one_in(2):
            refused_start(cases, dice, answer)
    for tasks, supply in due_lists(dice):
        answer = list_and_builds(cases, dice, tasks, supply)
        if dice.one_in(4):
            refused_start(cases, dice, answer)
        if answer.refusal == 0 and answer.cycle < 100 and has_deadlines(tasks):
            accepted.append([task._replace(memory=0) for task in tasks])
            due_runs(cases, dice, answer.cycle, tables)
    due_damaged_runs(cases, dice, accepted)
    due_made_up_runs(cases, dice)
    list_and_builds(cases, dice, due_full_size(dice), 0)
    run(cases, dice, FILLING, True)
    due_drives(cases, dice)
    for tasks, supply in due_quick_lists(dice):
        cases.quick(tasks, supply)
    due_viewer_cases(cases, dice)


def all_cases():
    dice, cases = Dice(SEED), Cases()
    conversions(cases, dice)
    ticked_runtimes(cases, Dice(TICKS_SEED))
    tables, accepted = [], []
    for tasks, supply in bound_lists():
        answer = list_and_builds(cases, dice, tasks, supply)
        if dice.one_in(2):
            refused_start(cases, dice, answer)
    for tasks, supply in random_lists(dice):
        answer = list_and_builds(cases, dice, tasks, supply)
        if dice.one_in(4):
            refused_start(cases, dice, answer)
        if answer.refusal == 0 and answer.cycle < 100:
            accepted.append([task._replace(memory=0) for task in tasks])
            run_in_modes(cases, dice, answer.cycle, tables)
        elif answer.refusal == 0 and answer.cycle < 1000 and dice.one_in(3):
            run(cases, dice, dice.below(3), True)
    clashes = Dice(CLASHES_SEED)
    for tasks, supply in clash_lists(clashes):
        refused_start(cases, clashes, list_and_builds(cases, clashes, tasks, supply))
    damaged_runs(cases, dice, accepted)
    made_up_runs(cases, dice)
    full_size(cases, dice)
    while cases.counts["step", 0] < STEPS_WANTED:
        tasks = random_tasks(dice, dice.pick(SMALL), dice.between(1, 16), dice.between(40, 100))
        tasks, supply = with_memory(dice, tasks)
        if model.verdict(tasks, supply).refusal == 0:
            answer = list_and_builds(cases, dice, tasks, supply)
            run_in_modes(cases, dice, answer.cycle, tables)
    readings(cases)
    drives(cases, Dice(DRIVES_SEED))
    for tasks, supply in quick_lists(Dice(QUICK_SEED)):
        cases.quick(tasks, supply)
    viewer_cases(cases, Dice(VIEWER_SEED))
    due_cases(cases, Dice(DUE_SEED))
    cases.end()
    assert all_there(cases)
    return cases


def all_there(cases):
    """Nothing the file is meant to hold is missing from it."""
    for what, refusals in (
        ("list", (*range(8), 20)), ("build", (*range(9), 20)), ("start", (0, 1, 2, 3, 4, 5, 6, 7, 12, 20)),
        ("step", (0, 9, 10, 11, 12, 13, 14)), ("conversion", (0, 17)), ("log byte", (1, 2, 3)),
        ("started in mode", (TABLE, FILLING, NONE_NAMED)), ("accepted in mode", (TABLE, FILLING)),
        ("entry", range(3)), ("refusal", range(7)), ("logged", range(5)),
        ("drive", (0, 3, 4, 5, 6, 7, 12, 20)), ("drive built", (0, 8, 20)),
        ("driven in mode", (TABLE, FILLING, NONE_NAMED)), ("clash at", range(2, 17)),
        ("quick", (*range(8), 20)), ("write", (*range(8), 19, 20, 30, 31)),
        ("read", (*range(8), 18, 19, 20, 30, 31)), ("explain", (*range(8), 18, 19, 20, 30, 31, viewer.NO)),
    ):
        for refusal in refusals:
            assert cases.counts[what, refusal], (what, refusal)
    assert all(cases.counts["tick cost", some, refusal] for some in (0, 1) for refusal in (0, 17))
    assert cases.counts["no mode named", 11] >= 500  # the table is wrong or short, and is not looked at
    assert cases.counts["whole drives"] >= 100 and cases.counts["clash of several"] >= 30
    assert all(cases.counts["quick trait", trait] >= 250 for trait in QUICK_TRAITS)
    assert all(cases.counts["file trait", trait] >= 20 for trait in FILE_TRAITS)
    assert deadlines_there(cases.counts)
    assert len(cases.out) < 8000000
    return cases.counts["list"] >= 2000 and cases.counts["step"] >= 200000


def deadlines_there(counts):
    """The same of what has deadlines ahead of the period."""
    for what, numbers, enough in (
        ("list", (0, 7, 20), 100), ("list", (2, 3, 4, 5, 6), 20), ("build", (0, 7, 8, 20), 100), ("start", (0, 12, 20), 50),
        ("started in mode", (TABLE, FILLING, NONE_NAMED), 100), ("step", (0,), 30000), ("step", (9, 10, 11, 12, 13, 14), 100),
        ("drive", (0, 7, 20), 5), ("drive", (12,), 1), ("quick", (0, 7, 20), 100), ("write", (0, 19, 20, 30, 31), 15),
        ("read", (0, 19, 20, 31), 15), ("read", (30,), 5), ("explain", (0, viewer.NO), 100),
    ):
        for number in numbers:
            assert counts["due", what, number] >= enough, (what, number)
    assert all(counts["list trait", trait] >= 20 for trait in LIST_TRAITS)
    assert all(counts["state trait", trait] >= 50 for trait in STATE_TRAITS)
    assert all(counts["step trait", mode, trait] >= 200 for mode in (TABLE, FILLING) for trait in STEP_TRAITS)
    assert all(counts["due", "quick trait", trait] >= 100 for trait in QUICK_TRAITS + DUE_QUICK_TRAITS)
    converted = [(0, True), (0, False), (17, 0)]
    return all(counts["deadline converted", refusal, exact] >= 16 for refusal, exact in converted)


def report(cases):
    print("%d bytes" % len(cases.out))
    for what in ("list", "build", "start", "step", "conversion", "drive", "quick", "write", "read", "explain"):
        parts = ["%d: %d" % (r, cases.counts[what, r]) for r in range(256) if cases.counts[what, r]]
        print("%s: %d, by refusal (0 accepted) %s" % (what, cases.counts[what], ", ".join(parts)))
    who_parts = ["%d: %d" % (r, cases.counts["who", r]) for r in (0, 9, 10, 11)]
    print("who: by refusal " + ", ".join(who_parts))
    print("runs started: table named %d, filling %d, none named %d" % tuple(
        cases.counts["started in mode", mode] for mode in (TABLE, FILLING, NONE_NAMED)))
    print("steps accepted by the table %d, filling %d" % tuple(
        cases.counts["accepted in mode", mode] for mode in (TABLE, FILLING)))
    print("log bytes written: done %d, over %d, late %d" % tuple(
        cases.counts["log byte", byte] for byte in (1, 2, 3)))
    print("states handed in %d, log checks %d" % (cases.counts["state"], cases.counts["log check"]))
    print("read: entries %d, refusals %d, log bytes %d" % tuple(
        cases.counts[what] for what in ("entry", "refusal", "logged")))
    print("run-times with a tick cost: accepted %d, refused %d" % tuple(
        cases.counts["tick cost", 1, refusal] for refusal in (0, 17)))
    print("drives to the cycle's end: %d" % cases.counts["whole drives"])
    places = ["%d: %d" % (n, cases.counts["clash at", n]) for n in range(2, 17)]
    print("clashes by place %s" % ", ".join(places))
    print("clashes after a multiple that is no period: %d" % cases.counts["clash of several"])
    for trait in QUICK_TRAITS:
        print("quick questions, %s: %d" % (trait, cases.counts["quick trait", trait]))
    for trait in FILE_TRAITS:
        print("files, %s: %d" % (trait, cases.counts["file trait", trait]))
    report_deadlines(cases.counts)


def report_deadlines(counts):
    print("of these with deadlines ahead of the period:")
    for what in ("list", "build", "start", "step", "drive", "quick", "write", "read", "explain"):
        parts = ["%d: %d" % (r, counts["due", what, r]) for r in range(256) if counts["due", what, r]]
        print("%s, by refusal %s" % (what, ", ".join(parts)))
    for trait in LIST_TRAITS:
        print("lists, %s: %d" % (trait, counts["list trait", trait]))
    for trait in STATE_TRAITS:
        print("states, %s: %d" % (trait, counts["state trait", trait]))
    for trait in STEP_TRAITS:
        both = tuple(counts["step trait", mode, trait] for mode in (TABLE, FILLING))
        print("steps, %s: by the table %d, filling %d" % (trait, *both))
    for trait in QUICK_TRAITS + DUE_QUICK_TRAITS:
        print("quick questions, %s: %d" % (trait, counts["due", "quick trait", trait]))
    print("deadlines converted: exactly %d, rounded down %d, refused %d" % tuple(
        counts["deadline converted", refusal, exact] for refusal, exact in ((0, True), (0, False), (17, 0))))


def main(arguments):
    if len(arguments) == 2 and arguments[0] == "--check":
        with open(arguments[1], "rb") as file:
            kept = file.read()
        made = bytes(all_cases().out)
        if made != kept:
            both = min(len(made), len(kept))
            at = next((j for j in range(both) if made[j] != kept[j]), both)
            print("differs from byte %d on" % at)
            return 1
        print("the same %d bytes" % len(made))
        return 0
    if len(arguments) != 1 or arguments[0].startswith("-"):
        print(__doc__)
        return 2
    cases = all_cases()
    with open(arguments[0], "wb") as file:
        file.write(cases.out)
    report(cases)
    return 0


if __name__ == "__main__":
    sys.exit(main(sys.argv[1:]))
