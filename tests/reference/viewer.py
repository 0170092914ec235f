"""A run on the logic viewer (request No. 4), worked the slow and obvious way.

The text of a run is written out line by line. Which files are good, and how far another one goes along with
a good one, is worked out from that text: a file is good if the run that it seems to show has just this text.
The needs that lead to a run are counted in it, and tried. On small numbers both are held to brute force: to
all texts there are, and to all needs. Run by itself, this file does that.
"""

import bisect
import itertools
import random
import re
from collections import namedtuple

import model
from model import FILLING, FINISHED, LONGEST, MOST_TASKS, WORKING, bare

# What a call comes to. Given: refusal 0, and how many bytes, entries or needs. A no: NO and 0. Refused: the
# task, of 18 the place; margin, reached and period are the list's.
Viewed = namedtuple("Viewed", "refusal number margin reached period", defaults=(0, 0, 0, 0))
NO = 255


# The text


HEADER = b"".join(line + b"\n" for line in (
    b"$timescale 1 us $end", b"$scope module ozhmandil $end", b"$var wire 5 ! task $end",
    b"$upscope $end", b"$enddefinitions $end",
))


def time_line(t):
    return b"#%04d\n" % t


def value_line(entry):
    return b"b" + format(entry, "05b").encode() + b" !\n"


def text(run):
    """The file that shows who ran in each slice."""
    lines, t = [HEADER], 0
    for entry, slices in itertools.groupby(run):
        lines += [time_line(t), value_line(entry)]
        t += len(list(slices))
    return b"".join(lines + [time_line(t)])


LONGEST_TEXT = len(HEADER) + 15 * LONGEST + 6  # a change in every slice


# Good files, and the place of 18


CHANGE = rb"#([0-9]{4})\nb([01]{5}) !\n"
SHOWN = re.compile(re.escape(HEADER) + b"((?:" + CHANGE + b")*)#([0-9]{4})\n")


def run_of(file, longest=LONGEST, top=MOST_TASKS):
    """The run whose text this is, or None."""
    shown = SHOWN.fullmatch(file)
    if not shown:
        return None
    run, entry = [], 0
    for time, value in re.findall(CHANGE, shown.group(1)) + [(shown.group(4), b"0")]:
        run += [entry] * (int(time) - len(run))
        entry = int(value, 2)
    good = 1 <= len(run) <= longest and max(run) <= top
    return run if good and text(run) == file else None


def common(a, b):
    """How many first bytes are the same."""
    least = min(len(a), len(b))
    return least if a[:least] == b[:least] else next(n for n in range(least) if a[n] != b[n])


def nearest(file, texts):
    """The longest beginning shared with one of these texts, which are sorted: a neighbour has it."""
    at = bisect.bisect(texts, file)
    return max(common(file, other) for other in texts[max(at - 1, 0) : at + 1])


TIMES = [time_line(t) for t in range(LONGEST + 1)]
TIME_OF = {line: t for t, line in enumerate(TIMES)}
VALUES = [value_line(entry) for entry in range(MOST_TASKS + 1)]


def place(file, longest=LONGEST, top=MOST_TASKS):
    """The length of the longest beginning that the file shares with a good one: line by line, the best of all
    that can stand there."""
    at = common(file, HEADER)
    if at < len(HEADER):
        return at
    times, before = range(1), None  # the slices whose number may stand next, and the entry before
    while True:
        here = file[at : at + 6]
        t = TIME_OF.get(here)
        if t not in times:
            return at + nearest(here, TIMES[times.start : times.stop])
        at += 6
        others = [entry for entry in range(top + 1) if entry != before]
        if t == longest or not others:
            return at  # the end mark, for certain
        here = file[at : at + 9]
        entry = max(others, key=lambda other: common(here, VALUES[other]))
        at += common(here, VALUES[entry])
        if here != VALUES[entry]:
            return at
        times, before = range(t + 1, longest + 1), entry


# Needs


def counted(tasks, cycle, run):
    """What the run gives each job between its release and the next one, in the log's order."""
    return [
        run[release : release + task.period].count(number)
        for number, task in enumerate(tasks, 1)
        for release in range(0, cycle, task.period)
    ]


def filled(tasks, cycle, needs):
    """Who runs in each slice of the filling run with these needs, which lie as the log does."""
    jobs = model.jobs_of(tasks, cycle)
    flat = [job for row in jobs for job in row]
    for job, need in zip(flat, needs):
        job.takes = min(need, job.runtime)  # a job that needs more is closed at its run-time
    order, run = model.ranking(tasks), []
    for t in range(cycle):
        job = model.first_waiting(tasks, jobs, order, t)
        if job:
            job.serve(t)
        run.append(job.i + 1 if job else 0)
    return run


def filled_by_steps(tasks, needs):
    """The same by start and steps."""
    log = bytearray(len(needs))
    _, state = model.start(tasks, 0, FILLING, 0, log)
    run = []
    while state.position < state.cycle:
        runs = model.who(state, b"")[1]
        report = WORKING
        if runs and state.places[runs - 1].used + 1 == needs[model.log_place(state, runs - 1)]:
            report = FINISHED
        refusal, state = model.step(state, b"", log, state.clock + 1, report)
        assert refusal == 0
        run.append(runs)
    return run


def needs_for(tasks, cycle, run):
    """The needs that lead the filling run to this one, or None. Only what the run gives each job can be."""
    needs = counted(tasks, cycle, run)
    runtimes = [task.runtime for task in tasks for _ in range(0, cycle, task.period)]
    if any(not 1 <= need <= runtime for need, runtime in zip(needs, runtimes)):
        return None
    return needs if filled(tasks, cycle, needs) == list(run) else None


# The three calls. What is lent is a bytearray, or a list of needs.


def list_refused(tasks, supply):
    answer = model.verdict(tasks, supply)
    numbers = answer.refusal, answer.task, answer.margin, answer.reached, answer.period
    return answer.refusal and Viewed(*numbers)


def run_refused(tasks, supply, run):
    """19 and 30, for an accepted list."""
    if len(run) != model.verdict(tasks, supply).cycle:
        return Viewed(19)
    return any(entry > len(tasks) for entry in run) and Viewed(30)


def file_refused(tasks, supply, file):
    """All that comes before 31."""
    refused = list_refused(tasks, supply)
    if refused:
        return refused
    run = run_of(file)
    return Viewed(18, place(file)) if run is None else run_refused(tasks, supply, run)


def given(what, lent):
    if len(lent) < len(what):
        return Viewed(31)
    lent[: len(what)] = what
    return Viewed(0, len(what))


def write(tasks, supply, run, out):
    refused = list_refused(tasks, supply) or run_refused(tasks, supply, run)
    return refused or given(text(run), out)


def read(tasks, supply, file, out):
    return file_refused(tasks, supply, file) or given(run_of(file), out)


def explain(tasks, supply, file, out):
    refused = file_refused(tasks, supply, file)
    if refused:
        return refused
    answer = model.verdict(tasks, supply)
    if len(out) < answer.jobs:
        return Viewed(31)
    needs = needs_for(tasks, answer.cycle, run_of(file))
    return Viewed(NO) if needs is None else given(needs, out)


# Brute force


def damaged(file, start, dice):
    """The file with bytes from this one on changed, left out, put in, cut off, and with more put behind."""
    signs = b"0123456789#b !\n$\r" + bytes([dice.randrange(256)])
    for at in range(start, len(file)):
        yield file[:at]
        yield file[:at] + file[at + 1 :]
        for sign in signs if at >= len(HEADER) else signs[-3:]:
            yield file[:at] + bytes([sign]) + file[at + 1 :]
            yield file[:at] + bytes([sign]) + file[at:]
    for more in (b"\n", b"#", b"#0", b"b", b"b00001 !\n", b"b10000", b"b11", file, file[len(HEADER) :]):
        yield file + more


def try_all_texts(longest, top, some):
    """Of all runs that are so long, with such entries, the texts; and of some of them the damaged ones."""
    dice = random.Random(longest * 100 + top)
    lengths, entries = range(1, longest + 1), range(top + 1)
    runs = [run for length in lengths for run in itertools.product(entries, repeat=length)]
    texts = {text(run): run for run in runs}
    assert len(texts) == len(runs)
    in_order, tried = sorted(texts), 0
    for file in dice.sample(in_order, min(some, len(in_order))) + in_order[-2:]:
        assert run_of(file, longest, top) == list(texts[file])
        for other in damaged(file, 0 if longest == 1 else len(HEADER) - 1, dice):
            run = run_of(other, longest, top)
            assert run == (list(texts[other]) if other in texts else None), other
            at = place(other, longest, top)
            assert at == nearest(other, in_order), (other, longest, top)
            if tried % 500 == 0:
                assert at == max(common(other, good) for good in in_order)
            tried += 1
    return tried


def try_all_needs(tasks, cycle):
    """Every need from 1 to one above the run-time, for every job: the runs they lead to have needs, no others."""
    runtimes = [task.runtime for task in tasks for _ in range(0, cycle, task.period)]
    leading = {}
    for needs in itertools.product(*(range(1, runtime + 2) for runtime in runtimes)):
        closed = [min(need, runtime) for need, runtime in zip(needs, runtimes)]
        assert leading.setdefault(tuple(filled(tasks, cycle, needs)), closed) == closed
    if (len(tasks) + 1) ** cycle <= 800:
        runs = list(itertools.product(range(len(tasks) + 1), repeat=cycle))
    else:  # what is one entry away from those
        runs = {
            run[:t] + (entry,) + run[t + 1 :]
            for run in list(leading)[:40] for t in range(cycle) for entry in range(len(tasks) + 1)
        }
    for run in runs:
        assert needs_for(tasks, cycle, list(run)) == leading.get(run), (tasks, run)
    run = sorted(leading)[len(leading) // 2]
    assert filled_by_steps(tasks, leading[run]) == list(run)
    return len(runs)


def small_lists():
    """Accepted lists of one to three tasks with a cycle of at most 8 and few enough needs to try: with deadlines at
    the period, at the run-time, and somewhere between."""
    dice = random.Random(6)
    for count in (1, 2, 3):
        for periods in itertools.product(range(1, 9), repeat=count):
            cycle = model.common_multiple(periods)
            if cycle is None or cycle > 8:
                continue
            for runtimes in itertools.product(*(range(1, period + 1) for period in periods)):
                tasks, tries = bare(*zip(periods, runtimes)), 1
                for period, runtime in zip(periods, runtimes):
                    tries *= (runtime + 1) ** (cycle // period)
                if sum(r * (cycle // p) for p, r in zip(periods, runtimes)) <= cycle and tries <= 300:
                    some = [tuple(dice.randint(c, t) for t, c in zip(periods, runtimes)) for _ in range(3)]
                    for deadlines in sorted({periods, runtimes, *some}):
                        due = bare(*zip(periods, runtimes, deadlines))
                        if model.verdict(due, 0).refusal == 0:
                            yield due, cycle


# The words of the request, and its numbers


def places_by_hand():
    """(file, place), by thought: what may follow decides."""

    def after(*changes):
        return HEADER + b"".join(time_line(t) + value_line(entry) for t, entry in changes)

    def cases(start, *rests):
        for rest in rests:
            good, bad = rest.split(b"|")
            yield start + good + bad, len(start + good)

    yield from cases(b"", b"|", b"|\n", b"$|T", HEADER[:50] + b"|", HEADER[:50] + b"|*")
    yield from cases(
        HEADER, b"|", b"|b00001 !\n", b"#|1", b"#000|1\n", b"#0000|", b"#0000\n|#0001\n", b"#0000\nb1|1")
    yield from cases(
        after((0, 3)), b"|", b"#000|0", b"#0001|", b"#0001\nb0001|1", b"#0001\nb1000|1", b"#0001\nb00010 |0")
    # times rise and end at 4,096
    yield from cases(
        after((0, 0), (15, 1)), b"#001|2", b"#001|5", b"#0016|", b"#002|", b"#01|", b"#00|0", b"#|5")
    yield from cases(after((0, 0), (999, 1)), b"#|0", b"#1|", b"#1000|", b"#10|")
    yield from cases(
        after((0, 0), (4095, 1)), b"#409|5", b"#409|7", b"#4096|", b"#4096\n|b", b"#4096\n|\n", b"#40|8", b"#4|1")
    yield from cases(after((0, 5)), b"#409|7\n", b"#40|", b"#4|1", b"#|5", b"#4096\n|#", b"#4095\n|#4096\n")
    # a value that is none, or none other
    yield from cases(after((0, 16)) + b"#0001\n", b"b|1", b"b0|", b"b01111 !\n|")
    yield from cases(
        after((0, 1)) + b"#0001\n", b"b0000|1", b"b1|1", b"b10|1", b"b1000|1", b"b00000 |", b"b00000 !|\r")
    # more behind a good file: its length, or further if that begins a change
    yield from cases(
        text([1, 2]), b"|\n", b"|#0003\n", b"b|", b"b0000|", b"b0001|0", b"b00011 !\n|", b"b00011 !\n#000|1")


def self_test():
    assert len(HEADER) == 109 and len(text([1, 2] * 2048)) == LONGEST_TEXT == 61555
    assert text([1, 2, 2, 0]) == HEADER + (
        b"#0000\nb00001 !\n#0001\nb00010 !\n#0003\nb00000 !\n#0004\n")
    by_hand = 0
    for file, at in places_by_hand():
        assert run_of(file) is None and place(file) == at, (file[109:], at, place(file))
        by_hand += 1
    for run in ([0], [16], [3] * 4096, [0, 16] * 2048, list(range(17)) * 200):
        assert run_of(text(run)) == run and run_of(text(run) + b"\n") is None
    assert all(run_of(file) is None for file in (text([1] * 4097), text([17]), HEADER + b"#0000\n"))
    assert place(text([1] * 4097)) == len(text([1] * 4097)) - 2
    texts = sum(try_all_texts(*sizes) for sizes in (
        (1, 16, 4), (2, 16, 6), (3, 2, 6), (3, 16, 4), (11, 1, 4), (101, 0, 6), (1001, 0, 3), (LONGEST, 0, 2)))
    runs = sum(try_all_needs(*small) for small in small_lists())
    # The run on A: filling, its needs are found again but for the one above its run-time; by the table, none.
    run = filled(model.LIST_A, 12, [1, 1, 1, 1, 5, 3])
    assert run == filled_by_steps(model.LIST_A, [1, 1, 1, 1, 5, 3])
    needs, entries = [9] * 7, bytearray(b"\xaa" * 13)
    assert explain(model.LIST_A, 0, text(run), needs) == Viewed(0, 6) and needs == [1, 1, 1, 1, 2, 3, 9]
    assert read(model.LIST_A, 0, text(run), entries) == Viewed(0, 12) and list(entries) == run + [0xAA]
    by_table = [1, 2, 0, 3, 1, 3, 2, 2, 1, 3, 0, 0]
    assert explain(model.LIST_A, 0, text(by_table), needs) == Viewed(NO)
    assert explain(model.LIST_A, 0, text(by_table), [9] * 5) == Viewed(31)  # before the no
    # Ranked by deadline: what explains one list explains the other no more. Nobody runs past a deadline.
    due, table = model.DUE[0][0], model.DUE[0][2]
    assert explain(due, 0, text(table), needs) == Viewed(0, 6) and needs == [1, 1, 1, 2, 2, 3, 9]
    assert explain(model.LIST_A, 0, text(table), needs) == Viewed(NO)
    assert explain(bare((4, 2, 2)), 0, text([1, 0, 1, 0]), [9]) == Viewed(NO)
    # Orders of refusal.
    assert read(model.LIST_C, 0, b"", bytearray()) == Viewed(7, 2, -1)
    assert explain(bare((64, 1), (65, 1)), 0, b"", []) == Viewed(6, 2, 0, 64, 65)
    assert write(bare((64, 1), (65, 1, 66)), 0, [], bytearray()) == Viewed(20, 2)
    assert read(model.LIST_A, 0, text([16] * 11) + b"x", bytearray()) == Viewed(18, 130)
    assert read(model.LIST_A, 0, text([16] * 11), bytearray()) == Viewed(19)
    assert read(model.LIST_A, 0, text([16] * 12), bytearray()) == Viewed(30)
    assert write(model.LIST_A, 0, [17] * 13, bytearray()) == Viewed(19)
    assert write(model.LIST_A, 0, [17] * 12, bytearray()) == Viewed(30)
    out = bytearray(len(text(run)))
    assert write(model.LIST_A, 0, run, out[1:]) == Viewed(31)
    assert write(model.LIST_A, 0, run, out) == Viewed(0, len(out)) and out == text(run)
    print("viewer: %d places by hand, %d damaged files among all texts, %d runs among all needs:"
          " all as the paper says" % (by_hand, texts, runs))


if __name__ == "__main__":
    self_test()
