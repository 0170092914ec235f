"""The sheets of the bench's two lists, worked by the model and compared with what the programs store;
and the numbers that docs/BENCH.md gives of other tick costs and of two chambers.

The lists are read from examples/, the microseconds and the needs stand here as the programs have them.
"""

import csv
import os

import model

HERE = os.path.dirname(os.path.abspath(__file__))
ROOT = os.path.join(HERE, "..", "..")
NAMES = ["positioner", "power meter", "sweep", "link watch", "log writer"]
WORDS = {0: "none", 1: "done", 2: "over", 3: "late"}
SLICE = 500
TICK = 20
SUPPLY = 65536

# name: (period and run-time in microseconds), needs
SHEETS = {
    "night": (
        [(20000, 2800), (10000, 2000), (40000, 11900), (5000, 350), (80000, 5800)],
        [[5, 4, 4, 3], [3, 3, 3, 3, 3, 6, 3, 3], [22, 27], [1] * 16, [9]],
    ),
    "calibration": (
        [(10000, 1900), (7500, 2000), (30000, 6750), (6000, 350), (60000, 2700)],
        [[3, 3, 2, 3, 7, 3], [5, 3, 3, 3, 5, 3, 3, 3], [12, 16], [1] * 10, [5]],
    ),
}


def example(name):
    with open(os.path.join(ROOT, "examples", name + ".csv"), newline="") as file:
        return tuple(model.Task(*map(int, row)) for row in csv.reader(file))


def sheet(name):
    micros, needs = SHEETS[name]
    tasks = example(name)
    for task, (period, runtime) in zip(tasks, micros):
        assert model.period_in_slices(period, SLICE) == (0, task.period)
        assert model.deadline_in_slices(period, SLICE) == (0, task.deadline)  # the end of the period
        assert model.runtime_in_slices(runtime, SLICE, TICK) == (0, task.runtime)
    answer = model.verdict(tasks, SUPPLY)
    assert answer.refusal == 0
    # memory decides nothing but refusal 5, and the model's drive has no supply
    log, ends = model.drive([task._replace(memory=0) for task in tasks], model.TABLE, needs)
    lines = [
        "%s: 5 tasks in slices of %d microseconds, tick cost %d" % (name, SLICE, TICK),
        "cycle %d, jobs %d; tightest task %d %s, margin %d"
        % (answer.cycle, answer.jobs, answer.task, NAMES[answer.task - 1], answer.margin),
        "run by the table, slices closed %d" % answer.cycle,
    ]
    bytes_left = iter(log)
    for i, row in enumerate(ends):
        for k, end in enumerate(row):
            byte = next(bytes_left)
            lines.append("task %d %s, job %d: %d %s, ended at %d" % (i + 1, NAMES[i], k, byte, WORDS[byte], end))
    return "\n".join(lines) + "\n"


def accepted_with(name, tick_cost):
    runtimes = [model.runtime_in_slices(runtime, SLICE, tick_cost)[1] for _, runtime in SHEETS[name][0]]
    tasks = [task._replace(runtime=runtime) for task, runtime in zip(example(name), runtimes)]
    return model.verdict(tasks, SUPPLY).refusal == 0


def slower(task, times):
    return model.Task(times * task.period, task.runtime, task.memory, times * task.deadline)


def other_numbers():
    """Any tick cost up to 78 will do. Two chambers are too much at full and at half their pace, the link
    watch at its own; with the power meter of chamber 2 every 40 slices they are what the example has."""
    assert all(accepted_with(name, cost) for name in SHEETS for cost in range(79))
    assert not all(accepted_with(name, 79) for name in SHEETS)
    both = example("night") + example("calibration")
    assert model.verdict(both, SUPPLY) == model.refused(7, 6, -3)
    link_watch = NAMES.index("link watch")
    half = [slower(task, 1 if i % len(NAMES) == link_watch else 2) for i, task in enumerate(both)]
    assert model.verdict(half, SUPPLY) == model.refused(7, 3, -1)
    half[6] = half[6]._replace(period=40, deadline=40)
    assert tuple(half) == example("two-chambers")
    answer = model.verdict(half, SUPPLY)
    assert answer == model.Answer(0, 5, 5, 960, 281)
    table, jobs = model.slice_rule(half, answer.cycle)
    margins = [task.deadline - row[0].end for task, row in zip(half, jobs)]
    assert margins == [54, 33, 44, 9, 5, 28, 22, 60, 10, 81] and list(table).count(0) == 43


if __name__ == "__main__":
    for name in SHEETS:
        with open(os.path.join(ROOT, "crates", name, "stdout")) as file:
            assert file.read() == sheet(name), name
    other_numbers()
    print("sheets: %d stored sheets are as the model works them, and two chambers" % len(SHEETS))
