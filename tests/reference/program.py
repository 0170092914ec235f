"""The programs, the slow way, from the rules paper: bytes in, bytes out.

    python3 tests/reference/program.py < INPUT        prints what the program has to print
    python3 tests/reference/program.py quick < INPUT  prints what the quick one has to print
    python3 tests/reference/program.py vcd < INPUT    prints the dump
    python3 tests/reference/program.py explain LIST FILE
                                                      prints the needs
    python3 tests/reference/program.py --check DIR    holds every DIR/NAME.out, .quick and .vcd to what they
                                                      print for DIR/NAME.in, and every DIR/explain/NAME.expected
                                                      to what is printed for NAME.csv and NAME.vcd there
"""
import pathlib
import re
import sys

import model
import viewer

SUPPLY = 65536
FIELD = rb"(0|[1-9][0-9]{0,8})"
LINE = re.compile(FIELD + b"," + FIELD + b"," + FIELD + b"(?:," + FIELD + rb")?\Z")


def read(data):
    """((refusal, line) or None, tasks)."""
    if len(data) > 4096:
        return (16, 0), []
    lines = data.split(b"\r\n")
    if lines[-1] == b"":
        lines.pop()
    tasks = []
    for number, line in enumerate(lines, 1):
        match = LINE.match(line)
        if not match:
            return (15, number), []
        tasks.append(model.Task(*(int(field) for field in match.groups() if field is not None)))
    return None, tasks


def refusal(number, task, margin):
    return b"refusal,task,margin\r\n%d,%d,%d\r\n" % (number, task, margin)


def answer(data):
    not_in_form, tasks = read(data)
    if not_in_form:
        return refusal(*not_in_form, 0)
    table = bytearray(4096)
    verdict = model.build(tasks, SUPPLY, table)
    if verdict.refusal:
        return refusal(verdict.refusal, verdict.task, verdict.margin)
    return b"slice,task\r\n" + b"".join(b"%d,%d\r\n" % (t, table[t]) for t in range(verdict.cycle))


def quick_answer(data):
    not_in_form, tasks = read(data)
    return b"refusal,task\r\n%d,%d\r\n" % (not_in_form or model.quick(tasks, SUPPLY))


def vcd_answer(data):
    """The table of an accepted list, which is its filling run where every job takes its whole run-time."""
    not_in_form, tasks = read(data)
    if not_in_form:
        return refusal(*not_in_form, 0)
    verdict, table = model.plan(tasks, SUPPLY)
    if verdict.refusal:
        return refusal(verdict.refusal, verdict.task, verdict.margin)
    runtimes = [task.runtime for task in tasks for _ in range(verdict.cycle // task.period)]
    assert viewer.filled(tasks, verdict.cycle, runtimes) == table
    return viewer.text(table)


def explain_answer(data, file):
    not_in_form, tasks = read(data)
    if not_in_form:
        return refusal(*not_in_form, 0)
    needs = [0] * model.LONGEST
    viewed = viewer.explain(tasks, SUPPLY, file, needs)
    if viewed.refusal == viewer.NO:
        return b"no\r\n"
    if viewed.refusal:
        return refusal(viewed.refusal, viewed.number, viewed.margin)
    cycle = model.verdict(tasks, SUPPLY).cycle
    jobs = [(number, job) for number, task in enumerate(tasks, 1) for job in range(cycle // task.period)]
    assert len(jobs) == viewed.number
    records = [b"%d,%d,%d\r\n" % (*job, need) for job, need in zip(jobs, needs)]
    return b"task,job,need\r\n" + b"".join(records)


PROGRAMS = {".out": answer, ".quick": quick_answer, ".vcd": vcd_answer}


def stored_outputs(folder):
    """(where an output is stored, what it has to be)."""
    for case in sorted(folder.glob("*.in")):
        for suffix, program in PROGRAMS.items():
            yield case.with_suffix(suffix), program(case.read_bytes())
    for case in sorted(folder.glob("explain/*.csv")):
        file = case.with_suffix(".vcd").read_bytes()
        yield case.with_suffix(".expected"), explain_answer(case.read_bytes(), file)


def check(folder):
    count, wrong = 0, 0
    for stored, wanted in stored_outputs(pathlib.Path(folder)):
        count += 1
        if not stored.exists() or stored.read_bytes() != wanted:
            print(f"{stored.name}: the stored output is not what the paper asks for")
            wrong += 1
    print(f"{count} outputs of {len(PROGRAMS) + 1} programs, {wrong} wrong")
    return wrong == 0 and count > 0


if __name__ == "__main__":
    if sys.argv[1:2] == ["--check"]:
        sys.exit(0 if check(sys.argv[2]) else 1)
    if sys.argv[1:2] == ["explain"]:
        given = [pathlib.Path(name).read_bytes() for name in sys.argv[2:]]
        sys.stdout.buffer.write(explain_answer(*given))
    else:
        program = PROGRAMS["." + sys.argv[1] if sys.argv[1:] else ".out"]
        sys.stdout.buffer.write(program(sys.stdin.buffer.read()))
