// The scheduler in plain C, to be measured beside the proved one: what it takes and what it answers.
#pragma once

// The kit has a compiler and a C library, but no headers.
typedef unsigned char u8;
typedef __UINT32_TYPE__ u32;
typedef __UINT64_TYPE__ u64;
typedef __INT32_TYPE__ i32;
typedef __SIZE_TYPE__ usize;

enum { MOST_TASKS = 16, MOST_SLICES = 4096 };

// Period, run-time and deadline in slices, the deadline counted from the release; sample memory in words.
struct task {
    u32 period, runtime, memory, deadline;
};

// A verdict, a quick answer or a start: refusal number (0: accepted), margin, cycle, job count, for refusal 6 the multiple reached before the
// task and its period, and task.
struct answer {
    u32 number;
    i32 margin;
    u32 cycle;
    u32 jobs;
    u32 reached;
    u32 period;
    usize task;
};

enum mode { BY_TABLE, FILLING, UNNAMED };

// A task in a run: its period, deadline and run-time, the slices that its current job has used, and whether that job has ended.
struct place {
    u32 period, deadline, runtime, used;
    _Bool ended;
};

struct state {
    struct place places[MOST_TASKS];
    usize count;
    u32 cycle, position, clock;
    enum mode mode;
};

// Who runs: a refusal number, or the task (0: idle).
struct runner {
    u32 number;
    u32 task;
};

// What a call of the viewer's comes to: refused as by a verdict (number 0: not; the task of 18 is its place), or no, or so much was written.
struct viewed {
    u32 number;
    i32 margin;
    u32 reached;
    u32 period;
    usize task;
    usize given;
    u32 no;
};

// A list from numbers, four a task, as both sides are given it: the first 16 tasks, and how many there are.
usize plain_list(const u32 *numbers, usize length, struct task *tasks);
struct answer plain_judge(const struct task *tasks, usize count, u32 supply);
struct answer plain_quick(const struct task *tasks, usize count, u32 supply);
struct answer plain_build(const struct task *tasks, usize count, u32 supply, u8 *table, usize length);
struct answer plain_start(const struct task *tasks, usize count, u32 supply, enum mode mode, u32 clock, u8 *log, usize length,
                          struct state *state);
struct runner plain_who(const struct state *state, const u8 *table, usize length);
u32 plain_step(struct state *state, const u8 *table, usize length, u8 *log, usize log_length, u32 clock, u8 report);

// What the border to the proved library does in one call, here likewise: a start, then who runs in each slice of the cycle, no
// job having ended, added up; or a step for each report, up to the first refusal, whose number is the answer.
usize plain_whos(const struct task *tasks, usize count, u32 supply, enum mode mode, const u8 *table, usize length, u8 *log,
                 usize log_length);
u32 plain_steps(const struct task *tasks, usize count, u32 supply, enum mode mode, u32 clock, const u8 *table, usize length,
                u8 *log, usize log_length, const u8 *reports, usize steps);

// A run as a Value Change Dump (docs/VCD.md): written, read back, and explained by needs. The text alone, of 1 to 4,096 entries, needs no list.
usize plain_text(const u8 *run, usize slices, u8 *out);
struct viewed plain_vcd_write(const struct task *tasks, usize count, u32 supply, const u8 *run, usize length, u8 *out, usize room);
struct viewed plain_vcd_read(const struct task *tasks, usize count, u32 supply, const u8 *file, usize length, u8 *out, usize room);
struct viewed plain_vcd_explain(const struct task *tasks, usize count, u32 supply, const u8 *file, usize length, u32 *needs, usize room);
