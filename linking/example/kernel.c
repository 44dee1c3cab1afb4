/*
 * A kernel in C over the drive object: three tasks take turns, one step to a turn, over the flag object. Task 0 is a
 * console, which writes commands into its window and reads there what came of them. Task 1 is stopped for good inside
 * an operation, with its mark in the head; a lock would be held there for ever. The others end all of their operations
 * all the same.
 *
 * usage: kernel TABLE_FILE
 */
#include <inttypes.h>
#include <stdio.h>
#include <stdlib.h>
#include <string.h>

#include "../drive_object.h"

enum { TASKS = 3, MOST_OPERATIONS = 4 };

/* The flag object's operations: the response is the old state. */
enum { READ, SET, CLEAR };

/* The task that works through its window, and calls nothing. */
enum { CONSOLE = 0 };

/* The bytes of a window that the console uses, its commands, and the bits of its status. */
enum { OPERATION, COMMAND, STATUS, RESPONSE, REFUSAL };
enum { BEGIN = 1, STEP = 2, ACKNOWLEDGE = 3 };
enum { BUSY = 1 << 0, DONE = 1 << 1, REFUSED = 1 << 2, MOVED = 1 << 3 };

/* The task that is stopped in its last operation, as soon as it has its mark in the head. */
enum { STOPPED = 1 };

/* The task whose record is kept apart from the row, as a kernel may do with each. */
enum { APART = 2 };

/* The operations of each task, in order. Only the task that is stopped sets the flag. */
static const struct {
    size_t count;
    size_t operations[MOST_OPERATIONS];
} programs[TASKS] = {
    {4, {CLEAR, READ, CLEAR, CLEAR}},
    {2, {SET, SET}},
    {4, {READ, CLEAR, READ, CLEAR}},
};

/* What the library is lent, and what the kernel knows of its tasks. */
struct kernel {
    uint8_t file[DRIVE_LONGEST_FILE + 1];
    size_t file_length;
    uint64_t cells[TASKS + 1];
    drive_task row[TASKS];
    drive_task apart;
    uint8_t windows[TASKS * DRIVE_WINDOW_BYTES];
    uint32_t ceiling;
    size_t ended[TASKS];
    uint32_t own_steps[TASKS];
    bool pending[TASKS];
    bool stopped;
    unsigned raised;
    unsigned lowered;
};

static void expect(bool fact, const char *what) {
    if (!fact) {
        fprintf(stderr, "kernel: %s\n", what);
        exit(EXIT_FAILURE);
    }
}

static void expect_accepted(uint64_t answer, const char *call) {
    unsigned refusal = drive_answer_refusal(answer);
    if (refusal != 0) {
        fprintf(stderr, "kernel: %s is refused with %u\n", call, refusal);
        exit(EXIT_FAILURE);
    }
}

static void read_file(struct kernel *kernel, const char *path) {
    FILE *file = fopen(path, "rb");
    expect(file != NULL, "the table can't be opened");
    kernel->file_length = fread(kernel->file, 1, sizeof kernel->file, file);
    fclose(file);
}

/* The ring desk writes the flag too: it is the table of a drive of one ring, which build sets and take out clears. */
static void expect_drive_of_one_ring(const struct kernel *kernel) {
    enum { LENGTH = 1500 };
    static const uint32_t rings[DRIVE_RING_WORDS] = {LENGTH, DRIVE_KEY};
    static uint8_t room[DRIVE_LONGEST_RING_TABLE];
    uint64_t written = desk_table(rings, DRIVE_RING_WORDS, room, sizeof room);
    expect_accepted(written, "the desk's table");
    expect(drive_answer_length(written) == kernel->file_length && memcmp(room, kernel->file, kernel->file_length) == 0,
           "the table is not that of one ring");
    uint64_t owner = desk_owner(rings, DRIVE_RING_WORDS, LENGTH);
    expect_accepted(owner, "the desk's owner");
    expect(drive_answer_ring(owner) == 1, "a key ring does not own its end");
}

static void start(struct kernel *kernel) {
    uint64_t checked = drive_check(kernel->file, kernel->file_length);
    expect_accepted(checked, "check");
    expect_drive_of_one_ring(kernel);
    uint64_t ceiling = drive_ceiling(TASKS);
    expect_accepted(ceiling, "ceiling");
    kernel->ceiling = drive_answer_ceiling(ceiling);
    expect_accepted(
        drive_start(kernel->file, kernel->file_length, kernel->cells, TASKS + 1, kernel->row, TASKS), "start");
    kernel->apart = kernel->row[APART];
    printf("%d tasks, %u states, %u operations, ceiling %" PRIu32 "\n", TASKS, (unsigned)drive_answer_states(checked),
           (unsigned)drive_answer_operations(checked), kernel->ceiling);
}

/* The state that an operation of the flag leads to. */
static unsigned next_state(size_t operation, unsigned state) {
    switch (operation) {
    case SET:
        return 1;
    case CLEAR:
        return 0;
    default:
        return state;
    }
}

/* The flag is raised by a set that answers 0 and lowered by a clear that answers 1. */
static void note_end(struct kernel *kernel, size_t task, size_t operation, unsigned response, bool moved) {
    expect(moved == (next_state(operation, response) != response), "the answer is wrong about whether the flag moved");
    kernel->ended[task] += 1;
    kernel->raised += operation == SET && response == 0;
    kernel->lowered += operation == CLEAR && response == 1;
    printf("task %zu operation %zu answers %u, %s, own steps %" PRIu32 "%s\n", task, operation, response,
           moved ? "moved" : "not moved", kernel->own_steps[task], task == CONSOLE ? ", by its window" : "");
}

static void note_stop(struct kernel *kernel, size_t task, size_t operation) {
    expect(kernel->pending[task], "an idle task has its mark in the head");
    kernel->stopped = true;
    printf("task %zu operation %zu stopped, own steps %" PRIu32 ", head %016" PRIx64 "\n", task, operation,
           kernel->own_steps[task], kernel->cells[0]);
}

static uint64_t begin(struct kernel *kernel, size_t task, size_t operation) {
    if (task == APART) {
        return drive_begin_record(kernel->file, kernel->file_length, TASKS, task, operation, &kernel->apart);
    }
    return drive_begin(kernel->file, kernel->file_length, kernel->row, TASKS, task, operation);
}

static uint64_t step(struct kernel *kernel, size_t task) {
    if (task == APART) {
        return drive_step_record(kernel->file, kernel->file_length, kernel->cells, TASKS + 1, TASKS, task,
                                 &kernel->apart);
    }
    return drive_step(kernel->file, kernel->file_length, kernel->cells, TASKS + 1, kernel->row, TASKS, task);
}

static void count_step(struct kernel *kernel, size_t task) {
    kernel->own_steps[task] += 1;
    expect(kernel->own_steps[task] <= kernel->ceiling, "an operation passes the ceiling");
}

/* Begins the task's next operation if it is idle, and makes one step. A real kernel closes switching around both. */
static void turn_of(struct kernel *kernel, size_t task) {
    size_t operation = programs[task].operations[kernel->ended[task]];
    if (!kernel->pending[task]) {
        expect_accepted(begin(kernel, task, operation), "begin");
        kernel->pending[task] = true;
        kernel->own_steps[task] = 0;
    }
    uint64_t answer = step(kernel, task);
    expect_accepted(answer, "step");
    count_step(kernel, task);
    if (drive_answer_ended(answer)) {
        uint32_t steps = drive_answer_steps(answer);
        expect(steps == kernel->own_steps[task], "the answered count is not the number of steps");
        kernel->pending[task] = false;
        note_end(kernel, task, operation, drive_answer_response(answer), drive_answer_moved(answer));
    }
    bool in_last = kernel->ended[task] + 1 == programs[task].count;
    bool marked = kernel->cells[0] >> task & 1;
    if (task == STOPPED && in_last && marked) {
        note_stop(kernel, task, operation);
    }
}

static uint8_t *console_window(struct kernel *kernel) {
    return kernel->windows + CONSOLE * DRIVE_WINDOW_BYTES;
}

/* The console writes a command, and the kernel makes the window call, with switching closed. */
static uint64_t command(struct kernel *kernel, uint8_t number) {
    console_window(kernel)[COMMAND] = number;
    return drive_window(kernel->file, kernel->file_length, kernel->cells, TASKS + 1, kernel->row, TASKS,
                        kernel->windows, sizeof kernel->windows, CONSOLE);
}

static void expect_line(const struct kernel *kernel, bool up, const char *what) {
    uint64_t line = drive_window_line(kernel->windows, sizeof kernel->windows, TASKS, CONSOLE);
    expect_accepted(line, "the line");
    expect(drive_answer_line(line) == up, what);
}

/* The console finds the line up, and after its acknowledge down. */
static void acknowledge(struct kernel *kernel) {
    expect_line(kernel, true, "the line is down while an interrupt waits");
    expect_accepted(command(kernel, ACKNOWLEDGE), "acknowledge");
    expect_line(kernel, false, "the line is up after the acknowledge");
}

/* The console asks for a step before it has begun anything, and reads in its window why that is refused. */
static void step_too_early(struct kernel *kernel) {
    const uint8_t *window = console_window(kernel);
    expect(drive_answer_refusal(command(kernel, STEP)) == window[REFUSAL], "the window has another refusal");
    expect(window[STATUS] & REFUSED, "the window does not say that a command was refused");
    printf("task %d step refused with %u, by its window\n", CONSOLE, (unsigned)window[REFUSAL]);
    acknowledge(kernel);
}

/* A turn of the console, which sees its window alone. That has no byte for its steps, so it counts them. */
static void turn_of_console(struct kernel *kernel) {
    uint8_t *window = console_window(kernel);
    size_t operation = programs[CONSOLE].operations[kernel->ended[CONSOLE]];
    if (!(window[STATUS] & BUSY)) {
        window[OPERATION] = (uint8_t)operation;
        expect_accepted(command(kernel, BEGIN), "begin by the window");
        kernel->own_steps[CONSOLE] = 0;
    }
    expect_accepted(command(kernel, STEP), "step by the window");
    count_step(kernel, CONSOLE);
    if (window[STATUS] & DONE) {
        note_end(kernel, CONSOLE, operation, window[RESPONSE], window[STATUS] & MOVED);
        acknowledge(kernel);
    }
}

/* A turn of every task that is neither stopped nor done; no, if there is none. */
static bool turn(struct kernel *kernel) {
    bool any = false;
    for (size_t task = 0; task < TASKS; task++) {
        bool stands_still = task == STOPPED && kernel->stopped;
        if (stands_still || kernel->ended[task] == programs[task].count) {
            continue;
        }
        any = true;
        if (task == CONSOLE) {
            turn_of_console(kernel);
        } else {
            turn_of(kernel, task);
        }
    }
    return any;
}

/* How often the stopped set was applied: the flag was raised as often as it was lowered, and once more if it is up. */
static void close_run(const struct kernel *kernel) {
    expect(kernel->stopped, "no task was stopped");
    unsigned state = kernel->cells[0] >> 8 & 0xff;
    unsigned applied = kernel->lowered + state - kernel->raised;
    expect(applied <= 1, "the stopped operation is applied more than once");
    printf("cells");
    for (size_t cell = 0; cell < TASKS + 1; cell++) {
        printf(" %016" PRIx64, kernel->cells[cell]);
    }
    printf("\nstopped operation applied: %u\n", applied);
}

int main(int count, char **words) {
    static struct kernel kernel;
    expect(count == 2, "usage: kernel TABLE_FILE");
    read_file(&kernel, words[1]);
    start(&kernel);
    step_too_early(&kernel);
    while (turn(&kernel)) {
    }
    close_run(&kernel);
    return EXIT_SUCCESS;
}
