/*
 * Runs the calls one instruction at a time, by the processor's trap flag, and prints for each call the most
 * instructions and the most bytes of stack that were met, and where the instructions were. What memset takes is not
 * counted: link with -Wl,--wrap=memset.
 */
#define _GNU_SOURCE
#include <inttypes.h>
#include <signal.h>
#include <stdio.h>
#include <stdlib.h>
#include <string.h>
#include <ucontext.h>
#include <x86intrin.h>

#include "../drive_object.h"

enum { TRAP_FLAG = 0x100, STATES = 256, OPERATIONS = 32, TEXT = 4096 };

/* The steps of each random run; and how many of those with the same number of tasks, the same phase before and the same
 * phase or refusal after are watched. */
enum { STEPS = 20000, SAMPLES = 8 };

/* The numbers of phases are below it. */
enum { PHASES = 88 };

/* By which calls the steps of a run are made. */
enum by { BY_ROW, BY_RECORD, BY_WINDOW, WAYS };

/* The states of a game of four moves whose turns end after all operations: whose turn it is, the moves left, and how it
 * ends. */
enum { OURS_4_LOST, THEIRS_3_LOST, OURS_2_LOST, OURS_2_WON, THEIRS_1_LOST, THEIRS_1_WON, TARGET, NO_TARGET };

/* Two bytes of a window, and two commands. */
enum { COMMAND_BYTE = 1, INTERRUPT_BYTE = 5, BEGIN_COMMAND = 1, STEP_COMMAND = 2 };

enum call {
    CHECK,
    CANONICAL,
    FORCE,
    START,
    BEGIN,
    STEP,
    BEGIN_RECORD,
    STEP_RECORD,
    WINDOW,
    WINDOW_LINE,
    CEILING,
    OWNER,
    TABLE,
    CALLS
};

static struct {
    const char *name;
    uint64_t instructions;
    uint64_t stack;
    const char *where;
} met[CALLS] = {
    [CHECK] = {.name = "drive_check"},
    [CANONICAL] = {.name = "drive_canonical"},
    [FORCE] = {.name = "drive_force"},
    [START] = {.name = "drive_start"},
    [BEGIN] = {.name = "drive_begin"},
    [STEP] = {.name = "drive_step"},
    [BEGIN_RECORD] = {.name = "drive_begin_record"},
    [STEP_RECORD] = {.name = "drive_step_record"},
    [WINDOW] = {.name = "drive_window"},
    [WINDOW_LINE] = {.name = "drive_window_line"},
    [CEILING] = {.name = "drive_ceiling"},
    [OWNER] = {.name = "desk_owner"},
    [TABLE] = {.name = "desk_table"},
};

/* The call that is watched. A stack pointer is 0 as long as it is not known. */
static volatile struct {
    uintptr_t entry;
    uintptr_t pointer; /* at the call's first instruction */
    uintptr_t lowest;
    uintptr_t outside; /* at memset's first instruction, until it returns */
    uint64_t count;
} watch;

/* Stands for memset in the archive's calls. */
void *__wrap_memset(void *memory, int byte, size_t length) {
    for (size_t at = 0; at < length; at++) {
        ((volatile uint8_t *)memory)[at] = (uint8_t)byte;
    }
    return memory;
}

/* Comes before every instruction while the flag is set. */
static void before_instruction(int signal, siginfo_t *information, void *context) {
    (void)signal;
    (void)information;
    greg_t *registers = ((ucontext_t *)context)->uc_mcontext.gregs;
    uintptr_t at = (uintptr_t)registers[REG_RIP];
    uintptr_t pointer = (uintptr_t)registers[REG_RSP];
    if (watch.pointer == 0 && at != watch.entry) {
        return;
    }
    if (watch.pointer == 0) {
        watch.pointer = watch.lowest = pointer;
    }
    if (pointer > watch.pointer) {
        registers[REG_EFL] &= ~TRAP_FLAG;
        return;
    }
    if (watch.outside != 0 && pointer <= watch.outside) {
        return;
    }
    watch.lowest = pointer < watch.lowest ? pointer : watch.lowest;
    watch.outside = at == (uintptr_t)__wrap_memset ? pointer : 0;
    watch.count += watch.outside == 0;
}

static void watch_for(uintptr_t entry) {
    watch.entry = entry;
    watch.pointer = watch.lowest = watch.outside = 0;
    watch.count = 0;
}

static void note(enum call call, const char *where) {
    uint64_t stack = watch.pointer + sizeof(void *) - watch.lowest;
    met[call].stack = stack > met[call].stack ? stack : met[call].stack;
    if (watch.count > met[call].instructions) {
        met[call].instructions = watch.count;
        met[call].where = where;
    }
}

/* Makes a call under watch. */
#define WATCHED(call, where, function, ...)        \
    do {                                           \
        watch_for((uintptr_t)function);            \
        __writeeflags(__readeflags() | TRAP_FLAG); \
        function(__VA_ARGS__);                     \
        note(call, where);                         \
    } while (0)

struct lent {
    uint64_t cells[DRIVE_MOST_TASKS + 1];
    drive_task row[DRIVE_MOST_TASKS];
    uint8_t windows[DRIVE_MOST_TASKS * DRIVE_WINDOW_BYTES];
    size_t tasks;
};

static uint8_t file[DRIVE_LONGEST_FILE];
static size_t file_length;

static void put(size_t at, unsigned number, size_t bytes) {
    for (size_t byte = 0; byte < bytes; byte++) {
        file[at + byte] = (uint8_t)(number >> 8 * byte);
    }
}

/* The largest table: operation 0 reads, operation o leads o states on. */
static void make_table(void) {
    size_t at = TEXT;
    for (unsigned entry = 0; entry < STATES * OPERATIONS; entry++, at += 2) {
        unsigned state = entry / OPERATIONS;
        put(at, (state + entry % OPERATIONS) % STATES, 1);
        put(at + 1, state, 1);
    }
    put(at, TEXT, 4);
    put(at + 4, STATES, 2);
    put(at + 6, OPERATIONS, 2);
    put(at + 8, 0, 2);
    memcpy(file + at + 10, "DRIVE1", 6);
    file_length = at + 16;
}

static uint64_t random_below(uint64_t limit) {
    static uint64_t state = 1;
    state ^= state << 13;
    state ^= state >> 7;
    state ^= state << 17;
    return state % limit;
}

/* Changes one bit of the task's record or of a cell. */
static void damage(struct lent *lent, size_t task) {
    size_t cell = random_below(2 * (lent->tasks + 1));
    uint8_t *bytes = cell <= lent->tasks ? (uint8_t *)&lent->cells[cell] : (uint8_t *)&lent->row[task];
    size_t length = cell <= lent->tasks ? sizeof *lent->cells : sizeof *lent->row;
    bytes[random_below(length)] ^= (uint8_t)(1 << random_below(8));
}

/* Whether few steps like this one were watched. */
static bool is_rare(enum by by, const struct lent *lent, size_t task) {
    static unsigned watched[DRIVE_MOST_TASKS + 1][WAYS][PHASES + 1][PHASES + DRIVE_CELL + 1];
    struct lent after = *lent;
    uint64_t answer = drive_step(file, file_length, after.cells, lent->tasks + 1, after.row, lent->tasks, task);
    unsigned refusal = drive_answer_refusal(answer);
    uint32_t phase = lent->row[task].phase;
    size_t before = phase < PHASES ? phase : PHASES;
    size_t outcome = refusal != 0 ? PHASES + refusal : after.row[task].phase;
    return watched[lent->tasks][by][before][outcome]++ < SAMPLES;
}

/* Makes the command that is put into the task's window, whose operation is 0. */
static void command(struct lent *lent, size_t task, uint8_t number, const char *where) {
    size_t tasks = lent->tasks;
    size_t length = tasks * DRIVE_WINDOW_BYTES;
    lent->windows[task * DRIVE_WINDOW_BYTES + COMMAND_BYTE] = number;
    WATCHED(WINDOW, where, drive_window, file, file_length, lent->cells, tasks + 1, lent->row, tasks, lent->windows,
            length, task);
}

static void step(enum by by, struct lent *lent, size_t task, const char *where) {
    size_t tasks = lent->tasks;
    drive_task *own = &lent->row[task];
    if (!is_rare(by, lent, task)) {
        drive_step(file, file_length, lent->cells, tasks + 1, lent->row, tasks, task);
    } else if (by == BY_RECORD) {
        WATCHED(STEP_RECORD, where, drive_step_record, file, file_length, lent->cells, tasks + 1, tasks, task, own);
    } else if (by == BY_WINDOW) {
        command(lent, task, STEP_COMMAND, where);
    } else {
        WATCHED(STEP, where, drive_step, file, file_length, lent->cells, tasks + 1, lent->row, tasks, task);
    }
}

/* A run in random order; every step is made on a damaged copy too. */
static void random_run(enum by by, size_t tasks) {
    struct lent lent = {.tasks = tasks};
    drive_start(file, file_length, lent.cells, tasks + 1, lent.row, tasks);
    for (size_t made = 0; made < STEPS; made++) {
        size_t task = random_below(tasks);
        if (lent.row[task].phase == 0) {
            drive_begin(file, file_length, lent.row, tasks, task, random_below(4));
        }
        struct lent damaged = lent;
        damage(&damaged, task);
        step(by, &damaged, task, "a step after one bit of a run was changed");
        step(by, &lent, task, "a step of a random run");
    }
}

/* The state that operation 0 moves is met last, so that begin looks at all states before it calls the operation changing. */
static void start_and_begins(size_t tasks) {
    const char *where = "an operation of the largest table that moves the state met last alone";
    struct lent lent = {.tasks = tasks};
    WATCHED(START, "the largest table", drive_start, file, file_length, lent.cells, tasks + 1, lent.row, tasks);
    drive_task own = lent.row[0];
    struct lent by_window = lent;
    uint8_t *next = &file[TEXT + 2 * OPERATIONS * (STATES - 1)];
    uint8_t kept = *next;
    *next = 0;
    command(&by_window, 0, BEGIN_COMMAND, where);
    WATCHED(BEGIN, where, drive_begin, file, file_length, lent.row, tasks, 0, 0);
    WATCHED(BEGIN_RECORD, where, drive_begin_record, file, file_length, tasks, 0, 0, &own);
    *next = kept;
}

/* A line that is up, of the last task. */
static void line_call(size_t tasks) {
    uint8_t windows[DRIVE_MOST_TASKS * DRIVE_WINDOW_BYTES] = {0};
    size_t length = tasks * DRIVE_WINDOW_BYTES;
    windows[length - DRIVE_WINDOW_BYTES + INTERRUPT_BYTE] = 1;
    WATCHED(WINDOW_LINE, "a line that is up", drive_window_line, windows, length, tasks, tasks - 1);
}

/* All states of the largest table can be reached, so its file is the longest. */
static void table_calls(void) {
    static uint8_t room[DRIVE_LONGEST_CANONICAL];
    const char *where = "the largest table";
    WATCHED(CHECK, where, drive_check, file, file_length);
    WATCHED(CANONICAL, where, drive_canonical, file, file_length, room, sizeof room);
}

/* Has all operations of a state lead to one state, but for the last. */
static void lead(uint8_t *table, unsigned state, uint8_t to, uint8_t by_last) {
    uint8_t *entries = table + TEXT + 2 * OPERATIONS * state;
    for (size_t operation = 0; operation < OPERATIONS; operation++) {
        entries[2 * operation] = operation + 1 < OPERATIONS ? to : by_last;
    }
}

/* A turn of ours is judged after all operations if it is lost or won by the last alone, one of theirs if it is won or
 * lost by the last alone. */
static void force_call(void) {
    static uint8_t game[DRIVE_LONGEST_FILE];
    static uint8_t targets[STATES] = {[TARGET] = 1};
    memcpy(game, file, file_length);
    lead(game, OURS_4_LOST, THEIRS_3_LOST, THEIRS_3_LOST);
    lead(game, THEIRS_3_LOST, OURS_2_WON, OURS_2_LOST);
    lead(game, OURS_2_LOST, THEIRS_1_LOST, THEIRS_1_LOST);
    lead(game, OURS_2_WON, THEIRS_1_LOST, THEIRS_1_WON);
    lead(game, THEIRS_1_LOST, TARGET, NO_TARGET);
    lead(game, THEIRS_1_WON, TARGET, TARGET);
    WATCHED(FORCE, "a game of 4 moves in which every turn tries all operations", drive_force, game, file_length,
            OURS_4_LOST, targets, STATES, DRIVE_MOST_MOVES);
}

/* The longest lists, asked for an owner of their end and of what lies past it. */
static void desk_calls(void) {
    static uint32_t rings[2 * DRIVE_MOST_RINGS];
    static uint8_t room[DRIVE_LONGEST_FILE];
    size_t words = sizeof rings / sizeof *rings;
    for (uint32_t kind = 0; kind <= 1; kind++) {
        for (size_t ring = 0; ring < DRIVE_MOST_RINGS; ring++) {
            rings[2 * ring] = 1;
            rings[2 * ring + 1] = kind;
        }
        WATCHED(OWNER, "the end of the longest list", desk_owner, rings, words, DRIVE_MOST_RINGS);
        WATCHED(OWNER, "a chainage past the longest list", desk_owner, rings, words, DRIVE_MOST_RINGS + 1);
        WATCHED(TABLE, "the longest list", desk_table, rings, words, room, sizeof room);
    }
}

int main(void) {
    static uint8_t handlers_stack[1 << 16];
    stack_t stack = {.ss_sp = handlers_stack, .ss_size = sizeof handlers_stack};
    struct sigaction action = {.sa_sigaction = before_instruction, .sa_flags = SA_SIGINFO | SA_ONSTACK};
    sigaltstack(&stack, NULL);
    sigaction(SIGTRAP, &action, NULL);

    make_table();
    table_calls();
    force_call();
    desk_calls();
    for (size_t tasks = 1; tasks <= DRIVE_MOST_TASKS; tasks++) {
        WATCHED(CEILING, "an accepted call", drive_ceiling, tasks);
        start_and_begins(tasks);
        line_call(tasks);
        for (enum by by = BY_ROW; by < WAYS; by++) {
            random_run(by, tasks);
        }
    }
    for (enum call call = 0; call < CALLS; call++) {
        printf("%s %" PRIu64 " %" PRIu64 " %s\n", met[call].name, met[call].instructions, met[call].stack,
               met[call].where);
    }
    return EXIT_SUCCESS;
}
