/*
 * The drive object for kernels in C: a table of states and operations that up to eight tasks share through 64-bit
 * cells; the windows, eight bytes a task, through which consoles begin and step; the writer of the one file of an
 * object; the question whether the jack console can force a target state; and the ring desk, which tells what ring owns
 * a chainage and writes the table of a drive. Link with libdrive_object.a. docs/LINKING.md is the page about linking;
 * table files, cells, windows and refusals stand in docs/FORMATS.md, runs and steps in docs/RUNS.md.
 *
 * What the caller owes, at every call:
 *  - Lent memory is valid for the whole call, to its given length: `file`, `targets`, `rings` and the `windows` of
 *    drive_window_line to be read, `cells`, `row`, the one record `own`, `room` and the `windows` of drive_window to be
 *    read and written. Cells, row and record are aligned to 8 bytes, rings to 4, and all of these hold values. With
 *    length 0 a pointer may have any value; the one to a record is always valid.
 *  - What is lent to one call does not overlap, and nobody else writes it during the call, no console either.
 *  - Begin, step and drive_window are called with switching closed: one call ends before the next one starts.
 *  - Handlers that run on the caller's stack leave the 128 bytes below the stack pointer alone.
 * Within a run (an accepted start and the begins, steps and window calls after it) nothing but the calls writes cells,
 * row or table, and every call is lent the same ones. A kernel may instead keep each record with its task: it takes
 * them out of the row after start, and makes every call for a task with the task's record and the row's number of
 * records. drive_window takes the record from the row. A console may write its bytes of its window between calls.
 * Nothing is asked of task, operation, state, moves, chainage, any length or the bytes of a window or of targets: a call
 * that can't be served is refused. A call keeps no pointer and allocates nothing; start, begin (also of one record, and by
 * a window) and drive_canonical call memset, and no call anything else.
 *
 * Every call answers with one word, which the drive_answer functions below read. Byte 0, the lowest, is 0 if the call
 * is accepted, else the number of the first cause that holds; then everything lent is left as it was, with one
 * exception: a refused command writes bytes 1, 2, 4 and 5 of its window. Bits 2 to 7 of byte 1 of the word are
 * reserved, and no reader looks at them.
 */
#ifndef DRIVE_OBJECT_H
#define DRIVE_OBJECT_H

#include <stdbool.h>
#include <stddef.h>
#include <stdint.h>

#ifdef __cplusplus
extern "C" {
#endif

/* The most tasks of a run. It has one cell more than tasks: cell 0 is the head, cell i + 1 the announcement of
 * task i. */
#define DRIVE_MOST_TASKS 8

/* The longest table file in bytes. */
#define DRIVE_LONGEST_FILE 20496

/* The longest file in bytes that drive_canonical writes, that of 256 states and 32 operations. */
#define DRIVE_LONGEST_CANONICAL 16400

/* The most moves that drive_force is asked for, those of both sides together. */
#define DRIVE_MOST_MOVES 4

/* The most rings of a list, and how many words each has: its length and its kind, one of the two below. */
#define DRIVE_MOST_RINGS 255
#define DRIVE_RING_WORDS 2
#define DRIVE_ORDINARY 0
#define DRIVE_KEY 1

/* The longest table file of a drive in bytes, that of 255 rings. */
#define DRIVE_LONGEST_RING_TABLE 1552

/*
 * The bytes of a window. The windows of all tasks are lent as one: that of task t begins at byte 8 x t. A console writes
 * bytes 0, 1 and 6 of its own window, and drive_window bytes 1 to 5.
 *
 *     byte  name       holds
 *     0     operation  the operation that a begin command begins
 *     1     command    1 begin, 2 step, 3 acknowledge, 0 nothing; drive_window takes a command once, and leaves 0
 *     2     status     bit 0, busy: from an accepted begin command to the step command that ends the operation
 *                      bit 1, done: from such a step command to the acknowledge
 *                      bit 2, refused: from a refused command to the acknowledge
 *                      bit 3, moved: whether the last operation that was ended so moved the state
 *     3     response   the response of that operation
 *     4     refusal    the number of the last refused command, 0 before the first
 *     5     interrupt  bit 0 is 1 while an interrupt waits: from done or refused to the acknowledge
 *     6     mask       bit 0 is 1 to mask the interrupt, and changes nothing but the line
 *     7                nothing; it is never written
 *
 * Bits 4 to 7 of status and 1 to 7 of interrupt have no name and stay as they are; those of mask don't count.
 */
#define DRIVE_WINDOW_BYTES 8

/* Why a call is not served; docs/FORMATS.md, "When a call is not served". 13 is the bench's own. */
enum drive_refusal {
    DRIVE_FILE = 1,            /* file under 16 or over 20,496 bytes, or mark wrong */
    DRIVE_DIMENSIONS = 2,      /* states or operations out of range, or start state not below states */
    DRIVE_LENGTH = 3,          /* offset over 4,096, or text, entries and trailer do not make up the length */
    DRIVE_NEXT_STATE = 4,      /* next state not below states, in the entries tested */
    DRIVE_ROW = 5,             /* row of 0 or over 8 records */
    DRIVE_CELLS = 6,           /* cells not one more than records */
    DRIVE_TASK = 7,            /* task number not below the number of records */
    DRIVE_OPERATION = 8,       /* operation not below operations */
    DRIVE_PENDING = 9,         /* begin with an operation pending */
    DRIVE_IDLE = 10,           /* step with none pending */
    DRIVE_RECORD = 11,         /* record out of the forms in docs/RECORDS.md */
    DRIVE_CELL = 12,           /* touched cell out of form, such as a head whose holder is above n */
    DRIVE_RINGS = 14,          /* list not of 1 to 255 whole rings, or a length or kind out of range */
    DRIVE_CHAINAGE = 15,       /* chainage that no ring owns */
    DRIVE_ROOM = 16,           /* lent room shorter than what is to be written */
    DRIVE_UNACKNOWLEDGED = 17, /* the window's command is a begin, and done is not acknowledged */
    DRIVE_WINDOW = 18,         /* the window's command is not 0 to 3, or the windows are not 8 bytes for each task */
    DRIVE_QUESTION = 19        /* moves not 1 to 4, state not below states, or targets not a byte, 0 or 1, for each state */
};

/* The private record of a task, whose number is its place in the row. Start fills it; only the calls write it. The
 * forms stand in docs/RECORDS.md. */
typedef struct drive_task {
    uint64_t head;         /* a saved head */
    uint64_t announcement; /* a saved announcement */
    uint32_t payload;      /* an operation that is to be applied, or the own response and whether the state moved */
    uint32_t steps;        /* the own steps since begin */
    uint16_t operation;    /* the own operation */
    uint16_t priority;     /* the task that is helped first */
    uint32_t phase;        /* what the next step does; 0 is idle */
} drive_task;

#ifdef __cplusplus
static_assert(sizeof(drive_task) == 32, "a record has 32 bytes");
#else
_Static_assert(sizeof(drive_task) == 32, "a record has 32 bytes");
#endif

/*
 * Checks a table. Tests 1, 2, 3, then 4 on all entries.
 * Writes nothing. Answers states, operations and start state. Its cost grows with states times operations.
 */
uint64_t drive_check(const uint8_t *file, size_t file_length);

/*
 * Writes the one file of the table's object. Tests 1, 2, 3, then 4 on all entries, also those of states that can't be
 * reached, then 16. The states that can be reached from the start state are numbered in the order of first meeting: the
 * start state is 0, states are taken in their new order, operations from 0 up; the others are dropped. The file has the
 * start state 0, no text, and 2 bytes for each of its states and operations and 16 more. Two tables give equal files
 * exactly if their states that can be reached become the same by renumbering, start to start, with equally many operations
 * and equal responses. The file is written at the beginning of the room, which may hold anything before; the rest of the
 * room is left as it was. Answers the length of the file in bytes, which is at most that of the table. Its cost grows
 * with states times operations.
 */
uint64_t drive_canonical(const uint8_t *file, size_t file_length, uint8_t *room, size_t room_length);

/*
 * Whether the jack console can force a target, and with which operation first. Tests 1, 2, 3, then 4 on all entries, also
 * those of states that can't be reached, then 19. From `state`, the jack console and the surface link take turns, one
 * whole operation each, the jack console first, and make at most `moves` operations, both sides together, 1 to
 * DRIVE_MOST_MOVES. `targets` has a byte for each state, 1 for a target, else 0; `target_count` is the number of its
 * bytes, which must be that of the states. The answer is yes if the jack console can choose its operations so that
 * whatever the link chooses, the state is a target at the outset or after some operation of either side. Writes nothing.
 * Answers whether that is so, whether the state is a target at the outset, so that no move is needed, and if not the
 * lowest operation that wins, which need not be the one that wins soonest. Its cost grows with states times operations
 * and with the turns that may be made: with 32 operations and 4 moves these are up to 1,082,401.
 */
uint64_t drive_force(const uint8_t *file, size_t file_length, size_t state, const uint8_t *targets, size_t target_count,
                     size_t moves);

/*
 * Starts a run. Tests 1, 2, 3, 4 on all entries, 5, 6. Writes every cell, with the image of the start state, and
 * every record, with an idle task. They may hold anything before. Its cost grows with states times operations.
 */
uint64_t drive_start(const uint8_t *file, size_t file_length, uint64_t *cells, size_t cell_count, drive_task *row,
                     size_t task_count);

/*
 * Begins an operation for a task. Tests 1, 2, 3, 5, 7, 8, then 4 on all entries, also those of other operations and of
 * states that can't be reached, then 11, 9. Writes the task's record, and leaves the row's other records and every cell.
 * Its cost grows with states times operations, and it takes over 1,400 bytes of stack: two arrays for the states that can be
 * reached.
 */
uint64_t drive_begin(const uint8_t *file, size_t file_length, drive_task *row, size_t task_count, size_t task,
                     size_t operation);

/*
 * Makes one step for a task: one read, write or compare-and-swap on one cell. Tests 1, 2, 3, 5, 6, 7, 11, 10, 12,
 * then 4 on the one entry that it uses, if it uses one. Writes the task's record and at most the one touched cell,
 * and leaves every other record and cell. Answers running, or ended with the response, whether the state moved, and
 * the number of own steps since begin, this one counted, which is at most the ceiling. Its cost is bounded for all
 * tables and numbers of tasks.
 */
uint64_t drive_step(const uint8_t *file, size_t file_length, uint64_t *cells, size_t cell_count, drive_task *row,
                    size_t task_count, size_t task);

/*
 * Begins an operation for a task whose record is lent: drive_begin for a row of task_count records that has it at the
 * task's place. The tests are the same. Writes the record.
 */
uint64_t drive_begin_record(const uint8_t *file, size_t file_length, size_t task_count, size_t task, size_t operation,
                            drive_task *own);

/*
 * Makes one step for a task whose record is lent: drive_step for a row of task_count records that has it at the task's
 * place. The tests and the answer are the same. Writes the record and at most the one touched cell.
 */
uint64_t drive_step_record(const uint8_t *file, size_t file_length, uint64_t *cells, size_t cell_count,
                           size_t task_count, size_t task, drive_task *own);

/*
 * Takes the command that stands in a task's window: it begins the operation in byte 0 for the task, makes one step for
 * it, or acknowledges. Tests 18 on the windows' length, which is DRIVE_WINDOW_BYTES for each record of the row, then 7;
 * refused by one of these no byte changes. Command 0 is accepted, nothing more is tested and nothing is written. Else
 * it tests 18 on the command, then 17 if it is a begin while done is 1; then a begin tests what drive_begin does, a step
 * what drive_step does, in their orders, and an acknowledge nothing.
 *
 * Writes cells and row as drive_begin or drive_step would, and of the windows that of the task alone:
 *  - by every command: byte 1 becomes 0;
 *  - a begin: busy 1;
 *  - a step, running: nothing else;
 *  - a step that ended the operation: busy 0, done 1, moved 0 or 1, the low byte of the response, interrupt 1;
 *  - an acknowledge: done 0, refused 0, interrupt 0;
 *  - a refused command: refused 1, its number in byte 4, interrupt 1; no cell and no record.
 * Answers nothing but the refusal. Its cost is little more than that of the call that it makes.
 *
 * A console whose window is all 0 at the start of the run, and that writes only bytes 0, 1 and 6 of it, nobody else
 * writing there or calling for its task, reads in it what drive_begin and drive_step in the same places would answer,
 * but for the count of own steps, 17 and 18. Start does not touch windows.
 */
uint64_t drive_window(const uint8_t *file, size_t file_length, uint64_t *cells, size_t cell_count, drive_task *row,
                      size_t task_count, uint8_t *windows, size_t window_length, size_t task);

/*
 * Whether the interrupt line of a task's window is up: bit 0 of byte 5 is 1, and bit 0 of byte 6 is 0. Tests 18 on the
 * windows' length, which is DRIVE_WINDOW_BYTES for each of task_count tasks, then 7. Writes nothing. Answers whether
 * the line is up.
 */
uint64_t drive_window_line(const uint8_t *windows, size_t window_length, size_t task_count, size_t task);

/*
 * The ceiling of own steps of an operation, whatever the other tasks do: 1,000 x n x n x n for n tasks, 1 to 8. Tests 5 on
 * the number of tasks. Writes nothing. Answers the ceiling.
 */
uint64_t drive_ceiling(size_t task_count);

/*
 * Which ring owns a chainage in millimetres. `rings` is a list of 1 to 255 rings in 32-bit words, two for each ring:
 * its length in millimetres, 1 to 20,000, and its kind, 0 ordinary or 1 key; `word_count` is the number of words,
 * twice that of the rings. Ring 1 begins at chainage 0, each other one at the end of the one before. An ordinary ring
 * owns its start and not its end, a key ring owns both; if two own the chainage, the lower number is given. Tests 14
 * on the whole list, then 15. Writes nothing. Answers the number of the ring, from 1. Its cost grows with the number
 * of rings.
 */
uint64_t desk_owner(const uint32_t *rings, size_t word_count, uint64_t chainage);

/*
 * Writes the table file of the drive with these rings, a list as for desk_owner: state k is k rings built, the start
 * state is 0; operation 0 reads, 1 builds a ring, 2 takes one out; the response is k before the operation. Tests 14 on
 * the whole list, then 16. The file has 6 bytes for each ring and 22 more. It is written at the beginning of the room,
 * which may hold anything before; the rest of the room is left as it was. Answers the length of the file in bytes. Its
 * cost grows with the number of rings.
 */
uint64_t desk_table(const uint32_t *rings, size_t word_count, uint8_t *room, size_t room_length);

/* Of any answer: 0 if the call was accepted, else the cause, one of enum drive_refusal. */
static inline unsigned drive_answer_refusal(uint64_t answer) { return (unsigned)(answer & 0xff); }

/* Of a step: whether the operation has ended. If not, and the step was accepted, it is running. */
static inline bool drive_answer_ended(uint64_t answer) { return answer >> 8 & 1; }

/* Of a step that ended an operation: the response. */
static inline uint16_t drive_answer_response(uint64_t answer) { return (uint16_t)(answer >> 16); }

/* Of a step that ended an operation: whether the state moved, which says that the entry used has a next state other than
 * its own. */
static inline bool drive_answer_moved(uint64_t answer) { return answer >> 9 & 1; }

/* Of a step that ended an operation: the own steps since begin. */
static inline uint32_t drive_answer_steps(uint64_t answer) { return (uint32_t)(answer >> 32); }

/* Of an accepted check: the number of states. */
static inline uint16_t drive_answer_states(uint64_t answer) { return (uint16_t)(answer >> 16); }

/* Of an accepted check: the number of operations. */
static inline uint16_t drive_answer_operations(uint64_t answer) { return (uint16_t)(answer >> 32); }

/* Of an accepted check: the start state. */
static inline uint16_t drive_answer_start_state(uint64_t answer) { return (uint16_t)(answer >> 48); }

/* Of an accepted question for a target: whether the jack console can force one. */
static inline bool drive_answer_forced(uint64_t answer) { return answer >> 8 & 1; }

/* Of a target that can be forced: whether the state is one at the outset, so that no move is needed. */
static inline bool drive_answer_reached(uint64_t answer) { return answer >> 9 & 1; }

/* Of a target that can be forced and is not reached at the outset: the lowest operation that wins. */
static inline uint16_t drive_answer_first_operation(uint64_t answer) { return (uint16_t)(answer >> 16); }

/* Of an accepted question for the line of a window: whether it is up. */
static inline bool drive_answer_line(uint64_t answer) { return answer >> 16 & 1; }

/* Of an accepted ceiling: the number of own steps. */
static inline uint32_t drive_answer_ceiling(uint64_t answer) { return (uint32_t)(answer >> 32); }

/* Of an accepted owner: the number of the ring, from 1. */
static inline uint16_t drive_answer_ring(uint64_t answer) { return (uint16_t)(answer >> 16); }

/* Of an accepted call that writes into a lent room: the length of what it wrote, of a file in bytes. */
static inline uint32_t drive_answer_length(uint64_t answer) { return (uint32_t)(answer >> 32); }

#ifdef __cplusplus
}
#endif

#endif
